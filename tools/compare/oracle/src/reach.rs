//! Named places that a run must reach, beside kinds, answers, refusals, reasons and outputs.

use crate::call::{Action, Call, Config, Peer};
use crate::codes::Policy;
use crate::reply::{Answer, Out, Reply};
use crate::state::Snapshot;

/// The reason of gaps too many.
const TOO_MANY_GAPS: u8 = 18;

/// One call, and what stood around it.
pub struct Seen<'a> {
    pub call: &'a Call,
    pub before: Option<&'a Snapshot>,
    pub reply: &'a Reply,
    /// The configuration of a history that begins here.
    pub config: Option<Config>,
    /// The session has been bound in this history.
    pub bound_before: bool,
}

/// A test of a call.
type Test = fn(&Seen) -> bool;

/// The places, with the tests that tell them.
pub const PLACES: [(&str, Test); 34] = [
    ("policy 1", |seen| has_config(seen, |config| config.policy == Policy::Terminate)),
    ("policy 2", |seen| {
        has_config(seen, |config| config.policy == Policy::ReRequestAfterContextSwitch)
    }),
    ("policy 3", |seen| has_config(seen, |config| config.policy == Policy::ReRequestAfterBatch)),
    ("policy 4", |seen| has_config(seen, |config| config.policy == Policy::EventOnly)),
    ("max_gap_len 1", |seen| has_config(seen, |config| config.max_gap_len == 1)),
    ("max_gap_len 2^64-1", |seen| has_config(seen, |config| config.max_gap_len == u64::MAX)),
    ("max_retransmit_count 1", |seen| has_config(seen, |config| config.max_retransmit_count == 1)),
    ("max_retransmit_count 2^32-1", |seen| {
        has_config(seen, |config| config.max_retransmit_count == u32::MAX)
    }),
    ("max_pending_gaps 1", |seen| has_config(seen, |config| config.max_pending_gaps == 1)),
    ("max_pending_gaps 64", |seen| has_config(seen, |config| config.max_pending_gaps == 64)),
    ("reason of 0 bytes", |seen| reason(seen.call) == Some(0)),
    ("reason of 63 bytes", |seen| reason(seen.call) == Some(63)),
    ("reason of 64 bytes", |seen| reason(seen.call) == Some(64)),
    ("reason of 65 bytes", |seen| reason(seen.call) == Some(65)),
    ("announced 0", |seen| announced(seen.call) == Some(0)),
    ("announced 1", |seen| announced(seen.call) == Some(1)),
    ("announced 2^64-2", |seen| announced(seen.call) == Some(u64::MAX - 1)),
    ("announced 2^64-1", |seen| announced(seen.call) == Some(u64::MAX)),
    ("last 2^64-1", |seen| last(seen.call) == Some(u64::MAX)),
    ("count 0", |seen| count(seen.call) == Some(0)),
    ("count 2^32-1", |seen| count(seen.call) == Some(u32::MAX)),
    ("a gap of 2^32-1", |seen| gap(seen.reply) == Some((1 << 32) - 1)),
    ("a gap of 2^32", |seen| gap(seen.reply) == Some(1 << 32)),
    ("expects 2^64-1", |seen| expects(seen.reply) == Some(u64::MAX)),
    ("64 gaps", |seen| gaps(seen) == Some(64)),
    ("65 gaps", |seen| gaps(seen) == Some(65)),
    ("255 runs", |seen| runs(seen) == Some(255)),
    ("256 runs", |seen| runs(seen) == Some(256)),
    ("run 257 refused", |seen| {
        runs(seen) == Some(256)
            && seen.before.is_some_and(|before| before.session.overflow_received.len() == 256)
            && seen.reply.outs.iter().any(|out| out.reason() == Some(TOO_MANY_GAPS))
    }),
    ("bound again", |seen| {
        seen.bound_before
            && matches!(seen.call.action, Action::Bind { .. })
            && seen.reply.answer == Answer::Ok
    }),
    ("26 outputs queued before", |seen| seen.call.queued == 26),
    ("27 outputs queued before", |seen| seen.call.queued == 27),
    ("32 outputs queued before", |seen| seen.call.queued == 32),
    ("clock out of range", |seen| seen.call.stamp == u64::MAX),
];

/// Whether a history so configured begins here.
fn has_config(seen: &Seen, test: fn(&Config) -> bool) -> bool {
    seen.config.as_ref().is_some_and(test)
}

/// The length of the reason handed in.
fn reason(call: &Call) -> Option<usize> {
    match &call.action {
        Action::Terminate { reason, .. }
        | Action::Reject { reason, .. }
        | Action::Peer(Peer::RetransmitReject { reason, .. } | Peer::Terminate { reason, .. }) => {
            Some(reason.len())
        }
        _ => None,
    }
}

fn announced(call: &Call) -> Option<u64> {
    match call.action {
        Action::Peer(Peer::Sequence { next }) => Some(next),
        _ => None,
    }
}

fn last(call: &Call) -> Option<u64> {
    match call.action {
        Action::Peer(Peer::FinishedSending { last, .. }) => last,
        _ => None,
    }
}

fn count(call: &Call) -> Option<u32> {
    match call.action {
        Action::Retransmit { count }
        | Action::Peer(
            Peer::RetransmitRequest { count, .. }
            | Peer::Retransmission { count, .. }
            | Peer::Applied { count, .. }
            | Peer::NotApplied { count, .. },
        ) => Some(count),
        _ => None,
    }
}

fn gap(reply: &Reply) -> Option<u64> {
    reply.outs.iter().find_map(|out| match out {
        Out::SequenceGap { count, .. } => Some(*count),
        _ => None,
    })
}

fn expects(reply: &Reply) -> Option<u64> {
    reply.snapshot.as_ref().and_then(|snapshot| snapshot.session.inbound_next)
}

fn gaps(seen: &Seen) -> Option<usize> {
    seen.reply.snapshot.as_ref().map(|snapshot| snapshot.session.missing.len())
}

fn runs(seen: &Seen) -> Option<usize> {
    seen.reply.snapshot.as_ref().map(|snapshot| snapshot.session.overflow_received.len())
}
