//! Rules of 01 that the oracle itself is held to in each call.

use crate::call::{Action, Call, Peer};
use crate::reply::{Answer, Out, Reply};
use crate::state::Snapshot;

/// Panics where a reply breaks a rule.
pub fn check(call: &Call, before: Option<&Snapshot>, reply: &Reply) {
    if let Answer::Refused(refusal) = reply.answer {
        assert!(
            reply.outs.is_empty() && reply.snapshot.as_ref() == before,
            "refusal {} changed something: {call:?}",
            refusal.number()
        );
    }
    assert!(reply.outs.len() <= Out::MOST, "{} outputs: {call:?}", reply.outs.len());
    if let Action::Peer(Peer::Applied { .. } | Peer::NotApplied { .. }) = call.action {
        let accepted = matches!(reply.answer, Answer::Accept(_) | Answer::Replay(_));
        let reported =
            matches!(reply.outs.last(), Some(Out::Applied { .. } | Out::NotApplied { .. }));
        assert_eq!(accepted, reported, "the event does not follow the delivery: {call:?}");
    }
}
