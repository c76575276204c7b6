//! States set up at the start of a history that no call need reach: numbers at their ends, lists
//! filled, records that do not fit each other.

use super::{open, values};
use crate::call::MAX_REASON;
use crate::codes::{Flow, TerminationCode};
use crate::rng::Rng;
use crate::state::{
    BindingState, Outstanding, PeerFinished, Phase, Provider, Range, Replay, SessionState, Start,
};

/// The room for gaps and for overflow runs.
const GAPS: usize = 65;
const RUNS: usize = 256;

/// Some state.
pub fn start(rng: &mut Rng, wide: bool) -> Start {
    Start {
        config: open::sound_config(rng, wide),
        session: session(rng),
        binding: (!rng.one_in(5)).then(|| binding(rng, wide)),
        transport_closing: rng.one_in(4),
    }
}

/// The latest instant in a state, where its history goes on.
pub fn latest(start: &Start) -> u64 {
    let progress = start.session.outstanding.map_or(0, |request| request.last_progress);
    let Some(binding) = &start.binding else {
        return progress;
    };
    progress.max(binding.last_keepalive).max(binding.last_received)
}

fn session(rng: &mut Rng) -> SessionState {
    let remote = if rng.one_in(2) { Flow::Recoverable } else { rng.pick(Flow::ALL) };
    let missing = ranges(rng, GAPS);
    let outstanding = rng.one_in(2).then(|| outstanding(rng, &missing));
    let last = missing.last().map_or(1, |gap| gap.end);
    SessionState {
        id: open::id(rng),
        local: rng.pick(Flow::ALL),
        remote,
        outbound_next: number(rng),
        inbound_next: (!rng.one_in(10)).then(|| if rng.one_in(2) { last } else { number(rng) }),
        start_pending: rng.one_in(6),
        overflow_received: ranges(rng, RUNS),
        replay: rng.one_in(3).then(|| replay(rng, outstanding)),
        missing,
        outstanding,
        awaiting_resume: rng.one_in(3),
        provider: rng.one_in(3).then(|| provider(rng)),
        peer_finished: rng.one_in(4).then(|| PeerFinished {
            receiving_sent: rng.one_in(3),
            end: (!rng.one_in(4)).then(|| number(rng)),
        }),
        finalized: rng.one_in(8),
    }
}

/// A number, mostly at an end of its range.
fn number(rng: &mut Rng) -> u64 {
    match rng.below(4) {
        0 => 1 + rng.below(20),
        1 => u64::MAX - rng.below(5),
        2 => rng.pick(&[0, 1, 11, (1 << 32) - 1, 1 << 32, 1 << 63]),
        _ => rng.any(),
    }
}

/// Ranges, mostly ascending and apart, rarely in any order or empty.
fn ranges(rng: &mut Rng, room: usize) -> Vec<Range> {
    let count = rng.weighted(&[(0, 10), (1, 10), (2, 10), (5, 5), (room - 1, 2), (room, 2)]);
    if rng.one_in(8) {
        return (0..count).map(|_| Range { from: number(rng), end: number(rng) }).collect();
    }
    let mut place = rng.pick(&[1, 1, 1, 100, u64::MAX - 1_600]);
    let mut ranges = Vec::with_capacity(count);
    for _ in 0..count {
        let from = place.saturating_add(1 + rng.below(3));
        let end = from.saturating_add(1 + rng.below(3));
        ranges.push(Range { from, end });
        place = end;
    }
    ranges
}

fn outstanding(rng: &mut Rng, missing: &[Range]) -> Outstanding {
    let gap = missing.first().copied().unwrap_or(Range { from: 1, end: 4 });
    let length = u32::try_from(gap.end.saturating_sub(gap.from)).unwrap_or(u32::MAX);
    let odd = rng.one_in(6);
    let count = if odd { values::odd_count(rng, length) } else { length.max(1) };
    let delivered = if odd { values::odd_count(rng, count) } else { rng.pick(&[0, count - 1]) };
    Outstanding {
        stamp: rng.below(100),
        from: if odd { number(rng) } else { gap.from },
        count,
        delivered,
        last_progress: rng.below(1_000),
        interrupted: rng.one_in(2),
        batch_complete: rng.one_in(2),
        stall_reported: rng.one_in(3),
    }
}

fn replay(rng: &mut Rng, outstanding: Option<Outstanding>) -> Replay {
    match outstanding {
        Some(request) if !rng.one_in(6) => Replay {
            next: request.from.saturating_add(u64::from(request.delivered)),
            remaining: request.count.saturating_sub(request.delivered).max(1),
        },
        _ => Replay { next: number(rng), remaining: values::odd_count(rng, 3).max(1) },
    }
}

fn provider(rng: &mut Rng) -> Provider {
    let count = values::odd_count(rng, 10);
    Provider {
        stamp: rng.any(),
        from: number(rng),
        count,
        sent: if rng.one_in(3) { values::odd_count(rng, count) } else { count.saturating_sub(2) },
    }
}

fn binding(rng: &mut Rng, wide: bool) -> BindingState {
    let phase = match rng.below(8) {
        0 => Phase::Closing { deadline: rng.one_in(2).then(|| rng.below(2_000)) },
        1 => Phase::Terminating {
            sent_at: rng.below(1_000),
            code: rng.pick(TerminationCode::ALL),
            reason: reason(rng),
        },
        _ => Phase::Established,
    };
    BindingState {
        phase,
        local_keepalive: values::duration(rng, wide),
        remote_keepalive: values::duration(rng, wide),
        last_keepalive: rng.below(1_000),
        last_received: rng.below(1_000),
        in_sequence: rng.one_in(2),
    }
}

fn reason(rng: &mut Rng) -> Vec<u8> {
    let mut reason = values::reason(rng);
    reason.truncate(MAX_REASON);
    reason
}
