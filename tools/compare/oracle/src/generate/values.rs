//! Choice of single values: numbers, durations, codes, reasons, identifiers.

use crate::call::{Config, Id};
use crate::codes::{RejectCode, TerminationCode};
use crate::rng::Rng;
use crate::state::SessionState;

/// 2^32, where counts end.
const COUNTS: u64 = 1 << 32;

/// The longest duration and the last instant of the domain of demand 2.
pub const LAST_DURATION: u64 = 1 << 61;
/// The last instant of the domain of demand 2.
pub const LAST_INSTANT: u64 = 1 << 62;

/// An identifier other than this one, mostly by one bit.
pub fn foreign(rng: &mut Rng, id: Id) -> Id {
    let mut other = id;
    other[rng.place(id.len())] ^= 1 << rng.below(8);
    other
}

/// A duration in nanoseconds.
pub fn duration(rng: &mut Rng, wide: bool) -> u64 {
    if wide && rng.one_in(3) {
        return rng.pick(&[1 << 63, u64::MAX - 1, u64::MAX, LAST_INSTANT]);
    }
    rng.weighted(&[
        (0, 4),
        (1, 6),
        (10, 10),
        (1_000, 30),
        (1_000_000_000, 30),
        (LAST_DURATION - 1, 5),
        (LAST_DURATION, 8),
    ])
}

/// The first number a peer announces.
pub fn first_number(rng: &mut Rng, near_the_end: bool) -> u64 {
    if near_the_end || rng.one_in(16) {
        return u64::MAX - rng.pick(&[0, 1, 2, 3, 5, 10, 40, 300]);
    }
    rng.weighted(&[(1, 20), (2, 5), (5, 3), (100, 3), (COUNTS - 2, 1), (1 << 63, 1)])
}

/// A number that a truthful peer might announce.
pub fn likely_next(rng: &mut Rng, config: &Config, session: &SessionState) -> u64 {
    let expected = session.inbound_next.unwrap_or(1);
    let end = session.peer_finished.and_then(|finished| finished.end).unwrap_or(u64::MAX);
    let skipped = match rng.below(12) {
        0..=5 => 0,
        6..=9 => 1 + rng.below(3).min(config.max_gap_len - 1),
        10 => config.max_gap_len,
        _ => 1 + rng.below(config.max_gap_len.min(1_000)),
    };
    expected.saturating_add(skipped).min(end)
}

/// An announced number at some edge.
pub fn odd_next(rng: &mut Rng, config: &Config, session: &SessionState) -> u64 {
    let expected = session.inbound_next.unwrap_or(1);
    let end = session.peer_finished.and_then(|finished| finished.end).unwrap_or(expected);
    let edges = [
        0,
        1,
        u64::MAX,
        u64::MAX - 1,
        rng.any(),
        expected.saturating_sub(1),
        expected.saturating_sub(2),
        expected.saturating_add(config.max_gap_len).saturating_add(1),
        expected.saturating_add(config.max_gap_len),
        expected.saturating_add(COUNTS - 1),
        expected.saturating_add(COUNTS),
        expected.saturating_add(COUNTS + 1),
        end.saturating_sub(1),
        end,
        end.saturating_add(1),
        session.missing.first().map_or(2, |gap| gap.from),
        session.missing.last().map_or(3, |gap| gap.end),
    ];
    rng.pick(&edges)
}

/// A count at some edge.
pub fn odd_count(rng: &mut Rng, around: u32) -> u32 {
    let edges =
        [0, 1, around.saturating_sub(1), around, around.saturating_add(1), u32::MAX - 1, u32::MAX];
    rng.pick(&edges)
}

/// A code of a Terminate, mostly Finished.
pub fn termination(rng: &mut Rng) -> TerminationCode {
    if rng.percent(60) { TerminationCode::Finished } else { rng.pick(TerminationCode::ALL) }
}

/// A code of a RetransmitReject.
pub fn rejection(rng: &mut Rng) -> RejectCode {
    rng.pick(RejectCode::ALL)
}

/// A host's reason: any bytes, often around the limit of 64.
pub fn reason(rng: &mut Rng) -> Vec<u8> {
    let length = rng.weighted(&[(0, 40), (1, 10), (12, 20), (63, 6), (64, 10), (65, 6), (300, 1)]);
    (0..length).map(|_| rng.any().to_le_bytes()[0]).collect()
}
