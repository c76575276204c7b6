//! Choice of instants: deadlines met to the nanosecond, and small steps between.

use super::values;
use crate::call::Config;
use crate::rng::Rng;
use crate::state::{Phase, Snapshot};

/// An instant for a timeout: one before, at or one after some deadline.
pub fn around_deadline(rng: &mut Rng, config: &Config, snapshot: &Snapshot, now: u64) -> u64 {
    let deadlines = deadlines(config, snapshot);
    if deadlines.is_empty() || rng.one_in(5) {
        return step(rng, now);
    }
    let deadline = rng.pick(&deadlines);
    let target = rng.pick(&[deadline.saturating_sub(1), deadline, deadline.saturating_add(1)]);
    if target < now && !rng.one_in(8) { now } else { target }
}

/// An instant for any other call: mostly the same or little later, rarely earlier.
pub fn step(rng: &mut Rng, now: u64) -> u64 {
    match rng.below(40) {
        0..=27 => now,
        28..=33 => now.saturating_add(1),
        34..=37 => now.saturating_add(rng.below(300)),
        38 => now.saturating_add(rng.below(1_000_000_000)),
        _ => now.saturating_sub(rng.below(1_000)),
    }
}

/// The last instant to use.
pub const fn last(wide: bool) -> u64 {
    if wide { u64::MAX } else { values::LAST_INSTANT }
}

/// Every deadline that a timeout looks at in this state.
fn deadlines(config: &Config, snapshot: &Snapshot) -> Vec<u64> {
    let Some(binding) = &snapshot.binding else {
        return Vec::new();
    };
    let sums = match &binding.phase {
        Phase::Established => {
            let grace = config.grace.unwrap_or(binding.remote_keepalive);
            let allowed = binding.remote_keepalive.checked_add(grace);
            let silence = allowed.and_then(|allowed| binding.last_received.checked_add(allowed));
            let heartbeat = binding.last_keepalive.checked_add(binding.local_keepalive);
            let stall = snapshot
                .session
                .outstanding
                .and_then(|request| request.last_progress.checked_add(config.timeout));
            [silence, heartbeat, stall]
        }
        Phase::Terminating { sent_at, .. } => {
            [sent_at.checked_add(binding.local_keepalive), None, None]
        }
        Phase::Closing { deadline } => [*deadline, None, None],
    };
    sums.into_iter().flatten().collect()
}
