//! Choice of flows and configuration.

use super::profile::Profile;
use super::values;
use crate::call::{Config, Id, Open};
use crate::codes::{Flow, Policy};
use crate::rng::Rng;

/// The body of an open record.
pub fn open(rng: &mut Rng, profile: Profile, wide: bool) -> Open {
    Open {
        id: id(rng),
        local: flow(rng, profile == Profile::Serving),
        remote: flow(
            rng,
            matches!(profile, Profile::Recovering | Profile::Overflowing | Profile::Timing),
        ),
        config: config(rng, profile, wide),
    }
}

/// Any identifier, the nil one too.
pub fn id(rng: &mut Rng) -> Id {
    if rng.one_in(32) {
        return [0; 16];
    }
    let mut id = [0; 16];
    id[..8].copy_from_slice(&rng.any().to_le_bytes());
    id[8..].copy_from_slice(&rng.any().to_le_bytes());
    id
}

fn flow(rng: &mut Rng, prefer_recoverable: bool) -> Flow {
    if prefer_recoverable && !rng.one_in(10) { Flow::Recoverable } else { rng.pick(Flow::ALL) }
}

/// A configuration, now and then one that is refused.
fn config(rng: &mut Rng, profile: Profile, wide: bool) -> Config {
    let mut config = sound_config(rng, wide);
    if profile == Profile::Overflowing {
        config.max_pending_gaps = rng.pick(&[1, 1, 2, 3, 64]);
        config.max_gap_len = config.max_gap_len.max(2);
    }
    if rng.one_in(150) {
        match rng.below(4) {
            0 => config.max_gap_len = 0,
            1 => config.max_retransmit_count = 0,
            2 => config.max_pending_gaps = 0,
            _ => config.max_pending_gaps = rng.pick(&[65, u16::MAX]),
        }
    }
    config
}

/// A configuration in range, at its edges rather often.
pub fn sound_config(rng: &mut Rng, wide: bool) -> Config {
    Config {
        max_gap_len: rng.weighted(&[
            (1, 3),
            (2, 3),
            (3, 6),
            (10, 12),
            (1_000, 12),
            ((1 << 32) - 1, 4),
            (1 << 32, 4),
            (1 << 33, 3),
            (1 << 63, 3),
            (u64::MAX, 6),
        ]),
        max_retransmit_count: rng.weighted(&[
            (1, 6),
            (2, 8),
            (3, 8),
            (10, 8),
            (100, 8),
            (1 << 31, 3),
            (u32::MAX, 6),
        ]),
        max_pending_gaps: rng.weighted(&[(1, 8), (2, 10), (3, 8), (5, 6), (63, 2), (64, 6)]),
        timeout: values::duration(rng, wide),
        grace: rng.percent(60).then(|| values::duration(rng, wide)),
        policy: rng.pick(Policy::ALL),
    }
}
