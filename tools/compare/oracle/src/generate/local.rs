//! Our own calls.

use super::values;
use crate::call::Action;
use crate::rng::Rng;
use crate::state::SessionState;

/// A bind, mostly with the expected number or a little more.
pub fn bind(rng: &mut Rng, next: Option<u64>, wide: bool) -> Action {
    Action::Bind {
        local_keepalive: values::duration(rng, wide),
        remote_keepalive: values::duration(rng, wide),
        next,
    }
}

/// A terminate.
pub fn terminate(rng: &mut Rng) -> Action {
    Action::Terminate { code: values::termination(rng), reason: values::reason(rng) }
}

/// An answer to the request being served.
pub fn serve(rng: &mut Rng, session: &SessionState, careless: bool) -> Action {
    match rng.below(10) {
        0 => Action::Reject { code: values::rejection(rng), reason: values::reason(rng) },
        1 => Action::End,
        _ => Action::Retransmit { count: batch(rng, session, careless) },
    }
}

fn batch(rng: &mut Rng, session: &SessionState, careless: bool) -> u32 {
    let left = session.provider.map_or(1, |provider| provider.count.saturating_sub(provider.sent));
    if careless {
        return values::odd_count(rng, left);
    }
    if rng.one_in(3) { left.max(1) } else { left.clamp(1, rng.pick(&[1, 2, 5])) }
}
