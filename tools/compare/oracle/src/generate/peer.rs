//! The peer's messages, made to fit the state or to miss it narrowly.

use super::values;
use crate::call::{Action, Config, Peer};
use crate::rng::Rng;
use crate::state::SessionState;

/// A Sequence or a Context.
pub fn announce(rng: &mut Rng, next: u64, session: &SessionState, careless: bool) -> Action {
    Action::Peer(if rng.percent(70) {
        Peer::Sequence { next }
    } else {
        let id =
            if careless && rng.one_in(4) { values::foreign(rng, session.id) } else { session.id };
        Peer::Context { id, next }
    })
}

/// A Retransmission header for the outstanding request.
pub fn header(rng: &mut Rng, session: &SessionState, careless: bool) -> Action {
    let request = session.outstanding;
    let mut id = session.id;
    let mut stamp = request.map_or(0, |request| request.stamp);
    let mut next =
        request.map_or(1, |request| request.from.saturating_add(u64::from(request.delivered)));
    let left = request.map_or(1, |request| request.count.saturating_sub(request.delivered));
    let mut count = if rng.percent(50) { left } else { left.min(rng.pick(&[1, 2, 3, 7])) };
    if careless {
        match rng.below(4) {
            0 => id = values::foreign(rng, id),
            1 => stamp = stamp.wrapping_add(rng.pick(&[1, u64::MAX])),
            2 => next = next.wrapping_add(rng.pick(&[1, u64::MAX])),
            _ => count = values::odd_count(rng, left),
        }
    }
    Action::Peer(Peer::Retransmission { id, stamp, next, count })
}

/// A RetransmitReject of the outstanding request.
pub fn reject(rng: &mut Rng, session: &SessionState, careless: bool) -> Action {
    let mut id = session.id;
    let mut stamp = session.outstanding.map_or(0, |request| request.stamp);
    if careless {
        if rng.one_in(2) {
            id = values::foreign(rng, id);
        } else {
            stamp = stamp.wrapping_add(1);
        }
    }
    Action::Peer(Peer::RetransmitReject {
        id,
        stamp,
        code: values::rejection(rng),
        reason: values::reason(rng),
    })
}

/// A RetransmitRequest for what was sent.
pub fn request(rng: &mut Rng, config: &Config, session: &SessionState, careless: bool) -> Action {
    let mut id = session.id;
    let sent = session.outbound_next.saturating_sub(1).max(1);
    let most = u64::from(config.max_retransmit_count).min(sent);
    let mut count = u32::try_from(1 + rng.below(most)).expect("at most max_retransmit_count");
    let mut from = 1 + rng.below(sent - u64::from(count) + 1);
    if careless {
        match rng.below(8) {
            0 => id = values::foreign(rng, id),
            1 => count = 0,
            2 => count = config.max_retransmit_count.saturating_add(1),
            3 => from = 0,
            4 => from = session.outbound_next.saturating_sub(u64::from(count)).saturating_add(1),
            5 => from = session.outbound_next,
            6 => from = rng.pick(&[u64::MAX, u64::MAX - u64::from(count)]),
            _ => count = values::odd_count(rng, config.max_retransmit_count),
        }
    }
    Action::Peer(Peer::RetransmitRequest { id, stamp: rng.any(), from, count })
}

/// A Terminate.
pub fn terminate(rng: &mut Rng, session: &SessionState, careless: bool) -> Action {
    let id = if careless { values::foreign(rng, session.id) } else { session.id };
    Action::Peer(Peer::Terminate {
        id,
        code: values::termination(rng),
        reason: values::reason(rng),
    })
}

/// A FinishedSending.
pub fn finished(rng: &mut Rng, config: &Config, session: &SessionState, careless: bool) -> Action {
    let mut id = session.id;
    let likely = values::likely_next(rng, config, session).saturating_sub(1);
    let mut last = session.remote.is_sequenced().then_some(likely);
    if careless {
        match rng.below(5) {
            0 => id = values::foreign(rng, id),
            1 => last = None,
            2 => last = Some(u64::MAX),
            _ => last = Some(values::odd_next(rng, config, session)),
        }
    }
    Action::Peer(Peer::FinishedSending { id, last })
}

/// An Applied or NotApplied.
pub fn applied(rng: &mut Rng, not: bool) -> Action {
    let from = rng.pick(&[0, 1, 17, u64::MAX]);
    let count = values::odd_count(rng, 3);
    Action::Peer(if not { Peer::NotApplied { from, count } } else { Peer::Applied { from, count } })
}

/// A message with hardly anything in it.
pub fn other(rng: &mut Rng, session: &SessionState) -> Action {
    Action::Peer(match rng.below(5) {
        0 => Peer::Topic,
        1 => Peer::FinishedReceiving { id: session.id },
        2 => Peer::UnsequencedHeartbeat,
        _ => Peer::MessageTemplate,
    })
}
