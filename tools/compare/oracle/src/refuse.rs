//! The refusals that are 01's own, in its order, in front of the source.

use crate::call::{Action, Call, FREE_PLACES, MAX_REASON, Peer, QUEUE_PLACES};
use crate::reply::Refusal;
use crate::state::Status;

/// The refusal that a call meets before the source sees it.
///
/// The source holds no record out of range: 1 is what the call says of its own. 3 to 7 come as numbered. 14 stands behind 8 in the order, so it is given here only where the
/// source would not give 8.
pub(crate) fn before_source(call: &Call, status: Status) -> Option<Refusal> {
    let action = &call.action;
    if call.bad.is_some() {
        return Some(Refusal::BadRecord);
    }
    if needs_binding(action) && status == Status::Unbound {
        return Some(Refusal::NotBound);
    }
    if matches!(action, Action::Bind { .. }) && status != Status::Unbound {
        return Some(Refusal::AlreadyBound);
    }
    if peer_reason(action).is_some_and(|reason| reason.len() > MAX_REASON) {
        return Some(Refusal::BadMessage);
    }
    if matches!(action, Action::Retransmit { count: 0 }) {
        return Some(Refusal::ZeroCount);
    }
    if needs_room(action) && QUEUE_PLACES.saturating_sub(call.queued) < FREE_PLACES {
        return Some(Refusal::OutputFull);
    }
    local_reason(action)
        .filter(|reason| reason.len() > MAX_REASON && status == Status::Established)
        .map(|reason| Refusal::ReasonTooLong { len: reason.len(), max: MAX_REASON })
}

/// Refusal 3 applies to all calls but these.
const fn needs_binding(action: &Action) -> bool {
    !matches!(
        action,
        Action::Open(_) | Action::Bind { .. } | Action::Release | Action::TransportClosed
    )
}

/// Refusal 7 applies to bind, peer and application messages, timeout, and local calls but end.
const fn needs_room(action: &Action) -> bool {
    !matches!(action, Action::Open(_) | Action::Release | Action::End | Action::TransportClosed)
}

fn peer_reason(action: &Action) -> Option<&[u8]> {
    match action {
        Action::Peer(Peer::RetransmitReject { reason, .. } | Peer::Terminate { reason, .. }) => {
            Some(reason)
        }
        _ => None,
    }
}

fn local_reason(action: &Action) -> Option<&[u8]> {
    match action {
        Action::Terminate { reason, .. } | Action::Reject { reason, .. } => Some(reason),
        _ => None,
    }
}
