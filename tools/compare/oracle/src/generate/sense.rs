//! Which moves lead nowhere in a state, so that they are not made too often.

use super::Move;
use crate::codes::Flow;
use crate::state::Snapshot;

/// Whether a move would only be a violation, ignored or refused, whatever its values.
pub fn is_pointless(choice: Move, snapshot: &Snapshot) -> bool {
    let session = &snapshot.session;
    match choice {
        Move::Application | Move::Applied => !takes_messages(snapshot),
        Move::NotApplied => session.local != Flow::Idempotent || !takes_messages(snapshot),
        Move::Announce => !session.remote.is_sequenced(),
        Move::Header | Move::PeerReject => session.outstanding.is_none(),
        Move::PeerRequest => session.local != Flow::Recoverable || session.provider.is_some(),
        Move::Send => session.local == Flow::None,
        Move::Serve => session.provider.is_none(),
        Move::FinishedSending => session.peer_finished.is_some(),
        Move::Bind => snapshot.binding.is_some(),
        Move::PeerTerminate
        | Move::OtherPeer
        | Move::Terminate
        | Move::Timeout
        | Move::Release
        | Move::TransportClosed => false,
    }
}

/// Whether an application message can be accepted.
fn takes_messages(snapshot: &Snapshot) -> bool {
    let session = &snapshot.session;
    let live = session.peer_finished.is_none()
        && session.remote != Flow::None
        && !(session.remote.is_sequenced() && session.awaiting_resume);
    session.replay.is_some() || live
}
