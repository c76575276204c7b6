//! What kinds of history there are, and which moves each prefers.

use super::Move;
use crate::rng::Rng;

/// A kind of history.
#[derive(Debug, Clone, Copy, PartialEq, Eq)]
pub enum Profile {
    /// Gaps, requests and replays.
    Recovering,
    /// Gap after gap until the list and the overflow runs are full, then recovery.
    Overflowing,
    /// Sends, and the peer's requests.
    Serving,
    /// FinishedSending and Terminate from both sides.
    Ending,
    /// Timeouts around each deadline.
    Timing,
    /// Sequence numbers at the end of their range.
    Counting,
    /// Anything.
    Chaos,
}

impl Profile {
    /// A kind for a new history.
    pub fn choose(rng: &mut Rng) -> Self {
        rng.weighted(&[
            (Self::Recovering, 30),
            (Self::Overflowing, 4),
            (Self::Serving, 14),
            (Self::Ending, 14),
            (Self::Timing, 14),
            (Self::Counting, 10),
            (Self::Chaos, 14),
        ])
    }

    /// How often in a hundred a value is chosen without regard to what would fit.
    pub const fn carelessness(self) -> u64 {
        match self {
            Self::Overflowing => 1,
            Self::Recovering | Self::Timing => 6,
            Self::Serving | Self::Counting => 12,
            Self::Ending => 18,
            Self::Chaos => 45,
        }
    }

    /// The moves while bound, by weight.
    pub const fn moves(self) -> &'static [(Move, u64)] {
        match self {
            Self::Recovering | Self::Overflowing | Self::Counting => RECOVERING,
            Self::Serving => SERVING,
            Self::Ending => ENDING,
            Self::Timing => TIMING,
            Self::Chaos => CHAOS,
        }
    }
}

const RECOVERING: &[(Move, u64)] = &[
    (Move::Application, 26),
    (Move::Applied, 4),
    (Move::NotApplied, 2),
    (Move::Announce, 22),
    (Move::Header, 18),
    (Move::PeerReject, 5),
    (Move::PeerRequest, 1),
    (Move::PeerTerminate, 1),
    (Move::FinishedSending, 2),
    (Move::OtherPeer, 1),
    (Move::Send, 2),
    (Move::Terminate, 1),
    (Move::Serve, 1),
    (Move::Timeout, 8),
    (Move::Bind, 1),
    (Move::Release, 3),
    (Move::TransportClosed, 1),
];

const SERVING: &[(Move, u64)] = &[
    (Move::Application, 4),
    (Move::Announce, 4),
    (Move::PeerReject, 1),
    (Move::PeerRequest, 24),
    (Move::PeerTerminate, 1),
    (Move::FinishedSending, 1),
    (Move::OtherPeer, 1),
    (Move::Send, 30),
    (Move::Terminate, 1),
    (Move::Serve, 26),
    (Move::Timeout, 4),
    (Move::Bind, 1),
    (Move::Release, 1),
    (Move::TransportClosed, 1),
];

const ENDING: &[(Move, u64)] = &[
    (Move::Application, 12),
    (Move::Applied, 3),
    (Move::NotApplied, 2),
    (Move::Announce, 12),
    (Move::Header, 10),
    (Move::PeerReject, 5),
    (Move::PeerRequest, 4),
    (Move::PeerTerminate, 8),
    (Move::FinishedSending, 14),
    (Move::OtherPeer, 1),
    (Move::Send, 5),
    (Move::Terminate, 8),
    (Move::Serve, 4),
    (Move::Timeout, 6),
    (Move::Bind, 1),
    (Move::Release, 3),
    (Move::TransportClosed, 1),
];

const TIMING: &[(Move, u64)] = &[
    (Move::Application, 14),
    (Move::Applied, 2),
    (Move::NotApplied, 1),
    (Move::Announce, 14),
    (Move::Header, 12),
    (Move::PeerReject, 2),
    (Move::PeerRequest, 2),
    (Move::PeerTerminate, 2),
    (Move::FinishedSending, 1),
    (Move::OtherPeer, 1),
    (Move::Send, 4),
    (Move::Terminate, 2),
    (Move::Serve, 2),
    (Move::Timeout, 40),
    (Move::Bind, 1),
    (Move::Release, 1),
    (Move::TransportClosed, 1),
];

const CHAOS: &[(Move, u64)] = &[
    (Move::Application, 8),
    (Move::Applied, 4),
    (Move::NotApplied, 4),
    (Move::Announce, 10),
    (Move::Header, 8),
    (Move::PeerReject, 5),
    (Move::PeerRequest, 6),
    (Move::PeerTerminate, 3),
    (Move::FinishedSending, 4),
    (Move::OtherPeer, 5),
    (Move::Send, 6),
    (Move::Terminate, 3),
    (Move::Serve, 8),
    (Move::Timeout, 6),
    (Move::Bind, 2),
    (Move::Release, 2),
    (Move::TransportClosed, 2),
];
