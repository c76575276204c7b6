//! What a call gives back: its answer, its outputs and the state after it.

use crate::call::Id;
use crate::codes::{RejectCode, TerminationCode};
use crate::state::{Snapshot, Status};

/// The local call that refusal 8 names.
#[derive(Debug, Clone, Copy, PartialEq, Eq)]
pub enum Operation {
    Send,
    Terminate,
    Retransmit,
    Reject,
    End,
}

/// A refusal, with what it carries.
#[derive(Debug, Clone, Copy, PartialEq, Eq)]
pub enum Refusal {
    BadRecord,
    BadConfig,
    NotBound,
    AlreadyBound,
    BadMessage,
    ZeroCount,
    OutputFull,
    InvalidState { operation: Operation, status: Status },
    FinishedReceivingSent,
    FlowCarriesNoApplicationMessages,
    SequenceExhausted,
    NoRetransmissionInProgress,
    RetransmissionOverrun { count: u32, remaining: u32 },
    ReasonTooLong { len: usize, max: usize },
}

impl Refusal {
    /// The highest number.
    pub const LAST: usize = 14;

    /// 01's number.
    pub const fn number(self) -> usize {
        match self {
            Self::BadRecord => 1,
            Self::BadConfig => 2,
            Self::NotBound => 3,
            Self::AlreadyBound => 4,
            Self::BadMessage => 5,
            Self::ZeroCount => 6,
            Self::OutputFull => 7,
            Self::InvalidState { .. } => 8,
            Self::FinishedReceivingSent => 9,
            Self::FlowCarriesNoApplicationMessages => 10,
            Self::SequenceExhausted => 11,
            Self::NoRetransmissionInProgress => 12,
            Self::RetransmissionOverrun { .. } => 13,
            Self::ReasonTooLong { .. } => 14,
        }
    }
}

/// The answer of a call.
#[derive(Debug, Clone, Copy, PartialEq, Eq)]
pub enum Answer {
    Ok,
    Accept(Option<u64>),
    Replay(u64),
    Discard,
    Sent(Option<u64>),
    Batch {
        from: u64,
        count: u32,
    },
    Refused(Refusal),
    /// A later open, or a call with no session: the trace program stops here.
    Stop,
}

impl Answer {
    /// The names of all sorts of answer.
    pub const SORTS: [&'static str; 10] = [
        "ok", "accept", "accept:n", "replay:n", "discard", "sent", "sent:n", "batch", "refused",
        "stop",
    ];

    /// The name of this sort, one of [`Answer::SORTS`].
    pub const fn sort(&self) -> &'static str {
        match self {
            Self::Ok => "ok",
            Self::Accept(None) => "accept",
            Self::Accept(Some(_)) => "accept:n",
            Self::Replay(_) => "replay:n",
            Self::Discard => "discard",
            Self::Sent(None) => "sent",
            Self::Sent(Some(_)) => "sent:n",
            Self::Batch { .. } => "batch",
            Self::Refused(_) => "refused",
            Self::Stop => "stop",
        }
    }
}

/// A reason text of a message or event: our own by number, or the bytes a host gave.
#[derive(Debug, Clone, PartialEq, Eq)]
pub enum Text {
    Own(u8),
    Host(Vec<u8>),
}

/// Which side started the unbinding.
#[derive(Debug, Clone, Copy, PartialEq, Eq)]
pub enum By {
    Local,
    Peer,
}

/// The message that an Ignored or Refused event names.
#[derive(Debug, Clone, Copy, PartialEq, Eq)]
pub enum MessageName {
    Application,
    Sequence,
    Context,
    UnsequencedHeartbeat,
    RetransmitRequest,
    Retransmission,
    RetransmitReject,
    Terminate,
    FinishedSending,
    FinishedReceiving,
    Applied,
    NotApplied,
    Topic,
    MessageTemplate,
}

/// One output; the first eight are sent to the peer, the rest but CloseTransport are events.
#[derive(Debug, Clone, PartialEq, Eq)]
pub enum Out {
    SendSequence { next: u64 },
    SendUnsequencedHeartbeat,
    SendRetransmitRequest { id: Id, stamp: u64, from: u64, count: u32 },
    SendRetransmission { id: Id, stamp: u64, next: u64, count: u32 },
    SendRetransmitReject { id: Id, stamp: u64, code: RejectCode, reason: Text },
    SendTerminate { id: Id, code: TerminationCode, reason: Text },
    SendFinishedReceiving { id: Id },
    SendNotApplied { seq: Option<u64>, from: u64, count: u32 },
    CloseTransport,
    SequenceGap { from: u64, count: u64 },
    RecoveryComplete,
    RetransmitRequested { from: u64, count: u32 },
    RetransmitRejected { from: u64, count: u32, code: RejectCode, reason: Vec<u8> },
    RetransmitTimedOut { from: u64, count: u32 },
    NotApplied { from: u64, count: u32 },
    Applied { from: u64, count: u32 },
    Terminated { code: TerminationCode, reason: Text, by: By },
    KeepaliveLapsed,
    ProtocolViolation { reason: u8 },
    PeerFinishedSending { last: Option<u64> },
    Ignored { message: MessageName, reason: u8 },
    Refused { message: MessageName, reason: u8 },
}

impl Out {
    /// The most outputs of one call.
    pub const MOST: usize = 6;

    /// The names of all kinds of output.
    pub const KINDS: [&'static str; 22] = [
        "SendSequence",
        "SendUnsequencedHeartbeat",
        "SendRetransmitRequest",
        "SendRetransmission",
        "SendRetransmitReject",
        "SendTerminate",
        "SendFinishedReceiving",
        "SendNotApplied",
        "CloseTransport",
        "SequenceGap",
        "RecoveryComplete",
        "RetransmitRequested",
        "RetransmitRejected",
        "RetransmitTimedOut",
        "NotApplied",
        "Applied",
        "Terminated",
        "KeepaliveLapsed",
        "ProtocolViolation",
        "PeerFinishedSending",
        "Ignored",
        "Refused",
    ];

    /// The name of this kind, one of [`Out::KINDS`].
    pub const fn kind(&self) -> &'static str {
        match self {
            Self::SendSequence { .. } => "SendSequence",
            Self::SendUnsequencedHeartbeat => "SendUnsequencedHeartbeat",
            Self::SendRetransmitRequest { .. } => "SendRetransmitRequest",
            Self::SendRetransmission { .. } => "SendRetransmission",
            Self::SendRetransmitReject { .. } => "SendRetransmitReject",
            Self::SendTerminate { .. } => "SendTerminate",
            Self::SendFinishedReceiving { .. } => "SendFinishedReceiving",
            Self::SendNotApplied { .. } => "SendNotApplied",
            Self::CloseTransport => "CloseTransport",
            Self::SequenceGap { .. } => "SequenceGap",
            Self::RecoveryComplete => "RecoveryComplete",
            Self::RetransmitRequested { .. } => "RetransmitRequested",
            Self::RetransmitRejected { .. } => "RetransmitRejected",
            Self::RetransmitTimedOut { .. } => "RetransmitTimedOut",
            Self::NotApplied { .. } => "NotApplied",
            Self::Applied { .. } => "Applied",
            Self::Terminated { .. } => "Terminated",
            Self::KeepaliveLapsed => "KeepaliveLapsed",
            Self::ProtocolViolation { .. } => "ProtocolViolation",
            Self::PeerFinishedSending { .. } => "PeerFinishedSending",
            Self::Ignored { .. } => "Ignored",
            Self::Refused { .. } => "Refused",
        }
    }

    /// The number of our own reason in it, if it has one.
    pub const fn reason(&self) -> Option<u8> {
        match self {
            Self::ProtocolViolation { reason }
            | Self::Ignored { reason, .. }
            | Self::Refused { reason, .. }
            | Self::SendTerminate { reason: Text::Own(reason), .. }
            | Self::SendRetransmitReject { reason: Text::Own(reason), .. }
            | Self::Terminated { reason: Text::Own(reason), .. } => Some(*reason),
            _ => None,
        }
    }
}

/// All that a call gives back.
#[derive(Debug, Clone, PartialEq, Eq)]
pub struct Reply {
    pub answer: Answer,
    pub outs: Vec<Out>,
    /// The state after the call; none without a session.
    pub snapshot: Option<Snapshot>,
}
