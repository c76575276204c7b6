//! One call of a history: 01's trace records, and what a call takes beside them.

use crate::codes::{Flow, Policy, RejectCode, TerminationCode};

/// A session identifier.
pub type Id = [u8; 16];

/// The stamp that means the clock is out of range.
pub const NO_STAMP: u64 = u64::MAX;

/// The longest reason, in bytes.
pub const MAX_REASON: usize = 64;

/// The places of the output queue.
pub const QUEUE_PLACES: u8 = 32;
/// The free places that refusal 7 asks for.
pub const FREE_PLACES: u8 = 6;

/// What a new session is configured with; durations in nanoseconds.
#[derive(Debug, Clone, Copy, PartialEq, Eq)]
pub struct Config {
    pub max_gap_len: u64,
    pub max_retransmit_count: u32,
    pub max_pending_gaps: u16,
    pub timeout: u64,
    pub grace: Option<u64>,
    pub policy: Policy,
}

impl Config {
    /// Whether refusal 2 does not apply.
    pub const fn in_range(&self) -> bool {
        self.max_gap_len != 0
            && self.max_retransmit_count != 0
            && self.max_pending_gaps != 0
            && self.max_pending_gaps <= 64
    }
}

/// The body of an open record.
#[derive(Debug, Clone, Copy, PartialEq, Eq)]
pub struct Open {
    pub id: Id,
    pub local: Flow,
    pub remote: Flow,
    pub config: Config,
}

/// A message of the peer.
#[derive(Debug, Clone, PartialEq, Eq)]
pub enum Peer {
    Sequence { next: u64 },
    Context { id: Id, next: u64 },
    UnsequencedHeartbeat,
    RetransmitRequest { id: Id, stamp: u64, from: u64, count: u32 },
    Retransmission { id: Id, stamp: u64, next: u64, count: u32 },
    RetransmitReject { id: Id, stamp: u64, code: RejectCode, reason: Vec<u8> },
    Terminate { id: Id, code: TerminationCode, reason: Vec<u8> },
    FinishedSending { id: Id, last: Option<u64> },
    FinishedReceiving { id: Id },
    Applied { from: u64, count: u32 },
    NotApplied { from: u64, count: u32 },
    Topic,
    MessageTemplate,
}

/// What a call does.
#[derive(Debug, Clone, PartialEq, Eq)]
pub enum Action {
    Open(Open),
    Bind {
        local_keepalive: u64,
        remote_keepalive: u64,
        next: Option<u64>,
    },
    Release,
    Application,
    Peer(Peer),
    Send,
    Terminate {
        code: TerminationCode,
        reason: Vec<u8>,
    },
    Retransmit {
        count: u32,
    },
    Reject {
        code: RejectCode,
        reason: Vec<u8>,
    },
    End,
    Timeout,
    /// The host reports the transport closed; no trace record stands for it.
    TransportClosed,
}

/// One call, with the instant and the request stamp handed in.
#[derive(Debug, Clone, PartialEq, Eq)]
pub struct Call {
    /// Nanoseconds.
    pub now: u64,
    /// The stamp for a request, or [`NO_STAMP`].
    pub stamp: u64,
    /// Outputs taken to be in the queue already; they are gone again after the call.
    pub queued: u8,
    /// What of the record is taken to be out of range in this call alone.
    pub bad: Option<Bad>,
    pub action: Action,
}

/// A part of a record that is out of range: 01's refusal 1. The last four are numbers outside their lists, which only
/// the port's plain records can hold.
#[derive(Debug, Clone, Copy, PartialEq, Eq)]
pub enum Bad {
    MaxGapLen,
    MaxRetransmitCount,
    NoPendingGaps,
    ManyPendingGaps,
    GapCount,
    GapHead,
    RunCount,
    RunHead,
    OutputCount,
    OutputHead,
    ReasonLength,
    OutputReason,
    Flow,
    Policy,
    Phase,
    OutputKind,
}

impl Bad {
    /// Every way.
    pub const ALL: [Self; 16] = [
        Self::MaxGapLen,
        Self::MaxRetransmitCount,
        Self::NoPendingGaps,
        Self::ManyPendingGaps,
        Self::GapCount,
        Self::GapHead,
        Self::RunCount,
        Self::RunHead,
        Self::OutputCount,
        Self::OutputHead,
        Self::ReasonLength,
        Self::OutputReason,
        Self::Flow,
        Self::Policy,
        Self::Phase,
        Self::OutputKind,
    ];
}

impl Action {
    /// The names of all kinds of call.
    pub const KINDS: [&'static str; 24] = [
        "open",
        "bind",
        "release",
        "application",
        "Sequence",
        "Context",
        "UnsequencedHeartbeat",
        "RetransmitRequest",
        "Retransmission",
        "RetransmitReject",
        "Terminate",
        "FinishedSending",
        "FinishedReceiving",
        "Applied",
        "NotApplied",
        "Topic",
        "MessageTemplate",
        "send",
        "terminate",
        "retransmit",
        "reject",
        "end",
        "timeout",
        "transport_closed",
    ];

    /// The name of this kind of call, one of [`Action::KINDS`].
    pub const fn kind(&self) -> &'static str {
        match self {
            Self::Open(_) => "open",
            Self::Bind { .. } => "bind",
            Self::Release => "release",
            Self::Application => "application",
            Self::Peer(peer) => peer.kind(),
            Self::Send => "send",
            Self::Terminate { .. } => "terminate",
            Self::Retransmit { .. } => "retransmit",
            Self::Reject { .. } => "reject",
            Self::End => "end",
            Self::Timeout => "timeout",
            Self::TransportClosed => "transport_closed",
        }
    }
}

impl Peer {
    /// The name of this kind of message.
    pub const fn kind(&self) -> &'static str {
        match self {
            Self::Sequence { .. } => "Sequence",
            Self::Context { .. } => "Context",
            Self::UnsequencedHeartbeat => "UnsequencedHeartbeat",
            Self::RetransmitRequest { .. } => "RetransmitRequest",
            Self::Retransmission { .. } => "Retransmission",
            Self::RetransmitReject { .. } => "RetransmitReject",
            Self::Terminate { .. } => "Terminate",
            Self::FinishedSending { .. } => "FinishedSending",
            Self::FinishedReceiving { .. } => "FinishedReceiving",
            Self::Applied { .. } => "Applied",
            Self::NotApplied { .. } => "NotApplied",
            Self::Topic => "Topic",
            Self::MessageTemplate => "MessageTemplate",
        }
    }
}
