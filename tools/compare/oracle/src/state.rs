//! The whole state of a session and its binding, field by field; instants and durations in nanoseconds.

use crate::call::{Config, Id};
use crate::codes::{Flow, TerminationCode};

/// The numbers from `from` up to but not including `end`.
#[derive(Debug, Clone, Copy, PartialEq, Eq)]
pub struct Range {
    pub from: u64,
    pub end: u64,
}

/// Our RetransmitRequest in flight.
#[derive(Debug, Clone, Copy, PartialEq, Eq)]
pub struct Outstanding {
    pub stamp: u64,
    pub from: u64,
    pub count: u32,
    pub delivered: u32,
    pub last_progress: u64,
    pub interrupted: bool,
    pub batch_complete: bool,
    pub stall_reported: bool,
}

/// A batch being received; at least one message remains.
#[derive(Debug, Clone, Copy, PartialEq, Eq)]
pub struct Replay {
    pub next: u64,
    pub remaining: u32,
}

/// The peer's RetransmitRequest being served.
#[derive(Debug, Clone, Copy, PartialEq, Eq)]
pub struct Provider {
    pub stamp: u64,
    pub from: u64,
    pub count: u32,
    pub sent: u32,
}

/// The peer has sent FinishedSending.
#[derive(Debug, Clone, Copy, PartialEq, Eq)]
pub struct PeerFinished {
    pub receiving_sent: bool,
    pub end: Option<u64>,
}

/// The logical session.
#[derive(Debug, Clone, PartialEq, Eq)]
pub struct SessionState {
    pub id: Id,
    pub local: Flow,
    pub remote: Flow,
    pub outbound_next: u64,
    pub inbound_next: Option<u64>,
    pub start_pending: bool,
    pub missing: Vec<Range>,
    pub overflow_received: Vec<Range>,
    pub outstanding: Option<Outstanding>,
    pub replay: Option<Replay>,
    pub awaiting_resume: bool,
    pub provider: Option<Provider>,
    pub peer_finished: Option<PeerFinished>,
    pub finalized: bool,
}

/// Where a binding stands.
#[derive(Debug, Clone, PartialEq, Eq)]
pub enum Phase {
    Established,
    Terminating { sent_at: u64, code: TerminationCode, reason: Vec<u8> },
    Closing { deadline: Option<u64> },
}

/// A binding.
#[derive(Debug, Clone, PartialEq, Eq)]
pub struct BindingState {
    pub phase: Phase,
    pub local_keepalive: u64,
    pub remote_keepalive: u64,
    pub last_keepalive: u64,
    pub last_received: u64,
    pub in_sequence: bool,
}

/// The status that the trace program prints.
#[derive(Debug, Clone, Copy, PartialEq, Eq, Hash)]
pub enum Status {
    Unbound,
    Established,
    Terminating,
    Closing,
}

impl Status {
    /// The word in a line of the trace program.
    pub const fn word(self) -> &'static str {
        match self {
            Self::Unbound => "unbound",
            Self::Established => "established",
            Self::Terminating => "terminating",
            Self::Closing => "closing",
        }
    }
}

/// What is compared after each call.
#[derive(Debug, Clone, PartialEq, Eq)]
pub struct Snapshot {
    pub session: SessionState,
    pub binding: Option<BindingState>,
    /// The next instant with work for a timeout; none unbound.
    pub next_deadline: Option<u64>,
    /// CloseTransport was queued and the host has not reported the transport closed.
    pub transport_closing: bool,
}

impl Snapshot {
    /// The status of the binding.
    pub fn status(&self) -> Status {
        match self.binding.as_ref().map(|binding| &binding.phase) {
            None => Status::Unbound,
            Some(Phase::Established) => Status::Established,
            Some(Phase::Terminating { .. }) => Status::Terminating,
            Some(Phase::Closing { .. }) => Status::Closing,
        }
    }
}

/// A state to set both sides up in, reachable by calls or not.
#[derive(Debug, Clone, PartialEq, Eq)]
pub struct Start {
    pub config: Config,
    pub session: SessionState,
    pub binding: Option<BindingState>,
    pub transport_closing: bool,
}
