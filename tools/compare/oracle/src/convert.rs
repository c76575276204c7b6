//! Between our plain values and the types of the source.

use std::time::{Duration, Instant};

use ironfix_core::Timestamp;

use crate::call::{NO_STAMP, Peer};
use crate::clock::{ClockAnchor, RequestClock};
use crate::codes::{Flow, RejectCode, TerminationCode};
use crate::messages::{self, SessionMessage};
use crate::types::{self, FlowType, Nanotime, RetransmitRejectCode, SessionId};

/// The instant that counts as nanosecond 0.
#[derive(Debug, Clone, Copy)]
pub(crate) struct Base(Instant);

impl Base {
    /// Nanosecond 0 is now.
    pub(crate) fn now() -> Self {
        Self(Instant::now())
    }

    /// The instant of a nanosecond.
    pub(crate) fn at(self, nanos: u64) -> Instant {
        self.0 + Duration::from_nanos(nanos)
    }

    /// The nanosecond of an instant; none past 2^64-1, where 01 has no deadline.
    pub(crate) fn nanos(self, instant: Instant) -> Option<u64> {
        u64::try_from(instant.duration_since(self.0).as_nanos()).ok()
    }

    /// The nanosecond of an instant that was handed in.
    pub(crate) fn given(self, instant: Instant) -> u64 {
        self.nanos(instant).expect("an instant handed in is below 2^64")
    }

    /// A clock whose next stamp at `now` is the one handed in, or is out of range.
    pub(crate) fn clock(self, now: u64, stamp: u64) -> RequestClock {
        let now = self.at(now);
        let anchored = if stamp == NO_STAMP { now - Duration::from_nanos(1) } else { now };
        RequestClock::new(ClockAnchor::new(anchored, Timestamp::from_nanos(stamp)))
    }
}

/// A duration of the source in nanoseconds.
pub(crate) fn nanos(duration: Duration) -> u64 {
    u64::try_from(duration.as_nanos()).expect("a duration handed in is below 2^64 ns")
}

/// The bytes of a host's reason as a `String`: each byte becomes the character of its value, so that
/// bytes that are not UTF-8 go in and come out again.
pub(crate) fn to_string(bytes: &[u8]) -> String {
    bytes.iter().map(|byte| char::from(*byte)).collect()
}

/// The bytes that [`to_string`] was given.
pub(crate) fn to_bytes(text: &str) -> Vec<u8> {
    text.chars()
        .map(|char| u8::try_from(char).expect("a host's reason was made from bytes"))
        .collect()
}

pub(crate) const fn to_flow_type(flow: Flow) -> FlowType {
    match flow {
        Flow::Recoverable => FlowType::Recoverable,
        Flow::Idempotent => FlowType::Idempotent,
        Flow::Unsequenced => FlowType::Unsequenced,
        Flow::None => FlowType::None,
    }
}

pub(crate) const fn from_flow_type(flow: FlowType) -> Flow {
    match flow {
        FlowType::Recoverable => Flow::Recoverable,
        FlowType::Idempotent => Flow::Idempotent,
        FlowType::Unsequenced => Flow::Unsequenced,
        FlowType::None => Flow::None,
    }
}

pub(crate) const fn to_termination(code: TerminationCode) -> types::TerminationCode {
    match code {
        TerminationCode::Finished => types::TerminationCode::Finished,
        TerminationCode::UnspecifiedError => types::TerminationCode::UnspecifiedError,
        TerminationCode::ReRequestOutOfBounds => types::TerminationCode::ReRequestOutOfBounds,
        TerminationCode::ReRequestInProgress => types::TerminationCode::ReRequestInProgress,
    }
}

pub(crate) const fn from_termination(code: types::TerminationCode) -> TerminationCode {
    match code {
        types::TerminationCode::Finished => TerminationCode::Finished,
        types::TerminationCode::UnspecifiedError => TerminationCode::UnspecifiedError,
        types::TerminationCode::ReRequestOutOfBounds => TerminationCode::ReRequestOutOfBounds,
        types::TerminationCode::ReRequestInProgress => TerminationCode::ReRequestInProgress,
    }
}

pub(crate) const fn to_rejection(code: RejectCode) -> RetransmitRejectCode {
    match code {
        RejectCode::OutOfRange => RetransmitRejectCode::OutOfRange,
        RejectCode::InvalidSession => RetransmitRejectCode::InvalidSession,
        RejectCode::RequestLimitExceeded => RetransmitRejectCode::RequestLimitExceeded,
    }
}

pub(crate) const fn from_rejection(code: RetransmitRejectCode) -> RejectCode {
    match code {
        RetransmitRejectCode::OutOfRange => RejectCode::OutOfRange,
        RetransmitRejectCode::InvalidSession => RejectCode::InvalidSession,
        RetransmitRejectCode::RequestLimitExceeded => RejectCode::RequestLimitExceeded,
    }
}

/// A peer's message as the source's own; fields that no step reads are empty.
pub(crate) fn to_message(peer: &Peer) -> SessionMessage {
    match peer {
        Peer::Sequence { next } => {
            SessionMessage::Sequence(messages::Sequence { next_seq_no: *next })
        }
        Peer::Context { id, next } => SessionMessage::Context(messages::Context {
            session_id: SessionId::from_bytes(*id),
            next_seq_no: *next,
        }),
        Peer::UnsequencedHeartbeat => {
            SessionMessage::UnsequencedHeartbeat(messages::UnsequencedHeartbeat)
        }
        Peer::RetransmitRequest { id, stamp, from, count } => {
            SessionMessage::RetransmitRequest(messages::RetransmitRequest {
                session_id: SessionId::from_bytes(*id),
                timestamp: Nanotime::from_nanos(*stamp),
                from_seq_no: *from,
                count: *count,
            })
        }
        Peer::Retransmission { id, stamp, next, count } => {
            SessionMessage::Retransmission(messages::Retransmission {
                session_id: SessionId::from_bytes(*id),
                request_timestamp: Nanotime::from_nanos(*stamp),
                next_seq_no: *next,
                count: *count,
            })
        }
        Peer::RetransmitReject { id, stamp, code, reason } => {
            SessionMessage::RetransmitReject(messages::RetransmitReject {
                session_id: SessionId::from_bytes(*id),
                request_timestamp: Nanotime::from_nanos(*stamp),
                code: to_rejection(*code),
                reason: to_string(reason),
            })
        }
        Peer::Terminate { id, code, reason } => SessionMessage::Terminate(messages::Terminate {
            session_id: SessionId::from_bytes(*id),
            code: to_termination(*code),
            reason: to_string(reason),
        }),
        Peer::FinishedSending { id, last } => {
            SessionMessage::FinishedSending(messages::FinishedSending {
                session_id: SessionId::from_bytes(*id),
                last_seq_no: *last,
            })
        }
        Peer::FinishedReceiving { id } => {
            SessionMessage::FinishedReceiving(messages::FinishedReceiving {
                session_id: SessionId::from_bytes(*id),
            })
        }
        Peer::Applied { from, count } => {
            SessionMessage::Applied(messages::Applied { from_seq_no: *from, count: *count })
        }
        Peer::NotApplied { from, count } => {
            SessionMessage::NotApplied(messages::NotApplied { from_seq_no: *from, count: *count })
        }
        Peer::Topic => SessionMessage::Topic(messages::Topic {
            session_id: SessionId::NIL,
            flow: FlowType::None,
            keepalive_interval: 0,
            classification: Vec::new(),
        }),
        Peer::MessageTemplate => SessionMessage::MessageTemplate(messages::MessageTemplate {
            encoding_type: 0,
            effective_time: None,
            version: Vec::new(),
            template: Vec::new(),
        }),
    }
}
