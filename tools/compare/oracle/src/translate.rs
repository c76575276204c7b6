//! From what the source gives to our plain outputs and refusals.

use ironfix_core::SeqNum;

use crate::call::Action;
use crate::convert::{self, to_bytes};
use crate::error::FixpError;
use crate::messages::SessionMessage;
use crate::output::{Event, Output, SessionStatus, TerminatedBy};
use crate::reasons;
use crate::reply::{By, MessageName, Operation, Out, Refusal, Text};
use crate::session::APPLICATION_MESSAGE;
use crate::state::Status;

/// Whose the texts in the outputs of a call are; the source keeps them all as one sort of string.
#[derive(Debug, Clone, Copy)]
pub(crate) struct Origin {
    /// The Terminate sent and the event of our own termination carry a host's text.
    terminate_by_host: bool,
    /// The RetransmitReject sent carries a host's text.
    reject_by_host: bool,
}

impl Origin {
    /// A host's text goes out in the calls that take one, and in the end of a Terminating binding,
    /// which carries the text of the call that began it.
    pub(crate) const fn of(action: &Action, before: Status) -> Self {
        Self {
            terminate_by_host: matches!(action, Action::Terminate { .. })
                || matches!(before, Status::Terminating),
            reject_by_host: matches!(action, Action::Reject { .. }),
        }
    }
}

/// One output of the source.
pub(crate) fn output(output: Output, origin: Origin) -> Out {
    match output {
        Output::Send(message) => sent(message, origin),
        Output::SendApplication { seq, message: SessionMessage::NotApplied(message) } => {
            Out::SendNotApplied {
                seq: seq.map(SeqNum::value),
                from: message.from_seq_no,
                count: message.count,
            }
        }
        Output::CloseTransport => Out::CloseTransport,
        Output::Event(event) => reported(event, origin),
        Output::SendApplication { .. } => panic!("session.rs is not known to queue {output:?}"),
    }
}

fn sent(message: SessionMessage, origin: Origin) -> Out {
    match message {
        SessionMessage::Sequence(m) => Out::SendSequence { next: m.next_seq_no },
        SessionMessage::UnsequencedHeartbeat(_) => Out::SendUnsequencedHeartbeat,
        SessionMessage::RetransmitRequest(m) => Out::SendRetransmitRequest {
            id: *m.session_id.as_bytes(),
            stamp: m.timestamp.as_nanos(),
            from: m.from_seq_no,
            count: m.count,
        },
        SessionMessage::Retransmission(m) => Out::SendRetransmission {
            id: *m.session_id.as_bytes(),
            stamp: m.request_timestamp.as_nanos(),
            next: m.next_seq_no,
            count: m.count,
        },
        SessionMessage::RetransmitReject(m) => Out::SendRetransmitReject {
            id: *m.session_id.as_bytes(),
            stamp: m.request_timestamp.as_nanos(),
            code: convert::from_rejection(m.code),
            reason: text(&m.reason, origin.reject_by_host),
        },
        SessionMessage::Terminate(m) => Out::SendTerminate {
            id: *m.session_id.as_bytes(),
            code: convert::from_termination(m.code),
            // The reply to a Terminate has zero bytes and no number.
            reason: text(&m.reason, origin.terminate_by_host || m.reason.is_empty()),
        },
        SessionMessage::FinishedReceiving(m) => {
            Out::SendFinishedReceiving { id: *m.session_id.as_bytes() }
        }
        other => panic!("session.rs is not known to send {other:?}"),
    }
}

fn reported(event: Event, origin: Origin) -> Out {
    match event {
        Event::SequenceGap { from, count } => Out::SequenceGap { from: from.value(), count },
        Event::RecoveryComplete => Out::RecoveryComplete,
        Event::RetransmitRequested { from, count } => {
            Out::RetransmitRequested { from: from.value(), count }
        }
        Event::RetransmitRejected { from, count, code, reason } => Out::RetransmitRejected {
            from: from.value(),
            count,
            code: convert::from_rejection(code),
            reason: to_bytes(&reason),
        },
        Event::RetransmitTimedOut { from, count } => {
            Out::RetransmitTimedOut { from: from.value(), count }
        }
        Event::NotApplied { from_seq_no, count } => Out::NotApplied { from: from_seq_no, count },
        Event::Applied { from_seq_no, count } => Out::Applied { from: from_seq_no, count },
        Event::Terminated { code, reason, by } => {
            let code = convert::from_termination(code);
            match by {
                TerminatedBy::Local => Out::Terminated {
                    code,
                    reason: text(&reason, origin.terminate_by_host),
                    by: By::Local,
                },
                TerminatedBy::Peer => {
                    Out::Terminated { code, reason: text(&reason, true), by: By::Peer }
                }
            }
        }
        Event::KeepaliveLapsed => Out::KeepaliveLapsed,
        Event::ProtocolViolation { reason } => {
            Out::ProtocolViolation { reason: reasons::number(reason) }
        }
        Event::PeerFinishedSending { last_seq_no } => {
            Out::PeerFinishedSending { last: last_seq_no }
        }
        Event::Ignored { message, reason } => {
            Out::Ignored { message: message_name(message), reason: reasons::number(reason) }
        }
        Event::Refused { message, reason } => {
            Out::Refused { message: message_name(message), reason: reasons::number(reason) }
        }
        other => panic!("session.rs is not known to report {other:?}"),
    }
}

fn text(reason: &str, by_host: bool) -> Text {
    if by_host { Text::Host(to_bytes(reason)) } else { Text::Own(reasons::number(reason)) }
}

fn message_name(name: &str) -> MessageName {
    match name {
        APPLICATION_MESSAGE => MessageName::Application,
        "Sequence" => MessageName::Sequence,
        "Context" => MessageName::Context,
        "UnsequencedHeartbeat" => MessageName::UnsequencedHeartbeat,
        "RetransmitRequest" => MessageName::RetransmitRequest,
        "Retransmission" => MessageName::Retransmission,
        "RetransmitReject" => MessageName::RetransmitReject,
        "Terminate" => MessageName::Terminate,
        "FinishedSending" => MessageName::FinishedSending,
        "FinishedReceiving" => MessageName::FinishedReceiving,
        "Applied" => MessageName::Applied,
        "NotApplied" => MessageName::NotApplied,
        "Topic" => MessageName::Topic,
        "MessageTemplate" => MessageName::MessageTemplate,
        other => panic!("session.rs is not known to name a message {other:?}"),
    }
}

/// An error of the source as 01's refusal.
pub(crate) fn refusal(error: FixpError) -> Refusal {
    match error {
        FixpError::InvalidState { operation, status } => Refusal::InvalidState {
            operation: operation_name(operation),
            status: self::status(status),
        },
        FixpError::FinishedReceivingSent => Refusal::FinishedReceivingSent,
        FixpError::FlowCarriesNoApplicationMessages { .. } => {
            Refusal::FlowCarriesNoApplicationMessages
        }
        FixpError::SequenceExhausted => Refusal::SequenceExhausted,
        FixpError::NoRetransmissionInProgress => Refusal::NoRetransmissionInProgress,
        FixpError::RetransmissionOverrun { count, remaining } => {
            Refusal::RetransmissionOverrun { count, remaining }
        }
        other => panic!("session.rs is not known to refuse with {other:?}"),
    }
}

fn operation_name(operation: &str) -> Operation {
    match operation {
        "send_application" => Operation::Send,
        "terminate" => Operation::Terminate,
        "retransmit" => Operation::Retransmit,
        "reject_retransmit_request" => Operation::Reject,
        "end_retransmission" => Operation::End,
        other => panic!("session.rs is not known to name an operation {other:?}"),
    }
}

/// The status of a binding.
pub(crate) fn status(status: SessionStatus) -> Status {
    match status {
        SessionStatus::Established => Status::Established,
        SessionStatus::Terminating => Status::Terminating,
        SessionStatus::Closing => Status::Closing,
        other => panic!("a binding is not known to be {other:?}"),
    }
}
