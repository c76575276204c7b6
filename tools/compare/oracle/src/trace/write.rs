//! Writes trace records.

use super::{HEADER, kind};
use crate::call::{Action, Call, Id, Open, Peer};

/// The records of a history; none if a call has no record.
pub fn history(calls: &[Call]) -> Option<Vec<u8>> {
    let records: Option<Vec<_>> = calls.iter().map(record_bytes).collect();
    records.map(|records| records.concat())
}

/// The record of one call. A queue in use, `transport_closed` and a present number of all ones where
/// all ones mean absent have none.
pub fn record_bytes(call: &Call) -> Option<Vec<u8>> {
    if call.queued != 0 || call.bad.is_some() {
        return None;
    }
    let (kind, body) = body(&call.action)?;
    let length = u16::try_from(HEADER + body.0.len()).ok()?;
    let mut record = Vec::with_capacity(usize::from(length));
    record.extend_from_slice(&length.to_le_bytes());
    record.extend_from_slice(&kind.to_le_bytes());
    record.extend_from_slice(&call.now.to_le_bytes());
    record.extend_from_slice(&call.stamp.to_le_bytes());
    record.extend_from_slice(&body.0);
    Some(record)
}

/// The bytes behind a header.
struct Body(Vec<u8>);

impl Body {
    const fn empty() -> Self {
        Self(Vec::new())
    }

    fn bytes(mut self, bytes: &[u8]) -> Self {
        self.0.extend_from_slice(bytes);
        self
    }

    fn id(self, id: &Id) -> Self {
        self.bytes(id)
    }

    fn code(self, code: u8) -> Self {
        self.bytes(&[code])
    }

    fn u16(self, number: u16) -> Self {
        self.bytes(&number.to_le_bytes())
    }

    fn u32(self, number: u32) -> Self {
        self.bytes(&number.to_le_bytes())
    }

    fn u64(self, number: u64) -> Self {
        self.bytes(&number.to_le_bytes())
    }

    /// A number whose all ones mean absent.
    fn optional(self, number: Option<u64>) -> Option<Self> {
        match number {
            Some(u64::MAX) => None,
            Some(number) => Some(self.u64(number)),
            None => Some(self.u64(u64::MAX)),
        }
    }
}

fn body(action: &Action) -> Option<(u16, Body)> {
    let empty = Body::empty();
    Some(match action {
        Action::Open(open) => (kind::OPEN, open_body(open)?),
        Action::Bind { local_keepalive, remote_keepalive, next } => {
            (kind::BIND, empty.u64(*local_keepalive).u64(*remote_keepalive).optional(*next)?)
        }
        Action::Release => (kind::RELEASE, empty),
        Action::Application => (kind::APPLICATION, empty),
        Action::Peer(peer) => peer_body(peer)?,
        Action::Send => (kind::SEND, empty),
        Action::Terminate { code, reason } => {
            (kind::TERMINATE, empty.code(code.code()).bytes(reason))
        }
        Action::Retransmit { count } => (kind::RETRANSMIT, empty.u32(*count)),
        Action::Reject { code, reason } => (kind::REJECT, empty.code(code.code()).bytes(reason)),
        Action::End => (kind::END, empty),
        Action::Timeout => (kind::TIMEOUT, empty),
        Action::TransportClosed => return None,
    })
}

fn open_body(open: &Open) -> Option<Body> {
    let config = &open.config;
    let body = Body::empty()
        .id(&open.id)
        .code(open.local.code())
        .code(open.remote.code())
        .u64(config.max_gap_len)
        .u32(config.max_retransmit_count)
        .u16(config.max_pending_gaps)
        .u64(config.timeout)
        .optional(config.grace)?
        .code(config.policy.code());
    Some(body)
}

fn peer_body(peer: &Peer) -> Option<(u16, Body)> {
    let empty = Body::empty();
    Some(match peer {
        Peer::Sequence { next } => (kind::SEQUENCE, empty.u64(*next)),
        Peer::Context { id, next } => (kind::CONTEXT, empty.id(id).u64(*next)),
        Peer::UnsequencedHeartbeat => (kind::UNSEQUENCED_HEARTBEAT, empty),
        Peer::RetransmitRequest { id, stamp, from, count } => {
            (kind::RETRANSMIT_REQUEST, empty.id(id).u64(*stamp).u64(*from).u32(*count))
        }
        Peer::Retransmission { id, stamp, next, count } => {
            (kind::RETRANSMISSION, empty.id(id).u64(*stamp).u64(*next).u32(*count))
        }
        Peer::RetransmitReject { id, stamp, code, reason } => {
            (kind::RETRANSMIT_REJECT, empty.id(id).u64(*stamp).code(code.code()).bytes(reason))
        }
        Peer::Terminate { id, code, reason } => {
            (kind::PEER_TERMINATE, empty.id(id).code(code.code()).bytes(reason))
        }
        Peer::FinishedSending { id, last } => {
            (kind::FINISHED_SENDING, empty.id(id).optional(*last)?)
        }
        Peer::FinishedReceiving { id } => (kind::FINISHED_RECEIVING, empty.id(id)),
        Peer::Applied { from, count } => (kind::APPLIED, empty.u64(*from).u32(*count)),
        Peer::NotApplied { from, count } => (kind::NOT_APPLIED, empty.u64(*from).u32(*count)),
        Peer::Topic => (kind::TOPIC, empty),
        Peer::MessageTemplate => (kind::MESSAGE_TEMPLATE, empty),
    })
}
