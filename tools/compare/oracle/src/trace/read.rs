//! Reads trace records.

use super::{HEADER, kind};
use crate::call::{Action, Call, Config, Id, Open, Peer};
use crate::codes::{Flow, Policy, RejectCode, TerminationCode};

/// The first record and the bytes behind it; none if it is malformed.
pub fn record(bytes: &[u8]) -> Option<(Call, &[u8])> {
    let (length, _) = bytes.split_first_chunk()?;
    let length = usize::from(u16::from_le_bytes(*length));
    if length < HEADER || length > bytes.len() {
        return None;
    }
    let (record, rest) = bytes.split_at(length);
    let mut fields = Fields(&record[2..]);
    let kind = fields.u16()?;
    let now = fields.u64()?;
    let stamp = fields.u64()?;
    let action = action(kind, &mut fields)?;
    // A body longer than its kind's is malformed; a reason has taken the rest.
    fields.0.is_empty().then_some((Call { now, stamp, queued: 0, bad: None, action }, rest))
}

/// What is left of a record.
struct Fields<'a>(&'a [u8]);

impl Fields<'_> {
    fn take<const N: usize>(&mut self) -> Option<[u8; N]> {
        let (taken, rest) = self.0.split_first_chunk()?;
        self.0 = rest;
        Some(*taken)
    }

    fn id(&mut self) -> Option<Id> {
        self.take()
    }

    fn u8(&mut self) -> Option<u8> {
        self.take().map(u8::from_le_bytes)
    }

    fn u16(&mut self) -> Option<u16> {
        self.take().map(u16::from_le_bytes)
    }

    fn u32(&mut self) -> Option<u32> {
        self.take().map(u32::from_le_bytes)
    }

    fn u64(&mut self) -> Option<u64> {
        self.take().map(u64::from_le_bytes)
    }

    /// A number whose all ones mean absent.
    fn optional(&mut self) -> Option<Option<u64>> {
        self.u64().map(|number| (number != u64::MAX).then_some(number))
    }

    fn flow(&mut self) -> Option<Flow> {
        self.u8().and_then(Flow::from_code)
    }

    fn policy(&mut self) -> Option<Policy> {
        self.u8().and_then(Policy::from_code)
    }

    fn termination(&mut self) -> Option<TerminationCode> {
        self.u8().and_then(TerminationCode::from_code)
    }

    fn rejection(&mut self) -> Option<RejectCode> {
        self.u8().and_then(RejectCode::from_code)
    }

    fn rest(&mut self) -> Vec<u8> {
        std::mem::take(&mut self.0).to_vec()
    }
}

fn action(kind: u16, fields: &mut Fields<'_>) -> Option<Action> {
    Some(match kind {
        kind::OPEN => Action::Open(open(fields)?),
        kind::BIND => Action::Bind {
            local_keepalive: fields.u64()?,
            remote_keepalive: fields.u64()?,
            next: fields.optional()?,
        },
        kind::RELEASE => Action::Release,
        kind::APPLICATION => Action::Application,
        kind::SEND => Action::Send,
        kind::TERMINATE => Action::Terminate { code: fields.termination()?, reason: fields.rest() },
        kind::RETRANSMIT => Action::Retransmit { count: fields.u32()? },
        kind::REJECT => Action::Reject { code: fields.rejection()?, reason: fields.rest() },
        kind::END => Action::End,
        kind::TIMEOUT => Action::Timeout,
        _ => Action::Peer(peer(kind, fields)?),
    })
}

fn open(fields: &mut Fields<'_>) -> Option<Open> {
    Some(Open {
        id: fields.id()?,
        local: fields.flow()?,
        remote: fields.flow()?,
        config: Config {
            max_gap_len: fields.u64()?,
            max_retransmit_count: fields.u32()?,
            max_pending_gaps: fields.u16()?,
            timeout: fields.u64()?,
            grace: fields.optional()?,
            policy: fields.policy()?,
        },
    })
}

fn peer(kind: u16, fields: &mut Fields<'_>) -> Option<Peer> {
    Some(match kind {
        kind::SEQUENCE => Peer::Sequence { next: fields.u64()? },
        kind::CONTEXT => Peer::Context { id: fields.id()?, next: fields.u64()? },
        kind::UNSEQUENCED_HEARTBEAT => Peer::UnsequencedHeartbeat,
        kind::RETRANSMIT_REQUEST => Peer::RetransmitRequest {
            id: fields.id()?,
            stamp: fields.u64()?,
            from: fields.u64()?,
            count: fields.u32()?,
        },
        kind::RETRANSMISSION => Peer::Retransmission {
            id: fields.id()?,
            stamp: fields.u64()?,
            next: fields.u64()?,
            count: fields.u32()?,
        },
        kind::RETRANSMIT_REJECT => Peer::RetransmitReject {
            id: fields.id()?,
            stamp: fields.u64()?,
            code: fields.rejection()?,
            reason: fields.rest(),
        },
        kind::PEER_TERMINATE => {
            Peer::Terminate { id: fields.id()?, code: fields.termination()?, reason: fields.rest() }
        }
        kind::FINISHED_SENDING => {
            Peer::FinishedSending { id: fields.id()?, last: fields.optional()? }
        }
        kind::FINISHED_RECEIVING => Peer::FinishedReceiving { id: fields.id()? },
        kind::APPLIED => Peer::Applied { from: fields.u64()?, count: fields.u32()? },
        kind::NOT_APPLIED => Peer::NotApplied { from: fields.u64()?, count: fields.u32()? },
        kind::TOPIC => Peer::Topic,
        kind::MESSAGE_TEMPLATE => Peer::MessageTemplate,
        _ => return None,
    })
}
