//! Every field of a reply, each altered by itself: what a wrong port might give, and the comparison must see.

use crate::call::{Call, Id};
use crate::codes::{Flow, RejectCode, TerminationCode};
use crate::reply::{Answer, By, MessageName, Operation, Out, Refusal, Reply, Text};
use crate::state::{Phase, Range, Snapshot, Start, Status};
use crate::subject::Subject;

/// Alters one field of a reply, where it is there.
pub type Edit = fn(&mut Reply);

/// A value that can be made another.
trait Alter {
    fn alter(&mut self);
}

macro_rules! altered {
    ($($type:ty: $value:ident => $other:expr),+ $(,)?) => {
        $(impl Alter for $type {
            fn alter(&mut self) {
                let $value = self;
                *$value = $other;
            }
        })+
    };
}

altered! {
    u64: it => it.wrapping_add(1),
    u32: it => it.wrapping_add(1),
    usize: it => it.wrapping_add(1),
    u8: it => it.wrapping_add(1),
    bool: it => !*it,
    Flow: it => Flow::ALL[usize::from(it.code()) % Flow::ALL.len()],
    TerminationCode: it => TerminationCode::ALL[usize::from(it.code()) % TerminationCode::ALL.len()],
    RejectCode: it => RejectCode::ALL[usize::from(it.code()) % RejectCode::ALL.len()],
    By: it => if *it == By::Local { By::Peer } else { By::Local },
    MessageName: it => if *it == MessageName::Topic { MessageName::Context } else { MessageName::Topic },
    Operation: it => if *it == Operation::End { Operation::Send } else { Operation::End },
    Status: it => if *it == Status::Closing { Status::Terminating } else { Status::Closing },
}

impl Alter for Id {
    fn alter(&mut self) {
        self[15] ^= 1;
    }
}

impl Alter for Option<u64> {
    fn alter(&mut self) {
        *self = self.map(|number| number.wrapping_add(1));
    }
}

impl Alter for Vec<u8> {
    fn alter(&mut self) {
        if let Some(byte) = self.last_mut() {
            *byte ^= 1;
        }
    }
}

impl Alter for Vec<Range> {
    fn alter(&mut self) {
        if let Some(range) = self.last_mut() {
            range.end.alter();
        }
    }
}

impl Alter for Text {
    fn alter(&mut self) {
        match self {
            Self::Own(number) => number.alter(),
            Self::Host(bytes) => bytes.alter(),
        }
    }
}

macro_rules! of_outputs {
    ($($kind:ident.$field:ident)+) => {
        &[$((concat!("output ", stringify!($kind), " ", stringify!($field)), |reply| {
            for out in &mut reply.outs {
                if let Out::$kind { $field, .. } = out {
                    $field.alter();
                }
            }
        })),+]
    };
}

macro_rules! of_session {
    ($($field:ident)+) => {
        &[$((concat!("session ", stringify!($field)), |reply| {
            if let Some(snapshot) = &mut reply.snapshot {
                snapshot.session.$field.alter();
            }
        })),+]
    };
}

macro_rules! of_parts {
    ($($part:ident.$field:ident)+) => {
        &[$((concat!("session ", stringify!($part), " ", stringify!($field)), |reply| {
            let session = reply.snapshot.as_mut().map(|snapshot| &mut snapshot.session);
            if let Some(part) = session.and_then(|session| session.$part.as_mut()) {
                part.$field.alter();
            }
        })),+]
    };
}

macro_rules! of_binding {
    ($($field:ident)+) => {
        &[$((concat!("binding ", stringify!($field)), |reply| {
            if let Some(binding) = reply.snapshot.as_mut().and_then(|it| it.binding.as_mut()) {
                binding.$field.alter();
            }
        })),+]
    };
}

/// The fields by name.
pub const FIELDS: [&[(&str, Edit)]; 7] = [
    of_outputs! {
        SendSequence.next
        SendRetransmitRequest.id SendRetransmitRequest.stamp SendRetransmitRequest.from SendRetransmitRequest.count
        SendRetransmission.id SendRetransmission.stamp SendRetransmission.next SendRetransmission.count
        SendRetransmitReject.id SendRetransmitReject.stamp SendRetransmitReject.code SendRetransmitReject.reason
        SendTerminate.id SendTerminate.code SendTerminate.reason
        SendFinishedReceiving.id
        SendNotApplied.seq SendNotApplied.from SendNotApplied.count
        SequenceGap.from SequenceGap.count
        RetransmitRequested.from RetransmitRequested.count
        RetransmitRejected.from RetransmitRejected.count RetransmitRejected.code RetransmitRejected.reason
        RetransmitTimedOut.from RetransmitTimedOut.count
        NotApplied.from NotApplied.count
        Applied.from Applied.count
        Terminated.code Terminated.reason Terminated.by
        ProtocolViolation.reason
        PeerFinishedSending.last
        Ignored.message Ignored.reason
        Refused.message Refused.reason
    },
    &[
        ("the order of outputs", |reply| {
            if reply.outs.len() > 1 {
                reply.outs.swap(0, 1);
            }
        }),
        ("the last output", |reply| {
            reply.outs.pop();
        }),
    ],
    of_session! {
        id local remote outbound_next inbound_next start_pending missing overflow_received awaiting_resume finalized
    },
    of_parts! {
        outstanding.stamp outstanding.from outstanding.count outstanding.delivered outstanding.last_progress
        outstanding.interrupted outstanding.batch_complete outstanding.stall_reported
        replay.next replay.remaining
        provider.stamp provider.from provider.count provider.sent
        peer_finished.receiving_sent peer_finished.end
    },
    of_binding! { local_keepalive remote_keepalive last_keepalive last_received in_sequence },
    &[
        ("binding sent_at", |reply| {
            if let Some(Phase::Terminating { sent_at, .. }) = phase(reply) {
                sent_at.alter();
            }
        }),
        ("binding code", |reply| {
            if let Some(Phase::Terminating { code, .. }) = phase(reply) {
                code.alter();
            }
        }),
        ("binding reason", |reply| {
            if let Some(Phase::Terminating { reason, .. }) = phase(reply) {
                reason.alter();
            }
        }),
        ("binding deadline", |reply| {
            if let Some(Phase::Closing { deadline }) = phase(reply) {
                deadline.alter();
            }
        }),
        ("next_deadline", |reply| {
            if let Some(snapshot) = &mut reply.snapshot {
                snapshot.next_deadline.alter();
            }
        }),
        ("transport_closing", |reply| {
            if let Some(snapshot) = &mut reply.snapshot {
                snapshot.transport_closing.alter();
            }
        }),
    ],
    &[
        ("answer number", |reply| match &mut reply.answer {
            Answer::Accept(number) | Answer::Sent(number) => number.alter(),
            Answer::Replay(number) | Answer::Batch { from: number, .. } => number.alter(),
            _ => {}
        }),
        ("answer batch count", |reply| {
            if let Answer::Batch { count, .. } = &mut reply.answer {
                count.alter();
            }
        }),
        ("refusal 8 operation", |reply| {
            if let Answer::Refused(Refusal::InvalidState { operation, .. }) = &mut reply.answer {
                operation.alter();
            }
        }),
        ("refusal 8 status", |reply| {
            if let Answer::Refused(Refusal::InvalidState { status, .. }) = &mut reply.answer {
                status.alter();
            }
        }),
        ("refusal 13 count", |reply| {
            if let Answer::Refused(Refusal::RetransmissionOverrun { count, .. }) = &mut reply.answer
            {
                count.alter();
            }
        }),
        ("refusal 13 remaining", |reply| {
            if let Answer::Refused(Refusal::RetransmissionOverrun { remaining, .. }) =
                &mut reply.answer
            {
                remaining.alter();
            }
        }),
        ("refusal 14 length", |reply| {
            if let Answer::Refused(Refusal::ReasonTooLong { len, .. }) = &mut reply.answer {
                len.alter();
            }
        }),
        ("refusal 14 limit", |reply| {
            if let Answer::Refused(Refusal::ReasonTooLong { max, .. }) = &mut reply.answer {
                max.alter();
            }
        }),
        ("refusal 1 for 3", |reply| {
            if reply.answer == Answer::Refused(Refusal::NotBound) {
                reply.answer = Answer::Refused(Refusal::BadRecord);
            }
        }),
    ],
];

fn phase(reply: &mut Reply) -> Option<&mut Phase> {
    reply.snapshot.as_mut()?.binding.as_mut().map(|binding| &mut binding.phase)
}

/// A subject of which one field comes out altered.
pub struct Altered {
    inner: Box<dyn Subject>,
    edit: Edit,
}

impl Altered {
    /// That field of that subject.
    pub fn new(inner: Box<dyn Subject>, edit: Edit) -> Self {
        Self { inner, edit }
    }
}

impl Subject for Altered {
    fn reset(&mut self) {
        self.inner.reset();
    }

    fn start(&mut self, start: &Start) -> Snapshot {
        self.inner.start(start)
    }

    fn call(&mut self, call: &Call) -> Reply {
        let mut reply = self.inner.call(call);
        (self.edit)(&mut reply);
        reply
    }
}
