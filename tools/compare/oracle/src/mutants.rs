//! Subjects that are wrong on purpose, to show that the comparison finds them.

use crate::call::{Action, Call, Config, Peer};
use crate::reply::{Answer, Reply};
use crate::state::{Snapshot, Start, Status};
use crate::subject::Subject;

/// One slip.
#[derive(Debug, Clone, Copy, PartialEq, Eq)]
pub enum Slip {
    /// Release consumes the whole request, not what was delivered.
    ConsumesWholeRequest,
    /// A discarded duplicate does not count as delivered.
    SkipsDuplicates,
    /// A Sequence with 2^64-1 is skipped as a Context is.
    SequenceNull,
    /// The stamp of a Retransmission is not compared.
    AnyStamp,
    /// At the deadline is not yet due.
    LateByOne,
    /// The sixth output is lost.
    FiveOutputs,
    /// Now and then a replayed message has the wrong number.
    WrongNumber,
}

impl Slip {
    /// Every slip.
    pub const ALL: [Self; 7] = [
        Self::ConsumesWholeRequest,
        Self::SkipsDuplicates,
        Self::SequenceNull,
        Self::AnyStamp,
        Self::LateByOne,
        Self::FiveOutputs,
        Self::WrongNumber,
    ];
}

/// A subject with a slip.
pub struct Mutant {
    inner: Box<dyn Subject>,
    slip: Slip,
    config: Option<Config>,
    last: Option<Snapshot>,
}

impl Mutant {
    /// No session yet.
    pub fn new(slip: Slip, inner: Box<dyn Subject>) -> Self {
        Self { inner, slip, config: None, last: None }
    }

    /// Sets the session up anew with a change.
    fn change(&mut self, edit: impl FnOnce(&mut Snapshot)) {
        let (Some(config), Some(mut snapshot)) = (self.config, self.last.clone()) else {
            return;
        };
        edit(&mut snapshot);
        self.start(&Start {
            config,
            session: snapshot.session,
            binding: snapshot.binding,
            transport_closing: snapshot.transport_closing,
        });
    }

    /// The call as the slip sees it.
    fn misread(&self, call: &Call) -> Call {
        let mut call = call.clone();
        let Some(session) = self.last.as_ref().map(|snapshot| &snapshot.session) else {
            return call;
        };
        match (self.slip, &mut call.action) {
            (Slip::SequenceNull, Action::Peer(peer @ Peer::Sequence { next: u64::MAX })) => {
                *peer = Peer::Context { id: session.id, next: u64::MAX };
            }
            (Slip::AnyStamp, Action::Peer(Peer::Retransmission { stamp, .. })) => {
                *stamp = session.outstanding.map_or(*stamp, |request| request.stamp);
            }
            (Slip::LateByOne, Action::Timeout)
                if self.last.as_ref().and_then(|last| last.next_deadline) == Some(call.now) =>
            {
                call.now = call.now.saturating_sub(1);
            }
            _ => {}
        }
        call
    }

    fn spoil(&mut self, before: Option<&Snapshot>, reply: &mut Reply) {
        match self.slip {
            Slip::SkipsDuplicates
                if reply.answer == Answer::Discard
                    && before.is_some_and(|before| before.session.replay.is_some()) =>
            {
                self.change(|snapshot| {
                    if let Some(request) = &mut snapshot.session.outstanding {
                        request.delivered = request.delivered.saturating_sub(1);
                    }
                });
                reply.snapshot = self.last.clone();
            }
            Slip::FiveOutputs => reply.outs.truncate(5),
            Slip::WrongNumber => {
                if let Answer::Replay(number) = &mut reply.answer
                    && number.is_multiple_of(7)
                {
                    *number += 1;
                }
            }
            _ => {}
        }
    }
}

impl Subject for Mutant {
    fn reset(&mut self) {
        self.inner.reset();
        self.config = None;
        self.last = None;
    }

    fn start(&mut self, start: &Start) -> Snapshot {
        self.config = Some(start.config);
        self.last.insert(self.inner.start(start)).clone()
    }

    fn call(&mut self, call: &Call) -> Reply {
        if let (Action::Open(open), None) = (&call.action, self.config) {
            self.config = Some(open.config);
        }
        let bound = self.last.as_ref().is_some_and(|last| last.status() != Status::Unbound);
        if self.slip == Slip::ConsumesWholeRequest && call.action == Action::Release && bound {
            self.change(|snapshot| {
                if let Some(request) = &mut snapshot.session.outstanding {
                    request.delivered = request.count;
                }
            });
        }
        let before = self.last.clone();
        let mut reply = self.inner.call(&self.misread(call));
        self.last = reply.snapshot.clone();
        self.spoil(before.as_ref(), &mut reply);
        reply
    }
}
