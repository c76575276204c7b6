//! Runs calls on the unchanged source.

use std::num::NonZeroU32;
use std::time::{Duration, Instant};

use ironfix_core::SeqNum;

use crate::call::{Action, Call, Open, Peer};
use crate::config::FixpConfig;
use crate::convert::{self, Base};
use crate::error::FixpError;
use crate::output::Delivery;
use crate::refuse;
use crate::reply::{Answer, Out, Refusal, Reply};
use crate::session::{Binding, Bound, Classified, Core, PeerMessage, Session, classify};
use crate::state::{Snapshot, Start, Status};
use crate::subject::Subject;
use crate::translate::{self, Origin};
use crate::types::SessionId;

/// The source as a [`Subject`].
pub struct Oracle {
    base: Base,
    /// An open came, refused or not: any later one stops the run.
    opened: bool,
    live: Option<Live>,
}

/// An open session.
struct Live {
    base: Base,
    config: FixpConfig,
    session: Session,
    binding: Option<Binding>,
    transport_closing: bool,
}

impl Oracle {
    /// No session yet.
    pub fn new() -> Self {
        Self { base: Base::now(), opened: false, live: None }
    }

    fn open(&mut self, open: &Open) -> Answer {
        if self.opened {
            return Answer::Stop;
        }
        self.opened = true;
        let Some(config) = FixpConfig::new(&open.config) else {
            return Answer::Refused(Refusal::BadConfig);
        };
        self.live = Some(Live {
            base: self.base,
            config,
            session: Session::new(
                SessionId::from_bytes(open.id),
                convert::to_flow_type(open.local),
                convert::to_flow_type(open.remote),
            ),
            binding: None,
            transport_closing: false,
        });
        Answer::Ok
    }
}

impl Default for Oracle {
    fn default() -> Self {
        Self::new()
    }
}

impl Subject for Oracle {
    fn reset(&mut self) {
        self.opened = false;
        self.live = None;
    }

    fn start(&mut self, start: &Start) -> Snapshot {
        let live = Live {
            base: self.base,
            config: FixpConfig::new(&start.config).expect("a start has a configuration in range"),
            session: Session::build(&start.session, self.base),
            binding: start.binding.as_ref().map(|binding| Binding::build(binding, self.base)),
            transport_closing: start.transport_closing,
        };
        self.opened = true;
        self.live.insert(live).snapshot()
    }

    fn call(&mut self, call: &Call) -> Reply {
        let (answer, outs) = match (&call.action, self.live.as_mut()) {
            (Action::Open(open), _) => (self.open(open), Vec::new()),
            (_, Some(live)) => live.run(call),
            (_, None) => (Answer::Stop, Vec::new()),
        };
        Reply { answer, outs, snapshot: self.live.as_ref().map(Live::snapshot) }
    }
}

impl Live {
    fn status(&self) -> Status {
        self.binding.as_ref().map_or(Status::Unbound, |binding| translate::status(binding.status()))
    }

    fn snapshot(&self) -> Snapshot {
        Snapshot {
            session: self.session.read(self.base),
            binding: self.binding.as_ref().map(|binding| binding.read(self.base)),
            next_deadline: self
                .binding
                .as_ref()
                .and_then(|binding| self.session.next_deadline(&self.config, binding))
                .and_then(|deadline| self.base.nanos(deadline)),
            transport_closing: self.transport_closing,
        }
    }

    /// Runs one call with a `Core` of its own, whose clock gives the stamp handed in.
    fn run(&mut self, call: &Call) -> (Answer, Vec<Out>) {
        let before = self.status();
        if let Some(refusal) = refuse::before_source(call, before) {
            return (Answer::Refused(refusal), Vec::new());
        }
        let mut core = Core::new(self.config.clone(), self.base.clock(call.now, call.stamp));
        let now = self.base.at(call.now);
        let answer = self
            .step(&mut core, &call.action, now)
            .unwrap_or_else(|error| Answer::Refused(translate::refusal(error)));
        self.transport_closing |= core.transport_closing();
        let origin = Origin::of(&call.action, before);
        let outs = std::iter::from_fn(|| core.poll_output())
            .map(|output| translate::output(output, origin))
            .collect();
        (answer, outs)
    }

    fn step(
        &mut self,
        core: &mut Core,
        action: &Action,
        now: Instant,
    ) -> Result<Answer, FixpError> {
        match action {
            Action::Open(_) => unreachable!("an open is not run on a session"),
            Action::Bind { local_keepalive, remote_keepalive, next } => {
                let local = Duration::from_nanos(*local_keepalive);
                let remote = Duration::from_nanos(*remote_keepalive);
                self.session.release_binding_state();
                let mut binding = self.session.bind(now, local, remote);
                let bound = self.session.on_established(core, &mut binding, *next, now);
                self.binding = (bound == Bound::Stay).then_some(binding);
                Ok(Answer::Ok)
            }
            Action::Release => {
                self.session.release_binding_state();
                self.binding = None;
                Ok(Answer::Ok)
            }
            Action::TransportClosed => {
                self.transport_closing = false;
                Ok(Answer::Ok)
            }
            Action::Application => {
                let (session, binding) = self.bound();
                let (delivery, bound) = session.on_application(core, binding, now);
                self.keep(bound);
                Ok(delivered(delivery))
            }
            Action::Peer(peer) => Ok(self.on_peer(core, peer, now)),
            Action::Send => {
                let (session, binding) = self.bound();
                let seq = session.send_application(core, binding, now)?;
                Ok(Answer::Sent(seq.map(SeqNum::value)))
            }
            Action::Terminate { code, reason } => {
                let (session, binding) = self.bound();
                let code = convert::to_termination(*code);
                let reason = convert::to_string(reason);
                let bound = session.terminate(core, binding, code, reason, now)?;
                self.keep(bound);
                Ok(Answer::Ok)
            }
            Action::Retransmit { count } => {
                let (session, binding) = self.bound();
                let count = NonZeroU32::new(*count).expect("refusal 6 comes first");
                let batch = session.retransmit(core, binding, count, now)?;
                Ok(Answer::Batch { from: batch.from.value(), count: batch.count })
            }
            Action::Reject { code, reason } => {
                let (session, binding) = self.bound();
                let code = convert::to_rejection(*code);
                let reason = convert::to_string(reason);
                session.reject_retransmit_request(core, binding, code, reason)?;
                Ok(Answer::Ok)
            }
            Action::End => {
                let (session, binding) = self.bound();
                session.end_retransmission(binding)?;
                Ok(Answer::Ok)
            }
            Action::Timeout => {
                let (session, binding) = self.bound();
                let bound = session.on_timeout(core, binding, now);
                self.keep(bound);
                Ok(Answer::Ok)
            }
        }
    }

    fn on_peer(&mut self, core: &mut Core, peer: &Peer, now: Instant) -> Answer {
        let message = convert::to_message(peer);
        let Classified::Peer(message) = classify(&message) else {
            panic!("{peer:?} is no handshake message");
        };
        let answer = self.peer_answer(message, now);
        let (session, binding) = self.bound();
        let bound = session.on_peer(core, binding, message, now);
        self.keep(bound);
        answer
    }

    /// The answer to a peer's message. The source does not give out the delivery of an Applied or
    /// NotApplied, so it is taken from `on_application` on a copy.
    fn peer_answer(&self, message: PeerMessage<'_>, now: Instant) -> Answer {
        match message {
            PeerMessage::Applied(_) => {}
            PeerMessage::NotApplied(_)
                if self.session.local_flow() == crate::types::FlowType::Idempotent => {}
            PeerMessage::NotApplied(_) => return Answer::Discard,
            _ => return Answer::Ok,
        }
        let mut session = self.session.clone();
        let mut binding = self.binding.clone().expect("refusal 3 comes first");
        // The stamp decides nothing about the delivery.
        let clock = self.base.clock(0, 0);
        let mut core = Core::new(self.config.clone(), clock);
        delivered(session.on_application(&mut core, &mut binding, now).0)
    }

    fn bound(&mut self) -> (&mut Session, &mut Binding) {
        let binding = self.binding.as_mut().expect("refusal 3 comes first");
        (&mut self.session, binding)
    }

    fn keep(&mut self, bound: Bound) {
        if bound == Bound::Unbind {
            self.binding = None;
        }
    }
}

fn delivered(delivery: Delivery) -> Answer {
    match delivery {
        Delivery::Accept { seq, retransmitted: false } => Answer::Accept(seq.map(SeqNum::value)),
        Delivery::Accept { seq, retransmitted: true } => {
            Answer::Replay(seq.expect("a replayed message has a number").value())
        }
        Delivery::Discard => Answer::Discard,
    }
}
