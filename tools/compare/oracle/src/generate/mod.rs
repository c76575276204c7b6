//! Makes histories: each call is chosen by looking at the state the session is in, so that deep
//! states are reached.

mod local;
mod open;
mod peer;
mod planted;
mod profile;
mod sense;
mod time;
mod values;

use profile::Profile;

use crate::call::{Action, Bad, Call, Config, NO_STAMP, QUEUE_PLACES};
use crate::codes::Flow;
use crate::rng::Rng;
use crate::state::{SessionState, Snapshot, Start, Status};
use crate::trace;

/// A choice of what to do next.
#[derive(Debug, Clone, Copy, PartialEq, Eq)]
pub enum Move {
    Application,
    Applied,
    NotApplied,
    Announce,
    Header,
    PeerReject,
    PeerRequest,
    PeerTerminate,
    FinishedSending,
    OtherPeer,
    Send,
    Terminate,
    Serve,
    Timeout,
    Bind,
    Release,
    TransportClosed,
}

/// Which histories to make.
#[derive(Debug, Clone, Copy, Default)]
pub struct Options {
    /// Instants and durations past the domain of demand 2 too.
    pub wide: bool,
    /// Only calls that a trace record can stand for, from an open.
    pub traceable: bool,
}

/// How a history begins.
#[derive(Debug, Clone)]
pub enum Begin {
    Open(Box<Call>),
    Planted(Box<Start>),
}

/// One history in the making.
#[derive(Debug, Clone)]
pub struct Script {
    rng: Rng,
    options: Options,
    profile: Profile,
    config: Config,
    now: u64,
    stamp: u64,
    calls_left: usize,
    /// Gaps still to be made one after the other.
    gaps_left: usize,
}

impl Script {
    /// Begins a history.
    pub fn begin(mut rng: Rng, options: Options) -> (Self, Begin) {
        let profile = Profile::choose(&mut rng);
        let open = open::open(&mut rng, profile, options.wide);
        let mut script = Self {
            options,
            profile,
            config: open.config,
            now: rng.pick(&[0, 1, 1_000_000, 1 << 40]),
            stamp: rng.below(1 << 40),
            calls_left: 20 + rng.place(180),
            gaps_left: 0,
            rng,
        };
        if profile == Profile::Overflowing {
            script.gaps_left = script.many_gaps();
            script.calls_left += 3 * script.gaps_left;
        }
        if !options.traceable && script.rng.one_in(8) {
            let start = planted::start(&mut script.rng, options.wide);
            script.config = start.config;
            script.now = planted::latest(&start);
            return (script, Begin::Planted(Box::new(start)));
        }
        let call = first(script.now, script.stamp, Action::Open(open));
        (script, Begin::Open(Box::new(call)))
    }

    /// The next call in this state; none at the end of the history.
    pub fn next(&mut self, snapshot: Option<&Snapshot>) -> Option<Call> {
        self.calls_left = self.calls_left.checked_sub(1)?;
        let Some(snapshot) = snapshot else {
            // The open was refused: one more record, where the run stops.
            self.calls_left = 0;
            return Some(self.without_session());
        };
        if self.calls_left == 0 && self.rng.one_in(16) {
            return Some(self.without_session());
        }
        loop {
            let call = self.choose(snapshot);
            if !self.options.traceable || trace::record_bytes(&call).is_some() {
                self.now = call.now;
                return Some(call);
            }
        }
    }

    /// A later open, or a call with no session.
    fn without_session(&mut self) -> Call {
        let action = if self.rng.one_in(2) {
            Action::Open(open::open(&mut self.rng, self.profile, self.options.wide))
        } else {
            Action::Release
        };
        first(self.now, self.stamp, action)
    }

    fn choose(&mut self, snapshot: &Snapshot) -> Call {
        let action = match self.next_gap(snapshot) {
            Some(action) => action,
            None => {
                let choice = self.choose_move(snapshot);
                self.action(choice, snapshot)
            }
        };
        let now = if action == Action::Timeout {
            time::around_deadline(&mut self.rng, &self.config, snapshot, self.now)
        } else {
            time::step(&mut self.rng, self.now)
        };
        let queued = if self.rng.one_in(100) {
            u8::try_from(self.rng.below(u64::from(QUEUE_PLACES) + 1)).expect("at most 32")
        } else {
            0
        };
        let bad = if !self.options.traceable && self.rng.one_in(200) {
            Some(self.rng.pick(&Bad::ALL))
        } else {
            None
        };
        Call {
            now: now.min(time::last(self.options.wide)),
            stamp: self.choose_stamp(),
            queued,
            bad,
            action,
        }
    }

    /// How many gaps an overflowing history makes in a row.
    fn many_gaps(&mut self) -> usize {
        let runs = self.rng.pick(&[1, 4, 30, 70, 254, 257, 260]);
        usize::from(self.config.max_pending_gaps) + 1 + runs
    }

    /// The next step of making one gap after the other: bind, a message, a number skipped.
    fn next_gap(&mut self, snapshot: &Snapshot) -> Option<Action> {
        if self.gaps_left == 0 || self.rng.one_in(400) {
            return None;
        }
        let session = &snapshot.session;
        let expected = session.inbound_next?;
        if snapshot.status() != Status::Established {
            return Some(local::bind(&mut self.rng, Some(expected), self.options.wide));
        }
        let touching = session.missing.last().is_some_and(|gap| gap.end == expected);
        if session.start_pending || touching {
            return Some(Action::Application);
        }
        self.gaps_left -= 1;
        let next = expected.saturating_add(1 + self.rng.below(2));
        Some(peer::announce(&mut self.rng, next, session, false))
    }

    fn choose_move(&mut self, snapshot: &Snapshot) -> Move {
        let moves = self.profile.moves();
        match snapshot.status() {
            Status::Unbound if !self.rng.one_in(6) => Move::Bind,
            Status::Closing | Status::Terminating if self.rng.one_in(4) => {
                self.rng.pick(&[Move::Timeout, Move::Release, Move::PeerTerminate])
            }
            Status::Established | Status::Terminating
                if snapshot.session.replay.is_some() && !self.rng.one_in(4) =>
            {
                let not_applied = u64::from(snapshot.session.local == Flow::Idempotent);
                self.rng.weighted(&[
                    (Move::Application, 8),
                    (Move::Applied, 1),
                    (Move::NotApplied, not_applied),
                ])
            }
            Status::Established
                if snapshot.session.provider.is_some()
                    && self.profile == Profile::Serving
                    && self.rng.one_in(2) =>
            {
                Move::Serve
            }
            _ => {
                let choice = self.rng.weighted(moves);
                if self.rng.percent(80) && sense::is_pointless(choice, snapshot) {
                    self.rng.weighted(moves)
                } else {
                    choice
                }
            }
        }
    }

    fn action(&mut self, choice: Move, snapshot: &Snapshot) -> Action {
        let careless = self.rng.percent(self.profile.carelessness());
        let session = &snapshot.session;
        let config = self.config;
        match choice {
            Move::Application => Action::Application,
            Move::Applied => peer::applied(&mut self.rng, false),
            Move::NotApplied => peer::applied(&mut self.rng, true),
            Move::Announce => {
                let next = self.announced(session, careless);
                peer::announce(&mut self.rng, next, session, careless)
            }
            Move::Header => peer::header(&mut self.rng, session, careless),
            Move::PeerReject => peer::reject(&mut self.rng, session, careless),
            Move::PeerRequest => peer::request(&mut self.rng, &config, session, careless),
            Move::PeerTerminate => peer::terminate(&mut self.rng, session, careless),
            Move::FinishedSending => peer::finished(&mut self.rng, &config, session, careless),
            Move::OtherPeer => peer::other(&mut self.rng, session),
            Move::Send => Action::Send,
            Move::Terminate => local::terminate(&mut self.rng),
            Move::Serve => local::serve(&mut self.rng, session, careless),
            Move::Timeout => Action::Timeout,
            Move::Bind => {
                let next = self.announced(session, careless);
                let next = (!self.rng.one_in(5)).then_some(next);
                local::bind(&mut self.rng, next, self.options.wide)
            }
            Move::Release => Action::Release,
            Move::TransportClosed => Action::TransportClosed,
        }
    }

    fn announced(&mut self, session: &SessionState, careless: bool) -> u64 {
        if session.start_pending && !careless {
            values::first_number(&mut self.rng, self.profile == Profile::Counting)
        } else if careless {
            values::odd_next(&mut self.rng, &self.config, session)
        } else {
            values::likely_next(&mut self.rng, &self.config, session)
        }
    }

    /// A new stamp, or now and then the clock out of range or a stamp at its ends.
    fn choose_stamp(&mut self) -> u64 {
        self.stamp += 1 + self.rng.below(3);
        match self.rng.below(40) {
            0 => NO_STAMP,
            1 => self.rng.pick(&[0, 1, NO_STAMP - 1]),
            _ => self.stamp,
        }
    }
}

/// A call on an empty queue and a good record.
const fn first(now: u64, stamp: u64, action: Action) -> Call {
    Call { now, stamp, queued: 0, bad: None, action }
}
