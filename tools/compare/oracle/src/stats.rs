//! Counts what a run has reached.

use std::collections::BTreeMap;
use std::fmt::{self, Write as _};

use crate::call::{Action, Bad, Call, Config};
use crate::codes::Flow;
use crate::reach::{PLACES, Seen};
use crate::reasons;
use crate::reply::{Answer, Out, Refusal, Reply, Text};
use crate::state::{Snapshot, Start};

/// The reason given when a stamp is needed and the clock is out of range.
const CLOCK_OUT_OF_RANGE: u8 = 20;

/// Why a number or a place is not met.
type Why<T = usize> = (T, &'static str);

/// What the histories of a run cannot meet.
#[derive(Debug)]
pub struct OutOfReach {
    calls: &'static [&'static str],
    refusals: &'static [Why],
    reasons: &'static [Why],
    places: &'static [Why<&'static str>],
    /// No record is out of range.
    bad: bool,
}

/// In histories that begin with an open.
pub const FROM_OPEN: OutOfReach = OutOfReach {
    calls: &[],
    refusals: &[(11, "a send moves outbound_next by one, and a batch starts below outbound_next")],
    reasons: &[
        (7, "a replay stays below its gap's end, which is at most 2^64-1"),
        (11, "a session from new with a sequenced peer always has an expected number"),
        (39, "outbound_next would have to reach 2^64-2 one send at a time"),
    ],
    places: &[],
    bad: false,
};

/// In histories from a state set up.
pub const FROM_STATE: OutOfReach = OutOfReach {
    calls: &[],
    refusals: &[(2, "nothing is opened")],
    reasons: &[],
    places: &[],
    bad: false,
};

/// In histories that a trace can hold: from an open, the queue emptied after each call, and all
/// ones in FinishedSending meaning absent.
pub const FROM_TRACE: OutOfReach = OutOfReach {
    calls: &["transport_closed"],
    refusals: &[(1, "a trace has no record in it"), (7, EMPTIED), FROM_OPEN.refusals[0]],
    reasons: &[
        FROM_OPEN.reasons[0],
        FROM_OPEN.reasons[1],
        (37, "a last of all ones means absent"),
        FROM_OPEN.reasons[2],
    ],
    places: &[
        ("last 2^64-1", "all ones mean absent"),
        ("26 outputs queued before", EMPTIED),
        ("27 outputs queued before", EMPTIED),
        ("32 outputs queued before", EMPTIED),
    ],
    bad: true,
};

const EMPTIED: &str = "the queue is emptied after each record";

/// The counts of a run.
#[derive(Debug)]
pub struct Stats {
    calls: u64,
    kinds: BTreeMap<&'static str, u64>,
    answers: BTreeMap<&'static str, u64>,
    outs: BTreeMap<&'static str, u64>,
    /// Calls in which the clock was out of range when a stamp was needed.
    clock_failures: BTreeMap<&'static str, u64>,
    refusals: [u64; Refusal::LAST + 1],
    reasons: [u64; reasons::LAST + 1],
    outs_per_call: [u64; Out::MOST + 1],
    flows: [[u64; 4]; 4],
    places: [u64; PLACES.len()],
    bad: [u64; Bad::ALL.len()],
    /// The configuration of the state set up, until its first call.
    planted: Option<Config>,
    bound_before: bool,
    out_of_reach: &'static OutOfReach,
}

impl Stats {
    /// Nothing counted yet.
    pub fn new(out_of_reach: &'static OutOfReach) -> Self {
        let zero = |names: &[&'static str]| names.iter().map(|name| (*name, 0)).collect();
        Self {
            calls: 0,
            kinds: zero(&Action::KINDS),
            answers: zero(&Answer::SORTS),
            outs: zero(&Out::KINDS),
            clock_failures: BTreeMap::new(),
            refusals: [0; Refusal::LAST + 1],
            reasons: [0; reasons::LAST + 1],
            outs_per_call: [0; Out::MOST + 1],
            flows: [[0; 4]; 4],
            places: [0; PLACES.len()],
            bad: [0; Bad::ALL.len()],
            planted: None,
            bound_before: false,
            out_of_reach,
        }
    }

    /// Calls counted.
    pub const fn calls(&self) -> u64 {
        self.calls
    }

    /// A history begins in this state.
    pub fn begin(&mut self, start: &Start) {
        self.flows[place(start.session.local)][place(start.session.remote)] += 1;
        self.planted = Some(start.config);
        self.bound_before = start.binding.is_some();
    }

    /// Counts one call.
    pub fn count(&mut self, call: &Call, before: Option<&Snapshot>, reply: &Reply) {
        self.calls += 1;
        add(&mut self.kinds, call.action.kind());
        add(&mut self.answers, reply.answer.sort());
        if let Answer::Refused(refusal) = reply.answer {
            self.refusals[refusal.number()] += 1;
        }
        self.outs_per_call[reply.outs.len()] += 1;
        for out in &reply.outs {
            add(&mut self.outs, out.kind());
            if matches!(out, Out::SendTerminate { reason: Text::Own(CLOCK_OUT_OF_RANGE), .. }) {
                *self.clock_failures.entry(call.action.kind()).or_default() += 1;
            }
            if let Some(reason) = out.reason() {
                self.reasons[usize::from(reason)] += 1;
            }
        }
        if let Some(bad) = call.bad {
            self.bad[bad as usize] += 1;
        }
        let mut config = self.planted.take();
        if let (Action::Open(open), Answer::Ok) = (&call.action, reply.answer) {
            self.flows[place(open.local)][place(open.remote)] += 1;
            self.bound_before = false;
            config = Some(open.config);
        }
        let seen = Seen { call, before, reply, config, bound_before: self.bound_before };
        for (count, (_, test)) in self.places.iter_mut().zip(PLACES) {
            *count += u64::from(test(&seen));
        }
        self.bound_before |=
            matches!(call.action, Action::Bind { .. }) && reply.answer == Answer::Ok;
    }

    /// What stands at zero, with the reason where there is one.
    fn unreached(&self) -> Vec<String> {
        let named = [("call", &self.kinds), ("answer", &self.answers), ("output", &self.outs)];
        let mut zeros = Vec::new();
        for (what, counts) in named {
            for (name, _) in counts.iter().filter(|(_, count)| **count == 0) {
                let known = what == "call" && self.out_of_reach.calls.contains(name);
                zeros.push(format!("{what} {name}{}", if known { " (no record)" } else { "" }));
            }
        }
        for (local, remote) in Flow::ALL.iter().flat_map(|a| Flow::ALL.iter().map(move |b| (a, b)))
        {
            if self.flows[place(*local)][place(*remote)] == 0 {
                zeros.push(format!("flows {local:?} and {remote:?}"));
            }
        }
        for (count, (name, _)) in self.places.iter().zip(PLACES) {
            if *count == 0 {
                let why = explained(self.out_of_reach.places, name);
                zeros.push(format!("{name}{why}"));
            }
        }
        for (count, bad) in self.bad.iter().zip(Bad::ALL) {
            if *count == 0 && !self.out_of_reach.bad {
                zeros.push(format!("bad {bad:?}"));
            }
        }
        for number in 1..=Refusal::LAST {
            if self.refusals[number] == 0 {
                let why = explained(self.out_of_reach.refusals, number);
                zeros.push(format!("refusal {number}{why}"));
            }
        }
        for number in 1..=reasons::LAST {
            if self.reasons[number] == 0 {
                let why = explained(self.out_of_reach.reasons, number);
                zeros.push(format!("reason {number} {:?}{why}", reasons::text(number)));
            }
        }
        zeros
    }
}

impl fmt::Display for Stats {
    fn fmt(&self, f: &mut fmt::Formatter<'_>) -> fmt::Result {
        writeln!(f, "calls: {}", self.calls)?;
        writeln!(f, "by kind:{}", named(&self.kinds))?;
        writeln!(f, "answers:{}", named(&self.answers))?;
        writeln!(f, "refusals:{}", numbered(&self.refusals[1..], 1))?;
        writeln!(f, "reasons:{}", numbered(&self.reasons[1..], 1))?;
        writeln!(f, "outputs:{}", named(&self.outs))?;
        writeln!(f, "outputs per call:{}", numbered(&self.outs_per_call, 0))?;
        writeln!(f, "clock out of range in:{}", named(&self.clock_failures))?;
        let pairs = self.flows.iter().flatten().filter(|count| **count > 0).count();
        writeln!(f, "pairs of flows: {pairs} of 16")?;
        writeln!(
            f,
            "bad records:{}",
            worded(Bad::ALL.iter().map(|bad| format!("{bad:?}")), &self.bad)
        )?;
        writeln!(
            f,
            "places:{}",
            worded(PLACES.iter().map(|(name, _)| format!("[{name}]")), &self.places)
        )?;
        for zero in self.unreached() {
            writeln!(f, "at zero: {zero}")?;
        }
        Ok(())
    }
}

fn add(counts: &mut BTreeMap<&'static str, u64>, name: &str) {
    *counts.get_mut(name).expect("each name is listed") += 1;
}

fn place(flow: Flow) -> usize {
    usize::from(flow.code()) - 1
}

fn explained<T: Copy + PartialEq>(table: &[(T, &'static str)], row: T) -> String {
    table
        .iter()
        .find(|(known, _)| *known == row)
        .map_or_else(String::new, |(_, why)| format!(" ({why})"))
}

fn named(counts: &BTreeMap<&'static str, u64>) -> String {
    counts.iter().fold(String::new(), |mut line, (name, count)| {
        write!(line, " {name}={count}").expect("a string takes all");
        line
    })
}

fn numbered(counts: &[u64], first: usize) -> String {
    counts.iter().enumerate().fold(String::new(), |mut line, (place, count)| {
        write!(line, " {}={count}", place + first).expect("a string takes all");
        line
    })
}

fn worded(names: impl Iterator<Item = String>, counts: &[u64]) -> String {
    names.zip(counts).fold(String::new(), |mut line, (name, count)| {
        write!(line, " {name}={count}").expect("a string takes all");
        line
    })
}
