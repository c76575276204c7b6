//! Runs the same histories on two subjects, up to the first difference.

use crate::call::Call;
use crate::checks;
use crate::generate::{Begin, Options, Script};
use crate::history::History;
use crate::reply::Reply;
use crate::rng::Rng;
use crate::state::Snapshot;
use crate::stats::{self, Stats};
use crate::subject::Subject;

/// How much to run.
#[derive(Debug, Clone, Copy)]
pub struct Run {
    pub seed: u64,
    /// At least this many calls, up to the end of the last history.
    pub calls: u64,
    pub options: Options,
}

/// What two subjects gave differently.
#[derive(Debug, Clone, PartialEq, Eq)]
pub enum Difference {
    /// The state set up reads back differently.
    Start { left: Box<Snapshot>, right: Box<Snapshot> },
    /// The reply to the call at this place.
    Call { index: usize, left: Box<Reply>, right: Box<Reply> },
}

/// What a run gave.
#[derive(Debug)]
pub struct Outcome {
    /// Of histories that begin with an open.
    pub opened: Stats,
    /// Of histories from a state set up.
    pub planted: Stats,
    pub difference: Option<(History, Difference)>,
}

/// Compares two subjects; the left one decides what the histories look at.
pub fn compare(left: &mut dyn Subject, right: &mut dyn Subject, run: &Run) -> Outcome {
    let mut outcome = Outcome {
        opened: Stats::new(&stats::FROM_OPEN),
        planted: Stats::new(&stats::FROM_STATE),
        difference: None,
    };
    let mut number = 0;
    while outcome.opened.calls() + outcome.planted.calls() < run.calls {
        let (script, begin) = Script::begin(Rng::new(run.seed, number), run.options);
        let stats = match begin {
            Begin::Open(_) => &mut outcome.opened,
            Begin::Planted(_) => &mut outcome.planted,
        };
        let difference = compare_script(left, right, script, begin, stats);
        if difference.is_some() {
            outcome.difference = difference;
            break;
        }
        number += 1;
    }
    outcome
}

/// The first difference of two subjects in a given history.
pub fn first_difference(
    left: &mut dyn Subject,
    right: &mut dyn Subject,
    history: &History,
) -> Option<Difference> {
    left.reset();
    right.reset();
    if let Some(start) = &history.start {
        let (left, right) = (left.start(start), right.start(start));
        if left != right {
            return Some(Difference::Start { left: Box::new(left), right: Box::new(right) });
        }
    }
    history.calls.iter().enumerate().find_map(|(index, call)| {
        let (left, right) = (left.call(call), right.call(call));
        (left != right).then(|| Difference::Call {
            index,
            left: Box::new(left),
            right: Box::new(right),
        })
    })
}

fn compare_script(
    left: &mut dyn Subject,
    right: &mut dyn Subject,
    mut script: Script,
    begin: Begin,
    stats: &mut Stats,
) -> Option<(History, Difference)> {
    left.reset();
    right.reset();
    let mut history = History::default();
    let mut before = None;
    let mut next: Option<Call> = None;
    match begin {
        Begin::Open(call) => next = Some(*call),
        Begin::Planted(start) => {
            let (left, right) = (left.start(&start), right.start(&start));
            stats.begin(&start);
            history.start = Some(*start);
            if left != right {
                let (left, right) = (Box::new(left), Box::new(right));
                return Some((history, Difference::Start { left, right }));
            }
            before = Some(left);
        }
    }
    while let Some(call) = next.take().or_else(|| script.next(before.as_ref())) {
        let (left, right) = (left.call(&call), right.call(&call));
        checks::check(&call, before.as_ref(), &left);
        stats.count(&call, before.as_ref(), &left);
        let index = history.calls.len();
        history.calls.push(call);
        if left != right {
            let (left, right) = (Box::new(left), Box::new(right));
            return Some((history, Difference::Call { index, left, right }));
        }
        before = left.snapshot;
    }
    None
}
