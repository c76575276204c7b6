//! Chooses few histories that together reach all that many have reached.

use std::collections::HashSet;
use std::hash::{DefaultHasher, Hash, Hasher};

use crate::call::Call;
use crate::generate::{Begin, Options, Script};
use crate::history::History;
use crate::oracle::Oracle;
use crate::reply::{Answer, Reply};
use crate::rng::Rng;
use crate::shrink;
use crate::state::{Snapshot, Status};
use crate::stats::{self, Stats};
use crate::subject::Subject;

/// What a call did, as a number: calls that did alike have the same.
type Feature = u64;

/// A history and what it reaches.
struct Candidate {
    history: History,
    features: HashSet<Feature>,
}

/// At most `count` histories that a trace can hold, each cut down to what it is there for.
pub fn choose(seed: u64, tried: u64, count: usize) -> Vec<History> {
    let candidates = candidates(seed, tried);
    let mut covered = HashSet::new();
    let mut chosen = Vec::new();
    while chosen.len() < count {
        let gain = |candidate: &&Candidate| candidate.features.difference(&covered).count();
        let Some(best) = candidates.iter().max_by_key(gain).filter(|best| gain(best) > 0) else {
            break;
        };
        let kept: HashSet<_> = best.features.difference(&covered).copied().collect();
        let mut history = best.history.clone();
        shrink::drop_calls(&mut history, &mut |shorter| kept.is_subset(&features(shorter)));
        covered.extend(features(&history));
        chosen.push(history);
    }
    chosen
}

/// The histories among those tried that reach something first.
fn candidates(seed: u64, tried: u64) -> Vec<Candidate> {
    let mut seen = HashSet::new();
    let mut candidates = Vec::new();
    let mut oracle = Oracle::new();
    for number in 0..tried {
        let history = generate(&mut oracle, Rng::new(seed, number));
        let features = features(&history);
        if history.trace().is_some() && !features.is_subset(&seen) {
            seen.extend(&features);
            candidates.push(Candidate { history, features });
        }
    }
    candidates
}

fn generate(oracle: &mut Oracle, rng: Rng) -> History {
    let options = Options { wide: false, traceable: true };
    let (mut script, Begin::Open(open)) = Script::begin(rng, options) else {
        unreachable!("a traceable history begins with an open");
    };
    oracle.reset();
    let mut history = History::default();
    let mut next = Some(*open);
    let mut before = None;
    while let Some(call) = next.take().or_else(|| script.next(before.as_ref())) {
        before = oracle.call(&call).snapshot;
        history.calls.push(call);
    }
    history
}

/// What a history reaches.
fn features(history: &History) -> HashSet<Feature> {
    let mut oracle = Oracle::new();
    let mut features = HashSet::new();
    let mut before: Option<Snapshot> = None;
    let mut last_kind = "";
    for call in &history.calls {
        let reply = oracle.call(call);
        let step = step_feature(call, before.as_ref(), &reply);
        features.insert(step);
        features.insert(hash((last_kind, call.action.kind(), reply.answer.sort())));
        if let Some(snapshot) = &reply.snapshot {
            features.insert(hash((step, snapshot.session.local, snapshot.session.remote)));
            features.extend(list_features(snapshot));
        }
        before = reply.snapshot;
        last_kind = call.action.kind();
    }
    features
}

/// Kind of call, status before and after, answer, and outputs with their reasons.
fn step_feature(call: &Call, before: Option<&Snapshot>, reply: &Reply) -> Feature {
    let refusal = match reply.answer {
        Answer::Refused(refusal) => refusal.number(),
        _ => 0,
    };
    let outs: Vec<_> = reply.outs.iter().map(|out| (out.kind(), out.reason())).collect();
    let status = |snapshot: Option<&Snapshot>| snapshot.map_or(Status::Unbound, Snapshot::status);
    hash((
        call.action.kind(),
        status(before),
        status(reply.snapshot.as_ref()),
        reply.answer.sort(),
        refusal,
        outs,
    ))
}

/// Lists at their limits.
fn list_features(snapshot: &Snapshot) -> impl Iterator<Item = Feature> {
    let session = &snapshot.session;
    [
        ("gaps", session.missing.len(), [1, 2, 64, 65]),
        ("runs", session.overflow_received.len(), [1, 2, 255, 256]),
    ]
    .into_iter()
    .filter(|(_, length, edges)| edges.contains(length))
    .map(|(list, length, _)| hash((list, length)))
}

fn hash(value: impl Hash) -> Feature {
    let mut hasher = DefaultHasher::new();
    value.hash(&mut hasher);
    hasher.finish()
}

/// What the histories reach all together.
pub fn stats(histories: &[History]) -> Stats {
    let mut stats = Stats::new(&stats::FROM_TRACE);
    let mut oracle = Oracle::new();
    for history in histories {
        oracle.reset();
        let mut before = None;
        for call in &history.calls {
            let reply = oracle.call(call);
            stats.count(call, before.as_ref(), &reply);
            before = reply.snapshot;
        }
    }
    stats
}
