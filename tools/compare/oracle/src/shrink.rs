//! Makes a history shorter and its numbers smaller for as long as it still fails.

use crate::call::{Action, Call, Peer};
use crate::history::History;
use crate::state::Start;

/// Numbers from here on are worth making smaller.
const SMALL: u64 = 10;

/// A test that a history is to keep failing.
type Fails<'a> = dyn FnMut(&History) -> bool + 'a;

/// The shortest and plainest history found that still fails.
pub fn shrink(history: &History, fails: &mut Fails<'_>) -> History {
    let mut best = history.clone();
    allow_long_gaps(&mut best, fails);
    drop_calls(&mut best, fails);
    loop {
        let plainer = plainer_start(&mut best, fails) | smaller_numbers(&mut best, fails);
        if !(plainer && drop_calls(&mut best, fails)) {
            return best;
        }
    }
}

/// Drops calls, in chunks that get smaller down to one.
pub fn drop_calls(best: &mut History, fails: &mut Fails<'_>) -> bool {
    let mut dropped = false;
    let mut chunk = best.calls.len().div_ceil(2);
    while chunk > 0 {
        let mut place = best.calls.len();
        while place > 0 {
            let from = place.saturating_sub(chunk);
            let mut shorter = best.clone();
            shorter.calls.drain(from..place);
            if fails(&shorter) {
                *best = shorter;
                dropped = true;
            }
            place = from.min(best.calls.len());
        }
        chunk /= 2;
    }
    dropped
}

/// Allows gaps of any length, so that calls dropped leave a longer gap and no violation.
fn allow_long_gaps(best: &mut History, fails: &mut Fails<'_>) {
    attempt(best, fails, |calls| {
        for call in calls {
            if let Action::Open(open) = &mut call.action {
                open.config.max_gap_len = u64::MAX;
            }
        }
    });
}

/// Takes parts out of the state at the start.
fn plainer_start(best: &mut History, fails: &mut Fails<'_>) -> bool {
    const CUTS: [fn(&mut Start); 10] = [
        |start| start.session.missing.truncate(start.session.missing.len().saturating_sub(1)),
        |start| start.session.overflow_received.clear(),
        |start| start.session.outstanding = None,
        |start| start.session.replay = None,
        |start| start.session.provider = None,
        |start| start.session.peer_finished = None,
        |start| start.session.awaiting_resume = false,
        |start| start.session.finalized = false,
        |start| start.session.start_pending = false,
        |start| start.transport_closing = false,
    ];
    let mut changed = false;
    for cut in CUTS {
        while let Some(start) = &best.start {
            let mut plainer = start.clone();
            cut(&mut plainer);
            if plainer == *start {
                break;
            }
            let candidate = History { start: Some(plainer), calls: best.calls.clone() };
            if !fails(&candidate) {
                break;
            }
            *best = candidate;
            changed = true;
        }
    }
    changed
}

/// Replaces numbers: first each value everywhere at once, as a request's stamp and its answer's
/// belong together, then each number by itself, and reasons by shorter ones.
fn smaller_numbers(best: &mut History, fails: &mut Fails<'_>) -> bool {
    let mut changed = false;
    for value in large_values(best) {
        changed |= [0, 1, 2, 7, value / 2].into_iter().any(|smaller| {
            attempt(best, fails, |calls| {
                for call in calls {
                    each_number(call, &mut |number| {
                        if *number == value {
                            *number = smaller;
                        }
                    });
                }
            })
        });
    }
    for index in 0..best.calls.len() {
        changed |= attempt(best, fails, |calls| calls[index].queued = 0);
        changed |= attempt(best, fails, |calls| calls[index].bad = None);
        changed |= attempt(best, fails, |calls| shorten_reason(&mut calls[index]));
        let mut count = 0;
        each_number(&mut best.calls[index].clone(), &mut |_| count += 1);
        for place in 0..count {
            changed |= [0, 1].into_iter().any(|smaller| {
                attempt(best, fails, |calls| {
                    let mut at = 0;
                    each_number(&mut calls[index], &mut |number| {
                        if at == place && *number > smaller {
                            *number = smaller;
                        }
                        at += 1;
                    });
                })
            });
        }
    }
    changed
}

/// Keeps an edit if it changes the calls and the history still fails.
fn attempt(best: &mut History, fails: &mut Fails<'_>, edit: impl FnOnce(&mut [Call])) -> bool {
    let mut candidate = best.clone();
    edit(&mut candidate.calls);
    let better = candidate != *best && fails(&candidate);
    if better {
        *best = candidate;
    }
    better
}

fn large_values(history: &History) -> Vec<u64> {
    let mut values = Vec::new();
    for mut call in history.calls.iter().cloned() {
        each_number(&mut call, &mut |number| values.push(*number));
    }
    values.retain(|value| *value >= SMALL);
    values.sort_unstable();
    values.dedup();
    values
}

fn shorten_reason(call: &mut Call) {
    match &mut call.action {
        Action::Terminate { reason, .. }
        | Action::Reject { reason, .. }
        | Action::Peer(Peer::RetransmitReject { reason, .. } | Peer::Terminate { reason, .. }) => {
            reason.clear();
        }
        _ => {}
    }
}

/// Visits every number of a call; one that no longer fits its field stays as it was.
fn each_number(call: &mut Call, visit: &mut dyn FnMut(&mut u64)) {
    visit(&mut call.now);
    visit(&mut call.stamp);
    match &mut call.action {
        Action::Open(open) => {
            visit(&mut open.config.max_gap_len);
            visit_u32(&mut open.config.max_retransmit_count, visit);
            visit(&mut open.config.timeout);
            visit_optional(&mut open.config.grace, visit);
        }
        Action::Bind { local_keepalive, remote_keepalive, next } => {
            visit(local_keepalive);
            visit(remote_keepalive);
            visit_optional(next, visit);
        }
        Action::Retransmit { count } => visit_u32(count, visit),
        Action::Peer(peer) => each_peer_number(peer, visit),
        Action::Release
        | Action::Application
        | Action::Send
        | Action::Terminate { .. }
        | Action::Reject { .. }
        | Action::End
        | Action::Timeout
        | Action::TransportClosed => {}
    }
}

fn each_peer_number(peer: &mut Peer, visit: &mut dyn FnMut(&mut u64)) {
    match peer {
        Peer::Sequence { next } | Peer::Context { next, .. } => visit(next),
        Peer::RetransmitRequest { stamp, from: number, count, .. }
        | Peer::Retransmission { stamp, next: number, count, .. } => {
            visit(stamp);
            visit(number);
            visit_u32(count, visit);
        }
        Peer::RetransmitReject { stamp, .. } => visit(stamp),
        Peer::FinishedSending { last, .. } => visit_optional(last, visit),
        Peer::Applied { from, count } | Peer::NotApplied { from, count } => {
            visit(from);
            visit_u32(count, visit);
        }
        Peer::UnsequencedHeartbeat
        | Peer::Terminate { .. }
        | Peer::FinishedReceiving { .. }
        | Peer::Topic
        | Peer::MessageTemplate => {}
    }
}

fn visit_u32(field: &mut u32, visit: &mut dyn FnMut(&mut u64)) {
    let mut number = u64::from(*field);
    visit(&mut number);
    *field = u32::try_from(number).unwrap_or(*field);
}

fn visit_optional(field: &mut Option<u64>, visit: &mut dyn FnMut(&mut u64)) {
    if let Some(number) = field {
        visit(number);
    }
}
