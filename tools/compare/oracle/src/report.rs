//! Writes a difference down: in words, and as a trace if it can be one.

use std::path::{Path, PathBuf};
use std::{fs, io};

use crate::compare::Difference;
use crate::history::History;
use crate::reply::Reply;
use crate::state::Snapshot;

/// Writes `NAME.txt`, and `NAME.trace` if a trace can hold the history; gives the paths.
pub fn write(
    folder: &Path,
    name: &str,
    history: &History,
    difference: &Difference,
) -> io::Result<Vec<PathBuf>> {
    fs::create_dir_all(folder)?;
    let text = folder.join(format!("{name}.txt"));
    fs::write(&text, describe(history, difference))?;
    let mut written = vec![text];
    if let Some(bytes) = history.trace() {
        let trace = folder.join(format!("{name}.trace"));
        fs::write(&trace, bytes)?;
        written.push(trace);
    }
    Ok(written)
}

/// The calls, and where the two sides part.
pub fn describe(history: &History, difference: &Difference) -> String {
    let mut lines = Vec::new();
    if let Some(start) = &history.start {
        lines.push(format!("start {start:?}"));
    }
    for (index, call) in history.calls.iter().enumerate() {
        lines.push(format!("{index} {call:?}"));
    }
    match difference {
        Difference::Start { left, right } => {
            lines.push("the start differs".to_owned());
            lines.extend(apart(&state_lines(Some(left)), &state_lines(Some(right))));
        }
        Difference::Call { index, left, right } => {
            lines.push(format!("call {index} differs"));
            lines.extend(apart(&reply_lines(left), &reply_lines(right)));
        }
    }
    lines.join("\n") + "\n"
}

/// The lines that only one side has.
fn apart(left: &[String], right: &[String]) -> Vec<String> {
    let only = |name, these: &[String], those: &[String]| -> Vec<String> {
        these
            .iter()
            .filter(|line| !those.contains(line))
            .map(|line| format!("{name} {line}"))
            .collect()
    };
    [only("left: ", left, right), only("right:", right, left)].concat()
}

fn reply_lines(reply: &Reply) -> Vec<String> {
    let mut lines = vec![format!("answer: {:?}", reply.answer)];
    let outs = reply.outs.iter().enumerate();
    lines.extend(outs.map(|(place, out)| format!("output {place}: {out:?}")));
    lines.extend(state_lines(reply.snapshot.as_ref()));
    lines
}

/// One line for each field.
fn state_lines(snapshot: Option<&Snapshot>) -> Vec<String> {
    let Some(snapshot) = snapshot else {
        return vec!["no session".to_owned()];
    };
    let session = &snapshot.session;
    vec![
        format!("id: {:?}", session.id),
        format!("flows: {:?}, {:?}", session.local, session.remote),
        format!("outbound_next: {}", session.outbound_next),
        format!("inbound_next: {:?}", session.inbound_next),
        format!("start_pending: {}", session.start_pending),
        format!("missing: {:?}", session.missing),
        format!("overflow_received: {:?}", session.overflow_received),
        format!("outstanding: {:?}", session.outstanding),
        format!("replay: {:?}", session.replay),
        format!("awaiting_resume: {}", session.awaiting_resume),
        format!("provider: {:?}", session.provider),
        format!("peer_finished: {:?}", session.peer_finished),
        format!("finalized: {}", session.finalized),
        format!("binding: {:?}", snapshot.binding),
        format!("next_deadline: {:?}", snapshot.next_deadline),
        format!("transport_closing: {}", snapshot.transport_closing),
    ]
}
