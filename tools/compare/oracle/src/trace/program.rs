//! What the trace program prints for an input.

use super::{MAX_BYTES, record};
use crate::oracle::Oracle;
use crate::reply::{Answer, Reply};
use crate::state::{Snapshot, Status};
use crate::subject::Subject;

/// The whole output, computed by the source.
pub fn output(input: &[u8]) -> String {
    if input.len() > MAX_BYTES {
        return "stop 0\n".to_owned();
    }
    let mut oracle = Oracle::new();
    let mut output = "fixp-trace 1\n".to_owned();
    let mut rest = input;
    let mut last = None;
    let mut index = 0;
    while !rest.is_empty() {
        let reply = record(rest).map(|(call, behind)| {
            rest = behind;
            oracle.call(&call)
        });
        match reply {
            Some(reply) if reply.answer != Answer::Stop => {
                output.push_str(&line(index, &reply));
                last = reply.snapshot;
            }
            Some(_) | None => return format!("{output}stop {index}\n"),
        }
        index += 1;
    }
    format!("{output}end missing {}\n", last.as_ref().map_or(0, missing))
}

/// Index, answer, status, expected number, number of gaps, outputs of this record.
fn line(index: usize, reply: &Reply) -> String {
    let snapshot = reply.snapshot.as_ref();
    let status = snapshot.map_or(Status::Unbound, Snapshot::status).word();
    let expected = snapshot
        .and_then(|snapshot| snapshot.session.inbound_next)
        .map_or_else(|| "-".to_owned(), |next| next.to_string());
    let gaps = snapshot.map_or(0, |snapshot| snapshot.session.missing.len());
    let answer = answer(&reply.answer);
    format!("{index} {answer} {status} {expected} {gaps} {}\n", reply.outs.len())
}

fn answer(answer: &Answer) -> String {
    match answer {
        Answer::Ok | Answer::Accept(None) | Answer::Discard | Answer::Sent(None) | Answer::Stop => {
            answer.sort().to_owned()
        }
        Answer::Accept(Some(number)) => format!("accept:{number}"),
        Answer::Replay(number) => format!("replay:{number}"),
        Answer::Sent(Some(number)) => format!("sent:{number}"),
        Answer::Batch { from, count } => format!("batch:{from}:{count}"),
        Answer::Refused(refusal) => format!("refused:{}", refusal.number()),
    }
}

/// The sum of the gap lengths.
fn missing(snapshot: &Snapshot) -> u64 {
    snapshot.session.missing.iter().map(|gap| gap.end - gap.from).sum()
}
