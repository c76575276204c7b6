//! Inputs of the trace program that are not whole histories: torn, malformed, too long.

use crate::call::{Action, Call, Config, Open, Peer};
use crate::codes::{Flow, Policy, TerminationCode};
use crate::trace;

/// The inputs.
pub fn inputs() -> Vec<Vec<u8>> {
    let open = record(Action::Open(open(2)));
    let refused = record(Action::Open(self::open(65)));
    let sequence = record(Action::Peer(Peer::Sequence { next: 4 }));
    let release = record(Action::Release);
    let terminate = |length| {
        record(Action::Terminate { code: TerminationCode::Finished, reason: vec![0xFF; length] })
    };
    let full = open.len() + terminate(0).len() + release.len();
    let longest = terminate(60_000);
    let filled = trace::MAX_BYTES - open.len() - longest.len() - terminate(0).len();
    vec![
        // No record, no open, a refused open alone and with a record behind it, a second open.
        Vec::new(),
        release.clone(),
        refused.clone(),
        [refused, release.clone()].concat(),
        [open.clone(), release.clone(), open.clone()].concat(),
        // A torn tail at each place of a record.
        [open.as_slice(), &sequence[..1]].concat(),
        [open.as_slice(), &sequence[..2]].concat(),
        [open.as_slice(), &sequence[..19]].concat(),
        [open.as_slice(), &sequence[..27]].concat(),
        open[..68].to_vec(),
        // Lengths that are not the kind's.
        [open.clone(), with(&sequence, 0, 0), release.clone()].concat(),
        [open.clone(), with(&release, 0, 19), release.clone()].concat(),
        [open.clone(), with(&release, 0, 21), release.clone()].concat(),
        [open.clone(), with(&sequence, 0, 27), release.clone()].concat(),
        [open.clone(), with(&terminate(0), 0, 20), release.clone()].concat(),
        // Unknown kinds, and codes outside their lists.
        [open.clone(), with(&release, 2, 0)].concat(),
        [open.clone(), with(&release, 2, 5)].concat(),
        [open.clone(), with(&release, 3, 1)].concat(),
        [open.clone(), with(&release, 2, 70)].concat(),
        [open.clone(), with(&terminate(3), 20, 0)].concat(),
        [open.clone(), with(&terminate(3), 20, 5)].concat(),
        with(&open, 36, 0),
        with(&open, 37, 5),
        with(&open, 68, 0),
        with(&open, 68, 5),
        // As long as may be, and one longer.
        [open.clone(), longest.clone(), terminate(filled)].concat(),
        [open.clone(), longest, terminate(filled + 1)].concat(),
        [open, terminate(usize::from(u16::MAX) - full), release].concat(),
    ]
}

fn open(max_pending_gaps: u16) -> Open {
    Open {
        id: [9; 16],
        local: Flow::Recoverable,
        remote: Flow::Recoverable,
        config: Config {
            max_gap_len: 100,
            max_retransmit_count: 10,
            max_pending_gaps,
            timeout: 1_000,
            grace: None,
            policy: Policy::EventOnly,
        },
    }
}

fn record(action: Action) -> Vec<u8> {
    let call = Call { now: 1, stamp: 2, queued: 0, bad: None, action };
    trace::record_bytes(&call).expect("the call has a record")
}

/// The record with one byte changed.
fn with(record: &[u8], place: usize, byte: u8) -> Vec<u8> {
    let mut changed = record.to_vec();
    changed[place] = byte;
    changed
}
