//! 01's sample input gives 01's ten lines.

use oracle::call::{Action, Call, Config, Open, Peer};
use oracle::codes::{Flow, Policy};
use oracle::trace;

const ID: [u8; 16] = [7; 16];

fn at_zero(stamp: u64, action: Action) -> Call {
    Call { now: 0, stamp, queued: 0, bad: None, action }
}

#[test]
fn sample_input_gives_the_ten_lines() {
    let open = Open {
        id: ID,
        local: Flow::Recoverable,
        remote: Flow::Recoverable,
        config: Config {
            max_gap_len: 100,
            max_retransmit_count: 10,
            max_pending_gaps: 2,
            timeout: 1000,
            grace: Some(1000),
            policy: Policy::Terminate,
        },
    };
    let bind = Action::Bind { local_keepalive: 1000, remote_keepalive: 1000, next: Some(1) };
    let header = Peer::Retransmission { id: ID, stamp: 7, next: 2, count: 2 };
    let calls = [
        at_zero(0, Action::Open(open)),
        at_zero(0, bind),
        at_zero(0, Action::Application),
        at_zero(7, Action::Peer(Peer::Sequence { next: 4 })),
        at_zero(0, Action::Peer(header)),
        at_zero(0, Action::Application),
        at_zero(0, Action::Application),
        at_zero(0, Action::Peer(Peer::Sequence { next: 4 })),
    ];
    let input = trace::history(&calls).expect("each call has a record");
    assert_eq!(
        trace::program::output(&input),
        "fixp-trace 1\n\
         0 ok unbound 1 0 0\n\
         1 ok established 1 0 0\n\
         2 accept:1 established 2 0 0\n\
         3 ok established 4 1 2\n\
         4 ok established 4 1 0\n\
         5 replay:2 established 4 1 0\n\
         6 replay:3 established 4 0 1\n\
         7 ok established 4 0 0\n\
         end missing 0\n"
    );
}

#[test]
fn empty_input_prints_the_first_and_last_line() {
    assert_eq!(trace::program::output(&[]), "fixp-trace 1\nend missing 0\n");
}

#[test]
fn input_too_long_prints_only_stop() {
    assert_eq!(trace::program::output(&[0; trace::MAX_BYTES + 1]), "stop 0\n");
}
