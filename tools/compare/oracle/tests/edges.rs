//! 01's "both sides of each edge", run on the source.

use oracle::call::{Action, Call, Config, Open, Peer};
use oracle::codes::{Flow, Policy};
use oracle::oracle::Oracle;
use oracle::reply::{Answer, Out, Refusal, Reply};
use oracle::state::{Range, SessionState, Start, Status};
use oracle::subject::Subject;

const ID: [u8; 16] = [3; 16];
const CONFIG: Config = Config {
    max_gap_len: 100,
    max_retransmit_count: 10,
    max_pending_gaps: 2,
    timeout: 1_000,
    grace: None,
    policy: Policy::EventOnly,
};

fn run(oracle: &mut Oracle, action: Action) -> Reply {
    oracle.call(&Call { now: 0, stamp: 7, queued: 0, bad: None, action })
}

fn bind(oracle: &mut Oracle) -> Reply {
    run(oracle, Action::Bind { local_keepalive: 1_000, remote_keepalive: 1_000, next: None })
}

/// A new session, bound, with Recoverable flows.
fn bound() -> Oracle {
    let mut oracle = Oracle::new();
    let open = Open { id: ID, local: Flow::Recoverable, remote: Flow::Recoverable, config: CONFIG };
    run(&mut oracle, Action::Open(open));
    bind(&mut oracle);
    oracle
}

fn sequence(oracle: &mut Oracle, next: u64) -> Reply {
    run(oracle, Action::Peer(Peer::Sequence { next }))
}

fn session(reply: &Reply) -> &SessionState {
    &reply.snapshot.as_ref().expect("there is a session").session
}

fn status(reply: &Reply) -> Status {
    reply.snapshot.as_ref().expect("there is a session").status()
}

fn violation(reply: &Reply) -> Option<u8> {
    reply.outs.iter().find_map(|out| match out {
        Out::ProtocolViolation { reason } => Some(*reason),
        _ => None,
    })
}

/// A bound session that has numbered its messages up to here.
fn having_sent(outbound_next: u64) -> Oracle {
    let mut oracle = bound();
    let snapshot = sequence(&mut oracle, 1).snapshot.expect("there is a session");
    oracle.start(&Start {
        config: CONFIG,
        session: SessionState { outbound_next, ..snapshot.session },
        binding: snapshot.binding,
        transport_closing: false,
    });
    oracle
}

#[test]
fn case_1_first_announcement_sets_the_expected_number() {
    let reply = sequence(&mut bound(), 5);
    assert_eq!(session(&reply).inbound_next, Some(5));
    assert!(session(&reply).missing.is_empty() && reply.outs.is_empty());
}

#[test]
fn case_2_application_message_settles_the_start_at_1() {
    assert_eq!(run(&mut bound(), Action::Application).answer, Answer::Accept(Some(1)));
}

#[test]
fn case_3_announcement_one_below_is_a_violation() {
    let mut oracle = bound();
    sequence(&mut oracle, 5);
    let reply = sequence(&mut oracle, 4);
    assert_eq!((violation(&reply), reply.outs.len()), (Some(17), 4));
}

#[test]
fn case_4_gap_as_long_as_allowed_and_one_longer() {
    let mut oracle = bound();
    sequence(&mut oracle, 5);
    assert_eq!(session(&sequence(&mut oracle, 105)).missing, [Range { from: 5, end: 105 }]);
    let mut oracle = bound();
    sequence(&mut oracle, 5);
    let reply = sequence(&mut oracle, 106);
    assert_eq!((violation(&reply), reply.outs.len()), (Some(16), 4));
    assert!(session(&reply).missing.is_empty());
}

#[test]
fn case_5_inbound_numbers_are_exhausted() {
    let mut oracle = bound();
    assert_eq!(session(&sequence(&mut oracle, u64::MAX)).inbound_next, Some(u64::MAX));
    let reply = run(&mut oracle, Action::Application);
    assert_eq!((reply.answer, violation(&reply)), (Answer::Discard, Some(12)));
}

#[test]
fn case_6_outbound_numbers_end() {
    let mut oracle = having_sent(u64::MAX - 2);
    assert_eq!(run(&mut oracle, Action::Send).answer, Answer::Sent(Some(u64::MAX - 2)));
    let reply = run(&mut oracle, Action::Send);
    assert_eq!(reply.answer, Answer::Refused(Refusal::SequenceExhausted));
    assert!(reply.outs.is_empty());
}

#[test]
fn case_7_requests_at_the_ends_of_what_was_sent() {
    for (from, count, served) in [(1, 10, true), (2, 10, false), (0, 1, false)] {
        let request = Peer::RetransmitRequest { id: ID, stamp: 1, from, count };
        let reply = run(&mut having_sent(11), Action::Peer(request));
        assert_eq!(session(&reply).provider.is_some(), served, "from {from} count {count}");
    }
}

#[test]
fn case_8_third_gap_is_held() {
    let two_gaps = || {
        let mut oracle = bound();
        for next in [1, 3] {
            sequence(&mut oracle, next);
            run(&mut oracle, Action::Application);
        }
        assert_eq!(session(&sequence(&mut oracle, 5)).missing.len(), 2);
        run(&mut oracle, Action::Application);
        oracle
    };
    let reply = sequence(&mut two_gaps(), 7);
    assert_eq!((violation(&reply), reply.outs.len()), (Some(18), 5));
    assert_eq!((session(&reply).missing.len(), status(&reply)), (3, Status::Unbound));
    let finished = Peer::FinishedSending { id: ID, last: Some(6) };
    let reply = run(&mut two_gaps(), Action::Peer(finished));
    assert_eq!((violation(&reply), reply.outs.len()), (Some(18), 6));
    assert_eq!((session(&reply).missing.len(), session(&reply).peer_finished), (3, None));
}

#[test]
fn case_9_run_256_is_kept_and_257_is_not() {
    let mut oracle = bound();
    sequence(&mut oracle, 1);
    // Two gaps, then one held, then one joined to it for each run.
    for gap in 0..260_u64 {
        bind(&mut oracle);
        run(&mut oracle, Action::Application);
        let reply = sequence(&mut oracle, 2 * gap + 3);
        let runs = session(&reply).overflow_received.len();
        assert_eq!(u64::try_from(runs), Ok(gap.saturating_sub(2).min(256)), "gap {gap}");
        let moved = session(&reply).inbound_next == Some(2 * gap + 3);
        assert_eq!(moved, gap < 259, "gap {gap}");
    }
}
