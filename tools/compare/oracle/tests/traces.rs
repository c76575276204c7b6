//! Histories read back from a trace as they were written, and shrink to what a test asks for.

use oracle::call::Action;
use oracle::history::History;
use oracle::{cover, shrink, trace};

fn histories() -> Vec<History> {
    cover::choose(3, 60, 12)
}

#[test]
fn records_read_back_as_written() {
    for history in histories() {
        let bytes = history.trace().expect("a chosen history has a trace");
        let mut rest = bytes.as_slice();
        for call in &history.calls {
            let (read, behind) = trace::record(rest).expect("a written record is well formed");
            assert_eq!(read, *call);
            rest = behind;
        }
        assert!(rest.is_empty());
    }
}

#[test]
fn cut_records_are_malformed() {
    for history in histories() {
        for call in &history.calls {
            let record = trace::record_bytes(call).expect("a chosen call has a record");
            assert!((0..record.len()).all(|length| trace::record(&record[..length]).is_none()));
        }
    }
}

#[test]
fn shrinking_keeps_what_fails_and_little_else() {
    let binds = |history: &History| {
        history.calls.iter().filter(|call| matches!(call.action, Action::Bind { .. })).count()
    };
    let history =
        histories().into_iter().max_by_key(|history| binds(history)).expect("there are histories");
    assert!(binds(&history) > 2);
    let short = shrink::shrink(&history, &mut |candidate| binds(candidate) >= 2);
    assert_eq!((binds(&short), short.calls.len()), (2, 2));
}
