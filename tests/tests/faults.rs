//! The judge of the fault tests: every way to break the rule is found in the log of a run.

use rack_tests::faults::bench::{complaint, list};
use rack_tests::faults::calls::{judge, Call, Run};
use rack_tests::system::{EAGAIN, EINTR, EIO, ENOSPC};

const READ: usize = 0;
const WRITE: usize = 1;

/// Two replies of three bytes, each drawn by a field of nine.
fn input() -> Vec<u8> {
    list("fit 6 3\nline ADR 6\nline ADR 6")
}

fn verdict(calls: &[(usize, i64)], printed: &[u8], said: &str) -> Result<(), String> {
    let calls = calls.iter().map(|(stream, answer)| Call { stream: *stream, answer: *answer });
    let run = Run { calls: calls.collect(), printed: printed.to_vec(), said: said.into() };
    judge(&run, &input())
}

#[test]
fn what_passes_by_itself_may_not_show() {
    let (interrupted, later) = (-i64::from(EINTR), -i64::from(EAGAIN));
    let calls = [
        (READ, 31),
        (READ, interrupted),
        (READ, 9),
        (WRITE, 2),
        (WRITE, later),
        (WRITE, 0),
        (WRITE, 1),
        (READ, later),
        (READ, 9),
        (WRITE, 3),
        (READ, 0),
    ];
    assert_eq!(verdict(&calls, b"OK\nOK\n", ""), Ok(()));
    assert!(verdict(&calls, b"OKOK\n\n", "").is_err(), "other bytes than were drawn");
    assert!(verdict(&calls, b"OK\nOK\n", &complaint(READ, EINTR)).is_err(), "a needless line");
    assert!(verdict(&calls[..10], b"OK\nOK\n", "").is_err(), "an end before the input's");
}

#[test]
fn a_reply_that_is_left_out_or_late_is_found() {
    let skipped = [(READ, 40), (WRITE, 2), (READ, 9), (WRITE, 3), (READ, 0)];
    assert!(verdict(&skipped, b"OKOK\n", "").is_err());
    let late = [(READ, 40), (READ, 9), (WRITE, 6), (READ, 0)];
    assert!(verdict(&late, b"OK\nOK\n", "").is_err());
    let never = [(READ, 49), (WRITE, 3)];
    assert!(verdict(&never, b"OK\n", "").is_err());
}

#[test]
fn a_reply_that_comes_twice_or_early_is_found() {
    let twice = [(READ, 49), (WRITE, 6), (WRITE, 3), (READ, 0)];
    assert!(verdict(&twice, b"OK\nOK\nOK\n", "").is_err());
    let early = [(READ, 40), (WRITE, 6), (READ, 9), (READ, 0)];
    assert!(verdict(&early, b"OK\nOK\n", "").is_err());
}

#[test]
fn nothing_may_follow_a_write_that_failed() {
    let line = complaint(WRITE, ENOSPC);
    let failed = [(READ, 40), (WRITE, 1), (WRITE, -i64::from(ENOSPC))];
    assert_eq!(verdict(&failed, b"O", &line), Ok(()));
    assert!(verdict(&failed, b"O", "").is_err(), "no line");
    assert!(verdict(&failed, b"O", &line.repeat(2)).is_err(), "two lines");
    for more in [(WRITE, 2), (WRITE, -i64::from(ENOSPC)), (READ, 9)] {
        let calls = [&failed[..], &[more]].concat();
        let printed = if more == (WRITE, 2) { &b"OK\n"[..] } else { b"O" };
        assert!(verdict(&calls, printed, &line).is_err(), "{more:?}");
    }
}

#[test]
fn a_read_that_failed_is_no_end() {
    let line = complaint(READ, EIO);
    let failed = [(READ, 45), (WRITE, 3), (READ, -i64::from(EIO))];
    assert_eq!(verdict(&failed, b"OK\n", &line), Ok(()));
    let refused = [&failed[..], &[(WRITE, 10)]].concat();
    assert!(verdict(&refused, b"OK\nrefused 5\n", &line).is_err());
    let ended = [(READ, 45), (WRITE, 3), (READ, 0), (WRITE, 10)];
    assert_eq!(verdict(&ended, b"OK\nrefused 5\n", ""), Ok(()));
}

#[test]
fn a_fault_is_told_by_stream_and_errno() {
    assert_eq!(complaint(READ, EIO), "standard input: error 5\n");
    assert_eq!(complaint(WRITE, ENOSPC), "standard output: error 28\n");
}
