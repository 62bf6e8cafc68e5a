//! Reads and writes that are answered by a plan: faults that come at one call and not at another,
//! or that go away again, which no file or pipe can be made to produce.

use super::bench::{list, shown, Bench};
use super::calls::{judge, run, Plans, Run};
use super::Case;
use crate::program;
use crate::system::{EAGAIN, EBADF, EINTR, EIO, EISDIR, ENOSPC, EPIPE, LAST_ERRNO};

/// A reading that is cut after its first digit, and one that would continue where it was cut.
const TWO_READINGS: &str = "fit 6 3
    line ADR 6
    line PV 12.5
    line RMT 0
    line PV?
    knob 6 PV -120000
    line PV?";
/// Reads that bring one field of that list each, so that each reply is written by itself.
const FIELD_BY_FIELD: &str = "31 9 11 9 7 9 7 again";

/// An end in the middle of a field, so that a refusal is printed at the end of the input.
const CUT_SHORT: &str = "fit 6 0\nline ADR 6\nline PV?\nbytes 01 00 06 50 56 3F 0D";
/// A status that is longer than any figure, and the messages of two slots behind one field's replies.
const MESSAGES: &str = r#"fit 6 0
    fit 7 11
    text "ADR 6\rSENA 8F\r"
    text "RMT 1\rADR 7\r"
    text "SENA FF\rRMT 1\r"
    line STT?
    text RMT 0
    text "\rADR 6\rRMT 0\r"
    line GOUT 1
    line SEVE?"#;
/// A refusal with input after it.
const REFUSED: &str = "fit 6 0\nline ADR 6\nline PV?\nbytes 09 00 02 06 00\nline PV?";
const BAD_LIST: &str = "raw-fit 0C FFFFFFFFFFFFFFFFFFFF FFFFFFFFFFFFFFFFFFFF FFFFFFFFFFFFFFFFFFFF
    line ADR 6";

/// Plans by name for the reads and for the writes; none of them may show. 4 is EINTR, 11 EAGAIN.
const PASSING: [(&str, &str, &str); 15] = [
    ("nothing out of the ordinary", "", ""),
    ("reads of one byte", "1 again", ""),
    ("writes of one byte", "", "1 again"),
    ("reads and writes of one byte", "1 again", "1 again"),
    ("writes that take nothing yet", "", "0 0 0 2 again"),
    ("each read interrupted", "e4 go again", ""),
    ("each write interrupted", "", "e4 go again"),
    ("interrupted between single bytes", "e4 e4 1 again", "e4 e4 1 again"),
    ("100,000 interruptions in a row", "9 e4*100000", "4 e4*100000"),
    ("empty for now before the list", "e11*3 e4 e11 go", ""),
    ("empty for now amid the list", "1 e11 e4 13 e11*2 e4*2 go", ""),
    ("empty for now behind the list", "31 e11*3 e4*2 go", ""),
    ("empty for now between short reads", "7 e11 5 e4 e11 11 again", ""),
    ("full for now between short writes", "", "e11 5 e4 2 e11*2 again"),
    ("all of it", "e4 3 e11 40 e4 again", "e11 1 e4 3 e4 9 again"),
];

/// Where a read may fail for good: in the list, after it, between fields, within one.
const READ_PLACES: [(&str, &str); 6] = [
    ("at once", ""),
    ("amid the list", "9"),
    ("behind the list", "31"),
    ("between fields", "31 9"),
    ("amid a header", "31 9 2"),
    ("amid a payload", "31 9 5 e4"),
];

/// Where a write may: before anything is written, after a line, within a line, after an
/// interruption.
const WRITE_PLACES: [(&str, &str); 5] = [
    ("at once", ""),
    ("behind a line", "3"),
    ("amid a line", "3 3 3 2"),
    ("amid a line that was interrupted", "3 3 3 e4 3 e4*3"),
    ("with the output full for now before", "3 1 e11*2"),
];

/// For how many calls a fault lasts; afterwards all would go well again.
pub const STAYS: [&str; 3] = ["", "*2", "*100000"];

pub fn cases() -> Vec<Case> {
    let mut cases = passing();
    cases.push(Case::new("many lines in parts", many_in_parts));
    cases.push(Case::new("a disk that gets room again", room_again));
    cases.extend(failing());
    cases.extend(ended());
    for stream in 0..2 {
        cases.push(Case::new(format!("a fault at every byte, stream {stream}"), move |bench| {
            every_byte(bench, stream)
        }));
        cases.push(Case::new(format!("every errno, stream {stream}"), move |bench| {
            every_errno(bench, stream)
        }));
    }
    cases
}

/// Lists that end in each way, one of them within the fitting list, and a longer one.
fn inputs(bench: &Bench) -> Result<Vec<Vec<u8>>, String> {
    let lists = [TWO_READINGS, CUT_SHORT, REFUSED, BAD_LIST, "fit 6 0", MESSAGES];
    let mut inputs = lists.map(list).to_vec();
    inputs.push(inputs[0][..20].to_vec());
    inputs.push(bench.load("mixed", [300, 5, 750])?);
    Ok(inputs)
}

// ---- what passes by itself ----

fn passing() -> Vec<Case> {
    let case = |(name, reads, writes): (&'static str, &'static str, &'static str)| {
        Case::new(name, move |bench| {
            let plans = Plans { reads: reads.into(), writes: writes.into() };
            inputs(bench)?.iter().try_for_each(|input| unseen(bench, input, &plans).map(|_| ()))
        })
    };
    PASSING.into_iter().map(case).collect()
}

/// The program must print all of it, as if there were no plan.
pub fn unseen(bench: &Bench, input: &[u8], plans: &Plans) -> Result<Run, String> {
    let run = run(bench, input, plans)?;
    judge(&run, input)?;
    match run.printed == program::run(input) {
        true => Ok(run),
        false => Err(format!("{} is not all of it", shown(&run.printed))),
    }
}

/// More than the program holds at a time, on either side.
fn many_in_parts(bench: &Bench) -> Result<(), String> {
    let input = bench.load("queries", [20_000, 31, 750])?;
    let plans = Plans {
        reads: "8191 e4 77 e11 go e4 again".into(),
        writes: "4095 e4 333 e11 go e4 again".into(),
    };
    unseen(bench, &input, &plans).map(|_| ())
}

// ---- what does not ----

/// The first reading is cut; if the second followed it, a line would say 10.5 volts.
fn room_again(bench: &Bench) -> Result<(), String> {
    let input = list(TWO_READINGS);
    let plans = Plans { reads: FIELD_BY_FIELD.into(), writes: "go go go 1 e28 go".into() };
    let run = run(bench, &input, &plans)?;
    match &run.printed[..] {
        b"OK\nOK\nOK\n1" => judge(&run, &input),
        other => Err(format!("it printed {}", shown(other))),
    }
}

fn failing() -> Vec<Case> {
    let mut cases = Vec::new();
    for errno in [EIO, EBADF, EISDIR] {
        for (place, before) in READ_PLACES {
            let name = format!("a read fails with errno {errno} {place}");
            cases.push(Case::new(name, move |bench| stays(bench, 0, errno, before)));
        }
    }
    for errno in [ENOSPC, EIO, EPIPE, EBADF] {
        for (place, before) in WRITE_PLACES {
            let name = format!("a write fails with errno {errno} {place}");
            cases.push(Case::new(name, move |bench| stays(bench, 1, errno, before)));
        }
    }
    cases
}

/// The fault must end the program, whether or not it would go away.
fn stays(bench: &Bench, stream: usize, errno: i32, before: &str) -> Result<(), String> {
    for input in [TWO_READINGS, CUT_SHORT].map(list) {
        for stays in STAYS {
            let plan = format!("{before} e{errno}{stays}");
            let plans = match stream {
                0 => Plans { reads: plan, writes: String::new() },
                _ => Plans { reads: FIELD_BY_FIELD.into(), writes: plan },
            };
            fatal(bench, &input, stream, errno, &plans)?;
        }
    }
    Ok(())
}

/// The fault must come, and all must be as it should be after it.
pub fn fatal(
    bench: &Bench,
    input: &[u8],
    stream: usize,
    errno: i32,
    plans: &Plans,
) -> Result<(), String> {
    let wrong = |what: String| format!("{plans:?}: {what}");
    let run = run(bench, input, plans).map_err(wrong)?;
    judge(&run, input).map_err(wrong)?;
    match run.count(stream, -i64::from(errno)) {
        1 => Ok(()),
        count => Err(wrong(format!("the fault came {count} times"))),
    }
}

/// A read that brings nothing is the end of an input that is not a terminal, and not a fault.
fn ended() -> Vec<Case> {
    let case = |(place, before): (&'static str, &'static str)| {
        Case::new(format!("the input ends {place}"), move |bench| {
            let plans = Plans { reads: format!("{before} 0"), writes: "e4 1 again".into() };
            let input = list(TWO_READINGS);
            let run = run(bench, &input, &plans)?;
            judge(&run, &input)
        })
    };
    READ_PLACES.into_iter().map(case).collect()
}

/// Byte by byte up to each place and no further, for lists that end in each way.
fn every_byte(bench: &Bench, stream: usize) -> Result<(), String> {
    for input in [TWO_READINGS, CUT_SHORT, REFUSED, BAD_LIST].map(list) {
        let plans = |plan: String| match stream {
            0 => Plans { reads: plan, writes: String::new() },
            _ => Plans { reads: String::new(), writes: plan },
        };
        let calls = unseen(bench, &input, &plans("1 again".into()))?.calls;
        for at in 0..calls.iter().filter(|call| call.stream == stream).count() {
            let errno = [EIO, ENOSPC][stream];
            fatal(bench, &input, stream, errno, &plans(format!("1*{at} e{errno}")))?;
        }
    }
    Ok(())
}

pub fn passes_by_itself(errno: i32) -> bool {
    [EINTR, EAGAIN].contains(&errno)
}

/// The line on standard error has the right text for each, and only two are tried again.
fn every_errno(bench: &Bench, stream: usize) -> Result<(), String> {
    let input = list(TWO_READINGS);
    for errno in (1..=LAST_ERRNO).filter(|errno| !passes_by_itself(*errno)) {
        let mut plans = Plans::default();
        match stream {
            0 => plans.reads = format!("40 e{errno}"),
            _ => plans.writes = format!("1 e{errno}"),
        }
        fatal(bench, &input, stream, errno, &plans)?;
    }
    Ok(())
}
