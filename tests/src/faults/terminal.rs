//! A serial line as input. On one whose reads do not wait (VMIN 0), a read that brings nothing is
//! not the end. A line that hangs up is a fault: a field that it cuts off is not refused.

use std::fs::File;
use std::io;
use std::process::Stdio;
use std::thread::sleep;
use std::time::{Duration, Instant};

use super::bench::{complaint, list, talk, Bench, Said};
use super::waiting::{
    computes_nothing, ends_by_a_refusal, inputs, pieces, reply_soon, start, PAUSE, WHOLE,
};
use super::Case;
use crate::live::{Live, PATIENCE};
use crate::program::Running;
use crate::rack::SLOTS;
use crate::system::{never_wait, waiting, Line, EIO};

/// How the reads of a line wait: VMIN, VTIME, O_NONBLOCK.
#[derive(Clone, Copy)]
struct Mode {
    least: u8,
    time: u8,
    non_blocking: bool,
}

impl Mode {
    fn name(self) -> String {
        let blocking = if self.non_blocking { "not blocking" } else { "blocking" };
        format!("VMIN {}, VTIME {}, {blocking}", self.least, self.time)
    }
}

const MODES: [Mode; 5] = [
    Mode { least: 0, time: 0, non_blocking: false },
    Mode { least: 1, time: 0, non_blocking: false },
    Mode { least: 0, time: 1, non_blocking: false },
    Mode { least: 0, time: 0, non_blocking: true },
    Mode { least: 1, time: 0, non_blocking: true },
];
/// A read that does not wait rarely meets the hang-up itself, so it is tried this many times.
const HANG_UPS: usize = 40;
/// A byte may take some time from the near end of a line to the far end.
const ON_ITS_WAY: Duration = Duration::from_millis(50);

pub fn cases() -> Vec<Case> {
    let mut cases = vec![Case::new("a line that hung up before the start", hung_up_before)];
    for mode in MODES {
        let case = |what: &str, judge: fn(&Bench, Mode) -> Result<(), String>| {
            Case::new(format!("{what}, {}", mode.name()), move |bench| judge(bench, mode))
        };
        cases.push(case("idle on a line", idle));
        cases.push(case("a line that hangs up again and again", again_and_again));
        cases.push(case("replies come soon on a line", soon));
        cases.push(case("a long list on a line", long_list));
        cases.push(case("a line for both ways", both_ways));
        for (name, input) in inputs() {
            let name = format!("a line that hangs up {name}, {}", mode.name());
            cases.push(Case::new(name, move |bench| hangs_up(bench, mode, &input)));
        }
    }
    cases
}

fn open(mode: Mode) -> io::Result<Line> {
    let line = Line::open(mode.least, mode.time)?;
    if mode.non_blocking {
        never_wait(&line.far)?;
    }
    Ok(line)
}

/// The program at the far end of a line, a copy of that end to look at, and its standard error.
type OnLine = (Live, File, Said);

fn on_line(bench: &Bench, mode: Mode) -> Result<OnLine, String> {
    let wrong = |error: io::Error| error.to_string();
    let Line { near, far } = open(mode).map_err(wrong)?;
    let (mut command, said) = bench.command(&[])?;
    command.stdin(far.try_clone().map_err(wrong)?).stdout(Stdio::piped());
    let mut child = start(command)?;
    let output = child.stdout.take().ok_or("no standard output")?;
    Ok((Live::between(child, near, output), far, said))
}

/// A pseudo-terminal that hangs up loses what has not been read yet, so everything must be read
/// first.
fn all_read(far: &File) -> Result<(), String> {
    sleep(ON_ITS_WAY);
    let until = Instant::now() + PATIENCE;
    while Instant::now() < until {
        if waiting(far).map_err(|error| error.to_string())? == 0 {
            return Ok(());
        }
        sleep(PAUSE);
    }
    Err("it does not read on".into())
}

/// The line hangs up after the last byte. A read that meets the hang-up returns EIO, and later ones
/// bring nothing: either way nothing more is printed, and the EIO is reported.
fn hang_up((mut live, _, said): OnLine) -> Result<(), String> {
    live.close();
    live.expect_end()?;
    said.expect(&complaint(0, EIO))
}

fn hangs_up(bench: &Bench, mode: Mode, input: &[u8]) -> Result<(), String> {
    let mut on_line = on_line(bench, mode)?;
    let mut model = Running::default();
    talk(&mut on_line.0, &mut model, pieces(input), PAUSE)?;
    all_read(&on_line.1)?;
    on_line.0.expect_nothing(PAUSE)?;
    hang_up(on_line)
}

/// The reply shows that all was read; meanwhile the program reads on, in one way or the other.
fn again_and_again(bench: &Bench, mode: Mode) -> Result<(), String> {
    for _ in 0..HANG_UPS {
        let mut on_line = on_line(bench, mode)?;
        let mut model = Running::default();
        talk(&mut on_line.0, &mut model, [&list(WHOLE)[..]].into_iter(), PAUSE)?;
        hang_up(on_line)?;
    }
    Ok(())
}

/// Before the list, within it and within a field.
fn idle(bench: &Bench, mode: Mode) -> Result<(), String> {
    let mut on_line = on_line(bench, mode)?;
    let mut model = Running::default();
    let whole = list(WHOLE);
    let cuts = [0, SLOTS - 1, SLOTS + 11, whole.len()];
    for cut in cuts.windows(2) {
        computes_nothing(on_line.0.process())?;
        talk(&mut on_line.0, &mut model, pieces(&whole[cut[0]..cut[1]]), PAUSE)?;
    }
    all_read(&on_line.1)?;
    hang_up(on_line)
}

/// How soon replies come if a read before them brought nothing.
fn soon(bench: &Bench, mode: Mode) -> Result<(), String> {
    let mut on_line = on_line(bench, mode)?;
    let mut model = Running::default();
    talk(&mut on_line.0, &mut model, pieces(&list(WHOLE)), PAUSE)?;
    reply_soon(&mut on_line.0, &mut model)?;
    hang_up(on_line)
}

/// As fast as the line takes it.
fn long_list(bench: &Bench, mode: Mode) -> Result<(), String> {
    let input = bench.load("mixed", [2_000, 8, 750])?;
    let mut on_line = on_line(bench, mode)?;
    let mut model = Running::default();
    talk(&mut on_line.0, &mut model, input.chunks(3_000), PAUSE)?;
    all_read(&on_line.1)?;
    hang_up(on_line)
}

/// Its first read brings nothing, and none will bring more.
fn hung_up_before(bench: &Bench) -> Result<(), String> {
    let wrong = |error: io::Error| error.to_string();
    let Line { near, far } = Line::open(0, 0).map_err(wrong)?;
    drop(near);
    let (mut command, said) = bench.command(&[])?;
    command.stdin(far).stdout(Stdio::piped());
    let mut child = start(command)?;
    let output = child.stdout.take().ok_or("no standard output")?;
    let mut live = Live::between(child, io::sink(), output);
    live.expect_end()?;
    said.expect(&complaint(0, EIO))
}

/// A refusal ends it, because on a line whose near end is still read nobody hangs up.
fn both_ways(bench: &Bench, mode: Mode) -> Result<(), String> {
    let wrong = |error: io::Error| error.to_string();
    let Line { near, far } = open(mode).map_err(wrong)?;
    let (mut command, said) = bench.command(&[])?;
    command.stdin(far.try_clone().map_err(wrong)?).stdout(far);
    let reader = near.try_clone().map_err(wrong)?;
    ends_by_a_refusal(Live::between(start(command)?, near, reader), &said)
}
