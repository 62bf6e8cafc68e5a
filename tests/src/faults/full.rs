//! Output to pipes, sockets and lines that do not block and are full for now: the program waits
//! until someone reads, and loses nothing.

use std::io::{self, ErrorKind, PipeReader, Read};
use std::os::fd::{AsRawFd, OwnedFd};
use std::os::unix::net::UnixStream;
use std::process::{Child, Stdio};
use std::thread::sleep;
use std::time::{Duration, Instant};

use super::bench::{complaint, end_of, expect_zero, list, shown, Bench, Said};
use super::waiting::{computes_nothing, start};
use super::Case;
use crate::live::PATIENCE;
use crate::program;
use crate::rack::SLOTS;
use crate::system::{narrow, never_wait, Before, Line, EPIPE, SIGPIPE};

/// What a narrow pipe holds.
const NARROW: i32 = 4096;
/// How long nobody reads at first, so that everything fills up.
const UNREAD: Duration = Duration::from_millis(200);
/// Four queries in each field, and two orders before them.
const FIELDS: usize = 20_000;
const LINES: usize = 4 * FIELDS + 2;

pub fn cases() -> Vec<Case> {
    vec![
        Case::new("idle before a full pipe", idle),
        Case::new("a slow reader of a pipe", slow_pipe),
        Case::new("a slow reader of a socket", slow_socket),
        Case::new("a slow reader of a line", slow_line),
        Case::new("a reader that leaves while the pipe is full", reader_leaves),
    ]
}

/// More replies than any pipe holds.
fn many() -> Vec<u8> {
    let mut input = list("fit 6 11\nline ADR 6\nline PV 600");
    let again = list("fit 6 11\ntext \"PV?\\rMV?\\rPV?\\rMC?\\r\"");
    (0..FIELDS).for_each(|_| input.extend(&again[SLOTS..]));
    input
}

/// The program with all its input there and its output going to a stream that does not block,
/// neither for the program at the far end nor, if the program hangs, for this test at the near end.
fn before(
    bench: &Bench,
    near: &impl AsRawFd,
    far: impl AsRawFd + Into<Stdio>,
    steps: &[Before],
) -> Result<(Child, Said), String> {
    never_wait(near).and_then(|()| never_wait(&far)).map_err(|error| error.to_string())?;
    let (mut command, said) = bench.command(steps)?;
    command.stdin(bench.file_of(&many())?).stdout(far);
    let child = start(command)?;
    sleep(UNREAD);
    Ok((child, said))
}

fn before_pipe(bench: &Bench, steps: &[Before]) -> Result<(Child, PipeReader, Said), String> {
    let wrong = |error: io::Error| error.to_string();
    let (near, far) = io::pipe().map_err(wrong)?;
    narrow(&far, NARROW).map_err(wrong)?;
    let (child, said) = before(bench, &near, far, steps)?;
    Ok((child, near, said))
}

/// Reads a little at a time until the end or until there are enough bytes; at every moment those
/// read must be a prefix of what is wanted. Returns how many there were.
fn read_slowly(mut near: impl Read, wanted: &[u8], enough: usize) -> Result<usize, String> {
    let (mut block, mut got) = ([0; 1000], 0);
    let mut until = Instant::now() + PATIENCE;
    while got < enough && Instant::now() < until {
        sleep(Duration::from_micros(100));
        match near.read(&mut block) {
            Ok(0) => return Ok(got),
            Ok(count) if wanted[got..].starts_with(&block[..count]) => {
                got += count;
                until = Instant::now() + PATIENCE;
            }
            Ok(count) => {
                return Err(format!("after {got} bytes came {}", shown(&block[..count])));
            }
            Err(error) if error.kind() == ErrorKind::WouldBlock => {}
            Err(error) => return Err(format!("after {got} bytes: {error}")),
        }
    }
    Ok(got)
}

/// All the lines must come, and not a byte more.
fn read_all(mut child: Child, mut near: impl Read, said: &Said) -> Result<(), String> {
    let wanted = program::run(&many());
    let lines = |bytes: &[u8]| bytes.iter().filter(|byte| **byte == b'\n').count();
    assert_eq!(lines(&wanted), LINES, "two replies to the orders and four to each field");
    let got = read_slowly(&mut near, &wanted, wanted.len());
    let status = end_of(&mut child)?;
    let got = got?;
    if got < wanted.len() {
        return Err(format!("{} lines came of {LINES}", lines(&wanted[..got])));
    }
    if let Ok(count @ 1..) = near.read(&mut [0; 1000]) {
        return Err(format!("{count} bytes came behind the last line"));
    }
    said.expect("").and_then(|()| expect_zero(status))
}

fn slow_pipe(bench: &Bench) -> Result<(), String> {
    let (child, near, said) = before_pipe(bench, &[])?;
    read_all(child, near, &said)
}

fn slow_socket(bench: &Bench) -> Result<(), String> {
    let (near, far) = UnixStream::pair().map_err(|error| error.to_string())?;
    let (child, said) = before(bench, &near, OwnedFd::from(far), &[])?;
    read_all(child, near, &said)
}

/// The far end stays open here, as a line may lose what is on its way when the last descriptor
/// closes.
fn slow_line(bench: &Bench) -> Result<(), String> {
    let wrong = |error: io::Error| error.to_string();
    let Line { near, far } = Line::open(1, 0).map_err(wrong)?;
    let (child, said) = before(bench, &near, far.try_clone().map_err(wrong)?, &[])?;
    read_all(child, near, &said)
}

fn idle(bench: &Bench) -> Result<(), String> {
    let (child, near, said) = before_pipe(bench, &[])?;
    let waited = computes_nothing(child.id());
    read_all(child, near, &said).and(waited)
}

fn reader_leaves(bench: &Bench) -> Result<(), String> {
    let (mut child, near, said) = before_pipe(bench, &[Before::Ignore(SIGPIPE)])?;
    let enough = 10 * NARROW as usize;
    let got = read_slowly(&near, &program::run(&many()), enough);
    // Some time without room, so that the program is waiting when its reader leaves.
    sleep(UNREAD);
    drop(near);
    let status = end_of(&mut child)?;
    match got? {
        count if count < enough => Err(format!("only {count} bytes came")),
        _ => said.expect(&complaint(1, EPIPE)).and_then(|()| expect_zero(status)),
    }
}
