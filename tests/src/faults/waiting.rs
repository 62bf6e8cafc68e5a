//! Input from pipes and sockets that do not block, with a slow writer at the other end: the program
//! waits, and computes nothing while it does.

use std::io;
use std::os::fd::OwnedFd;
use std::os::unix::net::UnixStream;
use std::process::{Child, Command, Stdio};
use std::thread::sleep;
use std::time::{Duration, Instant};

use super::bench::{list, talk, Bench, Said};
use super::Case;
use crate::generate::Draw;
use crate::live::Live;
use crate::program::Running;
use crate::rack::SLOTS;
use crate::system::{computed, never_wait, send_signal, SIGCONT, SIGSTOP};

/// How long nothing follows a piece of the input.
pub const PAUSE: Duration = Duration::from_millis(3);
/// The program is watched for this long while it waits, and may compute for this long meanwhile.
const WATCHED: Duration = Duration::from_secs(1);
const COMPUTES: Duration = Duration::from_millis(200);
/// A reply is waited for this many times, which may take this long in total.
const ROUNDS: u32 = 50;
const SOON: Duration = Duration::from_secs(1);

pub const WHOLE: &str = r#"fit 0 3
    fit 6 0
    line ADR 6
    text "PV 5\rPC 10\r"
    text "SENA 8f\rSTT?\r"
    line PV?
    text "OVP 5.5\rOUT 1\rF"
    sample 6 45833 0
    line LT?
    sample 6 45834 0
    text "FLT?\rOUT 0\r"
    key 0 OUTPUT
    line PV?"#;
/// Bytes after it that are not a field, and where the input then ends.
const ENDINGS: [(&str, &[u8]); 4] = [
    ("behind a field", b""),
    ("amid a header", b"\x01"),
    ("behind a header", b"\x01\x00\x04"),
    ("amid a payload", b"\x01\x00\x04PV?"),
];

/// Inputs that end in each way, with names; the last ends within the list.
pub fn inputs() -> Vec<(&'static str, Vec<u8>)> {
    let whole = list(WHOLE);
    let mut inputs = ENDINGS.map(|(name, end)| (name, [&whole, end].concat())).to_vec();
    inputs.push(("amid the list", whole[..SLOTS - 1].to_vec()));
    inputs
}

pub fn cases() -> Vec<Case> {
    let mut cases = vec![
        Case::new("idle on an empty pipe", |bench| idle(bench, 0)),
        Case::new("idle amid the list", |bench| idle(bench, SLOTS - 1)),
        Case::new("idle between fields", |bench| idle(bench, SLOTS + 9)),
        Case::new("idle amid a field", |bench| idle(bench, SLOTS + 11)),
        Case::new("replies come soon after a wait", soon),
        Case::new("a socket that does not block as input and output", socket),
        Case::new("stopped and continued while it waits", stopped),
    ];
    for (name, input) in inputs() {
        let name = format!("a slow writer to a pipe that does not block, ended {name}");
        cases.push(Case::new(name, move |bench| slow_writer(bench, &input)));
    }
    cases
}

/// The input in pieces of a few bytes.
pub fn pieces(mut input: &[u8]) -> impl Iterator<Item = &[u8]> {
    let mut draw = Draw::new(input.len() as u64);
    std::iter::from_fn(move || {
        let piece;
        let length = 1 + draw.below(7) as usize;
        (piece, input) = input.split_at(length.min(input.len()));
        (!piece.is_empty()).then_some(piece)
    })
}

/// Dropping the command closes its descriptors, so that only the program still has them.
pub fn start(mut command: Command) -> Result<Child, String> {
    command.spawn().map_err(|error| error.to_string())
}

/// The program reading an empty pipe whose reads do not wait.
fn dry(bench: &Bench) -> Result<(Live, Said), String> {
    let wrong = |error: io::Error| error.to_string();
    let (reader, writer) = io::pipe().map_err(wrong)?;
    never_wait(&reader).map_err(wrong)?;
    let (mut command, said) = bench.command(&[])?;
    command.stdin(reader).stdout(Stdio::piped());
    let mut child = start(command)?;
    let output = child.stdout.take().ok_or("no standard output")?;
    Ok((Live::between(child, writer, output), said))
}

fn slow_writer(bench: &Bench, input: &[u8]) -> Result<(), String> {
    let (mut live, said) = dry(bench)?;
    let mut model = Running::default();
    talk(&mut live, &mut model, pieces(input), PAUSE)?;
    live.finish(&mut model)?;
    said.expect("")
}

/// Both streams are one socket, as a server passes it on; a refusal ends the program.
fn socket(bench: &Bench) -> Result<(), String> {
    let wrong = |error: io::Error| error.to_string();
    let (near, far) = UnixStream::pair().map_err(wrong)?;
    far.set_nonblocking(true).map_err(wrong)?;
    let (mut command, said) = bench.command(&[])?;
    command.stdin(OwnedFd::from(far.try_clone().map_err(wrong)?)).stdout(OwnedFd::from(far));
    let reader = near.try_clone().map_err(wrong)?;
    ends_by_a_refusal(Live::between(start(command)?, near, reader), &said)
}

/// A list that ends with a refused field, so that the program ends although nobody closes its
/// input.
pub fn ends_by_a_refusal(mut live: Live, said: &Said) -> Result<(), String> {
    let input = [&list(WHOLE), &b"\x09\x00\x00"[..]].concat();
    talk(&mut live, &mut Running::default(), pieces(&input), PAUSE)?;
    live.expect_end()?;
    said.expect("")
}

fn stopped(bench: &Bench) -> Result<(), String> {
    let (mut live, said) = dry(bench)?;
    let mut model = Running::default();
    let input = list(WHOLE);
    for part in input.chunks(input.len() / 8 + 1) {
        send_signal(live.process(), SIGSTOP).map_err(|error| error.to_string())?;
        sleep(PAUSE);
        send_signal(live.process(), SIGCONT).map_err(|error| error.to_string())?;
        talk(&mut live, &mut model, pieces(part), PAUSE)?;
    }
    live.finish(&mut model)?;
    said.expect("")
}

/// How long replies take if the program found its input empty before.
pub fn reply_soon(live: &mut Live, model: &mut Running) -> Result<(), String> {
    let query = &list("fit 6 0\nline PV?")[SLOTS..];
    let mut spent = Duration::ZERO;
    for _ in 0..ROUNDS {
        let asked = Instant::now();
        talk(live, model, [query].into_iter(), Duration::ZERO)?;
        spent += asked.elapsed();
        live.expect_nothing(PAUSE)?;
    }
    match spent < SOON {
        true => Ok(()),
        false => Err(format!("{ROUNDS} replies took {spent:?}")),
    }
}

fn soon(bench: &Bench) -> Result<(), String> {
    let (mut live, said) = dry(bench)?;
    let mut model = Running::default();
    talk(&mut live, &mut model, pieces(&list(WHOLE)), PAUSE)?;
    reply_soon(&mut live, &mut model)?;
    live.finish(&mut model)?;
    said.expect("")
}

// ---- idling ----

/// Watches a process that has nothing to do.
pub fn computes_nothing(process: u32) -> Result<(), String> {
    let before = computed(process)?;
    sleep(WATCHED);
    match computed(process)?.saturating_sub(before) {
        spent if spent < COMPUTES => Ok(()),
        spent => Err(format!("it computed for {spent:?} of the {WATCHED:?} that it waited")),
    }
}

/// Waits after this many bytes of the input.
fn idle(bench: &Bench, bytes: usize) -> Result<(), String> {
    let (mut live, said) = dry(bench)?;
    let mut model = Running::default();
    let whole = list(WHOLE);
    let (first, rest) = whole.split_at(bytes);
    talk(&mut live, &mut model, pieces(first), PAUSE)?;
    live.expect_nothing(PAUSE)?;
    computes_nothing(live.process())?;
    talk(&mut live, &mut model, pieces(rest), PAUSE)?;
    live.finish(&mut model)?;
    said.expect("")
}
