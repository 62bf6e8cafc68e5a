//! Streams that are faulty from the start or by themselves: a device without room, a pipe that
//! nobody reads, a limit on a file's size, descriptors that are closed or not open for the purpose,
//! a folder.

use std::fs::{self, File};
use std::io::{self, Write};
use std::process::Stdio;

use super::bench::{complaint, end_of, expect_zero, list, shown, Bench};
use super::Case;
use crate::program;
use crate::system::Before::{self, Close, Ignore, Limit};
use crate::system::{EBADF, EFBIG, EIO, EISDIR, ENOSPC, EPIPE};
use crate::system::{FILE_SIZE, SIGPIPE, SIGXFSZ};

const QUERY: &str = "fit 6 3\nline ADR 6\nline PV 12.5\nline PV?";
/// It draws no reply, as nobody is selected.
const SILENT: &str = "fit 6 0\nline PV?\nkey 6 OUTPUT";
const IGNORING: &[Before] = &[Ignore(SIGPIPE)];

pub fn cases() -> Vec<Case> {
    let mut cases = vec![
        Case::new("output to a device without room", |bench| {
            output_fails(bench, File::create("/dev/full"), &[], ENOSPC)
        }),
        Case::new("output to a pipe that nobody reads", |bench| {
            output_fails(bench, unread(), IGNORING, EPIPE)
        }),
        Case::new("output that is closed", |bench| {
            output_fails(bench, Ok(Stdio::null()), &[Close(1)], EBADF)
        }),
        Case::new("output that is open for reading only", |bench| {
            output_fails(bench, File::open("/dev/null"), &[], EBADF)
        }),
        Case::new("a good end with the output closed", closed_and_unused),
        // Whatever the signal did before, the program ignores it from its start on.
        Case::new("a pipe that nobody reads, its signal not ignored", |bench| {
            output_fails(bench, unread(), &[], EPIPE)
        }),
        Case::new("no standard error to complain to", nobody_to_tell),
        Case::new("a long list and no room at all", long_list),
    ];
    for room in [0, 1, 3, 7, 12] {
        let name = format!("a file that takes {room} bytes");
        cases.push(Case::new(name, move |bench| limited(bench, room)));
    }
    cases.extend(inputs());
    cases
}

fn inputs() -> Vec<Case> {
    let folder = || File::open("/");
    vec![
        Case::new("input that is closed", |bench| {
            input_fails(bench, Ok(Stdio::null()), &[Close(0)], EBADF)
        }),
        Case::new("input that is open for writing only", |bench| {
            input_fails(bench, File::options().write(true).open("/dev/null"), &[], EBADF)
        }),
        Case::new("a folder as input", move |bench| input_fails(bench, folder(), &[], EISDIR)),
        // No process has memory at address 0, so a read there fails like one from a bad disk.
        Case::new("input that cannot be read", |bench| {
            input_fails(bench, File::open("/proc/self/mem"), &[], EIO)
        }),
        Case::new("both streams closed", |bench| {
            input_fails(bench, Ok(Stdio::null()), &[Close(0), Close(1)], EBADF)
        }),
        Case::new("an empty input", |bench| good_end(bench, b"")),
        Case::new("a device without bytes", |bench| {
            match run(bench, File::open("/dev/null"), &[], "")? {
                printed if printed == program::run(b"") => Ok(()),
                printed => Err(format!("it printed {}", shown(&printed))),
            }
        }),
        Case::new("a good end", |bench| good_end(bench, &list(QUERY))),
        Case::new("an end amid a list", |bench| good_end(bench, &list(QUERY)[..30])),
        Case::new("an end amid a field", |bench| {
            let whole = list(QUERY);
            (1..7).try_for_each(|cut| good_end(bench, &whole[..whole.len() - cut]))
        }),
        Case::new("a refused field", |bench| {
            good_end(bench, &list(&format!("{QUERY}\nbytes 09 00 01 00")))
        }),
    ]
}

/// The writing end of a pipe whose reader is gone.
fn unread() -> io::Result<Stdio> {
    let (_, writer) = io::pipe()?;
    Ok(writer.into())
}

/// The program must end although its input stays open, and say why.
fn output_fails(
    bench: &Bench,
    output: io::Result<impl Into<Stdio>>,
    steps: &[Before],
    errno: i32,
) -> Result<(), String> {
    let wrong = |error: io::Error| error.to_string();
    let (reader, mut writer) = io::pipe().map_err(wrong)?;
    let (mut command, said) = bench.command(steps)?;
    command.stdin(reader).stdout(output.map_err(wrong)?);
    let mut child = command.spawn().map_err(wrong)?;
    writer.write_all(&list(QUERY)).map_err(wrong)?;
    let status = end_of(&mut child)?;
    drop(writer);
    said.expect(&complaint(1, errno))?;
    expect_zero(status)
}

/// Nothing is refused, as the end of the input was not seen.
fn input_fails(
    bench: &Bench,
    input: io::Result<impl Into<Stdio>>,
    steps: &[Before],
    errno: i32,
) -> Result<(), String> {
    let printed = run(bench, input, steps, &complaint(0, errno))?;
    match printed.is_empty() {
        true => Ok(()),
        false => Err(format!("it printed {}", shown(&printed))),
    }
}

/// All the replies, and nothing on standard error.
fn good_end(bench: &Bench, input: &[u8]) -> Result<(), String> {
    let printed = run(bench, Ok(bench.file_of(input)?), &[], "")?;
    match printed == program::run(input) {
        true => Ok(()),
        false => Err(format!("it printed {}", shown(&printed))),
    }
}

/// What the program prints to a file; standard error must contain this.
fn run(
    bench: &Bench,
    input: io::Result<impl Into<Stdio>>,
    steps: &[Before],
    complaint: &str,
) -> Result<Vec<u8>, String> {
    let wrong = |error: io::Error| error.to_string();
    let output = bench.file();
    let (mut command, said) = bench.command(steps)?;
    command.stdin(input.map_err(wrong)?).stdout(File::create(&output).map_err(wrong)?);
    let status = end_of(&mut command.spawn().map_err(wrong)?)?;
    said.expect(complaint)?;
    expect_zero(status)?;
    fs::read(output).map_err(wrong)
}

/// The system cuts the write that reaches the limit, and fails the next.
fn limited(bench: &Bench, room: u64) -> Result<(), String> {
    let input = list(QUERY);
    let steps = [Ignore(SIGXFSZ), Limit(FILE_SIZE, room)];
    let wrong = |error: io::Error| error.to_string();
    let output = bench.file();
    let (mut command, _) = bench.command(&steps)?;
    // Standard error goes to a pipe, as the limit applies to all files.
    let (mut said, far) = io::pipe().map_err(wrong)?;
    command.stdin(bench.file_of(&input)?).stdout(File::create(&output).map_err(wrong)?);
    let mut child = command.stderr(far).spawn().map_err(wrong)?;
    drop(command);
    let status = end_of(&mut child)?;
    let mut text = String::new();
    io::Read::read_to_string(&mut said, &mut text).map_err(wrong)?;
    let printed = fs::read(output).map_err(wrong)?;
    if text != complaint(1, EFBIG) || printed != program::run(&input)[..room as usize] {
        return Err(format!("it printed {}, and on standard error {text:?}", shown(&printed)));
    }
    expect_zero(status)
}

/// A stream that is not used cannot fail.
fn closed_and_unused(bench: &Bench) -> Result<(), String> {
    let (mut command, said) = bench.command(&[Close(1)])?;
    command.stdin(bench.file_of(&list(SILENT))?);
    let mut child = command.spawn().map_err(|error| error.to_string())?;
    expect_zero(end_of(&mut child)?)?;
    said.expect("")
}

/// With both outputs gone it still ends.
fn nobody_to_tell(bench: &Bench) -> Result<(), String> {
    let (mut command, said) = bench.command(&[Close(1), Close(2)])?;
    command.stdin(bench.file_of(&list(QUERY))?);
    let mut child = command.spawn().map_err(|error| error.to_string())?;
    expect_zero(end_of(&mut child)?)?;
    said.expect("")
}

/// One line, however many writes there would be.
fn long_list(bench: &Bench) -> Result<(), String> {
    let wrong = |error: io::Error| error.to_string();
    let input = bench.load("query", [20_000, 31, 750])?;
    let (mut command, said) = bench.command(&[])?;
    command.stdin(bench.file_of(&input)?).stdout(File::create("/dev/full").map_err(wrong)?);
    let status = end_of(&mut command.spawn().map_err(wrong)?)?;
    said.expect(&complaint(1, ENOSPC))?;
    expect_zero(status)
}
