//! An input that a program gets message by message: the fitting list, then field after field, so
//! that each of its reads brings one of them, however much more it asks for.

use crate::rack::SLOTS;
use crate::script::field_length;
use std::fs::File;
use std::io::{self, ErrorKind, Write};
use std::os::fd::{FromRawFd, OwnedFd};
use std::process::{Command, ExitStatus, Stdio};

// As Linux numbers them. Such a socket keeps messages apart, and has an end as a pipe has.
const LOCAL: i32 = 1;
const MESSAGES: i32 = 5;
const NOT_FOR_CHILDREN: i32 = 0o2_000_000;

extern "C" {
    fn socketpair(domain: i32, kind: i32, protocol: i32, ends: *mut [i32; 2]) -> i32;
}

/// Runs the command with this input, and waits for its end.
pub fn feed(command: &mut Command, input: &[u8]) -> io::Result<ExitStatus> {
    let (near, far) = two_ends()?;
    let mut child = command.stdin(far).spawn()?;
    // Otherwise the command would keep its own copy of the far end open.
    command.stdin(Stdio::null());
    let sent = send(File::from(near), input);
    let status = child.wait()?;
    sent.map(|()| status)
}

fn two_ends() -> io::Result<(OwnedFd, OwnedFd)> {
    let mut ends = [0; 2];
    // SAFETY: the array has room for the two numbers that the kernel writes.
    match unsafe { socketpair(LOCAL, MESSAGES | NOT_FOR_CHILDREN, 0, &mut ends) } {
        // SAFETY: both are open, and nobody else has them.
        0 => Ok(unsafe { (OwnedFd::from_raw_fd(ends[0]), OwnedFd::from_raw_fd(ends[1])) }),
        _ => Err(io::Error::last_os_error()),
    }
}

/// A program that has refused no longer reads, which is not an error here: its output shows it.
fn send(mut near: File, input: &[u8]) -> io::Result<()> {
    for message in messages(input) {
        match near.write_all(message).map_err(|error| error.kind()) {
            Err(ErrorKind::BrokenPipe | ErrorKind::ConnectionReset) => break,
            done => done?,
        }
    }
    Ok(())
}

/// The list and the fields. What is not a field, and all that follows it, is one more message.
pub fn messages(input: &[u8]) -> impl Iterator<Item = &[u8]> {
    let (list, mut rest) = input.split_at(input.len().min(SLOTS));
    let fields = std::iter::from_fn(move || {
        let message;
        (message, rest) = rest.split_at(field_length(rest).unwrap_or(rest.len()));
        Some(message)
    });
    std::iter::once(list).chain(fields).take_while(|message| !message.is_empty())
}
