//! Runs a program from outside: bytes to its standard input, its standard output back.

use std::io::{ErrorKind, Read, Write};
use std::process::{Child, Command, ExitStatus, Stdio};
use std::sync::mpsc::channel;
use std::time::Duration;

/// A program that has not ended by then is taken to hang.
const PATIENCE: Duration = Duration::from_secs(20);
/// What a pipe certainly takes without anyone reading at the other end.
const PIPE_ROOM: usize = 60_000;

/// Starts the program with both its pipes in our hands.
pub fn start(program: &str) -> Result<Child, String> {
    Command::new(program)
        .stdin(Stdio::piped())
        .stdout(Stdio::piped())
        .spawn()
        .map_err(|error| format!("cannot start {program}: {error}"))
}

/// Whether the program can be started at all; it gets an empty input.
pub fn startable(program: &str) -> Result<(), String> {
    let mut child = start(program)?;
    feed(&mut child, b"")?;
    collect(&mut child)?;
    child.wait().map(|_| ()).map_err(|error| error.to_string())
}

/// What the program printed, or why nothing can be said about it.
pub fn run(program: &str, input: &[u8]) -> Result<Vec<u8>, String> {
    let mut child = start(program)?;
    feed(&mut child, input)?;
    let printed = collect(&mut child)?;
    let status = child.wait().map_err(|error| error.to_string())?;
    match broke_down(status) {
        true => Err(format!("{program} broke down ({status})")),
        false => Ok(printed),
    }
}

/// A refusal may end with any exit status of its own; a panic or a signal is a fault.
pub fn broke_down(status: ExitStatus) -> bool {
    matches!(status.code(), Some(101) | None)
}

/// Small inputs go straight into the pipe; a longer one needs a writer beside the reader.
fn feed(child: &mut Child, input: &[u8]) -> Result<(), String> {
    let mut pipe = child.stdin.take().ok_or("no standard input")?;
    if input.len() > PIPE_ROOM {
        let input = input.to_vec();
        std::thread::spawn(move || pipe.write_all(&input));
        return Ok(());
    }
    match pipe.write_all(input) {
        // A program may stop reading after a refusal.
        Err(error) if error.kind() != ErrorKind::BrokenPipe => Err(error.to_string()),
        _ => Ok(()),
    }
}

fn collect(child: &mut Child) -> Result<Vec<u8>, String> {
    let mut pipe = child.stdout.take().ok_or("no standard output")?;
    let (sender, receiver) = channel();
    std::thread::spawn(move || {
        let mut printed = Vec::new();
        let done = pipe.read_to_end(&mut printed).map(|_| printed);
        // The other end is gone only after it lost patience.
        let _ = sender.send(done);
    });
    match receiver.recv_timeout(PATIENCE) {
        Ok(done) => done.map_err(|error| error.to_string()),
        Err(_) => {
            let stopped = child.kill().and_then(|()| child.wait());
            Err(format!("no end within {PATIENCE:?} (stopped: {})", stopped.is_ok()))
        }
    }
}
