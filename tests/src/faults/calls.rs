//! One run of the program with its reads and writes answered by plans, and the log of those calls
//! compared with the model: at each call it is known what was read, what that draws, and how much
//! of it was written.

use std::fs::{self, File};

use super::bench::{complaint, end_of, expect_zero, shown, Bench, STREAMS};
use crate::program::Running;
use crate::system::{EAGAIN, EINTR};

/// What a call of the program asked for and what it got: bytes moved, or an errno with a minus
/// sign.
#[derive(Clone, Copy, Debug, PartialEq, Eq)]
pub struct Call {
    /// 0 for a read of standard input, 1 for a write to standard output.
    pub stream: usize,
    pub answer: i64,
}

/// The plans of one run, as the library reads them; an empty plan lets all calls through.
#[derive(Clone, Debug, Default)]
pub struct Plans {
    pub reads: String,
    pub writes: String,
}

/// What a run left behind.
pub struct Run {
    pub calls: Vec<Call>,
    pub printed: Vec<u8>,
    /// On standard error.
    pub said: String,
}

impl Run {
    /// How often a call on this stream was answered like this.
    pub fn count(&self, stream: usize, answer: i64) -> usize {
        self.calls.iter().filter(|call| **call == Call { stream, answer }).count()
    }
}

/// Runs the program on a file, with its output going to another.
pub fn run(bench: &Bench, input: &[u8], plans: &Plans) -> Result<Run, String> {
    let wrong = |error: std::io::Error| error.to_string();
    let (output, log) = (bench.file(), bench.file());
    let (mut command, said) = bench.command(&[])?;
    command.stdin(bench.file_of(input)?).stdout(File::create(&output).map_err(wrong)?);
    command.env("LD_PRELOAD", bench.library()).env("INJECT_LOG", &log);
    command.env("INJECT_READS", &plans.reads).env("INJECT_WRITES", &plans.writes);
    let status = end_of(&mut command.spawn().map_err(wrong)?)?;
    let printed = fs::read(output).map_err(wrong)?;
    expect_zero(status).map_err(|what| format!("{what} after {}", shown(&printed)))?;
    let calls = fs::read_to_string(log).map_err(|error| format!("no call was logged: {error}"))?;
    let calls = calls.lines().map(call).collect::<Option<_>>().ok_or("the log cannot be read")?;
    Ok(Run { calls, printed, said: said.text()? })
}

/// A line of the log: the stream, what was asked for, the answer.
fn call(line: &str) -> Option<Call> {
    let numbers: Vec<i64> = line.split(' ').flat_map(str::parse).collect();
    let [stream @ 0..=1, _, answer] = numbers[..] else { return None };
    Some(Call { stream: stream as usize, answer })
}

/// The state of the model between two calls.
#[derive(Default)]
struct Trail {
    model: Running,
    read: usize,
    /// What the bytes read so far draw, including the refusal if there is one.
    drawn: Vec<u8>,
    written: usize,
    /// The stream that failed for good and the errno.
    failed: Option<(usize, i32)>,
}

impl Trail {
    fn follow(&mut self, call: Call, input: &[u8]) -> Result<(), String> {
        if let Some((stream, errno)) = self.failed {
            let name = STREAMS[stream];
            return Err(format!("{name} failed with errno {errno}, and {call:?} came after it"));
        }
        if call.stream == 0 && self.written < self.drawn.len() {
            let late = &self.drawn[self.written..];
            return Err(format!("it reads on while {} is not out", shown(late)));
        }
        match (call.stream, call.answer) {
            (0, 0..) => self.take(call.answer as usize, input),
            (_, 0..) => {
                self.written += call.answer as usize;
                match self.written <= self.drawn.len() {
                    true => Ok(()),
                    false => Err("it writes more than its input draws".into()),
                }
            }
            (stream, answer) => {
                let errno = -answer as i32;
                self.failed = (![EINTR, EAGAIN].contains(&errno)).then_some((stream, errno));
                Ok(())
            }
        }
    }

    /// This many bytes were read; none means the end of the input.
    fn take(&mut self, count: usize, input: &[u8]) -> Result<(), String> {
        if self.model.over() {
            return Err("it reads on after its last reply".into());
        }
        let piece = input.get(self.read..self.read + count).ok_or("it reads more than there is")?;
        self.model.take(piece, &mut self.drawn);
        self.read += count;
        Ok(())
    }

    /// What must hold once the program has ended.
    fn end(&self, run: &Run) -> Result<(), String> {
        let beginning = &self.drawn[..self.written];
        if run.printed != beginning {
            let (printed, beginning) = (shown(&run.printed), shown(beginning));
            return Err(format!("it printed {printed} where {beginning} should be"));
        }
        let line = self.failed.map(|(stream, errno)| complaint(stream, errno)).unwrap_or_default();
        if run.said != line {
            return Err(format!("standard error has {:?} and not {line:?}", run.said));
        }
        match self.failed {
            Some((1, _)) => Ok(()),
            _ if beginning.len() < self.drawn.len() => {
                Err(format!("{} never came", shown(&self.drawn[beginning.len()..])))
            }
            None if !self.model.over() => Err("it ended before its input did".into()),
            _ => Ok(()),
        }
    }
}

/// Compares a run with the model, call by call and then as a whole.
pub fn judge(run: &Run, input: &[u8]) -> Result<(), String> {
    let mut trail = Trail::default();
    for (at, call) in run.calls.iter().enumerate() {
        trail.follow(*call, input).map_err(|what| format!("call {}: {what}", at + 1))?;
    }
    trail.end(run)
}
