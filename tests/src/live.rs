//! A program that is kept running: bytes go in while its output is read, with a time limit on every
//! wait, so that a program that holds its replies back does not block whoever waits.

use std::io::{ErrorKind, Read, Write};
use std::process::{Child, ExitStatus};
use std::sync::mpsc::{channel, Receiver, RecvTimeoutError};
use std::time::{Duration, Instant};

use crate::outside;
use crate::program::Running;

/// A reply that has not come by then counts as held back.
pub const PATIENCE: Duration = Duration::from_secs(10);

pub struct Live {
    child: Child,
    input: Option<Box<dyn Write + Send>>,
    /// What was printed, piece by piece; the sender is gone once the output has ended.
    pieces: Receiver<Vec<u8>>,
    /// Printed, and not asked for yet.
    ahead: Vec<u8>,
    ended: bool,
}

impl Live {
    pub fn start(program: &str) -> Result<Live, String> {
        let mut child = outside::start(program)?;
        let input = child.stdin.take().ok_or("no standard input")?;
        let output = child.stdout.take().ok_or("no standard output")?;
        Ok(Live::between(child, input, output))
    }

    /// A program that is already running, with the near ends of its input and output.
    pub fn between(
        child: Child,
        input: impl Write + Send + 'static,
        mut output: impl Read + Send + 'static,
    ) -> Live {
        let (sender, pieces) = channel();
        std::thread::spawn(move || {
            let mut block = [0; 4096];
            while let Ok(count @ 1..) = output.read(&mut block) {
                if sender.send(block[..count].to_vec()).is_err() {
                    return;
                }
            }
        });
        let input: Option<Box<dyn Write + Send>> = Some(Box::new(input));
        Live { child, input, pieces, ahead: Vec::new(), ended: false }
    }

    /// The number of its process.
    pub fn process(&self) -> u32 {
        self.child.id()
    }

    /// Sends one byte; false if the program no longer reads.
    pub fn send(&mut self, byte: u8) -> Result<bool, String> {
        self.send_piece(&[byte])
    }

    /// Sends some bytes at once; false if the program no longer reads.
    pub fn send_piece(&mut self, piece: &[u8]) -> Result<bool, String> {
        let pipe = self.input.as_mut().ok_or("the input is closed already")?;
        match pipe.write_all(piece).and_then(|()| pipe.flush()) {
            Ok(()) => Ok(true),
            Err(error) if error.kind() == ErrorKind::BrokenPipe => Ok(false),
            Err(error) => Err(error.to_string()),
        }
    }

    /// The end of the input.
    pub fn close(&mut self) {
        self.input = None;
    }

    /// Waits until enough is printed and not yet asked for, or the output has ended, or the time is
    /// up; returns those bytes without taking them.
    fn wait(&mut self, enough: impl Fn(&[u8]) -> bool, time: Duration) -> &[u8] {
        let until = Instant::now() + time;
        while !enough(&self.ahead) && !self.ended {
            match self.pieces.recv_timeout(until.saturating_duration_since(Instant::now())) {
                Ok(piece) => self.ahead.extend(piece),
                Err(RecvTimeoutError::Disconnected) => self.ended = true,
                Err(RecvTimeoutError::Timeout) => break,
            }
        }
        &self.ahead
    }

    /// The program must print exactly this, soon, and nothing after it.
    pub fn expect(&mut self, wanted: &[u8]) -> Result<(), String> {
        let settled = |printed: &[u8]| printed == wanted || !wanted.starts_with(printed);
        let printed = self.wait(settled, PATIENCE);
        if printed != wanted {
            return Err(format!("{} should come and {} came", shown(wanted), shown(printed)));
        }
        self.ahead.clear();
        Ok(())
    }

    /// Nothing may have been printed, or be printed within this time.
    pub fn expect_nothing(&mut self, time: Duration) -> Result<(), String> {
        let printed = self.wait(|printed| !printed.is_empty(), time);
        if !printed.is_empty() {
            return Err(format!("{} came too early", shown(printed)));
        }
        match self.ended {
            true => Err("the output ended too early".into()),
            false => Ok(()),
        }
    }

    /// Ends the input, after which what the model prints must come, and then the end of the
    /// program.
    pub fn finish(&mut self, model: &mut Running) -> Result<(), String> {
        let mut rest = Vec::new();
        model.take(&[], &mut rest);
        self.close();
        self.expect(&rest)
            .and_then(|()| self.expect_end())
            .map_err(|what| format!("at the end, {what}"))
    }

    /// The program must end soon, without a further byte and without crashing.
    pub fn expect_end(&mut self) -> Result<(), String> {
        let printed = self.wait(|printed| !printed.is_empty(), PATIENCE);
        if !printed.is_empty() {
            return Err(format!("{} came after the last reply", shown(printed)));
        }
        if !self.ended {
            return Err(format!("the program did not end within {PATIENCE:?}"));
        }
        match self.status()? {
            status if outside::broke_down(status) => {
                Err(format!("the program broke down ({status})"))
            }
            _ => Ok(()),
        }
    }

    /// How the program ended, which may come a little after the end of its output.
    fn status(&mut self) -> Result<ExitStatus, String> {
        let until = Instant::now() + PATIENCE;
        while Instant::now() < until {
            let status = self.child.try_wait().map_err(|error| error.to_string())?;
            if let Some(status) = status {
                return Ok(status);
            }
            std::thread::sleep(Duration::from_millis(1));
        }
        Err(format!("the output ended, and the program did not within {PATIENCE:?}"))
    }
}

impl Drop for Live {
    /// Whatever the verdict, no program is left behind.
    fn drop(&mut self) {
        let _ = self.child.kill();
        let _ = self.child.wait();
    }
}

/// Bytes as a message shows them.
fn shown(bytes: &[u8]) -> String {
    match bytes {
        [] => "nothing".to_string(),
        _ => format!("\"{}\"", bytes.escape_ascii()),
    }
}
