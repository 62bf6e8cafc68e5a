//! What all fault tests share: the program under test, the tools beside it, files that are removed
//! at the end, and what must stand on standard error.

use std::ffi::OsString;
use std::fs::{self, File};
use std::path::{Path, PathBuf};
use std::process::{Child, Command, ExitStatus};
use std::sync::atomic::{AtomicUsize, Ordering};
use std::time::{Duration, Instant};

use crate::live::{Live, PATIENCE};
use crate::program::Running;
use crate::script;
use crate::system::{self, Before};

/// The two streams, by the names that the program gives them.
pub const STREAMS: [&str; 2] = ["standard input", "standard output"];

pub struct Bench {
    program: PathBuf,
    /// Where this test and the tools beside it were built.
    tools: PathBuf,
    /// For the files of this run.
    folder: PathBuf,
    files: AtomicUsize,
}

impl Bench {
    pub fn new(program: &str) -> Result<Bench, String> {
        let here = std::env::current_exe().map_err(|error| error.to_string())?;
        let tools = here.parent().unwrap_or(Path::new(".")).to_path_buf();
        let folder = std::env::temp_dir().join(format!("rack-faults-{}", std::process::id()));
        fs::create_dir_all(&folder).map_err(|error| format!("{}: {error}", folder.display()))?;
        let bench = Bench { program: program.into(), tools, folder, files: AtomicUsize::new(0) };
        match bench.library().exists() {
            true => Ok(bench),
            false => Err(format!("{} is not built", bench.library().display())),
        }
    }

    /// The library that answers reads and writes by a plan.
    pub fn library(&self) -> PathBuf {
        self.tools.join("libinject.so")
    }

    /// A unique name for a file.
    pub fn file(&self) -> PathBuf {
        self.folder.join(self.files.fetch_add(1, Ordering::Relaxed).to_string())
    }

    /// A file with these bytes, to be read from its start.
    pub fn file_of(&self, bytes: &[u8]) -> Result<File, String> {
        let path = self.file();
        let open = fs::write(&path, bytes).and_then(|()| File::open(&path));
        open.map_err(|error| format!("{}: {error}", path.display()))
    }

    /// The program, with its standard error going to a file.
    pub fn command(&self, steps: &[Before]) -> Result<(Command, Said), String> {
        let said = Said(self.file());
        let mut command = Command::new(&self.program);
        command.stderr(File::create(&said.0).map_err(|error| error.to_string())?);
        system::prepare(&mut command, steps);
        Ok((command, said))
    }

    /// The input that `load` makes.
    pub fn load(&self, kind: &str, numbers: [u64; 3]) -> Result<Vec<u8>, String> {
        let mut command = Command::new(self.tools.join("load"));
        command.arg(kind).args(numbers.map(|number| OsString::from(number.to_string())));
        let made = command.output().map_err(|error| format!("load: {error}"))?;
        match made.status.success() {
            true => Ok(made.stdout),
            false => Err(format!("load {kind} {numbers:?} ended with {}", made.status)),
        }
    }
}

impl Drop for Bench {
    fn drop(&mut self) {
        // What cannot be removed stays in the folder for such files.
        let _ = fs::remove_dir_all(&self.folder);
    }
}

/// The standard error of one run.
pub struct Said(PathBuf);

impl Said {
    pub fn text(&self) -> Result<String, String> {
        fs::read_to_string(&self.0).map_err(|error| format!("standard error: {error}"))
    }

    /// Standard error must contain exactly this.
    pub fn expect(&self, wanted: &str) -> Result<(), String> {
        match self.text()? {
            said if said == wanted => Ok(()),
            said => Err(format!("standard error has {said:?} and not {wanted:?}")),
        }
    }
}

/// The line that reports a stream (0 or 1) that failed for good.
pub fn complaint(stream: usize, errno: i32) -> String {
    format!("{}: error {errno}\n", STREAMS[stream])
}

/// The bytes of a script that is written in the tests themselves.
pub fn list(script: &str) -> Vec<u8> {
    script::parse(script.as_bytes()).expect("the tests' own scripts can be read").bytes()
}

/// Waits for the program's end, which must come soon; stops it if it does not.
pub fn end_of(child: &mut Child) -> Result<ExitStatus, String> {
    let until = Instant::now() + PATIENCE;
    while Instant::now() < until {
        if let Some(status) = child.try_wait().map_err(|error| error.to_string())? {
            return Ok(status);
        }
        std::thread::sleep(Duration::from_micros(500));
    }
    let stopped = child.kill().and_then(|()| child.wait());
    Err(format!("no end within {PATIENCE:?} (stopped: {})", stopped.is_ok()))
}

/// The program must have ended by itself, with exit status 0: a fault shows only on standard error.
pub fn expect_zero(status: ExitStatus) -> Result<(), String> {
    match status.code() {
        Some(0) => Ok(()),
        _ => Err(format!("it ended with {status}")),
    }
}

/// Sends a list in pieces, and after each checks that the replies to it come, and for this long
/// that nothing else does. The input stays open.
pub fn talk<'a>(
    live: &mut Live,
    model: &mut Running,
    pieces: impl Iterator<Item = &'a [u8]>,
    pause: Duration,
) -> Result<(), String> {
    for piece in pieces {
        let mut wanted = Vec::new();
        model.take(piece, &mut wanted);
        if !live.send_piece(piece)? {
            return Err("the program reads no more".into());
        }
        live.expect(&wanted).map_err(|what| format!("after {}, {what}", shown(piece)))?;
        if !model.over() {
            live.expect_nothing(pause).map_err(|what| format!("after {}, {what}", shown(piece)))?;
        }
    }
    Ok(())
}

/// Bytes as a message shows them, possibly not all.
pub fn shown(bytes: &[u8]) -> String {
    const MOST: usize = 200;
    match bytes.len() {
        0 => "nothing".into(),
        length @ ..=MOST => format!("\"{}\" ({length} bytes)", bytes.escape_ascii()),
        length => format!("{length} bytes that start \"{}\"", bytes[..MOST].escape_ascii()),
    }
}
