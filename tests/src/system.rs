//! What the fault tests need from Linux that std does not have: descriptors that do not block,
//! limits, and terminals. Numbers and layouts are those of x86-64 with glibc.

use std::ffi::{c_char, CStr};
use std::fs::File;
use std::io;
use std::os::fd::{AsRawFd, FromRawFd};
use std::os::unix::fs::OpenOptionsExt;
use std::os::unix::process::CommandExt;
use std::process::Command;
use std::time::Duration;

pub const EINTR: i32 = 4;
pub const EIO: i32 = 5;
pub const EBADF: i32 = 9;
pub const EAGAIN: i32 = 11;
pub const EISDIR: i32 = 21;
pub const EFBIG: i32 = 27;
pub const ENOSPC: i32 = 28;
pub const EPIPE: i32 = 32;
/// The last errno that Linux gives.
pub const LAST_ERRNO: i32 = 133;

pub const SIGPIPE: i32 = 13;
pub const SIGCONT: i32 = 18;
pub const SIGSTOP: i32 = 19;
pub const SIGXFSZ: i32 = 25;

pub const FILE_SIZE: i32 = 1;
pub const STACK: i32 = 3;

const GET_FLAGS: i32 = 3;
const SET_FLAGS: i32 = 4;
const SET_PIPE_SIZE: i32 = 1031;
const NON_BLOCKING: i32 = 0o4000;
const READ_WRITE: i32 = 2;
const NO_CONTROLLING: i32 = 0o400;
const NOT_FOR_CHILDREN: i32 = 0o2_000_000;
const BYTES_WAITING: u64 = 0x541B;
const IGNORE: usize = 1;
const TIME_AT: usize = 5;
const LEAST_AT: usize = 6;
/// Clock ticks per second, as /proc counts them.
const TICKS: u64 = 100;

/// A terminal's settings: four words of flags, the line discipline, the control characters, speeds.
#[repr(C)]
struct Settings {
    flags: [u32; 4],
    discipline: u8,
    characters: [u8; 32],
    speeds: [u32; 2],
}

extern "C" {
    fn cfmakeraw(settings: *mut Settings);
    fn close(descriptor: i32) -> i32;
    fn fcntl(descriptor: i32, command: i32, ...) -> i32;
    fn grantpt(master: i32) -> i32;
    fn ioctl(descriptor: i32, request: u64, ...) -> i32;
    fn kill(process: i32, signal: i32) -> i32;
    fn posix_openpt(flags: i32) -> i32;
    fn ptsname_r(master: i32, name: *mut c_char, room: usize) -> i32;
    fn setrlimit(what: i32, limits: *const [u64; 2]) -> i32;
    fn signal(number: i32, action: usize) -> usize;
    fn tcgetattr(descriptor: i32, settings: *mut Settings) -> i32;
    fn tcsetattr(descriptor: i32, when: i32, settings: *const Settings) -> i32;
    fn unlockpt(master: i32) -> i32;
}

fn done(status: i32) -> io::Result<i32> {
    match status {
        0.. => Ok(status),
        _ => Err(io::Error::last_os_error()),
    }
}

/// What is done in a program's process before the program starts there.
#[derive(Clone, Copy)]
pub enum Before {
    Close(i32),
    Ignore(i32),
    Limit(i32, u64),
}

pub fn prepare(command: &mut Command, steps: &[Before]) {
    for step in steps.iter().copied() {
        let take = move || {
            // SAFETY: each of these calls does no more than its system call.
            match step {
                Before::Close(descriptor) => done(unsafe { close(descriptor) }),
                Before::Ignore(number) => Ok(unsafe { signal(number, IGNORE) } as i32),
                Before::Limit(what, most) => done(unsafe { setrlimit(what, &[most, most]) }),
            }
            .map(|_| ())
        };
        // SAFETY: the step allocates nothing and takes no lock.
        unsafe { command.pre_exec(take) };
    }
}

/// From here on nothing waits on this descriptor, in whatever process it is open.
pub fn never_wait(descriptor: &impl AsRawFd) -> io::Result<()> {
    let number = descriptor.as_raw_fd();
    // SAFETY: the descriptor is open as long as it is lent.
    let flags = done(unsafe { fcntl(number, GET_FLAGS) })?;
    done(unsafe { fcntl(number, SET_FLAGS, flags | NON_BLOCKING) }).map(|_| ())
}

/// A pipe takes at most this many bytes before someone reads.
pub fn narrow(pipe: &impl AsRawFd, bytes: i32) -> io::Result<()> {
    // SAFETY: the descriptor is open as long as it is lent.
    done(unsafe { fcntl(pipe.as_raw_fd(), SET_PIPE_SIZE, bytes) }).map(|_| ())
}

pub fn send_signal(process: u32, number: i32) -> io::Result<()> {
    // SAFETY: the call touches no memory of ours.
    done(unsafe { kill(process as i32, number) }).map(|_| ())
}

/// The time that a process has computed, in its own code and in the kernel.
pub fn computed(process: u32) -> Result<Duration, String> {
    let text = std::fs::read_to_string(format!("/proc/{process}/stat"));
    let text = text.map_err(|error| format!("process {process}: {error}"))?;
    // The name in brackets may contain blanks; 11 fields stand between it and the two times.
    let behind = text.rsplit(')').next().unwrap_or_default();
    let times = behind.split_whitespace().skip(11).take(2).flat_map(str::parse::<u64>);
    Ok(Duration::from_millis(times.sum::<u64>() * 1000 / TICKS))
}

/// A serial line: what is written to the near end is read at the far one.
pub struct Line {
    pub near: File,
    pub far: File,
}

impl Line {
    /// A line in raw mode on which a read waits for `least` bytes, or for `time` tenths of a
    /// second.
    pub fn open(least: u8, time: u8) -> io::Result<Line> {
        // No child may have the near end, as a line hangs up when its last descriptor closes.
        let flags = READ_WRITE | NO_CONTROLLING | NOT_FOR_CHILDREN;
        // SAFETY: the descriptor is new, and nobody else has it.
        let near = unsafe { File::from_raw_fd(done(posix_openpt(flags))?) };
        let name = far_name(&near)?;
        let far = File::options().read(true).write(true).custom_flags(NO_CONTROLLING).open(name)?;
        make_raw(&far, least, time)?;
        Ok(Line { near, far })
    }
}

fn far_name(near: &File) -> io::Result<String> {
    let mut name = [0; 64];
    // SAFETY: the descriptor is open, and the name has the given room.
    unsafe {
        done(grantpt(near.as_raw_fd()))?;
        done(unlockpt(near.as_raw_fd()))?;
        done(-ptsname_r(near.as_raw_fd(), name.as_mut_ptr(), name.len()))?;
        Ok(CStr::from_ptr(name.as_ptr()).to_string_lossy().into_owned())
    }
}

fn make_raw(far: &File, least: u8, time: u8) -> io::Result<()> {
    let mut settings =
        Settings { flags: [0; 4], discipline: 0, characters: [0; 32], speeds: [0; 2] };
    // SAFETY: the structure has the size and layout of the C library's.
    unsafe {
        done(tcgetattr(far.as_raw_fd(), &mut settings))?;
        cfmakeraw(&mut settings);
        settings.characters[LEAST_AT] = least;
        settings.characters[TIME_AT] = time;
        done(tcsetattr(far.as_raw_fd(), 0, &settings))?;
    }
    Ok(())
}

/// Bytes that have arrived and that nobody has read yet.
pub fn waiting(descriptor: &impl AsRawFd) -> io::Result<i32> {
    let mut count = 0;
    // SAFETY: the call writes the one number.
    done(unsafe { ioctl(descriptor.as_raw_fd(), BYTES_WAITING, &mut count as *mut i32) })?;
    Ok(count)
}
