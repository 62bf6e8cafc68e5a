//! Loaded into a program before the C library (LD_PRELOAD), this stands between the program and its
//! reads of standard input and its writes to standard output, and answers them by a plan. All other
//! descriptors are left alone.
//!
//! INJECT_READS and INJECT_WRITES are the plans, one word for each call: `go` lets it through as it
//! is, a number lets through so many bytes at most, `e` and a number fails with that errno and moves
//! nothing. `*N` behind a word stands for N such calls. After the last word calls go through, unless
//! that is `again`, which starts over. INJECT_LOG names a file that gets a line for each call: the
//! descriptor, the bytes asked for, and the bytes moved or the errno with a minus.

use std::env;
use std::ffi::c_void;
use std::fs::File;
use std::io::Write;
use std::sync::atomic::{AtomicUsize, Ordering};
use std::sync::OnceLock;

const STANDARD_INPUT: i32 = 0;
const STANDARD_OUTPUT: i32 = 1;
// As Linux on x86-64 numbers its calls.
const READ: i64 = 0;
const WRITE: i64 = 1;

extern "C" {
    fn syscall(number: i64, ...) -> i64;
    fn __errno_location() -> *mut i32;
}

#[derive(Clone, Copy)]
enum Answer {
    Go,
    AtMost(usize),
    Fail(i32),
}

struct Plan {
    answers: Vec<Answer>,
    again: bool,
    next: AtomicUsize,
}

impl Plan {
    /// The plan of this variable; none lets all calls through.
    fn of(variable: &str) -> Plan {
        let text = env::var(variable).unwrap_or_default();
        let mut plan = Plan { answers: Vec::new(), again: false, next: AtomicUsize::new(0) };
        for word in text.split_whitespace() {
            match word.split_once('*') {
                Some((one, times)) => {
                    plan.answers.extend(vec![answer(one); number(times)]);
                }
                None if word == "again" => plan.again = true,
                None => plan.answers.push(answer(word)),
            }
        }
        plan
    }

    fn next(&self) -> Answer {
        let at = self.next.fetch_add(1, Ordering::Relaxed);
        let length = self.answers.len();
        let at = if self.again && length > 0 { at % length } else { at };
        self.answers.get(at).copied().unwrap_or(Answer::Go)
    }
}

fn answer(word: &str) -> Answer {
    match word.strip_prefix('e') {
        _ if word == "go" => Answer::Go,
        Some(errno) => Answer::Fail(number(errno) as i32),
        None => Answer::AtMost(number(word)),
    }
}

/// A plan that cannot be read ends the program with a message, so that no test passes by it.
fn number(text: &str) -> usize {
    text.parse().unwrap_or_else(|_| panic!("{text:?} in a plan is no number"))
}

/// # Safety
/// What the C library asks of its callers.
#[no_mangle]
pub unsafe extern "C" fn read(descriptor: i32, bytes: *mut c_void, count: usize) -> isize {
    static PLAN: OnceLock<Plan> = OnceLock::new();
    match descriptor {
        STANDARD_INPUT => {
            let plan = PLAN.get_or_init(|| Plan::of("INJECT_READS"));
            planned(plan, READ, descriptor, bytes, count)
        }
        _ => syscall(READ, descriptor, bytes, count) as isize,
    }
}

/// # Safety
/// What the C library asks of its callers.
#[no_mangle]
pub unsafe extern "C" fn write(descriptor: i32, bytes: *const c_void, count: usize) -> isize {
    static PLAN: OnceLock<Plan> = OnceLock::new();
    match descriptor {
        STANDARD_OUTPUT => {
            let plan = PLAN.get_or_init(|| Plan::of("INJECT_WRITES"));
            planned(plan, WRITE, descriptor, bytes, count)
        }
        _ => syscall(WRITE, descriptor, bytes, count) as isize,
    }
}

/// Answers one call by its plan and logs it. errno is set last, as logging may change it.
unsafe fn planned(
    plan: &Plan,
    number: i64,
    descriptor: i32,
    bytes: *const c_void,
    count: usize,
) -> isize {
    let (moved, errno) = match plan.next() {
        Answer::Fail(errno) => (-1, errno),
        Answer::Go => called(number, descriptor, bytes, count),
        Answer::AtMost(most) => called(number, descriptor, bytes, count.min(most)),
    };
    log(descriptor, count, if moved < 0 { -i64::from(errno) } else { moved });
    if moved < 0 {
        *__errno_location() = errno;
    }
    moved as isize
}

/// The call itself, and errno behind it.
unsafe fn called(number: i64, descriptor: i32, bytes: *const c_void, count: usize) -> (i64, i32) {
    let moved = syscall(number, descriptor, bytes, count);
    (moved, *__errno_location())
}

fn log(descriptor: i32, count: usize, answer: i64) {
    static LOG: OnceLock<Option<File>> = OnceLock::new();
    let open = |path| File::options().append(true).create(true).open(path);
    let log = LOG.get_or_init(|| env::var_os("INJECT_LOG").and_then(|path| open(path).ok()));
    if let Some(mut file) = log.as_ref() {
        // A line that is missing is a fault to the one who reads the log.
        let _ = file.write_all(format!("{descriptor} {count} {answer}\n").as_bytes());
    }
}
