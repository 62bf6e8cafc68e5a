//! Compares a program with the reference model on generated inputs, shrinks what differs, and
//! checks the reference model against its own second reading.

use std::sync::atomic::{AtomicBool, AtomicU64, Ordering};
use std::sync::Mutex;
use std::time::{Duration, Instant};

use crate::foldback::Foldback;
use crate::generate::{generate, Draw, Input};
use crate::outside;
use crate::program;
use crate::rack::{Rack, LEAST_ROOM, SLOTS};
use crate::script;
use crate::share::{self, Call, Tally};

const WORKERS: usize = 2;
/// Shrinking stops after this many tries, or after this time if each try is slow.
const MOST_TRIES: usize = 4_000;
const MOST_TIME: Duration = Duration::from_secs(300);
/// A long run says that it is still working after this many inputs.
const SIGN_OF_LIFE: u64 = 100_000;

/// The seed of the input with this number; neighbouring runs have no input in common.
fn input_seed(seed: u64, number: u64) -> u64 {
    Draw::new(seed).any() ^ number.wrapping_mul(0xD1B5_4A32_D192_ED03)
}

/// Whether the program's output for this input differs from the reference's.
fn differs(program: &str, input: &[u8]) -> bool {
    outside::run(program, input) != Ok(program::run(input))
}

/// The first input found on which the two differ, shrunk, as a report; none if they never differ.
pub fn with_program(program: &str, count: u64, seed: u64) -> Option<String> {
    let next = AtomicU64::new(0);
    let stop = AtomicBool::new(false);
    let found: Mutex<Option<(u64, Input)>> = Mutex::new(None);
    let work = || loop {
        let number = next.fetch_add(1, Ordering::Relaxed);
        if number >= count || stop.load(Ordering::Relaxed) {
            return;
        }
        if number > 0 && number.is_multiple_of(SIGN_OF_LIFE) {
            eprintln!("{number} inputs begun, none differs so far (seed {seed})");
        }
        let input = generate(input_seed(seed, number));
        if differs(program, &input.bytes()) {
            stop.store(true, Ordering::Relaxed);
            found.lock().expect("no worker panics").get_or_insert((number, input));
        }
    };
    std::thread::scope(|scope| {
        for _ in 0..WORKERS {
            scope.spawn(work);
        }
    });
    let (number, input) = found.into_inner().expect("no worker panics")?;
    let small = shrink(input, |input| differs(program, &input.bytes()));
    Some(format!("input {number} of seed {seed} differs; {}", report(program, &small.bytes())))
}

fn report(program: &str, input: &[u8]) -> String {
    let theirs = match outside::run(program, input) {
        Ok(printed) => String::from_utf8_lossy(&printed).into_owned(),
        Err(reason) => format!("({reason})\n"),
    };
    let ours = String::from_utf8_lossy(&program::run(input)).into_owned();
    let text = script::write(input);
    let (theirs, ours) = (lines_of(&theirs), lines_of(&ours));
    format!(
        "shrunk to:\n{text}\
         --- the program prints:\n{theirs}\n--- the reference prints:\n{ours}"
    )
}

/// What was printed, without its last LF; if that is missing, a note says so.
fn lines_of(printed: &str) -> String {
    match printed.strip_suffix('\n') {
        Some(lines) => lines.to_string(),
        None if printed.is_empty() => "(nothing)".to_string(),
        None => format!("{printed} (and no LF after it)"),
    }
}

/// How much shrinking may still cost.
struct Budget {
    tries: usize,
    until: Instant,
}

impl Budget {
    fn spent(&self) -> bool {
        self.tries == 0 || Instant::now() >= self.until
    }
}

/// The smallest list found that still shows the fault: fields are dropped first, then bytes.
pub fn shrink(input: Input, faulty: impl Fn(&Input) -> bool) -> Input {
    let mut best = input;
    let mut budget = Budget { tries: MOST_TRIES, until: Instant::now() + MOST_TIME };
    loop {
        let size = best.bytes().len();
        drop_parts(&mut best, &faulty, &mut budget);
        join_serial(&mut best, &faulty, &mut budget);
        shorten_parts(&mut best, &faulty, &mut budget);
        empty_slots(&mut best, &faulty, &mut budget);
        if best.bytes().len() == size || budget.spent() {
            return best;
        }
    }
}

/// Takes the smaller list if it still shows the fault.
fn try_instead(
    best: &mut Input,
    smaller: Input,
    faulty: &impl Fn(&Input) -> bool,
    budget: &mut Budget,
) -> bool {
    if budget.spent() {
        return false;
    }
    budget.tries -= 1;
    let taken = faulty(&smaller);
    if taken {
        *best = smaller;
    }
    taken
}

/// Drops runs of fields, from half the list down to single ones.
fn drop_parts(best: &mut Input, faulty: &impl Fn(&Input) -> bool, budget: &mut Budget) {
    let mut run = best.parts.len() / 2;
    while run > 0 {
        let mut at = 1;
        while at < best.parts.len() {
            let mut smaller = best.clone();
            smaller.parts.drain(at..(at + run).min(best.parts.len()));
            if !try_instead(best, smaller, faulty, budget) {
                at += run;
            }
        }
        run /= 2;
    }
}

/// Merges adjacent serial fields into as few as their bytes allow.
fn join_serial(best: &mut Input, faulty: &impl Fn(&Input) -> bool, budget: &mut Budget) {
    let mut at = 1;
    while at + 1 < best.parts.len() {
        let (one, other) = (&best.parts[at], &best.parts[at + 1]);
        let whole = |part: &[u8]| {
            part.first() == Some(&1) && script::field_length(part) == Some(part.len())
        };
        let joinable = whole(one) && whole(other) && one.len() + other.len() <= 3 + 3 + 16;
        if joinable {
            let mut joined = [&one[..], &other[3..]].concat();
            joined[2] += other[2];
            let mut smaller = best.clone();
            smaller.parts.splice(at..at + 2, [joined]);
            if try_instead(best, smaller, faulty, budget) {
                continue;
            }
        }
        at += 1;
    }
}

/// Removes single bytes from serial fields, and from the end of anything else.
fn shorten_parts(best: &mut Input, faulty: &impl Fn(&Input) -> bool, budget: &mut Budget) {
    for part in 1..best.parts.len() {
        let mut at = best.parts[part].len();
        while at > 0 {
            at -= 1;
            if let Some(shorter) = without_byte(&best.parts[part], at) {
                let mut smaller = best.clone();
                smaller.parts[part] = shorter;
                try_instead(best, smaller, faulty, budget);
            }
        }
    }
}

/// The field without the byte at this place, with its length corrected; none if that is not a
/// field.
fn without_byte(part: &[u8], at: usize) -> Option<Vec<u8>> {
    let mut shorter = part.to_vec();
    let serial = part.len() > 4 && part[0] == 1 && usize::from(part[2]) + 3 == part.len();
    if serial && at >= 3 {
        shorter.remove(at);
        shorter[2] -= 1;
        return Some(shorter);
    }
    let whole = script::field_length(part) == Some(part.len());
    if whole || at + 1 != part.len() {
        return None;
    }
    shorter.pop();
    Some(shorter)
}

/// Empties slots that the fault does not need.
fn empty_slots(best: &mut Input, faulty: &impl Fn(&Input) -> bool, budget: &mut Budget) {
    for slot in 0..best.parts[0].len() {
        if best.parts[0][slot] != crate::rack::EMPTY {
            let mut smaller = best.clone();
            smaller.parts[0][slot] = crate::rack::EMPTY;
            try_instead(best, smaller, faulty, budget);
        }
    }
}

/// Checks the reference on generated lists of calls against the second reading of the shares.
pub fn with_itself(count: u64, seed: u64) -> Result<Tally, String> {
    let mut tally = Tally::default();
    for number in 0..count {
        let input = generate(input_seed(seed, number));
        let fitting = input.parts[0].clone();
        if Rack::fit(&fitting).is_err() {
            continue;
        }
        let calls = input.calls(&mut Draw::new(number));
        match share::check(&fitting, &calls) {
            Ok(more) => tally.add(more),
            Err(what) => {
                let text = script::write(&input.bytes());
                return Err(format!(
                    "list {number}: {what}\nthe list before its odd calls:\n{text}"
                ));
            }
        }
    }
    Ok(tally)
}

/// What service messages generated inputs bring, and how SEVE came to them.
#[derive(Debug, Default)]
pub struct Service {
    /// Fields after which no supply spoke, one, two, and so on up to all of a rack.
    pub speakers: [usize; SLOTS + 1],
    /// Fields of tags 1 to 5 with a message.
    pub tags: [usize; 6],
    /// How often each bit got into a supply's SEVE.
    pub bits: [usize; 8],
    /// Messages by what filled: FEVE alone, SEVE alone, both.
    pub registers: [usize; 3],
    /// Messages of a register that filled while the supply's other one was not empty.
    pub while_other_stands: usize,
    /// Messages of slots that were not selected at the end of a serial field.
    pub not_selected: usize,
    /// Serial fields that raise something and clear it, or clear something and raise it again: worked
    /// byte by byte, they would bring more messages.
    pub hidden: usize,
    /// The most bytes that a field said.
    pub longest: usize,
}

pub fn service_counts(count: u64, seed: u64) -> Service {
    let mut service = Service::default();
    for number in 0..count {
        let input = generate(input_seed(seed, number));
        let Ok(mut rack) = Rack::fit(&input.parts[0]) else { continue };
        for field in &input.parts[1..] {
            let before = rack.clone();
            let Ok((_, said)) = rack.call(field, LEAST_ROOM) else { continue };
            service.note(field, &before, &rack, &said);
        }
    }
    service
}

/// What generated inputs bring to foldback.
pub fn foldback_counts(count: u64, seed: u64) -> Foldback {
    let mut foldback = Foldback::default();
    for number in 0..count {
        let Input { parts } = generate(input_seed(seed, number));
        if Rack::fit(&parts[0]).is_ok() {
            let call = |part: &Vec<u8>| Call { bytes: part.clone(), room: LEAST_ROOM };
            let calls: Vec<Call> = parts[1..].iter().map(call).collect();
            foldback.note(&parts[0], &calls);
        }
    }
    foldback
}

fn messages_in(said: &[u8]) -> usize {
    said.iter().filter(|byte| **byte == b'!').count()
}

impl Service {
    fn note(&mut self, field: &[u8], before: &Rack, after: &Rack, said: &[u8]) {
        let messages = messages_in(said);
        self.speakers[messages] += 1;
        self.tags[usize::from(field[0])] += usize::from(messages > 0);
        self.longest = self.longest.max(said.len());
        for (slot, (was, is)) in before.slots.iter().zip(&after.slots).enumerate() {
            let (Some(was), Some(is)) = (was, is) else { continue };
            let risen = is.seve & !was.seve;
            (0..8).for_each(|bit| self.bits[bit] += usize::from(risen >> bit & 1));
            let filled = (was.feve == 0 && is.feve != 0, was.seve == 0 && is.seve != 0);
            match filled {
                (false, false) => continue,
                (true, false) => self.registers[0] += 1,
                (false, true) => self.registers[1] += 1,
                (true, true) => self.registers[2] += 1,
            }
            let stands = (filled.0 && was.seve != 0) || (filled.1 && was.feve != 0);
            self.while_other_stands += usize::from(stands);
            self.not_selected += usize::from(field[0] == 1 && after.selected != Some(slot));
        }
        if field[0] == 1 {
            let mut rack = before.clone();
            let byte = |byte: &u8| rack.call(&[1, 0, 1, *byte], LEAST_ROOM).unwrap_or_default().1;
            let apart: Vec<u8> = field[3..].iter().flat_map(byte).collect();
            self.hidden += usize::from(messages_in(&apart) > messages);
        }
    }
}

/// How often each reply came in generated inputs, to show what they reach.
pub fn reply_counts(count: u64, seed: u64) -> Vec<(String, usize)> {
    let mut counts = std::collections::BTreeMap::new();
    for number in 0..count {
        let printed = program::run(&generate(input_seed(seed, number)).bytes());
        for line in String::from_utf8_lossy(&printed).lines() {
            *counts.entry(reply_name(line).to_string()).or_insert(0) += 1;
        }
    }
    counts.into_iter().collect()
}

/// Replies by name, with all figures, all bytes, all answers of STT? and all messages as one kind
/// each.
fn reply_name(line: &str) -> &str {
    match line.split('$').next().unwrap_or("") {
        word if word.starts_with('!') => "a message",
        word if word.starts_with("MV(") => "a status",
        word if word.contains('.') => "a figure",
        word @ ("00" | "CC") => word,
        word if word.len() == 2 && u8::from_str_radix(word, 16).is_ok() => "a byte above 00",
        word => word,
    }
}
