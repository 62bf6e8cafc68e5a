//! Random plans, made from seeds: for each a run in which nothing may show, and another with a
//! lasting fault at one of its calls.

use super::bench::Bench;
use super::calls::Plans;
use super::injected::{fatal, passes_by_itself, unseen, STAYS};
use super::Case;
use crate::generate::{generate, Draw};
use crate::system::{EAGAIN, EINTR, ENOSPC, LAST_ERRNO};

/// Plans are made for this many inputs, in groups that are one case each.
const GROUPS: u64 = 15;
const IN_A_GROUP: u64 = 10;
const KINDS: [&str; 8] =
    ["samples", "serial", "mixed", "query", "order", "queries", "checksummed", "global"];

pub fn cases() -> Vec<Case> {
    let seeds = |group| group * IN_A_GROUP..(group + 1) * IN_A_GROUP;
    let case = |group| {
        Case::new(format!("random plans, seeds {:?}", seeds(group)), move |bench| {
            seeds(group).try_for_each(|seed| random(bench, seed))
        })
    };
    (0..GROUPS).map(case).collect()
}

fn random(bench: &Bench, seed: u64) -> Result<(), String> {
    let mut draw = Draw::new(seed);
    let input = input(bench, &mut draw, seed)?;
    let words = [words(&mut draw), words(&mut draw)];
    let plans = Plans { reads: again(&words[0]), writes: again(&words[1]) };
    let wrong = |what: String| format!("seed {seed}, {plans:?}: {what}");
    let calls = unseen(bench, &input, &plans).map_err(wrong)?.calls;
    let stream = draw.below(2) as usize;
    let count = calls.iter().filter(|call| call.stream == stream).count();
    if count == 0 {
        return Ok(());
    }
    // Up to the fault the second run goes like the first, so the fault is reached.
    let at = draw.below(count as u64) as usize;
    let before: Vec<_> = words[stream].iter().cycle().take(at).cloned().collect();
    let errno = errno(&mut draw);
    let plan = format!("{} e{errno}{}", before.join(" "), draw.pick(&STAYS));
    let failing = match stream {
        0 => Plans { reads: plan, ..plans.clone() },
        _ => Plans { writes: plan, ..plans.clone() },
    };
    fatal(bench, &input, stream, errno, &failing).map_err(|what| format!("seed {seed}, {what}"))
}

/// Alternately a load, which is worked to its end, and a list that may be refused anywhere.
fn input(bench: &Bench, draw: &mut Draw, seed: u64) -> Result<Vec<u8>, String> {
    match seed % 2 {
        0 => bench.load(draw.pick(&KINDS), [50 + draw.below(250), 1 + draw.below(31), seed]),
        _ => Ok(generate(seed).bytes()),
    }
}

fn errno(draw: &mut Draw) -> i32 {
    match draw.between(1, i64::from(LAST_ERRNO)) as i32 {
        errno if passes_by_itself(errno) => ENOSPC,
        errno => errno,
    }
}

/// Words of a plan, one for each call; the last lets some bytes through, so that the run goes on.
fn words(draw: &mut Draw) -> Vec<String> {
    let most = draw.pick(&[1, 4, 20, 100]);
    let mut words: Vec<_> = (0..draw.below(24)).map(|_| word(draw, most)).collect();
    words.push((1 + draw.below(most)).to_string());
    words
}

/// EAGAIN is rare, as the program may wait a millisecond for each.
fn word(draw: &mut Draw, most: u64) -> String {
    match draw.below(100) {
        0..=3 => format!("e{EAGAIN}"),
        4..=29 => format!("e{EINTR}"),
        30..=39 => "go".into(),
        _ => (1 + draw.below(most)).to_string(),
    }
}

fn again(words: &[String]) -> String {
    format!("{} again", words.join(" "))
}
