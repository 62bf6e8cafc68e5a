//! What an adviser is asked: numbers at and beside the ends of the ranges, leads beside the limit of
//! each gauge, and drawn ones, the same at each run.

use super::{Check, Question, CURRENTS, LENGTHS, MOST_BY_MM, TABLE};
use crate::generate::Draw;

const SEED: u64 = 22;
/// Currents drawn for each listed gauge.
const CURRENTS_DRAWN: usize = 4_000;
/// Pairs of current and length drawn for each gauge as the thinnest that serves, and for none.
const PAIRS_DRAWN: usize = 1_000;
/// Questions of either kind drawn from all 64 bits.
const ANY_DRAWN: usize = 1_000;

/// Gauges behind the smallest ones, some of which are listed if bits are lost.
const FAR_GAUGES: [u64; 6] = [254, 255, 256, 256 + 14, (1 << 32) + 14, u64::MAX];
const CURRENT_ENDS: [u64; 11] =
    [0, 1, 2, 149_999, 150_000, 150_001, 1 << 32, (1 << 32) + 1, (1 << 53) + 1, 1 << 63, u64::MAX];
const LENGTH_ENDS: [u64; 10] =
    [0, 1, 2, 999_999, 1_000_000, 1_000_001, 1 << 32, (1 << 32) + 1, 1 << 63, u64::MAX];

/// A current in mA and a length in mm.
pub type Pair = (u64, u64);

/// All questions, in groups.
pub fn checks() -> Vec<Check> {
    let mut draw = Draw::new(SEED);
    let gauges = (0..=20).chain(FAR_GAUGES);
    let mut checks: Vec<Check> = gauges.map(|gauge| leads_of(gauge, &mut draw)).collect();
    checks.push(pairs("the ends of both ranges".into(), ends()));
    for (gauge, figure) in TABLE {
        checks.push(pairs(format!("beside the limit of gauge {gauge}"), around_limit(figure)));
    }
    checks.extend(drawn_pairs(&mut draw));
    checks.push(anything(&mut draw));
    checks
}

fn pairs(name: String, pairs: Vec<Pair>) -> Check {
    let question = |(ma, mm)| Question::Gauge { ma, mm };
    Check { name, questions: pairs.into_iter().map(question).collect() }
}

/// A gauge at the ends of the currents, and at drawn ones if it is listed.
fn leads_of(gauge: u64, draw: &mut Draw) -> Check {
    let listed = TABLE.iter().any(|(listed, _)| *listed == gauge);
    let drawn = if listed { CURRENTS_DRAWN } else { 0 };
    let mut currents = CURRENT_ENDS.to_vec();
    currents.extend((0..drawn).map(|_| CURRENTS.start() + draw.below(*CURRENTS.end())));
    let questions = currents.into_iter().map(|ma| Question::Lead { gauge, ma }).collect();
    Check { name: format!("leads of gauge {gauge}"), questions }
}

fn ends() -> Vec<Pair> {
    CURRENT_ENDS.into_iter().flat_map(|ma| LENGTH_ENDS.map(|mm| (ma, mm))).collect()
}

// ---- leads beside the limit ----

/// Of all pairs in range, the one whose product with the figure is the greatest that the limit
/// allows, and the one whose product is the least above it. No product is at the limit.
pub fn beside_limit(figure: u64) -> [Pair; 2] {
    let product = |(ma, mm): &Pair| ma * figure * mm;
    let longest = |ma: u64| MOST_BY_MM / (ma * figure);
    let within = CURRENTS.map(|ma| (ma, longest(ma).min(*LENGTHS.end())));
    let within = within.filter(|(_, mm)| LENGTHS.contains(mm)).max_by_key(product);
    let beyond = CURRENTS.map(|ma| (ma, longest(ma) + 1));
    let beyond = beyond.filter(|(_, mm)| LENGTHS.contains(mm)).min_by_key(product);
    [within, beyond].map(|pair| pair.expect("a pair on either side of the limit"))
}

/// These two, each also with its length and its current one less and one more.
fn around_limit(figure: u64) -> Vec<Pair> {
    let around =
        |(ma, mm): Pair| [(ma, mm), (ma, mm - 1), (ma, mm + 1), (ma - 1, mm), (ma + 1, mm)];
    beside_limit(figure).into_iter().flat_map(around).collect()
}

// ---- drawn pairs ----

/// For each gauge pairs that it serves and no thinner one does, and then pairs that none serves.
fn drawn_pairs(draw: &mut Draw) -> Vec<Check> {
    let mut checks = Vec::new();
    let mut too_small = 0;
    for (gauge, figure) in TABLE {
        let most = MOST_BY_MM / figure;
        let name = format!("drawn with gauge {gauge} as the thinnest that serves");
        checks.push(pairs(name, drawn(draw, too_small, most)));
        too_small = most;
    }
    let most = CURRENTS.end() * LENGTHS.end();
    checks.push(pairs("drawn with no gauge that serves".into(), drawn(draw, too_small, most)));
    checks
}

fn drawn(draw: &mut Draw, too_small: u64, most: u64) -> Vec<Pair> {
    (0..PAIRS_DRAWN).map(|_| drawn_pair(draw, too_small, most)).collect()
}

/// A pair in range whose own product is above one number and at most the other. The current or the
/// length comes first; the other is often the least or the greatest that goes with it.
fn drawn_pair(draw: &mut Draw, too_small: u64, most: u64) -> Pair {
    let (strongest, longest) = (*CURRENTS.end(), *LENGTHS.end());
    let current_first = draw.percent(50);
    let (first_end, second_end) =
        if current_first { (strongest, longest) } else { (longest, strongest) };
    loop {
        let first = 1 + draw.below(first_end);
        let (least, greatest) = (too_small / first + 1, second_end.min(most / first));
        if least <= greatest {
            let between = least + draw.below(greatest - least + 1);
            let second = draw.pick(&[least, greatest, between, between]);
            return if current_first { (first, second) } else { (second, first) };
        }
    }
}

fn anything(draw: &mut Draw) -> Check {
    // Shifted, so that small numbers are as frequent as large ones.
    let mut number = || draw.any() >> draw.below(64);
    let question = |_| {
        let (gauge, ma, mm) = (number(), number(), number());
        [Question::Lead { gauge, ma }, Question::Gauge { ma, mm }]
    };
    let questions = (0..ANY_DRAWN).flat_map(question).collect();
    Check { name: "drawn from all numbers of 64 bits".into(), questions }
}
