//! The checks of `leads` can fail: the model stands in for the library, right at first and then
//! wrong in one thing at a time, and each wrong thing is told. Which gauge is named is free where
//! several serve. The model itself is held against answers worked by hand.

use std::cell::Cell;
use std::collections::BTreeMap;
use std::ops::RangeInclusive;

use rack_tests::leads::library::{Adviser, GaugeFor, Library, LongestLead};
use rack_tests::leads::questions::{beside_limit, checks};
use rack_tests::leads::{
    faults, figure, gauges_for, longest_lead, product, Check, Question, CURRENTS, LENGTHS,
    MOST_BY_METRES, MOST_BY_MM, NONE_SERVES, NOT_LISTED, OUT_OF_RANGE, TABLE,
};
use rack_tests::rounding::is_nearest;

// ---- the model as an adviser ----

struct Made<L, G> {
    lead: L,
    gauge: G,
}

impl<L, G> Adviser for Made<L, G>
where
    L: Fn(u64, u64) -> LongestLead,
    G: Fn(u64, u64) -> GaugeFor,
{
    fn longest_lead(&self, gauge: u64, ma: u64) -> LongestLead {
        (self.lead)(gauge, ma)
    }

    fn gauge_for(&self, ma: u64, mm: u64) -> GaugeFor {
        (self.gauge)(ma, mm)
    }
}

fn lead(gauge: u64, ma: u64) -> LongestLead {
    longest_lead(gauge, ma).into()
}

fn thinnest(ma: u64, mm: u64) -> GaugeFor {
    gauges_for(ma, mm).map(|gauges| gauges[0]).into()
}

fn thickest(ma: u64, mm: u64) -> GaugeFor {
    gauges_for(ma, mm).map(|gauges| gauges[gauges.len() - 1]).into()
}

/// What is said of some answer of such an adviser.
fn tells(checks: &[Check], wrong: &dyn Adviser, said: &str) {
    let mut questions = checks.iter().flat_map(|check| &check.questions);
    let told = |fault: String| fault.contains(said);
    let found = questions.any(|question| question.fault(wrong).is_some_and(told));
    assert!(found, "'{said}' should be said, and it is\n{}", faults(wrong, checks).join("\n"));
}

/// The check of this name is one that such an adviser does not pass.
fn fails(checks: &[Check], wrong: &dyn Adviser, name: &str) {
    let (faults, start) = (faults(wrong, checks), format!("{name}: "));
    let found = faults.iter().any(|fault| fault.starts_with(&start));
    assert!(found, "'{name}' should fail, and it is\n{}", faults.join("\n"));
}

/// It is right by itself, and so is whatever it names where several gauges serve.
#[test]
fn the_model_passes_its_own_checks() {
    let checks = checks();
    let turn = Cell::new(false);
    let by_turns = |ma, mm| match turn.replace(!turn.get()) {
        true => thinnest(ma, mm),
        false => thickest(ma, mm),
    };
    let none = Vec::<String>::new();
    assert_eq!(faults(&Made { lead, gauge: thinnest }, &checks), none);
    assert_eq!(faults(&Made { lead, gauge: thickest }, &checks), none);
    assert_eq!(faults(&Made { lead, gauge: by_turns }, &checks), none);
}

// ---- wrong answers to the first question ----

type Lead = fn(u64, u64) -> LongestLead;
type Way = fn(u64, u64) -> f64;

const VOLT: f64 = MOST_BY_METRES as f64;

/// Right, but takes these currents, too.
fn taking(gauge: u64, ma: u64, currents: RangeInclusive<u64>) -> LongestLead {
    let metres = |figure| VOLT / product(ma, figure, 1) as f64;
    match currents.contains(&ma) {
        true => figure(gauge).map(metres).ok_or(NOT_LISTED).into(),
        false => lead(gauge, ma),
    }
}

/// Right, but refuses these with this code.
fn refusing(gauge: u64, ma: u64, refused: bool, code: u8) -> LongestLead {
    if refused {
        Err(code).into()
    } else {
        lead(gauge, ma)
    }
}

/// Right, but gives these metres with a refusal.
fn beside_refusal(gauge: u64, ma: u64, metres: f64) -> LongestLead {
    match lead(gauge, ma) {
        LongestLead { code: 0, metres } => LongestLead { code: 0, metres },
        LongestLead { code, .. } => LongestLead { code, metres },
    }
}

/// Right, but gets the metres from current and figure in another way.
fn by_another_way(gauge: u64, ma: u64, way: Way) -> LongestLead {
    let metres = |_| way(ma, figure(gauge).expect("a listed gauge"));
    longest_lead(gauge, ma).map(metres).into()
}

/// What each does wrong, and where and how that is told.
#[rustfmt::skip]
const LEADS: &[(&str, Lead)] = &[
    ("gauge 14 at 0 mA should be code 10 with 0 m (0000000000000000) and is code 0 with inf m",
        |gauge, ma| taking(gauge, ma, 0..=0)),
    ("gauge 14 at 0 mA should be code 10", |gauge, ma| lead(gauge, ma.max(1))),
    ("gauge 14 at 150001 mA should be code 10", |gauge, ma| taking(gauge, ma, 150_001..=150_001)),
    ("gauge 14 at 150001 mA should be code 10", |gauge, ma| lead(gauge, ma.min(150_000))),
    ("gauge 14 at 1 mA should be code 0",
        |gauge, ma| refusing(gauge, ma, figure(gauge).is_some() && ma < 2, OUT_OF_RANGE)),
    ("gauge 14 at 150000 mA should be code 0",
        |gauge, ma| refusing(gauge, ma, figure(gauge).is_some() && ma >= 150_000, OUT_OF_RANGE)),
    // A current that is cut to 32 bits, and one that is negative where it is compared.
    ("gauge 14 at 4294967297 mA should be code 10", |gauge, ma| lead(gauge, ma & 0xFFFF_FFFF)),
    ("gauge 14 at 9223372036854775808 mA should be code 10",
        |gauge, ma| taking(gauge, ma, 1 << 63..=u64::MAX)),
    // A product that is cut to 32 bits, which only the greatest do not fit.
    ("gauge 10 at 149999 mA should be code 0",
        |gauge, ma| by_another_way(gauge, ma, |ma, figure| VOLT / f64::from((ma * figure) as u32))),
    // Gauges that are not listed, and one that is.
    ("gauge 270 at 1 mA should be code 9", |gauge, ma| lead(gauge & 0xFF, ma)),
    ("gauge 256 at 1 mA should be code 9", |gauge, ma| lead(gauge & 0xFF, ma)),
    ("gauge 4294967310 at 1 mA should be code 9", |gauge, ma| lead(gauge & 0xFFFF_FFFF, ma)),
    ("gauge 13 at 1 mA should be code 9", |gauge, ma| lead(gauge & !1, ma)),
    ("gauge 16 at 1 mA should be code 9", |gauge, ma| lead(gauge.min(14), ma)),
    ("gauge 255 at 1 mA should be code 9", |gauge, ma| lead(gauge % 255, ma)),
    ("gauge 18446744073709551615 at 1 mA should be code 9", // negative, and taken for 0
        |gauge, ma| lead((gauge as i64).max(0) as u64, ma)),
    ("gauge 10 at 1 mA should be code 0", |gauge, ma| refusing(gauge, ma, gauge == 10, NOT_LISTED)),
    // Which refusal comes first, and its code.
    ("gauge 1 at 0 mA should be code 9 with 0 m (0000000000000000) and is code 10",
        |gauge, ma| refusing(gauge, ma, !CURRENTS.contains(&ma), OUT_OF_RANGE)),
    ("gauge 1 at 1 mA should be code 9 with 0 m (0000000000000000) and is code 10",
        |gauge, ma| refusing(gauge, ma, figure(gauge).is_none(), OUT_OF_RANGE)),
    ("gauge 0 at 0 mA should be code 10 with 0 m (0000000000000000) and is code 9",
        |gauge, ma| refusing(gauge, ma, !CURRENTS.contains(&ma), NOT_LISTED)),
    // What comes with a refusal.
    ("gauge 1 at 0 mA should be code 9 with 0 m (0000000000000000) and is code 9 with 1 m",
        |gauge, ma| beside_refusal(gauge, ma, 1.0)),
    ("and is code 10 with inf m", |gauge, ma| beside_refusal(gauge, ma, f64::INFINITY)),
    ("and is code 10 with NaN m", |gauge, ma| beside_refusal(gauge, ma, f64::NAN)),
    ("and is code 9 with -0 m (8000000000000000)", |gauge, ma| beside_refusal(gauge, ma, -0.0)),
];

#[test]
fn a_wrong_lead_is_told() {
    let checks = checks();
    for (said, lead) in LEADS {
        tells(&checks, &Made { lead, gauge: thinnest }, said);
    }
}

/// The quotient rounded down: the sign of what one rounding leaves of the difference is exact.
fn cut(ma: u64, figure: u64) -> f64 {
    let product = (ma * figure) as f64;
    let nearest = VOLT / product;
    f64::from_bits(nearest.to_bits() - u64::from(nearest.mul_add(product, -VOLT) > 0.0))
}

/// Other ways to get the metres from current and figure.
#[rustfmt::skip]
const WAYS: &[(&str, Way)] = &[
    ("the product in f32", |ma, figure| VOLT / f64::from((ma * figure) as f32)),
    ("the division in f32", |ma, figure| f64::from(VOLT as f32 / (ma * figure) as f32)),
    ("the metres in f32", |ma, figure| f64::from((VOLT / (ma * figure) as f64) as f32)),
    ("a reciprocal", |ma, figure| 1.0 / (ma * figure) as f64 * VOLT),
    ("a reciprocal of the figure", |ma, figure| VOLT / ma as f64 * (1.0 / figure as f64)),
    ("two divisions, the current first", |ma, figure| VOLT / ma as f64 / figure as f64),
    ("two divisions, the figure first", |ma, figure| VOLT / figure as f64 / ma as f64),
    ("a quotient cut down", cut),
    ("a quotient rounded up", |ma, figure| f64::from_bits(cut(ma, figure).to_bits() + 1)),
    ("whole metres", |ma, figure| (MOST_BY_METRES / (ma * figure)) as f64),
    ("whole mm", |ma, figure| (MOST_BY_MM / (ma * figure)) as f64 / 1000.0),
    ("metres by way of mm", |ma, figure| MOST_BY_MM as f64 / (ma * figure) as f64 / 1000.0),
    ("mm for metres", |ma, figure| MOST_BY_MM as f64 / (ma * figure) as f64),
    ("km for metres", |ma, figure| VOLT / 1000.0 / (ma * figure) as f64),
    ("amperes for mA", |ma, figure| VOLT * 1000.0 / (ma * figure) as f64),
    ("milliohms for tenths of them", |ma, figure| VOLT / (ma * (figure / 10)) as f64),
    ("there and back", |ma, figure| VOLT / (2 * ma * figure) as f64),
    ("0 for every lead", |_, _| 0.0),
    ("no number", |_, _| f64::NAN),
    ("a negative length", |ma, figure| -VOLT / (ma * figure) as f64),
];

/// Each of these is told at every listed gauge.
#[test]
fn metres_worked_out_in_another_way_are_told() {
    let checks = checks();
    for (name, way) in WAYS {
        let lead = |gauge, ma| by_another_way(gauge, ma, *way);
        let failed = faults(&Made { lead, gauge: thinnest }, &checks);
        for (gauge, _) in TABLE {
            let start = format!("leads of gauge {gauge}: gauge {gauge} at ");
            assert!(failed.iter().any(|fault| fault.starts_with(&start)), "{name}, gauge {gauge}");
        }
    }
}

// ---- wrong answers to the second question ----

/// The rules of the second question, for a test to change one of them.
struct Rules {
    currents: RangeInclusive<u64>,
    lengths: RangeInclusive<u64>,
    serves: fn(u64, u64, u64) -> bool,
}

const PAPER: Rules = Rules { currents: CURRENTS, lengths: LENGTHS, serves };

fn serves(ma: u64, figure: u64, mm: u64) -> bool {
    product(ma, figure, mm) <= MOST_BY_MM.into()
}

impl Rules {
    /// The gauges that serve by these rules, from the thinnest on.
    fn gauges(&self, ma: u64, mm: u64) -> Result<Vec<u64>, u8> {
        if !self.currents.contains(&ma) || !self.lengths.contains(&mm) {
            return Err(OUT_OF_RANGE);
        }
        let serve = TABLE.iter().filter(|(_, figure)| (self.serves)(ma, *figure, mm));
        let gauges: Vec<u64> = serve.map(|(gauge, _)| *gauge).collect();
        Some(gauges).filter(|gauges| !gauges.is_empty()).ok_or(NONE_SERVES)
    }
}

/// Rules with one thing wrong. A limit that is lower or higher by one is not among them, nor `<` for
/// `<=`: no product is at the limit or one above it, so these are the same rule.
#[rustfmt::skip]
const RULES: &[(&str, Rules)] = &[
    ("0 mA over 1 mm should be code 10", Rules { currents: 0..=150_000, ..PAPER }),
    ("150001 mA over 1 mm should be code 10", Rules { currents: 1..=150_001, ..PAPER }),
    ("1 mA over 0 mm should be code 10", Rules { lengths: 0..=1_000_000, ..PAPER }),
    ("1 mA over 1000001 mm should be code 10", Rules { lengths: 1..=1_000_001, ..PAPER }),
    ("1 mA over 1 mm should be code 0", Rules { currents: 2..=150_000, ..PAPER }),
    ("150000 mA over 1 mm should be code 0", Rules { currents: 1..=149_999, ..PAPER }),
    ("1 mA over 1 mm should be code 0", Rules { lengths: 2..=1_000_000, ..PAPER }),
    ("1 mA over 1000000 mm should be code 0", Rules { lengths: 1..=999_999, ..PAPER }),
    ("[0] and is code 11 with gauge 255", // a tenth of the limit
        Rules { serves: |ma, figure, mm| product(ma, figure, mm) <= 1_000_000_000_000, ..PAPER }),
    ("should be code 11 with gauge 255 and is code 0", // ten times the limit
        Rules { serves: |ma, figure, mm| product(ma, figure, mm) <= 100_000_000_000_000, ..PAPER }),
    ("[0] and is code 11 with gauge 255", // a length in mm taken for one in metres
        Rules { serves: |ma, figure, mm| product(ma, figure, mm) <= MOST_BY_METRES.into(), ..PAPER }),
    ("should be code 11 with gauge 255 and is code 0", // a length in metres taken for one in mm
        Rules { serves: |ma, figure, mm| product(ma, figure, mm) / 1000 <= MOST_BY_MM.into(), ..PAPER }),
    ("should be code 11 with gauge 255 and is code 0", // whole metres
        Rules { serves: |ma, figure, mm| product(ma, figure, mm / 1000) <= MOST_BY_METRES.into(), ..PAPER }),
    ("[0] and is code 11 with gauge 255", // metres begun
        Rules { serves: |ma, figure, mm| product(ma, figure, mm.div_ceil(1000)) <= MOST_BY_METRES.into(), ..PAPER }),
    ("should be code 11 with gauge 255 and is code 0", // a product in 32 bits
        Rules { serves: |ma, figure, mm| u64::from(product(ma, figure, mm) as u32) <= MOST_BY_MM, ..PAPER }),
    ("should be code 11 with gauge 255 and is code 0", // a product in f32
        Rules { serves: |ma, figure, mm| product(ma, figure, mm) as f32 <= MOST_BY_MM as f32, ..PAPER }),
];

#[test]
fn a_wrong_rule_is_told_whichever_gauge_is_named() {
    let checks = checks();
    for (said, rules) in RULES {
        let gauge = |ma, mm| rules.gauges(ma, mm).map(|gauges| gauges[0]).into();
        tells(&checks, &Made { lead, gauge }, said);
        let gauge = |ma, mm| rules.gauges(ma, mm).map(|gauges| gauges[gauges.len() - 1]).into();
        tells(&checks, &Made { lead, gauge }, said);
    }
}

type Gauge = fn(u64, u64) -> GaugeFor;

/// The thinnest gauge that serves, changed like this.
fn renamed(ma: u64, mm: u64, change: fn(u64) -> u64) -> GaugeFor {
    gauges_for(ma, mm).map(|gauges| change(gauges[0])).into()
}

/// Right, but knows only some of the gauges.
fn knowing(ma: u64, mm: u64, known: fn(u64) -> bool) -> GaugeFor {
    let first = |gauges: Vec<u64>| gauges.into_iter().find(|gauge| known(*gauge));
    gauges_for(ma, mm).and_then(|gauges| first(gauges).ok_or(NONE_SERVES)).into()
}

/// Right, but says this where it refuses with this code.
fn instead(ma: u64, mm: u64, code: u8, said: GaugeFor) -> GaugeFor {
    Some(thinnest(ma, mm)).filter(|right| right.code != code).unwrap_or(said)
}

/// Right, but tests whether any gauge serves before it tests the ranges.
fn serving_first(ma: u64, mm: u64) -> GaugeFor {
    let least = u128::from(ma).saturating_mul(mm.into()).saturating_mul(3_225);
    if least > MOST_BY_MM.into() {
        Err(NONE_SERVES).into()
    } else {
        thinnest(ma, mm)
    }
}

#[rustfmt::skip]
const GAUGES: &[(&str, Gauge)] = &[
    // Gauges that do not serve, or are not listed.
    ("[12, 10, 8, 6, 4, 2, 0] and is code 0 with gauge 14", |ma, mm| renamed(ma, mm, |_| 14)),
    ("[0] and is code 0 with gauge 2", |ma, mm| renamed(ma, mm, |_| 2)),
    ("[2, 0] and is code 0 with gauge 4", |ma, mm| renamed(ma, mm, |gauge| gauge + 2)),
    ("and is code 0 with gauge 16", |ma, mm| renamed(ma, mm, |gauge| gauge + 2)),
    ("and is code 0 with gauge 15", |ma, mm| renamed(ma, mm, |gauge| gauge + 1)),
    ("and is code 0 with gauge 270", |ma, mm| renamed(ma, mm, |gauge| gauge + 256)),
    ("and is code 0 with gauge 255", |ma, mm| renamed(ma, mm, |_| 255)),
    ("[8, 6, 4, 2, 0] and is code 0 with gauge 3", // its place in the table
        |ma, mm| renamed(ma, mm, |gauge| 7 - gauge / 2)),
    // Refusals where some gauge serves. Who forgets another gauge than 0 still names a right one.
    ("[12, 10, 8, 6, 4, 2, 0] and is code 11", |ma, mm| knowing(ma, mm, |gauge| gauge == 14)),
    ("[0] and is code 11", |ma, mm| knowing(ma, mm, |gauge| gauge != 0)),
    ("1 mA over 1 mm should be code 0", |_, _| Err(NONE_SERVES).into()),
    ("1 mA over 1 mm should be code 0", |_, _| Err(OUT_OF_RANGE).into()),
    // Which refusal comes first, and its code.
    ("1 mA over 4294967296 mm should be code 10 with gauge 255 and is code 11", serving_first),
    ("should be code 11 with gauge 255 and is code 10 with gauge 255",
        |ma, mm| instead(ma, mm, NONE_SERVES, Err(OUT_OF_RANGE).into())),
    ("0 mA over 0 mm should be code 10 with gauge 255 and is code 11",
        |ma, mm| instead(ma, mm, OUT_OF_RANGE, Err(NONE_SERVES).into())),
    ("should be code 10 with gauge 255 and is code 9",
        |ma, mm| instead(ma, mm, OUT_OF_RANGE, Err(NOT_LISTED).into())),
    // What comes with a refusal.
    ("should be code 10 with gauge 255 and is code 10 with gauge 0",
        |ma, mm| instead(ma, mm, OUT_OF_RANGE, GaugeFor { code: OUT_OF_RANGE, gauge: 0 })),
    ("should be code 11 with gauge 255 and is code 11 with gauge 0",
        |ma, mm| instead(ma, mm, NONE_SERVES, GaugeFor { code: NONE_SERVES, gauge: 0 })),
    ("should be code 11 with gauge 255 and is code 11 with gauge 18446744073709551615",
        |ma, mm| instead(ma, mm, NONE_SERVES, GaugeFor { code: NONE_SERVES, gauge: u64::MAX })),
    // Numbers cut to 32 bits, and those that are negative where they are compared.
    ("4294967297 mA over 1 mm should be code 10", |ma, mm| thinnest(ma & 0xFFFF_FFFF, mm)),
    ("1 mA over 4294967297 mm should be code 10", |ma, mm| thinnest(ma, mm & 0xFFFF_FFFF)),
    ("9223372036854775808 mA over 1 mm should be code 10",
        |ma, mm| if ma < 1 << 63 { thinnest(ma, mm) } else { thinnest(1, mm) }),
    ("1 mA over 9223372036854775808 mm should be code 10",
        |ma, mm| if mm < 1 << 63 { thinnest(ma, mm) } else { thinnest(ma, 1) }),
    // Current and length the other way round.
    ("1 mA over 999999 mm should be code 0", |ma, mm| thinnest(mm, ma)),
];

#[test]
fn a_wrong_gauge_is_told() {
    let checks = checks();
    for (said, gauge) in GAUGES {
        tells(&checks, &Made { lead, gauge }, said);
    }
}

// ---- wrong figures and limits ----

/// The second question by another rule of whether a gauge serves; it names the thinnest that does.
fn named(ma: u64, mm: u64, serves: impl Fn(u64, u64) -> bool) -> GaugeFor {
    if !CURRENTS.contains(&ma) || !LENGTHS.contains(&mm) {
        return Err(OUT_OF_RANGE).into();
    }
    let found = TABLE.iter().find(|(gauge, figure)| serves(*gauge, *figure));
    found.map(|(gauge, _)| *gauge).ok_or(NONE_SERVES).into()
}

/// The figure of any other gauge, or one that is wrong by one.
#[test]
fn a_wrong_figure_is_told_whichever_gauge_has_it() {
    let checks = checks();
    for (gauge, right) in TABLE {
        let others = TABLE.into_iter().map(|(_, figure)| figure).filter(|other| *other != right);
        for wrong in others.chain([right - 1, right + 1]) {
            let short = |asked, ma| match asked == gauge {
                true => longest_lead(asked, ma).map(|_| VOLT / (ma * wrong) as f64).into(),
                false => lead(asked, ma),
            };
            let name = format!("leads of gauge {gauge}");
            fails(&checks, &Made { lead: short, gauge: thinnest }, &name);
            // Who takes a gauge for too thin names a thicker one, which is right if there is one.
            if wrong < right || gauge == 0 {
                let known = |asked, figure| if asked == gauge { wrong } else { figure };
                let gauges =
                    |ma, mm| named(ma, mm, |asked, figure| serves(ma, known(asked, figure), mm));
                let name = format!("beside the limit of gauge {gauge}");
                fails(&checks, &Made { lead, gauge: gauges }, &name);
            }
        }
    }
}

/// A higher limit is told from the next product on, a lower one at gauge 0: at others a thicker
/// gauge is named then, which is right.
#[test]
fn a_wrong_limit_is_told_from_the_next_product_on() {
    let checks = checks();
    for (gauge, figure) in TABLE {
        let [within, beyond] = beside_limit(figure).map(|(ma, mm)| product(ma, figure, mm));
        let limited = |limit: u128| {
            let most = move |asked| if asked == gauge { limit } else { MOST_BY_MM.into() };
            move |ma, mm| named(ma, mm, |asked, figure| product(ma, figure, mm) <= most(asked))
        };
        let name = format!("beside the limit of gauge {gauge}");
        fails(&checks, &Made { lead, gauge: limited(beyond) }, &name);
        if gauge == 0 {
            fails(&checks, &Made { lead, gauge: limited(within - 1) }, &name);
        }
        for same in [within, beyond - 1] {
            let faults = faults(&Made { lead, gauge: limited(same) }, &checks);
            assert_eq!(faults, Vec::<String>::new(), "no product parts {same} from the limit");
        }
    }
}

// ---- what is asked ----

/// Whether some current and some length in range have this product.
fn can_be_asked(product: u64) -> bool {
    CURRENTS.clone().any(|ma| product.is_multiple_of(ma) && LENGTHS.contains(&(product / ma)))
}

#[test]
fn no_product_is_nearer_to_the_limit_than_those_asked() {
    for (gauge, figure) in TABLE {
        let mut beside = MOST_BY_MM..=MOST_BY_MM + 1;
        assert!(!beside.any(|product| product.is_multiple_of(figure)), "gauge {gauge}");
        let pairs = beside_limit(figure);
        assert!(pairs.iter().all(|(ma, mm)| CURRENTS.contains(ma) && LENGTHS.contains(mm)));
        let [within, beyond] = pairs.map(|(ma, mm)| ma * mm);
        assert!(within * figure < MOST_BY_MM && MOST_BY_MM < beyond * figure);
        let between = (within + 1..beyond).find(|product| can_be_asked(*product));
        assert_eq!(between, None, "gauge {gauge}");
    }
}

/// How often each answer is due: a code, or the thinnest gauge that serves.
#[test]
fn every_answer_is_due_many_times() {
    let mut leads: BTreeMap<(Option<u64>, u8), usize> = BTreeMap::new();
    let mut gauges: BTreeMap<Result<u64, u8>, usize> = BTreeMap::new();
    for question in checks().iter().flat_map(|check| &check.questions) {
        match *question {
            Question::Lead { gauge, ma } => {
                let listed = figure(gauge).map(|_| gauge);
                *leads.entry((listed, lead(gauge, ma).code)).or_default() += 1;
            }
            Question::Gauge { ma, mm } => {
                let due = gauges_for(ma, mm).map(|gauges| gauges[0]);
                *gauges.entry(due).or_default() += 1;
            }
        }
    }
    assert!(leads[&(None, NOT_LISTED)] > 200, "{leads:?}");
    assert!(gauges[&Err(NONE_SERVES)] > 1000 && gauges[&Err(OUT_OF_RANGE)] > 50, "{gauges:?}");
    for (gauge, _) in TABLE {
        assert!(leads[&(Some(gauge), 0)] > 4000, "{leads:?}");
        assert!(leads[&(Some(gauge), OUT_OF_RANGE)] > 5, "{leads:?}");
        assert!(gauges[&Ok(gauge)] > 1000, "{gauges:?}");
    }
}

// ---- answers worked by hand ----

#[test]
fn the_table_is_that_of_the_paper() {
    let gauges = [14, 12, 10, 8, 6, 4, 2, 0];
    let figures = [82870, 52130, 32789, 20620, 12969, 8156, 5131, 3225];
    assert_eq!(TABLE.map(|(gauge, _)| gauge), gauges);
    assert_eq!(TABLE.map(|(_, figure)| figure), figures);
}

#[test]
fn leads_worked_by_hand() {
    let bits = |gauge, ma| longest_lead(gauge, ma).map(f64::to_bits);
    // 10^10 / 82,870,000 = 120.670930372873174.., 10^10 / 3,225 = 3,100,775.193798449612..,
    // 10^10 / 12,430,500,000 = 0.804472869152487832..
    assert_eq!(bits(14, 1_000), Ok(0x405E_2AF0_85F2_5889));
    assert_eq!(bits(0, 1), Ok(0x4147_A833_98CE_633A));
    assert_eq!(bits(14, 150_000), Ok(0x3FE9_BE3D_E2F0_EF64));
    assert_eq!(longest_lead(13, 1_000), Err(9));
    assert_eq!(longest_lead(13, 0), Err(9));
    assert_eq!(longest_lead(14, 0), Err(10));
    assert_eq!(longest_lead(0, 150_001), Err(10));
}

#[test]
fn gauges_worked_by_hand() {
    let all = vec![14, 12, 10, 8, 6, 4, 2, 0];
    assert_eq!(gauges_for(1, 1_000_000), Ok(all.clone()));
    // 1,000 * 82,870 * 120,670 = 9,999,922,900,000, and a millimetre more makes 10,000,005,770,000.
    assert_eq!(gauges_for(1_000, 120_670), Ok(all.clone()));
    assert_eq!(gauges_for(1_000, 120_671), Ok(all[1..].to_vec()));
    // 150,000 * 5,131 = 769,650,000, which goes 12,992 times into the limit.
    assert_eq!(gauges_for(150_000, 12_992), Ok(vec![2, 0]));
    assert_eq!(gauges_for(150_000, 12_993), Ok(vec![0]));
    // 150,000 * 3,225 = 483,750,000, which goes 20,671 times into the limit.
    assert_eq!(gauges_for(150_000, 20_671), Ok(vec![0]));
    assert_eq!(gauges_for(150_000, 20_672), Err(11));
    assert_eq!(gauges_for(150_000, 1_000_000), Err(11));
    for (ma, mm) in [(0, 1), (1, 0), (150_001, 1), (1, 1_000_001), (150_001, 1_000_000)] {
        assert_eq!(gauges_for(ma, mm), Err(10), "{ma} mA over {mm} mm");
    }
}

// ---- the float nearest to a quotient ----

#[test]
fn only_one_float_is_nearest() {
    for (gauge, figure) in TABLE {
        for ma in [1, 2, 3, 7, 1_000, 77_777, 149_999, 150_000] {
            let metres = longest_lead(gauge, ma).expect("an accepted question");
            let moved = |by: i64| f64::from_bits(metres.to_bits().wrapping_add_signed(by));
            for by in [-(1 << 52), -1000, -2, -1, 0, 1, 2, 1000, 1 << 52] {
                assert_eq!(is_nearest(moved(by), MOST_BY_METRES, ma * figure), by == 0);
            }
        }
    }
    for odd in [0.0, -0.0, -1.0, f64::NAN, f64::INFINITY, f64::MIN_POSITIVE, f64::MAX] {
        assert!(!is_nearest(odd, 1, 1));
    }
}

#[test]
fn a_tie_goes_to_the_even_float() {
    let moved = |by: u64| f64::from_bits(8192_f64.to_bits() + by);
    // The floats from 8192 on are 2^-39 apart, and these quotients are in the middle between two.
    for (odd, even) in [(1, 0), (3, 2), (5, 2), (7, 4)] {
        let nearest = |by: &u64| is_nearest(moved(*by), (1 << 53) + odd, 1 << 40);
        assert_eq!((0..6).filter(nearest).collect::<Vec<u64>>(), [even]);
    }
}

// ---- the library ----

#[test]
fn what_is_no_library_is_not_opened() {
    let complaint = |path: &str| Library::open(path).err().unwrap_or_default();
    assert!(complaint("src/nothing.so").starts_with("src/nothing.so: "));
    assert!(complaint("src/lib.rs").contains("src/lib.rs"));
}
