//! The table of trials that the supply is tried on (crates/trials): that it is what the reference
//! writes today, that its states are sound, and that nothing is missing from it.

use std::collections::HashSet;
use std::fs;

use rack_tests::supply::{Event, Order, Query, Supply, LINE_BITS, MODELS, SENA_BITS};
use rack_tests::trial::{Act, Expected, Trial, QUERIES};
use rack_tests::trials;

const TABLE: &str = concat!(env!("CARGO_MANIFEST_DIR"), "/../crates/trials/stdin");
const VERDICT: &str = concat!(env!("CARGO_MANIFEST_DIR"), "/../crates/trials/stdout");

#[test]
fn the_stored_table_is_what_the_reference_writes() {
    let stored = fs::read_to_string(TABLE).expect("the stored table");
    let table = trials::table();
    let same = stored.lines().zip(table.lines()).take_while(|(one, other)| one == other).count();
    assert!(stored == table, "they part at line {}; `trials` writes the table anew", same + 1);
}

#[test]
fn the_stored_verdict_has_every_case_and_tells_the_wrong_ones() {
    const NAMED: usize = 10;
    let verdict = fs::read_to_string(VERDICT).expect("the stored verdict");
    let (cases, wrong) = (trials::table().lines().count(), trials::wrong().len());
    let first = cases - wrong + 1;
    let named: String =
        (first..first + NAMED).map(|line| format!("wrong: line {line}\n")).collect();
    assert_eq!(verdict, format!("{named}{cases} cases, {wrong} wrong\n"));
}

#[test]
fn every_trial_keeps_limits_and_margins() {
    for Trial { before, act } in trials::all() {
        let after = Trial { before: before.clone(), act }.expected().after;
        for supply in [&before, &after] {
            assert!(supply.within_limits(), "{supply:?} {act:?}");
            assert!(supply.lines & !LINE_BITS == 0, "{supply:?} {act:?}");
            assert!(supply.armed || !supply.fold_trip, "{supply:?} {act:?}");
            assert!((supply.sena | supply.seve) & !SENA_BITS == 0, "{supply:?} {act:?}");
        }
    }
}

/// The CV memory and the FOLD trip after each act, worked out a second time from what MODE? says
/// before and after it.
#[test]
fn foldback_remembers_what_mode_tells() {
    let says = |supply: &Supply| supply.clone().ask(Query::Mode).to_string();
    for trial in trials::all() {
        let Expected { code, after, .. } = trial.expected();
        let before = &trial.before;
        if code.is_some() {
            assert_eq!(&after, before, "{trial:?}");
            continue;
        }
        let counted = matches!(trial.act, Act::Event(Event::Sample { .. })) && before.output_on();
        let remembered = match says(&after).as_str() {
            "OFF" => false,
            "CV" if counted => true,
            _ => before.cv_seen,
        };
        assert_eq!(after.cv_seen, remembered, "{trial:?}");
        let limited = counted && !after.ovp_trip && after.ampere_reading() >= after.pc;
        let tripped = after.fold_trip && !before.fold_trip;
        assert_eq!(tripped, limited && before.armed && before.cv_seen, "{trial:?}");
    }
}

/// Each kind of act meets the memory set and not, with the output on and off.
#[test]
fn every_kind_of_act_is_tried_with_and_without_the_memory() {
    let met = |trial: &Trial| (kind(trial.act), trial.before.output_on(), trial.before.cv_seen);
    let met: HashSet<_> = trials::all().iter().map(met).collect();
    let kinds: HashSet<&String> = met.iter().map(|(kind, ..)| kind).collect();
    for kind in &kinds {
        for (on, cv_seen) in [(false, false), (false, true), (true, false), (true, true)] {
            let wanted = (kind.to_string(), on, cv_seen);
            assert!(met.contains(&wanted), "{wanted:?} is not tried");
        }
    }
}

/// Samples one mA below PC, at it and above it, below OVP and not, with everything that they ask.
#[test]
fn samples_meet_every_side_of_pc_and_ovp() {
    let mut met = HashSet::new();
    for trial in trials::all() {
        let Act::Event(Event::Sample { .. }) = trial.act else { continue };
        let (before, after) = (&trial.before, trial.expected().after);
        let side = (after.ampere_reading() - after.pc).clamp(-2, 1);
        let over = after.volt_reading() >= after.ovp;
        met.insert((side, over, before.output_on(), before.armed, before.cv_seen));
    }
    assert_eq!(met.len(), 4 * 2 * 2 * 2 * 2, "{met:?}");
}

/// Every event that ends with the output off is tried on a supply that has the memory.
#[test]
fn every_way_off_meets_the_memory() {
    let mut ways = HashSet::new();
    for trial in trials::all().iter().filter(|trial| trial.before.cv_seen) {
        let (before, after) = (&trial.before, trial.expected().after);
        if before.output_on() && !after.output_on() {
            let trip = (after.fold_trip, after.ovp_trip);
            ways.insert(format!("{} {trip:?} {}", kind(trial.act), before.ast));
        }
    }
    for way in [
        "lines (false, false) false",
        "lines (false, false) true",
        "Event(Key(Output)) (false, false) false",
        "sample (true, false) false",
        "sample (false, true) false",
        "Order(Out(false)) (false, false) false",
        "Order(Rst) (false, false) false",
    ] {
        assert!(ways.contains(way), "{way} is not tried: {ways:?}");
    }
}

/// What kind of act this is, with any operand that has few values.
fn kind(act: Act) -> String {
    match act {
        Act::Event(Event::Lines(_)) => "lines".into(),
        Act::Event(Event::Sample { .. }) => "sample".into(),
        Act::Event(Event::Knob(target, _)) => format!("knob {target:?}"),
        Act::Order(Order::Pv(_)) => "PV".into(),
        Act::Order(Order::Pc(_)) => "PC".into(),
        Act::Order(Order::Ovp(_)) => "OVP".into(),
        Act::Order(Order::Uvl(_)) => "UVL".into(),
        Act::Order(Order::Fena(_)) => "FENA".into(),
        Act::Order(Order::Sena(_)) => "SENA".into(),
        other => format!("{other:?}"),
    }
}

#[test]
fn every_kind_of_act_is_tried_in_every_mode() {
    let all = trials::all();
    let kinds: HashSet<String> = all.iter().map(|trial| kind(trial.act)).collect();
    let met = |trial: &Trial| format!("{} in {:?}", kind(trial.act), trial.before.mode);
    let modes: HashSet<String> = all.iter().map(met).collect();
    // 3 keys, 4 knobs, lines, samples; PV PC OVP UVL OVM; OUT FLD AST; RMT; FENA SENA CLS RST;
    // nothing.
    let known = 3 + 4 + 2 + 5 + 3 * 2 + 3 + 4 + QUERIES.len() + 1;
    assert_eq!((kinds.len(), modes.len()), (known, 3 * known), "{kinds:?}");
}

#[test]
fn every_model_meets_every_code_of_its_limits() {
    let all = trials::all();
    let met = |trial: &Trial| {
        let code = trial.expected().code.map_or("OK", |code| code.text());
        (trial.before.model, kind(trial.act), code)
    };
    let met: HashSet<_> = all.iter().map(met).collect();
    for model in 0..MODELS.len() as u8 {
        for (order, codes) in [
            ("PV", &["OK", "C05", "E01", "E02"][..]),
            ("PC", &["OK", "C05"]),
            ("OVP", &["OK", "C05", "E04"]),
            ("UVL", &["OK", "C05", "E06"]),
        ] {
            for code in codes {
                let wanted = (model, order.to_string(), *code);
                assert!(met.contains(&wanted), "{wanted:?} is not tried");
            }
        }
    }
}

/// Each bit of STAT rises, stands and falls, enabled in SENA and not, and is in SEVE before or not.
#[test]
fn every_bit_of_stat_rises_enabled_and_not() {
    let mut met = HashSet::new();
    for trial in trials::all() {
        let (before, after) = (&trial.before, trial.expected().after);
        for bit in (0..8).map(|bit| 1 << bit) {
            let was = |byte: u8| byte & bit != 0;
            let way = (was(before.stat()), was(after.stat()));
            met.insert((bit, way, was(before.sena), was(before.seve)));
        }
    }
    for bit in [0x01, 0x02, 0x04, 0x08, 0x10, 0x20, 0x80_u8] {
        for way in [(false, true), (true, true), (true, false), (false, false)] {
            for (enabled, noted) in [(false, false), (false, true), (true, false), (true, true)] {
                let never = bit & !SENA_BITS != 0 && (enabled || noted);
                let wanted = (bit, way, enabled, noted);
                assert!(never != met.contains(&wanted), "{wanted:?}");
            }
        }
    }
    assert!(!met.iter().any(|(bit, (before, after), ..)| *bit == 0x40 && (*before || *after)));
}

/// What clears is tried where both registers hold something and bit 2 is enabled.
#[test]
fn every_clearing_act_meets_what_it_clears() {
    let full = |supply: &Supply| supply.feve > 0 && supply.seve > 0 && supply.sena & 0x04 > 0;
    for act in [
        Act::Order(Order::Cls),
        Act::Order(Order::Rst),
        Act::Query(Query::Feve),
        Act::Query(Query::Seve),
    ] {
        let tried = trials::all().into_iter().filter(|trial| trial.act == act);
        let tried: Vec<Trial> = tried.filter(|trial| full(&trial.before)).collect();
        assert!(tried.len() >= 10, "{act:?}: {}", tried.len());
        for trial in tried {
            let after = trial.expected().after;
            let kept = match act {
                Act::Query(Query::Feve) => (0, trial.before.seve | 0x04),
                Act::Query(Query::Seve) => (trial.before.feve, 0),
                _ => (0, 0),
            };
            assert_eq!((after.feve, after.seve), kept, "{trial:?}");
        }
    }
}

/// STAT bit by bit, from what the queries answer.
fn told(supply: &Supply) -> [bool; 8] {
    let says = |query: Query, word: &str| supply.clone().ask(query).to_string() == word;
    let quiet = says(Query::Feve, "00");
    let [cv, cc] = ["CV", "CC"].map(|word| says(Query::Mode, word));
    let [ast, armed] = [Query::Ast, Query::Fld].map(|query| says(query, "ON"));
    [cv, cc, quiet, !quiet, ast, armed, false, says(Query::Rmt, "LOC")]
}

/// The registers after each act, worked out a second time from the states before and after it.
#[test]
fn registers_gain_what_the_queries_tell() {
    for trial in trials::all() {
        let Expected { code, after, .. } = trial.expected();
        let before = &trial.before;
        let bits = |bits: [bool; 8]| (0..8).map(|bit| u8::from(bits[bit]) << bit).sum::<u8>();
        assert_eq!(before.stat(), bits(told(before)), "{trial:?}");
        let mut risen = told(&after);
        risen.iter_mut().zip(told(before)).for_each(|(now, was)| *now &= !was);
        let faults = (0..8).filter(|bit| after.flt() >> bit & 1 > before.flt() >> bit & 1);
        let faults: u8 = faults.map(|bit| 1 << bit).sum();
        let (mut feve, mut seve) = (before.feve, before.seve);
        match trial.act {
            _ if code.is_some() => {}
            Act::Order(Order::Cls | Order::Rst) => (feve, seve) = (0, 0),
            Act::Query(Query::Seve) => seve = 0,
            Act::Query(Query::Feve) => (feve, seve) = (0, seve | bits(risen) & before.sena),
            _ => (feve, seve) = (feve | faults & before.fena, seve | bits(risen) & before.sena),
        }
        assert_eq!((after.feve, after.seve), (feve, seve), "{trial:?}");
    }
}
