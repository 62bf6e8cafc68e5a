//! Generated lists: the rack against the plain supply on each share, and orders against the knob.

use rack_tests::compare::{self, Service};
use rack_tests::foldback::Foldback;
use rack_tests::generate::{generate, Draw, Input};
use rack_tests::program;
use rack_tests::rack::SLOTS;
use rack_tests::supply::{Event, Mode, Order, Supply, Target, SENA_BITS};

#[test]
fn rack_equals_plain_supply_on_its_share() {
    let tally = compare::with_itself(2_000, 20_260).unwrap_or_else(|what| panic!("{what}"));
    assert!(tally.trips > 500 && tally.releases > 2_000 && tally.refused > 2_000, "{tally:?}");
    assert!(tally.messages > 2_000, "{tally:?}");
}

#[test]
fn generated_inputs_reach_every_reply_and_refusal() {
    let counts = compare::reply_counts(2_000, 7);
    let wanted = [
        "OK",
        "C01",
        "C02",
        "C03",
        "C04",
        "C05",
        "E01",
        "E02",
        "E04",
        "E06",
        "E07",
        "ON",
        "OFF",
        "LOC",
        "REM",
        "LLO",
        "CV",
        "a status",
        "a message",
        "refused 2",
        "refused 3",
        "refused 4",
        "refused 5",
        "refused 6",
        "refused 7",
        "refused 8",
    ];
    for reply in wanted {
        let times = counts.iter().find(|(name, _)| name == reply).map_or(0, |(_, times)| *times);
        assert!(times >= 5, "{reply} came {times} times");
    }
}

/// Cells that charge, with each way to lose the CV memory and much that leaves it.
#[test]
fn generated_inputs_pass_through_all_of_foldback() {
    let foldback = compare::foldback_counts(2_000, 7);
    let Foldback { charging, remembered, trips, .. } = foldback;
    assert!(charging > 1_000 && remembered.iter().all(|times| *times > 500), "{foldback:?}");
    assert!(trips > 500, "{foldback:?}");
    let Foldback { trips_after_charging, trips_armed_later, .. } = foldback;
    assert!(trips_after_charging > 100 && trips_armed_later > 50, "{foldback:?}");
    assert!(foldback.while_off > 500 && foldback.over_voltage > 100, "{foldback:?}");
    let ways = [
        "OUT 0",
        "GOUT 0",
        "RST",
        "GRST",
        "OUTPUT key",
        "LINES",
        "LINES under AST",
        "OVP trip",
        "FOLD trip",
    ];
    for way in ways {
        for times in [&foldback.forgotten, &foldback.charging_again] {
            assert!(times.get(way).is_some_and(|times| *times >= 20), "{way}: {foldback:?}");
        }
    }
    assert_eq!(foldback.forgotten.len(), ways.len(), "{foldback:?}");
    for doing in [
        "OUT 1",
        "GOUT 1",
        "FLD 0",
        "FLD 1",
        "FOLD key",
        "LOCAL key",
        "OUTPUT key",
        "PV",
        "PC",
        "GPC",
        "PC knob",
        "another knob",
        "RMT",
        "another order",
        "query",
        "empty line",
        "refused line",
        "LINES as before",
        "sample",
    ] {
        let times = foldback.kept.get(doing);
        assert!(times.is_some_and(|times| *times >= 20), "{doing}: {foldback:?}");
    }
}

#[test]
fn generated_inputs_bring_messages_of_every_kind() {
    let service = compare::service_counts(2_000, 7);
    let several: usize = service.speakers[3..].iter().sum();
    let all = service.speakers[SLOTS];
    let [_, one, two, ..] = service.speakers;
    assert!(one > 2_000 && two > 100 && several > 100 && all > 10, "{service:?}");
    assert!(service.tags[1..].iter().all(|times| *times > 50), "{service:?}");
    for (bit, times) in service.bits.iter().enumerate() {
        let kept = SENA_BITS >> bit & 1 == 1;
        assert!(if kept { *times > 300 } else { *times == 0 }, "bit {bit}: {service:?}");
    }
    assert!(service.registers.iter().all(|times| *times > 100), "{service:?}");
    let Service { while_other_stands, not_selected, hidden, longest, .. } = service;
    assert!(while_other_stands > 100 && not_selected > 100 && hidden > 100, "{service:?}");
    assert!(longest <= LONGEST, "{service:?}");
}

/// What one field can draw at most: a global that ends a line kept from before, three STT? of 59
/// characters and their CR, and a message from each slot.
const LONGEST: usize = 3 * 60 + 4 * SLOTS;

/// An order is accepted exactly if the knob would not be brought back.
#[test]
fn orders_and_knob_agree_on_every_limit() {
    let mut draw = Draw::new(99);
    for round in 0..20_000 {
        let mut supply = Supply::fresh((round % 12) as u8);
        for target in [Target::Pv, Target::Uvl, Target::Ovp, Target::Pv] {
            let step = draw.between(-7_000_000, 7_000_000) as i32;
            supply.event(Event::Knob(target, step));
        }
        for (target, order) in [
            (Target::Pv, Order::Pv as fn(i64) -> Order),
            (Target::Pc, Order::Pc),
            (Target::Ovp, Order::Ovp),
            (Target::Uvl, Order::Uvl),
        ] {
            let (least, most) = supply.range(target);
            assert!(least <= most && supply.within_limits());
            for value in [least - 1, least, most, most + 1] {
                let accepted = supply.clone().order(order(value.max(0))).is_ok();
                assert_eq!(accepted, (least..=most).contains(&value.max(0)), "{supply:?} {value}");
            }
        }
        assert_eq!(supply.mode, Mode::Local);
    }
}

#[test]
fn shrinking_keeps_the_fault_and_little_else() {
    let faulty = |input: &Input| {
        let printed = program::run(&input.bytes());
        printed.windows(4).any(|word| word == b"E04\n")
    };
    let input = (0..).map(generate).find(|input| faulty(input)).expect("one of them draws E04");
    let small = compare::shrink(input, faulty);
    assert!(faulty(&small));
    assert!(small.parts.len() <= 6, "{} parts are left", small.parts.len());
}
