//! The ten bench figures on the plain supply, each line read and obeyed without any rack.

use rack_tests::line;
use rack_tests::supply::{Event, Key, Supply, Target};

/// What the supply replies to a line, without the CR.
fn say(supply: &mut Supply, text: &str) -> String {
    let reading = line::read(text.as_bytes(), false);
    let answer = line::obey(supply, reading.said);
    let reply = line::reply(answer, reading.checksummed);
    String::from_utf8_lossy(&reply).trim_end_matches('\r').to_string()
}

/// Each pair is a line and its reply, in order, on one fresh supply.
fn expect(model: u8, talk: &[(&str, &str)]) -> Supply {
    let mut supply = Supply::fresh(model);
    for (text, answer) in talk {
        assert_eq!(say(&mut supply, text), *answer, "model {model}, {text}");
    }
    supply
}

fn sample(supply: &mut Supply, volts: u16, amperes: u16) {
    supply.event(Event::Sample { volts, amperes });
}

#[test]
fn figure_01_pv_to_105_percent() {
    expect(0, &[("PV 6.3", "OK"), ("PV 6.3001", "C05")]);
}

#[test]
fn figure_02_pv_below_ovp() {
    expect(6, &[("PV 62.8571", "OK"), ("PV 62.8572", "E01")]);
}

#[test]
fn figure_03_uvl_and_pv() {
    let talk = [("PV 10", "OK"), ("UVL 9.5001", "E06"), ("UVL 9.5", "OK"), ("PV 9.9999", "E02")];
    expect(3, &talk);
}

#[test]
fn figure_04_ovp_above_pv() {
    expect(3, &[("PV 10", "OK"), ("OVP 10.4999", "E04"), ("OVP 10.5", "OK")]);
}

#[test]
fn figure_05_most_of_uvl() {
    let talk = [
        ("PV 12.5", "OK"),
        ("UVL 11.9", "E06"),
        ("PV 13", "OK"),
        ("UVL 11.9", "OK"),
        ("UVL 11.9001", "C05"),
    ];
    expect(2, &talk);
}

#[test]
fn figure_06_highest_count() {
    for (model, answer) in [(11, "786.4200"), (0, "7.8642")] {
        let mut supply = Supply::fresh(model);
        sample(&mut supply, 65_535, 0);
        assert_eq!(say(&mut supply, "MV?"), answer);
    }
}

#[test]
fn figure_07_digits_below_a_tick() {
    expect(0, &[("PV 5.00009", "OK"), ("PV?", "5.0001")]);
}

#[test]
fn figure_08_checksum() {
    for model in 0..12 {
        expect(model, &[("PV?$E5", "0.0000$1E")]);
    }
}

#[test]
fn figure_09_knob() {
    let mut supply = Supply::fresh(6);
    supply.event(Event::Knob(Target::Pv, 6_000_000));
    assert_eq!(say(&mut supply, "PV?"), "62.8571");
}

#[test]
fn figure_10_trip_and_release() {
    let talk = [("PV 5", "OK"), ("PC 10", "OK"), ("OVP 5.5", "OK"), ("OUT 1", "OK")];
    let mut supply = expect(0, &talk);
    sample(&mut supply, 45_833, 0);
    assert_eq!(say(&mut supply, "FLT?"), "00");
    sample(&mut supply, 45_834, 0);
    assert_eq!(say(&mut supply, "FLT?"), "10");
    assert_eq!(say(&mut supply, "OUT 0"), "OK");
    assert_eq!(say(&mut supply, "FLT?"), "50");
    assert_eq!(say(&mut supply, "OUT 1"), "OK");
    assert_eq!(say(&mut supply, "FLT?"), "00");
}

/// The answer that the papers give for STT?, on every model.
#[test]
fn status_of_a_fresh_supply() {
    for model in 0..12 {
        let status = "MV(0.0000),PV(0.0000),MC(0.000),PC(0.000),SR(84),FR(40)";
        expect(model, &[("STT?", status), ("STAT?", "84"), ("SENA?", "00"), ("SEVE?", "00")]);
    }
}

/// The three numbers that the papers give as examples of rounding.
#[test]
fn examples_of_rounding() {
    expect(0, &[("PV 5.00009", "OK"), ("PV?", "5.0001")]);
    expect(0, &[("PV 6.30005", "OK"), ("PV?", "6.3000")]);
    expect(0, &[("PV 5", "OK"), ("PV 6.30015", "C05"), ("PV?", "5.0000")]);
}

/// The last two releases named leave the output off.
#[test]
fn rst_and_disarming_leave_the_output_off() {
    for way_out in ["RST", "FLD 0"] {
        let mut supply = expect(0, &[("PC 10", "OK"), ("FLD 1", "OK"), ("OUT 1", "OK")]);
        sample(&mut supply, 0, 4_999);
        sample(&mut supply, 0, 5_000);
        assert!(supply.fold_trip && !supply.output_on());
        assert_eq!(say(&mut supply, way_out), "OK");
        assert!(!supply.fold_trip && !supply.output_on());
    }
    let mut supply = Supply::fresh(0);
    supply.event(Event::Knob(Target::Pc, 10_000));
    for key in [Key::Output, Key::Fold] {
        supply.event(Event::Key(key));
    }
    sample(&mut supply, 0, 4_999);
    sample(&mut supply, 0, 5_000);
    assert!(supply.fold_trip && !supply.output_on());
    supply.event(Event::Key(Key::Fold));
    assert!(!supply.fold_trip && !supply.output_on());
}

/// The charging cell of the papers, on every model: PC is the rating, which is count 50,000.
#[test]
fn foldback_lets_a_cell_charge() {
    for model in 0..12 {
        let mut supply = Supply::fresh(model);
        supply.pc = supply.limits().rated_amperes;
        assert_eq!(say(&mut supply, "FLD 1"), "OK");
        assert_eq!(say(&mut supply, "OUT 1"), "OK");
        for (amperes, cv_seen, fold_trip) in [
            (u16::MAX, false, false),
            (50_000, false, false),
            (49_999, true, false),
            (0, true, false),
            (50_000, false, true),
            (0, false, true),
        ] {
            sample(&mut supply, 0, amperes);
            assert_eq!((supply.cv_seen, supply.fold_trip), (cv_seen, fold_trip), "{supply:?}");
        }
        assert_eq!(say(&mut supply, "OUT 1"), "OK");
        sample(&mut supply, 0, 50_000);
        assert!(!supply.cv_seen && supply.output_on(), "{supply:?}");
    }
}

/// A memory with the output off, which no supply has by itself: an event that ends with the output
/// off forgets it, a query and the empty line too, and a refused order leaves it.
#[test]
fn what_ends_off_forgets_and_a_refusal_changes_nothing() {
    let forged = Supply { cv_seen: true, ..Supply::fresh(0) };
    for line in ["OUT 0", "FLD 1", "PV 5", "CLS", "FLT?", "MODE?", "STT?", ""] {
        let mut supply = forged.clone();
        say(&mut supply, line);
        assert!(!supply.cv_seen, "{line}");
    }
    for event in [
        Event::Lines(0),
        Event::Key(Key::Local),
        Event::Knob(Target::Pc, 1),
        Event::Sample { volts: 0, amperes: 0 },
    ] {
        let mut supply = forged.clone();
        supply.event(event);
        assert!(!supply.cv_seen, "{event:?}");
    }
    for line in ["PV 7", "PC x", "OUT", "WHAT"] {
        let mut supply = forged.clone();
        say(&mut supply, line);
        assert_eq!(supply, forged, "{line}");
    }
}
