//! Values in volts and amperes as counts: the smallest count that reads at least as much, for each
//! model and each count.

use rack_tests::counts::{least_count, units, AMPERES, VOLTS};
use rack_tests::script::parse;
use rack_tests::supply::{Supply, MODELS};

fn ratings() -> Vec<i64> {
    MODELS.iter().flat_map(|model| [model.rated_volts, model.rated_amperes]).collect()
}

#[test]
fn a_reading_given_back_reads_the_same() {
    for rating in ratings() {
        for count in 0..=u16::MAX {
            let reading = Supply::reading(count, rating);
            let back = least_count(reading, rating).expect("a count reads as much");
            assert_eq!(Supply::reading(back, rating), reading, "{count} of {rating}");
            assert!(back <= count, "{back} is not the least for {count} of {rating}");
        }
    }
}

#[test]
fn the_count_reads_the_value_or_more_and_the_one_below_reads_less() {
    for rating in ratings() {
        let most = Supply::reading(u16::MAX, rating);
        for value in (1..=most).step_by(7) {
            let count = least_count(value, rating).expect("a count reads as much");
            assert!(Supply::reading(count, rating) >= value, "{value} of {rating}");
            assert!(Supply::reading(count - 1, rating) < value, "{value} of {rating}");
        }
        assert_eq!(least_count(0, rating), Some(0));
        assert_eq!(least_count(most + 1, rating), None);
    }
}

#[test]
fn values_are_read_exactly() {
    assert_eq!(units("5.5", 4), Some(55_000));
    assert_eq!(units("5.", 4), Some(50_000));
    assert_eq!(units(".0001", 4), Some(1));
    assert_eq!(units("12", 3), Some(12_000));
    for text in ["", ".", "5.55555", "-1", "+1", "1e3", "1.2.3", "99999999999999999999"] {
        assert_eq!(units(text, 4), None, "{text}");
    }
}

fn counts(source: &str) -> Result<(u16, u16), String> {
    let bytes = parse(source.as_bytes())?.bytes();
    let [.., a, b, c, d] = bytes[..] else { panic!("no sample") };
    Ok((u16::from_be_bytes([a, b]), u16::from_be_bytes([c, d])))
}

#[test]
fn a_script_gives_samples_in_volts_and_amperes() {
    assert_eq!(counts("fit 6 0\nsample 6 5.5V 10A"), Ok((45_834, 5_000)));
    assert_eq!(counts("fit 6 0\nsample 6 5.4999v 5000"), Ok((45_833, 5_000)));
    assert_eq!(counts("fit 30 11\nsample 30 0 1.3a"), Ok((0, 50_000)));
    assert_eq!(counts("fit 6 0\nsample 6 7.8642V 131.07A"), Ok((65_535, 65_535)));
    let raw = "raw-fit 06 FF\nsample 0 60V 12.5A";
    assert_eq!(counts(raw), Ok((50_000, 50_000)));
}

#[test]
fn a_value_that_no_count_has_is_an_error() {
    for (source, wanted) in [
        (
            "fit 6 0\nsample 6 7.8643V 0",
            "line 2: '7.8643V' is more than the highest count reads at address 6, 7.8642 V",
        ),
        (
            "fit 6 0\nsample 6 0 131.071A",
            "line 2: '131.071A' is more than the highest count reads at address 6, 131.070 A",
        ),
        ("sample 6 5V 0", "line 1: '5V' needs a rating, and address 6 has no supply: give counts"),
        (
            "fit 6 0\nsample 6 5.00001V 0",
            "line 2: '5.00001V' is no value: digits, a point and at most 4 decimals, then V",
        ),
        (
            "fit 6 0\nsample 6 5A 0",
            "line 2: volt count must be a whole number from 0 to 65535, not '5A'",
        ),
    ] {
        assert_eq!(counts(source), Err(wanted.to_string()));
    }
    assert_eq!((VOLTS.letter, AMPERES.letter), ('V', 'A'));
}
