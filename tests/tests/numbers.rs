//! Numbers as they are typed, against the rule in the paper's words: no whole tick or mA is nearer
//! to the number than the one it is read as, and where two are equally near that one is even.

use rack_tests::generate::Draw;
use rack_tests::line::{read, Said, MOST_CHARACTERS};
use rack_tests::supply::{amperes_text, volts_text, Code, Order};

const VOLTS: usize = 4;
const AMPERES: usize = 3;
/// A number has fewer decimals than this.
const FINEST: usize = 12;

/// The orders with a number, and the decimals of what they set.
const WORDS: [(&str, usize); 6] = [
    ("PV", VOLTS),
    ("OVP", VOLTS),
    ("UVL", VOLTS),
    ("GPV", VOLTS),
    ("PC", AMPERES),
    ("GPC", AMPERES),
];

/// The ticks or mA that this order is read with.
fn units(word: &str, text: &str) -> Result<i128, Code> {
    match read(format!("{word} {text}").as_bytes(), false).said? {
        Said::Order(Order::Pv(n) | Order::Pc(n) | Order::Ovp(n) | Order::Uvl(n)) => Ok(n.into()),
        other => panic!("{word} {text}: {other:?}"),
    }
}

/// The number as typed, in parts so fine that it is a whole number of them.
fn typed(text: &str) -> i128 {
    let (whole, fraction) = text.split_once('.').unwrap_or((text, ""));
    format!("{whole}{fraction:0<FINEST$}").parse().expect("digits")
}

fn parts_of_a_unit(decimals: usize) -> i128 {
    10_i128.pow((FINEST - decimals) as u32)
}

/// Whether the rule lets this text be read as so many units. Units further off than the neighbours
/// are further from the number, too.
fn obeys(text: &str, decimals: usize, units: i128) -> bool {
    let apart = |units: i128| (typed(text) - units * parts_of_a_unit(decimals)).abs();
    [units - 1, units + 1].into_iter().all(|other| {
        apart(units) < apart(other) || (apart(units) == apart(other) && units % 2 == 0)
    })
}

/// What may stand at the end of a number: at a tie, near one, and far from one.
#[rustfmt::skip]
const ENDS: [&str; 26] = [
    "", "0", "1", "4", "49", "499", "4999", "4999999", "49999999", "499999999", "5", "50", "500",
    "5000", "5000000", "50000000", "500000000", "51", "501", "5001", "5000001", "50000001",
    "500000001", "6", "9", "9999999",
];

/// Texts put together from such ends, and drawn ones; all of them are numbers.
fn texts() -> Vec<String> {
    let mut texts = Vec::new();
    for whole in ["", "0", "5", "06", "99", "599", "99999", "999999"] {
        for near in ["", "0", "5", "000", "001", "998", "999", "0000", "0001", "9998", "9999"] {
            texts.extend(ENDS.map(|end| format!("{whole}.{near}{end}")));
            texts.push(format!("{whole}{near}"));
        }
    }
    let mut draw = Draw::new(12);
    for _ in 0..50_000 {
        let digits = draw.between(1, MOST_CHARACTERS as i64);
        let mut text: String =
            (0..digits).map(|_| draw.pick(b"0001234445559999") as char).collect();
        let point = draw.below(digits as u64 + 4) as usize;
        if point <= text.len() {
            text.insert(point, '.');
        }
        texts.push(text);
    }
    let digits = |text: &String| text.bytes().any(|byte| byte.is_ascii_digit());
    texts.retain(|text| text.len() <= MOST_CHARACTERS && digits(text));
    texts
}

#[test]
fn a_number_is_read_as_the_nearest_unit_and_at_a_tie_as_the_even_one() {
    for text in texts() {
        for (word, decimals) in WORDS {
            let units = units(word, &text).unwrap_or_else(|code| panic!("{word} {text}: {code:?}"));
            assert!(obeys(&text, decimals, units), "{word} {text} is read as {units}");
        }
    }
}

/// Numbers with fewer digits than the unit has places are read exactly.
#[test]
fn digits_down_to_the_unit_are_all_kept() {
    for text in texts() {
        for (word, decimals) in WORDS {
            let places = text.split_once('.').map_or(0, |(_, fraction)| fraction.len());
            if places <= decimals {
                let exact = units(word, &text).map(|units| units * parts_of_a_unit(decimals));
                assert_eq!(exact, Ok(typed(&text)), "{word} {text}");
            }
        }
    }
}

#[test]
fn a_number_typed_higher_is_never_read_lower() {
    let mut texts = texts();
    texts.sort_by_key(|text| typed(text));
    for (word, _) in WORDS {
        let read: Vec<_> = texts.iter().flat_map(|text| units(word, text)).collect();
        assert_eq!(read.len(), texts.len());
        assert!(read.is_sorted(), "{word}");
    }
}

#[test]
fn a_reply_sent_back_is_read_as_what_it_tells() {
    for text in texts() {
        for (word, shown) in [("PV", volts_text as fn(i64) -> String), ("PC", amperes_text)] {
            let read = units(word, &text).expect("a number");
            let reply = shown(read as i64);
            if reply.len() <= MOST_CHARACTERS {
                assert_eq!(units(word, &reply), Ok(read), "{word} {text}");
            }
        }
    }
}

/// Rounding shortens nothing: a thirteenth character is malformed, however little it adds.
#[test]
fn a_thirteenth_character_is_malformed() {
    let full = |text: &String| text.len() == MOST_CHARACTERS && text.contains('.');
    for text in texts().into_iter().filter(full) {
        for (word, _) in WORDS {
            assert_eq!(units(word, &format!("{text}0")), Err(Code::C03), "{word} {text}0");
        }
    }
}

/// Other rules, from the units below a number, the parts of a unit above them, and those of half a
/// unit: cut off, half up, half down, ties to the odd one, always up.
const OTHER_RULES: [fn(i128, i128, i128) -> i128; 5] = [
    |below, _, _| below,
    |below, over, half| below + i128::from(over >= half),
    |below, over, half| below + i128::from(over > half),
    |below, over, half| below + i128::from(over > half || (over == half && below % 2 == 0)),
    |below, over, _| below + i128::from(over > 0),
];

#[test]
fn the_texts_tell_every_other_rule() {
    let texts = texts();
    for decimals in [VOLTS, AMPERES] {
        let parts = parts_of_a_unit(decimals);
        for (number, rule) in OTHER_RULES.iter().enumerate() {
            let told = |text: &&String| {
                let typed = typed(text);
                !obeys(text, decimals, rule(typed / parts, typed % parts, parts / 2))
            };
            let times = texts.iter().filter(told).count();
            assert!(times > 100, "rule {number} with {decimals} decimals is told {times} times");
        }
    }
}
