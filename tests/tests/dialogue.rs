//! The dialogue that the supply is compared with (crates/dialogue): that it is what the reference
//! writes today, that each of its lines could have come over the wire, and that nothing is missing
//! from it.

use std::collections::HashSet;
use std::fs;
use std::process::Command;

const STORED: &str = concat!(env!("CARGO_MANIFEST_DIR"), "/../crates/dialogue/stdin");
const VERDICT: &str = concat!(env!("CARGO_MANIFEST_DIR"), "/../crates/dialogue/stdout");

/// A line of the dialogue as it was kept, whether it is spoiled, and the reply without its CR.
struct Exchange {
    kept: Vec<u8>,
    spoiled: bool,
    reply: String,
}

impl Exchange {
    /// The word in capitals, as far as a reader would take it for one.
    fn word(&self) -> String {
        let ends = |byte: &u8| b" $".contains(byte);
        let word = self.kept.split(ends).next().unwrap_or_default();
        String::from_utf8_lossy(word).to_uppercase()
    }

    /// The reply without its checksum.
    fn code(&self) -> &str {
        self.reply.split('$').next().unwrap_or_default()
    }
}

fn stored() -> String {
    fs::read_to_string(STORED).expect("the stored dialogue")
}

/// The bytes that an item's text stands for.
fn bytes_of(text: &str) -> Vec<u8> {
    let mut bytes = Vec::new();
    let mut rest = text;
    while let Some(first) = rest.chars().next() {
        let taken = if first == '\\' { 4 } else { 1 };
        bytes.push(match first {
            '\\' => u8::from_str_radix(&rest[2..4], 16).expect("two hexadecimal digits"),
            _ => first as u8,
        });
        rest = &rest[taken..];
    }
    bytes
}

fn exchanges() -> Vec<Exchange> {
    let text = stored();
    let items: Vec<(&str, &str)> = text
        .lines()
        .map(|item| item.split_once(' ').unwrap_or((item, "")))
        .filter(|(mark, _)| *mark != "model")
        .collect();
    let pair = |pair: &[(&str, &str)]| {
        let [(mark, line), ("<", reply)] = pair else { panic!("{pair:?} is no line and reply") };
        assert!([">", "!"].contains(mark), "{pair:?}");
        Exchange { kept: bytes_of(line), spoiled: *mark == "!", reply: reply.to_string() }
    };
    items.chunks(2).map(pair).collect()
}

#[test]
fn the_stored_dialogue_is_what_the_reference_writes() {
    let written = Command::new(env!("CARGO_BIN_EXE_dialogue")).output().expect("it runs");
    let written = String::from_utf8(written.stdout).expect("printable text");
    let stored = stored();
    let same = stored.lines().zip(written.lines()).take_while(|(one, other)| one == other).count();
    assert!(stored == written, "they part at line {}; `dialogue` writes it anew", same + 1);
}

#[test]
fn the_stored_verdict_has_every_reply_and_tells_the_wrong_ones() {
    const WRONG: usize = 5;
    let verdict = fs::read_to_string(VERDICT).expect("the stored verdict");
    let items = stored().lines().count();
    let named: String = (0..WRONG)
        .map(|reply| format!("wrong: line {}\n", items - 2 * (WRONG - 1 - reply)))
        .collect();
    assert_eq!(verdict, format!("{named}{} replies, {WRONG} wrong\n", exchanges().len()));
}

/// The file is no larger than the program reads, and a line has no byte that a line never keeps.
#[test]
fn every_line_could_have_come_over_the_wire() {
    assert!(stored().len() < 200_000);
    for Exchange { kept, .. } in exchanges() {
        let is_kept = |byte: &u8| !b"\x08\n\r".contains(byte);
        assert!(kept.len() <= 64 && kept.iter().all(is_kept), "{kept:?}");
    }
}

/// The paper's own figures, with the replies that it gives.
#[test]
fn the_bench_figures_stand_at_the_start() {
    let figures = "\
        model 0\n> PV 6.3\n< OK\n> PV 6.3001\n< C05\n\
        model 6\n> PV 62.8571\n< OK\n> PV 62.8572\n< E01\n\
        model 3\n> PV 10\n< OK\n> UVL 9.5001\n< E06\n> UVL 9.5\n< OK\n> PV 9.9999\n< E02\n\
        model 3\n> PV 10\n< OK\n> OVP 10.4999\n< E04\n> OVP 10.5\n< OK\n\
        model 2\n> PV 12.5\n< OK\n> UVL 11.9\n< E06\n> PV 13\n< OK\n> UVL 11.9\n< OK\n\
        > UVL 11.9001\n< C05\n\
        model 0\n> PV 5.00009\n< OK\n> PV?\n< 5.0001\n> RST\n< OK\n> PV?$E5\n< 0.0000$1E\n";
    assert!(stored().starts_with(figures));
}

/// The request's examples, as a reader of it works them out.
#[test]
fn the_examples_of_rounding_come_next() {
    let all = stored();
    for (word, ok, c05) in [("PV", " OK", " C05"), ("GPV", "", "")] {
        let examples = format!(
            "model 0\n> {word} 5.00009\n<{ok}\n> PV?\n< 5.0001\n\
             > {word} 6.30005\n<{ok}\n> PV?\n< 6.3000\n\
             > {word} 6.30015\n<{c05}\n> PV?\n< 6.3000\nmodel "
        );
        assert!(all.contains(&examples), "{word}");
    }
}

/// Numbers with what they leave, worked out by hand: volts have four decimals, amperes three.
#[rustfmt::skip]
const ROUNDED: [(&str, &str); 32] = [
    ("PV .00005", "0.0000"), ("PV .00015", "0.0002"), ("PV .00025", "0.0002"),
    ("PV .00035", "0.0004"), ("PV 0.00005", "0.0000"), ("PV .0001500000", "0.0002"),
    ("PV .00004999999", "0.0000"), ("PV .00005000001", "0.0001"), ("PV .00014999999", "0.0001"),
    ("PV 5.0000500000", "5.0000"), ("PV 5.0000500001", "5.0001"), ("PV 5.0001499999", "5.0001"),
    ("PV 0.99994", "0.9999"), ("PV 0.99995", "1.0000"), ("PV 99.99999", "100.0000"),
    ("PV .0005", "0.0005"), ("PV 6.0015000001", "6.0015"), ("GPV 5.00015", "5.0002"),
    ("GPV 000005.00015", "5.0002"), ("UVL .00015", "0.0002"), ("OVP 5.00005", "5.0000"),
    ("OVP 5.00015", "5.0002"), ("PC .0005", "0.000"), ("PC .0015", "0.002"), ("PC .0025", "0.002"),
    ("PC .0035", "0.004"), ("PC 6.0014999999", "6.001"), ("PC 6.0015000001", "6.002"),
    ("PC 9.9995", "10.000"), ("PC 99.9994", "99.999"), ("PC .00015", "0.000"),
    ("GPC 99.9995", "100.000"),
];

#[test]
fn numbers_are_rounded_to_the_nearest_and_ties_to_the_even_one() {
    let all = exchanges();
    for (line, left) in ROUNDED {
        let left_by = all.windows(2).find(|two| two[0].kept == line.as_bytes());
        assert_eq!(left_by.expect(line)[1].reply, left, "{line}");
    }
}

/// Each word with the error codes that lines alone can draw from it, apart from spoiled lines and
/// wrong checksums. E07 takes a LINES byte, which no line brings.
const WORDS: [(&str, &[&str]); 36] = [
    ("PV", &["OK", "C02", "C03", "C05", "E01", "E02"]),
    ("PC", &["OK", "C02", "C03", "C05"]),
    ("OVP", &["OK", "C02", "C03", "C05", "E04"]),
    ("OVM", &["OK", "C03"]),
    ("UVL", &["OK", "C02", "C03", "C05", "E06"]),
    ("OUT", &["OK", "C02", "C03"]),
    ("FLD", &["OK", "C02", "C03"]),
    ("AST", &["OK", "C02", "C03"]),
    ("RMT", &["OK", "C02", "C03"]),
    ("FENA", &["OK", "C02", "C03"]),
    ("SENA", &["OK", "C02", "C03"]),
    ("CLS", &["OK", "C03"]),
    ("RST", &["OK", "C03"]),
    ("PV?", &["0.0000", "628.5714", "C03"]),
    ("PC?", &["0.000", "105.000", "C03"]),
    ("OVP?", &["0.5000", "660.0000", "C03"]),
    ("UVL?", &["0.0000", "10.1000", "C03"]),
    ("MV?", &["0.0000", "C03"]),
    ("MC?", &["0.000", "C03"]),
    ("OUT?", &["ON", "OFF", "C03"]),
    ("FLD?", &["ON", "OFF", "C03"]),
    ("AST?", &["ON", "OFF", "C03"]),
    ("RMT?", &["LOC", "REM", "LLO", "C03"]),
    ("MODE?", &["OFF", "CC", "CV", "C03"]),
    ("FLT?", &["00", "40", "C03"]),
    ("FENA?", &["00", "FF", "C03"]),
    ("FEVE?", &["00", "40", "C03"]),
    ("STT?", &["MV(0.0000),PV(0.0000),MC(0.000),PC(0.000),SR(84),FR(40)", "C03"]),
    ("STAT?", &["84", "04", "05", "06", "08", "C03"]),
    ("SENA?", &["00", "8F", "C03"]),
    ("SEVE?", &["00", "01", "02", "04", "08", "80", "C03"]),
    ("ADR", &["OK", "C02", "C03", "C05"]),
    ("GPV", &[""]),
    ("GPC", &[""]),
    ("GOUT", &[""]),
    ("GRST", &[""]),
];

#[test]
fn every_word_meets_every_verdict() {
    let all = exchanges();
    for (word, codes) in WORDS {
        let own: Vec<&Exchange> = all.iter().filter(|one| one.word() == word).collect();
        let drawn: HashSet<&str> = own.iter().map(|one| one.code()).collect();
        for code in codes.iter().chain(&["C04"]) {
            assert!(drawn.contains(code), "{word} never draws '{code}'");
        }
        assert!(own.iter().any(|one| one.spoiled && one.reply == "C01"), "{word} spoiled");
    }
}

#[test]
fn every_word_comes_in_capitals_small_and_mixed() {
    let all = exchanges();
    for (word, _) in WORDS {
        let own = all.iter().filter(|one| one.word() == word && !one.spoiled);
        let forms: HashSet<Vec<u8>> = own.map(|one| one.kept[..word.len()].to_vec()).collect();
        let small = word.to_lowercase();
        assert!(forms.contains(word.as_bytes()) && forms.contains(small.as_bytes()), "{word}");
        assert!(forms.len() > 2, "{word} never comes in mixed letters");
    }
}

/// A reply of each kind, with its checksum.
#[rustfmt::skip]
const SUMMED: [&str; 21] = [
    "OK$9A", "C01$A4", "C02$A5", "C03$A6", "C05$A8", "E01$A6", "E02$A7", "E04$A9", "E06$AB",
    "ON$9D", "OFF$DB", "LOC$DE", "REM$E4", "LLO$E7", "CC$86", "CV$99", "40$64", "0.0000$1E",
    "0.000$EE", "8C$7B", "80$68",
];

#[test]
fn every_reply_comes_with_a_sum_and_without() {
    let all = exchanges();
    let replies: HashSet<&str> = all.iter().map(|one| one.reply.as_str()).collect();
    for reply in SUMMED {
        let bare = reply.split('$').next().unwrap_or_default();
        assert!(replies.contains(reply) && replies.contains(bare), "{reply}");
    }
    assert!(
        !all.iter().any(|one| one.reply.starts_with("C04$")),
        "a wrong checksum draws no checksum"
    );
}
