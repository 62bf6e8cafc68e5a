//! Writes lines of the serial protocol with the reply that the reference model gives to each, for a
//! program that compares another supply with these replies (crates/dialogue). In this folder,
//! `cargo run --bin dialogue > ../crates/dialogue/stdin` renews the stored file.
//!
//! Each line is one item: `model N` begins with a fresh supply; `> TEXT` is a line at its CR and `!
//! TEXT` one that is spoiled; `< TEXT` is its reply without the CR, and `<` alone says that none
//! comes. In TEXT a backslash, and every byte that is not printable, is written as \xHH. There is
//! one supply and no rack: a global is the order that it stands for, and an ADR draws a reply and
//! does nothing else.

use std::io::{self, Write};

use rack_tests::generate::Draw;
use rack_tests::line::{self, checksum, Said, Whom, LINE_ROOM};
use rack_tests::supply::{amperes_text, volts_text, Supply, Target, MODELS};

const SEED: u64 = 11;

/// What a word takes as its parameter.
#[derive(Clone, Copy, PartialEq, Eq)]
enum Takes {
    Nothing,
    Number(Target),
    /// One digit, at most this one.
    Digit(u8),
    Hexadecimal,
    Address,
}

use Takes::{Address, Digit, Hexadecimal, Nothing, Number};

const WORDS: [(&str, Takes); 36] = [
    ("PV", Number(Target::Pv)),
    ("PC", Number(Target::Pc)),
    ("OVP", Number(Target::Ovp)),
    ("OVM", Nothing),
    ("UVL", Number(Target::Uvl)),
    ("OUT", Digit(1)),
    ("FLD", Digit(1)),
    ("AST", Digit(1)),
    ("RMT", Digit(2)),
    ("FENA", Hexadecimal),
    ("SENA", Hexadecimal),
    ("CLS", Nothing),
    ("RST", Nothing),
    ("PV?", Nothing),
    ("PC?", Nothing),
    ("OVP?", Nothing),
    ("UVL?", Nothing),
    ("MV?", Nothing),
    ("MC?", Nothing),
    ("OUT?", Nothing),
    ("FLD?", Nothing),
    ("AST?", Nothing),
    ("RMT?", Nothing),
    ("MODE?", Nothing),
    ("FLT?", Nothing),
    ("FENA?", Nothing),
    ("FEVE?", Nothing),
    ("STT?", Nothing),
    ("STAT?", Nothing),
    ("SENA?", Nothing),
    ("SEVE?", Nothing),
    ("ADR", Address),
    ("GPV", Number(Target::Pv)),
    ("GPC", Number(Target::Pc)),
    ("GOUT", Digit(1)),
    ("GRST", Nothing),
];

#[rustfmt::skip]
const QUERIES: [&str; 18] = [
    "PV?", "PC?", "OVP?", "UVL?", "MV?", "MC?", "OUT?", "FLD?", "AST?", "RMT?", "MODE?", "FLT?",
    "STT?", "STAT?", "FENA?", "FEVE?", "SENA?", "SEVE?",
];

/// Numbers, and texts that look like numbers but are not.
#[rustfmt::skip]
const NUMBERS: [&[u8]; 64] = [
    b"0", b"5", b"05", b"5.", b".5", b"0.5", b"00.50", b"5.0001", b"5.00009", b"5.00019",
    b"1.234567", b"12.3456", b"000000000005", b"0000000005.5", b"5.0000999999", b".99999999999",
    b".00009999999", b"00000000000.", b"99999999999.", b"999999999999", b"429496.7296",
    b"429501.7296", b"4294967.301", b"4294967296", b"0000000000005", b"0000000005.50",
    b"5.00000000000", b".000000000005", b"000000000000.", b"9999999999999", b".", b"..", b".5.",
    b"5..", b"1.2.3", b"............", b"+5", b"-5", b"5-", b"5e1", b"5E1", b"0x5", b"5V", b"five",
    b"5,5", b"5/", b"5:", b"/", b":", b" 5", b"5 ", b"5 5", b" ", b"\t5", b"5\t", b"5$5", b"5?",
    b"5\x00", b"\x00", b"5\x7F", b"\x80", b"\xB5", b"5.\xB0", b"5\xFF",
];

/// Numbers with digits below a tick: at a tie over even and odd ticks, as near to one as 12 characters
/// can come, and nines that carry. Those of 13 characters are malformed.
#[rustfmt::skip]
const BELOW_A_TICK: [&str; 44] = [
    ".00005", "0.00005", ".00015", "0.00015", ".00025", ".00035", ".0001500000", ".00004999999",
    ".00005000000", ".00005000001", ".00014999999", ".00015000001", "0.0001499999", "0.0001500001",
    ".00000000009", "5.00004", "5.00005", "5.00006", "5.00014", "5.00015", "5.00016", "5.000049",
    "5.00005000", "5.000051", "5.0000499999", "5.0000500000", "5.0000500001", "5.0001499999",
    "5.0001500000", "5.0001500001", "000005.00015", "0000005.00015", "5.00015000000",
    ".000150000000", "0.99994", "0.99995", "0.99999", ".99999999999", ".99994999999", "9.99995",
    "99.99995", "99.99999", "99999999.995", "999999.99995",
];

/// The same below a mA.
#[rustfmt::skip]
const BELOW_A_MILLIAMPERE: [&str; 32] = [
    ".0005", "0.0005", ".0015", "0.0015", ".0025", ".0035", ".00150000000", ".00049999999",
    ".00050000001", ".00149999999", ".00150000001", "6.0004", "6.0005", "6.0006", "6.0014", "6.0015",
    "6.0016", "6.00049", "6.00051", "6.0014999999", "6.0015000000", "6.0015000001", "0000006.0015",
    "00000006.0015", "6.00150000000", "0.9994", "0.9995", "0.9999", "9.9995", "99.9995", "99.9994",
    "9999999.9995",
];

/// What is written behind a whole unit to round it up or down: ties, and their neighbours.
const FURTHER: [&str; 5] = ["49", "499", "5", "500", "501"];

/// Digits, their neighbours in the character code, and texts that are not a single digit.
#[rustfmt::skip]
const DIGITS: [&[u8]; 24] = [
    b"/", b"0", b"1", b"2", b"3", b"4", b"9", b":", b"00", b"01", b"10", b"1.", b"+1", b" 1", b"1 ",
    b"\t1", b"ON", b"OFF", b"LOC", b"\x00", b"\x01", b"\x7F", b"\xB1", b"\xFF",
];

/// Texts that are not an address, or a wrong one.
#[rustfmt::skip]
const NO_ADDRESSES: [&[u8]; 29] = [
    b"/", b":", b"000", b"006", b"030", b"031", b"100", b"255", b"6.", b".6", b"3.0", b"-1", b"+6",
    b" 6", b"6 ", b"6 6", b"\t6", b"x", b"1x", b"x1", b"0x", b"1F", b"\xB6", b"1\xB6", b"\x00",
    b"1\x00", b"\x7F", b"\x80", b"\xFF",
];

/// Texts that are not two hexadecimal digits.
#[rustfmt::skip]
const NO_HEXADECIMAL: [&[u8]; 24] = [
    b"1", b"F", b"123", b"FFF", b"0FF", b" 1", b"1 ", b" FF", b"FF ", b"0x", b"-1", b"+F", b"1.",
    b"GG", b"gg", b"OO", b"\x00\x00", b"A\x00", b"\x7F1", b"\x80\x80", b"\xB1\xB2", b"\xC1A",
    b"A\xE1", b"\xFF\xFF",
];

/// Words that the paper does not list, and lines that are not a word at all.
#[rustfmt::skip]
const UNKNOWN: [&str; 40] = [
    " ", "  ", "\t", "?", "P", "V", " PV 5", " PV?", " ADR 6", " GPV 5", " OVM", "\tPV 5", "\tPV?",
    "VP 5", "PV5", "PV=5", "PV,5", "PV-5", "PV??", "?PV", "MODE", "MV", "MC", "MV 1", "FLT", "FEVE",
    "FEVE 00", "IDN?", "REV?", "SN?", "STT", "SEVE 0F", "SAV 1", "RCL", "GSAV", "GFLD 1", "GPV?",
    "ADR?", "OUTP 1", "OVM?",
];

/// $ in other places than the third from the end, and more than once.
#[rustfmt::skip]
const DOLLARS: [&str; 29] = [
    "$", "$$", "$$$", "$$$$", "$0", "$00$", "$$00", "$$24", "$000", "0$00", "00$0", "$ $", "$PV?",
    "PV$?", "PV 5$1", "PV 5$", "PV $5", "PV $5.", "FENA $0", "FENA $00", "OUT $", "PV?$E5$E5",
    "PV?$E5$", "PV? $05", "PV? $E5", "PV?$0E5", "$E5", "$E5PV?", "PV?$$E5",
];

/// A talk in which model 3 gives every answer and every error code that lines alone can draw.
#[rustfmt::skip]
const ALL_REPLIES: [&str; 56] = [
    "", "PV 10", "PC 2", "UVL 9.5", "OVP 10.5", "PV 9", "PV 10.0001", "PV 99", "OVP 10.4999", "OVP",
    "OVP x", "UVL 9.6", "FENA 40", "FLD 1", "AST 1", "OUT 1", "MODE?", "PC 0", "MODE?", "OUT?",
    "OUT 0", "OUT?", "MODE?", "FEVE?", "FEVE?", "RMT 0", "RMT?", "RMT 2", "RMT?", "RMT 1", "RMT?",
    "PV?", "PC?", "OVP?", "UVL?", "MV?", "MC?", "FLD?", "AST?", "FLT?", "FENA?", "ADR 30", "ADR 31",
    "ADR", "ADR x", "GOUT 1", "GOUT 2", "GOUT", "OUT?", "WHAT?", "SENA 8C", "SENA?", "STAT?", "STT?",
    "RMT 0", "SEVE?",
];

/// Lines that turn MODE 0 into 1, and lines that do not.
#[rustfmt::skip]
const IN_LOCAL: [&str; 37] = [
    "PV 99", "PV 999", "PV x", "PV", "PC 5", "PC 6", "OVP 150", "OVP 1", "OVM", "UVL 50", "UVL 99",
    "OUT 1", "OUT 0", "OUT 2", "FLD 1", "FLD 0", "AST 1", "AST 0", "FENA 41", "CLS", "RST",
    "GPV 99", "GPV 999", "GPV", "GPC 5", "GPC 6", "GOUT 1", "GOUT 0", "GOUT 2", "GRST", "GRST 1",
    "ADR 5", "PV?", "", "SENA 81", "SENA", "STT?",
];

/// Lines that a locked-out supply obeys.
#[rustfmt::skip]
const LOCKED_OUT: [&str; 10] = [
    "PV 99", "PC 5", "OUT 1", "OUT 0", "GPV 99", "GPC 5", "GOUT 1", "ADR 5", "RST", "GRST",
];

/// How a line of 63 or 64 characters begins, and what fills it up.
#[rustfmt::skip]
const FILLED: [(&str, u8); 14] = [
    ("", b'P'), ("", b' '), ("", b'$'), ("PV?", b' '), ("PV? ", b'0'), ("PV ", b'0'),
    ("PV 5", b' '), ("PV 5.", b'0'), ("FENA ", b'F'), ("ADR ", b'0'), ("GPV ", b'0'),
    ("CLS ", b' '), ("", 0), ("", 255),
];

/// What does or does not make FEVE gain a bit, and what then does or does not clear it.
const REGISTERS: [[&str; 2]; 10] = [
    ["FENA 40", "FEVE?"],
    ["FENA ff", "CLS"],
    ["FENA 40", "RST"],
    ["FENA 40", "GRST"],
    ["FENA 40", "FEVE? 1"],
    ["FENA 40", "CLS 1"],
    ["FENA 40", "FENA 00"],
    ["FENA 40", "OUT 1"],
    ["FENA BF", "OUT?"],
    ["FENA 00", "FENA 40"],
];

/// Which bits of STAT are enabled while lines let them rise.
const ENABLES: [&str; 7] =
    ["SENA 8f", "SENA 00", "SENA 01", "SENA 02", "SENA 0C", "SENA 80", "SENA 70"];

/// What does or does not clear SEVE.
const CLEARING: [&str; 6] = ["CLS", "RST", "GRST", "CLS 1", "SEVE? 1", "FEVE?"];

/// The bytes at the ends of the ranges of characters.
const ODD_BYTES: [u8; 4] = [0, 127, 128, 255];

/// Bytes that a line never keeps: backspace, LF and CR.
const NEVER_KEPT: [u8; 3] = [0x08, b'\n', b'\r'];

fn main() -> io::Result<()> {
    io::stdout().lock().write_all(dialogue().as_bytes())
}

fn dialogue() -> String {
    let mut dialogue = Dialogue { supply: Supply::fresh(0), text: String::new() };
    dialogue.bench_figures();
    dialogue.examples_of_rounding();
    dialogue.letters_of_either_case();
    dialogue.verdicts();
    dialogue.unknown_words();
    dialogue.begin(10);
    dialogue.bytes_like_letters();
    dialogue.odd_bytes();
    dialogue.look();
    dialogue.sums();
    dialogue.numbers();
    dialogue.rounding();
    dialogue.switches();
    dialogue.enables();
    dialogue.addresses();
    dialogue.long_lines();
    for model in [0, 2, 3, 6, 9, 11] {
        dialogue.limits(model);
    }
    dialogue.modes();
    dialogue.registers();
    dialogue.status();
    dialogue.resets();
    for model in 0..MODELS.len() as u8 {
        dialogue.drawn(model, 12);
    }
    dialogue.text + WRONG
}

/// Replies that are wrong on purpose: another figure, one cut short, one too long, none where one
/// comes, one where none comes. A program that reports none of them compares nothing.
const WRONG: &str =
    "model 0\n> PV?\n< 0.0001\n> PV?\n< 0.000\n> PV?\n< 0.00000\n> PV?\n<\n> GRST\n< OK\n";

/// The text written so far, and the supply that has taken its lines.
struct Dialogue {
    supply: Supply,
    text: String,
}

impl Dialogue {
    fn begin(&mut self, model: u8) {
        self.supply = Supply::fresh(model);
        self.text += &format!("model {model}\n");
    }

    /// A line at its CR, and its reply.
    fn say(&mut self, kept: impl AsRef<[u8]>) {
        self.exchange('>', kept.as_ref(), false);
    }

    /// The same for a spoiled line.
    fn spoil(&mut self, kept: impl AsRef<[u8]>) {
        self.exchange('!', kept.as_ref(), true);
    }

    fn exchange(&mut self, mark: char, kept: &[u8], spoiled: bool) {
        assert!(kept.len() <= LINE_ROOM && !kept.iter().any(|byte| NEVER_KEPT.contains(byte)));
        let reply = reply_to(&mut self.supply, kept, spoiled);
        self.item(mark, kept);
        self.item('<', reply.strip_suffix(b"\r").unwrap_or(&reply));
    }

    fn item(&mut self, mark: char, bytes: &[u8]) {
        self.text.push(mark);
        if !bytes.is_empty() {
            self.text += &format!(" {}", printable(bytes));
        }
        self.text.push('\n');
    }

    fn say_all<T: AsRef<[u8]>>(&mut self, lines: &[T]) {
        lines.iter().for_each(|line| self.say(line));
    }

    /// An order, and then its query if the order changed anything or draws no reply.
    fn order(&mut self, word: &str, parameter: &[u8]) {
        let before = self.supply.clone();
        self.say(with_parameter(word, parameter));
        if self.supply != before || word.starts_with(['G', 'g']) {
            self.say(query_of(word));
        }
    }

    /// Every query.
    fn look(&mut self) {
        self.say_all(&QUERIES);
    }

    /// The paper's figures that need only lines.
    fn bench_figures(&mut self) {
        let talks: [(u8, &[&str]); 6] = [
            (0, &["PV 6.3", "PV 6.3001"]),
            (6, &["PV 62.8571", "PV 62.8572"]),
            (3, &["PV 10", "UVL 9.5001", "UVL 9.5", "PV 9.9999"]),
            (3, &["PV 10", "OVP 10.4999", "OVP 10.5"]),
            (2, &["PV 12.5", "UVL 11.9", "PV 13", "UVL 11.9", "UVL 11.9001"]),
            (0, &["PV 5.00009", "PV?", "RST", "PV?$E5"]),
        ];
        for (model, lines) in talks {
            self.begin(model);
            self.say_all(lines);
        }
    }

    /// The request's three examples, and the same to everyone.
    fn examples_of_rounding(&mut self) {
        for word in ["PV", "GPV"] {
            self.begin(0);
            for number in ["5.00009", "6.30005", "6.30015"] {
                self.say_all(&[format!("{word} {number}").as_str(), "PV?"]);
            }
        }
    }

    /// Every word in capitals, small and mixed letters.
    fn letters_of_either_case(&mut self) {
        self.begin(1);
        for (turn, (word, takes)) in WORDS.into_iter().enumerate() {
            let forms = [word.to_string(), word.to_lowercase(), mixed(word, turn)];
            for (word, parameter) in forms.iter().zip(good(takes)) {
                self.order(word, parameter.as_bytes());
            }
        }
        self.look();
    }

    /// Every verdict for every word: refused lines and what they left, no parameter, a good one.
    fn verdicts(&mut self) {
        self.begin(4);
        for (word, takes) in WORDS {
            let [parameter, other, _] = good(takes);
            let line = with_parameter(word, other.as_bytes());
            self.spoil(&line);
            self.spoil(checksummed(&line));
            self.say(ended(&line, format!("${:02X}", checksum(&line).wrapping_add(1))));
            let misused = format!("{word} {}", if takes == Nothing { "0" } else { "?" });
            self.say(&misused);
            self.say(checksummed(misused.as_bytes()));
            self.say(format!("{word}  {other}"));
            self.say(format!("{word} {other} "));
            self.say(format!("{word}\t{other}"));
            self.say(query_of(word));
            self.say(word);
            self.say(checksummed(word.as_bytes()));
            self.say(format!("{word} "));
            self.say(checksummed(&with_parameter(word, parameter.as_bytes())));
        }
        self.look();
    }

    /// Words with a letter added, removed or changed, and words from other manuals.
    fn unknown_words(&mut self) {
        self.begin(7);
        for (word, takes) in WORDS {
            let changed = format!("{}X", &word[..word.len() - 1]);
            for near in [format!("{word}X"), word[1..].to_string(), changed] {
                self.say(with_parameter(near, good(takes)[0].as_bytes()));
            }
        }
        self.say_all(&UNKNOWN);
        self.look();
    }

    /// Bytes that are close to a letter or a question mark, one in each place of each word.
    fn bytes_like_letters(&mut self) {
        for (word, takes) in WORDS {
            for (at, byte) in word.bytes().enumerate() {
                let mut other = word.as_bytes().to_vec();
                other[at] = byte ^ if byte == b'?' { 0x20 } else { 0x80 };
                self.say(with_parameter(other, good(takes)[0].as_bytes()));
            }
        }
    }

    /// Odd bytes before, in and after each word and its parameter.
    fn odd_bytes(&mut self) {
        for (number, (word, takes)) in WORDS.into_iter().enumerate() {
            let byte = |place: usize| ODD_BYTES[(number + place) % ODD_BYTES.len()];
            let parameter = good(takes)[0].as_bytes();
            let line = with_parameter(word, parameter);
            self.say([&[byte(0)], &line[..]].concat());
            self.say([&line[..1], &[byte(1)], &line[1..]].concat());
            self.say(with_parameter([word.as_bytes(), &[byte(2)]].concat(), parameter));
            self.say(with_parameter(word, &[byte(3)]));
            self.say(ended(&line, [byte(4)]));
            // If a word is held as a number, what stands far before its end could be lost.
            self.say([&[0; 8][word.len()..], &[1], &line[..]].concat());
        }
    }

    /// Checksums that are right, wrong and unreadable, after lines of every kind.
    fn sums(&mut self) {
        self.begin(0);
        for line in [&b""[..], b"PV?", b"OVP 6.5", b"ADR 6", b"\xFF\x80\x00"] {
            let sum = checksum(line);
            let [high, low] = [sum / 16, sum % 16];
            for end in [
                format!("${sum:02X}"),
                format!("${sum:02x}"),
                format!("${high:X}{low:x}"),
                format!("${high:x}{low:X}"),
                format!("${:02X}", sum ^ 1),
                format!("${:02X}", sum ^ 0x80),
                format!("${low:X}{high:X}"),
                format!("${low:X}"),
                format!("$0{sum:02X}"),
                format!("${sum:02X} "),
                format!(" ${sum:02X}"),
                format!("{sum:02X}"),
                "$".into(),
                format!("${high:X}G"),
                format!("$@{low:X}"),
                format!("$ {low:X}"),
                format!("$+{low:X}"),
            ] {
                self.say(ended(line, end));
            }
        }
        self.dollars();
        self.every_reply_checksummed();
    }

    /// The checksum is removed once, and a $ elsewhere is a character like any other.
    fn dollars(&mut self) {
        self.say_all(&DOLLARS);
        for line in ["$", "$$", "$24", "$00", "PV?$E5", "PV 5$1", "FENA $0", "GPV 5$00"] {
            self.say(checksummed(line.as_bytes()));
        }
        self.say(checksummed(&checksummed(&checksummed(b"PV?"))));
        for near in [b'#', b'%', 0x04, 0xA4] {
            self.say([b"PV?", &[near][..], b"E5"].concat());
        }
    }

    fn every_reply_checksummed(&mut self) {
        self.begin(3);
        ALL_REPLIES.iter().for_each(|line| self.say(checksummed(line.as_bytes())));
    }

    /// All forms of a number in volts and in amperes, and some for each other word that takes one.
    /// The models are the one with the most volts and the one with the most amperes.
    fn numbers(&mut self) {
        for (at, word) in ["PV", "PC", "GPV", "GPC", "UVL", "OVP"].into_iter().enumerate() {
            self.begin(if word.ends_with("PC") { 0 } else { 11 });
            if word == "UVL" {
                self.say("PV 600");
            }
            let step = if at < 2 { 1 } else { 3 };
            let some = NUMBERS.iter().skip(at % step).step_by(step);
            some.for_each(|number| self.order(word, number));
        }
        self.look();
    }

    /// Digits below a tick and below a mA, each for volts and for amperes, and what they leave.
    fn rounding(&mut self) {
        for word in ["PV", "PC", "GPV", "GPC", "UVL", "OVP"] {
            self.begin(if word.ends_with("PC") { 0 } else { 11 });
            if word == "UVL" {
                self.say("PV 600");
            }
            for number in BELOW_A_TICK.iter().chain(&BELOW_A_MILLIAMPERE) {
                self.say(format!("{word} {number}"));
                self.say(query_of(word));
            }
        }
        self.look();
    }

    /// Each digit and its neighbours, for each word that takes a digit.
    fn switches(&mut self) {
        self.begin(5);
        for (word, takes) in WORDS {
            if matches!(takes, Digit(_)) {
                DIGITS.iter().for_each(|digit| self.order(word, digit));
            }
        }
        self.look();
    }

    /// FENA and SENA with each hexadecimal digit and each neighbour of one in both places, and other
    /// texts.
    fn enables(&mut self) {
        self.begin(6);
        let digits = b"0123456789ABCDEFabcdef0/9:8@7G6`5g4";
        for word in ["FENA", "SENA"] {
            digits.windows(2).for_each(|pair| self.order(word, pair));
            NO_HEXADECIMAL.iter().for_each(|text| self.order(word, text));
        }
        self.look();
    }

    /// ADR with one, two and three digits, and with texts that are not numbers.
    fn addresses(&mut self) {
        self.begin(1);
        for slot in 0..10 {
            self.say(format!("ADR {slot}"));
        }
        for slot in [0, 1, 6, 9, 10, 15, 19, 20, 29, 30, 31, 32, 39, 40, 63, 64, 95, 99] {
            self.say(format!("ADR {slot:02}"));
        }
        NO_ADDRESSES.iter().for_each(|text| self.say(with_parameter("adr", text)));
        self.look();
    }

    /// Lines as long as allowed, and one character shorter.
    fn long_lines(&mut self) {
        self.begin(2);
        for length in [LINE_ROOM - 1, LINE_ROOM] {
            for (start, filler) in FILLED {
                self.say(filled(start, filler, length));
                self.say(checksummed(&filled(start, filler, length - 3)));
            }
        }
        self.spoil(filled("PV 5", b' ', LINE_ROOM));
        self.spoil(checksummed(&filled("PV?", b' ', LINE_ROOM - 3)));
        self.look();
    }

    /// One model's settings at and around every limit and margin.
    fn limits(&mut self, model: u8) {
        self.begin(model);
        let limits = &MODELS[usize::from(model)];
        self.around(Target::Pc, limits.pc_most());
        self.around(Target::Pv, limits.pv_most());
        self.around(Target::Pv, 20 * self.supply.ovp / 21);
        self.set(Target::Pv, limits.rated_volts * 2 / 3 + 1);
        self.around(Target::Uvl, limits.uvl_most);
        self.around(Target::Uvl, 19 * self.supply.pv / 20);
        self.around(Target::Pv, 20 * self.supply.uvl / 19);
        self.around(Target::Ovp, 21 * self.supply.pv / 20);
        self.around(Target::Pv, 20 * self.supply.ovp / 21);
        self.around(Target::Ovp, limits.ovp_most);
        self.say_all(&["UVL 0", "PV 0"]);
        self.around(Target::Ovp, limits.ovp_least);
        self.around(Target::Pv, 20 * self.supply.ovp / 21);
        self.look();
        self.say_all(&["OVM", "OVP?"]);
    }

    fn set(&mut self, target: Target, value: i64) {
        let (word, text) = setting(target, value.max(0));
        self.say(format!("{word} {text}"));
    }

    /// Orders that are rounded to a bound or away from it, then one below, one above and at it, and
    /// what they left.
    fn around(&mut self, target: Target, bound: i64) {
        for value in [bound - 1, bound] {
            let (word, text) = setting(target, value.max(0));
            FURTHER.iter().for_each(|more| self.order(word, format!("{text}{more}").as_bytes()));
        }
        for value in [bound - 1, bound + 1, bound] {
            self.set(target, value);
        }
        let (word, _) = setting(target, bound);
        self.say(query_of(word));
    }

    fn modes(&mut self) {
        self.begin(9);
        for line in IN_LOCAL {
            self.say_all(&["RMT 0", line, "RMT?"]);
        }
        for line in LOCKED_OUT {
            self.say_all(&["RMT 2", line, "RMT?"]);
        }
        self.look();
    }

    /// FENA, FEVE and FLT as the output goes on and off.
    fn registers(&mut self) {
        for [enabling, clearing] in REGISTERS {
            self.begin(8);
            self.say_all(&[enabling, "OUT 1", "FLT?", "OUT?", "FEVE?", "OUT 0", "FLT?", "OUT?"]);
            self.say_all(&[clearing, "FEVE?", "FEVE?", "FENA?", "FLT?"]);
        }
    }

    /// STAT and SEVE as lines turn the output on and off, set PC and ask FEVE?.
    fn status(&mut self) {
        for enabling in ENABLES {
            self.begin(8);
            self.say_all(&[
                "STT?", enabling, "FENA 40", "OUT 1", "STAT?", "SEVE?", "PC 5", "STAT?",
            ]);
            self.say_all(&["SEVE?", "PC 0", "SEVE?", "OUT 0", "STAT?", "SEVE?", "FEVE?", "SEVE?"]);
            self.say_all(&["RMT 0", "SEVE?", "SEVE?", "AST 1", "FLD 1", "STT?", "SEVE?", "PV 999"]);
            self.say_all(&["RMT 3", "SEVE?"]);
            for clearing in CLEARING {
                self.say_all(&["OUT 1", "OUT 0", "STAT?", clearing, "SEVE?", "FEVE?", "SEVE?"]);
                self.say_all(&["SENA?", "FENA?"]);
            }
        }
    }

    /// RST and GRST on a supply where everything is set, and MODE? around PC 0.
    fn resets(&mut self) {
        for reset in ["RST", "grst ", "GRST 1"] {
            self.begin(3);
            self.say_all(&["PV 12.3456", "PC 7.89", "OVP 15", "UVL 10.1", "FENA C3", "FLD 1"]);
            self.say_all(&["AST 1", "MODE?", "OUT 1", "MODE?", "PC 0", "MODE?", "PC .001"]);
            self.say_all(&["MODE?", "SENA 8F", "RMT 2", "OUT 0", "OUT 1", reset]);
            self.look();
        }
    }

    /// Lines drawn at random, most of them good, for one model.
    fn drawn(&mut self, model: u8, count: usize) {
        let mut draw = Draw::new(SEED + u64::from(model));
        self.begin(model);
        for _ in 0..count {
            let line = self.drawn_line(&mut draw);
            if draw.percent(4) {
                self.spoil(line);
            } else {
                self.say(line);
            }
        }
        self.look();
    }

    fn drawn_line(&self, draw: &mut Draw) -> Vec<u8> {
        let (word, takes) = draw.pick(&WORDS);
        let word: Vec<u8> = match draw.below(3) {
            0 => word.bytes().map(|byte| draw.pick(&[byte, byte.to_ascii_lowercase()])).collect(),
            _ => word.into(),
        };
        let mut line = with_parameter(word, self.drawn_parameter(takes, draw).as_bytes());
        if draw.percent(20) {
            garble(&mut line, draw);
        }
        match draw.below(8) {
            0 | 1 => checksummed(&line),
            2 => ended(&line, format!("${:02x}", checksum(&line))),
            3 if draw.percent(40) => ended(&line, format!("${:02X}", draw.any() as u8)),
            _ => line,
        }
    }

    fn drawn_parameter(&self, takes: Takes, draw: &mut Draw) -> String {
        match takes {
            Nothing => String::new(),
            Number(target) => self.drawn_number(target, draw),
            Digit(most) => draw.below(u64::from(most) + 1).to_string(),
            Hexadecimal => format!("{:02X}", draw.any() as u8),
            Address => draw.below(40).to_string(),
        }
    }

    /// A value within or close to what is allowed at the moment.
    fn drawn_number(&self, target: Target, draw: &mut Draw) -> String {
        let (least, most) = self.supply.range(target);
        let value = match draw.below(4) {
            0 => least + draw.between(-1, 1),
            1 => most + draw.between(-1, 1),
            _ => draw.between(least, most),
        };
        let text = setting(target, value.max(0)).1;
        match draw.below(3) {
            0 => text + draw.pick(&FURTHER),
            _ => text,
        }
    }
}

/// What one supply replies to a line; no bytes if it does not reply.
fn reply_to(supply: &mut Supply, kept: &[u8], spoiled: bool) -> Vec<u8> {
    let reading = line::read(kept, spoiled);
    match reading.whom {
        Whom::Everyone => {
            if let Ok(Said::Order(order)) = reading.said {
                // Whether it is refused or not, no reply says so.
                let _ = supply.order(order);
            }
            Vec::new()
        }
        Whom::Address | Whom::Selected => {
            line::reply(line::obey(supply, reading.said), reading.checksummed)
        }
    }
}

fn printable(bytes: &[u8]) -> String {
    let shown = |byte: &u8| match byte {
        b'\\' => "\\x5C".to_string(),
        b' '..=b'~' => char::from(*byte).to_string(),
        _ => format!("\\x{byte:02X}"),
    };
    bytes.iter().map(shown).collect()
}

/// Parameters that every model accepts in this order, where a word takes one.
fn good(takes: Takes) -> [&'static str; 3] {
    match takes {
        Nothing => [""; 3],
        Number(Target::Pv) => ["5", "4.5", "5.5"],
        Number(Target::Pc) => ["1.25", "0.5", "1"],
        Number(Target::Ovp) => ["7", "6.5", "7.25"],
        Number(Target::Uvl) => ["4", "3.75", "4.2"],
        Digit(_) => ["1", "0", "1"],
        Hexadecimal => ["5a", "A5", "0f"],
        Address => ["6", "30", "0"],
    }
}

/// A word alone, or with a space and its parameter.
fn with_parameter(word: impl AsRef<[u8]>, parameter: &[u8]) -> Vec<u8> {
    let space: &[u8] = if parameter.is_empty() { b"" } else { b" " };
    [word.as_ref(), space, parameter].concat()
}

fn ended(line: &[u8], end: impl AsRef<[u8]>) -> Vec<u8> {
    [line, end.as_ref()].concat()
}

/// A line with its right checksum.
fn checksummed(line: &[u8]) -> Vec<u8> {
    ended(line, format!("${:02X}", checksum(line)))
}

/// A line padded to this length.
fn filled(start: &str, filler: u8, length: usize) -> Vec<u8> {
    let mut line = start.as_bytes().to_vec();
    line.resize(length, filler);
    line
}

/// Small and capital letters in turn, beginning with a small one every other time.
fn mixed(word: &str, turn: usize) -> String {
    let letter = |(at, letter): (usize, char)| match (at + turn) % 2 {
        0 => letter.to_ascii_lowercase(),
        _ => letter,
    };
    word.chars().enumerate().map(letter).collect()
}

/// The query that shows what an order changes; for a query, the query itself.
fn query_of(word: &str) -> String {
    match word.to_uppercase().as_str() {
        "OVM" => "OVP?".into(),
        "CLS" => "FEVE?".into(),
        "RST" | "GRST" => "PV?".into(),
        _ if word.ends_with('?') => word.into(),
        _ => format!("{}?", word.trim_start_matches(['G', 'g'])),
    }
}

fn setting(target: Target, value: i64) -> (&'static str, String) {
    match target {
        Target::Pv => ("PV", volts_text(value)),
        Target::Pc => ("PC", amperes_text(value)),
        Target::Ovp => ("OVP", volts_text(value)),
        Target::Uvl => ("UVL", volts_text(value)),
    }
}

/// A byte replaced, removed or inserted.
fn garble(line: &mut Vec<u8>, draw: &mut Draw) {
    let at = draw.below(line.len() as u64) as usize;
    let any = Some(draw.any() as u8).filter(|byte| !NEVER_KEPT.contains(byte)).unwrap_or(b'$');
    match draw.below(4) {
        0 => line[at] = any,
        1 => drop(line.remove(at)),
        2 => line.insert(at, any),
        _ => line.insert(at, draw.pick(b" 0159.$?ag\t")),
    }
}
