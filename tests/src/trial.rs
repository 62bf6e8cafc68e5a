//! One trial of the supply: a state, what it is asked, and what the reference does with it, as a
//! line of decimal numbers for a program that tries another supply on the same.
//!
//! The numbers of a line: the model; the state before (PV PC OVP UVL WANT ARMED AST MODE LINES
//! FOLD-trip OVP-trip FENA FEVE SENA SEVE CV-seen volt-count ampere-count); the act's kind and two
//! operands; the error code, or 0 if accepted; the state after; the answer's kind and six values.

use crate::supply::{Code, Event, Key, Mode, Order, Query, Supply, Target};

/// Anything that a supply can be asked; nothing is the empty line.
#[derive(Clone, Copy, Debug, PartialEq, Eq)]
pub enum Act {
    Nothing,
    Event(Event),
    Order(Order),
    Query(Query),
}

/// An act with the supply that takes it.
#[derive(Clone, Debug, PartialEq, Eq)]
pub struct Trial {
    pub before: Supply,
    pub act: Act,
}

/// What the reference makes of a trial: the error code, the answer as printed, the supply after.
#[derive(Clone, Debug, PartialEq, Eq)]
pub struct Expected {
    pub code: Option<Code>,
    pub answer: Option<String>,
    pub after: Supply,
}

/// How many numbers of a line are expected: the error code, the state after and the answer.
pub const EXPECTED: usize = 1 + STATE + ANSWER;

/// How many numbers a state is, and an answer.
const STATE: usize = 18;
const ANSWER: usize = 7;

// Where two of the expected numbers stand: the FOLD trip and the CV memory after the act.
pub const FOLD_TRIP: usize = 1 + 9;
pub const CV_SEEN: usize = 1 + 15;

// The kinds of act, as the lines number them.
const NOTHING: i64 = 0;
const LINES: i64 = 1;
const SAMPLE: i64 = 2;
const KEY: i64 = 3;
const KNOB: i64 = 4;
const SET: i64 = 5;
const OVM: i64 = 6;
const OUT: i64 = 7;
const FLD: i64 = 8;
const AST: i64 = 9;
const RMT: i64 = 10;
const FENA: i64 = 11;
const CLS: i64 = 12;
const RST: i64 = 13;
const QUERY: i64 = 14;
const SENA: i64 = 15;

// The kinds of answer.
const FIGURE: i64 = 1;
const WORD: i64 = 2;
const HEX: i64 = 3;
const STATUS: i64 = 4;

/// The words of answers, in the order of their numbers.
const WORDS: [&str; 7] = ["ON", "OFF", "LOC", "REM", "LLO", "CC", "CV"];

impl Trial {
    pub fn expected(&self) -> Expected {
        let mut after = self.before.clone();
        let (mut code, mut answer) = (None, None);
        match self.act {
            Act::Nothing => after.hear_nothing(),
            Act::Event(event) => after.event(event),
            Act::Order(order) => code = after.order(order).err(),
            Act::Query(query) => answer = Some(after.ask(query).to_string()),
        }
        Expected { code, answer, after }
    }

    /// The trial with what is expected of it, as one line.
    pub fn line(&self) -> String {
        line_of(&self.numbers())
    }

    /// The same, with one of the expected numbers wrong on purpose.
    pub fn line_wrong_at(&self, expected: usize) -> String {
        let mut numbers = self.numbers();
        let first = numbers.len() - EXPECTED;
        let number = &mut numbers[first + expected];
        *number = if *number == 0 { 1 } else { *number - 1 };
        line_of(&numbers)
    }

    fn numbers(&self) -> Vec<i64> {
        let expected = self.expected();
        let mut numbers = vec![i64::from(self.before.model)];
        numbers.extend(state_numbers(&self.before));
        numbers.extend(act_numbers(self.act));
        numbers.push(expected.code.map_or(0, code_number));
        numbers.extend(state_numbers(&expected.after));
        numbers.extend(answer_numbers(self.act, expected.answer.as_deref()));
        numbers
    }
}

fn line_of(numbers: &[i64]) -> String {
    let words: Vec<String> = numbers.iter().map(i64::to_string).collect();
    words.join(" ") + "\n"
}

fn state_numbers(supply: &Supply) -> [i64; STATE] {
    [
        supply.pv,
        supply.pc,
        supply.ovp,
        supply.uvl,
        i64::from(supply.want),
        i64::from(supply.armed),
        i64::from(supply.ast),
        mode_number(supply.mode),
        i64::from(supply.lines),
        i64::from(supply.fold_trip),
        i64::from(supply.ovp_trip),
        i64::from(supply.fena),
        i64::from(supply.feve),
        i64::from(supply.sena),
        i64::from(supply.seve),
        i64::from(supply.cv_seen),
        i64::from(supply.volt_count),
        i64::from(supply.ampere_count),
    ]
}

fn mode_number(mode: Mode) -> i64 {
    match mode {
        Mode::Local => 0,
        Mode::Remote => 1,
        Mode::LockedOut => 2,
    }
}

/// Targets and keys as the fields of tags 3 and 2 number them.
fn target_number(target: Target) -> i64 {
    match target {
        Target::Pv => 0,
        Target::Pc => 1,
        Target::Ovp => 2,
        Target::Uvl => 3,
    }
}

fn key_number(key: Key) -> i64 {
    match key {
        Key::Output => 0,
        Key::Fold => 1,
        Key::Local => 2,
    }
}

fn act_numbers(act: Act) -> [i64; 3] {
    match act {
        Act::Nothing => [NOTHING, 0, 0],
        Act::Event(event) => event_numbers(event),
        Act::Order(order) => order_numbers(order),
        Act::Query(query) => [QUERY, query_number(query), 0],
    }
}

/// A knob's step is written as its 32 bits read without a sign.
fn event_numbers(event: Event) -> [i64; 3] {
    match event {
        Event::Lines(lines) => [LINES, i64::from(lines), 0],
        Event::Sample { volts, amperes } => [SAMPLE, i64::from(volts), i64::from(amperes)],
        Event::Key(key) => [KEY, key_number(key), 0],
        Event::Knob(target, step) => [KNOB, target_number(target), i64::from(step as u32)],
    }
}

fn order_numbers(order: Order) -> [i64; 3] {
    match order {
        Order::Pv(n) => [SET, target_number(Target::Pv), n],
        Order::Pc(n) => [SET, target_number(Target::Pc), n],
        Order::Ovp(n) => [SET, target_number(Target::Ovp), n],
        Order::Uvl(n) => [SET, target_number(Target::Uvl), n],
        Order::Ovm => [OVM, 0, 0],
        Order::Out(on) => [OUT, i64::from(on), 0],
        Order::Fld(on) => [FLD, i64::from(on), 0],
        Order::Ast(on) => [AST, i64::from(on), 0],
        Order::Rmt(mode) => [RMT, mode_number(mode), 0],
        Order::Fena(bits) => [FENA, i64::from(bits), 0],
        Order::Sena(bits) => [SENA, i64::from(bits), 0],
        Order::Cls => [CLS, 0, 0],
        Order::Rst => [RST, 0, 0],
    }
}

/// The queries in the paper's order, those of the status registers behind them.
pub const QUERIES: [Query; 18] = [
    Query::Pv,
    Query::Pc,
    Query::Ovp,
    Query::Uvl,
    Query::Mv,
    Query::Mc,
    Query::Out,
    Query::Fld,
    Query::Ast,
    Query::Rmt,
    Query::Mode,
    Query::Flt,
    Query::Fena,
    Query::Feve,
    Query::Stt,
    Query::Stat,
    Query::Sena,
    Query::Seve,
];

fn query_number(query: Query) -> i64 {
    QUERIES.iter().position(|known| *known == query).expect("every query is listed") as i64
}

/// An error code as one byte: its letter's hexadecimal digit, then its last digit.
fn code_number(code: Code) -> i64 {
    let (letter, digits) = code.text().split_at(1);
    let high = i64::from_str_radix(letter, 16).expect("C or E");
    16 * high + digits.parse::<i64>().expect("two digits, the first of them 0")
}

/// An answer by meaning, read back from its text: a byte, a word's number, a figure's decimals and
/// value, or all that STT? says. The query decides which (CC is a word of MODE? and a byte of FLT?).
fn answer_numbers(act: Act, answer: Option<&str>) -> [i64; ANSWER] {
    let (Act::Query(query), Some(text)) = (act, answer) else { return [0; ANSWER] };
    match query {
        Query::Stt => numbered(STATUS, &status_values(text)),
        Query::Flt | Query::Fena | Query::Feve | Query::Stat | Query::Sena | Query::Seve => {
            numbered(HEX, &[byte_value(text)])
        }
        _ => match text.split_once('.') {
            None => numbered(WORD, &[word_number(text)]),
            Some((_, decimals)) => numbered(FIGURE, &[decimals.len() as i64, figure_value(text)]),
        },
    }
}

/// An answer's kind with its values, and 0 for those that it does not have.
fn numbered(kind: i64, values: &[i64]) -> [i64; ANSWER] {
    let mut numbers = [0; ANSWER];
    numbers[0] = kind;
    numbers[1..=values.len()].copy_from_slice(values);
    numbers
}

/// Four figures in ticks and mA, and two bytes: what stands in each pair of brackets.
fn status_values(text: &str) -> Vec<i64> {
    let value = |part: &str| {
        let (_, rest) = part.split_once('(').expect("a name and a bracket");
        let inner = rest.strip_suffix(')').expect("the bracket closed");
        if inner.contains('.') {
            figure_value(inner)
        } else {
            byte_value(inner)
        }
    };
    text.split(',').map(value).collect()
}

/// A figure in units of its last decimal.
fn figure_value(text: &str) -> i64 {
    text.replace('.', "").parse().expect("digits")
}

fn byte_value(text: &str) -> i64 {
    i64::from_str_radix(text, 16).expect("two hexadecimal digits")
}

fn word_number(text: &str) -> i64 {
    WORDS.iter().position(|word| *word == text).expect("every word is listed") as i64
}
