//! One serial line: from the characters kept at its CR to what it says, whom it addresses, what the
//! supply does with it and how the reply looks on the wire.

use std::cmp::Ordering;
use std::io::Write;

use crate::supply::{Answer, Code, Mode, Order, Query, Supply};

/// A line holds this many characters; a further one spoils it.
pub const LINE_ROOM: usize = 64;
/// A number has at most this many characters.
pub const MOST_CHARACTERS: usize = 12;
const VOLT_DECIMALS: u32 = 4;
const AMPERE_DECIMALS: u32 = 3;

/// Whom a line addresses.
#[derive(Clone, Copy, Debug, PartialEq, Eq)]
pub enum Whom {
    Address,
    Everyone,
    Selected,
}

#[derive(Clone, Copy, Debug, PartialEq, Eq)]
pub enum Said {
    Nothing,
    Select(usize),
    Order(Order),
    Query(Query),
}

/// What a finished line means before any supply has seen it.
#[derive(Clone, Copy, Debug, PartialEq, Eq)]
pub struct Reading {
    pub whom: Whom,
    /// The line carried a right checksum, so its replies carry one too.
    pub checksummed: bool,
    pub said: Result<Said, Code>,
}

/// The checksum of all bytes, modulo 256.
pub fn checksum(bytes: &[u8]) -> u8 {
    bytes.iter().fold(0, |sum: u8, byte| sum.wrapping_add(*byte))
}

/// Clause "Verdicts in turn", up to but not including the table of orders. At most 64 characters
/// are ever kept.
pub fn read(kept: &[u8], spoiled: bool) -> Reading {
    if spoiled {
        return Reading { whom: Whom::Selected, checksummed: false, said: Err(Code::C01) };
    }
    let (text, checksummed) = match cut_checksum(kept) {
        Sum::Absent => (kept, false),
        Sum::Right(text) => (text, true),
        Sum::Wrong => {
            return Reading { whom: Whom::Selected, checksummed: false, said: Err(Code::C04) }
        }
    };
    let (whom, said) = understand(text);
    Reading { whom, checksummed, said }
}

enum Sum<'a> {
    Absent,
    Right(&'a [u8]),
    Wrong,
}

/// A $ as the third character from the end makes the last two a checksum of what stands before it.
fn cut_checksum(kept: &[u8]) -> Sum<'_> {
    let Some(at) = kept.len().checked_sub(3).filter(|at| kept[*at] == b'$') else {
        return Sum::Absent;
    };
    match two_hexadecimal_digits(&kept[at + 1..]) {
        Some(sum) if sum == checksum(&kept[..at]) => Sum::Right(&kept[..at]),
        _ => Sum::Wrong,
    }
}

fn two_hexadecimal_digits(text: &[u8]) -> Option<u8> {
    let [high, low] = text else { return None };
    let digit = |byte: &u8| char::from(*byte).to_digit(16);
    Some((digit(high)? * 16 + digit(low)?) as u8)
}

/// The word up to the first space, the parameter after it; an empty parameter counts as none.
fn understand(text: &[u8]) -> (Whom, Result<Said, Code>) {
    if text.is_empty() {
        return (Whom::Selected, Ok(Said::Nothing));
    }
    let end = text.iter().position(|byte| *byte == b' ').unwrap_or(text.len());
    let mut capitals = [0; LINE_ROOM];
    let word = &mut capitals[..end];
    word.copy_from_slice(&text[..end]);
    word.make_ascii_uppercase();
    let parameter = text.get(end + 1..).filter(|rest| !rest.is_empty());
    match &*word {
        b"ADR" => (Whom::Address, need(parameter).and_then(slot_number)),
        b"GPV" => (Whom::Everyone, order(b"PV", parameter)),
        b"GPC" => (Whom::Everyone, order(b"PC", parameter)),
        b"GOUT" => (Whom::Everyone, order(b"OUT", parameter)),
        b"GRST" => (Whom::Everyone, order(b"RST", parameter)),
        word => match query(word) {
            Some(query) => (Whom::Selected, bare(parameter, Said::Query(query))),
            None => (Whom::Selected, order(word, parameter)),
        },
    }
}

fn query(word: &[u8]) -> Option<Query> {
    Some(match word {
        b"PV?" => Query::Pv,
        b"PC?" => Query::Pc,
        b"OVP?" => Query::Ovp,
        b"UVL?" => Query::Uvl,
        b"MV?" => Query::Mv,
        b"MC?" => Query::Mc,
        b"OUT?" => Query::Out,
        b"FLD?" => Query::Fld,
        b"AST?" => Query::Ast,
        b"RMT?" => Query::Rmt,
        b"MODE?" => Query::Mode,
        b"FLT?" => Query::Flt,
        b"FENA?" => Query::Fena,
        b"FEVE?" => Query::Feve,
        b"STT?" => Query::Stt,
        b"STAT?" => Query::Stat,
        b"SENA?" => Query::Sena,
        b"SEVE?" => Query::Seve,
        _ => return None,
    })
}

fn order(word: &[u8], parameter: Option<&[u8]>) -> Result<Said, Code> {
    let order = match word {
        b"PV" => Order::Pv(number(need(parameter)?, VOLT_DECIMALS)?),
        b"PC" => Order::Pc(number(need(parameter)?, AMPERE_DECIMALS)?),
        b"OVP" => Order::Ovp(number(need(parameter)?, VOLT_DECIMALS)?),
        b"UVL" => Order::Uvl(number(need(parameter)?, VOLT_DECIMALS)?),
        b"OUT" => Order::Out(switch(need(parameter)?)?),
        b"FLD" => Order::Fld(switch(need(parameter)?)?),
        b"AST" => Order::Ast(switch(need(parameter)?)?),
        b"RMT" => Order::Rmt(mode(need(parameter)?)?),
        b"FENA" => Order::Fena(byte(need(parameter)?)?),
        b"SENA" => Order::Sena(byte(need(parameter)?)?),
        b"OVM" => return bare(parameter, Said::Order(Order::Ovm)),
        b"CLS" => return bare(parameter, Said::Order(Order::Cls)),
        b"RST" => return bare(parameter, Said::Order(Order::Rst)),
        _ => return Err(Code::C01),
    };
    Ok(Said::Order(order))
}

fn need(parameter: Option<&[u8]>) -> Result<&[u8], Code> {
    parameter.ok_or(Code::C02)
}

/// For a word that takes no parameter.
fn bare(parameter: Option<&[u8]>, said: Said) -> Result<Said, Code> {
    match parameter {
        Some(_) => Err(Code::C03),
        None => Ok(said),
    }
}

fn switch(parameter: &[u8]) -> Result<bool, Code> {
    match parameter {
        b"0" => Ok(false),
        b"1" => Ok(true),
        _ => Err(Code::C03),
    }
}

fn mode(parameter: &[u8]) -> Result<Mode, Code> {
    match parameter {
        b"0" => Ok(Mode::Local),
        b"1" => Ok(Mode::Remote),
        b"2" => Ok(Mode::LockedOut),
        _ => Err(Code::C03),
    }
}

fn byte(parameter: &[u8]) -> Result<u8, Code> {
    two_hexadecimal_digits(parameter).ok_or(Code::C03)
}

/// Clause "ADR n": one or two digits, and no slot above 30.
fn slot_number(parameter: &[u8]) -> Result<Said, Code> {
    if parameter.len() > 2 || !parameter.iter().all(u8::is_ascii_digit) {
        return Err(Code::C03);
    }
    match run_value(parameter) {
        slot @ 0..=30 => Ok(Said::Select(slot as usize)),
        _ => Err(Code::C05),
    }
}

/// Clause "A number n": 1 to 12 characters, digits with at most one point among them; in ticks or
/// mA, of which a volt or an ampere has ten to the power of its decimals.
fn number(text: &[u8], decimals: u32) -> Result<i64, Code> {
    let point = text.iter().position(|byte| *byte == b'.').unwrap_or(text.len());
    let whole = &text[..point];
    let fraction = text.get(point + 1..).unwrap_or(&[]);
    let well_formed = (1..=MOST_CHARACTERS).contains(&text.len())
        && whole.len() + fraction.len() > 0
        && whole.iter().chain(fraction).all(u8::is_ascii_digit);
    if !well_formed {
        return Err(Code::C03);
    }
    // The last digit typed counts parts of a volt or an ampere; 12 digits and 4 more fit.
    let parts = 10_i64.pow(fraction.len() as u32);
    let typed = run_value(whole) * parts + run_value(fraction);
    Ok(rounded(typed * 10_i64.pow(decimals), parts))
}

/// Clause "A number is rounded": the whole number nearest to value / parts, a tie going to the even
/// one. Neither is negative.
fn rounded(value: i64, parts: i64) -> i64 {
    let below = value / parts;
    let above = below + 1;
    let from_below = value - below * parts;
    let from_above = above * parts - value;
    match from_below.cmp(&from_above) {
        Ordering::Less => below,
        Ordering::Greater => above,
        Ordering::Equal if below % 2 == 0 => below,
        Ordering::Equal => above,
    }
}

/// The value of digits, from the value of those before the last.
fn run_value(digits: &[u8]) -> i64 {
    match digits.split_last() {
        None => 0,
        Some((last, before)) => run_value(before) * 10 + i64::from(last - b'0'),
    }
}

/// What the plain supply does with a line that reached it.
pub fn obey(supply: &mut Supply, said: Result<Said, Code>) -> Answer {
    const OK: Answer = Answer::Word("OK");
    let done = said.and_then(|said| match said {
        Said::Order(order) => supply.order(order).map(|()| OK),
        Said::Query(query) => Ok(supply.ask(query)),
        Said::Nothing => {
            supply.hear_nothing();
            Ok(OK)
        }
        // It is about the rack, and no supply's share has it.
        Said::Select(_) => Ok(OK),
    });
    done.unwrap_or_else(|code| Answer::Word(code.text()))
}

/// Clause "A reply": the answer, a checksum if the line had a right one, and a CR.
pub fn reply(answer: Answer, checksummed: bool) -> Vec<u8> {
    let mut bytes = Vec::new();
    add_reply(&mut bytes, answer, checksummed);
    bytes
}

/// Appends the service message of this slot: it never has a checksum.
pub fn add_message(replies: &mut Vec<u8>, slot: usize) {
    write!(replies, "!{slot:02}\r").expect("a vector takes any bytes");
}

/// Appends such a reply to those that are there.
pub fn add_reply(replies: &mut Vec<u8>, answer: Answer, checksummed: bool) {
    let start = replies.len();
    write!(replies, "{answer}").expect("a vector takes any bytes");
    if checksummed {
        let sum = checksum(&replies[start..]);
        write!(replies, "${sum:02X}").expect("a vector takes any bytes");
    }
    replies.push(b'\r');
}
