//! A readable form of the program's input, one field per line, and back again: docs/SCRIPTS.md has
//! its forms.

use crate::counts::{least_count, units, Quantity, AMPERES, VOLTS};
use crate::rack::{length_allowed, Rack, EMPTY, SLOTS};
use crate::supply::{Model, Supply, AC, ENA, MODELS, OTP, SO};

const FIELD_ROOM: usize = 16;
const KEYS: [&str; 3] = ["OUTPUT", "FOLD", "LOCAL"];
const TARGETS: [&str; 4] = ["PV", "PC", "OVP", "UVL"];
const LINE_NAMES: [(&str, u8); 4] = [("AC", AC), ("OTP", OTP), ("SO", SO), ("ENA", ENA)];

/// One line of a script that stands for bytes after the fitting list.
#[derive(Clone, Debug, PartialEq, Eq)]
pub struct Row {
    pub number: usize,
    pub text: String,
    pub bytes: Vec<u8>,
}

#[derive(Clone, Debug, PartialEq, Eq)]
pub struct Script {
    pub fitting: Vec<u8>,
    pub rows: Vec<Row>,
}

impl Script {
    /// The program's whole input.
    pub fn bytes(&self) -> Vec<u8> {
        let mut bytes = self.fitting.clone();
        for row in &self.rows {
            bytes.extend(&row.bytes);
        }
        bytes
    }
}

// ---- reading a script ----

/// The fitting list of a script as read so far.
#[derive(Default)]
struct Fitting {
    slots: Vec<(usize, u8)>,
    raw: Option<Vec<u8>>,
}

/// Reads a script; an error names the line and what is wrong with it.
pub fn parse(source: &[u8]) -> Result<Script, String> {
    let mut fitting = Fitting::default();
    let mut rows = Vec::new();
    for (at, raw) in source.split(|byte| *byte == b'\n').enumerate() {
        let number = at + 1;
        let wrong = |what: String| format!("line {number}: {what}");
        let text = std::str::from_utf8(raw).map_err(|_| wrong("not readable as text".into()))?;
        let (keyword, rest) = split_keyword(text.trim_end_matches('\r'));
        match keyword {
            "" => {}
            "fit" | "raw-fit" if !rows.is_empty() => {
                return Err(wrong(format!("{keyword} must stand before the first field")));
            }
            "fit" => fitting.add(rest).map_err(wrong)?,
            "raw-fit" => fitting.set_raw(rest).map_err(wrong)?,
            _ => {
                let bytes = field_bytes(keyword, rest, &fitting).map_err(wrong)?;
                rows.push(Row { number, text: shown(text), bytes });
            }
        }
    }
    Ok(Script { fitting: fitting.list(), rows })
}

/// The source line without its comment, as a table shows it.
fn shown(text: &str) -> String {
    let (keyword, rest) = split_keyword(text);
    format!("{keyword} {}", before_comment(rest).trim()).trim_end().to_string()
}

fn split_keyword(text: &str) -> (&str, &str) {
    let text = text.trim_start();
    if text.starts_with('#') {
        return ("", "");
    }
    let end = text.find(|sign: char| sign.is_whitespace() || sign == '#').unwrap_or(text.len());
    text.split_at(end)
}

/// What stands before the comment; inside a quoted text a # is no comment.
fn before_comment(text: &str) -> &str {
    let quotable = text.trim_start().starts_with('"');
    let (mut quoted, mut escaped) = (false, false);
    for (at, sign) in text.char_indices() {
        if sign == '#' && !quoted {
            return &text[..at];
        }
        if sign == '"' && quotable && !escaped {
            quoted = !quoted;
        }
        escaped = quoted && sign == '\\' && !escaped;
    }
    text
}

impl Fitting {
    fn add(&mut self, rest: &str) -> Result<(), String> {
        let words: Vec<&str> = before_comment(rest).split_whitespace().collect();
        let [slot, model] = words[..] else {
            return Err("fit needs a slot and a model, as in: fit 6 0".into());
        };
        let slot: usize = whole(slot, "slot", 0, SLOTS as i64 - 1)?;
        let model: u8 = whole(model, "model", 0, MODELS.len() as i64 - 1)?;
        if self.raw.is_some() {
            return Err("fit cannot stand beside raw-fit".into());
        }
        if self.slots.iter().any(|(taken, _)| *taken == slot) {
            return Err(format!("slot {slot} is fitted twice"));
        }
        self.slots.push((slot, model));
        Ok(())
    }

    fn set_raw(&mut self, rest: &str) -> Result<(), String> {
        if self.raw.is_some() || !self.slots.is_empty() {
            return Err("raw-fit must be the only fitting of a script".into());
        }
        self.raw = Some(hexadecimal(before_comment(rest))?);
        Ok(())
    }

    /// The model at an address, if there is one.
    fn model_at(&self, address: u8) -> Option<&'static Model> {
        let number = match &self.raw {
            Some(raw) => raw.get(usize::from(address)),
            None => {
                let fitted = |(slot, _): &&(usize, u8)| *slot == usize::from(address);
                self.slots.iter().find(fitted).map(|(_, model)| model)
            }
        };
        number.and_then(|model| MODELS.get(usize::from(*model)))
    }

    fn list(self) -> Vec<u8> {
        if let Some(raw) = self.raw {
            return raw;
        }
        let mut list = vec![EMPTY; SLOTS];
        for (slot, model) in self.slots {
            list[slot] = model;
        }
        list
    }
}

fn whole<T: TryFrom<i64>>(word: &str, what: &str, least: i64, most: i64) -> Result<T, String> {
    let wrong = || format!("{what} must be a whole number from {least} to {most}, not '{word}'");
    let value: i64 = word.parse().map_err(|_| wrong())?;
    if !(least..=most).contains(&value) {
        return Err(wrong());
    }
    T::try_from(value).map_err(|_| wrong())
}

fn hexadecimal(text: &str) -> Result<Vec<u8>, String> {
    let mut bytes = Vec::new();
    for word in text.split_whitespace() {
        if word.len() % 2 != 0 || !word.bytes().all(|digit| digit.is_ascii_hexdigit()) {
            return Err(format!("'{word}' is not made of pairs of hexadecimal digits"));
        }
        let pair = |at: usize| u8::from_str_radix(&word[at..at + 2], 16);
        bytes.extend((0..word.len()).step_by(2).filter_map(|at| pair(at).ok()));
    }
    Ok(bytes)
}

/// The bytes that one line of a script stands for.
fn field_bytes(keyword: &str, rest: &str, fitting: &Fitting) -> Result<Vec<u8>, String> {
    let words: Vec<&str> = before_comment(rest).split_whitespace().collect();
    match keyword {
        "line" => {
            let mut serial = serial_text(rest)?;
            serial.push(b'\r');
            Ok(serial_fields(&serial))
        }
        "text" => match serial_text(rest)? {
            serial if serial.is_empty() => Err("text needs at least one character".into()),
            serial => Ok(serial_fields(&serial)),
        },
        "key" => key_field(&words),
        "knob" => knob_field(&words),
        "lines" => lines_field(&words),
        "sample" => sample_field(&words, fitting),
        "bytes" => match hexadecimal(before_comment(rest))? {
            bytes if bytes.is_empty() => Err("bytes needs at least one byte".into()),
            bytes => Ok(bytes),
        },
        _ => Err(format!(
            "'{keyword}' is none of fit, raw-fit, line, text, key, knob, lines, sample, bytes"
        )),
    }
}

/// Tag 1 fields of 16 bytes each, the last with what is left.
fn serial_fields(serial: &[u8]) -> Vec<u8> {
    serial.chunks(FIELD_ROOM).flat_map(|piece| field(1, piece)).collect()
}

fn field(tag: u8, payload: &[u8]) -> Vec<u8> {
    let length = (payload.len() as u16).to_be_bytes();
    [&[tag], &length[..], payload].concat()
}

fn address(word: &str) -> Result<u8, String> {
    whole(word, "address", 0, 255)
}

fn named(word: &str, names: &[&str], what: &str) -> Result<u8, String> {
    match names.iter().position(|name| name.eq_ignore_ascii_case(word)) {
        Some(at) => Ok(at as u8),
        None => Err(format!("{what} must be one of {}, not '{word}'", names.join(", "))),
    }
}

fn key_field(words: &[&str]) -> Result<Vec<u8>, String> {
    let [slot, key] = words else {
        return Err("key needs an address and a key, as in: key 6 OUTPUT".into());
    };
    Ok(field(2, &[address(slot)?, named(key, &KEYS, "key")?]))
}

fn knob_field(words: &[&str]) -> Result<Vec<u8>, String> {
    let [slot, target, step] = words else {
        return Err("knob needs an address, a target and a step, as in: knob 6 PV +100".into());
    };
    let step: i32 = whole(step, "step", i64::from(i32::MIN), i64::from(i32::MAX))?;
    let head = [address(slot)?, named(target, &TARGETS, "target")?];
    Ok(field(3, &[&head[..], &step.to_be_bytes()].concat()))
}

fn lines_field(words: &[&str]) -> Result<Vec<u8>, String> {
    let [slot, names @ ..] = words else {
        return Err("lines needs an address, as in: lines 6 SO ENA".into());
    };
    let mut byte = 0;
    if !matches!(names, [only] if only.eq_ignore_ascii_case("none")) {
        let known = LINE_NAMES.map(|(name, _)| name);
        for name in names {
            byte |= LINE_NAMES[usize::from(named(name, &known, "line")?)].1;
        }
    }
    Ok(field(4, &[address(slot)?, byte]))
}

fn sample_field(words: &[&str], fitting: &Fitting) -> Result<Vec<u8>, String> {
    let [slot, volts, amperes] = words else {
        return Err("sample needs an address and two counts, as in: sample 6 45834 0".into());
    };
    let address = address(slot)?;
    let count = |word: &str, quantity| count_of(word, quantity, address, fitting);
    let (volts, amperes) = (count(volts, &VOLTS)?, count(amperes, &AMPERES)?);
    let counts = [volts.to_be_bytes(), amperes.to_be_bytes()].concat();
    Ok(field(5, &[&[address], &counts[..]].concat()))
}

/// A count as it is, or that of a value followed by its letter.
fn count_of(
    word: &str,
    quantity: &Quantity,
    address: u8,
    fitting: &Fitting,
) -> Result<u16, String> {
    let letters = [quantity.letter, quantity.letter.to_ascii_lowercase()];
    let Some(value) = word.strip_suffix(letters) else {
        return whole(word, quantity.name, 0, i64::from(u16::MAX));
    };
    let (letter, decimals) = (quantity.letter, quantity.decimals);
    let value = units(value, decimals).ok_or_else(|| {
        format!(
            "'{word}' is no value: digits, a point and at most {decimals} decimals, then {letter}"
        )
    })?;
    let model = fitting.model_at(address);
    let rating = model.map(quantity.rating).ok_or_else(|| {
        format!("'{word}' needs a rating, and address {address} has no supply: give counts")
    })?;
    let most = Supply::reading(u16::MAX, rating);
    least_count(value, rating).ok_or_else(|| {
        let most = shown_units(most, decimals);
        format!(
            "'{word}' is more than the highest count reads at address {address}, {most} {letter}"
        )
    })
}

fn shown_units(value: i64, decimals: usize) -> String {
    let unit = 10_i64.pow(decimals as u32);
    format!("{}.{:0decimals$}", value / unit, value % unit)
}

/// The text of a `line` or `text`: plain up to the comment, or quoted.
fn serial_text(rest: &str) -> Result<Vec<u8>, String> {
    if let Some(quoted) = rest.trim_start().strip_prefix('"') {
        return quoted_text(quoted);
    }
    let text = before_comment(rest).trim();
    match text.chars().find(|sign| !matches!(sign, ' '..='~')) {
        Some(sign) => Err(format!("{sign:?} is no plain character; write \\xHH in quotes")),
        None => Ok(text.as_bytes().to_vec()),
    }
}

/// What follows the opening quote, up to the closing one; after that only a comment may come.
fn quoted_text(quoted: &str) -> Result<Vec<u8>, String> {
    let mut bytes = Vec::new();
    let mut signs = quoted.chars();
    loop {
        match signs.next() {
            None => return Err("the closing quote is missing".into()),
            Some('"') => break,
            Some('\\') => bytes.push(escaped(&mut signs)?),
            Some(sign @ ' '..='~') => bytes.push(sign as u8),
            Some(sign) => return Err(format!("{sign:?} is no plain character; write \\xHH")),
        }
    }
    match before_comment(signs.as_str()).trim() {
        "" => Ok(bytes),
        more => Err(format!("'{more}' stands after the closing quote")),
    }
}

fn escaped(signs: &mut std::str::Chars) -> Result<u8, String> {
    match signs.next() {
        Some('b') => Ok(0x08),
        Some('n') => Ok(b'\n'),
        Some('r') => Ok(b'\r'),
        Some('"') => Ok(b'"'),
        Some('\\') => Ok(b'\\'),
        Some('x') => {
            let digits: String = signs.take(2).collect();
            match hexadecimal(&digits)?[..] {
                [byte] => Ok(byte),
                _ => Err("\\x needs two hexadecimal digits".into()),
            }
        }
        _ => Err("after \\ must come b, n, r, \", \\ or xHH".into()),
    }
}

// ---- writing a script ----

/// Any bytes as a script that stands for exactly these bytes.
pub fn write(bytes: &[u8]) -> String {
    let (list, mut rest) = bytes.split_at(bytes.len().min(SLOTS));
    let mut lines = write_fitting(list);
    while let Some(first) = field_length(rest) {
        let whole_line = line_length(rest).unwrap_or(first);
        let nicer = [whole_line, first].into_iter().find_map(|used| write_exact(&rest[..used]));
        let (line, used) = nicer.unwrap_or_else(|| (write_raw(&rest[..first]), first));
        lines.push(line);
        rest = &rest[used..];
    }
    lines.extend(rest.chunks(FIELD_ROOM).map(write_raw));
    lines.iter().map(|line| format!("{line}\n")).collect()
}

/// The nicer form and how many bytes it stands for, if it leads back to exactly these bytes.
fn write_exact(bytes: &[u8]) -> Option<(String, usize)> {
    let line = write_field(bytes)?;
    let back = parse(line.as_bytes()).ok()?;
    (back.bytes()[SLOTS..] == *bytes).then_some((line, bytes.len()))
}

fn write_fitting(list: &[u8]) -> Vec<String> {
    if Rack::fit(list).is_err() {
        return vec![hex_words("raw-fit", list)];
    }
    let fitted = list.iter().enumerate().filter(|(_, model)| **model != EMPTY);
    fitted.map(|(slot, model)| format!("fit {slot} {model}")).collect()
}

fn hex_words(keyword: &str, bytes: &[u8]) -> String {
    let mut text = keyword.to_string();
    for byte in bytes {
        text.push_str(&format!(" {byte:02X}"));
    }
    text
}

fn write_raw(bytes: &[u8]) -> String {
    hex_words("bytes", bytes)
}

/// How many bytes the first field takes, header included; none if it is incomplete.
pub fn field_length(bytes: &[u8]) -> Option<usize> {
    let [tag, high, low, rest @ ..] = bytes else { return None };
    let length = usize::from(u16::from_be_bytes([*high, *low]));
    (length_allowed(*tag, length) && rest.len() >= length).then_some(3 + length)
}

/// How many bytes a run of full tag 1 fields takes up to the first that ends in CR; none if a
/// `line` would not split the fields in just this way.
fn line_length(bytes: &[u8]) -> Option<usize> {
    let mut at = 0;
    loop {
        let used = field_length(&bytes[at..]).filter(|_| bytes[at] == 1)?;
        let payload = &bytes[at + 3..at + used];
        at += used;
        match payload.iter().position(|byte| *byte == b'\r') {
            Some(end) if end + 1 == payload.len() => return Some(at),
            None if payload.len() == FIELD_ROOM => {}
            _ => return None,
        }
    }
}

/// The nicest form for one field, or for the fields of one line.
fn write_field(bytes: &[u8]) -> Option<String> {
    let payload = &bytes[3..];
    Some(match (bytes[0], payload) {
        (1, _) => return write_serial(bytes),
        (2, [slot, key @ 0..=2]) => format!("key {slot} {}", KEYS[usize::from(*key)]),
        (3, [slot, target @ 0..=3, a, b, c, d]) => {
            let step = i32::from_be_bytes([*a, *b, *c, *d]);
            format!("knob {slot} {} {step:+}", TARGETS[usize::from(*target)])
        }
        (4, [slot, lines]) => format!("lines {slot} {}", line_names(*lines)),
        (5, [slot, a, b, c, d]) => {
            let (volts, amperes) = (u16::from_be_bytes([*a, *b]), u16::from_be_bytes([*c, *d]));
            format!("sample {slot} {volts} {amperes}")
        }
        _ => return None,
    })
}

/// The names of the bits set; bits without a name are missing, which the caller notices.
fn line_names(lines: u8) -> String {
    let set = LINE_NAMES.iter().filter(|(_, bit)| lines & bit != 0);
    let names: Vec<&str> = set.map(|(name, _)| *name).collect();
    if names.is_empty() {
        "none".to_string()
    } else {
        names.join(" ")
    }
}

fn write_serial(fields: &[u8]) -> Option<String> {
    let mut serial = Vec::new();
    let mut rest = fields;
    while let Some(used) = field_length(rest) {
        serial.extend(&rest[3..used]);
        rest = &rest[used..];
    }
    if !serial.iter().all(|byte| matches!(byte, b' '..=b'~' | 0x08 | b'\n' | b'\r')) {
        return None;
    }
    let text = match serial.split_last() {
        Some((b'\r', before)) => format!("line {}", write_text(before)),
        _ => format!("text {}", write_text(&serial)),
    };
    Some(text.trim_end().to_string())
}

/// Plain if that says everything, otherwise in quotes.
fn write_text(serial: &[u8]) -> String {
    let text = String::from_utf8_lossy(serial).into_owned();
    let plain = serial.iter().all(|byte| matches!(byte, b' '..=b'~') && *byte != b'#')
        && text.trim() == text
        && !text.starts_with('"');
    if plain {
        return text;
    }
    let mut quoted = String::from("\"");
    for sign in text.chars() {
        match sign {
            '\u{8}' => quoted.push_str("\\b"),
            '\n' => quoted.push_str("\\n"),
            '\r' => quoted.push_str("\\r"),
            '"' | '\\' => quoted.extend(['\\', sign]),
            _ => quoted.push(sign),
        }
    }
    quoted + "\""
}
