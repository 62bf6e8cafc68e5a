//! Makes inputs for the program from a seed: lists that mostly make sense, with values at, just
//! inside and just outside every limit as it is in the reference model at that moment.

use crate::line::{checksum, MOST_CHARACTERS};
use crate::rack::{Rack, EMPTY, LEAST_ROOM, SLOTS};
use crate::share::Call;
use crate::supply::{amperes_text, volts_text, Supply, Target};
use crate::supply::{AC, ENA, LINE_BITS, MODELS, OTP, SO};

/// A small repeatable source of numbers (splitmix64).
pub struct Draw(u64);

impl Draw {
    pub fn new(seed: u64) -> Draw {
        Draw(seed)
    }

    /// The next 64 bits.
    pub fn any(&mut self) -> u64 {
        self.0 = self.0.wrapping_add(0x9E37_79B9_7F4A_7C15);
        let mixed = (self.0 ^ (self.0 >> 30)).wrapping_mul(0xBF58_476D_1CE4_E5B9);
        let mixed = (mixed ^ (mixed >> 27)).wrapping_mul(0x94D0_49BB_1331_11EB);
        mixed ^ (mixed >> 31)
    }

    /// A number below this one.
    pub fn below(&mut self, bound: u64) -> u64 {
        self.any() % bound.max(1)
    }

    pub fn between(&mut self, least: i64, most: i64) -> i64 {
        least + self.below((most - least + 1) as u64) as i64
    }

    pub fn percent(&mut self, chance: u64) -> bool {
        self.below(100) < chance
    }

    pub fn pick<T: Clone>(&mut self, choices: &[T]) -> T {
        choices[self.below(choices.len() as u64) as usize].clone()
    }

    pub fn bytes(&mut self, count: usize) -> Vec<u8> {
        (0..count).map(|_| self.any() as u8).collect()
    }
}

/// A program's input in parts: first the fitting list, then one part for each field.
#[derive(Clone, Debug, PartialEq, Eq)]
pub struct Input {
    pub parts: Vec<Vec<u8>>,
}

impl Input {
    pub fn bytes(&self) -> Vec<u8> {
        self.parts.concat()
    }

    /// The fields as calls of a library user, some with a small buffer or with more bytes lent.
    pub fn calls(&self, draw: &mut Draw) -> Vec<Call> {
        let mut calls = Vec::new();
        for part in &self.parts[1..] {
            let mut call = Call { bytes: part.clone(), room: LEAST_ROOM };
            match draw.below(40) {
                0 => call.room = draw.below(LEAST_ROOM as u64) as usize,
                1 => call.room += draw.below(1000) as usize,
                2 => call.bytes.extend(draw.bytes(7)),
                3 => call.bytes.truncate(draw.below(20) as usize),
                4 => call.bytes.iter_mut().take(1).for_each(|tag| *tag = draw.below(8) as u8),
                5 => call.bytes.push(b'\r'),
                _ => {}
            }
            calls.push(call);
        }
        calls
    }
}

/// Every query, in the order in which a final check asks them.
const QUERIES: [&str; 18] = [
    "PV?", "PC?", "OVP?", "UVL?", "MV?", "MC?", "OUT?", "FLD?", "AST?", "RMT?", "MODE?", "FLT?",
    "STT?", "STAT?", "FENA?", "FEVE?", "SENA?", "SEVE?",
];

/// Order words, the more important ones more than once.
const ORDERS: [&str; 24] = [
    "PV", "PV", "PV", "PC", "PC", "OVP", "OVP", "OVP", "UVL", "UVL", "OVM", "OUT", "OUT", "OUT",
    "FLD", "FLD", "AST", "RMT", "RMT", "FENA", "SENA", "SENA", "CLS", "RST",
];

/// Lines with something wrong or unusual about them.
#[rustfmt::skip]
const ODD_LINES: [&str; 96] = [
    "", " ", "PV", "PV ", "PV  5", "PV 5 ", "PV x", " PV 5", "PV? ", "PV? 1", "PV?1", "PV .",
    "PV ..", "PV 1.2.3", "PV .5", "PV 5.", "PV +1", "PV -1", "PV 1e1", "PV 0000000000001",
    "PV 000000000001", "PV 999999999999", "PV 99999999999.", "PV .00009999999", "PV\t5", "PC",
    "PC x", "PC 1,5", "OVP", "OVP x", "UVL", "UVL x", "OVM 1", "OVM ", "OUT", "OUT 2", "OUT 01",
    "OUT ON", "OUT 1 ", "FLD 2", "FLD", "AST 9", "AST", "RMT 3", "RMT", "RMT LOC", "RMT 02",
    "FENA", "FENA 1", "FENA 1G", "FENA 123", "FENA ff", "CLS 0", "CLS ", "RST 1", "RST ", "IDN?",
    "SENA", "SENA ", "SENA 1", "SENA 1G", "SENA 123", "SENA f7", "SENA? 1", "SEVE? 0", "STT? 1",
    "STAT", "STT", "SEVE", "SAV", "GSAV", "GRCL", "ADR?", "OUTP 1", "PVX 5", "$00", "$", "$$$", "$24", "PV 5$1",
    "PV?$E5$EF", "MODE", "MV 1", "PV?$E5$83", "PV .00005", "PV 0.00015", "PV .00025",
    "PV .00004999999", "PV .00005000001", "PV .000050000000", "PV 999999.99995", "PC .0005",
    "PC 0.0015", "PC .0025", "PC .00149999999", "PC .00150000001",
];

/// Lines to an address or to everyone with something wrong or unusual about them.
#[rustfmt::skip]
const ODD_CALLS: [&str; 29] = [
    "ADR", "ADR ", "ADR x", "ADR 006", "ADR 5.", "ADR 31", "ADR 99", "ADR 30", "ADR 00", "ADR  6",
    "ADR 6 ", "ADR -1", "GPV", "GPV x", "GPV 1.2.3", "GPC", "GPC ", "GOUT", "GOUT 2", "GOUT ON",
    "GRST 1", "GRST ", "GPV 999999999999", "GPVX 5", "GSENA 8F", "GPV .00005", "GPV 0.00015",
    "GPC .0005", "GPC 0.0015",
];

/// Orders that let something rise in FLT or STAT, each behind the one that makes it ready.
const RAISING: [(&str, &str); 6] = [
    ("RMT 1", "RMT 0"),
    ("RMT 2", "RMT 0"),
    ("OUT 1", "OUT 0"),
    ("OUT 0", "OUT 1"),
    ("PC 1", "PC 0"),
    ("PC 0", "PC 1"),
];

/// Bits of STAT that are enabled for certain, beside any others.
const ENABLED: [u8; 4] = [0, 0x80, 0x8F, 0x8F];

/// Serial fields that raise and clear the event registers, in either order.
#[rustfmt::skip]
const RAISED_AND_CLEARED: [&str; 14] = [
    "RMT 1\rRMT 0\rCLS\r", "RMT 0\rSEVE?\r", "OUT 1\rOUT 0\rCLS\r", "OUT 0\rFEVE?\r",
    "SEVE?\rRMT 0\r", "FEVE?\rOUT 0\r", "RMT 0\rRST\r", "OUT 0\rGRST\r", "CLS\rRMT 0\r",
    "FEVE?\rSEVE?\r", "OUT 1\rOUT 0\r", "RMT 1\rRMT 0\r", "CLS\rRMT 1\rRMT 0\r",
    "PC 0\rPC 1\rSEVE?\r",
];

/// Lines that do not turn an output off, if foldback has not tripped.
#[rustfmt::skip]
const LEFT_ON: [&str; 14] = [
    "OUT 1\r", "OUT 1\r", "FLD 0\r", "FLD 0\rFLD 1\r", "FLD 1\r", "GOUT 1\r", "RMT 0\r", "RMT 2\r",
    "\r", "PV 999\r", "MODE?\r", "STT?\r", "FLT?\rFLD?\r", "CLS\r",
];

/// Globals that let something rise in many supplies at once, or clear it.
const GLOBALS: [&str; 7] = ["GPC 0", "GPC 1", "GPC 1", "GOUT 0", "GOUT 1", "GOUT 1", "GRST"];

struct Maker {
    draw: Draw,
    rack: Rack,
    fitted: Vec<usize>,
    parts: Vec<Vec<u8>>,
    /// Serial bytes that are ready to be sent.
    waiting: Vec<u8>,
}

/// The input that belongs to this seed.
pub fn generate(seed: u64) -> Input {
    let mut draw = Draw::new(seed);
    let list = fitting_list(&mut draw);
    let bad = draw.percent(3);
    let mut maker = Maker {
        fitted: (0..SLOTS).filter(|slot| list[*slot] != EMPTY).collect(),
        rack: Rack::fit(&list).expect("the list was made well-formed"),
        parts: vec![list],
        waiting: Vec::new(),
        draw,
    };
    maker.fill();
    if maker.draw.percent(25) {
        maker.spoil_input();
    }
    if bad {
        maker.spoil_fitting();
    }
    Input { parts: maker.parts }
}

/// A setting with all its decimals.
fn text_of(target: Target, value: i64) -> String {
    match target {
        Target::Pc => amperes_text(value),
        _ => volts_text(value),
    }
}

/// Mostly a few slots, sometimes all or none.
fn fitting_list(draw: &mut Draw) -> Vec<u8> {
    let mut list = vec![EMPTY; SLOTS];
    let count = match draw.below(20) {
        0 => 0,
        1 => SLOTS as u64,
        2..=8 => 1,
        9..=14 => 2,
        _ => 3 + draw.below(4),
    };
    for number in 0..count as usize {
        let full = count as usize == SLOTS;
        let slot = if full { number } else { draw.below(SLOTS as u64) as usize };
        list[slot] = draw.below(MODELS.len() as u64) as u8;
    }
    list
}

impl Maker {
    /// Steps until the wanted number of fields is there, then a check of the settings.
    fn fill(&mut self) {
        let wanted = match self.draw.below(10) {
            0 => 1 + self.draw.below(4),
            1 => 100 + self.draw.below(85),
            _ => 8 + self.draw.below(60),
        } as usize;
        if let Some(slot) = self.any_fitted().filter(|_| self.draw.percent(92)) {
            self.say(&format!("ADR {slot}"));
            self.flush();
            if self.draw.percent(70) {
                self.set_up(slot);
            }
        }
        if self.fitted.len() == SLOTS && self.draw.percent(60) {
            self.all_slots_by_a_global();
        }
        while self.parts.len() <= wanted {
            self.step();
        }
        if wanted > 4 && self.draw.percent(80) {
            self.closing_look();
        }
        self.flush();
        self.parts.truncate(201);
    }

    /// Settings well inside the ranges and the output on, so that limits can be reached from both
    /// sides.
    fn set_up(&mut self, slot: usize) {
        let model = self.supply(slot).limits();
        let tenths = |draw: &mut Draw, most: i64| most * draw.between(2, 10) / 10;
        let volts = tenths(&mut self.draw, model.rated_volts);
        let amperes = tenths(&mut self.draw, model.rated_amperes);
        self.say(&format!("PV {}", volts_text(volts)));
        self.say(&format!("PC {}", amperes_text(amperes)));
        self.flush();
        for order in ["OVP", "UVL", "FLD 1", "FENA FE", "SENA 8F", "AST 1", "OUT 1", "RMT 0"] {
            if self.draw.percent(50) {
                match order {
                    "OVP" => self.say_number("OVP", Target::Ovp),
                    "UVL" => self.say_number("UVL", Target::Uvl),
                    _ => self.say(order),
                }
                self.flush();
            }
        }
    }

    fn say_number(&mut self, word: &str, target: Target) {
        let number = self.number(target);
        self.say(&format!("{word} {number}"));
    }

    fn any_fitted(&mut self) -> Option<usize> {
        let fitted = self.fitted.clone();
        (!fitted.is_empty()).then(|| self.draw.pick(&fitted))
    }

    /// The slot that most steps are about: the selected one, otherwise any.
    fn focus(&mut self) -> Option<usize> {
        match self.rack.selected {
            Some(slot) if self.draw.percent(85) => Some(slot),
            _ => self.any_fitted(),
        }
    }

    fn supply(&self, slot: usize) -> &Supply {
        self.rack.slots[slot].as_ref().expect("a fitted slot")
    }

    /// Adds a field and lets the reference take it, so that later values fit its state.
    fn push(&mut self, tag: u8, payload: &[u8]) {
        let length = (payload.len() as u16).to_be_bytes();
        let field = [&[tag], &length[..], payload].concat();
        // A refused field stays in the list on purpose; the model is then simply as before.
        let _ = self.rack.call(&field, LEAST_ROOM);
        self.parts.push(field);
    }

    fn step(&mut self) {
        match self.draw.below(100) {
            0..=57 => {
                self.speak();
                if self.draw.percent(75) {
                    self.flush();
                }
            }
            58..=60 => self.trip_and_release(),
            61..=62 => self.lines_come_and_go(),
            63..=65 => self.turn_on(),
            66..=69 => self.call_for_service(),
            70..=72 => self.charge_a_cell(),
            _ => self.event(),
        }
    }

    // ---- serial lines ----

    /// Puts a line and its CR in the queue, in one of many variations.
    fn say(&mut self, text: &str) {
        let mut line = text.as_bytes().to_vec();
        match self.draw.below(10) {
            0 => line.make_ascii_lowercase(),
            1 => self.mix_case(&mut line),
            _ => {}
        }
        self.add_checksum(&mut line);
        self.add_noise(&mut line);
        line.push(b'\r');
        self.waiting.extend(line);
    }

    fn mix_case(&mut self, line: &mut [u8]) {
        for byte in line.iter_mut() {
            if self.draw.percent(50) {
                byte.make_ascii_lowercase();
            }
        }
    }

    fn add_checksum(&mut self, line: &mut Vec<u8>) {
        let right = checksum(line);
        let text = match self.draw.below(30) {
            0..=2 => format!("${right:02X}"),
            3 => format!("${right:02x}"),
            4 => format!("${:02X}", right.wrapping_add(1 + self.draw.below(255) as u8)),
            5 if self.draw.percent(30) => self.draw.pick(&["$0", "$", "$G0", "$ 1", "$-1"]).into(),
            _ => return,
        };
        line.extend(text.bytes());
    }

    /// Line feeds and characters taken back change nothing; the rest may.
    fn add_noise(&mut self, line: &mut Vec<u8>) {
        let at = self.draw.below(line.len() as u64 + 1) as usize;
        match self.draw.below(100) {
            0..=2 => line.insert(at, b'\n'),
            3..=5 => {
                let wrong = self.draw.pick(b"XV5. $\xC3");
                line.splice(at..at, [wrong, 0x08]);
            }
            6 => line.insert(at, 0x08),
            7 if at < line.len() => line[at] = self.draw.any() as u8,
            8 if at < line.len() => drop(line.remove(at)),
            9 => line.insert(at, self.draw.pick(b" 0159.$?AG\x00\x7F\x80")),
            10 => self.lengthen(line),
            _ => {}
        }
    }

    /// About as long as a line may be: 63 to 67 characters, with padding before or after.
    fn lengthen(&mut self, line: &mut Vec<u8>) {
        let wanted = 63 + self.draw.below(5) as usize;
        let extra = wanted.saturating_sub(line.len());
        match self.draw.below(6) {
            0 => line.extend(vec![b'X'; extra]),
            1 => drop(line.splice(0..0, vec![b'Z'; extra])),
            2 => drop(line.splice(0..0, [vec![b'Z'; wanted], vec![0x08; wanted]].concat())),
            3 => line.extend([vec![b'X'; extra], vec![b'\n'; 2]].concat()),
            4 => line.extend([vec![b'\n'; extra], vec![b'\n', 0x08]].concat()),
            _ => {
                let over = 1 + self.draw.below(4) as usize;
                line.extend([vec![b'Q'; extra], vec![0x08; over]].concat());
            }
        }
    }

    /// Sends what waits: in full fields, in pieces of any size, or only in part.
    fn flush(&mut self) {
        let style = self.draw.below(10);
        while !self.waiting.is_empty() {
            let most = self.waiting.len().min(16);
            let size = if style < 6 { most } else { 1 + self.draw.below(most as u64) as usize };
            let piece: Vec<u8> = self.waiting.drain(..size).collect();
            self.push(1, &piece);
            if style == 9 && self.draw.percent(30) {
                self.event();
            }
        }
    }

    fn speak(&mut self) {
        let text = match self.draw.below(100) {
            0..=33 => self.draw.pick(&QUERIES).to_string(),
            34..=79 => self.order_text(),
            80..=85 => self.global_text(),
            86..=91 => self.address_text(),
            92..=96 => self.draw.pick(&ODD_LINES).to_string(),
            97..=98 => self.draw.pick(&ODD_CALLS).to_string(),
            _ => {
                let count = self.draw.below(20) as usize;
                let rubbish = self.draw.bytes(count);
                self.waiting.extend(rubbish);
                String::new()
            }
        };
        self.say(&text);
    }

    fn address_text(&mut self) -> String {
        let any = self.draw.below(34) as usize;
        let slot = self.any_fitted().filter(|_| self.draw.percent(85)).unwrap_or(any);
        if self.draw.percent(20) {
            format!("ADR {slot:02}")
        } else {
            format!("ADR {slot}")
        }
    }

    fn global_text(&mut self) -> String {
        match self.draw.below(12) {
            0..=4 => format!("GPV {}", self.number(Target::Pv)),
            5..=6 => format!("GPC {}", self.number(Target::Pc)),
            7..=9 => "GOUT 1".to_string(),
            10 => "GOUT 0".to_string(),
            _ => "GRST".to_string(),
        }
    }

    fn order_text(&mut self) -> String {
        let word = self.draw.pick(&ORDERS);
        match word {
            "PV" => format!("PV {}", self.number(Target::Pv)),
            "PC" => format!("PC {}", self.number(Target::Pc)),
            "OVP" => format!("OVP {}", self.number(Target::Ovp)),
            "UVL" => format!("UVL {}", self.number(Target::Uvl)),
            "OUT" => format!("OUT {}", self.draw.pick(&[1, 1, 1, 0])),
            "FLD" | "AST" => format!("{word} {}", self.draw.pick(&[1, 1, 0])),
            "RMT" => format!("RMT {}", self.draw.pick(&[0, 0, 0, 1, 2])),
            "FENA" => {
                format!("FENA {:02X}", self.draw.any() as u8 | self.draw.pick(&[0, 0x58, 0xFE]))
            }
            "SENA" => {
                format!("SENA {:02X}", self.draw.any() as u8 | self.draw.pick(&[0, 0x83, 0x8F]))
            }
            "RST" if self.draw.percent(60) => "CLS".to_string(),
            _ => word.to_string(),
        }
    }

    // ---- values ----

    /// A value at or near a limit that applies at the moment, or anywhere within the rating.
    fn value(&mut self, target: Target) -> i64 {
        let Some(slot) = self.focus() else {
            return self.draw.between(0, 50_000);
        };
        let supply = self.supply(slot).clone();
        let model = supply.limits();
        let (least, most) = supply.range(target);
        let edges = match target {
            Target::Pv => vec![least, most, model.pv_most(), supply.pv, 0, model.rated_volts],
            Target::Pc => vec![least, most, supply.pc, supply.ampere_reading(), 0],
            Target::Ovp => {
                vec![least, most, model.ovp_least, supply.ovp, least, supply.volt_reading()]
            }
            Target::Uvl => vec![least, most, model.uvl_most, supply.uvl, most, 0],
        };
        let rated = match target {
            Target::Pc => model.rated_amperes,
            _ => model.rated_volts,
        };
        match self.draw.below(10) {
            0..=5 => (self.draw.pick(&edges) + self.draw.between(-1, 1)).max(0),
            6..=8 => self.draw.between(least, most),
            _ => self.draw.between(0, rated * 6 / 5),
        }
    }

    /// Such a value as text, written in one of the ways in which a number may be written.
    fn number(&mut self, target: Target) -> String {
        let value = self.value(target);
        let full = text_of(target, value);
        let short = full.trim_end_matches('0').to_string();
        match self.draw.below(16) {
            0..=3 => full,
            4..=6 => short.trim_end_matches('.').to_string(),
            7 => short.strip_prefix('0').filter(|text| text.len() > 1).unwrap_or(&full).to_string(),
            8..=14 => self.between_units(target, value),
            // Leading zeros, to the greatest length that a number may have or one more.
            _ => format!("{full:0>width$}", width = self.draw.pick(&[1 + full.len(), 12, 13])),
        }
    }

    /// A number between a value and the next, or between the last that is allowed at the moment and
    /// the first that is not. It has up to the greatest length that a number may have, rarely more.
    fn between_units(&mut self, target: Target, value: i64) -> String {
        let edge = match self.focus() {
            Some(slot) if self.draw.percent(50) => {
                let (least, most) = self.supply(slot).range(target);
                self.draw.pick(&[least - 1, most]).max(0)
            }
            _ => value,
        };
        let full = text_of(target, edge);
        let room = MOST_CHARACTERS - full.len();
        let most = if self.draw.percent(15) { room + 1 } else { room };
        let count = self.draw.between(1, most as i64) as usize;
        let text = format!("{full}{}", self.further_digits(count));
        match text.strip_prefix('0').filter(|_| self.draw.percent(30)) {
            Some(bare) => bare.to_string(),
            None => text,
        }
    }

    /// So many digits below a tick or mA: a tie, as near to one as they can come, all nines, or any.
    fn further_digits(&mut self, count: usize) -> String {
        let tie = 5 * 10_u64.pow(count as u32 - 1);
        let digits = match self.draw.below(10) {
            0..=3 => tie,
            4..=5 => tie - 1,
            6..=7 => tie + 1,
            8 => 2 * tie - 1,
            _ => self.draw.below(2 * tie),
        };
        format!("{digits:0count$}")
    }

    // ---- events ----

    fn event(&mut self) {
        let Some(slot) = self.focus() else {
            self.speak();
            return;
        };
        match self.draw.below(20) {
            0..=3 => self.press(slot),
            4..=8 => self.turn(slot),
            9..=12 => self.set_lines(slot),
            _ => self.sample(slot),
        }
    }

    fn press(&mut self, slot: usize) {
        let key = self.draw.pick(&[0, 0, 0, 1, 1, 2]);
        self.push(2, &[slot as u8, key]);
    }

    fn turn(&mut self, slot: usize) {
        let target = self.draw.below(4) as u8;
        let name = [Target::Pv, Target::Pc, Target::Ovp, Target::Uvl][usize::from(target)];
        let mut supply = self.supply(slot).clone();
        let (least, most) = supply.range(name);
        let now = *supply.setting(name);
        let step = match self.draw.below(8) {
            0 => self.draw.pick(&[i32::MIN, i32::MAX, 0, 1, -1, 6_000_000, -6_000_000]),
            1..=2 => (most - now + self.draw.between(-1, 1)) as i32,
            3..=4 => (least - now + self.draw.between(-1, 1)) as i32,
            5 => self.draw.any() as i32,
            _ => (self.draw.between(least, most) - now) as i32,
        };
        self.push(3, &[&[slot as u8, target], &step.to_be_bytes()[..]].concat());
    }

    fn set_lines(&mut self, slot: usize) {
        let now = self.supply(slot).lines;
        let lines = match self.draw.below(10) {
            0..=3 if now != 0 => 0,
            4..=5 if now != 0 => now & self.draw.any() as u8,
            0..=6 => now ^ self.draw.pick(&[AC, OTP, SO, SO, ENA]),
            7 => now,
            _ => self.draw.any() as u8 & LINE_BITS,
        };
        self.push(4, &[slot as u8, lines]);
    }

    /// Counts around the first that reads as OVP or PC, or any.
    fn sample(&mut self, slot: usize) {
        let supply = self.supply(slot).clone();
        let model = supply.limits();
        let volts = self.count(supply.ovp, model.rated_volts, 20);
        let amperes = self.count(supply.pc, model.rated_amperes, 40);
        self.push_sample(slot, volts, amperes);
    }

    fn push_sample(&mut self, slot: usize, volts: u16, amperes: u16) {
        let counts = [volts.to_be_bytes(), amperes.to_be_bytes()].concat();
        self.push(5, &[&[slot as u8], &counts[..]].concat());
    }

    fn count(&mut self, limit: i64, rated: i64, near: u64) -> u16 {
        let first = (limit * 50_000 + rated - 1) / rated;
        let count = match self.draw.below(100) {
            roll if roll < near => first + self.draw.between(-1, 1),
            roll if roll < 80 => self.draw.between(0, first.max(1) - 1),
            80..=89 => self.draw.pick(&[0, 1, 50_000, 65_535]),
            _ => self.draw.between(0, 65_535),
        };
        count.clamp(0, 65_535) as u16
    }

    /// Clears what keeps the output off, by the one order that does so.
    fn turn_on(&mut self) {
        let Some(slot) = self.focus().filter(|slot| !self.supply(*slot).output_on()) else {
            return self.event();
        };
        if self.supply(slot).lines != 0 {
            self.push(4, &[slot as u8, 0]);
        }
        self.say(if self.rack.selected == Some(slot) { "OUT 1" } else { "GOUT 1" });
        self.flush();
    }

    /// A short bench story: on, tripped, a few actions, and one way out of it.
    fn trip_and_release(&mut self) {
        let Some(slot) = self.focus() else { return };
        self.flush();
        self.push(4, &[slot as u8, 0]);
        self.say(&format!("ADR {slot}"));
        self.say("OUT 1");
        let habit = self.draw.pick(&["FLD 1", "AST 1", "FENA FF", "SENA FF", "RMT 2", "CLS"]);
        self.say(habit);
        self.flush();
        if self.draw.percent(80) {
            self.push_sample(slot, 0, 0);
        }
        let over = self.draw.percent(50);
        let (volts, amperes) = if over { (65_535, 0) } else { (0, 65_535) };
        self.push_sample(slot, volts, amperes);
        let meanwhile = self.draw.pick(&["FLT?", "OUT?", "OUT 0", "FLD?", "MODE?", "RMT 0"]);
        self.say(meanwhile);
        self.flush();
        self.release(slot);
        self.say("FLT?");
        self.flush();
    }

    /// A cell that charges: on in current limit, below it, and up to it again, with what leaves the
    /// CV memory and what takes it away.
    fn charge_a_cell(&mut self) {
        let Some(slot) = self.focus() else { return };
        self.flush();
        if !self.rack.kept.is_empty() {
            self.send("\r");
        }
        self.push(4, &[slot as u8, 0]);
        self.send(&format!("ADR {slot}\r"));
        self.arm(slot);
        for _ in 0..1 + self.draw.below(3) {
            self.charge(slot);
            self.off_and_on(slot);
            self.arm(slot);
            for _ in 0..1 + self.draw.below(2) {
                self.sample_beside_pc(slot, true);
            }
        }
        self.charge(slot);
    }

    /// On, with a PC that currents can be below; mostly with foldback armed.
    fn arm(&mut self, slot: usize) {
        let supply = self.supply(slot);
        let (most, low, on) = (supply.limits().pc_most(), supply.pc == 0, supply.output_on());
        if low && self.draw.percent(90) {
            let amperes = self.draw.between(1, most);
            self.send(&format!("PC {}\r", amperes_text(amperes)));
        }
        if self.draw.percent(80) {
            self.send("FLD 1\r");
        }
        if !on {
            self.send("OUT 1\r");
        }
    }

    /// In current limit for a while, mostly below it next, and often up to it again. Sometimes
    /// foldback is armed only in between.
    fn charge(&mut self, slot: usize) {
        let armed_later = self.draw.percent(25);
        if armed_later {
            self.send("FLD 0\r");
        }
        for _ in 0..self.draw.below(3) {
            self.sample_beside_pc(slot, true);
        }
        if self.draw.percent(85) {
            self.sample_beside_pc(slot, false);
        }
        for _ in 0..self.draw.below(4) {
            self.leave_on(slot);
        }
        if armed_later {
            self.send("FLD 1\r");
        }
        if self.draw.percent(40) {
            self.sample_beside_pc(slot, true);
        }
    }

    /// A sample that reads PC or more, or less; mostly next to it.
    fn sample_beside_pc(&mut self, slot: usize, reaches: bool) {
        let supply = self.supply(slot);
        let model = supply.limits();
        let first = |value: i64, rated: i64| (value * 50_000 + rated - 1) / rated;
        let (over, limit) =
            (first(supply.ovp, model.rated_volts), first(supply.pc, model.rated_amperes));
        let near = self.draw.percent(60);
        let amperes = match (reaches, near) {
            (true, true) => limit,
            (true, false) => self.draw.between(limit, 65_535),
            (false, true) => limit - 1,
            (false, false) => self.draw.between(0, limit - 1),
        };
        let volts = self.draw.between(0, over - 1);
        self.push_sample(slot, volts as u16, amperes.max(0) as u16);
    }

    /// Something that does not turn an output off.
    fn leave_on(&mut self, slot: usize) {
        let slot_byte = slot as u8;
        let line = self.draw.pick(&LEFT_ON);
        let reading = self.supply(slot).ampere_reading() + self.draw.between(-1, 1);
        match self.draw.below(8) {
            0 => {
                let word = self.draw.pick(&["PC", "PC", "GPC"]);
                self.send(&format!("{word} {}\r", amperes_text(reading.max(0))));
            }
            1 => self.push(4, &[slot_byte, 0]),
            2 => {
                let key = self.draw.pick(&[1, 2]);
                self.push(2, &[slot_byte, key]);
            }
            3 => {
                let step = self.draw.between(-2, 2) as i32;
                self.send("RMT 0\r");
                self.push(3, &[&[slot_byte, 1], &step.to_be_bytes()[..]].concat());
            }
            _ => self.send(line),
        }
    }

    /// Off in any of the ways in which an output goes off, and mostly on again.
    fn off_and_on(&mut self, slot: usize) {
        let slot_byte = slot as u8;
        match self.draw.below(11) {
            0 => self.send("OUT 0\rOUT 1\r"),
            1 => self.send("GOUT 0\rGOUT 1\r"),
            2 => self.send("RST\r"),
            3 => self.send("GRST\rGOUT 1\r"),
            4..=5 => {
                self.send("RMT 0\r");
                self.push(2, &[slot_byte, 0]);
                self.push(2, &[slot_byte, 0]);
            }
            6..=7 => {
                let (ast, lines) = (self.draw.below(2), self.draw.pick(&[AC, OTP, SO, ENA]));
                self.send(&format!("AST {ast}\r"));
                self.push(4, &[slot_byte, lines]);
                self.sample_beside_pc(slot, false);
                self.push(4, &[slot_byte, 0]);
            }
            8 => {
                let amperes = self.draw.pick(&[0, 65_535]);
                self.push_sample(slot, 65_535, amperes);
                self.release(slot);
                self.flush();
            }
            _ => {
                self.sample_beside_pc(slot, true);
                self.release(slot);
                self.flush();
            }
        }
    }

    /// Lines that rise and fall while the output is ordered on, with AST changing meanwhile.
    fn lines_come_and_go(&mut self) {
        let Some(slot) = self.focus() else { return };
        self.push(4, &[slot as u8, 0]);
        for text in [format!("ADR {slot}"), "AST 1".into(), "OUT 1".into()] {
            self.say(&text);
        }
        self.flush();
        for _ in 0..1 + self.draw.below(4) {
            self.set_lines(slot);
            let meanwhile = self.draw.pick(&["AST 0", "AST 0", "AST 1", "RMT 2", "FLT?", "FEVE?"]);
            self.say(meanwhile);
            self.flush();
        }
        self.say("FLT?");
        self.flush();
    }

    /// Registers enabled, and what makes supplies send messages: two after one field, all of them
    /// by a global, and none where a field clears what it raises.
    fn call_for_service(&mut self) {
        let Some(slot) = self.focus() else { return };
        self.flush();
        match self.draw.below(6) {
            0..=1 => self.two_slots_in_a_field(slot),
            2 => self.all_slots_by_a_global(),
            3 => self.flip_by_events(slot),
            _ => self.raise_and_clear(slot),
        }
    }

    /// Serial text as it is, in full fields.
    fn send(&mut self, text: &str) {
        text.as_bytes().chunks(16).for_each(|piece| self.push(1, piece));
    }

    /// Selects a slot and enables what its registers may gain, these bits of STAT among it.
    fn enable(&mut self, slot: usize, least: u8) {
        let sena = self.draw.any() as u8 | least;
        self.send(&format!("ADR {slot}\rSENA {sena:02x}\r"));
        if self.draw.percent(60) {
            let fena = self.draw.pick(&["40", "FF", "fe"]);
            self.send(&format!("FENA {fena}\r"));
        }
    }

    /// A line kept from before ends for one slot, and in the same field another slot is selected,
    /// mostly with an order of its own.
    fn two_slots_in_a_field(&mut self, first: usize) {
        let others: Vec<usize> =
            self.fitted.iter().copied().filter(|slot| *slot != first).collect();
        let second = if others.is_empty() { first } else { self.draw.pick(&others) };
        let [other, one] = [second, first].map(|slot| {
            let (ready, raising) = self.draw.pick(&RAISING);
            let least = self.draw.pick(&ENABLED);
            self.enable(slot, least);
            self.send(&format!("{ready}\rCLS\r"));
            raising
        });
        self.send(one);
        if self.draw.percent(80) {
            self.send(&format!("\rADR {second}\r{other}\r"));
        } else {
            self.send(&format!("\rADR {second}\r"));
        }
    }

    fn all_slots_by_a_global(&mut self) {
        let least = self.draw.pick(&ENABLED);
        for slot in self.fitted.clone() {
            self.enable(slot, least);
        }
        if self.draw.percent(70) {
            self.send("GRST\rGOUT 1\r");
        }
        for _ in 0..2 + self.draw.below(4) {
            let global = self.draw.pick(&GLOBALS);
            let more = self.draw.pick(&["", "", "STT?\r", "SEVE?\r", "FEVE?\r"]);
            self.send(&format!("{global}\r{more}"));
        }
    }

    /// A live output in local mode, which knob, samples, keys and lines bring from CV to CC and back.
    fn flip_by_events(&mut self, slot: usize) {
        self.enable(slot, 0x0F);
        self.push(4, &[slot as u8, 0]);
        self.send("OUT 1\rRMT 0\r");
        for _ in 0..3 + self.draw.below(5) {
            let supply = self.supply(slot).clone();
            let reading = supply.ampere_reading();
            match self.draw.below(6) {
                0..=2 => {
                    let step = (reading + self.draw.between(0, 1) - supply.pc) as i32;
                    self.push(3, &[&[slot as u8, 1], &step.to_be_bytes()[..]].concat());
                }
                3..=4 => self.sample(slot),
                _ => self.press(slot),
            }
            if self.draw.percent(60) {
                let line = self.draw.pick(&["SEVE?", "SEVE?", "CLS", "STAT?", "RMT 0"]);
                self.send(&format!("{line}\r"));
            }
        }
    }

    fn raise_and_clear(&mut self, slot: usize) {
        let least = self.draw.pick(&ENABLED);
        self.enable(slot, least);
        for _ in 0..2 + self.draw.below(5) {
            let field = self.draw.pick(&RAISED_AND_CLEARED);
            self.send(field);
        }
    }

    fn release(&mut self, slot: usize) {
        let slot_byte = slot as u8;
        match self.draw.below(8) {
            0 => self.say("OUT 1"),
            1 => self.push(2, &[slot_byte, 0]),
            2 => {
                self.push(4, &[slot_byte, AC]);
                self.push(4, &[slot_byte, 0]);
            }
            3 => {
                self.push(4, &[slot_byte, SO]);
                self.push(4, &[slot_byte, 0]);
            }
            4 => self.say("RST"),
            5 => self.say("FLD 0"),
            6 => self.push(2, &[slot_byte, 1]),
            _ => self.say("GOUT 1"),
        }
    }

    /// Asks everything of up to three slots, with several lines in a field.
    fn closing_look(&mut self) {
        let skipped = self.draw.below(self.fitted.len() as u64 + 1) as usize;
        let around = self.fitted.iter().cycle().skip(skipped);
        let slots: Vec<usize> = around.copied().take(self.fitted.len().min(3)).collect();
        self.waiting.push(b'\r');
        for slot in slots {
            self.waiting.extend(format!("ADR {slot}\r").bytes());
            for query in QUERIES {
                self.waiting.extend(format!("{query}\r").bytes());
            }
        }
    }

    // ---- things that get refused ----

    /// Something that a call must refuse, at the end of the list or within it.
    fn spoil_input(&mut self) {
        let at = 1 + self.draw.below(self.parts.len() as u64) as usize;
        let at = if self.draw.percent(60) { self.parts.len() } else { at.min(self.parts.len()) };
        let bad = self.bad_part();
        self.parts.insert(at, bad);
        if self.draw.percent(15) {
            self.parts.truncate(at + 1);
        }
    }

    fn bad_part(&mut self) -> Vec<u8> {
        let slot = self.any_fitted().unwrap_or(6) as u8;
        let empty = (0..SLOTS as u8).find(|slot| !self.fitted.contains(&usize::from(*slot)));
        let count = self.draw.below(24) as usize;
        match self.draw.below(16) {
            0 => vec![self.draw.below(7) as u8],
            1 => vec![self.draw.below(7) as u8, 0],
            2 => vec![self.draw.pick(&[0, 6, 7, 255]), 0, 2, slot, 0],
            3 => vec![1, 0, 0],
            4 => [vec![1, 0, 17], vec![b'P'; 17]].concat(),
            5 => [vec![1, 1, 4], vec![b'\r'; 260]].concat(),
            6 => vec![self.draw.pick(&[2, 3, 4, 5]), 0, self.draw.below(9) as u8, slot, 0, 0],
            7 => vec![1, 0, 9, b'P', b'V', b'?', b'\r'],
            8 => vec![3, 0, 6, slot, 0, 0, 0],
            9 => vec![2, 0, 2, self.draw.pick(&[31, 32, 128, 255, empty.unwrap_or(31)]), 9],
            10 => vec![5, 0, 5, self.draw.pick(&[31, 255, empty.unwrap_or(31)]), 0, 0, 0, 0],
            11 => vec![2, 0, 2, slot, 3 + self.draw.below(250) as u8],
            12 => vec![3, 0, 6, slot, self.draw.pick(&[4, 5, 255]), 0, 0, 0, 1],
            13 => vec![4, 0, 2, slot, self.draw.pick(&[0x01, 0x08, 0x10, 0x40, 0xFF, 0xA7])],
            14 => self.parts.last().map_or(vec![9], |part| part[..part.len() / 2].to_vec()),
            _ => self.draw.bytes(count),
        }
    }

    fn spoil_fitting(&mut self) {
        let slot = self.draw.below(SLOTS as u64) as usize;
        match self.draw.below(4) {
            0 => self.parts[0][slot] = self.draw.pick(&[12, 13, 254, 100]),
            1 => {
                self.parts.truncate(1);
                self.parts[0].truncate(slot);
            }
            2 => drop(self.parts[0].remove(slot)),
            _ => self.parts[0] = self.draw.bytes(SLOTS),
        }
    }
}
