//! Long inputs for measuring: `load KIND FIELDS SLOTS SEED` writes one to standard output. Nothing
//! in it is refused, so a program works all of it. The first fields of a longer input are the
//! shorter input of the same kind, slots and seed. The kinds:
//!
//! samples: counts from the cells with the outputs on, and now and then a trip, a line or a key;
//! serial: lines of orders and queries, some with checksums, and rarely a global;
//! mixed: all five tags;
//! query: a query with CR LF in each field, and rarely an ADR;
//! order: an order with CR LF in each field, and rarely an ADR;
//! queries: three queries in each field, and rarely an ADR;
//! checksummed: a query with its checksum in each field, and rarely an ADR;
//! global: a line to all slots in each field.

use rack_tests::generate::Draw;
use rack_tests::line::checksum;
use rack_tests::rack::{Rack, EMPTY, LEAST_ROOM, SLOTS};
use rack_tests::supply::{amperes_text, volts_text, Supply, LINE_BITS, MODELS};
use std::io::{self, BufWriter, Write};
use std::process::ExitCode;

#[derive(Clone, Copy)]
enum Kind {
    Samples,
    Serial,
    Mixed,
    Query,
    Order,
    Queries,
    Summed,
    Global,
}

const KINDS: [(&str, Kind); 8] = [
    ("samples", Kind::Samples),
    ("serial", Kind::Serial),
    ("mixed", Kind::Mixed),
    ("query", Kind::Query),
    ("order", Kind::Order),
    ("queries", Kind::Queries),
    ("checksummed", Kind::Summed),
    ("global", Kind::Global),
];

const FIELD_ROOM: usize = 16;
/// Counts that are certainly below PC as the set-up leaves it, and one that is above.
const BELOW_PC: u64 = 39_000;
const ABOVE_PC: u16 = 45_000;
/// Counts up to the rating are below the highest OVP.
const RATING: u64 = 50_000;

/// What every model accepts, in ticks and mA: 80 % of the lowest rating of all.
const ALL_TAKE_VOLTS: i64 = 48_000;
const ALL_TAKE_AMPERES: i64 = 1_040;

const QUERIES: [&str; 8] = ["PV?", "PV?", "PV?", "MV?", "MV?", "MC?", "OUT?", "FLT?"];
/// Queries that are answered with a figure, which are most of what a board asks.
const FIGURES: [&str; 4] = ["PV?", "PC?", "MV?", "MC?"];
const GLOBALS: [&str; 4] = ["GPV 4", "GPC 1", "GOUT 1", "GRST"];

/// Lines with a wrong number or word; the supply says so and the list goes on.
const FAULTY: [&str; 4] = ["PV 999", "PV x", "VOLT 5", "OVP 0"];

struct Load<W: Write> {
    draw: Draw,
    rack: Rack,
    fitted: Vec<usize>,
    out: W,
    left: u64,
}

fn main() -> ExitCode {
    let arguments: Vec<String> = std::env::args().skip(1).collect();
    let words: Vec<&str> = arguments.iter().map(String::as_str).collect();
    let [kind, fields, slots, seed] = words[..] else {
        return usage();
    };
    let kind = KINDS.iter().find(|(name, _)| *name == kind);
    let (Some((_, kind)), Ok(fields), Ok(slots @ 1..=SLOTS), Ok(seed)) =
        (kind, fields.parse(), slots.parse(), seed.parse())
    else {
        return usage();
    };
    match write(*kind, fields, slots, seed) {
        Ok(()) => ExitCode::SUCCESS,
        Err(error) => {
            eprintln!("{error}");
            ExitCode::FAILURE
        }
    }
}

fn usage() -> ExitCode {
    let kinds = KINDS.map(|(name, _)| name).join("|");
    eprintln!("usage: load {kinds} FIELDS SLOTS SEED (1 to {SLOTS} slots)");
    ExitCode::from(2)
}

fn write(kind: Kind, fields: u64, slots: usize, seed: u64) -> io::Result<()> {
    let list = fitting_list(slots);
    let mut out = BufWriter::new(io::stdout().lock());
    out.write_all(&list)?;
    let mut load = Load {
        draw: Draw::new(seed),
        rack: Rack::fit(&list).expect("a good list"),
        fitted: (0..SLOTS).filter(|slot| list[*slot] != EMPTY).collect(),
        out,
        left: fields,
    };
    for slot in load.fitted.clone() {
        match kind {
            Kind::Samples | Kind::Serial | Kind::Mixed => load.set_up(slot)?,
            _ => load.set_up_alike(slot)?,
        }
    }
    while load.left > 0 {
        load.next(kind)?;
    }
    load.out.flush()
}

/// Slots spread over the rack, including slot 30, with all models in turn.
fn fitting_list(slots: usize) -> Vec<u8> {
    let mut list = vec![EMPTY; SLOTS];
    for number in 0..slots {
        list[SLOTS - 1 - number * SLOTS / slots] = (number % MODELS.len()) as u8;
    }
    list
}

fn with_checksum(text: &str) -> String {
    format!("{text}${:02X}", checksum(text.as_bytes()))
}

impl<W: Write> Load<W> {
    /// Writes a field, until the wanted number is written.
    fn field(&mut self, tag: u8, payload: &[u8]) -> io::Result<()> {
        if self.left == 0 {
            return Ok(());
        }
        self.left -= 1;
        let length = (payload.len() as u16).to_be_bytes();
        let field = [&[tag], &length[..], payload].concat();
        self.rack.call(&field, LEAST_ROOM).expect("no field of a load is refused");
        self.out.write_all(&field)
    }

    fn say(&mut self, text: &str) -> io::Result<()> {
        let line = [text.as_bytes(), b"\r"].concat();
        line.chunks(FIELD_ROOM).try_for_each(|piece| self.field(1, piece))
    }

    fn supply(&self, slot: usize) -> &Supply {
        self.rack.slots[slot].as_ref().expect("a fitted slot")
    }

    fn any_slot(&mut self) -> usize {
        self.draw.pick(&self.fitted)
    }

    /// 80 % of both ratings, foldback armed and the output on.
    fn set_up(&mut self, slot: usize) -> io::Result<()> {
        let model = self.supply(slot).limits();
        let volts = volts_text(model.rated_volts * 8 / 10);
        let amperes = amperes_text(model.rated_amperes * 8 / 10);
        self.say(&format!("ADR {slot}"))?;
        self.say(&format!("PV {volts}"))?;
        self.say(&format!("PC {amperes}"))?;
        self.say("FLD 1")?;
        self.say("OUT 1")
    }

    /// The same settings and readings for each model, so that an answer has the same length in any
    /// slot.
    fn set_up_alike(&mut self, slot: usize) -> io::Result<()> {
        let model = self.supply(slot).limits();
        let count = |wanted: i64, rating: i64| (wanted * RATING as i64 / rating) as u16;
        let volts = count(ALL_TAKE_VOLTS * 9 / 10, model.rated_volts);
        let amperes = count(ALL_TAKE_AMPERES * 9 / 10, model.rated_amperes);
        self.say(&format!("ADR {slot}"))?;
        self.say(&format!("PV {}", volts_text(ALL_TAKE_VOLTS)))?;
        self.say(&format!("PC {}", amperes_text(ALL_TAKE_AMPERES)))?;
        self.say("OUT 1")?;
        self.counts(slot, volts, amperes)
    }

    // ---- the kinds ----

    fn next(&mut self, kind: Kind) -> io::Result<()> {
        match kind {
            Kind::Samples => self.samples(),
            Kind::Serial => self.serial(),
            Kind::Mixed => self.mixed(),
            _ => {
                let line = self.line(kind);
                self.field(1, line.as_bytes())
            }
        }
    }

    fn samples(&mut self) -> io::Result<()> {
        let slot = self.any_slot();
        if !self.supply(slot).output_on() {
            return self.turn_on(slot);
        }
        match self.draw.below(1_000) {
            0 => self.sample(slot, ABOVE_PC),
            1..=4 => self.say("MV?"),
            5..=9 => self.key(slot),
            _ => {
                let amperes = self.draw.below(BELOW_PC) as u16;
                self.sample(slot, amperes)
            }
        }
    }

    fn turn_on(&mut self, slot: usize) -> io::Result<()> {
        if self.supply(slot).lines != 0 {
            self.field(4, &[slot as u8, 0])?;
        }
        self.say(&format!("ADR {slot}"))?;
        self.say("OUT 1")
    }

    fn sample(&mut self, slot: usize, amperes: u16) -> io::Result<()> {
        let volts = self.draw.below(RATING + 1) as u16;
        self.counts(slot, volts, amperes)
    }

    fn counts(&mut self, slot: usize, volts: u16, amperes: u16) -> io::Result<()> {
        let counts = [volts.to_be_bytes(), amperes.to_be_bytes()].concat();
        self.field(5, &[&[slot as u8], &counts[..]].concat())
    }

    /// In remote mode only the LOCAL key does anything; the next order takes the supply back.
    fn key(&mut self, slot: usize) -> io::Result<()> {
        let key = self.draw.below(3) as u8;
        self.field(2, &[slot as u8, key])
    }

    fn serial(&mut self) -> io::Result<()> {
        let text = match self.draw.below(1_000) {
            0..=3 => self.draw.pick(&GLOBALS).to_string(),
            4..=99 => format!("ADR {}", self.any_slot()),
            100..=129 => self.draw.pick(&FAULTY).to_string(),
            130..=429 => self.setting(),
            430..=529 => self.draw.pick(&["OUT 1", "OUT 1", "OUT 1", "OUT 0"]).to_string(),
            530..=629 => return self.field(1, b"PV?\rMV?\rMC?\r"),
            _ => self.draw.pick(&QUERIES).to_string(),
        };
        match self.draw.percent(25) {
            true => self.say(&with_checksum(&text)),
            false => self.say(&text),
        }
    }

    /// PV or PC of the selected slot, anywhere up to the rating.
    fn setting(&mut self) -> String {
        let slot = self.rack.selected.expect("every slot named in a load is fitted");
        let model = self.supply(slot).limits();
        match self.draw.percent(70) {
            true => format!("PV {}", volts_text(self.draw.between(0, model.rated_volts))),
            false => format!("PC {}", amperes_text(self.draw.between(0, model.rated_amperes))),
        }
    }

    /// A field of the kinds whose fields are all alike. An occasional ADR reaches all slots in
    /// time.
    fn line(&mut self, kind: Kind) -> String {
        let text = match kind {
            Kind::Global => self.global(),
            _ if self.draw.percent(1) => format!("ADR {}", self.any_slot()),
            Kind::Order => self.order(),
            Kind::Queries => "PV?\rMV?\rMC?".to_string(),
            Kind::Summed => with_checksum(self.draw.pick(&FIGURES)),
            _ => self.draw.pick(&FIGURES).to_string(),
        };
        match kind {
            Kind::Query | Kind::Order => text + "\r\n",
            _ => text + "\r",
        }
    }

    fn order(&mut self) -> String {
        match self.draw.percent(10) {
            true => "OUT 1".to_string(),
            false => self.setting(),
        }
    }

    /// Settings that every slot accepts, so that none refuses silently.
    fn global(&mut self) -> String {
        match self.draw.below(10) {
            0..=3 => format!("GPV {}", volts_text(self.draw.between(0, ALL_TAKE_VOLTS))),
            4..=6 => format!("GPC {}", amperes_text(self.draw.between(0, ALL_TAKE_AMPERES))),
            7..=8 => "GOUT 1".to_string(),
            _ => "GRST".to_string(),
        }
    }

    fn mixed(&mut self) -> io::Result<()> {
        let slot = self.any_slot();
        match self.draw.below(100) {
            0..=39 => self.samples(),
            40..=79 => self.serial(),
            80..=87 => self.key(slot),
            88..=95 => self.knob(slot),
            _ => self.lines(slot),
        }
    }

    fn knob(&mut self, slot: usize) -> io::Result<()> {
        let target = self.draw.below(4) as u8;
        let step = self.draw.between(-10_000, 10_000) as i32;
        self.field(3, &[&[slot as u8, target], &step.to_be_bytes()[..]].concat())
    }

    /// Lines that are set fall again soon, so that most outputs can be turned on.
    fn lines(&mut self, slot: usize) -> io::Result<()> {
        let lines = match self.supply(slot).lines {
            0 => self.draw.any() as u8 & LINE_BITS,
            _ => 0,
        };
        self.field(4, &[slot as u8, lines])
    }
}
