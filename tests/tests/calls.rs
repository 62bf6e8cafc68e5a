//! The checks of `calls` can fail: the model stands in for the library, right at first and then
//! wrong in one thing at a time, and each wrong thing is reported by its name.

use std::cmp::Ordering;

use rack_tests::direct::bench::Tally;
use rack_tests::direct::library::{Controller, Done, Fitted, Rack, Supply};
use rack_tests::direct::outcome::{difference, name_of, Outcome, State, FENCE, FIGURES};
use rack_tests::direct::stand_in::{self, empty_rack, known, model_of, plain_of, put, NOBODY};
use rack_tests::direct::{checks, faults, Check};
use rack_tests::line::MOST_CHARACTERS;
use rack_tests::rack::{Rack as Model, EMPTY, SLOTS};
use rack_tests::supply::Supply as Plain;

/// What a call was given and what it leaves, for a fault to change.
struct Moment<'a> {
    before: Rack,
    bytes: &'a [u8],
    rack: &'a mut Rack,
    reply: &'a mut [u8],
    done: &'a mut Done,
}

impl Moment<'_> {
    fn accepted(&self) -> bool {
        self.done.code == 0
    }

    /// Whether it is an accepted serial field with this text in it.
    fn hears(&self, text: &[u8]) -> bool {
        self.accepted() && self.bytes[0] == 1 && {
            let payload = &self.bytes[3..self.done.used];
            payload.windows(text.len()).any(|part| part == text)
        }
    }

    /// The replies, and the service messages behind them.
    fn said(&self) -> (Vec<u8>, Vec<Message>) {
        let mut replies = self.reply[..self.done.length].to_vec();
        let mut messages = Vec::new();
        while let Some(at) = replies.len().checked_sub(4).filter(|at| replies[*at] == b'!') {
            messages.insert(0, replies.split_off(at).try_into().expect("four bytes"));
        }
        (replies, messages)
    }

    /// Puts these bytes in the place of the replies and messages.
    fn say(&mut self, bytes: &[u8]) {
        self.reply[..bytes.len()].copy_from_slice(bytes);
        self.done.length = bytes.len();
    }

    /// Lets only some of the messages through.
    fn only(&mut self, told: impl Fn(&Moment, usize) -> bool) {
        let (replies, mut messages) = self.said();
        messages.retain(|message| told(self, speaker(message)));
        self.say(&[replies, messages.concat()].concat());
    }

    /// Changes each supply that the call may change, with how it was before.
    fn supplies(&mut self, change: impl Fn(&mut Supply, &Supply)) {
        if self.accepted() {
            self.rack
                .slots
                .iter_mut()
                .zip(&self.before.slots)
                .for_each(|(it, was)| change(it, was));
        }
    }

    /// Whether it is an accepted field with this tag.
    fn brings(&self, tag: u8) -> bool {
        self.accepted() && self.bytes[0] == tag
    }

    /// Changes the supply that a sample went to, if this holds of it before and after.
    fn sampled(&mut self, holds: impl Fn(&Plain, &Plain) -> bool, change: fn(&mut Supply)) {
        if self.brings(5) && known(&self.before) {
            let slot = usize::from(self.bytes[3]);
            let plain = |rack: &Rack| plain_of(rack.models[slot], &rack.slots[slot]);
            if holds(&plain(&self.before), &plain(self.rack)) {
                change(&mut self.rack.slots[slot]);
            }
        }
    }

    /// The call with each serial byte as a field of its own: what is told is told line by line.
    fn byte_by_byte(&mut self) {
        if self.accepted() && self.bytes[0] == 1 && known(&self.before) {
            let mut model = model_of(&self.before);
            let field = |byte: &u8| [1, 0, 1, *byte];
            let work = |field: [u8; 4]| model.call(&field, 512).expect("a good field").1;
            let said = self.bytes[3..self.done.used].iter().map(field).flat_map(work);
            self.say(&said.collect::<Vec<u8>>());
        }
    }

    /// The call with another reading of the number in the one line that ends with it: the rack after
    /// it and what is said. None if there is no such number.
    fn heard(&self, rule: impl Fn(&Fine) -> i64) -> Option<(Model, Vec<u8>)> {
        if !self.accepted() || self.bytes[0] != 1 || !known(&self.before) {
            return None;
        }
        let (end, start) = self.bytes[3..self.done.used].split_last()?;
        if *end != b'\r' || start.contains(&b'\r') {
            return None;
        }
        let mut model = model_of(&self.before);
        let work = |model: &mut Model, byte: u8| model.call(&[1, 0, 1, byte], 512);
        start.iter().for_each(|byte| drop(work(&mut model, *byte)));
        let line = String::from_utf8(model.kept.clone()).ok()?;
        let (fine, decimals) = Fine::of(&line)?;
        let (units, unit) = (rule(&fine), 10_i64.pow(decimals as u32));
        model.kept = format!("{} {}.{:0decimals$}", fine.word, units / unit, units % unit).into();
        let said = work(&mut model, b'\r').expect("a good field").1;
        Some((model, said))
    }

    fn take(&mut self, heard: (Model, Vec<u8>)) {
        put(&heard.0, self.rack);
        self.say(&heard.1);
    }

    /// The call with numbers read by another rule.
    fn reads(&mut self, rule: impl Fn(&Fine) -> i64) {
        if let Some(heard) = self.heard(rule) {
            self.take(heard);
        }
    }

    /// The call with numbers checked by another rule before they are rounded.
    fn checks_first(&mut self, rule: impl Fn(&Fine) -> i64) {
        if let Some(heard) = self.heard(rule).filter(|(_, said)| refusal(said)) {
            self.take(heard);
        }
    }

    /// The call with numbers read by another rule where the right one finds them out of range.
    fn helps_out(&mut self, rule: impl Fn(&Fine) -> i64) {
        if refusal(&self.said().0) {
            self.reads(rule);
        }
    }
}

// What a wrong controller does to the CV memory.

fn keep(supply: &mut Supply, was: &Supply) {
    supply.cv_seen |= was.cv_seen;
}

fn forget(supply: &mut Supply, _: &Supply) {
    supply.cv_seen = 0;
}

fn remember(supply: &mut Supply) {
    supply.cv_seen = 1;
}

/// Whether a sample's amperes are below PC.
fn low(supply: &Plain) -> bool {
    supply.ampere_reading() < supply.pc
}

/// Whether a reply is an error code.
fn refusal(reply: &[u8]) -> bool {
    reply.starts_with(b"C") || reply.starts_with(b"E")
}

/// A number with digits below a tick or mA, in such a line: so many parts, of which a unit has
/// these.
struct Fine {
    word: String,
    typed: i64,
    parts: i64,
}

impl Fine {
    /// The number of this line, if it has such digits, and the decimals of its unit.
    fn of(line: &str) -> Option<(Fine, usize)> {
        let (word, number) = line.split_once(' ')?;
        let word = word.to_uppercase();
        let decimals = match word.as_str() {
            "PV" | "GPV" | "OVP" | "UVL" => 4,
            "PC" | "GPC" => 3,
            _ => return None,
        };
        let (whole, fraction) = number.split_once('.')?;
        let digits = format!("{whole}{fraction}");
        if number.len() > MOST_CHARACTERS || !digits.bytes().all(|it| it.is_ascii_digit()) {
            return None;
        }
        let parts = 10_i64.pow(fraction.len().checked_sub(decimals)? as u32);
        let fine = Fine { word, typed: digits.parse().ok()?, parts };
        Some((fine, decimals)).filter(|_| parts > 1)
    }

    fn below(&self) -> i64 {
        self.typed / self.parts
    }

    /// Whether it is before, at or behind the middle between two units.
    fn side(&self) -> Ordering {
        (2 * (self.typed % self.parts)).cmp(&self.parts)
    }

    /// The units below it, or those above it.
    fn up(&self, up: bool) -> i64 {
        self.below() + i64::from(up)
    }

    fn tie_to(&self, remainder: i64) -> i64 {
        self.up(match self.side() {
            Ordering::Equal => self.below() % 2 != remainder,
            side => side == Ordering::Greater,
        })
    }

    /// Right for every order but this one, which cuts off.
    fn cut_by(&self, word: &str) -> i64 {
        match self.word == word {
            true => self.below(),
            false => self.tie_to(0),
        }
    }

    /// A tie is told by the first digit below the unit, whatever follows it.
    fn by_one_digit(&self) -> i64 {
        let tenths = self.typed / (self.parts / 10);
        Fine { word: String::new(), typed: tenths, parts: 10 }.tie_to(0)
    }

    /// Rounded to tenths of the unit, and these to the unit.
    fn in_two_steps(&self) -> i64 {
        let to_tenths = Fine { word: String::new(), typed: self.typed, parts: self.parts / 10 };
        Fine { word: String::new(), typed: to_tenths.tie_to(0), parts: 10 }.tie_to(0)
    }
}

/// A service message as it is sent.
type Message = [u8; 4];

/// The address that a message names.
fn speaker(message: &Message) -> usize {
    usize::from(message[1] - b'0') * 10 + usize::from(message[2] - b'0')
}

/// The model with something wrong done after each fitting and each call.
struct Wrong {
    fit: WrongFit,
    call: WrongCall,
}

const RIGHT: Wrong = Wrong { fit: |_, _| {}, call: |_| {} };

impl Controller for Wrong {
    fn fit(&self, list: &[u8]) -> Fitted {
        let mut fitted = stand_in::fit(list);
        (self.fit)(list, &mut fitted);
        fitted
    }

    fn call(&self, rack: &mut Rack, bytes: &[u8], reply: &mut [u8]) -> Done {
        let before = *rack;
        let mut done = stand_in::call(rack, bytes, reply);
        (self.call)(&mut Moment { before, bytes, rack, reply, done: &mut done });
        done
    }
}

/// The report on such a controller says this at the first check that it fails.
fn tells(checks: &[Check], wrong: &Wrong, said: &str) {
    let mut tally = Tally::default();
    let fault = checks.iter().find_map(|check| (check.judge)(wrong, &mut tally).err());
    let fault = fault.unwrap_or_else(|| panic!("nothing said where it should be '{said}'"));
    assert!(fault.contains(said), "'{said}' should be said, and it is '{fault}'");
}

#[test]
fn the_model_passes_its_own_checks() {
    let mut tally = Tally::default();
    let checks = checks(200).expect("the cases are readable");
    assert_eq!(faults(&RIGHT, &checks, &mut tally), Vec::<String>::new());
    assert_eq!(tally.missing(), None);
}

#[test]
fn what_no_call_met_is_told() {
    assert!(Tally::default().missing().is_some());
    let checks = checks(0).expect("the cases are readable");
    let some = faults(&RIGHT, &checks[checks.len() - 1..], &mut Tally::default());
    assert_eq!(some.len(), 1, "{some:?}");
}

type WrongCall = fn(&mut Moment);
type WrongFit = fn(&[u8], &mut Fitted);

/// One wrong controller per line: what the report must say, and what it does wrong.
#[rustfmt::skip]
const CALLS: &[(&str, WrongCall)] = &[
    // what is returned for an accepted field
    ("code should be 0 and is 1", |it| if it.accepted() && it.reply.len() == 512 { it.done.code = 1 }),
    ("code should be 0 and is 3", |it| if it.accepted() && it.bytes[0] == 5 { it.done.code = 3 }),
    ("used should be", |it| if it.accepted() { it.done.used = it.bytes.len() }),
    ("used should be", |it| if it.accepted() { it.done.used = it.done.used.min(18) }),
    ("length should be", |it| if it.accepted() { it.done.length += 1 }),
    ("length should be", |it| if it.accepted() { it.done.length = it.done.length.min(6) }),
    ("of the reply should be 13 and is 10", |it| if it.done.length > 0 { it.reply[it.done.length - 1] = 10 }),
    ("byte 0 of the reply should be", |it| if it.done.length > 7 { it.reply[0] ^= 1 }),
    // the rest of the buffer
    ("behind the reply, should be", |it| if it.accepted() { it.reply[it.done.length] = 0 }),
    ("byte 511 of the buffer, behind the reply", |it| if it.accepted() { it.reply[511] = 13 }),
    ("byte 4095 of the buffer, behind the reply", |it| if it.reply.len() == 4096 { it.reply[4095] = 0 }),
    // the rack after an accepted field
    ("PV should be", |it| if it.bytes.first() == Some(&3) { it.rack.slots = it.before.slots }),
    ("WANT should be",
        |it| if it.bytes.first() == Some(&4) { (0..SLOTS).for_each(|slot| it.rack.slots[slot].want = 0) }),
    ("volt count should be", |it| if it.accepted() { it.rack.slots[30].volt_count = 0 }),
    ("slot 5 OVP should be", |it| if it.accepted() { it.rack.slots[5].ovp += 1 }),
    ("FEVE should be", |it| it.rack.slots.iter_mut().for_each(|supply| supply.feve &= !0x20)),
    ("WANT should be 1 and is 255",
        |it| it.rack.slots.iter_mut().filter(|it| it.want == 1).for_each(|it| it.want = 255)),
    ("the model of slot 17 should be", |it| if it.accepted() { it.rack.models[17] ^= 1 }),
    ("of the line should be",
        |it| if it.accepted() && it.rack.line.count > 2 { it.rack.line.kept[2] |= 0x20 }),
    ("the count of kept characters should be",
        |it| if it.accepted() { it.rack.line.count = it.rack.line.count.min(3) }),
    ("the line's mark as spoiled should be", |it| it.rack.line.spoiled = 0),
    ("the address selected should be",
        |it| if it.accepted() && it.rack.line.selected == NOBODY { it.rack.line.selected = 0 }),
    // SENA and SEVE
    ("SENA should be", |it| if it.hears(b"SENA FF\r") { it.supplies(|it, _| it.sena |= 0x70 * (it.sena / 0x8F)) }),
    ("SENA should be", |it| it.supplies(|it, _| it.sena &= !0x08)),
    ("SENA should be", |it| if it.hears(b"RST\r") { it.supplies(|it, _| it.sena = 0) }),
    ("FENA should be", |it| if it.hears(b"RST\r") { it.supplies(|it, _| it.fena = 0) }),
    ("SEVE should be", |it| if it.hears(b"CLS\r") { it.supplies(|it, was| it.seve = was.seve) }),
    ("SEVE should be", |it| if it.hears(b"RST\r") { it.supplies(|it, was| it.seve = was.seve) }),
    ("SEVE should be", |it| if it.hears(b"GRST\r") { it.supplies(|it, was| it.seve = was.seve) }),
    ("SEVE should be", |it| if it.hears(b"CLS\r") { it.supplies(|it, was| it.seve = was.sena & 0x04) }),
    ("SEVE should be", |it| if it.hears(b"SEVE?\r") { it.supplies(|it, was| it.seve |= was.seve) }),
    ("SEVE should be", |it| if it.hears(b"FEVE?\r") { it.supplies(|it, was| it.seve = was.seve) }),
    ("SEVE should be", |it| it.supplies(|it, was| it.seve &= !0x08 | was.seve)),
    ("SEVE should be", |it| if it.hears(b"RMT 0\r") { it.supplies(|it, was| it.seve &= !0x80 | was.seve) }),
    ("SEVE should be", |it| if it.hears(b"PC ") { it.supplies(|it, was| it.seve = was.seve) }),
    ("SEVE should be", |it| it.supplies(|it, was| if it.ast > was.ast { it.seve |= 0x10 })),
    ("SEVE should be", |it| if it.hears(b"SENA 8") { it.supplies(|it, was| it.seve |= it.sena & !was.sena & 0x80) }),
    ("byte 47 of the reply should be", |it| if it.hears(b"STT?\r") && it.done.length > 50 { it.reply[47] ^= 1 }),
    // service messages
    ("length should be", |it| it.only(|_, _| false)),
    ("length should be", |it| it.only(|it, _| it.bytes[0] == 1)),
    ("length should be", |it| it.only(|it, _| it.bytes[0] != 5)),
    ("length should be", |it| it.only(|it, slot| usize::from(it.rack.line.selected) == slot)),
    ("length should be", |it| it.only(|it, slot| it.rack.slots[slot].feve > 0)),
    ("length should be", |it| it.only(|it, slot| it.rack.slots[slot].seve > 0)),
    ("length should be", |it| it.only(|it, slot| it.before.slots[slot].seve == 0)),
    ("length should be", |it| it.only(|it, slot| it.before.slots[slot].feve == 0)),
    ("length should be", |it| it.only(|it, slot| it.said().1.last().is_none_or(|last| speaker(last) == slot))),
    ("of the reply should be 76 and is 33", |it| it.byte_by_byte()),
    ("length should be", |it| {
        let (replies, messages) = it.said();
        it.say(&[replies, messages.concat(), messages.concat()].concat());
    }),
    ("length should be", |it| if it.accepted() {
        let told = |slot: &usize| it.rack.slots[*slot].seve & !it.before.slots[*slot].seve > 0;
        let messages: String = (0..SLOTS).filter(told).map(|slot| format!("!{slot:02}\r")).collect();
        it.say(&[it.said().0, messages.into()].concat());
    }),
    ("length should be", |it| {
        let (replies, messages) = it.said();
        let summed = messages.iter().flat_map(|it| [&it[..3], b"$B7\r"].concat());
        it.say(&replies.into_iter().chain(summed).collect::<Vec<u8>>());
    }),
    ("length should be", |it| {
        let (replies, messages) = it.said();
        let short = messages.iter().flat_map(|it| format!("!{}\r", speaker(it)).into_bytes());
        it.say(&replies.into_iter().chain(short).collect::<Vec<u8>>());
    }),
    ("of the reply should be", |it| {
        let (replies, messages) = it.said();
        it.say(&[messages.concat(), replies].concat());
    }),
    ("of the reply should be", |it| {
        let (replies, mut messages) = it.said();
        messages.reverse();
        it.say(&[replies, messages.concat()].concat());
    }),
    ("of the reply should be 13 and is 10", |it| if !it.said().1.is_empty() { it.reply[it.done.length - 1] = 10 }),
    // refusals: the wrong number, another order, something returned or changed
    ("code should be 1 and is 2", |it| if it.reply.is_empty() && it.bytes.len() < 3 { it.done.code = 2 }),
    ("code should be 3 and is 4", |it| if it.done.code == 3 && it.bytes[1] > 0 { it.done.code = 4 }),
    ("code should be 4 and is 5", |it| if it.done.code == 4 && it.bytes.len() == 3 { it.done.code = 5 }),
    ("code should be 5 and is 6",
        |it| if it.done.code == 5 && it.bytes.get(3) == Some(&31) { it.done.code = 6 }),
    ("code should be 6 and is 7",
        |it| if it.done.code == 6 && it.bytes[0] == 4 && it.bytes[4] == 0xFF { it.done.code = 7 }),
    ("code should be 7 and is 0", |it| if it.done.code == 7 && it.bytes[4] == 0x40 { it.done.code = 0 }),
    ("used should be 0 and is", |it| if it.done.code == 5 { it.done.used = it.bytes.len() }),
    ("length should be 0 and is", |it| if it.done.code == 7 { it.done.length = 1 }),
    ("byte 0 of the buffer, behind the reply",
        |it| if it.done.code == 1 && !it.reply.is_empty() { it.reply[0] = 0 }),
    ("byte 510 of the buffer, behind the reply",
        |it| if it.done.code == 1 && it.reply.len() == 511 { it.reply[510] ^= 8 }),
    ("behind the reply, should be", |it| if it.done.code == 6 { it.reply[0] = b'6' }),
    ("slot 6 PV should be", |it| if it.done.code == 7 { it.rack.slots[6].pv += 1 }),
    ("slot 6 ampere count should be", |it| if it.done.code == 4 { it.rack.slots[6].amp_count ^= 1 }),
    ("the count of kept characters should be", |it| if it.done.code == 5 { it.rack.line.count = 0 }),
    ("character 63 of the line should be", |it| if it.done.code == 1 { it.rack.line.kept[63] ^= 1 }),
    ("the address selected should be", |it| if it.done.code == 6 { it.rack.line.selected = NOBODY }),
    ("the count of kept characters should be 65 and is 64",
        |it| if it.done.code > 0 && it.before.line.count == 65 { it.rack.line.count = 64 }),
    ("the model of slot 30 should be", |it| if it.done.code == 2 { it.rack.models[30] = EMPTY }),
    ("slot 6 CV memory should be", |it| if it.done.code == 7 { it.rack.slots[6].cv_seen ^= 1 }),
    ("CV memory should be 1 and is 255",
        |it| it.rack.slots.iter_mut().filter(|it| it.cv_seen == 1).for_each(|it| it.cv_seen = 255)),
];

/// What foldback must remember, forgotten or remembered at the wrong time.
#[rustfmt::skip]
const FOLDBACK: &[(&str, WrongCall)] = &[
    // kept though the output goes off, by each event that turns it off
    ("CV memory should be 0 and is 1", |it| if it.brings(4) { it.supplies(keep) }),
    ("CV memory should be 0 and is 1",
        |it| if it.brings(4) { it.supplies(|it, was| if it.ast == 1 { keep(it, was) }) }),
    ("CV memory should be 0 and is 1",
        |it| if it.brings(4) { it.supplies(|it, was| if it.ast == 0 { keep(it, was) }) }),
    ("CV memory should be 0 and is 1", |it| if it.hears(b"OUT 0\r") { it.supplies(keep) }),
    ("CV memory should be 0 and is 1", |it| if it.hears(b"GOUT 0\r") { it.supplies(keep) }),
    ("CV memory should be 0 and is 1", |it| if it.brings(2) { it.supplies(keep) }),
    ("CV memory should be 0 and is 1",
        |it| it.supplies(|it, was| if it.ovp_trip > was.ovp_trip { keep(it, was) })),
    ("CV memory should be 0 and is 1",
        |it| it.supplies(|it, was| if it.fold_trip > was.fold_trip { keep(it, was) })),
    ("CV memory should be 0 and is 1", |it| if it.hears(b"RST\r") { it.supplies(keep) }),
    ("CV memory should be 0 and is 1", |it| if it.hears(b"GRST\r") { it.supplies(keep) }),
    // set by samples that are not judged CV: while off, at PC, above it, with OVP, by the counts before
    ("CV memory should be 0 and is 1", |it| it.sampled(|was, _| !was.output_on(), remember)),
    ("CV memory should be 0 and is 1", |it| it.sampled(|was, is| !was.output_on() && low(is), remember)),
    ("CV memory should be 0 and is 1",
        |it| it.sampled(|_, is| is.output_on() && is.ampere_reading() == is.pc, remember)),
    ("CV memory should be 0 and is 1",
        |it| it.sampled(|_, is| is.output_on() && is.ampere_reading() > is.pc, remember)),
    ("CV memory should be 0 and is 1",
        |it| it.sampled(|was, is| is.ovp_trip && !was.ovp_trip && low(is), remember)),
    ("CV memory should be 0 and is 1", |it| it.sampled(|was, is| is.output_on() && low(was), remember)),
    // set by the output coming on, by arming, by MODE? and by a PC above the reading
    ("CV memory should be 0 and is 1",
        |it| it.supplies(|it, was| if it.want > was.want && it.lines == 0 { remember(it) })),
    ("CV memory should be 0 and is 1",
        |it| it.supplies(|it, was| if it.armed > was.armed && it.want == 1 { remember(it) })),
    ("CV memory should be 0 and is 1",
        |it| it.supplies(|it, was| if it.pc > was.pc && it.want == 1 { remember(it) })),
    // not set: never, only while armed, only in remote mode
    ("CV memory should be 1 and is 0", |it| it.supplies(forget)),
    ("CV memory should be 1 and is 0",
        |it| it.supplies(|it, was| if it.armed == 0 { it.cv_seen &= was.cv_seen })),
    ("CV memory should be 1 and is 0",
        |it| it.supplies(|it, was| if it.mode == 0 { it.cv_seen &= was.cv_seen })),
    ("CV memory should be 1 and is 0",
        |it| it.supplies(|it, was| if it.mode == 2 { it.cv_seen &= was.cv_seen })),
    // lost though the output stays on
    ("CV memory should be 1 and is 0", |it| if it.hears(b"OUT 1\r") { it.supplies(forget) }),
    ("CV memory should be 1 and is 0", |it| if it.hears(b"GOUT 1\r") { it.supplies(forget) }),
    ("CV memory should be 1 and is 0", |it| if it.hears(b"FLD 0\r") { it.supplies(forget) }),
    ("CV memory should be 1 and is 0", |it| if it.hears(b"FLD 1\r") { it.supplies(forget) }),
    ("CV memory should be 1 and is 0", |it| if it.hears(b"PC ") { it.supplies(forget) }),
    ("CV memory should be 1 and is 0",
        |it| it.supplies(|it, was| if it.pc < was.pc { forget(it, was) })),
    ("CV memory should be 1 and is 0", |it| if it.hears(b"?\r") { it.supplies(forget) }),
    ("CV memory should be 1 and is 0", |it| if it.hears(b"RMT ") { it.supplies(forget) }),
    ("CV memory should be 1 and is 0", |it| if it.brings(2) { it.supplies(forget) }),
    ("CV memory should be 1 and is 0", |it| if it.brings(3) { it.supplies(forget) }),
    ("CV memory should be 1 and is 0", |it| if it.brings(4) { it.supplies(forget) }),
    ("CV memory should be 1 and is 0", |it| if refusal(&it.said().0) { it.supplies(forget) }),
    ("CV memory should be 1 and is 0", |it| it.sampled(|_, is| !low(is), |it| it.cv_seen = 0)),
    // trips without the memory, and not with it
    ("FOLD trip should be 0 and is 1", |it| it.sampled(
        |was, is| was.output_on() && is.output_on() && is.armed && !low(is) && !was.cv_seen,
        |it| it.fold_trip = 1,
    )),
    ("FOLD trip should be 1 and is 0", |it| it.sampled(|was, _| was.cv_seen, |it| it.fold_trip = 0)),
];

/// Numbers with digits below a tick or mA, read or checked in another way than the papers say.
#[rustfmt::skip]
const ROUNDING: &[(&str, WrongCall)] = &[
    // cut off, by every order and by one alone
    ("PV should be 50001 and is 50000", |it| it.reads(Fine::below)),
    ("PV should be 50001 and is 50000", |it| it.reads(|it| it.cut_by("PV"))),
    ("PC should be", |it| it.reads(|it| it.cut_by("PC"))),
    ("OVP should be", |it| it.reads(|it| it.cut_by("OVP"))),
    ("length should be 4 and is 3", |it| it.reads(|it| it.cut_by("UVL"))),
    ("PV should be", |it| it.reads(|it| it.cut_by("GPV"))),
    ("PC should be", |it| it.reads(|it| it.cut_by("GPC"))),
    // ties up, down and to the odd one; a tie told by one digit; always up; in two steps
    ("length should be 3 and is 4", |it| it.reads(|it| it.up(it.side() != Ordering::Less))),
    ("PC should be 1002 and is 1001", |it| it.reads(|it| it.up(it.side() == Ordering::Greater))),
    ("PC should be 1002 and is 1001", |it| it.reads(|it| it.tie_to(1))),
    ("PV should be 40001 and is 40000", |it| it.reads(Fine::by_one_digit)),
    ("PV should be 0 and is 1", |it| it.reads(|it| it.up(it.typed % it.parts > 0))),
    ("PC should be 13125 and is 13126", |it| it.reads(Fine::in_two_steps)),
    // checked as typed, checked when cut off; brought down or up into the range
    ("length should be 3 and is 4", |it| it.checks_first(|it| it.up(it.typed % it.parts > 0))),
    ("length should be 3 and is 4", |it| it.checks_first(Fine::below)),
    ("length should be 4 and is 3", |it| it.helps_out(Fine::below)),
    ("length should be 4 and is 3", |it| it.helps_out(|it| it.up(true))),
];

#[test]
fn a_wrong_call_is_told_whatever_is_wrong_with_it() {
    let checks = checks(20).expect("the cases are readable");
    for (said, call) in CALLS.iter().chain(ROUNDING).chain(FOLDBACK) {
        tells(&checks, &Wrong { call: *call, ..RIGHT }, said);
    }
}

/// The generated lists by themselves tell each of these.
fn generated_lists_tell(wrong: &[(&str, WrongCall)]) {
    let checks = checks(400).expect("the cases are readable");
    let generated = |check: &&Check| check.name.ends_with("generated lists");
    let generated = checks.iter().find(generated).expect("a check of generated lists");
    for (number, (_, call)) in wrong.iter().enumerate() {
        let wrong = Wrong { call: *call, ..RIGHT };
        let told = (generated.judge)(&wrong, &mut Tally::default());
        assert!(told.is_err(), "wrong controller {number} is not told");
    }
}

#[test]
fn wrong_rounding_is_told_by_generated_lists() {
    generated_lists_tell(ROUNDING);
}

#[test]
fn wrong_foldback_is_told_by_generated_lists() {
    generated_lists_tell(FOLDBACK);
}

/// The cases by themselves tell as much of foldback.
#[test]
fn wrong_foldback_is_told_by_the_cases() {
    let checks = checks(0).expect("the cases are readable");
    let cases: Vec<Check> =
        checks.into_iter().filter(|check| check.name.starts_with("foldback-")).collect();
    for (said, call) in FOLDBACK {
        tells(&cases, &Wrong { call: *call, ..RIGHT }, said);
    }
}

/// The same for fittings.
#[rustfmt::skip]
const FITS: &[(&str, WrongFit)] = &[
    ("code should be 8 and is 0", |list, fitted| if list.is_empty() { fitted.code = 0 }),
    ("code should be 8 and is 0", |list, fitted| if list.len() == 1000 { fitted.code = 0 }),
    ("code should be 8 and is 0",
        |list, fitted| if list.len() == SLOTS && list[30] == 254 { fitted.code = 0 }),
    ("code should be 0 and is 8", |list, fitted| if list.iter().all(|byte| *byte == 11) { fitted.code = 8 }),
    ("the model of slot 3 should be 255 and is 0",
        |_, fitted| if fitted.code == 8 { fitted.rack.models[3] = 0 }),
    ("slot 9 OVP should be", |_, fitted| if fitted.code == 8 { fitted.rack.slots[9].ovp = 75_000 }),
    ("the address selected should be 31 and is 0",
        |_, fitted| if fitted.code == 8 { fitted.rack.line.selected = 0 }),
    ("the address selected should be 31 and is 0",
        |_, fitted| if fitted.code == 0 { fitted.rack.line.selected = 0 }),
    ("the count of kept characters should be 0 and is 1", |_, fitted| fitted.rack.line.count = 1),
    ("the line's mark as spoiled should be 0 and is 1", |_, fitted| fitted.rack.line.spoiled = 1),
    ("slot 4 WANT should be 0 and is 1",
        |list, fitted| if fitted.code == 0 && list[4] == 5 { fitted.rack.slots[4].want = 1 }),
    ("slot 30 OVP should be",
        |list, fitted| if fitted.code == 0 && list[30] == 11 { fitted.rack.slots[30].ovp -= 1 }),
    ("slot 8 SENA should be",
        |list, fitted| if fitted.code == 0 && list[8] == 2 { fitted.rack.slots[8].sena = 0x8F }),
    ("slot 8 SEVE should be",
        |list, fitted| if fitted.code == 0 && list[9] == 2 { fitted.rack.slots[8].seve = 1 }),
    ("slot 8 CV memory should be",
        |list, fitted| if fitted.code == 0 && list[9] == 3 { fitted.rack.slots[8].cv_seen = 1 }),
    ("slot 2 FENA should be",
        |list, fitted| if fitted.code == 0 && list[1] == 7 { fitted.rack.slots[2].fena = 1 }),
    ("the model of slot 0 should be 10 and is 9",
        |list, fitted| if fitted.code == 0 && list[0] == 10 { fitted.rack.models[0] = 9 }),
];

#[test]
fn a_wrong_fitting_is_told_whatever_is_wrong_with_it() {
    let checks = checks(20).expect("the cases are readable");
    for (said, fit) in FITS {
        tells(&checks, &Wrong { fit: *fit, ..RIGHT }, said);
    }
}

// ---- the comparison by itself ----

fn outcome() -> Outcome {
    Outcome {
        code: 0,
        used: 7,
        length: 3,
        buffer: (0..512 + 2 * FENCE).map(|at| at as u8).collect(),
        lent: b"\x01\x00\x04PV?\r".to_vec(),
        state: State::of(&empty_rack()),
    }
}

/// The report on an outcome that was changed like this.
fn said(change: impl Fn(&mut Outcome)) -> String {
    let mut changed = outcome();
    change(&mut changed);
    difference(&changed, &outcome()).expect("a changed outcome differs")
}

#[test]
fn equal_outcomes_do_not_differ() {
    assert_eq!(difference(&outcome(), &outcome()), None);
}

#[test]
fn a_wrong_number_in_the_answer_is_told() {
    assert_eq!(said(|it| it.code = 3), "code should be 3 and is 0");
    assert_eq!(said(|it| it.used = 8), "used should be 8 and is 7");
    assert_eq!(said(|it| it.length = 4), "length should be 4 and is 3");
    assert!(said(|it| it.buffer.push(0)).contains("numbers"));
    assert!(said(|it| it.lent[6] = 0).starts_with("byte 6 lent"));
}

#[test]
fn a_wrong_byte_is_told_wherever_it_stands() {
    const REPLY: usize = FENCE + 3;
    const BEHIND: usize = FENCE + 512;
    for at in 0..outcome().buffer.len() {
        let name = match at {
            ..FENCE => format!("the byte {} before the buffer", FENCE - at),
            FENCE..REPLY => format!("byte {} of the reply", at - FENCE),
            REPLY..BEHIND => format!("byte {} of the buffer, behind the reply,", at - FENCE),
            _ => format!("the byte {} behind the buffer", at - BEHIND + 1),
        };
        let told = said(|it| it.buffer[at] ^= 1);
        assert!(told.starts_with(&format!("{name} should be ")), "{told}, not {name}");
    }
}

#[test]
fn a_wrong_figure_of_the_rack_is_told_by_its_name() {
    let mut names = std::collections::HashSet::new();
    for at in 0..FIGURES {
        let told = said(|it| it.state.0[at] ^= 1);
        assert!(told.starts_with(&format!("{} should be ", name_of(at))), "{told}");
        names.insert(name_of(at));
    }
    assert_eq!(names.len(), FIGURES, "each has a name of its own");
}

#[test]
fn each_field_of_a_rack_has_its_place() {
    let mut rack = empty_rack();
    let mut seen = std::collections::HashSet::new();
    let blank = State::of(&rack);
    let mut moved = |rack: &Rack| {
        let state = State::of(rack);
        let places = (0..FIGURES).filter(|at| state.0[*at] != blank.0[*at]).collect::<Vec<usize>>();
        let [place] = places[..] else { panic!("{places:?}") };
        seen.insert(place);
    };
    macro_rules! each {
        ($($field:ident)*) => { $(
            for slot in 0..SLOTS {
                rack.slots[slot].$field = 1;
                moved(&rack);
                rack = empty_rack();
            }
        )* };
    }
    each!(pv pc ovp uvl want armed ast mode lines fold_trip ovp_trip);
    each!(fena feve sena seve cv_seen volt_count amp_count);
    for slot in 0..SLOTS {
        rack.models[slot] = 0;
        moved(&rack);
        rack = empty_rack();
    }
    for at in 0..rack.line.kept.len() {
        rack.line.kept[at] = 1;
        moved(&rack);
        rack = empty_rack();
    }
    rack.line.count = 1;
    moved(&rack);
    rack = empty_rack();
    rack.line.spoiled = 1;
    moved(&rack);
    rack = empty_rack();
    rack.line.selected = 0;
    moved(&rack);
    assert_eq!(seen.len(), FIGURES);
}
