//! The rack: 31 slots on one serial line, driven by fields. A call works one field, the first of
//! its bytes, or refuses with a number and leaves everything as it was.

use crate::line::{self, Reading, Said, Whom, LINE_ROOM};
use crate::supply::{Event, Key, Supply, Target, LINE_BITS, MODELS};

pub const SLOTS: usize = 31;
pub const EMPTY: u8 = 255;
/// A reply buffer below this size is refused.
pub const LEAST_ROOM: usize = 512;

// The refusals, in the order in which they are tested.
pub const SMALL_BUFFER: u8 = 1;
pub const NO_HEADER: u8 = 2;
pub const BAD_TAG: u8 = 3;
pub const BAD_LENGTH: u8 = 4;
pub const CUT_SHORT: u8 = 5;
pub const NO_SUPPLY: u8 = 6;
pub const BAD_VALUE: u8 = 7;
pub const BAD_FITTING: u8 = 8;

#[derive(Clone, Debug, PartialEq, Eq)]
pub struct Rack {
    pub slots: Vec<Option<Supply>>,
    pub selected: Option<usize>,
    /// The characters of the line that has not reached its CR yet.
    pub kept: Vec<u8>,
    pub spoiled: bool,
}

impl Rack {
    /// Clause "A fresh rack", from a fitting list of one byte for each slot.
    pub fn fit(list: &[u8]) -> Result<Rack, u8> {
        let known = |byte: &u8| usize::from(*byte) < MODELS.len() || *byte == EMPTY;
        if list.len() != SLOTS || !list.iter().all(known) {
            return Err(BAD_FITTING);
        }
        let supply = |byte: &u8| (*byte != EMPTY).then(|| Supply::fresh(*byte));
        Ok(Rack {
            slots: list.iter().map(supply).collect(),
            selected: None,
            kept: Vec::new(),
            spoiled: false,
        })
    }

    /// Takes the first field; returns the bytes used and the replies with the service messages behind
    /// them, or the refusal's number.
    pub fn call(&mut self, bytes: &[u8], room: usize) -> Result<(usize, Vec<u8>), u8> {
        let mut replies = Vec::new();
        let used = self.call_with(bytes, room, &mut replies)?;
        Ok((used, replies))
    }

    /// The same, with the replies appended to those that are there.
    pub fn call_with(
        &mut self,
        bytes: &[u8],
        room: usize,
        replies: &mut Vec<u8>,
    ) -> Result<usize, u8> {
        if room < LEAST_ROOM {
            return Err(SMALL_BUFFER);
        }
        let [tag, high, low, rest @ ..] = bytes else {
            return Err(NO_HEADER);
        };
        if !(1..=5).contains(tag) {
            return Err(BAD_TAG);
        }
        let length = usize::from(u16::from_be_bytes([*high, *low]));
        if !length_allowed(*tag, length) {
            return Err(BAD_LENGTH);
        }
        let payload = rest.get(..length).ok_or(CUT_SHORT)?;
        match tag {
            1 => self.hear_all(payload, replies),
            _ => self.bring_event(*tag, payload, replies)?,
        }
        Ok(3 + length)
    }

    /// Tags 2 to 5: the address is judged before what follows it. No other slot can send a message.
    fn bring_event(&mut self, tag: u8, payload: &[u8], replies: &mut Vec<u8>) -> Result<(), u8> {
        let address = usize::from(payload[0]);
        let slot = self.slots.get_mut(address);
        let supply = slot.and_then(Option::as_mut).ok_or(NO_SUPPLY)?;
        let event = event_of(tag, &payload[1..]).ok_or(BAD_VALUE)?;
        let before = empty_registers(supply);
        supply.event(event);
        if calls_for_service(before, supply) {
            line::add_message(replies, address);
        }
        Ok(())
    }

    /// Tag 1: all replies, and then the service messages, lowest address first.
    fn hear_all(&mut self, payload: &[u8], replies: &mut Vec<u8>) {
        let mut reached = Reached::nobody();
        payload.iter().for_each(|byte| self.hear(*byte, replies, &mut reached));
        let slots = &mut reached.slots[..reached.count];
        slots.sort_unstable();
        for slot in slots.iter().map(|slot| usize::from(*slot)) {
            if let (Some(before), Some(supply)) = (reached.before[slot], &self.slots[slot]) {
                if calls_for_service(before, supply) {
                    line::add_message(replies, slot);
                }
            }
        }
    }

    /// Clause "The shared line": one byte of the stream; a reply can come only at a CR.
    fn hear(&mut self, byte: u8, replies: &mut Vec<u8>, reached: &mut Reached) {
        match byte {
            b'\r' => {
                let reading = line::read(&self.kept, self.spoiled);
                self.kept.clear();
                self.spoiled = false;
                self.end_line(reading, replies, reached);
            }
            b'\n' => {}
            0x08 => {
                self.kept.pop();
            }
            _ if self.kept.len() < LINE_ROOM => self.kept.push(byte),
            _ => self.spoiled = true,
        }
    }

    fn end_line(&mut self, reading: Reading, replies: &mut Vec<u8>, reached: &mut Reached) {
        match reading.whom {
            Whom::Address => self.address(reading, replies, reached),
            Whom::Everyone => self.tell_everyone(reading, reached),
            Whom::Selected => self.tell_selected(reading, replies, reached),
        }
    }

    /// Clause "ADR n": the slot selected so far replies to an error, and stays selected.
    fn address(&mut self, reading: Reading, replies: &mut Vec<u8>, reached: &mut Reached) {
        if let Ok(Said::Select(slot)) = reading.said {
            self.selected = self.slots[slot].is_some().then_some(slot);
        }
        self.tell_selected(reading, replies, reached);
    }

    /// Clause "GPV, GPC, GOUT, GRST": each supply judges for itself and nobody replies.
    fn tell_everyone(&mut self, reading: Reading, reached: &mut Reached) {
        if reading.said.is_ok() {
            for (slot, supply) in self.slots.iter_mut().enumerate() {
                let Some(supply) = supply else { continue };
                reached.remember(slot, supply);
                line::obey(supply, reading.said);
            }
        }
    }

    fn tell_selected(&mut self, reading: Reading, replies: &mut Vec<u8>, reached: &mut Reached) {
        let Some(slot) = self.selected else { return };
        if let Some(supply) = &mut self.slots[slot] {
            reached.remember(slot, supply);
            line::add_reply(replies, line::obey(supply, reading.said), reading.checksummed);
        }
    }
}

/// Which of FEVE and SEVE hold nothing.
fn empty_registers(supply: &Supply) -> [bool; 2] {
    [supply.feve == 0, supply.seve == 0]
}

/// Whether a register that was empty before the field is not after it. What rose and was cleared in
/// between is not told.
fn calls_for_service(empty_before: [bool; 2], supply: &Supply) -> bool {
    let now = empty_registers(supply);
    empty_before.iter().zip(now).any(|(before, now)| *before && !now)
}

/// The slots that the lines of a field have reached, with their registers before the field: no other
/// can send a message, and a look at all 31 would cost more than the field itself.
struct Reached {
    count: usize,
    /// The first `count` are the slots, in the order in which they were reached.
    slots: [u8; SLOTS],
    /// By slot; none if it was not reached, so that a line to everyone need not search the list.
    before: [Option<[bool; 2]>; SLOTS],
}

impl Reached {
    fn nobody() -> Reached {
        Reached { count: 0, slots: [0; SLOTS], before: [None; SLOTS] }
    }

    /// Before a supply is told a line. What it held at an earlier line of the field is kept.
    fn remember(&mut self, slot: usize, supply: &Supply) {
        if self.before[slot].is_none() {
            self.before[slot] = Some(empty_registers(supply));
            self.slots[self.count] = slot as u8;
            self.count += 1;
        }
    }
}

/// Clause "A field": how long each tag's payload is.
pub fn length_allowed(tag: u8, length: usize) -> bool {
    match tag {
        1 => (1..=16).contains(&length),
        2 | 4 => length == 2,
        3 => length == 6,
        5 => length == 5,
        _ => false,
    }
}

/// What follows the address; none if a key, target or LINES bit is not known.
fn event_of(tag: u8, rest: &[u8]) -> Option<Event> {
    match (tag, rest) {
        (2, [key]) => Some(Event::Key(match key {
            0 => Key::Output,
            1 => Key::Fold,
            2 => Key::Local,
            _ => return None,
        })),
        (3, [target, step @ ..]) => {
            let target = match target {
                0 => Target::Pv,
                1 => Target::Pc,
                2 => Target::Ovp,
                3 => Target::Uvl,
                _ => return None,
            };
            Some(Event::Knob(target, i32::from_be_bytes(step.try_into().ok()?)))
        }
        (4, [lines]) => (lines & !LINE_BITS == 0).then_some(Event::Lines(*lines)),
        (5, [a, b, c, d]) => Some(Event::Sample {
            volts: u16::from_be_bytes([*a, *b]),
            amperes: u16::from_be_bytes([*c, *d]),
        }),
        _ => None,
    }
}
