//! A rack of the controller and one of the model, given the same calls.

use std::collections::BTreeSet;

use crate::rack::{Rack as Model, BAD_FITTING, EMPTY, SLOTS};

use super::library::{Controller, Done, Rack};
use super::outcome::{difference, name_of, parted, Outcome, State, FENCE};

/// Buffers that are too small: every field is tried with each of them first.
pub const SMALL: [usize; 3] = [0, 1, 511];
/// Buffers that are accepted, in turn.
pub const LARGE: [usize; 4] = [512, 513, 600, 4096];
const NO_SUPPLIES: [u8; SLOTS] = [EMPTY; SLOTS];
const TAGS: std::ops::RangeInclusive<u8> = 1..=5;
/// The refusals that a call can draw with any accepted buffer.
const REFUSALS: std::ops::RangeInclusive<u8> = 2..=7;

/// What all calls so far covered.
#[derive(Default)]
pub struct Tally {
    pub calls: u64,
    pub lists: u64,
    accepted: BTreeSet<(u8, usize)>,
    refused: BTreeSet<(u8, usize)>,
    fitting: BTreeSet<u8>,
}

impl Tally {
    /// The first thing that no call covered.
    pub fn missing(&self) -> Option<String> {
        let kinds = |numbers: std::ops::RangeInclusive<u8>| {
            numbers.flat_map(|number| LARGE.map(|room| (number, room)))
        };
        let tag = kinds(TAGS).find(|kind| !self.accepted.contains(kind));
        let small = SMALL.map(|room| (1, room)).into_iter();
        let refusal = small.chain(kinds(REFUSALS)).find(|kind| !self.refused.contains(kind));
        let list = [0, BAD_FITTING].into_iter().find(|code| !self.fitting.contains(code));
        tag.map(|(tag, room)| format!("no field of tag {tag} was accepted with {room} bytes"))
            .or(refusal.map(|(code, room)| format!("no refusal {code} came with {room} bytes")))
            .or(list.map(|code| format!("no fitting list drew {code}")))
    }
}

/// The two racks, and how the controller's was when it was fitted.
pub struct Bench<'a> {
    controller: &'a dyn Controller,
    tally: &'a mut Tally,
    rack: Rack,
    model: Model,
    fitted: State,
}

impl<'a> Bench<'a> {
    /// Fits the list and compares the results; a refused list gives a rack of empty slots.
    pub fn fit(
        controller: &'a dyn Controller,
        tally: &'a mut Tally,
        list: &[u8],
    ) -> Result<Bench<'a>, String> {
        let made = controller.fit(list);
        let (code, models) = match Model::fit(list) {
            Ok(_) => (0, list),
            Err(code) => (code, &NO_SUPPLIES[..]),
        };
        let model = Model::fit(models).map_err(|code| format!("the model refuses with {code}"))?;
        let fitted = State::of(&made.rack);
        // The library may choose what an empty slot holds, but it must always be the same.
        let bare = State::of(&controller.fit(&NO_SUPPLIES).rack);
        let wanted = State::wanted(&model, &bare, &fitted).with_models(models);
        let fault = parted(&[code], &[made.code], |_| "code".into())
            .or_else(|| parted(&wanted.0, &fitted.0, name_of));
        if let Some(what) = fault {
            return Err(format!("fit of {}: {what}", hexadecimal(list)));
        }
        tally.fitting.insert(code);
        tally.lists += 1;
        Ok(Bench { controller, tally, rack: made.rack, model, fitted })
    }

    pub fn model(&self) -> &Model {
        &self.model
    }

    pub fn rack(&self) -> &Rack {
        &self.rack
    }

    /// One call on both racks, with everything compared; returns the code. Memory after the lent
    /// bytes must make no difference.
    pub fn call(&mut self, bytes: &[u8], behind: &[u8], room: usize) -> Result<u8, String> {
        let number = self.tally.calls;
        self.tally.calls += 1;
        let memory = [bytes, behind];
        let (unmoved, seen) = called(self.controller, &mut self.rack, memory, room, number);
        let wanted = self.wanted(bytes, room, unmoved, &seen.state);
        if let Some(what) = difference(&wanted, &seen) {
            return Err(format!("call of {} with {room} bytes: {what}", hexadecimal(bytes)));
        }
        self.note(wanted.code, bytes, room);
        Ok(wanted.code)
    }

    /// What the model says the call must return; a refusal leaves everything as it was.
    fn wanted(&mut self, bytes: &[u8], room: usize, unmoved: Outcome, seen: &State) -> Outcome {
        match self.model.call(bytes, room) {
            Err(code) => Outcome { code, ..unmoved },
            Ok((used, reply)) => {
                let mut buffer = unmoved.buffer;
                buffer[FENCE..FENCE + reply.len()].copy_from_slice(&reply);
                let state = State::wanted(&self.model, &self.fitted, seen);
                Outcome { used, length: reply.len(), buffer, state, ..unmoved }
            }
        }
    }

    fn note(&mut self, code: u8, bytes: &[u8], room: usize) {
        match code {
            0 => self.tally.accepted.insert((bytes[0], room)),
            _ => self.tally.refused.insert((code, room)),
        };
    }

    /// The call, which must draw this code.
    pub fn draws(&mut self, bytes: &[u8], room: usize, code: u8) -> Result<(), String> {
        match self.call(bytes, &[], room)? {
            drawn if drawn == code => Ok(()),
            drawn => {
                Err(format!("{} with {room} bytes drew {drawn}, not {code}", hexadecimal(bytes)))
            }
        }
    }

    /// The next of the accepted buffers.
    pub fn next_room(&self) -> usize {
        LARGE[self.tally.calls as usize % LARGE.len()]
    }
}

/// A call with the first bytes, the others following them in memory: how all would be if it changed
/// nothing and returned nothing, and how it is.
pub fn called(
    controller: &dyn Controller,
    rack: &mut Rack,
    memory: [&[u8]; 2],
    room: usize,
    number: u64,
) -> (Outcome, Outcome) {
    let (count, lent) = (memory[0].len(), memory.concat());
    let unmoved = Outcome {
        code: 0,
        used: 0,
        length: 0,
        buffer: pattern(number, room + 2 * FENCE),
        lent: lent.clone(),
        state: State::of(rack),
    };
    let mut buffer = unmoved.buffer.clone();
    let reply = &mut buffer[FENCE..FENCE + room];
    let Done { code, used, length } = controller.call(rack, &lent[..count], reply);
    (unmoved, Outcome { code, used, length, buffer, lent, state: State::of(rack) })
}

/// Bytes to fill a buffer with: at each place a byte different from that in the call before.
fn pattern(call: u64, count: usize) -> Vec<u8> {
    (0..count as u64).map(|at| (at * 151 + (at >> 8) * 7 + call * 97 + 13) as u8).collect()
}

/// The first bytes of a list, to identify it.
pub fn hexadecimal(bytes: &[u8]) -> String {
    const SHOWN: usize = 40;
    let shown: Vec<String> = bytes.iter().take(SHOWN).map(|byte| format!("{byte:02X}")).collect();
    match bytes.len() {
        0 => "no bytes".into(),
        1..=SHOWN => shown.join(" "),
        count => format!("{} .. ({count} bytes)", shown.join(" ")),
    }
}
