//! A second reading of a list of calls, independent of the rack: the accepted tag 1 bytes are split
//! into lines, then it is decided who is selected at each CR, then what one address's share is. The
//! plain supply run on that share must end as the rack's supply at that address does, and the shares
//! tell whose service messages end each call's replies.

use crate::line;
use crate::rack::{Rack, LEAST_ROOM};
use crate::supply::{Event, Key, Query, Releases, Supply, Target};

/// One field call: the bytes lent and the size of the reply buffer.
#[derive(Clone, Debug)]
pub struct Call {
    pub bytes: Vec<u8>,
    pub room: usize,
}

/// One thing that happened, in order, with the number of the call that brought it.
#[derive(Clone, Debug, PartialEq, Eq)]
pub enum Moment {
    Field { call: usize, tag: u8, payload: Vec<u8> },
    Line { call: usize, kept: Vec<u8>, spoiled: bool },
}

/// An entry of a share is such a moment, too.
pub type Entry = Moment;

impl Moment {
    fn call(&self) -> usize {
        match self {
            Moment::Field { call, .. } | Moment::Line { call, .. } => *call,
        }
    }
}

/// Whether a call on this fitting has none of the seven causes of refusal.
fn accepted(fitting: &[u8], call: &Call) -> bool {
    let bytes = &call.bytes;
    if call.room < LEAST_ROOM || bytes.len() < 3 {
        return false;
    }
    let length = usize::from(bytes[1]) << 8 | usize::from(bytes[2]);
    let sizes = match bytes[0] {
        1 => 1..=16,
        2 | 4 => 2..=2,
        3 => 6..=6,
        5 => 5..=5,
        _ => return false,
    };
    if !sizes.contains(&length) || bytes.len() < 3 + length {
        return false;
    }
    let fitted = |slot: u8| fitting.get(usize::from(slot)).is_some_and(|model| *model != 255);
    match bytes[0] {
        1 => true,
        2 => fitted(bytes[3]) && bytes[4] < 3,
        3 => fitted(bytes[3]) && bytes[4] < 4,
        4 => fitted(bytes[3]) && bytes[4] & 0b0101_1001 == 0,
        _ => fitted(bytes[3]),
    }
}

/// First pass: the accepted fields in order, with their serial bytes split at every CR.
pub fn moments(fitting: &[u8], calls: &[Call]) -> Vec<Moment> {
    let mut found = Vec::new();
    let mut line: Vec<u8> = Vec::new();
    let mut spoiled = false;
    for (call, lent) in calls.iter().enumerate().filter(|(_, lent)| accepted(fitting, lent)) {
        let tag = lent.bytes[0];
        let payload = lent.bytes[3..3 + usize::from(lent.bytes[2])].to_vec();
        if tag != 1 {
            found.push(Moment::Field { call, tag, payload });
            continue;
        }
        for byte in payload {
            match (byte, line.len()) {
                (0x0A, _) => {}
                (0x08, _) => drop(line.pop()),
                (0x0D, _) => {
                    found.push(Moment::Line { call, kept: line.split_off(0), spoiled });
                    spoiled = false;
                }
                (_, 64..) => spoiled = true,
                _ => line.push(byte),
            }
        }
    }
    found
}

/// What kind of line it is, which decides whose share it belongs to.
#[derive(Clone, Debug, PartialEq, Eq)]
enum Sort {
    Adr(usize),
    AdrInError,
    /// A well-formed global, as the order line that it stands for.
    Global(Vec<u8>),
    GlobalInError,
    Other,
}

/// The part before a right checksum; none if the checksum is wrong.
fn without_checksum(kept: &[u8]) -> Option<&[u8]> {
    let [text @ .., b'$', high, low] = kept else {
        return Some(kept);
    };
    let total: u64 = text.iter().map(|byte| u64::from(*byte)).sum();
    let wanted = format!("{:02x}", total % 256);
    let given = [high.to_ascii_lowercase(), low.to_ascii_lowercase()];
    (wanted.as_bytes() == given).then_some(text)
}

fn sort(kept: &[u8], spoiled: bool) -> Sort {
    let Some(text) = without_checksum(kept).filter(|_| !spoiled) else {
        return Sort::Other;
    };
    let mut halves = text.splitn(2, |byte| *byte == b' ');
    let word = String::from_utf8_lossy(halves.next().unwrap_or(b"")).to_ascii_uppercase();
    let parameter = String::from_utf8_lossy(halves.next().unwrap_or(b"")).into_owned();
    let well_formed = match word.as_str() {
        "ADR" => return sort_of_adr(&parameter),
        "GPV" | "GPC" => is_number(&parameter),
        "GOUT" => parameter == "0" || parameter == "1",
        "GRST" => parameter.is_empty(),
        _ => return Sort::Other,
    };
    match well_formed {
        true => Sort::Global(text[1..].to_vec()),
        false => Sort::GlobalInError,
    }
}

fn sort_of_adr(parameter: &str) -> Sort {
    let digits = parameter.chars().all(|digit| digit.is_ascii_digit());
    match parameter.parse::<usize>() {
        Ok(slot) if digits && parameter.len() <= 2 && slot <= 30 => Sort::Adr(slot),
        _ => Sort::AdrInError,
    }
}

fn is_number(text: &str) -> bool {
    let points = text.matches('.').count();
    let digits = text.chars().filter(char::is_ascii_digit).count();
    digits >= 1 && points <= 1 && digits + points == text.chars().count() && text.len() <= 12
}

/// Second pass: the slot selected when each moment came, judged only by the stream before it.
fn selections(fitting: &[u8], moments: &[Moment]) -> Vec<Option<usize>> {
    let mut selected = None;
    let mut held = Vec::new();
    for moment in moments {
        held.push(selected);
        if let Moment::Line { kept, spoiled, .. } = moment {
            if let Sort::Adr(slot) = sort(kept, *spoiled) {
                selected = Some(slot).filter(|slot| fitting[*slot] != 255);
            }
        }
    }
    held
}

/// Third pass: the entries of this address, in order.
pub fn share(fitting: &[u8], calls: &[Call], slot: usize) -> Vec<Entry> {
    let moments = moments(fitting, calls);
    let selected = selections(fitting, &moments);
    let mut entries = Vec::new();
    for (moment, selected) in moments.into_iter().zip(selected) {
        let mine = match &moment {
            Moment::Field { payload, .. } => usize::from(payload[0]) == slot,
            Moment::Line { kept, spoiled, .. } => match sort(kept, *spoiled) {
                Sort::Global(_) => true,
                Sort::Other => selected == Some(slot),
                _ => false,
            },
        };
        if mine {
            entries.push(moment);
        }
    }
    entries
}

/// What one entry did to the plain supply.
#[derive(Clone, Debug)]
pub struct Step {
    pub call: usize,
    pub tripped: Releases,
    pub released: Releases,
    /// What MODE? says after a sample that found the output on.
    pub judged: Option<String>,
    pub after: Supply,
}

/// What an entry says to the plain supply.
pub enum Input {
    Event(Event),
    Line(line::Reading),
}

pub fn input(entry: &Entry) -> Input {
    match entry {
        Moment::Field { tag, payload, .. } => Input::Event(event(*tag, payload)),
        Moment::Line { kept, spoiled, .. } => match sort(kept, *spoiled) {
            Sort::Global(order) => Input::Line(line::read(&order, false)),
            _ => Input::Line(line::read(kept, *spoiled)),
        },
    }
}

/// The payload of an accepted field of tags 2 to 5, read a second time.
fn event(tag: u8, payload: &[u8]) -> Event {
    let pair = |at: usize| u16::from(payload[at]) * 256 + u16::from(payload[at + 1]);
    match tag {
        2 => Event::Key([Key::Output, Key::Fold, Key::Local][usize::from(payload[1])]),
        3 => {
            let targets = [Target::Pv, Target::Pc, Target::Ovp, Target::Uvl];
            let step = (u32::from(pair(2)) << 16 | u32::from(pair(4))) as i32;
            Event::Knob(targets[usize::from(payload[1])], step)
        }
        4 => Event::Lines(payload[1]),
        _ => Event::Sample { volts: pair(1), amperes: pair(3) },
    }
}

/// Runs one entry on the plain supply and returns what trips it set and released.
fn take(supply: &mut Supply, entry: &Entry) -> Step {
    let before = supply.clone();
    let released = match input(entry) {
        Input::Event(event) => {
            supply.event(event);
            before.released_by_event(event)
        }
        Input::Line(reading) => {
            line::obey(supply, reading.said);
            match reading.said {
                Ok(line::Said::Order(order)) => before.released_by_order(order),
                _ => Releases::default(),
            }
        }
    };
    let tripped = Releases {
        fold: supply.fold_trip && !before.fold_trip,
        ovp: supply.ovp_trip && !before.ovp_trip,
    };
    let judged = judged(&before, entry, supply);
    Step { call: entry.call(), tripped, released, judged, after: supply.clone() }
}

fn judged(before: &Supply, entry: &Entry, after: &Supply) -> Option<String> {
    let sample = matches!(entry, Moment::Field { tag: 5, .. });
    (sample && before.output_on()).then(|| after.clone().ask(Query::Mode).to_string())
}

/// The plain supply of that model, run on a share from fresh.
pub fn plain_steps(model: u8, share: &[Entry]) -> Vec<Step> {
    let mut supply = Supply::fresh(model);
    share.iter().map(|entry| take(&mut supply, entry)).collect()
}

/// How much a list of calls exercised, so that a run can show that it tested something.
#[derive(Clone, Copy, Debug, Default)]
pub struct Tally {
    pub calls: usize,
    pub refused: usize,
    pub entries: usize,
    pub trips: usize,
    pub releases: usize,
    pub messages: usize,
}

impl Tally {
    pub fn add(&mut self, other: Tally) {
        self.calls += other.calls;
        self.refused += other.refused;
        self.entries += other.entries;
        self.trips += other.trips;
        self.releases += other.releases;
        self.messages += other.messages;
    }
}

/// Checks one list of calls as a whole: shares, margins, off until release, foldback and messages.
pub fn check(fitting: &[u8], calls: &[Call]) -> Result<Tally, String> {
    let (racks, said) = each_call(fitting, calls)?;
    let mut speakers = vec![Vec::new(); calls.len()];
    let mut tally = Tally { calls: calls.len(), ..Tally::default() };
    tally.refused = calls.iter().filter(|call| !accepted(fitting, call)).count();
    for (slot, model) in fitting.iter().enumerate().filter(|(_, model)| **model != 255) {
        let steps = plain_steps(*model, &share(fitting, calls, slot));
        let wrong = |what: String| format!("slot {slot}: {what}");
        check_states(*model, slot, &racks, &steps).map_err(wrong)?;
        check_off_until_release(slot, &racks, &steps).map_err(wrong)?;
        check_trips_end_by_release(*model, &steps).map_err(wrong)?;
        check_foldback(&steps).map_err(wrong)?;
        calls_that_fill_a_register(*model, &steps).for_each(|call| speakers[call].push(slot));
        tally.entries += steps.len();
        tally.trips += steps.iter().filter(|step| step.tripped != Releases::default()).count();
        tally.releases += steps.iter().filter(|step| step.released != Releases::default()).count();
    }
    for (call, (said, speakers)) in said.iter().zip(&speakers).enumerate() {
        check_messages(said, speakers).map_err(|what| format!("call {call}: {what}"))?;
        tally.messages += speakers.len();
    }
    Ok(tally)
}

/// The calls after which this supply has an event register that held nothing before them.
fn calls_that_fill_a_register(model: u8, steps: &[Step]) -> impl Iterator<Item = usize> + '_ {
    let mut before = Supply::fresh(model);
    let entries_of_a_call = steps.chunk_by(|one, next| one.call == next.call);
    entries_of_a_call.filter_map(move |entries| {
        let last = entries.last()?;
        let was = std::mem::replace(&mut before, last.after.clone());
        let filled = |register: fn(&Supply) -> u8| register(&was) == 0 && register(&before) != 0;
        (filled(|it| it.feve) || filled(|it| it.seve)).then_some(last.call)
    })
}

/// The messages of these slots end what was said, and there is no other line of that kind in it.
fn check_messages(said: &[u8], speakers: &[usize]) -> Result<(), String> {
    let messages: String = speakers.iter().map(|slot| format!("!{slot:02}\r")).collect();
    match said.strip_suffix(messages.as_bytes()) {
        Some(replies) if !replies.contains(&b'!') => Ok(()),
        _ => Err(format!("{} should end with {messages:?} alone", said.escape_ascii())),
    }
}

/// The rack after each call, and what it said; a call must be refused exactly if it has a cause, and
/// must then leave the rack as it was.
fn each_call(fitting: &[u8], calls: &[Call]) -> Result<(Vec<Rack>, Vec<Vec<u8>>), String> {
    let mut rack = Rack::fit(fitting).map_err(|number| format!("fitting refused {number}"))?;
    let (mut after, mut said) = (Vec::new(), Vec::new());
    for (at, call) in calls.iter().enumerate() {
        let before = rack.clone();
        let answer = rack.call(&call.bytes, call.room);
        if answer.is_ok() != accepted(fitting, call) {
            return Err(format!("call {at}: accepted by one reading and refused by the other"));
        }
        if answer.is_err() && rack != before {
            return Err(format!("call {at}: refused, and yet the rack changed"));
        }
        let (used, replies) = answer.unwrap_or_default();
        if used > call.bytes.len() || replies.len() > LEAST_ROOM {
            return Err(format!("call {at}: more bytes used or answered than there can be"));
        }
        after.push(rack.clone());
        said.push(replies);
    }
    Ok((after, said))
}

/// After every call the slot's supply is the plain one on the share so far, within its limits.
fn check_states(model: u8, slot: usize, racks: &[Rack], steps: &[Step]) -> Result<(), String> {
    let mut plain = Supply::fresh(model);
    let mut next = 0;
    for (call, rack) in racks.iter().enumerate() {
        while next < steps.len() && steps[next].call <= call {
            plain = steps[next].after.clone();
            next += 1;
        }
        if rack.slots[slot].as_ref() != Some(&plain) {
            return Err(format!(
                "after call {call} the rack has {:?}, the share {plain:?}",
                rack.slots[slot]
            ));
        }
        if !plain.within_limits() {
            return Err(format!("after call {call} margins or limits are broken: {plain:?}"));
        }
    }
    Ok(())
}

/// From each trip to the first release of that trip the output is off, entry by entry and
/// call by call.
fn check_off_until_release(slot: usize, racks: &[Rack], steps: &[Step]) -> Result<(), String> {
    let kinds: [fn(&Releases) -> bool; 2] = [|which| which.fold, |which| which.ovp];
    for kind in kinds {
        for (at, step) in steps.iter().enumerate().filter(|(_, step)| kind(&step.tripped)) {
            let later = steps[at + 1..].iter().position(|later| kind(&later.released));
            let end = later.map_or(steps.len(), |ahead| at + 1 + ahead);
            let last_call = steps.get(end).map_or(racks.len(), |release| release.call);
            let on_in_share = steps[at..end].iter().any(|step| step.after.output_on());
            let on = |rack: &Rack| rack.slots[slot].as_ref().is_some_and(Supply::output_on);
            if on_in_share || racks[step.call..last_call].iter().any(on) {
                return Err(format!(
                    "on again after the trip of call {} without release",
                    step.call
                ));
            }
        }
    }
    Ok(())
}

/// A trip ends at its first release and at nothing else.
fn check_trips_end_by_release(model: u8, steps: &[Step]) -> Result<(), String> {
    let mut before = Supply::fresh(model);
    for step in steps {
        let after = &step.after;
        let fold_ends = before.fold_trip && step.released.fold;
        let ovp_ends = before.ovp_trip && step.released.ovp;
        let fold_right = after.fold_trip == (before.fold_trip && !fold_ends || step.tripped.fold);
        let ovp_right = after.ovp_trip == (before.ovp_trip && !ovp_ends || step.tripped.ovp);
        if !fold_right || !ovp_right {
            return Err(format!("call {}: a trip and its releases do not agree", step.call));
        }
        before = step.after.clone();
    }
    Ok(())
}

/// Foldback trips at a sample in current limit if one was judged CV since the output came on, and at
/// no other; the supply remembers just that, and nothing while its output is off.
fn check_foldback(steps: &[Step]) -> Result<(), String> {
    let mut remembered = false;
    for step in steps {
        let (after, judged) = (&step.after, step.judged.as_deref());
        let missed = remembered && after.armed && judged == Some("CC");
        if missed || step.tripped.fold && !remembered {
            return Err(format!(
                "call {}: foldback and the samples before do not agree",
                step.call
            ));
        }
        remembered = after.output_on() && (remembered || judged == Some("CV"));
        if after.cv_seen != remembered {
            return Err(format!("call {}: the CV memory should be {remembered}", step.call));
        }
    }
    Ok(())
}
