//! What generated inputs bring to foldback: cells that charge, what their supplies remember, what
//! leaves that memory and what takes it away.

use std::collections::BTreeMap;

use crate::line::{self, Said};
use crate::share::{self, Call, Entry, Input, Moment, Step};
use crate::supply::{Event, Key, Order, Supply, Target};

/// How often something came, by its name.
pub type Times = BTreeMap<String, usize>;

#[derive(Debug, Default)]
pub struct Foldback {
    /// Samples in current limit that leave an armed supply on, as none was judged CV before them.
    pub charging: usize,
    /// Samples that set the memory, with foldback unarmed and armed.
    pub remembered: [usize; 2],
    /// FOLD trips; those of a supply that had charged since it came on; those of one that was not yet
    /// armed when it began to remember.
    pub trips: usize,
    pub trips_after_charging: usize,
    pub trips_armed_later: usize,
    /// Samples judged CV by their amperes, and yet not remembered: the output was off, or OVP trips.
    pub while_off: usize,
    pub over_voltage: usize,
    /// What a supply with the memory went through and kept it.
    pub kept: Times,
    /// What took the memory away.
    pub forgotten: Times,
    /// The same, where the supply came on again later and charged once more without a trip.
    pub charging_again: Times,
}

/// What matters of a supply's past to what comes next.
#[derive(Default)]
struct Past {
    charged: bool,
    armed_later: bool,
    lost_by: Option<String>,
}

impl Foldback {
    /// Goes through the share of each supply.
    pub fn note(&mut self, fitting: &[u8], calls: &[Call]) {
        for (slot, model) in fitting.iter().enumerate().filter(|(_, model)| **model != 255) {
            let share = share::share(fitting, calls, slot);
            let (mut before, mut past) = (Supply::fresh(*model), Past::default());
            for (entry, step) in share.iter().zip(share::plain_steps(*model, &share)) {
                self.note_step(entry, &before, &step, &mut past);
                before = step.after;
            }
        }
    }

    fn note_step(&mut self, entry: &Entry, before: &Supply, step: &Step, past: &mut Past) {
        let after = &step.after;
        self.note_sample(entry, before, step, past);
        match (before.cv_seen, after.cv_seen) {
            (false, true) => {
                self.remembered[usize::from(after.armed)] += 1;
                *past = Past { armed_later: !after.armed, charged: past.charged, lost_by: None };
            }
            (true, true) => count(&mut self.kept, name_of(entry, before)),
            (true, false) => {
                let way = way_off(entry, before, step);
                past.lost_by = Some(way.clone());
                count(&mut self.forgotten, way);
            }
            (false, false) => {}
        }
        past.charged &= after.output_on();
    }

    fn note_sample(&mut self, entry: &Entry, before: &Supply, step: &Step, past: &mut Past) {
        let after = &step.after;
        if step.judged.as_deref() == Some("CC") && after.armed {
            self.charging += 1;
            past.charged = true;
            if let Some(way) = &past.lost_by {
                count(&mut self.charging_again, way.clone());
            }
        }
        if step.tripped.fold {
            self.trips += 1;
            self.trips_after_charging += usize::from(past.charged);
            self.trips_armed_later += usize::from(past.armed_later);
        }
        let low = after.ampere_reading() < after.pc;
        if low && matches!(share::input(entry), Input::Event(Event::Sample { .. })) {
            self.while_off += usize::from(!before.output_on());
            self.over_voltage += usize::from(step.tripped.ovp);
        }
    }
}

fn count(times: &mut Times, name: String) {
    *times.entry(name).or_default() += 1;
}

/// What turned an output off: the trip if it is one, and whether a line finds AST on.
fn way_off(entry: &Entry, before: &Supply, step: &Step) -> String {
    match name_of(entry, before).as_str() {
        "sample" if step.tripped.ovp => "OVP trip".into(),
        "sample" => "FOLD trip".into(),
        "LINES" if before.ast => "LINES under AST".into(),
        name => name.into(),
    }
}

/// The kind of an entry, with what it says where few things can be said.
fn name_of(entry: &Entry, before: &Supply) -> String {
    match share::input(entry) {
        Input::Event(event) => event_name(event, before).into(),
        Input::Line(reading) => match reading.said {
            Ok(said) if accepted(before, said) => global_mark(entry) + &said_name(said),
            _ => "refused line".into(),
        },
    }
}

fn event_name(event: Event, before: &Supply) -> &'static str {
    match event {
        Event::Key(Key::Output) => "OUTPUT key",
        Event::Key(Key::Fold) => "FOLD key",
        Event::Key(Key::Local) => "LOCAL key",
        Event::Knob(Target::Pc, _) => "PC knob",
        Event::Knob(..) => "another knob",
        Event::Lines(lines) if lines == before.lines => "LINES as before",
        Event::Lines(_) => "LINES",
        Event::Sample { .. } => "sample",
    }
}

fn accepted(before: &Supply, said: Said) -> bool {
    match said {
        Said::Order(order) => before.clone().order(order).is_ok(),
        _ => true,
    }
}

fn said_name(said: Said) -> String {
    let digit = |word: &str, on: bool| format!("{word} {}", u8::from(on));
    match said {
        Said::Order(Order::Out(on)) => digit("OUT", on),
        Said::Order(Order::Fld(on)) => digit("FLD", on),
        Said::Order(Order::Pv(_)) => "PV".into(),
        Said::Order(Order::Pc(_)) => "PC".into(),
        Said::Order(Order::Rmt(_)) => "RMT".into(),
        Said::Order(Order::Rst) => "RST".into(),
        Said::Order(_) => "another order".into(),
        Said::Query(_) => "query".into(),
        Said::Nothing => "empty line".into(),
        Said::Select(_) => unreachable!("no share has an ADR"),
    }
}

/// A G before the order that a global stands for.
fn global_mark(entry: &Entry) -> String {
    let Moment::Line { kept, spoiled, .. } = entry else { return String::new() };
    match line::read(kept, *spoiled).whom {
        line::Whom::Everyone => "G".into(),
        _ => String::new(),
    }
}
