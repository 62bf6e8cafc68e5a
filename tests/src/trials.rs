//! The table of trials: every order, key, knob step, event and query on every model, with the
//! values just inside and just outside each limit and margin. Nothing in it is left to chance: what
//! does not matter to a trial is drawn from a fixed seed.

use std::collections::{BTreeSet, HashSet};

use crate::generate::Draw;
use crate::supply::{Event, Key, Mode, Order, Query, Supply, Target};
use crate::supply::{AC, ENA, LINE_BITS, MODELS, OTP, SO};
use crate::trial::{Act, Trial, CV_SEEN, EXPECTED, FOLD_TRIP, QUERIES};

const SEED: u64 = 3;
const TARGETS: [Target; 4] = [Target::Pv, Target::Pc, Target::Ovp, Target::Uvl];
const KEYS: [Key; 3] = [Key::Output, Key::Fold, Key::Local];
const MODES: [Mode; 3] = [Mode::Local, Mode::Remote, Mode::LockedOut];
/// Numbers that a supply of any model refuses: more than 31 and 32 bits hold, and the most that 12
/// digits can say in ticks.
const FAR: [i64; 3] = [1 << 31, (1 << 32) + 7, 9_999_999_999_990_000];
/// The largest knob steps of both signs, and the smallest.
const STEPS: [i32; 7] = [i32::MIN, i32::MIN + 1, -1, 0, 1, i32::MAX - 1, i32::MAX];
/// Bytes for FENA and FEVE: none, all, and bits apart.
const REGISTERS: [u8; 5] = [0, 255, 0b0101_0010, 0b0010_1100, 0b1000_0001];
/// Bytes for SENA and SEVE, which have only these bits: none, all, and bits apart.
const STATUS_REGISTERS: [u8; 5] = [0, 0x8F, 0x05, 0x0A, 0x84];
/// Bytes that SENA is ordered to: each bit, and what it keeps and drops together.
const ENABLES: [u8; 12] = [1, 2, 4, 8, 16, 32, 64, 128, 0, 0x70, 0x8F, 0xFF];
/// Which trips are set: FOLD, OVP. Fields never lead to both, but each sentence is about one.
const TRIPS: [(bool, bool); 4] = [(false, false), (true, false), (false, true), (true, true)];

/// All trials as text, one per line and no line twice, followed by the wrong lines.
pub fn table() -> String {
    let mut seen = HashSet::new();
    let right = all().into_iter().map(|trial| trial.line());
    right.chain(wrong()).filter(|line| seen.insert(line.clone())).collect()
}

/// One trial with each expected number changed in turn: a program that reports none of them
/// compares nothing. Then some that are wrong about foldback.
pub fn wrong() -> Vec<String> {
    let trial = Trial { before: Supply::fresh(0), act: Act::Query(Query::Flt) };
    let each = (0..EXPECTED).map(|number| trial.line_wrong_at(number));
    each.chain(wrong_about_foldback()).collect()
}

/// A sample judged CV that is not remembered, one in current limit that is, one that trips without
/// the memory, and an output that goes off and keeps it.
fn wrong_about_foldback() -> [String; 4] {
    let on = Supply { pc: 10_000, want: true, armed: true, ..Supply::fresh(0) };
    let sample = |amperes| Act::Event(Event::Sample { volts: 0, amperes });
    let below = Trial { before: on.clone(), act: sample(TEN_AMPERES - 1) };
    let in_limit = Trial { before: on.clone(), act: sample(TEN_AMPERES) };
    let off = Trial { before: Supply { cv_seen: true, ..on }, act: Act::Order(Order::Out(false)) };
    [
        below.line_wrong_at(CV_SEEN),
        in_limit.line_wrong_at(CV_SEEN),
        in_limit.line_wrong_at(FOLD_TRIP),
        off.line_wrong_at(CV_SEEN),
    ]
}

pub fn all() -> Vec<Trial> {
    let mut table = Table { trials: Vec::new(), draw: Draw::new(SEED) };
    for model in 0..MODELS.len() as u8 {
        let standings = Standings::of(model);
        table.at_limits(&standings);
        table.readings(model);
        table.resets(&standings);
    }
    table.knob_in_every_mode();
    table.lines();
    table.keys();
    table.output_orders();
    table.switch_orders();
    table.register_orders();
    table.status_orders();
    table.status_rises();
    table.memories();
    table.faults_told();
    table.queries_in_every_mode();
    table.trials
}

/// Supplies of one model whose settings are fresh, far from limits and margins, exactly at both
/// margins, with OVP at its least, and as high as they go.
struct Standings {
    fresh: Supply,
    apart: Supply,
    tight: Supply,
    low: Supply,
    high: Supply,
}

impl Standings {
    fn of(model: u8) -> Standings {
        let limits = &MODELS[usize::from(model)];
        let fresh = Supply::fresh(model);
        let apart = standing(&fresh, limits.rated_volts * 2 / 3 + 1, limits.rated_amperes / 3 + 1);
        let apart = Supply {
            ovp: (apart.range(Target::Ovp).0 + limits.ovp_most) / 2,
            uvl: apart.range(Target::Uvl).1 / 2,
            ..apart
        };
        let tight = standing(&fresh, limits.rated_volts / 25 * 20, limits.pc_most());
        let tight = Supply { ovp: tight.pv / 20 * 21, uvl: tight.pv / 20 * 19, ..tight };
        let low = Supply { ovp: limits.ovp_least, ..fresh.clone() };
        let low = standing(&low, low.range(Target::Pv).1, 1);
        let low = Supply { uvl: low.range(Target::Uvl).1, ..low };
        let high = standing(&fresh, fresh.range(Target::Pv).1, limits.rated_amperes);
        let high = Supply { uvl: high.range(Target::Uvl).1, ..high };
        Standings { fresh, apart, tight, low, high }
    }
}

fn standing(supply: &Supply, pv: i64, pc: i64) -> Supply {
    Supply { pv, pc, ..supply.clone() }
}

/// The values one below, at and one above each of these.
fn around(bounds: &[i64]) -> Vec<i64> {
    bounds.iter().flat_map(|bound| [bound - 1, *bound, bound + 1]).collect()
}

/// Where an order for this target meets a limit of the model.
fn limits(supply: &Supply, target: Target) -> Vec<i64> {
    let model = supply.limits();
    match target {
        Target::Pv => vec![model.pv_most()],
        Target::Pc => vec![model.pc_most()],
        Target::Ovp => vec![model.ovp_least, model.ovp_most],
        Target::Uvl => vec![model.uvl_most],
    }
}

/// Where it meets a margin, truncated to a whole tick.
fn margins(supply: &Supply, target: Target) -> Vec<i64> {
    match target {
        Target::Pv => vec![20 * supply.ovp / 21, 20 * supply.uvl / 19],
        Target::Pc => vec![],
        Target::Ovp => vec![21 * supply.pv / 20],
        Target::Uvl => vec![19 * supply.pv / 20],
    }
}

fn set(target: Target, value: i64) -> Order {
    match target {
        Target::Pv => Order::Pv(value),
        Target::Pc => Order::Pc(value),
        Target::Ovp => Order::Ovp(value),
        Target::Uvl => Order::Uvl(value),
    }
}

/// The first count whose reading is at least this value.
fn first_count(figure: i64, rating: i64) -> u16 {
    ((figure * 50_000 + rating - 1) / rating) as u16
}

/// WANT and the trips in all combinations; a FOLD trip is set only if ARMED is on.
fn outputs(supply: &Supply) -> Vec<Supply> {
    let wants = [false, true].into_iter();
    let ways = wants.flat_map(|want| TRIPS.map(|trips| (want, trips)));
    ways.map(|(want, trips)| with_trips(Supply { want, ..supply.clone() }, trips)).collect()
}

fn with_trips(supply: Supply, (fold_trip, ovp_trip): (bool, bool)) -> Supply {
    Supply { fold_trip, ovp_trip, armed: supply.armed || fold_trip, ..supply }
}

/// Each LINES byte that a field may bring.
fn line_bytes() -> impl Iterator<Item = u8> {
    (0..=u8::MAX).filter(|byte| byte & !LINE_BITS == 0)
}

/// Supplies at 10 A of model 0, by PC in constant voltage and in current limit: on, and off by an
/// order, a line and each trip.
fn regulated() -> Vec<Supply> {
    let reads = Supply { ampere_count: TEN_AMPERES, want: true, ..Supply::fresh(0) };
    let [cv, cc] = [10_001, 10_000].map(|pc| Supply { pc, ..reads.clone() });
    vec![
        cv.clone(),
        cc.clone(),
        Supply { want: false, ..cv.clone() },
        Supply { want: false, armed: true, ..cc.clone() },
        Supply { lines: SO, ast: true, ..cv.clone() },
        Supply { lines: AC | ENA, ..cc.clone() },
        with_trips(cc, (true, false)),
        with_trips(cv, (false, true)),
    ]
}

/// The ampere count that reads 10 A on model 0, and the volt count that reads its highest OVP.
const TEN_AMPERES: u16 = 5_000;
const HIGHEST_OVP: u16 = 62_500;

/// What can make a bit of STAT rise or fall, and what cannot.
fn status_acts() -> Vec<Act> {
    let orders = [
        Order::Pc(10_000),
        Order::Pc(10_001),
        Order::Out(false),
        Order::Out(true),
        Order::Fld(false),
        Order::Fld(true),
        Order::Ast(true),
        Order::Rmt(Mode::Local),
        Order::Rmt(Mode::Remote),
        Order::Sena(255),
        Order::Cls,
        Order::Rst,
    ];
    let queries = [Query::Feve, Query::Seve, Query::Stat, Query::Stt];
    let sample = |volts, amperes| Event::Sample { volts, amperes };
    let events = [
        Event::Key(Key::Output),
        Event::Key(Key::Fold),
        Event::Key(Key::Local),
        Event::Knob(Target::Pc, 1),
        Event::Knob(Target::Pc, -1),
        Event::Lines(0),
        Event::Lines(SO),
        sample(0, TEN_AMPERES - 1),
        sample(0, TEN_AMPERES + 1),
        sample(u16::MAX, 0),
    ];
    let orders = orders.into_iter().map(Act::Order);
    orders.chain(queries.map(Act::Query)).chain(events.map(Act::Event)).collect()
}

/// Every order, with one that is refused where it can be, every query, and the empty line.
fn every_line() -> Vec<Act> {
    let switches = [false, true].into_iter();
    let switches = switches.flat_map(|on| [Order::Out(on), Order::Fld(on), Order::Ast(on)]);
    let orders = [
        Order::Pv(1),
        Order::Pv(FAR[0]),
        Order::Pc(0),
        Order::Pc(9_999),
        Order::Pc(10_000),
        Order::Pc(10_001),
        Order::Pc(FAR[0]),
        Order::Ovp(70_000),
        Order::Ovp(0),
        Order::Ovm,
        Order::Uvl(0),
        Order::Uvl(1),
        Order::Fena(255),
        Order::Sena(255),
        Order::Cls,
        Order::Rst,
    ];
    let orders = orders.into_iter().chain(switches).chain(MODES.map(Order::Rmt));
    let lines = orders.map(Act::Order).chain(QUERIES.map(Act::Query));
    lines.chain([Act::Nothing]).collect()
}

/// Keys, knob steps and LINES bytes for a supply in local mode.
fn every_event_but_samples() -> Vec<Act> {
    let keys = KEYS.into_iter().map(Event::Key);
    let knob = TARGETS.into_iter().flat_map(|target| [-1, 1].map(|step| Event::Knob(target, step)));
    let lines = [0, AC, OTP, SO, ENA].map(Event::Lines);
    keys.chain(knob).chain(lines).map(Act::Event).collect()
}

/// Samples around 10 A, below OVP and at it.
fn samples_around_pc() -> Vec<Act> {
    let amperes = [0, TEN_AMPERES - 1, TEN_AMPERES, TEN_AMPERES + 1].into_iter();
    let counts = amperes.flat_map(|amperes| [HIGHEST_OVP - 1, HIGHEST_OVP].map(|it| (it, amperes)));
    counts.map(|(volts, amperes)| Act::Event(Event::Sample { volts, amperes })).collect()
}

struct Table {
    trials: Vec<Trial>,
    draw: Draw,
}

impl Table {
    fn event(&mut self, before: Supply, event: Event) {
        self.trials.push(Trial { before, act: Act::Event(event) });
    }

    fn order(&mut self, before: Supply, order: Order) {
        self.trials.push(Trial { before, act: Act::Order(order) });
    }

    fn ask(&mut self, before: Supply, query: Query) {
        self.trials.push(Trial { before, act: Act::Query(query) });
    }

    fn nothing(&mut self, before: Supply) {
        self.trials.push(Trial { before, act: Act::Nothing });
    }

    fn coin(&mut self) -> bool {
        self.draw.below(2) == 1
    }

    /// A supply of any model with fresh settings and no trip; switches, MODE, registers and the
    /// CV memory are drawn. Fields never lead to that memory with the output off, but the sentence
    /// that forgets it is about every event.
    fn any(&mut self) -> Supply {
        let model = self.draw.below(MODELS.len() as u64) as u8;
        Supply {
            want: self.coin(),
            armed: self.coin(),
            ast: self.coin(),
            mode: self.draw.pick(&MODES),
            fena: self.draw.pick(&REGISTERS),
            feve: self.draw.pick(&REGISTERS),
            sena: self.draw.pick(&STATUS_REGISTERS),
            seve: self.draw.pick(&STATUS_REGISTERS),
            cv_seen: self.coin(),
            ..Supply::fresh(model)
        }
    }

    /// Orders, knob steps, samples and queries around every limit and margin of one model.
    fn at_limits(&mut self, all: &Standings) {
        for target in TARGETS {
            self.orders(&all.fresh, target, &[0, 1]);
            self.orders(&all.fresh, target, &FAR);
        }
        for target in [Target::Pv, Target::Ovp, Target::Uvl] {
            self.orders(&all.tight, target, &around(&margins(&all.tight, target)));
            self.knob(&all.tight, target);
            for supply in [&all.apart, &all.low, &all.high] {
                self.orders_at_bounds(supply, target);
                self.knob(supply, target);
            }
        }
        self.orders_at_bounds(&all.apart, Target::Pc);
        self.knob(&all.apart, Target::Pc);
        for supply in [&all.fresh, &all.apart, &all.tight] {
            self.samples(supply);
        }
        for supply in [&all.apart, &all.tight, &all.low] {
            self.figures(supply);
        }
    }

    /// Orders for 0, for the present value, and around each limit and margin.
    fn orders_at_bounds(&mut self, supply: &Supply, target: Target) {
        let mut values = vec![0, *supply.clone().setting(target)];
        values.extend(around(&limits(supply, target)));
        values.extend(around(&margins(supply, target)));
        self.orders(supply, target, &values);
    }

    /// An order for each of these values, in any MODE.
    fn orders(&mut self, supply: &Supply, target: Target, values: &[i64]) {
        let values: BTreeSet<i64> = values.iter().copied().filter(|value| *value >= 0).collect();
        for value in values {
            let mode = self.draw.pick(&MODES);
            self.order(Supply { mode, ..supply.clone() }, set(target, value));
        }
    }

    /// Knob steps that end inside, at, just past and far past each bound.
    fn knob(&mut self, supply: &Supply, target: Target) {
        let (least, most) = supply.range(target);
        let now = *supply.clone().setting(target);
        let ends = [least - 1, least, most - 1, most, most + 1];
        let mut steps = ends.map(|end| (end - now) as i32).to_vec();
        steps.extend([0, i32::MIN, i32::MAX]);
        for step in steps {
            self.event(supply.clone(), Event::Knob(target, step));
        }
    }

    /// Samples around OVP and PC and at the ends, ARMED on and off, with the CV memory and without
    /// it; then with the output off.
    fn samples(&mut self, supply: &Supply) {
        let limits = supply.limits();
        let volts = first_count(supply.ovp, limits.rated_volts);
        let amperes = first_count(supply.pc, limits.rated_amperes);
        let (below, under) = (volts - 1, amperes.saturating_sub(1));
        let on = Supply { want: true, volt_count: 1, ampere_count: 2, ..supply.clone() };
        for (armed, cv_seen) in [(false, false), (false, true), (true, false), (true, true)] {
            for (volts, amperes) in [
                (below, under),
                (below, amperes),
                (volts, under),
                (volts, amperes),
                (0, 0),
                (0, u16::MAX),
                (u16::MAX, 0),
            ] {
                let (mode, fena) = (self.draw.pick(&MODES), self.draw.pick(&REGISTERS));
                let supply = Supply { armed, mode, fena, cv_seen, ..on.clone() };
                self.event(supply, Event::Sample { volts, amperes });
            }
        }
        self.samples_while_off(&Supply { armed: true, ..on }, volts, amperes);
    }

    /// Counts that would trip if the output were not off: by an order, by a line or by a trip.
    fn samples_while_off(&mut self, on: &Supply, volts: u16, amperes: u16) {
        let lines = self.draw.pick(&[AC, OTP, SO, ENA]);
        let trips = self.draw.pick(&TRIPS[1..]);
        for off in [
            Supply { want: false, ..on.clone() },
            Supply { lines, ..on.clone() },
            with_trips(on.clone(), trips),
        ] {
            let (volts, cv_seen) = (self.draw.pick(&[0, volts]), self.coin());
            self.event(Supply { cv_seen, ..off }, Event::Sample { volts, amperes });
        }
    }

    /// The four settings as queries show them; MODE? and STAT? around PC; STT?.
    fn figures(&mut self, supply: &Supply) {
        for query in [Query::Pv, Query::Pc, Query::Ovp, Query::Uvl] {
            self.ask(supply.clone(), query);
        }
        let amperes = first_count(supply.pc, supply.limits().rated_amperes);
        for ampere_count in [amperes - 1, amperes, u16::MAX] {
            let on = Supply { ampere_count, want: true, ..supply.clone() };
            let volt_count = self.draw.pick(&[0, 49_999, u16::MAX]);
            self.ask(on.clone(), Query::Mode);
            self.ask(on.clone(), Query::Stat);
            self.ask(Supply { volt_count, ..on }, Query::Stt);
        }
    }

    /// MV? and MC? at the ends, around the rating, and at counts that are truncated.
    fn readings(&mut self, model: u8) {
        for count in [0, 1, 49_999, 50_000, 50_001, u16::MAX, self.draw.any() as u16] {
            let other = self.draw.any() as u16;
            let fresh = Supply::fresh(model);
            let volts = Supply { volt_count: count, ampere_count: other, ..fresh.clone() };
            self.ask(volts, Query::Mv);
            let amperes = Supply { volt_count: other, ampere_count: count, ..fresh };
            self.ask(amperes, Query::Mc);
        }
    }

    /// RST and OVM in many states.
    fn resets(&mut self, all: &Standings) {
        for settings in [&all.apart, &all.tight, &all.low] {
            let supply = Supply {
                model: settings.model,
                pv: settings.pv,
                pc: settings.pc,
                ovp: settings.ovp,
                uvl: settings.uvl,
                lines: self.draw.any() as u8 & LINE_BITS,
                volt_count: self.draw.any() as u16,
                ampere_count: self.draw.any() as u16,
                ..self.any()
            };
            self.order(supply.clone(), Order::Ovm);
            self.order(supply.clone(), Order::Rst);
            let trips = self.draw.pick(&TRIPS[1..]);
            self.order(with_trips(supply, trips), Order::Rst);
        }
    }

    /// The knob, which acts only in MODE 0.
    fn knob_in_every_mode(&mut self) {
        for target in TARGETS {
            for mode in MODES {
                for step in STEPS {
                    let supply = Supply { mode, ..self.any() };
                    self.event(supply, Event::Knob(target, step));
                }
            }
        }
    }

    /// Each LINES byte after each, with AST on and off, and trips set or not.
    fn lines(&mut self) {
        for before in line_bytes() {
            for after in line_bytes() {
                for ast in [false, true] {
                    let supply = Supply { ast, lines: before, ..self.any() };
                    self.event(supply, Event::Lines(after));
                    let supply = Supply { ast, lines: before, ..self.any() };
                    let trips = self.draw.pick(&TRIPS[1..]);
                    self.event(with_trips(supply, trips), Event::Lines(after));
                }
            }
        }
    }

    /// Every key in every MODE, with the output on, and off for each reason.
    fn keys(&mut self) {
        for key in KEYS {
            let lines: &[u8] = match key {
                Key::Output => &[0, 0, AC, OTP, SO, ENA, LINE_BITS],
                Key::Fold | Key::Local => &[0, 0, OTP],
            };
            for mode in MODES {
                for (at, lines) in lines.iter().enumerate() {
                    let supply = Supply { mode, lines: *lines, ..self.any() };
                    self.key(&Supply { armed: at % 2 == 1, ..supply }, key);
                }
            }
        }
    }

    fn key(&mut self, supply: &Supply, key: Key) {
        for supply in outputs(supply) {
            self.event(supply, Event::Key(key));
        }
    }

    /// OUT 1 and OUT 0 at each LINES byte, with WANT on and off and each trip.
    fn output_orders(&mut self) {
        for on in [false, true] {
            for lines in line_bytes() {
                for supply in outputs(&Supply { lines, ..self.any() }) {
                    let mode = self.draw.pick(&MODES);
                    self.order(Supply { mode, ..supply }, Order::Out(on));
                }
            }
        }
    }

    /// FLD, AST and RMT in every MODE, with WANT on and off and each trip.
    fn switch_orders(&mut self) {
        for mode in MODES {
            for supply in outputs(&Supply { mode, ..self.any() }) {
                self.switches(&supply);
            }
        }
    }

    fn switches(&mut self, supply: &Supply) {
        for on in [false, true] {
            let ast = self.coin();
            self.order(Supply { ast, ..supply.clone() }, Order::Ast(on));
            self.order(Supply { armed: true, ..supply.clone() }, Order::Fld(on));
            if !supply.fold_trip {
                self.order(Supply { armed: false, ..supply.clone() }, Order::Fld(on));
            }
        }
        for mode in MODES {
            self.order(supply.clone(), Order::Rmt(mode));
        }
    }

    /// FENA, CLS, FENA? and FEVE? over bytes of both registers; the empty line.
    fn register_orders(&mut self) {
        for fena in REGISTERS {
            for feve in REGISTERS {
                let supply = Supply { fena, feve, ..self.any() };
                self.order(supply.clone(), Order::Cls);
                self.ask(supply.clone(), Query::Fena);
                self.ask(supply.clone(), Query::Feve);
                self.nothing(supply.clone());
                let bits = self.draw.pick(&[0, 1, 15, 16, 127, 128, 254, 255]);
                self.order(supply, Order::Fena(bits));
            }
        }
    }

    /// SENA, SENA?, SEVE?, STAT? and STT? over bytes of both registers.
    fn status_orders(&mut self) {
        for sena in STATUS_REGISTERS {
            for seve in STATUS_REGISTERS {
                let supply = Supply { sena, seve, ..self.any() };
                for query in [Query::Sena, Query::Seve, Query::Stat, Query::Stt, Query::Feve] {
                    self.ask(supply.clone(), query);
                }
                self.order(supply.clone(), Order::Cls);
                self.order(supply, Order::Rst);
            }
        }
        for bits in ENABLES {
            for mode in MODES {
                let supply = Supply { mode, ..self.any() };
                self.order(supply, Order::Sena(bits));
            }
        }
    }

    /// Acts of every kind on outputs that are on and off for each reason, with FEVE 0 and not: what
    /// rises in STAT, what stands and what falls, enabled and not.
    fn status_rises(&mut self) {
        for act in status_acts() {
            for (turn, mode) in MODES.into_iter().cycle().take(2 * MODES.len()).enumerate() {
                for state in regulated() {
                    let any = self.any();
                    let feve = if turn % 2 == 0 { 0 } else { any.feve };
                    let fena = self.draw.pick(&[0, 255, any.fena]);
                    let Supply { sena, seve, .. } = any;
                    let before = Supply { mode, fena, feve, sena, seve, ..state };
                    self.trials.push(Trial { before, act });
                }
            }
        }
    }

    /// Everything that a supply can be asked, on outputs that are on and off for each reason, with
    /// the CV memory and without it.
    fn memories(&mut self) {
        for state in regulated() {
            for cv_seen in [false, true] {
                let state = Supply { cv_seen, ..state.clone() };
                self.lines_on(&state);
                self.local_events_on(&state);
                self.samples_on(&state);
            }
        }
    }

    fn lines_on(&mut self, state: &Supply) {
        for act in every_line() {
            let Supply { mode, fena, sena, armed, .. } = self.any();
            let armed = armed || state.armed;
            let before = Supply { mode, fena, sena, armed, ..state.clone() };
            self.trials.push(Trial { before, act });
        }
    }

    /// In the MODE in which keys and the knob act.
    fn local_events_on(&mut self, state: &Supply) {
        for act in every_event_but_samples() {
            let armed = state.armed || self.coin();
            let mode = match act {
                Act::Event(Event::Key(Key::Local)) => Mode::Remote,
                _ => Mode::Local,
            };
            self.trials.push(Trial { before: Supply { mode, armed, ..state.clone() }, act });
        }
    }

    /// With foldback armed and, where no FOLD trip is set, unarmed.
    fn samples_on(&mut self, state: &Supply) {
        for act in samples_around_pc() {
            for armed in [state.fold_trip, true] {
                let mode = self.draw.pick(&MODES);
                self.trials.push(Trial { before: Supply { mode, armed, ..state.clone() }, act });
            }
        }
    }

    /// FLT? over LINES, WANT and trips; OUT? and MODE? with at most one line set.
    fn faults_told(&mut self) {
        for lines in line_bytes() {
            for supply in outputs(&Supply { lines, ..self.any() }) {
                self.ask(supply.clone(), Query::Flt);
                if lines.count_ones() <= 1 {
                    self.ask(supply.clone(), Query::Out);
                    self.ask(supply, Query::Mode);
                }
            }
        }
    }

    fn queries_in_every_mode(&mut self) {
        for mode in MODES {
            for query in QUERIES {
                let supply = Supply { mode, ..self.any() };
                self.ask(supply, query);
            }
        }
    }
}
