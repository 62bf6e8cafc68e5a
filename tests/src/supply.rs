//! The plain supply: one power supply by itself, without rack, slot or serial line. Volts are whole
//! ticks of 0.1 mV and amperes whole mA, so every figure here is exact.

use std::fmt;

/// One row of the table of models, in ticks and mA.
#[derive(Debug, PartialEq, Eq)]
pub struct Model {
    pub rated_volts: i64,
    pub rated_amperes: i64,
    pub ovp_least: i64,
    pub ovp_most: i64,
    pub uvl_most: i64,
}

/// A row written in tenths of a volt and of an ampere; every figure of the table is a whole number
/// of them.
const fn row(volts: i64, amperes: i64, ovp_least: i64, ovp_most: i64, uvl_most: i64) -> Model {
    const TICKS: i64 = 1_000;
    const MILLIAMPERES: i64 = 100;
    Model {
        rated_volts: volts * TICKS,
        rated_amperes: amperes * MILLIAMPERES,
        ovp_least: ovp_least * TICKS,
        ovp_most: ovp_most * TICKS,
        uvl_most: uvl_most * TICKS,
    }
}

/// Clause "Units and models": rated V, rated A, OVP least, OVP most, UVL most.
pub const MODELS: [Model; 12] = [
    row(60, 1000, 5, 75, 57),
    row(80, 900, 5, 100, 76),
    row(125, 600, 10, 150, 119),
    row(200, 380, 10, 240, 190),
    row(300, 250, 20, 360, 285),
    row(400, 190, 20, 440, 380),
    row(600, 125, 50, 660, 570),
    row(800, 95, 50, 880, 760),
    row(1000, 75, 50, 1100, 950),
    row(1500, 50, 50, 1650, 1420),
    row(3000, 25, 50, 3300, 2850),
    row(6000, 13, 50, 6600, 5700),
];

/// A sample with this count reads as the rating.
pub const COUNTS_AT_RATING: i64 = 50_000;

impl Model {
    /// PV and PC may go to 105 % of the rating, which is a whole tick or mA for every model.
    fn most_of(rating: i64) -> i64 {
        rating * 105 / 100
    }

    pub fn pv_most(&self) -> i64 {
        Model::most_of(self.rated_volts)
    }

    pub fn pc_most(&self) -> i64 {
        Model::most_of(self.rated_amperes)
    }
}

// Clause "FLT": the bit for each cause.
pub const AC: u8 = 1 << 1;
pub const OTP: u8 = 1 << 2;
pub const FOLD: u8 = 1 << 3;
pub const OVP: u8 = 1 << 4;
pub const SO: u8 = 1 << 5;
pub const WANT_OFF: u8 = 1 << 6;
pub const ENA: u8 = 1 << 7;
/// The bits that a LINES byte may have.
pub const LINE_BITS: u8 = AC | OTP | SO | ENA;

// STAT: the bit for each condition; bit 6 is spare.
pub const CV: u8 = 1 << 0;
pub const CC: u8 = 1 << 1;
pub const NO_FAULT: u8 = 1 << 2;
pub const FAULT: u8 = 1 << 3;
pub const AUTO_START: u8 = 1 << 4;
pub const FOLDBACK: u8 = 1 << 5;
pub const LOCAL: u8 = 1 << 7;
/// The bits that SENA keeps.
pub const SENA_BITS: u8 = CV | CC | NO_FAULT | FAULT | LOCAL;

#[derive(Clone, Copy, Debug, PartialEq, Eq)]
pub enum Mode {
    Local,
    Remote,
    LockedOut,
}

#[derive(Clone, Copy, Debug, PartialEq, Eq)]
pub enum Key {
    Output,
    Fold,
    Local,
}

/// What the knob turns.
#[derive(Clone, Copy, Debug, PartialEq, Eq)]
pub enum Target {
    Pv,
    Pc,
    Ovp,
    Uvl,
}

/// What an accepted field of tags 2 to 5 brings.
#[derive(Clone, Copy, Debug, PartialEq, Eq)]
pub enum Event {
    Key(Key),
    Knob(Target, i32),
    Lines(u8),
    Sample { volts: u16, amperes: u16 },
}

/// An order line with its parameter read, in ticks or mA.
#[derive(Clone, Copy, Debug, PartialEq, Eq)]
pub enum Order {
    Pv(i64),
    Pc(i64),
    Ovp(i64),
    Ovm,
    Uvl(i64),
    Out(bool),
    Fld(bool),
    Ast(bool),
    Rmt(Mode),
    Fena(u8),
    /// The byte as it was given, with the bits that SENA does not keep.
    Sena(u8),
    Cls,
    Rst,
}

#[derive(Clone, Copy, Debug, PartialEq, Eq)]
pub enum Query {
    Pv,
    Pc,
    Ovp,
    Uvl,
    Mv,
    Mc,
    Out,
    Fld,
    Ast,
    Rmt,
    Mode,
    Flt,
    Fena,
    Feve,
    Stt,
    Stat,
    Sena,
    Seve,
}

#[derive(Clone, Copy, Debug, PartialEq, Eq)]
pub enum Code {
    C01,
    C02,
    C03,
    C04,
    C05,
    E01,
    E02,
    E04,
    E06,
    E07,
}

impl Code {
    pub fn text(self) -> &'static str {
        match self {
            Code::C01 => "C01",
            Code::C02 => "C02",
            Code::C03 => "C03",
            Code::C04 => "C04",
            Code::C05 => "C05",
            Code::E01 => "E01",
            Code::E02 => "E02",
            Code::E04 => "E04",
            Code::E06 => "E06",
            Code::E07 => "E07",
        }
    }
}

/// What a supply says; printed, it is the reply before any checksum and CR.
#[derive(Clone, Copy, Debug, PartialEq, Eq)]
pub enum Answer {
    Word(&'static str),
    Volts(i64),
    Amperes(i64),
    Byte(u8),
    Status(Status),
}

/// The six figures of STT?, in the order in which it says them.
#[derive(Clone, Copy, Debug, PartialEq, Eq)]
pub struct Status {
    pub mv: i64,
    pub pv: i64,
    pub mc: i64,
    pub pc: i64,
    pub stat: u8,
    pub flt: u8,
}

impl fmt::Display for Status {
    /// Each figure looks as it does where a query of its own asks for it.
    fn fmt(&self, out: &mut fmt::Formatter) -> fmt::Result {
        let [mv, pv] = [self.mv, self.pv].map(Answer::Volts);
        let [mc, pc] = [self.mc, self.pc].map(Answer::Amperes);
        let [stat, flt] = [self.stat, self.flt].map(Answer::Byte);
        write!(out, "MV({mv}),PV({pv}),MC({mc}),PC({pc}),SR({stat}),FR({flt})")
    }
}

impl fmt::Display for Answer {
    /// Volts have four decimals, amperes three, and neither has a needless leading zero.
    fn fmt(&self, out: &mut fmt::Formatter) -> fmt::Result {
        match *self {
            Answer::Word(word) => out.write_str(word),
            Answer::Volts(ticks) => write!(out, "{}.{:04}", ticks / 10_000, ticks % 10_000),
            Answer::Amperes(ma) => write!(out, "{}.{:03}", ma / 1_000, ma % 1_000),
            Answer::Byte(byte) => write!(out, "{byte:02X}"),
            Answer::Status(status) => status.fmt(out),
        }
    }
}

/// Which trips an entry releases, whether or not they are set.
#[derive(Clone, Copy, Debug, Default, PartialEq, Eq)]
pub struct Releases {
    pub fold: bool,
    pub ovp: bool,
}

impl Releases {
    const BOTH: Releases = Releases { fold: true, ovp: true };
    const NONE: Releases = Releases { fold: false, ovp: false };
}

/// The whole state of one supply.
#[derive(Clone, Debug, PartialEq, Eq)]
pub struct Supply {
    pub model: u8,
    pub pv: i64,
    pub pc: i64,
    pub ovp: i64,
    pub uvl: i64,
    pub want: bool,
    pub armed: bool,
    pub ast: bool,
    pub mode: Mode,
    pub lines: u8,
    pub fold_trip: bool,
    pub ovp_trip: bool,
    pub fena: u8,
    pub feve: u8,
    pub sena: u8,
    pub seve: u8,
    /// A sample was judged CV since the output came on, so that foldback may trip.
    pub cv_seen: bool,
    pub volt_count: u16,
    pub ampere_count: u16,
}

/// How an event finds a supply: what its registers judge the event against.
struct Found {
    flt: u8,
    fena: u8,
    stat: u8,
    sena: u8,
}

impl Supply {
    /// Clause "Fresh": OVP at its most, all else 0.
    pub fn fresh(model: u8) -> Supply {
        Supply {
            model,
            pv: 0,
            pc: 0,
            ovp: MODELS[usize::from(model)].ovp_most,
            uvl: 0,
            want: false,
            armed: false,
            ast: false,
            mode: Mode::Local,
            lines: 0,
            fold_trip: false,
            ovp_trip: false,
            fena: 0,
            feve: 0,
            sena: 0,
            seve: 0,
            cv_seen: false,
            volt_count: 0,
            ampere_count: 0,
        }
    }

    pub fn limits(&self) -> &'static Model {
        &MODELS[usize::from(self.model)]
    }

    /// Clause "FLT": computed from the state, never stored.
    pub fn flt(&self) -> u8 {
        let mut flt = self.lines & LINE_BITS;
        if self.fold_trip {
            flt |= FOLD;
        }
        if self.ovp_trip {
            flt |= OVP;
        }
        if !self.want {
            flt |= WANT_OFF;
        }
        flt
    }

    pub fn output_on(&self) -> bool {
        self.flt() == 0
    }

    /// STAT: worked out like FLT, and never stored either.
    pub fn stat(&self) -> u8 {
        let regulation = match self.regulation() {
            "CV" => CV,
            "CC" => CC,
            _ => 0,
        };
        let mut stat = regulation | if self.feve == 0 { NO_FAULT } else { FAULT };
        if self.ast {
            stat |= AUTO_START;
        }
        if self.armed {
            stat |= FOLDBACK;
        }
        if self.mode == Mode::Local {
            stat |= LOCAL;
        }
        stat
    }

    /// Clause "Margins", with the ranges named beside it.
    pub fn within_limits(&self) -> bool {
        let model = self.limits();
        let margins = 20 * self.uvl <= 19 * self.pv && 21 * self.pv <= 20 * self.ovp;
        margins
            && (0..=model.pv_most()).contains(&self.pv)
            && (0..=model.pc_most()).contains(&self.pc)
            && (0..=model.uvl_most).contains(&self.uvl)
            && (model.ovp_least..=model.ovp_most).contains(&self.ovp)
    }

    fn found(&self) -> Found {
        Found { flt: self.flt(), fena: self.fena, stat: self.stat(), sena: self.sena }
    }

    /// What every event ends with: an output that is off has no CV memory, and the registers gain.
    fn end_event(&mut self, before: &Found) {
        if !self.output_on() {
            self.cv_seen = false;
        }
        self.keep_what_rose(before);
    }

    /// Clause "An event": either register takes what rose and was enabled before the event. STAT
    /// tells whether FEVE holds anything, so FEVE comes first.
    fn keep_what_rose(&mut self, before: &Found) {
        self.feve |= self.flt() & !before.flt & before.fena;
        self.seve |= self.stat() & !before.stat & before.sena;
    }

    /// The empty line: it orders nothing, and is an event like any line obeyed.
    pub fn hear_nothing(&mut self) {
        let before = self.found();
        self.end_event(&before);
    }

    pub fn event(&mut self, event: Event) {
        let before = self.found();
        match event {
            Event::Key(key) => self.press(key),
            Event::Knob(target, step) => self.turn(target, step),
            Event::Lines(lines) => self.set_lines(lines),
            Event::Sample { volts, amperes } => self.sample(volts, amperes),
        }
        self.end_event(&before);
    }

    /// Clause "Lines event": its three sentences apply side by side, each judged on the change.
    fn set_lines(&mut self, new: u8) {
        let risen = new & !self.lines;
        let fallen = self.lines & !new;
        self.lines = new;
        if risen != 0 && !self.ast {
            self.want = false;
        }
        if fallen & AC != 0 {
            self.clear_trips();
            if self.mode == Mode::LockedOut {
                self.mode = Mode::Remote;
            }
        }
        if fallen & SO != 0 && self.ast {
            self.ovp_trip = false;
        }
    }

    fn clear_trips(&mut self) {
        self.fold_trip = false;
        self.ovp_trip = false;
    }

    /// Clause "Sample event": a count of 50,000 is the rating; what is below a unit is truncated.
    pub fn reading(count: u16, rating: i64) -> i64 {
        i64::from(count) * rating / COUNTS_AT_RATING
    }

    pub fn volt_reading(&self) -> i64 {
        Supply::reading(self.volt_count, self.limits().rated_volts)
    }

    pub fn ampere_reading(&self) -> i64 {
        Supply::reading(self.ampere_count, self.limits().rated_amperes)
    }

    /// The CV memory is asked as it was before the sample. It is kept with foldback unarmed too,
    /// and so counts from the moment that foldback is armed.
    fn sample(&mut self, volts: u16, amperes: u16) {
        let was_on = self.output_on();
        self.volt_count = volts;
        self.ampere_count = amperes;
        if !was_on {
            return;
        }
        if self.volt_reading() >= self.ovp {
            self.ovp_trip = true;
        } else if self.ampere_reading() < self.pc {
            self.cv_seen = true;
        } else if self.armed && self.cv_seen {
            self.fold_trip = true;
        }
    }

    /// Clause "Keys": only in MODE 0, except LOCAL, which only works in MODE 1.
    fn press(&mut self, key: Key) {
        match (key, self.mode) {
            (Key::Output, Mode::Local) => self.press_output(),
            (Key::Fold, Mode::Local) if self.armed => self.disarm(),
            (Key::Fold, Mode::Local) => self.armed = true,
            (Key::Local, Mode::Remote) => self.mode = Mode::Local,
            _ => {}
        }
    }

    fn press_output(&mut self) {
        if self.output_on() {
            self.want = false;
        } else if self.lines == 0 {
            self.clear_trips();
            self.want = true;
        }
    }

    /// ARMED goes off; a FOLD trip that is set goes with it, and then the output is ordered off.
    fn disarm(&mut self) {
        self.armed = false;
        if self.fold_trip {
            self.fold_trip = false;
            self.want = false;
        }
    }

    /// The least and the most that one setting may be while the others stay as they are.
    pub fn range(&self, target: Target) -> (i64, i64) {
        let model = self.limits();
        match target {
            Target::Pv => (divide_up(20 * self.uvl, 19), model.pv_most().min(20 * self.ovp / 21)),
            Target::Pc => (0, model.pc_most()),
            Target::Ovp => (model.ovp_least.max(divide_up(21 * self.pv, 20)), model.ovp_most),
            Target::Uvl => (0, model.uvl_most.min(19 * self.pv / 20)),
        }
    }

    pub fn setting(&mut self, target: Target) -> &mut i64 {
        match target {
            Target::Pv => &mut self.pv,
            Target::Pc => &mut self.pc,
            Target::Ovp => &mut self.ovp,
            Target::Uvl => &mut self.uvl,
        }
    }

    /// Clause "Knob": the exact sum, then the nearest value that is allowed.
    fn turn(&mut self, target: Target, step: i32) {
        if self.mode != Mode::Local {
            return;
        }
        let (least, most) = self.range(target);
        let setting = self.setting(target);
        *setting = (*setting + i64::from(step)).clamp(least, most);
    }

    /// Clause "Order lines": the checks in turn, then the effect; a refusal changes nothing.
    pub fn order(&mut self, order: Order) -> Result<(), Code> {
        self.judge(order)?;
        let before = self.found();
        self.carry_out(order);
        let takes_over = matches!(order, Order::Pv(_) | Order::Pc(_) | Order::Out(_));
        if takes_over && self.mode == Mode::Local {
            self.mode = Mode::Remote;
        }
        self.end_event(&before);
        if matches!(order, Order::Cls | Order::Rst) {
            // Also what the clearing itself lets rise: WANT off in FLT, no fault in STAT.
            self.feve = 0;
            self.seve = 0;
        }
        Ok(())
    }

    /// The middle column of the table of orders; products fit, as a number has at most 12
    /// characters.
    fn judge(&self, order: Order) -> Result<(), Code> {
        let model = self.limits();
        match order {
            Order::Pv(n) if n > model.pv_most() => Err(Code::C05),
            Order::Pv(n) if 21 * n > 20 * self.ovp => Err(Code::E01),
            Order::Pv(n) if 19 * n < 20 * self.uvl => Err(Code::E02),
            Order::Pc(n) if n > model.pc_most() => Err(Code::C05),
            Order::Ovp(n) if n < model.ovp_least || n > model.ovp_most => Err(Code::C05),
            Order::Ovp(n) if 20 * n < 21 * self.pv => Err(Code::E04),
            Order::Uvl(n) if n > model.uvl_most => Err(Code::C05),
            Order::Uvl(n) if 20 * n > 19 * self.pv => Err(Code::E06),
            Order::Out(true) if self.lines != 0 => Err(Code::E07),
            _ => Ok(()),
        }
    }

    fn carry_out(&mut self, order: Order) {
        match order {
            Order::Pv(n) => self.pv = n,
            Order::Pc(n) => self.pc = n,
            Order::Ovp(n) => self.ovp = n,
            Order::Ovm => self.ovp = self.limits().ovp_most,
            Order::Uvl(n) => self.uvl = n,
            Order::Out(true) => {
                self.clear_trips();
                self.want = true;
            }
            Order::Out(false) => self.want = false,
            Order::Fld(true) => self.armed = true,
            Order::Fld(false) => self.disarm(),
            Order::Ast(on) => self.ast = on,
            Order::Rmt(mode) => self.mode = mode,
            Order::Fena(bits) => self.fena = bits,
            Order::Sena(bits) => self.sena = bits & SENA_BITS,
            // The registers are cleared when they have gained.
            Order::Cls => {}
            Order::Rst => self.reset(),
        }
    }

    /// Clause "RST": fresh, with LINES, FENA, SENA and the counts kept and MODE 1.
    fn reset(&mut self) {
        *self = Supply {
            mode: Mode::Remote,
            lines: self.lines,
            fena: self.fena,
            sena: self.sena,
            volt_count: self.volt_count,
            ampere_count: self.ampere_count,
            ..Supply::fresh(self.model)
        };
    }

    /// Clause "Queries". An answered one is an event: FEVE? makes STAT say that no fault is active.
    pub fn ask(&mut self, query: Query) -> Answer {
        let before = self.found();
        let answer = self.answer(query);
        self.end_event(&before);
        answer
    }

    fn answer(&mut self, query: Query) -> Answer {
        match query {
            Query::Pv => Answer::Volts(self.pv),
            Query::Pc => Answer::Amperes(self.pc),
            Query::Ovp => Answer::Volts(self.ovp),
            Query::Uvl => Answer::Volts(self.uvl),
            Query::Mv => Answer::Volts(self.volt_reading()),
            Query::Mc => Answer::Amperes(self.ampere_reading()),
            Query::Out => on_off(self.output_on()),
            Query::Fld => on_off(self.armed),
            Query::Ast => on_off(self.ast),
            Query::Rmt => Answer::Word(self.mode_text()),
            Query::Mode => Answer::Word(self.regulation()),
            Query::Flt => Answer::Byte(self.flt()),
            Query::Fena => Answer::Byte(self.fena),
            Query::Feve => Answer::Byte(std::mem::take(&mut self.feve)),
            Query::Stt => Answer::Status(self.status()),
            Query::Stat => Answer::Byte(self.stat()),
            Query::Sena => Answer::Byte(self.sena),
            Query::Seve => Answer::Byte(std::mem::take(&mut self.seve)),
        }
    }

    fn status(&self) -> Status {
        Status {
            mv: self.volt_reading(),
            pv: self.pv,
            mc: self.ampere_reading(),
            pc: self.pc,
            stat: self.stat(),
            flt: self.flt(),
        }
    }

    fn mode_text(&self) -> &'static str {
        match self.mode {
            Mode::Local => "LOC",
            Mode::Remote => "REM",
            Mode::LockedOut => "LLO",
        }
    }

    /// MODE?: the stored ampere count against the present PC.
    fn regulation(&self) -> &'static str {
        if !self.output_on() {
            "OFF"
        } else if self.ampere_reading() >= self.pc {
            "CC"
        } else {
            "CV"
        }
    }

    /// Clause "Releases" for an order, judged on the state before it.
    pub fn released_by_order(&self, order: Order) -> Releases {
        match order {
            Order::Out(true) if self.judge(order).is_ok() => Releases::BOTH,
            Order::Rst => Releases::BOTH,
            Order::Fld(false) => Releases { fold: self.armed, ovp: false },
            _ => Releases::NONE,
        }
    }

    /// Clause "Releases" for an event, judged on the state before it.
    pub fn released_by_event(&self, event: Event) -> Releases {
        match event {
            Event::Key(Key::Output) if self.key_turns_on() => Releases::BOTH,
            Event::Key(Key::Fold) => {
                Releases { fold: self.mode == Mode::Local && self.armed, ovp: false }
            }
            Event::Lines(new) => {
                let fallen = self.lines & !new;
                let ac = fallen & AC != 0;
                Releases { fold: ac, ovp: ac || (fallen & SO != 0 && self.ast) }
            }
            _ => Releases::NONE,
        }
    }

    fn key_turns_on(&self) -> bool {
        self.mode == Mode::Local && !self.output_on() && self.lines == 0
    }
}

fn divide_up(value: i64, by: i64) -> i64 {
    (value + by - 1) / by
}

fn on_off(on: bool) -> Answer {
    Answer::Word(if on { "ON" } else { "OFF" })
}

/// Volts as in a reply.
pub fn volts_text(ticks: i64) -> String {
    Answer::Volts(ticks).to_string()
}

/// Amperes as in a reply.
pub fn amperes_text(milliamperes: i64) -> String {
    Answer::Amperes(milliamperes).to_string()
}
