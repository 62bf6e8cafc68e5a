//! The same figures as the supply itself prints them, over the serial line.

use super::library::{CellNumbers, OFF, OPEN};
use crate::direct::library::{Controller, Rack};
use crate::rack::LEAST_ROOM;

/// A serial field holds at most this many bytes.
const FIELD_ROOM: usize = 16;
const BACKSPACE: u8 = 0x08;

/// What a supply says to MV?, MC? and OUT?.
#[derive(Clone, Debug, PartialEq, Eq)]
pub struct Printed {
    pub mv: String,
    pub mc: String,
    pub out: String,
}

/// What the supply at this address says, asked in a copy of the rack. Characters kept of a line are
/// taken back first, since that line might be an order.
pub fn at(controller: &dyn Controller, rack: &Rack, address: u64) -> Result<Printed, String> {
    let mut copy = *rack;
    let mut selecting = vec![BACKSPACE; rack.line.count];
    selecting.extend(format!("\rADR {address}\r").bytes());
    for piece in selecting.chunks(FIELD_ROOM) {
        said(controller, &mut copy, piece)?;
    }
    let text = said(controller, &mut copy, b"MV?\rMC?\rOUT?\r")?;
    let lines: Vec<&str> = text.split_terminator('\r').collect();
    let [mv, mc, out] = lines[..] else {
        return Err(format!("slot {address} says {text:?} to MV?, MC? and OUT?"));
    };
    Ok(Printed { mv: mv.into(), mc: mc.into(), out: out.into() })
}

/// What a serial field draws.
fn said(controller: &dyn Controller, rack: &mut Rack, bytes: &[u8]) -> Result<String, String> {
    let mut reply = [0; LEAST_ROOM];
    let field = [&[1, 0, bytes.len() as u8], bytes].concat();
    let done = controller.call(rack, &field, &mut reply);
    match done.code {
        0 => Ok(String::from_utf8_lossy(&reply[..done.length]).into_owned()),
        code => Err(format!("the field {} draws {code}", bytes.escape_ascii())),
    }
}

impl Printed {
    /// What the answer says otherwise. A decimal is read as the float nearest to it, which is the
    /// quotient again.
    pub fn fault(&self, came: &CellNumbers) -> Option<String> {
        let same = |text: &str, float: f64| {
            text.parse::<f64>().is_ok_and(|read| read.to_bits() == float.to_bits())
        };
        let off = self.out == "OFF";
        let open = self.out == "ON" && self.mc == "0.000";
        let told = [
            (same(&self.mv, came.volts), "volts"),
            (same(&self.mc, came.amps), "amps"),
            (off == (came.kind == OFF), "off"),
            (open == (came.kind == OPEN), "open"),
        ];
        let (_, name) = told.iter().find(|(right, _)| !right)?;
        Some(format!("{name}: it answers {came:?} and prints {self:?}"))
    }
}
