//! The program around the rack: from the bytes of standard input to the bytes printed, for an input
//! that is there as a whole and for one that comes in pieces.

use crate::rack::{Rack, CUT_SHORT, LEAST_ROOM, NO_HEADER, SLOTS};

/// What the program prints for this input: replies and messages with LF for CR, then a refusal if
/// there is one.
pub fn run(input: &[u8]) -> Vec<u8> {
    let (list, mut rest) = input.split_at(input.len().min(SLOTS));
    let mut printed = Vec::new();
    let mut rack = match Rack::fit(list) {
        Ok(rack) => rack,
        Err(number) => return refused(printed, number),
    };
    while !rest.is_empty() {
        match rack.call(rest, LEAST_ROOM) {
            Ok((used, mut replies)) => {
                turn_to_line_feeds(&mut replies);
                printed.extend(replies);
                rest = &rest[used..];
            }
            Err(number) => return refused(printed, number),
        }
    }
    printed
}

/// A reply goes to the wire with CR and to the screen with LF.
fn turn_to_line_feeds(replies: &mut [u8]) {
    replies.iter_mut().filter(|byte| **byte == b'\r').for_each(|byte| *byte = b'\n');
}

fn refused(mut printed: Vec<u8>, number: u8) -> Vec<u8> {
    printed.extend(format!("refused {number}\n").bytes());
    printed
}

/// The program between two pieces of its input. It replies to a field with the piece that brings
/// the field's last byte, and refuses with the piece after which no further byte can mend it.
#[derive(Default)]
pub struct Running {
    /// None until the fitting list is there.
    rack: Option<Rack>,
    /// The start of a field, or of the fitting list, whose end has not come yet.
    waiting: Vec<u8>,
    over: bool,
}

impl Running {
    /// Whether the program has ended, so that it takes nothing more.
    pub fn over(&self) -> bool {
        self.over
    }

    /// Takes the next piece and appends to what is printed. An empty piece is the end of the input.
    pub fn take(&mut self, piece: &[u8], printed: &mut Vec<u8>) {
        if self.over {
            return;
        }
        self.waiting.extend(piece);
        let (last, start) = (piece.is_empty(), printed.len());
        match self.work(last, printed) {
            Ok(used) => {
                self.waiting.drain(..used);
                self.over = last;
            }
            Err(number) => {
                *printed = refused(std::mem::take(printed), number);
                self.over = true;
            }
        }
        turn_to_line_feeds(&mut printed[start..]);
    }

    /// Works all complete fields; returns how many bytes they were.
    fn work(&mut self, last: bool, printed: &mut Vec<u8>) -> Result<usize, u8> {
        let mut used = 0;
        if self.rack.is_none() {
            if self.waiting.len() < SLOTS && !last {
                return Ok(0);
            }
            used = self.waiting.len().min(SLOTS);
            self.rack = Some(Rack::fit(&self.waiting[..used])?);
        }
        let Some(rack) = &mut self.rack else { return Ok(used) };
        while used < self.waiting.len() {
            match rack.call_with(&self.waiting[used..], LEAST_ROOM, printed) {
                Ok(taken) => used += taken,
                // Whether more bytes may still make a field of these.
                Err(NO_HEADER | CUT_SHORT) if !last => break,
                Err(number) => return Err(number),
            }
        }
        Ok(used)
    }
}
