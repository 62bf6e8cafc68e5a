//! Shows a script with a program's replies to it, as a table for the bench: each step, its replies,
//! and the output of the slots that the step touched (by the reference model). Program and
//! reference run once each.

use crate::outside;
use crate::rack::{Rack, LEAST_ROOM};
use crate::script::{field_length, Script};
use crate::supply::{amperes_text, volts_text, Supply, AC, ENA, FOLD, OTP, OVP, SO, WANT_OFF};

/// The table as text, and whether the program printed what the reference does.
pub struct Table {
    pub text: String,
    pub alike: bool,
}

/// One row of the table: script lines that together make whole fields.
struct Step {
    lines: Vec<(usize, String)>,
    /// Where the step ends within the program's input.
    end: usize,
    /// Where the reference's output ends when the step is done.
    printed: usize,
    ends_a_line: bool,
    state: Vec<String>,
    reached: bool,
}

pub fn show(script: &Script, program: &str) -> Result<Table, String> {
    let mut steps = steps(script);
    let expected = follow(script, &mut steps);
    let printed = outside::run(program, &script.bytes())?;
    let alike = printed == expected;
    let same = if alike { expected.len() } else { line_of_difference(&printed, &expected) };
    let mut text = layout(&steps, &expected, same);
    if !alike {
        text.push_str(
            "\nThe program and the reference model differ. From there on the program prints:\n",
        );
        text.push_str(&String::from_utf8_lossy(&printed[same..]));
        text.push_str("\nand the reference prints:\n");
        text.push_str(&String::from_utf8_lossy(&expected[same..]));
    }
    Ok(Table { text, alike })
}

/// Where the line of output begins in which the two first differ.
fn line_of_difference(one: &[u8], other: &[u8]) -> usize {
    let same = one.iter().zip(other).take_while(|(a, b)| a == b).count();
    one[..same].iter().rposition(|byte| *byte == b'\n').map_or(0, |at| at + 1)
}

/// Joins script lines until they end where a field ends; rows after a bad header stay together.
fn steps(script: &Script) -> Vec<Step> {
    let fields: Vec<u8> = script.rows.iter().flat_map(|row| row.bytes.clone()).collect();
    let mut steps = Vec::new();
    let (mut lines, mut end, mut field_end) = (Vec::new(), 0, 0);
    for row in &script.rows {
        lines.push((row.number, row.text.clone()));
        end += row.bytes.len();
        while field_end < end {
            let Some(used) = field_length(&fields[field_end..]) else { break };
            field_end += used;
        }
        if field_end == end || end == fields.len() {
            steps.push(Step {
                lines: std::mem::take(&mut lines),
                end: script.fitting.len() + end,
                printed: 0,
                ends_a_line: false,
                state: Vec::new(),
                reached: false,
            });
        }
    }
    steps
}

/// Runs the reference along the steps and notes what each one touched; returns all that it prints.
fn follow(script: &Script, steps: &mut [Step]) -> Vec<u8> {
    let mut printed = Vec::new();
    let refused = work(script, steps, &mut printed).err();
    printed.iter_mut().filter(|byte| **byte == b'\r').for_each(|byte| *byte = b'\n');
    if let Some(number) = refused {
        printed.extend(format!("refused {number}\n").bytes());
    }
    // What a refusal prints belongs to the last step that was reached.
    if let Some(last) = steps.iter_mut().rfind(|step| step.reached) {
        last.printed = printed.len();
    }
    printed
}

fn work(script: &Script, steps: &mut [Step], printed: &mut Vec<u8>) -> Result<(), u8> {
    let mut rack = Rack::fit(&script.fitting)?;
    let input = script.bytes();
    let mut at = script.fitting.len();
    for step in steps {
        let before = rack.clone();
        let mut spoken_to = Vec::new();
        step.reached = true;
        while at < step.end {
            let field = &input[at..];
            at += rack.call_with(field, LEAST_ROOM, printed)?;
            step.ends_a_line |= ends_a_line(field);
            spoken_to.push(slot_spoken_to(field, &rack));
        }
        step.printed = printed.len();
        step.state = touched(&before, &rack, &spoken_to);
    }
    Ok(())
}

/// Whether an accepted field brings a CR.
fn ends_a_line(field: &[u8]) -> bool {
    field[0] == 1 && field[3..3 + usize::from(field[2])].contains(&b'\r')
}

/// The slot that an accepted field addressed, and whether by a sample: its address, or the slot
/// selected at a line's end.
fn slot_spoken_to(field: &[u8], rack: &Rack) -> Option<(usize, bool)> {
    match field[0] {
        1 => rack.selected.filter(|_| ends_a_line(field)).map(|slot| (slot, false)),
        tag => Some((usize::from(field[3]), tag == 5)),
    }
}

/// The slots addressed and those that a global changed.
fn touched(before: &Rack, after: &Rack, spoken_to: &[Option<(usize, bool)>]) -> Vec<String> {
    let mut shown = Vec::new();
    for (slot, supply) in after.slots.iter().enumerate() {
        let changed = before.slots[slot] != *supply;
        let Some(supply) = supply else { continue };
        let sampled = spoken_to.contains(&Some((slot, true)));
        if changed || sampled || spoken_to.contains(&Some((slot, false))) {
            let readings = if sampled { reading_words(supply) } else { String::new() };
            shown.push(format!("slot {slot} {}{readings}", output_words(supply)));
        }
    }
    shown
}

/// The readings of the stored counts.
fn reading_words(supply: &Supply) -> String {
    let volts = volts_text(supply.volt_reading());
    let amperes = amperes_text(supply.ampere_reading());
    let (volt_count, ampere_count) = (supply.volt_count, supply.ampere_count);
    format!("; reads {volts} V, {amperes} A (counts {volt_count}, {ampere_count})")
}

/// On, or off with every cause in FLT.
fn output_words(supply: &Supply) -> String {
    const CAUSES: [(u8, &str); 7] = [
        (WANT_OFF, "ordered off"),
        (FOLD, "FOLD trip"),
        (OVP, "OVP trip"),
        (AC, "AC"),
        (OTP, "OTP"),
        (SO, "SO"),
        (ENA, "ENA"),
    ];
    if supply.output_on() {
        return "ON".to_string();
    }
    let standing = CAUSES.iter().filter(|(bit, _)| supply.flt() & bit != 0);
    let names: Vec<&str> = standing.map(|(_, name)| *name).collect();
    format!("off ({})", names.join(", "))
}

/// The rows, with the replies up to where program and reference differ.
fn layout(steps: &[Step], printed: &[u8], same: usize) -> String {
    let head = ["line", "step", "reply", "output after it"].map(str::to_string);
    let mut rows = vec![head];
    let mut from = 0;
    if !steps.iter().any(|step| step.reached) {
        for reply in text_lines(&printed[..same]) {
            rows.push([String::new(), "(fitting list)".into(), reply, String::new()]);
        }
    }
    for step in steps {
        let replies = step.replies(printed, from, same);
        from = step.printed.max(from);
        let height = step.lines.len().max(replies.len()).max(step.state.len());
        for at in 0..height {
            let (number, text) = step.lines.get(at).cloned().unwrap_or_default();
            let number = if number == 0 { String::new() } else { number.to_string() };
            let reply = replies.get(at).cloned().unwrap_or_default();
            let state = step.state.get(at).cloned().unwrap_or_default();
            rows.push([number, text, reply, state]);
        }
    }
    align(&rows)
}

impl Step {
    /// What stands in the column of replies.
    fn replies(&self, printed: &[u8], from: usize, same: usize) -> Vec<String> {
        if !self.reached {
            vec!["(not read)".into()]
        } else if from > same {
            Vec::new()
        } else if self.printed > same {
            vec!["(differs)".into()]
        } else if self.printed > from {
            text_lines(&printed[from..self.printed])
        } else if self.ends_a_line {
            vec!["(no reply)".into()]
        } else {
            Vec::new()
        }
    }
}

fn text_lines(printed: &[u8]) -> Vec<String> {
    String::from_utf8_lossy(printed).lines().map(str::to_string).collect()
}

fn align(rows: &[[String; 4]]) -> String {
    let width =
        |column: usize| rows.iter().map(|row| row[column].chars().count()).max().unwrap_or(0);
    let (a, b, c) = (width(0), width(1), width(2));
    let mut text = String::new();
    for [number, step, reply, state] in rows {
        let line = format!("{number:>a$}  {step:<b$}  {reply:<c$}  {state}");
        text.push_str(line.trim_end());
        text.push('\n');
    }
    text
}
