//! The causes of refusal: each value that draws one, several at once, and bytes after a field. What
//! a call must return is stated here from 01's table, and also compared with the model.

use crate::rack::{EMPTY, SLOTS};
use crate::supply::LINE_BITS;

use super::bench::{Bench, Tally, LARGE, SMALL};
use super::fields::{bad_values, field, lengths};
use super::library::Controller;
use super::Check;

const TAGS: std::ops::RangeInclusive<u8> = 1..=5;
/// The slots that are fitted here, with their models.
const FITTED: [(u8, u8); 4] = [(0, 3), (6, 0), (17, 6), (30, 11)];
/// The one that the fields name.
const SLOT: u8 = 6;
/// This many ways to be wrong are tried for each cause.
const WAYS: usize = 5;

pub fn checks() -> Vec<Check> {
    let mut checks = vec![
        Check::new("each tag", each_tag),
        Check::new("each length", each_length),
        Check::new("each address", each_address),
        Check::new("each key, target and LINES byte", each_value),
        Check::new("each field cut short everywhere", each_cut),
        Check::new("each size of the buffer", each_size),
        Check::new("bytes behind a field", bytes_behind),
    ];
    checks.extend(TAGS.map(|tag| {
        let name = format!("several causes of refusal at once, tag {tag}");
        Check::new(name, move |controller, tally| causes_together(controller, tally, tag))
    }));
    checks
}

/// A rack that is not fresh: a slot selected, its output on, a line begun.
fn begun<'a>(controller: &'a dyn Controller, tally: &'a mut Tally) -> Result<Bench<'a>, String> {
    let mut list = [EMPTY; SLOTS];
    FITTED.iter().for_each(|(slot, model)| list[usize::from(*slot)] = *model);
    let mut bench = Bench::fit(controller, tally, &list)?;
    for line in ["ADR 6\rPV 5\r", "PC 10\rFENA FF\r", "OUT 1\rRMT 0\rPV"] {
        bench.draws(&field(1, line.len(), line.as_bytes()), 512, 0)?;
    }
    Ok(bench)
}

/// A payload that each tag accepts.
fn payload(tag: u8) -> &'static [u8] {
    match tag {
        1 => b"?\rPC?\r",
        2 => &[SLOT, 1],
        3 => &[SLOT, 0, 0xFF, 0xFF, 0xFF, 0xFE],
        4 => &[SLOT, 0x20],
        _ => &[SLOT, 0x12, 0x34, 0x56, 0x78],
    }
}

fn good(tag: u8) -> Vec<u8> {
    field(tag, payload(tag).len(), payload(tag))
}

fn each_tag(controller: &dyn Controller, tally: &mut Tally) -> Result<(), String> {
    let mut bench = begun(controller, tally)?;
    for tag in 0..=255 {
        let code = if TAGS.contains(&tag) { 0 } else { 3 };
        let like = if code == 0 { tag } else { 2 };
        bench.draws(&field(tag, payload(like).len(), payload(like)), bench.next_room(), code)?;
    }
    Ok(())
}

fn each_length(controller: &dyn Controller, tally: &mut Tally) -> Result<(), String> {
    let mut bench = begun(controller, tally)?;
    for tag in TAGS {
        for length in (0..=64).chain([255, 256, 257, 258, 261, 262, 272, 512, 65_535]) {
            let mut long = payload(tag).to_vec();
            long.resize(length, b'\r');
            let code = if lengths(tag).contains(&length) { 0 } else { 4 };
            bench.draws(&field(tag, length, &long), bench.next_room(), code)?;
        }
    }
    Ok(())
}

fn each_address(controller: &dyn Controller, tally: &mut Tally) -> Result<(), String> {
    let mut bench = begun(controller, tally)?;
    for tag in 2..=5 {
        for address in 0..=255 {
            let mut named = payload(tag).to_vec();
            named[0] = address;
            let fitted = FITTED.iter().any(|(slot, _)| *slot == address);
            let code = if fitted { 0 } else { 6 };
            bench.draws(&field(tag, named.len(), &named), bench.next_room(), code)?;
        }
    }
    Ok(())
}

fn each_value(controller: &dyn Controller, tally: &mut Tally) -> Result<(), String> {
    let mut bench = begun(controller, tally)?;
    for tag in 2..=4 {
        for value in 0..=255 {
            let mut valued = payload(tag).to_vec();
            valued[1] = value;
            let listed = match tag {
                2 => value <= 2,
                3 => value <= 3,
                _ => value & !LINE_BITS == 0,
            };
            let code = if listed { 0 } else { 7 };
            bench.draws(&field(tag, valued.len(), &valued), bench.next_room(), code)?;
        }
    }
    Ok(())
}

/// The rest of the field follows in memory after what is lent, and must not be read from there.
fn each_cut(controller: &dyn Controller, tally: &mut Tally) -> Result<(), String> {
    let mut bench = begun(controller, tally)?;
    for tag in TAGS {
        let field = good(tag);
        for cut in 0..=field.len() {
            let wanted = match cut {
                0..=2 => 2,
                cut if cut < field.len() => 5,
                _ => 0,
            };
            for room in LARGE {
                let code = bench.call(&field[..cut], &field[cut..], room)?;
                if code != wanted {
                    return Err(format!("{cut} bytes of tag {tag} drew {code}, not {wanted}"));
                }
            }
        }
    }
    Ok(())
}

/// Every size up to the shortest that is accepted, and some beyond.
fn each_size(controller: &dyn Controller, tally: &mut Tally) -> Result<(), String> {
    let mut bench = begun(controller, tally)?;
    for room in (0..=520).chain([1000, 1023, 1024, 4095, 4096, 65_535, 65_536, 100_000]) {
        let code = if room < 512 { 1 } else { 0 };
        for tag in TAGS {
            bench.draws(&good(tag), room, code)?;
        }
    }
    Ok(())
}

/// A call works only its first field, whatever follows it.
fn bytes_behind(controller: &dyn Controller, tally: &mut Tally) -> Result<(), String> {
    let mut bench = begun(controller, tally)?;
    for tag in TAGS {
        let first = good(tag);
        let mut behind: Vec<Vec<u8>> = TAGS.map(good).collect();
        behind.extend((0..=8).map(|count| vec![count; usize::from(count)]));
        behind.push(first.repeat(40));
        behind.push(vec![0; 3000]);
        for more in behind {
            for room in LARGE {
                bench.draws(&[&first[..], &more].concat(), room, 0)?;
            }
        }
    }
    Ok(())
}

/// Every set of causes that one call can have: the one with the lowest number is the refusal.
fn causes_together(controller: &dyn Controller, tally: &mut Tally, tag: u8) -> Result<(), String> {
    let mut bench = begun(controller, tally)?;
    for set in 0..128_u8 {
        let has = |cause: u8| set >> (cause - 1) & 1 == 1;
        let wanted = (1..=7).find(|cause| has(*cause)).unwrap_or(0);
        for way in 0..WAYS {
            let Some(bytes) = wrong_field(tag, has, way) else { continue };
            let rooms: &[usize] = if has(1) { &SMALL } else { &LARGE };
            for room in rooms {
                bench.draws(&bytes, *room, wanted)?;
            }
        }
    }
    Ok(())
}

/// A field with exactly these causes of refusal, 2 to 7; none if the tag has no such cause.
fn wrong_field(tag: u8, has: impl Fn(u8) -> bool, way: usize) -> Option<Vec<u8>> {
    let pick = |bytes: &[u8]| (!bytes.is_empty()).then(|| bytes[way % bytes.len()]);
    let mut payload = payload(tag).to_vec();
    if has(7) {
        payload[1] = pick(bad_values(tag))?;
    }
    if has(6) {
        payload[0] = pick(&[31, 5, 255, 32, 1]).filter(|_| tag > 1)?;
    }
    let mut length = payload.len();
    if has(4) {
        let (least, most) = (*lengths(tag).start(), *lengths(tag).end());
        length = [most + 1, least - 1, most + 256, 65_535, 0][way % WAYS];
    }
    // Whatever follows a payload that is too long for its length makes no difference.
    payload.resize(payload.len().max(length), 0);
    if has(5) {
        payload.truncate([length.checked_sub(1)?, 0, length / 2][way % 3]);
    }
    let tag = if has(3) { pick(&[0, 6, 255, 7, 128])? } else { tag };
    let mut bytes = field(tag, length, &payload);
    if has(2) {
        bytes.truncate(way % 3);
    }
    Some(bytes)
}
