//! Fields by their bytes: complete ones, and all the ways in which one goes wrong.

use crate::rack::{Rack as Model, SLOTS};
use crate::script;

/// The lengths that a tag's payload may have, by 01's list of tags.
pub fn lengths(tag: u8) -> std::ops::RangeInclusive<usize> {
    match tag {
        1 => 1..=16,
        2 | 4 => 2..=2,
        3 => 6..=6,
        _ => 5..=5,
    }
}

/// A field with this tag and payload, with the given length.
pub fn field(tag: u8, length: usize, payload: &[u8]) -> Vec<u8> {
    let length = u16::try_from(length).expect("a length of two bytes").to_be_bytes();
    [&[tag], &length[..], payload].concat()
}

/// Whether these bytes are exactly one field that a controller may accept.
pub fn whole(bytes: &[u8]) -> bool {
    script::field_length(bytes) == Some(bytes.len())
}

/// The bytes of a script's line as fields; what is not a field stays together.
pub fn split(mut bytes: &[u8]) -> Vec<Vec<u8>> {
    let mut fields = Vec::new();
    while let Some(used) = script::field_length(bytes) {
        fields.push(bytes[..used].to_vec());
        bytes = &bytes[used..];
    }
    if !bytes.is_empty() {
        fields.push(bytes.to_vec());
    }
    fields
}

/// Values that a key, a target or a LINES byte must not have.
pub fn bad_values(tag: u8) -> &'static [u8] {
    match tag {
        2 => &[3, 4, 128, 255],
        3 => &[4, 5, 129, 255],
        4 => &[0x01, 0x08, 0x10, 0x40, 0xFF],
        _ => &[],
    }
}

/// A complete field with one thing wrong, and the refusal that this draws on such a rack.
pub fn spoiled(whole: &[u8], model: &Model) -> Vec<(Vec<u8>, u8)> {
    let with = |at: usize, byte: u8| {
        let mut bytes = whole.to_vec();
        bytes[at] = byte;
        bytes
    };
    let tag = whole[0];
    let mut wrong: Vec<(Vec<u8>, u8)> = [0, 6, 255].map(|tag| (with(0, tag), 3)).into();
    wrong.push((with(1, 1), 4));
    wrong.push((with(2, 0), 4));
    wrong.push((with(2, 17), 4));
    if tag > 1 {
        let empty = (0..SLOTS).find(|slot| model.slots[*slot].is_none());
        let addresses = [31, 32, 255].into_iter().chain(empty.map(|slot| slot as u8));
        wrong.extend(addresses.map(|address| (with(3, address), 6)));
        let fitted = model.slots.get(usize::from(whole[3])).is_some_and(Option::is_some);
        let code = if fitted { 7 } else { 6 };
        wrong.extend(bad_values(tag).iter().map(|value| (with(4, *value), code)));
    }
    wrong
}
