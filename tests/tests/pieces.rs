//! The program's input in pieces: however it is split, it prints what it prints for the whole, each
//! reply with the piece that ends its field, and nothing that a further byte could still change.

use rack_tests::generate::{generate, Draw};
use rack_tests::program::{run, Running};
use rack_tests::rack::SLOTS;
use rack_tests::script::field_length;

/// Everything printed for these pieces, the end of the input included.
fn in_pieces(input: &[u8], mut size: impl FnMut() -> usize) -> Vec<u8> {
    let (mut running, mut printed) = (Running::default(), Vec::new());
    let mut rest = input;
    while !rest.is_empty() {
        let (piece, after) = rest.split_at(size().clamp(1, rest.len()));
        running.take(piece, &mut printed);
        rest = after;
    }
    running.take(&[], &mut printed);
    assert!(running.over());
    printed
}

#[test]
fn the_cuts_between_pieces_change_nothing() {
    for seed in 0..400 {
        let mut draw = Draw::new(seed);
        let input = generate(seed).bytes();
        let wanted = run(&input);
        assert_eq!(in_pieces(&input, || 1), wanted, "seed {seed}, single bytes");
        assert_eq!(in_pieces(&input, || input.len()), wanted, "seed {seed}, one piece");
        let most = 1 + draw.below(60);
        assert_eq!(in_pieces(&input, || draw.below(most) as usize), wanted, "seed {seed}");
    }
}

/// The places in an input where a field, or the fitting list, has just ended.
fn ends(input: &[u8]) -> Vec<usize> {
    let mut found = vec![SLOTS];
    let mut at = SLOTS;
    while let Some(used) = input.get(at..).and_then(field_length) {
        at += used;
        found.push(at);
    }
    found
}

#[test]
fn each_field_is_answered_at_its_last_byte() {
    for seed in 0..400 {
        let input = generate(seed).bytes();
        let (ends, whole) = (ends(&input), run(&input));
        let (mut running, mut printed) = (Running::default(), Vec::new());
        for at in 1..=input.len() {
            let before = printed.clone();
            running.take(&input[at - 1..at], &mut printed);
            assert!(whole.starts_with(&printed), "seed {seed}, byte {at}");
            if ends.contains(&at) {
                assert_eq!(printed, run(&input[..at]), "seed {seed}, byte {at}");
            } else if !running.over() {
                assert_eq!(printed, before, "seed {seed}, byte {at} ends no field");
            }
        }
    }
}

#[test]
fn a_refusal_comes_as_soon_as_no_byte_can_mend_it() {
    let mut list = [255; SLOTS].to_vec();
    list[6] = 0;
    for (bytes, decided, number) in [
        (&b"\x09\x00\x02\x06\x00"[..], 3, 3),
        (b"\x01\x01\x04PV?\r", 3, 4),
        (b"\x02\x00\x02\x07\x00\x01", 5, 6),
        (b"\x04\x00\x02\x06\x01\x01", 5, 7),
    ] {
        let (mut running, mut printed) = (Running::default(), Vec::new());
        let input = [&list[..], bytes].concat();
        for (at, byte) in input.iter().enumerate() {
            running.take(&[*byte], &mut printed);
            assert_eq!(running.over(), at + 1 >= SLOTS + decided, "{bytes:?}, byte {at}");
        }
        assert_eq!(printed, format!("refused {number}\n").as_bytes());
        assert_eq!(printed, run(&input));
    }
}
