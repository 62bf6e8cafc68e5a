//! The readable cases against the reference library, and the calls that no program shows.

use rack_tests::rack::Rack;
use rack_tests::{cases, program};

#[test]
fn every_case_prints_what_the_paper_asks() {
    let all = cases::load(cases::folder()).expect("readable cases");
    assert!(all.len() > 100, "only {} cases found", all.len());
    let failed: Vec<String> =
        all.iter().filter_map(|case| cases::difference(case, &program::run(&case.input))).collect();
    assert!(failed.is_empty(), "{failed:#?}");
}

fn rack_with_model_0_in_slot_6() -> Rack {
    let mut list = [255; 31];
    list[6] = 0;
    Rack::fit(&list).expect("a good list")
}

#[test]
fn a_small_reply_buffer_is_refused_before_all_else() {
    let mut rack = rack_with_model_0_in_slot_6();
    let fresh = rack.clone();
    for bytes in [&b""[..], b"\x01", b"\x09\x00\x00", b"\x02\x00\x02\x06\x00"] {
        assert_eq!(rack.call(bytes, 511), Err(1));
        assert_eq!(rack.call(bytes, 0), Err(1));
    }
    assert_eq!(rack, fresh);
    assert_eq!(rack.call(b"\x02\x00\x02\x06\x00", 512), Ok((5, vec![])));
    assert_ne!(rack, fresh);
}

#[test]
fn no_bytes_at_all_are_refused_as_too_few() {
    assert_eq!(rack_with_model_0_in_slot_6().call(b"", 512), Err(2));
}

#[test]
fn a_call_takes_the_first_field_and_ignores_the_rest() {
    let mut rack = rack_with_model_0_in_slot_6();
    let lent = b"\x01\x00\x06ADR 6\r\x01\x00\x01\r";
    assert_eq!(rack.call(lent, 600), Ok((9, b"OK\r".to_vec())));
    assert_eq!(rack.call(&lent[9..], 600), Ok((4, b"OK\r".to_vec())));
    assert_eq!(rack.call(b"\x01\x00\x04PV?\r\xFF\xFF", 600), Ok((7, b"0.0000\r".to_vec())));
}

#[test]
fn messages_count_in_the_length_of_the_replies() {
    let mut rack = rack_with_model_0_in_slot_6();
    rack.call(b"\x01\x00\x0EADR 6\rSENA 80\r", 512).expect("accepted");
    assert_eq!(rack.call(b"\x01\x00\x06RMT 1\r", 512), Ok((9, b"OK\r".to_vec())));
    let before = rack.clone();
    assert_eq!(rack.call(b"\x02\x00\x02\x06\x02", 512), Ok((5, b"!06\r".to_vec())));
    rack = before;
    assert_eq!(rack.call(b"\x01\x00\x06RMT 0\r", 512), Ok((9, b"OK\r!06\r".to_vec())));
}

/// A full rack in which everyone speaks after a field with three of the longest answers.
#[test]
fn the_longest_output_of_a_field_fits() {
    let mut rack = Rack::fit(&[11; 31]).expect("a good list");
    rack.call(b"\x05\x00\x05\x1E\xFF\xFF\x00\x00", 512).expect("accepted");
    let mut serial = |text: &str| {
        let field = [&[1, 0, text.len() as u8], text.as_bytes()].concat();
        rack.call(&field, 512).expect("accepted").1
    };
    for slot in 0..31 {
        serial(&format!("ADR {slot}\rSENA 01\r"));
    }
    serial("GPV 628.5714\r");
    serial("GOUT 1\r");
    serial("GPC 1.001");
    let said = serial("\rSTT?\rSTT?\rSTT?\r");
    let status = "MV(786.4200),PV(628.5714),MC(0.000),PC(1.001),SR(05),FR(00)\r";
    let messages: String = (0..31).map(|slot| format!("!{slot:02}\r")).collect();
    assert_eq!(said, [status.repeat(3), messages].concat().as_bytes());
    assert_eq!(said.len(), 3 * 60 + 31 * 4);
}

#[test]
fn a_refused_call_leaves_the_rack() {
    let mut rack = rack_with_model_0_in_slot_6();
    rack.call(b"\x01\x00\x08ADR 6\rPV", 512).expect("accepted");
    let before = rack.clone();
    for (bytes, number) in [
        (&b"\x01\x00"[..], 2),
        (b"\x06\x00\x01\x00", 3),
        (b"\x01\x00\x00", 4),
        (b"\x01\x00\x02?", 5),
        (b"\x02\x00\x02\x07\x00", 6),
        (b"\x04\x00\x02\x06\x01", 7),
    ] {
        assert_eq!(rack.call(bytes, 512), Err(number));
        assert_eq!(rack, before);
    }
    assert_eq!(rack.call(b"\x01\x00\x02?\r", 512), Ok((5, b"0.0000\r".to_vec())));
}
