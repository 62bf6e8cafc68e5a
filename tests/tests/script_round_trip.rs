//! Scripts: bytes to script to bytes, the forms one by one, and what an error says.

use rack_tests::generate::{generate, Draw};
use rack_tests::script::{parse, write};

fn assert_round_trip(bytes: &[u8]) {
    let text = write(bytes);
    let back = parse(text.as_bytes()).unwrap_or_else(|what| panic!("{what}\n{text}"));
    assert_eq!(back.bytes(), bytes, "{text}");
}

#[test]
fn generated_inputs_come_back() {
    for seed in 0..1_500 {
        assert_round_trip(&generate(seed).bytes());
    }
}

#[test]
fn random_bytes_come_back() {
    let mut draw = Draw::new(5);
    for round in 0..3_000 {
        let count = draw.below(120) as usize;
        let mut bytes = draw.bytes(count);
        if round % 2 == 0 {
            // A good fitting list before the garbage, and small bytes that look like headers.
            bytes.iter_mut().for_each(|byte| *byte %= 20);
            bytes.splice(0..0, [255; 31]);
        }
        assert_round_trip(&bytes);
    }
}

/// The bytes after an empty rack's fitting list.
fn fields(text: &str) -> Vec<u8> {
    let bytes = parse(text.as_bytes()).unwrap_or_else(|what| panic!("{what}")).bytes();
    assert_eq!(bytes[..31], [255; 31]);
    bytes[31..].to_vec()
}

#[test]
fn each_form_makes_its_bytes() {
    assert_eq!(fields("line ADR 6 # comment"), b"\x01\x00\x06ADR 6\r");
    assert_eq!(fields("line"), b"\x01\x00\x01\r");
    assert_eq!(fields("text ABC"), b"\x01\x00\x03ABC");
    assert_eq!(
        fields("line PV 1.00000000000000"),
        b"\x01\x00\x10PV 1.00000000000\x01\x00\x04000\r"
    );
    assert_eq!(fields(r#"text "a #\b\x7F\"\\ " # comment"#), b"\x01\x00\x08a #\x08\x7F\"\\ ");
    assert_eq!(fields("key 6 FOLD"), [2, 0, 2, 6, 1]);
    assert_eq!(fields("knob 6 PV +6000000"), [3, 0, 6, 6, 0, 0x00, 0x5B, 0x8D, 0x80]);
    assert_eq!(fields("knob 30 UVL -1"), [3, 0, 6, 30, 3, 255, 255, 255, 255]);
    assert_eq!(fields("lines 6 SO ENA"), [4, 0, 2, 6, 0xA0]);
    assert_eq!(fields("lines 6 none\nlines 6"), [4, 0, 2, 6, 0, 4, 0, 2, 6, 0]);
    assert_eq!(fields("sample 6 45834 1"), [5, 0, 5, 6, 0xB3, 0x0A, 0, 1]);
    assert_eq!(fields("bytes 01 00 ff00"), [1, 0, 255, 0]);
}

#[test]
fn fitting_forms() {
    let bytes = parse(b"fit 6 0\nfit 30 11\n").expect("good").bytes();
    assert_eq!((bytes[6], bytes[30], bytes[0], bytes.len()), (0, 11, 255, 31));
    assert_eq!(parse(b"raw-fit 0C FF\n").expect("good").bytes(), [12, 255]);
    assert_eq!(parse(b"raw-fit\n").expect("good").bytes(), []);
    assert_eq!(write(&[12, 255]), "raw-fit 0C FF\n");
}

#[test]
fn nicer_forms_are_used_where_they_can_be() {
    let text = "fit 6 0\nline ADR 6\nline\nline PV 0000000000000000000000\ntext PV\n\
        line \"P\\bPV? \"\nkey 6 LOCAL\nknob 6 OVP -5\nlines 6 AC OTP\nlines 6 none\n\
        sample 6 1 2\nbytes 02 00 02 06 09\nbytes 01 00 01 FF\nbytes 01 00\n";
    let bytes = parse(text.as_bytes()).expect("good").bytes();
    assert_eq!(write(&bytes), text);
}

#[test]
fn errors_name_the_line_and_the_fault() {
    for (text, wanted) in [
        ("fit 6 0\n\nkey 6 PRESS", "line 3: key must be one of OUTPUT, FOLD, LOCAL, not 'PRESS'"),
        ("fit 31 0", "line 1: slot must be a whole number from 0 to 30, not '31'"),
        ("fit 6 12", "line 1: model must be a whole number from 0 to 11, not '12'"),
        ("fit 6 0\nfit 6 1", "line 2: slot 6 is fitted twice"),
        ("line A\nfit 6 0", "line 2: fit must stand before the first field"),
        (
            "sample 6 65536 0",
            "line 1: volt count must be a whole number from 0 to 65535, not '65536'",
        ),
        ("bytes 1", "line 1: '1' is not made of pairs of hexadecimal digits"),
        ("line \"PV", "line 1: the closing quote is missing"),
        ("text", "line 1: text needs at least one character"),
        ("lines 6 DC", "line 1: line must be one of AC, OTP, SO, ENA, not 'DC'"),
    ] {
        assert_eq!(parse(text.as_bytes()), Err(wanted.to_string()));
    }
    let unknown = parse(b"press 6").expect_err("no such form");
    assert!(unknown.starts_with("line 1: 'press' is none of"), "{unknown}");
}
