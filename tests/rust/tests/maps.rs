//! The text form of a map: maps written and read again, and texts that are refused with their places.

use dezgula::calls::{self, MAP_COEFFICIENTS};
use dezgula_tests::draw::{self, Draw};
use dezgula_tests::System;

/// What is read into a table, or the number of the refusal and its place.
fn read(text: &[u8], coefs: &mut [i32; MAP_COEFFICIENTS]) -> Result<(usize, usize), (u8, u64)> {
    let before = *coefs;
    let (answer, p, q) = calls::read_map(text, coefs);
    if answer.number() == 108 {
        return Ok((p, q));
    }
    assert_eq!((*coefs, p, q), (before, 0, 0), "refused, it writes nothing");
    Err((answer.number(), answer.place()))
}

fn written(m: &System) -> String {
    let line = |row: &[i32]| row.iter().map(i32::to_string).collect::<Vec<_>>().join(" ") + "\n";
    format!("{} {}\n", m.p, m.q) + &m.coefs.chunks(m.q).map(line).collect::<String>()
}

#[test]
fn a_few() {
    let mut coefs = [77; MAP_COEFFICIENTS];
    assert_eq!(read(b"2 4\n-1 1 2 -3\n-1 3 -2 -1\n", &mut coefs), Ok((2, 4)));
    assert_eq!(coefs[..9], [-1, 1, 2, -3, -1, 3, -2, -1, 77], "what stood past it stays");
    for (text, refusal) in [("", (9, 1)), ("1 2\n1  2\n", (9, 2)), ("9 1\n", (1, 0)), ("1 17\n", (2, 0)), ("1 2\n1 10001\n", (7, 2)), ("1 1\n1\n\n", (9, 3))] {
        assert_eq!(read(text.as_bytes(), &mut coefs), Err(refusal), "{text:?}");
    }
    assert_eq!(read(&[b'1'; 4097], &mut coefs), Err((10, 0)));
}

#[test]
fn written_and_read_again() {
    let mut d = Draw::new(31);
    for _ in 0..5_000 {
        let m = draw::any_system(&mut d);
        let (text, mut coefs) = (written(&m), [7; MAP_COEFFICIENTS]);
        assert_eq!(read(text.as_bytes(), &mut coefs), Ok((m.p, m.q)), "{text}");
        assert_eq!(coefs[..m.p * m.q], m.coefs, "{text}");
        let cut = d.between(0, text.len() - 1);
        let refused = read(&text.as_bytes()[..cut], &mut coefs).unwrap_err();
        let line = text[..cut].matches('\n').count() as u64 + 1;
        assert_eq!(refused, (9, line), "{:?}", &text[..cut]);
    }
}
