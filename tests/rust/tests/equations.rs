//! Equations as people write them: drawn rows are written and read again, and refused in the document's order, with nothing lent changed.

use dezgula_tests::draw::Draw;
use dezgula_tests::equations::{read, read_system, write};

/// The text of a row, straight from the document's words.
fn text_of(row: &[i32], right: i32) -> String {
    let mut text = String::new();
    for (k, &c) in row.iter().enumerate().filter(|(_, &c)| c != 0) {
        let sign = match (text.is_empty(), c < 0) {
            (true, true) => "-",
            (true, false) => "",
            (false, true) => " - ",
            (false, false) => " + ",
        };
        let times = if c.abs() == 1 { String::new() } else { format!("{}*", c.abs()) };
        text += &format!("{sign}{times}x{}", k + 1);
    }
    format!("{} = {right}", if text.is_empty() { "0" } else { &text })
}

#[test]
fn rows_are_written_and_read_again() {
    let mut d = Draw::new(3);
    for _ in 0..5000 {
        let q = d.between(1, 16);
        let row: Vec<i32> = (0..q).map(|_| d.of(&[0, 0, 1, -1, 2, -7, 10000, -10000])).collect();
        let right = d.of(&[0, 1, -1, 10000, -10000]);
        let expected = text_of(&row, right);
        let mut out = vec![b'#'; expected.len() + d.between(0, 3)];
        assert_eq!(write(q, &row, right, &mut out), Ok(expected.len()));
        assert_eq!(&out[..expected.len()], expected.as_bytes());
        assert!(out[expected.len()..].iter().all(|b| *b == b'#'), "what stood past it stays");
        let mut again = vec![77; q];
        assert_eq!(read(expected.as_bytes(), q, &mut again), Ok(right));
        assert_eq!(again, row);
        let mut short = vec![b'#'; expected.len() - 1];
        assert_eq!(write(q, &row, right, &mut short), Err((29, 0)));
        assert!(short.iter().all(|b| *b == b'#'), "nothing is written");
    }
}

#[test]
fn refusals_come_in_their_order_and_change_nothing() {
    let long = vec![b' '; 4097];
    for (text, q, n, refused) in [
        (&long[..], 0, 1, (10, 0)),
        (b"?", 17, 1, (2, 0)),
        (b"?", 2, 3, (3, 0)),
        (b"(((((((((99999*(x1 ", 1, 1, (16, 20)),
        (b"(((((((((99999*(x1))))))))))=0", 1, 1, (17, 0)),
        (b"99999*(x1)=10001", 1, 1, (18, 0)),
        (b"x1-10001*x2=10001", 2, 2, (7, 2)),
        (b"x1=10001", 1, 1, (15, 0)),
        (b"x12 = 0", 3, 3, (16, 3)),
        (b"x1=3 ", 3, 3, (16, 6)),
    ] {
        let mut row = vec![77; n];
        assert_eq!(read(text, q, &mut row), Err(refused), "{}", String::from_utf8_lossy(text));
        assert!(row.iter().all(|c| *c == 77), "nothing is written");
    }
    for (q, row, right, refused) in [
        (17, vec![10001; 17], 10001, (2, 0)),
        (2, vec![10001; 3], 10001, (3, 0)),
        (2, vec![1, -10001], 10001, (7, 2)),
        (2, vec![1, 1], -10001, (15, 0)),
        (2, vec![1, 1], 0, (29, 0)),
    ] {
        let mut out = [b'#'; 10];
        assert_eq!(write(q, &row, right, &mut out), Err(refused));
        assert_eq!(out, [b'#'; 10]);
    }
}

#[test]
fn systems_are_read_line_by_line() {
    let mut d = Draw::new(33);
    for _ in 0..3000 {
        let (p, q) = (d.between(1, 8), d.between(1, 16));
        let coefs: Vec<i32> = (0..p * q).map(|_| d.of(&[0, 0, 1, -1, 2, -7, 10000])).collect();
        let rights: Vec<i32> = (0..p).map(|_| d.of(&[0, 0, 1, -10000])).collect();
        let mut lines: Vec<String> = (0..p).map(|i| text_of(&coefs[i * q..(i + 1) * q], rights[i]) + "\n").collect();
        let (mut cs, mut rs) = (vec![77; p * q + 2], vec![77; p + 1]);
        assert_eq!(read_system(lines.concat().as_bytes(), q, &mut cs, &mut rs), Ok(p));
        assert_eq!((&cs[..p * q], &rs[..p]), (&coefs[..], &rights[..]));
        assert_eq!((&cs[p * q..], &rs[p..]), (&[77; 2][..], &[77][..]), "what stood past them stays");
        // a line that is refused is named with its own refusal, whatever stands after it
        let k = d.between(0, p - 1);
        let (bad, refused) = d.of(&[("x1 = \n", (16, 6)), ("\n", (16, 1)), ("x1=99999\n", (15, 0)), ("99999*(x1)=0\n", (18, 0)), ("x1 = 0 \n", (16, 8))]);
        lines[k] = bad.to_string();
        let (mut cs, mut rs) = (vec![77; p * q], vec![77; p]);
        assert_eq!(read_system(lines.concat().as_bytes(), q, &mut cs, &mut rs), Err((refused.0, k + 1, refused.1)));
        assert!(cs.iter().chain(&rs).all(|c| *c == 77), "nothing is written");
    }
}
