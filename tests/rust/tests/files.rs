//! Lists as files: drawn lists are written as the document says, or refused as it says; what was written is read; and a damaged file is refused, with nothing
//! lent changed.

use dezgula_tests::draw::Draw;
use dezgula_tests::files::{length, read, write, written, List};

fn drawn(d: &mut Draw) -> List {
    let (p, q) = (d.between(1, 8), d.between(1, 16));
    let coefs = (0..p * q).map(|_| d.of(&[-10000, -1, 0, 1, 3, 10000])).collect();
    let count = d.of(&[0, 1, 2, 7, 40, 300]);
    let rows = (0..count * q).map(|_| d.of(&[0, 1, 255, 65536, 1_000_000])).collect();
    List { p, q, coefs, rows, ending: d.of(&[0, 1]) }
}

/// One thing put out of order, or none.
fn spoil(d: &mut Draw, l: &mut List) {
    match d.between(0, 8) {
        0 => l.p = d.of(&[0, 9, usize::MAX]),
        1 => l.q = d.of(&[0, 17, usize::MAX]),
        2 => l.coefs.push(0),
        3 => *l.coefs.last_mut().unwrap() = d.of(&[10001, -10001]),
        4 => l.rows.push(0),
        5 => l.rows.extend(vec![1_000_001; l.q]),
        6 => l.ending = d.of(&[2, u32::MAX]),
        _ => {}
    }
}

#[test]
fn lists_are_written_and_read_as_the_document_says() {
    let mut d = Draw::new(5);
    for _ in 0..3000 {
        let mut l = drawn(&mut d);
        spoil(&mut d, &mut l);
        let room = length(&l) + d.of(&[0, 0, 0, 1, 512]);
        let mut out = vec![0xa5; room];
        match written(&l, room) {
            Err(refused) => {
                assert_eq!(write(&l, &mut out), Err(refused), "{l:?}");
                assert!(out.iter().all(|b| *b == 0xa5), "nothing is written");
            }
            Ok(file) => {
                assert_eq!(write(&l, &mut out), Ok(()), "{l:?}");
                assert_eq!(out, file);
                let (mut coefs, mut list) = (vec![77; l.coefs.len() + 3], vec![77; l.rows.len() + 3]);
                assert_eq!(read(&file, &mut coefs, &mut list), Ok((l.p, l.q, l.rows.len() / l.q, l.ending)));
                assert_eq!((&coefs[..l.coefs.len()], &list[..l.rows.len()]), (&l.coefs[..], &l.rows[..]));
                assert_eq!((&coefs[l.coefs.len()..], &list[l.rows.len()..]), (&[77; 3][..], &[77; 3][..]), "what stood past it stays");
            }
        }
    }
}

#[test]
fn a_damaged_file_is_refused() {
    let mut d = Draw::new(6);
    for _ in 0..3000 {
        let l = drawn(&mut d);
        let mut file = written(&l, length(&l)).unwrap();
        let i = d.between(0, file.len() - 1);
        file[i] ^= 1 << d.between(0, 7);
        let (mut coefs, mut list) = (vec![77; 128], vec![77; l.rows.len()]);
        assert_eq!(read(&file, &mut coefs, &mut list), Err((20, 0)), "one bit turned");
        assert!(coefs.iter().all(|c| *c == 77) && list.iter().all(|x| *x == 77), "nothing is written");
    }
}
