//! Equations as people write them (document 02, Job 3): the calls, with refusals as the tests compare them.

use dezgula::calls;

/// A refusal: the document's number, and the place that 16 and 7 come with.
pub type Refused = (u8, usize);

/// The right side; the coefficients go to `row`.
pub fn read(text: &[u8], q: usize, row: &mut [i32]) -> Result<i32, Refused> {
    let mut right = i32::MIN;
    let answer = calls::read_equation(text, q, row, &mut right);
    match answer.number() {
        130 => Ok(right),
        number => {
            assert_eq!(right, i32::MIN, "a refusal writes no right side");
            Err((number, answer.place() as usize))
        }
    }
}

/// The number of bytes written to the beginning of `out`.
pub fn write(q: usize, row: &[i32], right: i32, out: &mut [u8]) -> Result<usize, Refused> {
    let answer = calls::write_equation(q, row, right, out);
    match answer.number() {
        131 => Ok(answer.place() as usize),
        number => Err((number, answer.place() as usize)),
    }
}

/// A refusal of a system: the document's number, the line from 1 (0: about none), and the place of the line's own refusal.
pub type RefusedLine = (u8, usize, usize);

/// The number of equations; the coefficients go to the beginning of `coefs`, the right sides to that of `rights`.
pub fn read_system(text: &[u8], q: usize, coefs: &mut [i32], rights: &mut [i32]) -> Result<usize, RefusedLine> {
    let mut within = u64::MAX;
    let answer = calls::read_system(text, q, coefs, rights, &mut within);
    match answer.number() {
        132 => {
            assert_eq!(within, u64::MAX, "a system that is read has no place in a line");
            Ok(answer.place() as usize)
        }
        number => Err((number, answer.place() as usize, within as usize)),
    }
}
