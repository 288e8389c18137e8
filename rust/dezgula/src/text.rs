//! Maps, equations and lists as texts and files.
//!
//! ```
//! use dezgula::text;
//! let (system, rights) = text::read_system("2*(x1 + x3) - x2 = 3\nx1 = x2\n", 3)?;
//! assert_eq!(system.rows().collect::<Vec<_>>(), [[2, -1, 2], [1, -1, 0]]);
//! assert_eq!(rights, [3, 0]);
//! assert_eq!(text::write_equation(&[2, -1, 2], 3)?, "2*x1 - x2 + 2*x3 = 3");
//! let refused = text::read_system("x1 = x2\nx1 + = 3\n", 3).unwrap_err();
//! assert_eq!((refused.number(), refused.place(), refused.within()), (16, Some(2), Some(6)));
//! # Ok::<(), dezgula::Error>(())
//! ```
#![forbid(unsafe_code)]

use crate::answer::{numbers, Error};
use crate::calls::{self, FileHead, MAP_COEFFICIENTS, MAP_RIGHTS};
use crate::list::List;
use crate::system::System;

/// How a run ended whose list is sent.
#[derive(Clone, Copy, Debug, PartialEq, Eq)]
pub enum Ending {
    /// The list is whole.
    Complete,
    /// It is what was listed when the run was paused.
    Paused,
}

/// The text form of a map: a line "p q", then p lines of q coefficients, single spaces between them, each line ended by a newline.
///
/// ```
/// let system = dezgula::text::read_map("1 2\n2 -3\n")?;
/// assert_eq!(system.rows().next(), Some(&[2, -3][..]));
/// # Ok::<(), dezgula::Error>(())
/// ```
pub fn read_map(text: impl AsRef<[u8]>) -> Result<System, Error> {
    let mut coefs = [0; MAP_COEFFICIENTS];
    let (answer, p, q) = calls::read_map(text.as_ref(), &mut coefs);
    answer.only(numbers::MAP_READ)?;
    Ok(System::of(p, q, &coefs))
}

/// The coefficients and the right side of an equation for so many unknowns, as "2*(x1 + x3) - x2 = 3".
pub fn read_equation(text: impl AsRef<[u8]>, unknowns: usize) -> Result<(Vec<i32>, i32), Error> {
    // where there are more unknowns than may be, that is refused before the row is looked at
    let (mut row, mut right) = (vec![0; unknowns.min(MAP_COEFFICIENTS)], 0);
    calls::read_equation(text.as_ref(), unknowns, &mut row, &mut right).only(numbers::EQUATION_READ)?;
    Ok((row, right))
}

/// The equation with these coefficients and this right side as text, which [`read_equation`] reads again as the same.
pub fn write_equation(row: &[i32], right: i32) -> Result<String, Error> {
    let mut out = [0; 256];
    let length = calls::write_equation(row.len(), row, right, &mut out).only(numbers::EQUATION_WRITTEN)?;
    Ok(String::from_utf8_lossy(&out[..length]).into_owned())
}

/// A system for so many unknowns with its right sides, an equation a line, each line ended by a newline. Where a line is refused, the place of the error is the
/// line.
pub fn read_system(text: impl AsRef<[u8]>, unknowns: usize) -> Result<(System, Vec<i32>), Error> {
    let (mut coefs, mut rights, mut within) = ([0; MAP_COEFFICIENTS], [0; MAP_RIGHTS], 0);
    let answer = calls::read_system(text.as_ref(), unknowns, &mut coefs, &mut rights, &mut within);
    let p = answer.only(numbers::SYSTEM_READ).map_err(|refused| refused.with(within))?;
    Ok((System::of(p, unknowns, &coefs), rights[..p].to_vec()))
}

/// The list of a system as a file, to be sent.
///
/// ```
/// use dezgula::{text, System};
/// let system = System::new([[2, -3]])?;
/// let file = text::write_list(&system, &system.basis()?, text::Ending::Complete)?;
/// assert_eq!(text::read_list(&file)?, (system.clone(), system.basis()?, text::Ending::Complete));
/// # Ok::<(), dezgula::Error>(())
/// ```
pub fn write_list(system: &System, list: &List, ending: Ending) -> Result<Vec<u8>, Error> {
    if list.unknowns() != system.unknowns() {
        return Err(Error::new(numbers::TUPLE_LENGTH, 0));
    }
    let words = system.equations() * system.unknowns() + list.numbers().len();
    let mut out = vec![0; ((words + 125) / 126 + 1) * 512];
    let ending = u32::from(ending == Ending::Paused);
    calls::write_list(system.map(), list.found(), ending, &mut out).only(numbers::LIST_WRITTEN)?;
    Ok(out)
}

/// The system, the list and the ending that a file has.
pub fn read_list(file: &[u8]) -> Result<(System, List, Ending), Error> {
    let (mut coefs, mut head) = ([0; MAP_COEFFICIENTS], FileHead::default());
    let mut rows = vec![0; file.len() / 4];
    calls::read_list(file, &mut coefs, &mut rows, &mut head).only(numbers::LIST_READ)?;
    let ending = if head.ending == 0 { Ending::Complete } else { Ending::Paused };
    Ok((System::of(head.p, head.q, &coefs), List::of(head.q, &rows[..head.found * head.q]), ending))
}
