//! The minimal natural solutions of systems of linear equations, listed by the proved calls of Dezgula.
//!
//! ```
//! let system = dezgula::System::new([[-1, 1, 2, -3], [-1, 3, -2, -1]])?;
//! for row in &system.basis()? {
//!     println!("{row:?}"); // [0, 1, 1, 1] and [4, 2, 1, 0]
//! }
//! # assert_eq!(system.basis()?.sorted(), [[0, 1, 1, 1], [4, 2, 1, 0]]);
//! # Ok::<(), dezgula::Error>(())
//! ```
//!
//! [`System::basis`] lists them by the engine, for at most 32 equations and 32 unknowns; [`System::solver`] is the same to be paused, limited and kept in a file,
//! and [`System::solver_from`] goes on from a list of other equations. [`System::start`] begins a run of the walk, of one of the kinds [`Plain`],
//! [`SingleFile`], [`Rights`], [`LowerBound`], [`Desk`], [`Training`] and [`TrainingLowerBound`], for at most 8 equations and 16 unknowns; a [`Run`] has
//! budgets, can be paused, and grows its lists; [`Several`] are up to eight of them in turns. [`System::why`], [`System::plan`] and [`System::locate`] answer
//! questions about a list. [`text`] has maps, equations and list files. A refusal is an [`Error`] with its number, its place and a sentence.
//!
//! Three layers: [`sys`] has the exported calls, [`calls`] the same over slices, and the rest is over these. `unsafe` is in the first two, and in [`Solver`], which
//! holds what the library has allocated. Nothing is kept between two calls, so that all types here may be sent to other threads and shared with them; what goes on
//! is borrowed exclusively.

#![deny(unsafe_op_in_unsafe_fn, missing_debug_implementations, missing_docs, clippy::undocumented_unsafe_blocks)]

mod answer;
pub mod calls;
mod engine;
mod list;
mod run;
mod several;
pub mod sys;
mod system;
pub mod text;

pub use answer::{numbers, Answer, Error, Progress};
pub use calls::version;
pub use engine::{Solver, Told};
pub use list::{List, Rows};
pub use run::{Desk, Kind, LowerBound, Plain, Rights, Run, SingleFile, Training, TrainingLowerBound, TwoLists};
pub use several::{InTurn, Several};
pub use system::{Made, Reason, System};

/// The example of the README, which runs as the others do.
#[cfg(doctest)]
#[doc = include_str!("../README.md")]
mod readme {}
