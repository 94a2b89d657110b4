//! The watch engine for Rust.
//!
//! An *image* is a small program with marked points; the engine accepts or refuses it, and runs an accepted one over a
//! received *frame* up to a budget of steps. The engine is a library that is proved to meet its contract for every
//! input (`crates/call_spec/specs/Calls.antt`, `called`); this crate lends it memory and reads what it wrote. "Document 01"
//! is the paper that decides layouts, numbers and limits.
//!
//! ```
//! use bukzarn::program::Program;
//! use bukzarn::{run, Leaf, Lent, Outcome};
//!
//! let mut program = Program::new(&[1]);
//! let (a, b) = (program.number(2), program.number(3));
//! let sum = program.plus(a, b);
//! let image = program.image(&sum);
//!
//! let mut lent = Lent::new(16_384);
//! let run = run(&image, &[], 100, &mut lent).unwrap();
//! assert_eq!((run.outcome(), run.steps()), (Outcome::Done, 1));
//! assert_eq!(run.result().collect::<Vec<_>>(), [Leaf::Number(5)]);
//! ```
//!
//! [`run`] keeps the lent memory in one value and cannot be called with too little of it. [`call`] takes slices of any
//! length, and refuses short ones. [`run_frames`] and [`call_frames`] do the same over many frames, with one check of the
//! image. [`validate`] answers the verdict alone, [`need`] what a run will need, worked out
//! without a run, [`fixed_form`] the one image of an image's program, [`load`] the image of a seed and a depth,
//! [`stripped_form`] an image without its watches. [`image_name`] is the name under which an image travels.
//!
//! A refused call is an error with its reason in words. No call panics, whatever the image and the frame; [`program`] says
//! where its makers of terms do.
#![deny(missing_docs, unsafe_code)]

mod call;
mod fixed;
mod frames;
mod lent;
mod load;
mod name;
mod needs;
mod outcome;
pub mod program;
#[allow(unsafe_code)]
mod raw;
mod records;
mod refusal;
mod stripped;

pub use call::{call, validate, Written};
pub use fixed::{fixed_form, write_fixed};
pub use frames::{call_frames, Frames};
pub use lent::{run, run_frames, Lent};
pub use load::{generate, load, LOAD_DEPTH, LOAD_LENGTH};
pub use name::{image_name, Name, NAME_DIGITS};
pub use needs::{need, Needs};
pub use outcome::Outcome;
pub use records::{Cell, Leaf, Leaves, LogRecord, Run};
pub use refusal::{Cause, Refusal};
pub use stripped::{stripped_form, write_stripped};

/// The longest image that can be accepted, in bytes.
pub const IMAGE_LIMIT: usize = 16_384;

/// The published length of the work area, in bytes.
pub const WORK_LENGTH: usize = 35_857;

/// The length of a report that every run fits in, in bytes.
pub const REPORT_LENGTH: usize = 17_994;
