//! What a run of an image will need, without a run (document 02, card 10).
use crate::{raw, Refusal};
use std::fmt;

/// The engine's rooms (document 01, "A run"); the first three are those of one half (document 02, card 9).
const BINDING_LIMIT: u32 = 1_024;
const PIECE_LIMIT: u32 = 256;
const CELL_LIMIT: u32 = 128;
const LABEL_LIMIT: u32 = 64;
const ADVICE_LIMIT: u32 = 64;
const FRAME_LIMIT: u32 = 512;

/// The length of a log record.
const LOG_RECORD_LENGTH: usize = 10;

/// How many numbers there are.
pub(crate) const NEEDS: usize = 11;

/// Upper numbers of what any run of an image uses, whatever the frame, the budget and the log.
///
/// Bindings, pieces and cells are of domain 0's half; those called `other` are of the half of all other domains together
/// (card 9).
#[derive(Clone, Copy, Debug, Default, PartialEq, Eq)]
pub struct Needs {
    /// Steps.
    pub steps: u32,
    /// Bindings of domain 0.
    pub bindings: u32,
    /// Bindings of the other domains.
    pub other_bindings: u32,
    /// Pieces of domain 0.
    pub pieces: u32,
    /// Pieces of the other domains.
    pub other_pieces: u32,
    /// Cells of domain 0.
    pub cells: u32,
    /// Cells of the other domains.
    pub other_cells: u32,
    /// Labels.
    pub labels: u32,
    /// Places of installed advice.
    pub advice: u32,
    /// The most unfinished terms around a term that is reduced.
    pub frames: u32,
    /// Log records, of 10 bytes each.
    pub log: u32,
}

/// The numbers in the order of the program `need`.
impl From<[u32; NEEDS]> for Needs {
    fn from(numbers: [u32; NEEDS]) -> Needs {
        let [steps, bindings, other_bindings, pieces, other_pieces, cells, other_cells, labels, advice, frames, log] =
            numbers;
        Needs { steps, bindings, other_bindings, pieces, other_pieces, cells, other_cells, labels, advice, frames, log }
    }
}

impl Needs {
    /// Each number with its word, in the order of the program `need`.
    #[must_use]
    pub fn all(&self) -> [(&'static str, u32); NEEDS] {
        [
            ("steps", self.steps),
            ("bindings", self.bindings),
            ("other-bindings", self.other_bindings),
            ("pieces", self.pieces),
            ("other-pieces", self.other_pieces),
            ("cells", self.cells),
            ("other-cells", self.other_cells),
            ("labels", self.labels),
            ("advice", self.advice),
            ("frames", self.frames),
            ("log", self.log),
        ]
    }

    /// The limit of each number in a call with a budget and a log of so many bytes, in the same order.
    #[must_use]
    pub fn limits(budget: u32, log: usize) -> [u32; NEEDS] {
        let records = u32::try_from(log / LOG_RECORD_LENGTH).unwrap_or(u32::MAX);
        let [bindings, pieces, cells] = [BINDING_LIMIT, PIECE_LIMIT, CELL_LIMIT];
        [budget, bindings, bindings, pieces, pieces, cells, cells, LABEL_LIMIT, ADVICE_LIMIT, FRAME_LIMIT, records]
    }

    /// Do these numbers fit into the engine's rooms, a budget, and a log of so many bytes? Then every run is done or
    /// aborted.
    #[must_use]
    pub fn fit(&self, budget: u32, log: usize) -> bool {
        self.all().into_iter().zip(Needs::limits(budget, log)).all(|((_, needed), limit)| needed <= limit)
    }
}

/// As the program `need` prints them, a line each.
impl fmt::Display for Needs {
    fn fmt(&self, f: &mut fmt::Formatter<'_>) -> fmt::Result {
        self.all().into_iter().try_for_each(|(word, number)| writeln!(f, "{word} {number}"))
    }
}

/// What any run of an image will need.
///
/// ```
/// use bukzarn::{need, program::Program};
/// let mut program = Program::new(&[1]);
/// let (two, three) = (program.number(2), program.number(3));
/// let sum = program.plus(two, three);
/// let needs = need(&program.image(&sum)).unwrap();
/// assert_eq!(needs.steps, 1);
/// assert!(needs.fit(1, 0), "a budget of one step and no log are enough");
/// ```
///
/// # Errors
///
/// The [`Refusal`] of an image that the check refuses, with 1 to 16, and then of one outside the class
/// ([`Cause::OutsideClass`](crate::Cause::OutsideClass)): with an apply, a call, an install that does not stand directly
/// over an advice, or a mark or an install in the body of an advice. The place is the lowest such term's.
pub fn need(image: &[u8]) -> Result<Needs, Refusal> {
    let mut numbers = [0; NEEDS];
    match raw::need(image, &mut numbers) {
        0 => Ok(Needs::from(numbers)),
        answer => Err(Refusal::of(answer)),
    }
}
