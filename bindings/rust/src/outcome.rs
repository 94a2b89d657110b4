//! How a run ended.
use std::fmt;

/// How a run ended (document 01, "A run"), with the paper's numbers.
///
/// Bindings, cells and pieces are halved: one half is domain 0's, the mainline's, the other that of all other domains
/// together (document 02, card 9).
#[derive(Clone, Copy, Debug, PartialEq, Eq, PartialOrd, Ord, Hash)]
#[non_exhaustive]
pub enum Outcome {
    /// A value was reached.
    Done,
    /// The steps equal the budget, and the next step lacks no room.
    Spent,
    /// The program aborted.
    Aborted,
    /// More than 512 unfinished terms stood around the next one to reduce.
    Frames,
    /// The next step would pass domain 0's 1,024 bindings.
    Bindings,
    /// The next step would pass domain 0's 128 cells.
    Cells,
    /// The next step would pass 64 labels.
    Labels,
    /// The next step would pass 64 advice installed at one time.
    Advice,
    /// The next step would pass domain 0's 256 pieces: pairs, pointcuts and advice made, and the values of stacks taken.
    Pieces,
    /// A print found under 10 bytes left in the log.
    Log,
    /// The next step would pass the other domains' 1,024 bindings.
    OtherBindings,
    /// The next step would pass the other domains' 128 cells.
    OtherCells,
    /// The next step would pass the other domains' 256 pieces.
    OtherPieces,
    /// A number that this crate has no name for: the library is newer than the crate.
    Unknown(u16),
}

/// Each outcome that has a name: its number, its word in the bench sheet's listing, and how the run ended in words.
const NAMED: [(u16, Outcome, &str, &str); 13] = [
    (0, Outcome::Done, "done", "a value was reached"),
    (1, Outcome::Spent, "spent", "the budget of steps is spent"),
    (2, Outcome::Aborted, "aborted", "the program aborted"),
    (3, Outcome::Frames, "frames", "more than 512 unfinished terms"),
    (4, Outcome::Bindings, "bindings", "domain 0 needs more than its 1,024 bindings"),
    (5, Outcome::Cells, "cells", "domain 0 needs more than its 128 cells"),
    (6, Outcome::Labels, "labels", "more than 64 labels"),
    (7, Outcome::Advice, "advice", "more than 64 advice installed at one time"),
    (8, Outcome::Pieces, "pieces", "domain 0 needs more than its 256 pieces"),
    (9, Outcome::Log, "log", "the log is full"),
    (10, Outcome::OtherBindings, "other-bindings", "the domains other than 0 need more than their 1,024 bindings"),
    (11, Outcome::OtherCells, "other-cells", "the domains other than 0 need more than their 128 cells"),
    (12, Outcome::OtherPieces, "other-pieces", "the domains other than 0 need more than their 256 pieces"),
];

impl Outcome {
    /// Every outcome with a name, in the order of the numbers.
    pub fn all() -> impl Iterator<Item = Outcome> {
        NAMED.into_iter().map(|(_, outcome, ..)| outcome)
    }

    /// The outcome of this number, if it has a name.
    #[must_use]
    pub fn from_number(number: u16) -> Option<Outcome> {
        NAMED.into_iter().find(|(known, ..)| *known == number).map(|(_, outcome, ..)| outcome)
    }

    /// Document 01's number.
    #[must_use]
    pub fn number(self) -> u16 {
        match self {
            Outcome::Unknown(number) => number,
            named => NAMED.into_iter().find(|(_, outcome, ..)| *outcome == named).map_or(0, |(number, ..)| number),
        }
    }

    /// How the run ended, in words.
    #[must_use]
    pub fn words(self) -> &'static str {
        let found = NAMED.into_iter().find(|(_, outcome, ..)| *outcome == self);
        found.map_or("an outcome that this version does not know", |(.., words)| words)
    }
}

impl From<u16> for Outcome {
    fn from(number: u16) -> Outcome {
        Outcome::from_number(number).unwrap_or(Outcome::Unknown(number))
    }
}

/// The word that the bench sheet's listing has for it.
impl fmt::Display for Outcome {
    fn fmt(&self, f: &mut fmt::Formatter<'_>) -> fmt::Result {
        match NAMED.into_iter().find(|(_, outcome, ..)| outcome == self) {
            Some((_, _, word, _)) => f.write_str(word),
            None => write!(f, "outcome {}", self.number()),
        }
    }
}
