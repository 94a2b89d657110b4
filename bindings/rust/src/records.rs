//! The records that a run wrote in log and report.
use crate::Outcome;
use std::fmt;

/// Kinds of the records of a report (document 01, "A run").
const UNIT: u16 = 65;
const TRUTH: u16 = 66;
const NUMBER: u16 = 67;
const PLAIN_CELL: u16 = 68;
const OTHER_CELL: u16 = 69;
const REPORT: u16 = 70;

/// A printed number.
#[derive(Clone, Copy, Debug, PartialEq, Eq)]
pub struct LogRecord {
    /// The domain that was current.
    pub domain: u16,
    /// The number.
    pub number: i32,
}

/// A leaf of a plain value.
#[derive(Clone, Copy, Debug, PartialEq, Eq)]
pub enum Leaf {
    /// Unit.
    Unit,
    /// A truth.
    Truth(bool),
    /// A number.
    Number(i32),
}

/// As the bench sheet's listing has it.
impl fmt::Display for Leaf {
    fn fmt(&self, f: &mut fmt::Formatter<'_>) -> fmt::Result {
        match self {
            Leaf::Unit => f.write_str("unit"),
            Leaf::Truth(truth) => write!(f, "{truth}"),
            Leaf::Number(number) => write!(f, "{number}"),
        }
    }
}

/// A cell as it was at the end of the run.
#[derive(Clone, Debug)]
pub struct Cell<'a> {
    /// The domain of its reference type.
    pub domain: u16,
    /// What a plain cell holds, leaves from left to right; nothing for another cell.
    pub leaves: Option<Leaves<'a>>,
}

/// Records of a part of log or report: kinds and fields. It ends where no whole record follows.
#[derive(Clone, Debug)]
struct Records<'a>(&'a [u8]);

impl<'a> Iterator for Records<'a> {
    type Item = (u16, &'a [u8]);

    fn next(&mut self) -> Option<Self::Item> {
        let length = usize::from(word(self.0, 0)?);
        let kind = word(self.0, 2)?;
        let fields = self.0.get(4..length)?;
        self.0 = &self.0[length..];
        Some((kind, fields))
    }
}

/// Leaves, from left to right.
#[derive(Clone, Debug)]
pub struct Leaves<'a>(Records<'a>);

impl Iterator for Leaves<'_> {
    type Item = Leaf;

    fn next(&mut self) -> Option<Leaf> {
        let (kind, fields) = self.0.next()?;
        match kind {
            UNIT => Some(Leaf::Unit),
            TRUTH => Some(Leaf::Truth(word(fields, 0)? != 0)),
            NUMBER => Some(Leaf::Number(double_word(fields, 0)?.cast_signed())),
            _ => None,
        }
    }
}

/// What a run left in log and report.
#[must_use]
#[derive(Clone, Copy, Debug)]
pub struct Run<'a> {
    outcome: Outcome,
    steps: u32,
    log: &'a [u8],
    report: &'a [u8],
}

impl<'a> Run<'a> {
    /// Reads the bytes that a run wrote: `log` and `report` cut to the lengths that [`call`](crate::call) answered.
    /// Nothing, if the report does not begin with a record of outcome and steps.
    #[must_use]
    pub fn read(log: &'a [u8], report: &'a [u8]) -> Option<Run<'a>> {
        let (REPORT, fields) = Records(report).next()? else { return None };
        let outcome = Outcome::from(word(fields, 0)?);
        Some(Run { outcome, steps: double_word(fields, 2)?, log, report })
    }

    /// How the run ended.
    #[must_use]
    pub fn outcome(&self) -> Outcome {
        self.outcome
    }

    /// How many steps it made.
    #[must_use]
    pub fn steps(&self) -> u32 {
        self.steps
    }

    /// The printed numbers, in order.
    pub fn log(&self) -> impl Iterator<Item = LogRecord> + 'a {
        Records(self.log).map_while(|(_, fields)| {
            Some(LogRecord { domain: word(fields, 0)?, number: double_word(fields, 2)?.cast_signed() })
        })
    }

    /// The result, leaves from left to right: at least one of a run that is done, none of another.
    #[must_use]
    pub fn result(&self) -> Leaves<'a> {
        let mut records = Records(self.report);
        records.next();
        Leaves(records)
    }

    /// The cells, in order of creation, done or not.
    pub fn cells(&self) -> impl Iterator<Item = Cell<'a>> + 'a {
        Records(self.report).filter(|(kind, _)| matches!(*kind, PLAIN_CELL | OTHER_CELL)).map_while(|(kind, fields)| {
            let leaves = if kind == PLAIN_CELL { Some(Leaves(Records(fields.get(2..)?))) } else { None };
            Some(Cell { domain: word(fields, 0)?, leaves })
        })
    }

    /// The bytes of log that the run wrote.
    #[must_use]
    pub fn log_bytes(&self) -> &'a [u8] {
        self.log
    }

    /// The bytes of report that the run wrote.
    #[must_use]
    pub fn report_bytes(&self) -> &'a [u8] {
        self.report
    }
}

/// The 16-bit field at an offset.
fn word(bytes: &[u8], at: usize) -> Option<u16> {
    Some(u16::from_le_bytes(bytes.get(at..at + 2)?.try_into().ok()?))
}

/// The 32-bit field at an offset.
fn double_word(bytes: &[u8], at: usize) -> Option<u32> {
    Some(u32::from_le_bytes(bytes.get(at..at + 4)?.try_into().ok()?))
}
