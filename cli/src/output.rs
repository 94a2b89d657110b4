//! What a run left, in one of four formats.
use bukzarn::{Leaf, Leaves, Run};
use std::collections::BTreeMap;
use std::fmt::Write as _;
use std::io::{self, Write};

/// How the runs are written.
#[derive(Clone, Copy, Debug, PartialEq, Eq)]
pub enum Format {
    /// As the bench sheet's listing has it.
    Listing,
    /// Rows in columns.
    Table,
    /// The same, with commas.
    Csv,
    /// An object for each frame.
    Json,
}

/// What the rows of a table are about.
#[derive(Clone, Copy, Debug, PartialEq, Eq)]
pub enum Rows {
    /// A row for each printed number.
    Printed,
    /// A row for each cell of each run.
    Cells,
    /// A row for all numbers that a domain printed, and for each of its cells, over all runs.
    Totals,
}

impl Format {
    /// Every format with its name.
    pub const ALL: [(&'static str, Format); 4] =
        [("table", Format::Table), ("csv", Format::Csv), ("json", Format::Json), ("listing", Format::Listing)];

    /// The line above all.
    pub fn head(self, rows: Rows) -> String {
        let names = match rows {
            Rows::Printed => &["frame", "domain", "number"][..],
            Rows::Cells => &["frame", "domain", "cell", "value"],
            Rows::Totals => &["what", "domain", "cell", "count", "sum", "least", "greatest", "last"],
        };
        match self {
            Format::Table | Format::Csv => self.row(rows, names),
            Format::Listing | Format::Json => String::new(),
        }
    }

    /// A row of a table, its words in columns or with commas. The value of a cell stands last, so its leaves may be many.
    pub fn row(self, rows: Rows, words: &[impl AsRef<str>]) -> String {
        let widths = match rows {
            Rows::Printed => &[8, 6, 11][..],
            Rows::Cells => &[8, 6, 4, 11],
            Rows::Totals => &[7, 6, 5, 8, 14, 11, 11, 11],
        };
        let mut row = String::new();
        for (n, (word, width)) in words.iter().zip(widths).enumerate() {
            let (between, word) = (if n == 0 { "" } else { " " }, word.as_ref());
            let _ = match self {
                Format::Csv => write!(row, "{}{word}", if n == 0 { "" } else { "," }),
                _ => write!(row, "{between}{:>width$}", if word.is_empty() { "-" } else { word }),
            };
        }
        row + "\n"
    }

    /// Writes what a run over a frame left.
    pub fn write(self, out: &mut impl Write, rows: Rows, frame: u64, run: &Run) -> io::Result<()> {
        match (self, rows) {
            (Format::Listing, _) => listing(out, run),
            (Format::Json, _) => json(out, frame, run),
            (_, Rows::Totals) => Ok(()),
            (_, Rows::Cells) => self.cells(out, frame, run),
            (Format::Table, Rows::Printed) => {
                run.log().try_for_each(|r| writeln!(out, "{frame:8} {:6} {:11}", r.domain, r.number))
            }
            (Format::Csv, Rows::Printed) => {
                run.log().try_for_each(|r| writeln!(out, "{frame},{},{}", r.domain, r.number))
            }
        }
    }

    /// A row for each cell that a run left.
    fn cells(self, out: &mut impl Write, frame: u64, run: &Run) -> io::Result<()> {
        for (domain, number, leaves) in cells_by_domain(run) {
            let value = leaves.map_or("other".into(), |leaves| join_leaves(leaves, " "));
            let words = [frame.to_string(), domain.to_string(), number.to_string(), value];
            out.write_all(self.row(Rows::Cells, &words).as_bytes())?;
        }
        Ok(())
    }
}

/// The cells of a run: domain, number, and leaves if it is plain. Each domain counts its own from 0, in order of creation,
/// so that a cell has the same number with and without watches of other domains.
pub fn cells_by_domain<'a>(run: &Run<'a>) -> impl Iterator<Item = (u16, usize, Option<Leaves<'a>>)> {
    let mut counts: BTreeMap<u16, usize> = BTreeMap::new();
    run.cells().map(move |cell| {
        let count = counts.entry(cell.domain).or_default();
        *count += 1;
        (cell.domain, *count - 1, cell.leaves)
    })
}

/// Leaves with something between them.
fn join_leaves(leaves: Leaves, between: &str) -> String {
    leaves.map(|leaf| leaf.to_string()).collect::<Vec<_>>().join(between)
}

/// The bench sheet's listing: the log, the outcome with the steps, the result, the cells.
fn listing(out: &mut impl Write, run: &Run) -> io::Result<()> {
    for printed in run.log() {
        writeln!(out, "log {} {}", printed.domain, printed.number)?;
    }
    writeln!(out, "{} {}", run.outcome(), run.steps())?;
    if run.result().next().is_some() {
        listed(out, "value", run.result())?;
    }
    for cell in run.cells() {
        match cell.leaves {
            Some(leaves) => listed(out, &format!("cell {}", cell.domain), leaves)?,
            None => writeln!(out, "cell {} other", cell.domain)?,
        }
    }
    Ok(())
}

/// A line of leaves.
fn listed(out: &mut impl Write, head: &str, leaves: Leaves) -> io::Result<()> {
    write!(out, "{head}")?;
    for leaf in leaves {
        write!(out, " {leaf}")?;
    }
    writeln!(out)
}

/// All that a run left, as an object on a line.
fn json(out: &mut impl Write, frame: u64, run: &Run) -> io::Result<()> {
    write!(out, "{{\"frame\":{frame},\"outcome\":\"{}\",\"steps\":{},\"log\":[", run.outcome(), run.steps())?;
    for (n, printed) in run.log().enumerate() {
        let comma = if n == 0 { "" } else { "," };
        write!(out, "{comma}{{\"domain\":{},\"number\":{}}}", printed.domain, printed.number)?;
    }
    write!(out, "],\"result\":{},\"cells\":[", array(run.result()))?;
    for (n, cell) in run.cells().enumerate() {
        let leaves = cell.leaves.map_or("null".into(), array);
        write!(out, "{}{{\"domain\":{},\"leaves\":{leaves}}}", if n == 0 { "" } else { "," }, cell.domain)?;
    }
    writeln!(out, "]}}")
}

/// Leaves as an array; unit is null.
fn array(leaves: Leaves) -> String {
    let words: Vec<String> =
        leaves.map(|leaf| if leaf == Leaf::Unit { "null".into() } else { leaf.to_string() }).collect();
    format!("[{}]", words.join(","))
}
