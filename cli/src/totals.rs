//! What a recording has left in all: of the numbers that each domain printed, and of each cell.
use crate::output::{cells_by_domain, Format, Rows};
use bukzarn::{Leaf, Run};
use std::collections::BTreeMap;

/// What is counted: the domain, then what it printed, or a leaf of one of its cells.
#[derive(Clone, Copy, Debug, PartialEq, Eq, PartialOrd, Ord)]
enum Subject {
    Printed,
    /// The cell's number in its domain, and the leaf's if there are several.
    Cell(usize, Option<usize>),
}

/// Numbers that came one after another. A truth counts as 0 or 1; what is no number is only counted.
#[derive(Clone, Copy, Debug, Default, PartialEq, Eq)]
struct Statistics {
    count: u64,
    sum: i128,
    range: Option<(i32, i32, i32)>,
}

impl Statistics {
    fn add(&mut self, number: Option<i32>) {
        self.count += 1;
        if let Some(last) = number {
            self.sum += i128::from(last);
            let (least, greatest, _) = self.range.unwrap_or((last, last, last));
            self.range = Some((least.min(last), greatest.max(last), last));
        }
    }

    /// Count, sum, least, greatest, last.
    fn words(&self) -> Vec<String> {
        let mut words = vec![self.count.to_string()];
        match self.range {
            Some((least, greatest, last)) => {
                words.push(self.sum.to_string());
                words.extend([least, greatest, last].map(|number| number.to_string()));
            }
            None => words.extend([const { String::new() }; 4]),
        }
        words
    }
}

/// The sums of a recording.
#[derive(Debug, Default)]
pub struct Totals(BTreeMap<(u16, Subject), Statistics>);

impl Totals {
    /// Counts what a run left, done or not.
    pub fn add(&mut self, run: &Run) {
        for printed in run.log() {
            self.add_number(printed.domain, Subject::Printed, Some(printed.number));
        }
        for (domain, number, leaves) in cells_by_domain(run) {
            let leaves: Vec<Option<i32>> = leaves.map_or_else(|| vec![None], |leaves| leaves.map(as_number).collect());
            let several = leaves.len() > 1;
            for (n, leaf) in leaves.into_iter().enumerate() {
                self.add_number(domain, Subject::Cell(number, several.then_some(n)), leaf);
            }
        }
    }

    fn add_number(&mut self, domain: u16, subject: Subject, number: Option<i32>) {
        self.0.entry((domain, subject)).or_default().add(number);
    }

    /// The rows, domain by domain.
    pub fn rows(&self, format: Format) -> String {
        let row = |((domain, subject), sum): (&(u16, Subject), &Statistics)| {
            let (name, cell) = match subject {
                Subject::Printed => ("printed", String::new()),
                Subject::Cell(number, None) => ("cell", number.to_string()),
                Subject::Cell(number, Some(leaf)) => ("cell", format!("{number}.{leaf}")),
            };
            let words = [vec![name.into(), domain.to_string(), cell], sum.words()].concat();
            format.row(Rows::Totals, &words)
        };
        self.0.iter().map(row).collect()
    }
}

/// A leaf as a number.
fn as_number(leaf: Leaf) -> Option<i32> {
    match leaf {
        Leaf::Unit => None,
        Leaf::Truth(truth) => Some(truth.into()),
        Leaf::Number(number) => Some(number),
    }
}
