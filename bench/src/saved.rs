//! Times of several runs, each with the code in another place of memory, and their means.
//!
//! Where its code lies makes either engine up to a quarter faster or slower, so that one run compares places as much as
//! engines.
use crate::measure::Time;
use crate::table::mean;
use std::fs::{self, OpenOptions};
use std::io::Write;
use std::path::Path;

/// Adds a line with the times of a run to a file.
pub fn append(path: &Path, times: &[&mut Time]) {
    let mut file = OpenOptions::new().create(true).append(true).open(path).expect("the file of times is opened");
    let numbers: Vec<String> = times.iter().map(|time| format!("{} {}", time.least, time.median)).collect();
    writeln!(file, "{}", numbers.join(" ")).expect("the file of times is written");
}

/// The geometric means of the runs in a file, in place of the times of one run.
pub fn means(path: &Path, times: Vec<&mut Time>) {
    let text = fs::read_to_string(path).expect("the file of times is read");
    let lines: Vec<Vec<f64>> =
        text.lines().map(|line| line.split(' ').map(|number| number.parse().expect("a time")).collect()).collect();
    assert!(lines.iter().all(|line| line.len() == 2 * times.len()), "the runs in the file measured the same");
    for (i, time) in times.into_iter().enumerate() {
        let of = |k: usize| mean(lines.iter().map(|line| line[k]));
        *time = Time { least: of(2 * i), median: of(2 * i + 1) };
    }
}
