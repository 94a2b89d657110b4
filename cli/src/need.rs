//! `bukzarn need`: what any run of an image will need, worked out without a run (document 02, card 10).
use crate::arguments::Arguments;
use crate::error::{Error, Status};
use crate::program::Program;
use crate::{help, plan, sink};
use bukzarn::{need, Needs};
use std::ffi::OsString;
use std::fmt::Write;

const OPTIONS: [&str; 3] = ["--out", "--budget", "--log"];

/// Places of a bar.
const BAR: u64 = 20;

/// Writes the numbers; a refusal's line stands where the listing would.
pub fn command(words: &[OsString]) -> Result<Status, Error> {
    let words = Arguments::parse(words, "need", &OPTIONS, &[])?;
    if words.help {
        return help::show("need");
    }
    let (budget, log) = plan::budget_and_log(&words)?;
    let write: fn(&Needs, &Limits) -> String = match words.value("--out").map(|name| name.to_str()) {
        None | Some(Some("listing")) => |needs, _| needs.to_string(),
        Some(Some("table")) => table,
        Some(Some("json")) => json,
        Some(_) => return Err(words.usage("--out takes listing, table or json".into())),
    };
    let program = Program::read(&words)?;
    match need(&program.image) {
        Ok(needs) => sink::write_whole(write(&needs, &Limits { budget, log }).as_bytes()).map(|()| Status::Done),
        Err(refusal) => program.refused(refusal, words.value("--out").is_none_or(|name| name == "listing")),
    }
}

/// The limits of a call: its budget, and the bytes of its log.
struct Limits {
    budget: u32,
    log: usize,
}

/// Each number with its word and its limit.
fn beside(needs: &Needs, limits: &Limits) -> impl Iterator<Item = (&'static str, u32, u32)> {
    let all = needs.all().into_iter().zip(Needs::limits(limits.budget, limits.log));
    all.map(|((word, needed), limit)| (word, needed, limit))
}

/// A line for each number, with a bar, and what follows for a run.
fn table(needs: &Needs, limits: &Limits) -> String {
    let mut text = String::new();
    let mut over = Vec::new();
    for (word, needed, limit) in beside(needs, limits) {
        let _ = writeln!(text, "{word:<15}{needed:>10} of {limit:>10}  {}", bar(needed, limit));
        if needed > limit {
            over.push(word);
        }
    }
    let _ = match over.as_slice() {
        [] => writeln!(text, "All are within their limits: every run is done or aborted, whatever the frame."),
        words => writeln!(text, "Over the limit: {}. A run may end there.", words.join(", ")),
    };
    text
}

/// How much of a limit is needed: one place at least of what is needed at all, and all places of what is too much.
fn bar(needed: u32, limit: u32) -> String {
    let filled = (BAR * u64::from(needed)).div_ceil(u64::from(limit).max(1)).min(BAR);
    let filled = usize::try_from(filled).unwrap_or_default();
    "#".repeat(filled) + &".".repeat(usize::try_from(BAR).unwrap_or_default() - filled)
}

/// An object on a line: each number with its limit, and whether all are within.
fn json(needs: &Needs, limits: &Limits) -> String {
    let mut text = String::from("{");
    for (word, needed, limit) in beside(needs, limits) {
        let _ = write!(text, "\"{word}\":{{\"need\":{needed},\"limit\":{limit}}},");
    }
    text + &format!("\"fit\":{}}}\n", needs.fit(limits.budget, limits.log))
}
