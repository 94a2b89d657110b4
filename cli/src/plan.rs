//! What the options of `bukzarn run` say.
use crate::arguments::Arguments;
use crate::error::Error;
use crate::input::LONGEST_FRAME;
use crate::output::{Format, Rows};

/// The bench sheet's budget and log (document 01, "Bench sheet").
const BUDGET: u64 = 100_000;
const LOG: u64 = 16_384;

/// The longest log that is lent, in bytes.
const LONGEST_LOG: u64 = 1 << 28;

/// The options that name files, to read and to write.
const INPUTS: [&str; 2] = ["--frame", "--frames"];
const OUTPUTS: [&str; 2] = ["--report", "--log-file"];

/// The options without a value.
pub const CELLS: &str = "--cells";
pub const TOTALS: &str = "--totals";

/// What the options say.
pub struct Plan {
    /// The length of a frame of the recording; nothing for a single frame.
    pub length: Option<usize>,
    /// Steps that a run may take.
    pub budget: u32,
    /// Bytes of log that a run may fill.
    pub log: usize,
    /// How the runs are written.
    pub format: Format,
    /// What the rows are about.
    pub rows: Rows,
}

impl Plan {
    /// Reads the options, and refuses those that do not go together.
    pub fn read(words: &Arguments) -> Result<Plan, Error> {
        words.one_standard_input(&INPUTS)?;
        words.outputs_apart(&INPUTS, &OUTPUTS)?;
        let recording = words.value("--frames").is_some();
        if recording && words.value("--frame").is_some() {
            return Err(words.usage("--frame and --frames exclude each other".into()));
        }
        if recording != words.value("--length").is_some() {
            return Err(words.usage("--frames and --length go together".into()));
        }
        if OUTPUTS.iter().any(|name| words.value(name).is_some_and(|file| file == "-")) {
            return Err(words.usage("--report and --log-file take files: standard output has what --out says".into()));
        }
        let length = words.number("--length", 1, LONGEST_FRAME as u64, 0)?;
        let (budget, log) = budget_and_log(words)?;
        let length = recording.then_some(usize::try_from(length).unwrap_or(LONGEST_FRAME));
        let rows = rows(words)?;
        Ok(Plan { length, budget, log, format: format(words, recording, rows)?, rows })
    }
}

/// What the rows are about: printed numbers, unless `--cells` or `--totals` say otherwise.
fn rows(words: &Arguments) -> Result<Rows, Error> {
    match (words.flag(CELLS), words.flag(TOTALS)) {
        (true, true) => {
            Err(words.usage(format!("{CELLS} and {TOTALS} exclude each other: each is a table of its own")))
        }
        (true, false) => Ok(Rows::Cells),
        (false, true) => Ok(Rows::Totals),
        (false, false) => Ok(Rows::Printed),
    }
}

/// The steps and the bytes of log of a run, which `--budget` and `--log` say.
pub fn budget_and_log(words: &Arguments) -> Result<(u32, usize), Error> {
    let budget = words.number("--budget", 0, u32::MAX.into(), BUDGET)?;
    let log = words.number("--log", 0, LONGEST_LOG, LOG)?;
    Ok((u32::try_from(budget).unwrap_or(u32::MAX), usize::try_from(log).unwrap_or(usize::MAX)))
}

/// The format that is asked for; else a table, but a listing of a single frame.
fn format(words: &Arguments, recording: bool, rows: Rows) -> Result<Format, Error> {
    let own = rows != Rows::Printed;
    let Some(name) = words.value("--out") else {
        return Ok(if recording || own { Format::Table } else { Format::Listing });
    };
    let found = Format::ALL.into_iter().find(|(known, _)| name == *known).map(|(_, format)| format);
    match found {
        Some(Format::Listing | Format::Json) if own => {
            Err(words.usage(format!("{CELLS} and {TOTALS} are tables: --out takes table or csv")))
        }
        Some(format) => Ok(format),
        None => Err(words.usage("--out takes table, csv, json or listing".into())),
    }
}
