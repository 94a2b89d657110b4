//! `bukzarn`: the watch engine as a command. It runs an image over one frame or over a recording, tells whether an image
//! is accepted and what its runs will need, and writes images.
#![deny(unsafe_code)]

mod arguments;
mod check;
mod error;
mod files;
mod help;
mod input;
mod memory;
mod need;
mod output;
mod plan;
mod printable;
mod program;
mod progress;
mod run;
#[allow(unsafe_code)]
mod signals;
mod sink;
mod tally;
mod totals;
mod written;

use error::{Error, Status};
use printable::display_name;
use std::ffi::OsString;
use std::io::Write;
use std::process::ExitCode;

fn main() -> ExitCode {
    let words: Vec<OsString> = std::env::args_os().skip(1).collect();
    let status = perform(&words).unwrap_or_else(|error| {
        tell(&error);
        error.status()
    });
    signals::reraise();
    ExitCode::from(status as u8)
}

/// Performs the command that the words ask for.
fn perform(words: &[OsString]) -> Result<Status, Error> {
    let Some((command, rest)) = words.split_first() else {
        return Err(Error::Usage("name a command".into(), ""));
    };
    match command.to_str().unwrap_or_default() {
        "run" => run::command(rest),
        "check" => check::command(rest),
        "need" => need::command(rest),
        "fixed" => written::fixed(rest),
        "strip" => written::strip(rest),
        "load" => written::load(rest),
        "--help" | "-h" | "help" => help::command(rest),
        "--version" | "-V" => help::version(),
        _ => Err(Error::Usage(format!("there is no command '{}'", display_name(command)), "")),
    }
}

/// Tells an error on standard error, or nobody if that is closed. A reader who has gone away needs no words.
fn tell(error: &Error) {
    if !error.is_closed_pipe() {
        let _ = writeln!(std::io::stderr(), "bukzarn: {error}");
    }
}
