//! `bukzarn check`: the verdict on an image.
use crate::arguments::Arguments;
use crate::error::{Error, Status};
use crate::program::{expected_name, Program, NAME};
use crate::{help, sink};
use bukzarn::{validate, REPORT_LENGTH, WORK_LENGTH};
use std::ffi::OsString;

/// Writes the verdict; a refusal's reason is told as an error.
pub fn command(words: &[OsString]) -> Result<Status, Error> {
    let words = Arguments::parse(words, "check", &[NAME], &[])?;
    if words.help {
        return help::show("check");
    }
    let name = expected_name(&words)?;
    let program = Program::read(&words)?;
    program.check_name(name)?;
    match validate(&program.image, WORK_LENGTH, REPORT_LENGTH) {
        Ok(()) => sink::write_whole(b"accepted\n").map(|()| Status::Done),
        Err(refusal) => program.refused(refusal, true),
    }
}
