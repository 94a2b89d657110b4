//! Calls with slices of any length.
use crate::raw;
use crate::refusal::{written, Refusal};

/// How many bytes a run wrote at the front of log and report.
#[derive(Clone, Copy, Debug, PartialEq, Eq)]
pub struct Written {
    /// Bytes of log: 10 for each printed number.
    pub log: usize,
    /// Bytes of report, at least 10.
    pub report: usize,
}

/// One call with lent memory of any length and content.
///
/// A run leaves its records at the front of log and report and the bytes past them unchanged; the work area is zero
/// over [`WORK_LENGTH`](crate::WORK_LENGTH) bytes and unchanged past them. A refusal leaves all lent memory as it was.
///
/// [`Run::read`](crate::Run::read) reads the written bytes.
///
/// # Errors
///
/// A [`Refusal`] with its number and place, if the image is refused, or the report or the work area is too short.
pub fn call(
    image: &[u8],
    frame: &[u8],
    budget: u32,
    log: &mut [u8],
    report: &mut [u8],
    work: &mut [u8],
) -> Result<Written, Refusal> {
    answered(raw::run(image, frame, budget, log, report, work))
}

/// What the number that a call answers says.
pub(crate) fn answered(answer: u64) -> Result<Written, Refusal> {
    written(answer).map(|report| Written { log: (answer >> 16) as usize, report })
}

/// The verdict on an image, for a work area and a report of so many bytes, without a run: what [`call`] would refuse.
///
/// # Errors
///
/// The [`Refusal`] that a call with this image and lengths would answer.
pub fn validate(image: &[u8], work: usize, report: usize) -> Result<(), Refusal> {
    match raw::validate(image, work, report) {
        0 => Ok(()),
        answer => Err(Refusal::of(answer)),
    }
}
