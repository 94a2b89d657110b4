//! The calls of one image over the frames of a recording: the image is checked once.
use crate::call::{answered, Written};
use crate::{raw, Refusal};

/// Frames of one length, one after another.
#[derive(Clone, Copy, Debug, PartialEq, Eq)]
pub struct Frames<'a> {
    bytes: &'a [u8],
    count: usize,
}

impl<'a> Frames<'a> {
    /// The bytes as frames of so many bytes each. Nothing, if the last frame would be short, or a frame has no bytes,
    /// so that their number is not known.
    #[must_use]
    pub fn of_length(bytes: &'a [u8], length: usize) -> Option<Frames<'a>> {
        let whole = length > 0 && bytes.len().is_multiple_of(length);
        whole.then(|| Frames { bytes, count: bytes.len() / length })
    }

    /// The bytes as so many frames, all of the same length, which may be 0. Bytes that are left over belong to none.
    #[must_use]
    pub fn in_parts(bytes: &'a [u8], count: usize) -> Frames<'a> {
        Frames { bytes, count }
    }

    /// How many frames there are.
    #[must_use]
    pub fn count(&self) -> usize {
        self.count
    }
}

/// One [`call`](crate::call) for each frame, one after another, with one check of the image for all of them.
///
/// Logs and reports are cut into as many equal parts as there are frames, and call i has part i of each; what is left
/// over belongs to none. The calls share the work area. The answers, in order, and all lent memory are what single calls
/// would answer and leave. Without frames nothing happens, whatever the image.
///
/// # Errors
///
/// Each answer is a [`Refusal`], and the same one, if the image is refused, or the work area or a part of the reports is
/// too short.
///
/// # Panics
///
/// If there is no memory for so many answers.
#[must_use]
pub fn call_frames(
    image: &[u8],
    frames: Frames,
    budget: u32,
    logs: &mut [u8],
    reports: &mut [u8],
    work: &mut [u8],
) -> Vec<Result<Written, Refusal>> {
    let mut numbers = vec![0; frames.count];
    raw::run_frames(image, frames.bytes, budget, logs, reports, &mut numbers, work);
    numbers.into_iter().map(answered).collect()
}
