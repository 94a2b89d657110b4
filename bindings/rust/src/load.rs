//! Generated images: a load that every station can repeat (document 02, card 12).
use crate::raw;
use crate::refusal::{written, Refusal};

/// The least length of the output of [`generate`], in bytes.
pub const LOAD_LENGTH: usize = 16_384;

/// The greatest depth of a generated image.
pub const LOAD_DEPTH: usize = 9;

/// Writes the image of a seed and a depth to the front of an output, and answers its length.
///
/// Equal seeds and depths give equal bytes, whatever the output held; bytes past the image are unchanged. Every image is
/// accepted and has at most 6,146 bytes.
///
/// # Errors
///
/// The [`Refusal`] of a depth of 0 or over [`LOAD_DEPTH`] ([`Cause::WrongDepth`](crate::Cause::WrongDepth)), then of an
/// output shorter than [`LOAD_LENGTH`] ([`Cause::ShortLoad`](crate::Cause::ShortLoad)). Nothing is written then.
pub fn generate(seed: u32, depth: usize, output: &mut [u8]) -> Result<usize, Refusal> {
    written(raw::load(seed, depth, output))
}

/// The image of a seed and a depth from 1 to [`LOAD_DEPTH`].
///
/// ```
/// // 1664525 * 7 + 1013904223 is 1025555898, and that divided by 2^24 is 61.
/// let image = bukzarn::load(7, 1).unwrap();
/// let mut lent = bukzarn::Lent::new(0);
/// let run = bukzarn::run(&image, &[], 0, &mut lent).unwrap();
/// assert_eq!(run.result().collect::<Vec<_>>(), [bukzarn::Leaf::Number(61)]);
/// ```
///
/// # Errors
///
/// The [`Refusal`] of a depth of 0 or over [`LOAD_DEPTH`].
pub fn load(seed: u32, depth: usize) -> Result<Vec<u8>, Refusal> {
    let mut out = vec![0; LOAD_LENGTH];
    let length = generate(seed, depth, &mut out)?;
    out.truncate(length);
    Ok(out)
}
