//! An image without its watches (document 02, card 13).
use crate::raw;
use crate::refusal::{written, Refusal};

/// Writes an image stripped of its watches over the front of the output, and answers its length; bytes past it are
/// unchanged. Bit p of `high` is set for each domain p that is kept; every body of a lower or an advice at another domain
/// gives way to unit, in the fixed form of [card 11](crate::write_fixed).
///
/// # Errors
///
/// The [`Refusal`] of an image that the check refuses, with 1 to 16; then of a set that lacks domain 0, names an absent
/// domain, or lacks a domain above a member ([`Cause::WrongSet`](crate::Cause::WrongSet)); then of an output that is
/// shorter than the image ([`Cause::ShortStrippedOutput`](crate::Cause::ShortStrippedOutput)). Nothing is written then.
pub fn write_stripped(image: &[u8], high: u16, output: &mut [u8]) -> Result<usize, Refusal> {
    written(raw::strip(image, high, output))
}

/// The image stripped of its watches. It is always accepted.
///
/// ```
/// use bukzarn::{need, program::Program, stripped_form};
/// let mut program = Program::new(&[1, 3]); // domain 1 is below domain 0
/// let five = program.number(5);
/// let print = program.print(five);
/// let watch = program.lower(1, print);
/// let image = program.image(&watch);
/// let bare = stripped_form(&image, 1).unwrap(); // domain 0 alone is kept
/// assert_eq!((need(&image).unwrap().log, need(&bare).unwrap().log), (1, 0));
/// ```
///
/// # Errors
///
/// The [`Refusal`] of an image that the check refuses, with 1 to 16, and then of a wrong set of domains.
pub fn stripped_form(image: &[u8], high: u16) -> Result<Vec<u8>, Refusal> {
    let mut output = vec![0; image.len()];
    let length = write_stripped(image, high, &mut output)?;
    output.truncate(length);
    Ok(output)
}
