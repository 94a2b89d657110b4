//! The one image of a program (document 02, card 11).
use crate::raw;
use crate::refusal::{written, Refusal};

/// Writes the fixed form of an image over the front of the output, and answers its length; bytes past it are unchanged.
/// The fixed form is never longer than the image.
///
/// # Errors
///
/// The [`Refusal`] of an image that the check refuses, with 1 to 16, and then of an output that is shorter than the image
/// ([`Cause::ShortOutput`](crate::Cause::ShortOutput)). Nothing is written then.
pub fn write_fixed(image: &[u8], output: &mut [u8]) -> Result<usize, Refusal> {
    written(raw::fixed(image, output))
}

/// The fixed form of an image: of two accepted images it is the same exactly if they have the same domains and the same
/// program.
///
/// ```
/// use bukzarn::{fixed_form, program::Program};
/// let mut program = Program::new(&[1]);
/// let five = program.number(5);
/// let image = program.image(&five);
/// let mut longer = image.clone();
/// longer.splice(..6, [8, 0, 1, 0, 1, 0, 9, 9]); // its domain, with a field of a newer writer's
/// assert_eq!(fixed_form(&longer), fixed_form(&image));
/// ```
///
/// # Errors
///
/// The [`Refusal`] of an image that the check refuses, with 1 to 16.
pub fn fixed_form(image: &[u8]) -> Result<Vec<u8>, Refusal> {
    let mut output = vec![0; image.len()];
    let length = write_fixed(image, &mut output)?;
    output.truncate(length);
    Ok(output)
}
