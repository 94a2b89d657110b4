//! The fixed form of an image, by the library (document 02, card 11).
use bukzarn::program::Program;
use bukzarn::{fixed_form, write_fixed, Cause, Refusal};

/// The bench sheet's P2, the constant 5, after a type that nothing has; some records have a byte more than they
/// need.
const LONGER: [u8; 27] = [7, 0, 1, 0, 1, 0, 9, 5, 0, 16, 0, 9, 4, 0, 18, 0, 11, 0, 34, 0, 1, 0, 5, 0, 0, 0, 9];
const P2: [u8; 20] = [6, 0, 1, 0, 1, 0, 4, 0, 18, 0, 10, 0, 34, 0, 0, 0, 5, 0, 0, 0];

#[test]
fn skipped_bytes_and_unused_types_are_dropped() {
    assert_eq!(fixed_form(&LONGER).unwrap(), P2);
    assert_eq!(fixed_form(&P2).unwrap(), P2);
}

#[test]
fn the_output_past_the_form_stays() {
    let mut output = [7; 27];
    assert_eq!(write_fixed(&LONGER, &mut output), Ok(20));
    assert_eq!((&output[..20], &output[20..]), (&P2[..], &[7; 7][..]));
}

#[test]
fn an_output_shorter_than_the_image_is_refused() {
    let mut output = [7; 26];
    assert_eq!(write_fixed(&LONGER, &mut output), Err(Refusal { cause: Cause::ShortOutput, place: 0 }));
    assert_eq!(output, [7; 26]);
}

#[test]
fn the_check_comes_first() {
    assert_eq!(write_fixed(&[], &mut []), Err(Refusal { cause: Cause::EmptySection, place: 0 }));
    let mut program = Program::new(&[1]);
    let unit = program.unit_type();
    let root = program.variable(unit, 0);
    assert_eq!(fixed_form(&program.image(&root)).map_err(|refusal| refusal.cause), Err(Cause::UnboundVariable));
}
