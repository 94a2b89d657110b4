//! An image without its watches, by the library (document 02, card 13).
use bukzarn::program::Program;
use bukzarn::{run, stripped_form, write_stripped, Cause, Lent, LogRecord, Outcome, Refusal};

/// Domains 0, 1 below it, and 2 below 1: a print at 1, one at 2 inside it, then one at 0.
fn printing() -> Vec<u8> {
    let mut program = Program::new(&[1, 3, 7]);
    let prints = [5, 6, 7].map(|n| {
        let number = program.number(n);
        program.print(number)
    });
    let [at_2, at_1, at_0] = prints;
    let inner = program.lower(2, at_2);
    let body = program.sequence(inner, at_1);
    let low = program.lower(1, body);
    let root = program.sequence(low, at_0);
    program.image(&root)
}

/// What an image logs.
fn logged(image: &[u8]) -> Vec<LogRecord> {
    let mut lent = Lent::new(100);
    let ran = run(image, &[], 100, &mut lent).unwrap();
    assert_eq!(ran.outcome(), Outcome::Done);
    ran.log().collect()
}

#[test]
fn what_is_high_stays() {
    let full = logged(&printing());
    assert_eq!(full.len(), 3);
    for (high, kept) in [(0b111, &full[..]), (0b011, &full[1..]), (0b001, &full[2..])] {
        assert_eq!(logged(&stripped_form(&printing(), high).unwrap()), kept);
    }
}

#[test]
fn sets_that_are_not_high() {
    let mut output = [0; 16_384];
    for set in [0b000, 0b110, 0b1001, 0b101] {
        let refused = Err(Refusal { cause: Cause::WrongSet, place: 0 });
        assert_eq!(write_stripped(&printing(), set, &mut output), refused);
        assert_eq!(write_stripped(&printing(), set, &mut []), refused);
    }
    assert_eq!(output, [0; 16_384]);
}

#[test]
fn an_output_shorter_than_the_image() {
    let refused = Err(Refusal { cause: Cause::ShortStrippedOutput, place: 0 });
    assert_eq!(write_stripped(&printing(), 1, &mut vec![0; printing().len() - 1]), refused);
}

#[test]
fn the_check_comes_first() {
    assert_eq!(write_stripped(&[], 0, &mut []), Err(Refusal { cause: Cause::EmptySection, place: 0 }));
}
