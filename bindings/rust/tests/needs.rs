//! What a run will need, by the library (document 02, card 10).
use bukzarn::program::Program;
use bukzarn::{need, run, Cause, Lent, Needs, Outcome, Refusal};

/// A pair that is split, of which a part is printed at domain 1.
fn printed() -> Vec<u8> {
    let mut program = Program::new(&[1, 3]);
    let (five, six) = (program.number(5), program.number(6));
    let number = five.of();
    let pair = program.pair(five, six);
    let (first, second) = (program.variable(number, 0), program.variable(number, 1));
    let print = program.print(first);
    let low = program.lower(1, print);
    let body = program.sequence(low, second);
    let root = program.split(pair, body);
    program.image(&root)
}

#[test]
fn a_straight_run_meets_its_needs() {
    let needs = need(&printed()).unwrap();
    assert_eq!(needs, Needs { steps: 5, bindings: 2, pieces: 1, frames: 2, log: 1, ..Needs::default() });
    let mut lent = Lent::new(10);
    let ran = run(&printed(), &[], 5, &mut lent).unwrap();
    assert_eq!((ran.outcome(), ran.steps(), ran.log().count()), (Outcome::Done, needs.steps, 1));
}

#[test]
fn needs_fit_a_call() {
    let needs = need(&printed()).unwrap();
    assert!(needs.fit(5, 10));
    assert!(!needs.fit(4, 10));
    assert!(!needs.fit(5, 9));
    assert!(!Needs { other_cells: 129, ..needs }.fit(5, 10));
}

#[test]
fn an_image_with_a_call_is_outside_the_class() {
    let mut program = Program::new(&[1]);
    let unit = program.unit();
    let root = program.bind(0, unit.clone(), unit);
    let image = program.image(&root);
    let place = image.len() - 10;
    assert_eq!(need(&image), Err(Refusal { cause: Cause::OutsideClass, place }));
    assert_eq!(need(&[]), Err(Refusal { cause: Cause::EmptySection, place: 0 }));
}

#[test]
fn lines_are_those_of_the_program() {
    let said = need(&printed()).unwrap().to_string();
    assert!(said.starts_with("steps 5\nbindings 2\nother-bindings 0\npieces 1\n"));
    assert!(said.ends_with("frames 2\nlog 1\n"));
}
