//! The safe functions: what they answer and how it is read.
use bukzarn::program::{Close, Entry, Program, Shape};
use bukzarn::{call, run, Cause, Leaf, Lent, LogRecord, Outcome, Refusal, Run, Written, REPORT_LENGTH, WORK_LENGTH};
use std::collections::HashSet;

/// The bench sheet's P2: the constant 5.
const P2: [u8; 20] = [6, 0, 1, 0, 1, 0, 4, 0, 18, 0, 10, 0, 34, 0, 0, 0, 5, 0, 0, 0];

/// The bench sheet's P6: a function of a label, applied to a new label, that installs "print x", then "print 7", then
/// marks with 3.
fn p6() -> Vec<u8> {
    let mut program = Program::new(&[1]);
    let number = program.number_type();
    let label = program.make(Shape::Label(number, 0));
    let label = program.variable(label, 0);
    let x = program.variable(number, 1);
    let (seven, three) = (program.number(7), program.number(3));
    let installs = [x, seven].map(|printed| {
        let body = program.print(printed);
        let pointcut = program.pointcut(number, 0, vec![label.clone()]);
        let advice = program.advice(0, pointcut, body);
        program.install(advice)
    });
    let mark = program.mark(label, three);
    let [first, second] = installs;
    let rest = program.sequence(second, mark);
    let body = program.sequence(first, rest);
    let new = program.new_label(number, 0);
    let root = program.bind(0, new, body);
    program.image(&root)
}

#[test]
fn a_constant_is_done_at_budget_0() {
    let mut lent = Lent::new(0);
    let run = run(&P2, &[], 0, &mut lent).unwrap();
    assert_eq!((run.outcome(), run.steps()), (Outcome::Done, 0));
    assert_eq!(run.result().collect::<Vec<_>>(), [Leaf::Number(5)]);
    assert_eq!((run.log().count(), run.cells().count()), (0, 0));
}

#[test]
fn marks_run_the_newest_advice_first() {
    let mut lent = Lent::new(100);
    let run = run(&p6(), &[], 100_000, &mut lent).unwrap();
    assert_eq!((run.outcome(), run.steps()), (Outcome::Done, 17));
    assert_eq!(run.log().collect::<Vec<_>>(), [7, 3].map(|number| LogRecord { domain: 0, number }));
    assert_eq!(run.result().collect::<Vec<_>>(), [Leaf::Unit]);
}

#[test]
fn lent_memory_serves_again() {
    let mut lent = Lent::new(15);
    let full = run(&p6(), &[], 16, &mut lent).unwrap();
    assert_eq!((full.outcome(), full.steps()), (Outcome::Log, 14));
    let done = run(&P2, &[], 16, &mut lent).unwrap();
    assert_eq!((done.outcome(), done.log_bytes().len(), done.report_bytes().len()), (Outcome::Done, 0, 18));
}

#[test]
fn cells_are_read() {
    let mut program = Program::new(&[1, 3]);
    let (truth, unit, number) = (program.truth(true), program.unit(), program.number(-4));
    let number_type = program.number_type();
    let inner = program.pair(unit.clone(), number);
    let pair = program.pair(truth, inner);
    let plain = program.new_cell(1, pair);
    let label = program.new_label(number_type, 0);
    let other = program.new_cell(0, label);
    let inside = program.bind(0, other, unit);
    let root = program.bind(0, plain, inside);
    let image = program.image(&root);
    let mut lent = Lent::new(0);
    let run = run(&image, &[], 1_000, &mut lent).unwrap();
    let cells: Vec<_> =
        run.cells().map(|cell| (cell.domain, cell.leaves.map(|leaves| leaves.collect::<Vec<_>>()))).collect();
    let leaves = vec![Leaf::Truth(true), Leaf::Unit, Leaf::Number(-4)];
    assert_eq!(cells, [(1, Some(leaves)), (0, None)]);
}

/// A method that gives the frame's byte 2 and what another method of the object adds to it, which is bound outside.
#[test]
fn methods_are_called() {
    let mut program = Program::new(&[1]);
    let number = program.number_type();
    let sonde = program.make(Shape::Object(vec![(0, number), (0, number)]));
    let (added, itself) = (program.variable(number, 0), program.variable(sonde, 1));
    let two = program.number(2);
    let byte = program.frame_byte(two);
    let sum = program.plus(byte, program.call(itself, 1));
    let call = program.call(program.object(sonde, vec![sum, added]), 0);
    let hundred = program.number(100);
    let root = program.bind(0, hundred, call);
    let mut lent = Lent::new(0);
    let image = program.image(&root);
    let run = run(&image, &[1, 2, 3], 1_000, &mut lent).unwrap();
    assert_eq!((run.outcome(), run.steps()), (Outcome::Done, 5));
    assert_eq!(run.result().collect::<Vec<_>>(), [Leaf::Number(103)]);
}

/// A watch that prints the marked value less the one that is kept under a label, and nothing elsewhere: the mark is
/// reached outside a keep, then inside.
#[test]
fn a_watch_sees_what_is_kept_around_its_mark() {
    let mut program = Program::new(&[1, 3]);
    let number = program.number_type();
    let new = program.new_label(number, 0);
    let (level, descent) = (program.variable(new.of(), 0), program.variable(new.of(), 1));
    let (value, kept) = (program.variable(number, 2), program.variable(number, 3));
    let under = program.pointcut(number, 0, vec![descent.clone()]);
    let difference = program.minus(value, kept);
    let (print, none, stack) = (program.print(difference), program.unit(), program.stack());
    let body = program.match_stack(stack, vec![Entry::Under(under)], Close::Rest, print, none);
    let pointcut = program.pointcut(number, 1, vec![level.clone()]);
    let watch = program.advice(1, pointcut, body);
    let install = program.install(watch);
    let [outside, inside] = [50, 70].map(|n| {
        let n = program.number(n);
        program.mark(level.clone(), n)
    });
    let thirty = program.number(30);
    let keep = program.keep(descent, thirty, inside);
    let marks = program.sequence(outside, keep);
    let all = program.sequence(install, marks);
    let inner = program.bind(0, new.clone(), all);
    let root = program.bind(0, new, inner);
    let image = program.image(&root);
    let mut lent = Lent::new(100);
    let run = run(&image, &[], 1_000, &mut lent).unwrap();
    assert_eq!(run.outcome(), Outcome::Done);
    assert_eq!(run.log().collect::<Vec<_>>(), [LogRecord { domain: 1, number: 40 }]);
}

/// A watch that prints the marked value and takes itself down: the second mark finds none.
#[test]
fn a_watch_takes_itself_down() {
    let mut program = Program::new(&[1, 3]);
    let number = program.number_type();
    let new = program.new_label(number, 0);
    let (label, value) = (program.variable(new.of(), 0), program.variable(number, 1));
    let (print, down) = (program.print(value), program.takedown(1));
    let body = program.sequence(print, down);
    let pointcut = program.pointcut(number, 1, vec![label.clone()]);
    let watch = program.advice(1, pointcut, body);
    let install = program.install(watch);
    let [first, second] = [50, 70].map(|n| {
        let n = program.number(n);
        program.mark(label.clone(), n)
    });
    let marks = program.sequence(first, second);
    let all = program.sequence(install, marks);
    let root = program.bind(0, new, all);
    let image = program.image(&root);
    let mut lent = Lent::new(100);
    let run = run(&image, &[], 1_000, &mut lent).unwrap();
    assert_eq!(run.outcome(), Outcome::Done);
    assert_eq!(run.log().collect::<Vec<_>>(), [LogRecord { domain: 1, number: 50 }]);
}

/// A watch that calls itself for ever uses up the other domains' bindings; what the mainline printed before stands.
#[test]
fn a_greedy_watch_leaves_the_mainline_its_half() {
    let mut program = Program::new(&[1, 3]);
    let (number, unit) = (program.number_type(), program.unit_type());
    let new = program.new_label(number, 0);
    let label = program.variable(new.of(), 0);
    let greedy = program.make(Shape::Object(vec![(1, unit)]));
    let again = program.call(program.variable(greedy, 2), 0);
    let body = program.call(program.object(greedy, vec![again]), 0);
    let pointcut = program.pointcut(number, 1, vec![label.clone()]);
    let watch = program.advice(1, pointcut, body);
    let install = program.install(watch);
    let [printed, marked] = [50, 70].map(|n| program.number(n));
    let (print, mark) = (program.print(printed), program.mark(label, marked));
    let decoded = program.sequence(print, mark);
    let all = program.sequence(install, decoded);
    let root = program.bind(0, new, all);
    let image = program.image(&root);
    let mut lent = Lent::new(100);
    let run = run(&image, &[], 10_000, &mut lent).unwrap();
    assert_eq!(run.outcome(), Outcome::OtherBindings);
    assert_eq!(run.log().collect::<Vec<_>>(), [LogRecord { domain: 0, number: 50 }]);
}

#[test]
fn refusals_say_why_and_where() {
    let mut lent = Lent::new(0);
    let empty = run(&[], &[], 0, &mut lent).unwrap_err();
    assert_eq!(empty, Refusal { cause: Cause::EmptySection, place: 0 });
    assert_eq!(empty.listing(), "refused 9 0");
    assert_eq!(empty.to_string(), "refused 9 0: there is no domain, no type or no term");
    let long = run(&[0; 16_385], &[], 0, &mut lent).unwrap_err();
    assert_eq!(long, Refusal { cause: Cause::ImageTooLong, place: 0 });
    let broken = run(&P2[..18], &[], 0, &mut lent).unwrap_err();
    assert_eq!(broken, Refusal { cause: Cause::BrokenRecord, place: 10 });
}

#[test]
fn slices_of_any_length() {
    let (mut report, mut work) = (vec![7; REPORT_LENGTH + 1], vec![7; WORK_LENGTH + 1]);
    let short = call(&P2, &[], 0, &mut [], &mut report, &mut work[..WORK_LENGTH - 1]).unwrap_err();
    assert_eq!(short, Refusal { cause: Cause::ShortWorkArea, place: 0 });
    let short = call(&P2, &[], 0, &mut [], &mut [], &mut work).unwrap_err();
    assert_eq!(short, Refusal { cause: Cause::ShortReport, place: 0 });
    assert!(report.iter().chain(&work).all(|byte| *byte == 7));
    let written = call(&P2, &[], 0, &mut [], &mut report, &mut work).unwrap();
    assert_eq!(written, Written { log: 0, report: 18 });
    assert!(report[18..].iter().all(|byte| *byte == 7) && work[WORK_LENGTH] == 7);
    assert_eq!(Run::read(&[], &report[..18]).unwrap().outcome(), Outcome::Done);
    assert!(Run::read(&[], &report[..9]).is_none());
}

#[test]
fn the_verdict_alone() {
    use bukzarn::validate;
    assert_eq!(validate(&P2, WORK_LENGTH, REPORT_LENGTH), Ok(()));
    let short = Refusal { cause: Cause::ShortReport, place: 0 };
    assert_eq!(validate(&P2, WORK_LENGTH, REPORT_LENGTH - 1), Err(short));
}

#[test]
fn numbers_and_names() {
    assert!((0..13).all(|n| Outcome::from_number(n).unwrap().number() == n));
    assert!((1..=25).all(|n| Cause::from_number(n).unwrap().number() == n));
    assert_eq!((Cause::all().count(), Outcome::all().count()), (25, 13));
    assert!([0, 26, 99].iter().all(|n| Cause::from_number(*n).is_none()));
    assert!(Outcome::from_number(13).is_none());
    assert_eq!((Outcome::from(13).number(), Cause::from(26).number()), (13, 26));
    assert_eq!(Outcome::Bindings.to_string(), "bindings");
    assert_eq!(Outcome::OtherBindings.to_string(), "other-bindings");
    assert_eq!(Outcome::from(13).to_string(), "outcome 13");
}

/// No two have the same words, and a number without a name has words too.
#[test]
fn words() {
    let causes: HashSet<String> = (0..=25).map(|number| Cause::from(number).to_string()).collect();
    assert_eq!(causes.len(), 26);
    let outcomes: HashSet<&str> = (0..=13).map(|number| Outcome::from(number).words()).collect();
    assert_eq!(outcomes.len(), 14);
}
