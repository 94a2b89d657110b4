//! Images made for one refusal or one outcome each, so that none is left out by chance.
use crate::compare::Given;
use crate::reference::{REPORT, WORK};
use bukzarn::program::{Program, Shape, Term};

/// A record: its length, its kind, its fields.
pub fn record(kind: u16, fields: &[u16]) -> Vec<u8> {
    let length = 4 + 2 * fields.len() as u16;
    [&[length, kind], fields].concat().iter().flat_map(|word| word.to_le_bytes()).collect()
}

/// The bench sheet's P2: the constant 5.
fn p2() -> Vec<u8> {
    [record(1, &[1]), record(18, &[]), record(34, &[0, 5, 0])].concat()
}

/// An image that is refused with each of 1 to 16.
pub fn refused() -> Vec<(u16, Vec<u8>)> {
    let (domain, unit, term) = (record(1, &[1]), record(16, &[]), record(32, &[0]));
    let two = [record(1, &[1]), record(1, &[2]), unit.clone(), term.clone()].concat();
    vec![
        (1, vec![0; 16_385]),
        (2, vec![4, 0, 16]),
        (3, record(99, &[])),
        (4, record(1, &[])),
        (5, [unit.clone(), domain.clone()].concat()),
        (6, domain.repeat(17)),
        (7, [domain.clone(), record(19, &[0, 0])].concat()),
        (8, [domain.clone(), unit.clone(), unit.clone()].concat()),
        (9, vec![]),
        (10, [record(1, &[0]), unit.clone(), term.clone()].concat()),
        (11, [domain.clone(), unit.clone(), term.clone(), term.clone()].concat()),
        (12, nested(65)),
        (13, [domain.clone(), unit.clone(), record(35, &[0, 0])].concat()),
        (14, [domain.clone(), unit.clone(), term.clone(), record(37, &[0, 0])].concat()),
        (15, [two, record(52, &[0, 1, 0])].concat()),
        (16, [domain, unit, record(22, &[0, 0]), record(44, &[1])].concat()),
    ]
}

/// Sums so deep.
fn nested(depth: usize) -> Vec<u8> {
    let mut program = Program::new(&[1]);
    let mut sum = program.number(1);
    for _ in 1..depth {
        let one = program.number(1);
        sum = program.plus(one, sum);
    }
    program.image(&sum)
}

/// A call with enough of everything.
pub fn ample(image: &[u8]) -> Given<'_> {
    Given { image, frame: (0..=255).collect(), budget: u32::MAX, log: 16_384, report: REPORT, work: WORK }
}

/// P2 with a work area and a report one byte too short: 17 and 18.
pub fn short(image: &[u8]) -> [(u16, Given<'_>); 2] {
    let ample = ample(image);
    [(17, Given { work: WORK - 1, report: 0, ..ample.clone() }), (18, Given { report: REPORT - 1, ..ample })]
}

/// The image that `short` is called with.
pub fn constant() -> Vec<u8> {
    p2()
}

/// An image whose first step is a print.
pub fn printing() -> Vec<u8> {
    let mut program = Program::new(&[1]);
    let five = program.number(5);
    let root = program.print(five);
    program.image(&root)
}

/// An image that ends with each outcome, over ample memory and any budget but one of 3 steps for spent.
pub fn ending() -> Vec<(u16, Vec<u8>)> {
    vec![
        (0, p2()),
        (1, loop_of(100, Program::print)),
        (2, loop_of(1, abort)),
        (3, deep(600)),
        (4, loop_of(3_000, |program, _| program.unit())),
        (
            5,
            loop_of(1_000, |program, x| {
                let cell = program.new_cell(0, x);
                forget(program, cell)
            }),
        ),
        (
            6,
            loop_of(1_000, |program, x| {
                let label = program.new_label(x.of(), 0);
                forget(program, label)
            }),
        ),
        (7, loop_of(1_000, install)),
        (
            8,
            loop_of(1_000, |program, x| {
                let pair = program.pair(x.clone(), x);
                forget(program, pair)
            }),
        ),
        (
            9,
            loop_of(1_000, |program, x| {
                let (first, second) = (program.print(x.clone()), program.print(x));
                program.sequence(first, second)
            }),
        ),
    ]
}

/// Aborts.
fn abort(program: &mut Program, _: Term) -> Term {
    let unit = program.unit_type();
    program.abort(unit)
}

/// Installs advice that no mark finds.
pub fn install(program: &mut Program, x: Term) -> Term {
    let pointcut = program.pointcut(x.of(), 0, vec![]);
    let unit = program.unit();
    let advice = program.advice(0, pointcut, unit);
    program.install(advice)
}

/// Binds a value that nothing uses.
fn forget(program: &mut Program, value: Term) -> Term {
    let unit = program.unit();
    program.bind(0, value, unit)
}

/// A statement for each number from n down to 1.
fn loop_of(n: i32, statement: impl Fn(&mut Program, Term) -> Term) -> Vec<u8> {
    loop_at(&mut Program::new(&[1]), 0, n, statement)
}

/// The same in a program with domains of its own, at one of them; then 0.
pub fn loop_at(program: &mut Program, at: u16, n: i32, statement: impl Fn(&mut Program, Term) -> Term) -> Vec<u8> {
    let number = knot(program, at, n, |program, x, call| {
        let statement = statement(program, x);
        program.sequence(statement, call)
    });
    let print = program.print(number);
    let (low, zero) = (program.lower(at, print), program.number(0));
    let root = program.sequence(low, zero);
    program.image(&root)
}

/// Sums of all numbers from n down to 1, each waiting for the next.
fn deep(n: i32) -> Vec<u8> {
    let mut program = Program::new(&[1]);
    let root = knot(&mut program, 0, n, |program, x, call| program.plus(x, call));
    program.image(&root)
}

/// A function of a domain that calls itself through a cell; `turn` has its argument and the call for one less.
fn knot(program: &mut Program, at: u16, n: i32, turn: impl Fn(&mut Program, Term, Term) -> Term) -> Term {
    let number = program.number_type();
    let function = program.make(Shape::Function(number, at, number));
    let cell = program.make(Shape::Reference(function, at));
    let (cell, x) = (program.variable(cell, 0), program.variable(number, 1));
    let (zero, one) = (program.number(0), program.number(1));
    let less = program.minus(x.clone(), one.clone());
    let call = program.apply(program.read(cell.clone()), less);
    let turn = turn(program, x.clone(), call);
    let test = program.less(x, one);
    let body = program.choose(test, zero.clone(), turn);
    let body = program.function(number, at, body);
    let tie = program.store(cell.clone(), body);
    let start = program.number(n);
    let go = program.apply(program.read(cell), start);
    let tied = program.sequence(tie, go);
    let first = program.function(number, at, zero);
    let first = program.new_cell(at, first);
    program.bind(at, first, tied)
}
