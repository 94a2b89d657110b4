//! Marks with many advices.
use super::loops::{again, knot};
use bukzarn::program::{Program, Shape, Term};

/// The levels of the variables: a label, a cell of domain 1, the knot, the argument or the marked value.
const LABEL: u16 = 0;
const CELL: u16 = 1;
const KNOT: u16 = 2;
const VALUE: u16 = 3;

/// Installs advice of domain 1 that adds the marked value to the cell.
fn install(program: &mut Program) -> Term {
    let number = program.number_type();
    let label = program.make(Shape::Label(number, 0));
    let label = program.variable(label, LABEL);
    let cell = program.make(Shape::Reference(number, 1));
    let cell = program.variable(cell, CELL);
    let value = program.variable(number, VALUE);
    let sum = program.plus(program.read(cell.clone()), value);
    let body = program.store(cell, sum);
    let pointcut = program.pointcut(number, 1, vec![label]);
    let advice = program.advice(1, pointcut, body);
    program.install(advice)
}

/// So many installs as a balanced tree of sequences.
fn installs(program: &mut Program, count: usize) -> Term {
    if count == 1 {
        return install(program);
    }
    let first = installs(program, count / 2);
    let second = installs(program, count - count / 2);
    program.sequence(first, second)
}

/// So many advices on one label, then so many marks in a loop.
pub fn marks(advices: usize, times: i32) -> Vec<u8> {
    let mut program = Program::new(&[1, 3]);
    let p = &mut program;
    let (number, unit_type) = (p.number_type(), p.unit_type());
    let label = p.make(Shape::Label(number, 0));
    let label = p.variable(label, LABEL);
    let n = p.variable(number, VALUE);
    let (zero, one, unit) = (p.number(0), p.number(1), p.unit());
    let mark = p.mark(label, n.clone());
    let less = p.minus(n.clone(), one.clone());
    let call = again(p, KNOT, unit_type, less);
    let turn = p.sequence(mark, call);
    let test = p.less(n, one);
    let body = p.choose(test, unit.clone(), turn);
    let start = p.number(times);
    let go = again(p, KNOT, unit_type, start);
    let installed = installs(p, advices);
    let then = p.sequence(installed, go);
    let root = knot(p, KNOT, unit, body, then);
    let new = p.new_cell(1, zero);
    let root = p.bind(0, new, root);
    let new = p.new_label(number, 0);
    let root = p.bind(0, new, root);
    program.image(&root)
}
