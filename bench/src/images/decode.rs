//! A decoder of a frame with a watch.
use super::loops::{again, knot};
use bukzarn::program::{Program, Shape, Term};

/// The levels of the variables: a label, the greatest byte, their sum, the knot, the index, the byte.
const LABEL: u16 = 0;
const GREATEST: u16 = 1;
const SUM: u16 = 2;
const KNOT: u16 = 3;
const INDEX: u16 = 4;
const BYTE: u16 = 5;

/// A number variable, and the cell of a number.
fn number(program: &mut Program, level: u16) -> Term {
    let number = program.number_type();
    program.variable(number, level)
}

fn cell(program: &mut Program, level: u16) -> Term {
    let number = program.number_type();
    let cell = program.make(Shape::Reference(number, 0));
    program.variable(cell, level)
}

fn label(program: &mut Program) -> Term {
    let number = program.number_type();
    let label = program.make(Shape::Label(number, 0));
    program.variable(label, LABEL)
}

/// With the byte bound: keeps the greatest, adds it to the sum, marks it, goes on with the next index.
fn one_byte(program: &mut Program) -> Term {
    let of = program.number_type();
    let (byte, index) = (number(program, BYTE), number(program, INDEX));
    let (greatest, sum) = (cell(program, GREATEST), cell(program, SUM));
    let test = program.less(program.read(greatest.clone()), byte.clone());
    let (keep, unit) = (program.store(greatest, byte.clone()), program.unit());
    let keep = program.choose(test, keep, unit);
    let total = program.plus(program.read(sum.clone()), byte.clone());
    let add = program.store(sum, total);
    let label = label(program);
    let mark = program.mark(label, byte);
    let one = program.number(1);
    let next = program.plus(index, one);
    let next = again(program, KNOT, of, next);
    let rest = program.sequence(mark, next);
    let rest = program.sequence(add, rest);
    program.sequence(keep, rest)
}

/// The body of a watch that prints bytes below 12.
fn notice(program: &mut Program) -> Term {
    let (byte, twelve) = (number(program, KNOT + 1), program.number(12));
    let test = program.less(byte.clone(), twelve);
    let (print, unit) = (program.print(byte), program.unit());
    program.choose(test, print, unit)
}

/// Installs a watch of domain 1 with a body.
fn watch(program: &mut Program, body: fn(&mut Program) -> Term) -> Term {
    let of = program.number_type();
    let label = label(program);
    let pointcut = program.pointcut(of, 1, vec![label]);
    let body = body(program);
    let advice = program.advice(1, pointcut, body);
    program.install(advice)
}

/// The body of a watch that stores 0 to the decoder's sum.
fn harm(program: &mut Program) -> Term {
    let (sum, zero) = (cell(program, SUM), program.number(0));
    program.store(sum, zero)
}

/// Decodes a frame of n bytes; the result is the sum less the greatest byte.
pub fn decode(n: i32) -> Vec<u8> {
    watched(n, notice)
}

/// The same with a watch that does harm: it is refused.
pub fn harmful(n: i32) -> Vec<u8> {
    watched(n, harm)
}

/// Decodes a frame of n bytes with a watch that has this body.
fn watched(n: i32, body: fn(&mut Program) -> Term) -> Vec<u8> {
    let mut program = Program::new(&[1, 3]);
    let p = &mut program;
    let of = p.number_type();
    let (index, end) = (number(p, INDEX), p.number(n));
    let byte = p.frame_byte(index.clone());
    let one = one_byte(p);
    let step = p.bind(0, byte, one);
    let more = p.less(index, end);
    let (sum, greatest) = (cell(p, SUM), cell(p, GREATEST));
    let result = p.minus(p.read(sum), p.read(greatest));
    let turn = p.choose(more, step, result);
    let zero = p.number(0);
    let go = again(p, KNOT, of, zero.clone());
    let install = watch(p, body);
    let then = p.sequence(install, go);
    let mut root = knot(p, KNOT, zero.clone(), turn, then);
    for _ in [SUM, GREATEST] {
        let new = p.new_cell(0, zero.clone());
        root = p.bind(0, new, root);
    }
    let new = p.new_label(of, 0);
    let root = p.bind(0, new, root);
    program.image(&root)
}
