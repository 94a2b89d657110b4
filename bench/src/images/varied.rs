//! 1,024 terms of every kind.
use super::large::{chain, fill_types};
use bukzarn::program::{Program, Shape, Term};

/// A label with advice that prints, then a mark, at a domain.
fn marked(program: &mut Program, at: u16) -> Term {
    let number = program.number_type();
    let label = program.make(Shape::Label(number, at));
    let label = program.variable(label, 0);
    let value = program.variable(number, 1);
    let print = program.print(value);
    let pointcut = program.pointcut(number, at, vec![label.clone(), label.clone()]);
    let advice = program.advice(at, pointcut, print);
    let install = program.install(advice);
    let byte = program.number(i32::from(at));
    let byte = program.frame_byte(byte);
    let mark = program.mark(label, byte);
    let body = program.sequence(install, mark);
    let new = program.new_label(number, at);
    program.bind(at, new, body)
}

/// A cell that is read and stored, at a domain.
fn counted(program: &mut Program, at: u16) -> Term {
    let number = program.number_type();
    let cell = program.make(Shape::Reference(number, at));
    let cell = program.variable(cell, 0);
    let (one, seven) = (program.number(1), program.number(7));
    let sum = program.plus(program.read(cell.clone()), one);
    let store = program.store(cell, sum);
    let new = program.new_cell(at, seven);
    program.bind(at, new, store)
}

/// A pair that is split, and a choice, at any domain.
fn chosen(program: &mut Program) -> Term {
    let number = program.number_type();
    let (first, second) = (program.variable(number, 0), program.variable(number, 1));
    let test = program.less(second, first.clone());
    let (print, unit) = (program.print(first), program.unit());
    let body = program.choose(test, print, unit);
    let (three, four) = (program.number(3), program.number(4));
    let pair = program.pair(three, four);
    program.split(pair, body)
}

/// The three in sequence, lowered to a domain.
fn block(program: &mut Program, at: u16) -> Term {
    let (marked, counted, chosen) = (marked(program, at), counted(program, at), chosen(program));
    let rest = program.sequence(counted, chosen);
    let all = program.sequence(marked, rest);
    program.lower(at, all)
}

/// Blocks at all domains in turn, then sums that make up 1,024 terms.
pub fn varied() -> Vec<u8> {
    let mut program = Program::new(&chain());
    let mut root = program.number(1);
    for at in 0.. {
        let block = block(&mut program, at % 16);
        if root.size() + block.size() + 1 > 1_024 {
            break;
        }
        root = program.sequence(block, root);
    }
    while root.size() + 2 <= 1_024 {
        let one = program.number(1);
        root = program.plus(one, root);
    }
    if root.size() < 1_024 {
        root = program.frame_byte(root);
    }
    fill_types(&mut program);
    program.image(&root)
}
