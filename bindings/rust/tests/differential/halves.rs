//! Images for the two halves of bindings, cells and pieces (document 02, card 9), each made for an outcome.
use crate::made::loop_at;
use bukzarn::program::{Program, Shape, Term};

/// Images that end with an outcome: loops at domain 1 that use up the other domains' half of each; cells of domain 1
/// that domain 0 makes, which are charged to it; marks that lack one half or both.
pub fn ending() -> Vec<(u16, Vec<u8>)> {
    let looped = |at: u16, taking: fn(&mut Program, u16, Term) -> Term| {
        loop_at(&mut Program::new(&[1, 3]), at, 3_000, move |program, x| taking(program, at, x))
    };
    vec![
        (4, looped(0, |program, _, _| program.unit())),
        (10, looped(1, |program, _, _| program.unit())),
        (5, looped(0, low_cell)),
        (11, looped(1, low_cell)),
        (8, looped(0, pair)),
        (12, looped(1, pair)),
        (4, marked(32, 31)),
        (10, marked(30, 33)),
        (4, marked(31, 33)),
    ]
}

/// A cell of domain 1 that is made at a domain.
fn low_cell(program: &mut Program, at: u16, x: Term) -> Term {
    let (cell, unit) = (program.new_cell(1, x), program.unit());
    program.bind(at, cell, unit)
}

/// A pair that is made at a domain.
fn pair(program: &mut Program, at: u16, x: Term) -> Term {
    let (pair, unit) = (program.pair(x.clone(), x), program.unit());
    program.bind(at, pair, unit)
}

/// So many advices of domain 0 and of domain 1 on one label, then a method that marks it and calls itself for ever. With
/// 31 and 33 of them the 32nd mark lacks both halves.
fn marked(mainline: usize, others: usize) -> Vec<u8> {
    let mut program = Program::new(&[1, 3]);
    let (number, unit) = (program.number_type(), program.unit_type());
    let new = program.new_label(number, 0);
    let (label, five) = (program.variable(new.of(), 0), program.number(5));
    let object = program.make(Shape::Object(vec![(0, unit)]));
    let mark = program.mark(label.clone(), five);
    let again = program.call(program.variable(object, 1), 0);
    let body = program.sequence(mark, again);
    let go = program.call(program.object(object, vec![body]), 0);
    let domains = [vec![0; mainline], vec![1; others]].concat();
    let installs = installs(&mut program, &label, &domains);
    let all = program.sequence(installs, go);
    let root = program.bind(0, new, all);
    program.image(&root)
}

/// Installs advice of each of these domains that does nothing, as a balanced tree of sequences.
fn installs(program: &mut Program, label: &Term, domains: &[u16]) -> Term {
    let (first, second) = domains.split_at(domains.len() / 2);
    if first.is_empty() {
        let (number, unit) = (program.number_type(), program.unit());
        let pointcut = program.pointcut(number, second[0], vec![label.clone()]);
        let advice = program.advice(second[0], pointcut, unit);
        return program.install(advice);
    }
    let (first, second) = (installs(program, label, first), installs(program, label, second));
    program.sequence(first, second)
}
