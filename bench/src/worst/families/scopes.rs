//! Variables that are bound far outside: a variable is found by hops over the bindings between it and its use.
use super::watches::{advice, sequences};
use crate::images::{again, knot};
use bukzarn::program::{Close, Entry, Program, Shape, Term};

/// The levels of the outermost variables: a number, its cell, a label, a pointcut of it, a stack, an advice.
const NUMBER: u16 = 0;
const CELL: u16 = 1;
const LABEL: u16 = 2;
const POINTCUT: u16 = 3;
const STACK: u16 = 4;
const OUTER: u16 = 5;

/// A match looks at up to eight values, so there is one more in the stack: it then fits if it binds the rest and does
/// not if it asks for nothing behind them.
const KEPT: usize = 9;

/// The variable of one of these levels.
fn outer(program: &mut Program, level: u16) -> Term {
    let (number, unit) = (program.number_type(), program.unit_type());
    let of = match level {
        NUMBER => number,
        CELL => program.make(Shape::Reference(number, 1)),
        LABEL => program.make(Shape::Label(unit, 0)),
        POINTCUT => program.make(Shape::Pointcut(unit, 1)),
        _ => program.stack_type(),
    };
    program.variable(of, level)
}

/// The stack inside so many keeps of the label.
fn taken_stack(program: &mut Program) -> Term {
    let mut stack = program.stack();
    for _ in 0..KEPT {
        let (label, unit) = (outer(program, LABEL), program.unit());
        stack = program.keep(label, unit, stack);
    }
    stack
}

/// Binds the outermost variables around a body.
fn surrounded(program: &mut Program, body: Term) -> Term {
    let (unit, label) = (program.unit_type(), outer(program, LABEL));
    let pointcut = program.pointcut(unit, 1, vec![label]);
    let (number, zero) = (program.number(1), program.number(0));
    let values = [number, program.new_cell(1, zero), program.new_label(unit, 0), pointcut, taken_stack(program)];
    values.into_iter().rev().fold(body, |body, value| program.bind(0, value, body))
}

/// A match that looks at so many entries, each the pointcut's variable; `yes` is under one variable for each and one for
/// the rest if the close binds it.
fn match_far(program: &mut Program, entries: usize, close: Close, yes: Term, no: Term) -> Term {
    let entries = (0..entries).map(|_| Entry::Under(outer(program, POINTCUT))).collect();
    let stack = outer(program, STACK);
    program.match_stack(stack, entries, close, yes, no)
}

/// Binds variables around a body by so many matches that fit, each with so many entries.
fn deepened(program: &mut Program, levels: usize, entries: usize, body: Term) -> Term {
    (0..levels).fold(body, |body, _| {
        let unit = program.unit();
        match_far(program, entries, Close::Rest, body, unit)
    })
}

/// Work with far variables, the unit at its end: matches that do not fit, one in the last branch of the other; sums;
/// comparisons; stores; marks of a label that no advice names.
fn chain(program: &mut Program, work: usize, links: usize) -> Term {
    let number = |program: &mut Program| outer(program, NUMBER);
    let mut end = program.unit();
    for _ in 0..links {
        end = match work {
            0 => {
                let unit = program.unit();
                match_far(program, 8, Close::Empty, unit, end)
            }
            1 => {
                let (a, b, cell) = (number(program), number(program), outer(program, CELL));
                let sum = program.plus(a, b);
                let store = program.store(cell, sum);
                program.sequence(store, end)
            }
            2 => {
                let (a, b, unit) = (number(program), number(program), program.unit());
                let test = program.less(a, b);
                program.choose(test, unit, end)
            }
            3 => {
                let (a, cell) = (number(program), outer(program, CELL));
                let store = program.store(cell, a);
                program.sequence(store, end)
            }
            _ => {
                let (label, unit) = (outer(program, LABEL), program.unit());
                let mark = program.mark(label, unit);
                program.sequence(mark, end)
            }
        };
    }
    end
}

/// Does the work again and again, by a function that calls itself through a cell.
fn by_calls(program: &mut Program, level: u16, work: Term, rounds: usize) -> Term {
    let (number, unit_type, unit) = (program.number_type(), program.unit_type(), program.unit());
    let (n, one) = (program.variable(number, level + 1), program.number(1));
    let less = program.minus(n.clone(), one.clone());
    let call = again(program, level, unit_type, less);
    let turn = program.sequence(work, call);
    let test = program.less(n, one);
    let body = program.choose(test, unit.clone(), turn);
    let start = program.number(rounds as i32);
    let go = again(program, level, unit_type, start);
    knot(program, level, unit, body, go)
}

/// Does the work again and again, as the body of one advice that is installed up to 64 times, by marks.
fn by_marks(program: &mut Program, level: u16, work: Term, rounds: usize) -> Term {
    let unit = program.unit_type();
    let (of, kind) = (program.make(Shape::Label(unit, 0)), program.make(Shape::Advice(1)));
    let copies = rounds.min(64);
    let mut all: Vec<Term> = vec![];
    for _ in 0..copies {
        let copy = program.variable(kind, level + 1);
        all.push(program.install(copy));
    }
    for _ in 0..rounds / copies {
        let (label, unit) = (program.variable(of, level), program.unit());
        all.push(program.mark(label, unit));
    }
    let then = sequences(program, all);
    let advice = advice(program, Some(level), work);
    let then = program.bind(0, advice, then);
    let label = program.new_label(unit, 0);
    program.bind(0, label, then)
}

/// What an image has room for.
const TERMS: usize = 1_024;
const DEPTH: usize = 64;

/// The root of `far`.
fn far_root(program: &mut Program, point: &[usize; 7]) -> Term {
    let [levels, entries, work, chains, links, rounds, marks] = *point;
    let all = (0..chains).map(|_| chain(program, work, links)).collect();
    let all = sequences(program, all);
    let level = OUTER + (levels * (entries + 1)) as u16;
    let done = match marks {
        0 => by_calls(program, level, all, rounds),
        _ => by_marks(program, level, all, rounds),
    };
    let deep = deepened(program, levels, entries, done);
    surrounded(program, deep)
}

/// Far variables: so many levels of matches bind variables; inside them so many chains of so many links of work are done
/// again and again. There are fewer links and chains if the image has no room for them.
pub fn far(point: &[usize]) -> Vec<u8> {
    let mut point: [usize; 7] = point.try_into().expect("seven numbers");
    loop {
        let mut program = Program::new(&[1, 3]);
        let root = far_root(&mut program, &point);
        let (chains, links) = (point[3], point[4]);
        if root.depth() > DEPTH && links > 1 {
            point[4] -= (root.depth() - DEPTH).min(links - 1);
        } else if root.size() > TERMS && chains > 1 {
            point[3] -= (chains * (root.size() - TERMS) / root.size()).clamp(1, chains - 1);
        } else {
            return program.image(&root);
        }
    }
}

/// Comparisons of two far variables, and choices by them, inside so many levels; and how many bindings are between the
/// variables and their use: those of the levels, the other outer ones, the function's cell and its argument.
pub fn far_comparisons(levels: usize) -> (Vec<u8>, usize) {
    let hops = 9 * levels + usize::from(OUTER - 1) + 2;
    (far(&[levels, 8, 2, 16, 20, 200, 0]), hops)
}

/// Pointcuts of far labels: each is a step with as many variables as it has labels.
pub fn pointcuts(point: &[usize]) -> Vec<u8> {
    let [labels, pointcuts, levels, entries] = point else { panic!("four numbers") };
    let mut program = Program::new(&[1, 3]);
    let p = &mut program;
    let unit = p.unit_type();
    let mut all = vec![];
    for some in (0..*pointcuts).collect::<Vec<_>>().chunks(8) {
        let entry = |_: &usize| {
            let labels = (0..*labels).map(|_| outer(p, LABEL)).collect();
            Entry::Under(p.pointcut(unit, 1, labels))
        };
        let entries = some.iter().map(entry).collect();
        let (stack, yes, no) = (outer(p, STACK), p.unit(), p.unit());
        all.push(p.match_stack(stack, entries, Close::Empty, yes, no));
    }
    let work = sequences(p, all);
    let deep = deepened(p, *levels, *entries, work);
    let root = surrounded(p, deep);
    program.image(&root)
}
