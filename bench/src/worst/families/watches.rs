//! Watches: advice with dear bodies, marks that many advices stand at, takedowns.
use crate::images::{again, knot};
use bukzarn::program::{Close, Entry, Program, Shape, Term};

/// A balanced tree of sequences.
pub fn sequences(program: &mut Program, mut terms: Vec<Term>) -> Term {
    if terms.is_empty() {
        return program.unit();
    }
    while terms.len() > 1 {
        let pairs = terms.chunks(2);
        let next = pairs.map(|pair| match pair {
            [a, b] => program.sequence(a.clone(), b.clone()),
            _ => pair[0].clone(),
        });
        terms = next.collect();
    }
    terms.remove(0)
}

/// Advice of domain 1 for the label of a level, or for no label.
pub fn advice(program: &mut Program, label: Option<u16>, body: Term) -> Term {
    let unit = program.unit_type();
    let of = program.make(Shape::Label(unit, 0));
    let labels = label.map(|level| program.variable(of, level)).into_iter().collect();
    let pointcut = program.pointcut(unit, 1, labels);
    program.advice(1, pointcut, body)
}

/// Bodies of domain 1, of lowers or of advice, with so many terms in them.
pub fn low_bodies(point: &[usize]) -> Vec<u8> {
    let [bodies, inside, as_advice] = point else { panic!("three numbers") };
    let mut program = Program::new(&[1, 3]);
    let mut all = vec![];
    for _ in 0..*bodies {
        let units = vec![program.unit(); inside + 1];
        let body = sequences(&mut program, units);
        all.push(match as_advice {
            0 => program.lower(1, body),
            _ => {
                let advice = advice(&mut program, None, body);
                program.install(advice)
            }
        });
    }
    let root = sequences(&mut program, all);
    program.image(&root)
}

/// A choice, or a match that looks at pointcuts without labels, in whose last branch there is the rest.
fn choice(program: &mut Program, pieces: usize, by_match: usize, rest: Term) -> Term {
    let (unit_type, unit) = (program.unit_type(), program.unit());
    if by_match == 0 {
        let test = program.truth(false);
        return program.choose(test, unit, rest);
    }
    let entries = (0..pieces).map(|_| Entry::Under(program.pointcut(unit_type, 1, vec![]))).collect();
    let stack = program.stack();
    program.match_stack(stack, entries, Close::Empty, unit, rest)
}

/// Installed advice with so many choices, one inside the other, and so many pieces at each.
pub fn choices(point: &[usize]) -> Vec<u8> {
    let [advices, choices, pieces, by_match] = point else { panic!("four numbers") };
    let mut program = Program::new(&[1, 3]);
    let mut all = vec![];
    for _ in 0..*advices {
        let mut body = program.unit();
        for _ in 0..*choices {
            body = choice(&mut program, *pieces, *by_match, body);
        }
        let advice = advice(&mut program, None, body);
        all.push(program.install(advice));
    }
    let root = sequences(&mut program, all);
    program.image(&root)
}

/// The levels of the variables: two labels, an advice, the knot, its argument.
const LABEL: u16 = 0;
const OTHER: u16 = 1;
const ADVICE: u16 = 2;
const KNOT: u16 = 3;
const VALUE: u16 = 4;

/// Binds two labels, an advice of the first, and a function that does the work so many times; installs, then calls it.
fn looped(program: &mut Program, body: Term, installs: Vec<Term>, work: Term, times: usize) -> Term {
    let (number, unit_type, unit) = (program.number_type(), program.unit_type(), program.unit());
    let (n, one) = (program.variable(number, VALUE), program.number(1));
    let less = program.minus(n.clone(), one.clone());
    let call = again(program, KNOT, unit_type, less);
    let turn = program.sequence(work, call);
    let test = program.less(n, one);
    let turns = program.choose(test, unit.clone(), turn);
    let start = program.number(times as i32);
    let go = again(program, KNOT, unit_type, start);
    let installed = sequences(program, installs);
    let then = program.sequence(installed, go);
    let knotted = knot(program, KNOT, unit, turns, then);
    let advice = advice(program, Some(LABEL), body);
    let mut root = program.bind(0, advice, knotted);
    for _ in [OTHER, LABEL] {
        let label = program.new_label(unit_type, 0);
        root = program.bind(0, label, root);
    }
    root
}

/// So many installed advices, of which so many match a mark that is made again and again; copies of one advice or each
/// of its own.
pub fn marks(point: &[usize]) -> Vec<u8> {
    let [advices, matching, times, copies] = point else { panic!("four numbers") };
    let mut program = Program::new(&[1, 3]);
    let unit = program.unit_type();
    let (label, of) = (program.make(Shape::Label(unit, 0)), program.make(Shape::Advice(1)));
    let mut installs = vec![];
    for i in 0..*advices {
        let names = if i < *matching { LABEL } else { OTHER };
        let installed = match copies {
            0 => {
                let body = program.unit();
                advice(&mut program, Some(names), body)
            }
            _ => program.variable(of, ADVICE),
        };
        installs.push(program.install(installed));
    }
    let (marked, value) = (program.variable(label, LABEL), program.unit());
    let work = program.mark(marked, value);
    let body = program.unit();
    let root = looped(&mut program, body, installs, work, *times);
    program.image(&root)
}

/// Takedowns of a domain at which no advice stands, again and again, with so many advices installed.
pub fn takedowns(point: &[usize]) -> Vec<u8> {
    let [advices, takedowns, times] = point else { panic!("three numbers") };
    let mut program = Program::new(&[1, 3, 5]);
    let of = program.make(Shape::Advice(1));
    let copy = program.variable(of, ADVICE);
    let installs = (0..*advices).map(|_| program.install(copy.clone())).collect();
    let all = (0..*takedowns).map(|_| program.takedown(2)).collect();
    let work = sequences(&mut program, all);
    let body = program.unit();
    let root = looped(&mut program, body, installs, work, *times);
    program.image(&root)
}
