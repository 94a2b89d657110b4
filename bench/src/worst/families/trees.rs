//! Trees of small terms, balanced or deep, and the same with long records.
use bukzarn::program::{Program, Shape, Term};

/// A domain below domain 0.
const LOW: u16 = 1;
/// Kinds whose records may not be longer than their fields.
const EXACT: [u16; 4] = [25, 46, 54, 58];

/// So many domains, each below domain 0 alone.
pub fn flat(domains: usize) -> Vec<u16> {
    (0..domains).map(|d| 1 | 1 << d).collect()
}

/// A leaf of the operator's type.
fn leaf(program: &mut Program, operator: usize) -> Term {
    match operator {
        1 | 5 => program.number(1),
        7 => {
            let unit = program.unit_type();
            program.abort(unit)
        }
        _ => program.unit(),
    }
}

/// Two terms under an operator.
fn over(program: &mut Program, operator: usize, a: Term, b: Term) -> Term {
    match operator {
        1 => program.plus(a, b),
        2 => {
            let test = program.truth(true);
            program.choose(test, a, b)
        }
        3 => {
            let low = program.lower(LOW, a);
            program.sequence(low, b)
        }
        4 => program.bind(0, a, b),
        5 => {
            let pair = program.pair(a, b);
            let number = program.number_type();
            let body = program.variable(number, 0);
            program.split(pair, body)
        }
        6 => {
            let unit = program.unit_type();
            let label = program.new_label(unit, 0);
            program.keep(label, a, b)
        }
        _ => program.sequence(a, b),
    }
}

/// A tree of so many leaves, so many hundredths of which are in the left part.
fn grown(program: &mut Program, operator: usize, leaves: usize, left: usize) -> Term {
    if leaves == 1 {
        return leaf(program, operator);
    }
    let first = (leaves * left / 100).clamp(1, leaves - 1);
    let a = grown(program, operator, first, left);
    let b = grown(program, operator, leaves - first, left);
    over(program, operator, a, b)
}

pub fn tree(point: &[usize]) -> Vec<u8> {
    let [operator, leaves, left, domains] = point else { panic!("four numbers") };
    let mut program = Program::new(&flat(*domains));
    let root = grown(&mut program, *operator, *leaves, *left);
    program.image(&root)
}

/// Arms as deep as so many levels, under a balanced tree.
pub fn arms(point: &[usize]) -> Vec<u8> {
    let [operator, arms, levels] = point else { panic!("three numbers") };
    let mut program = Program::new(&flat(2));
    let mut all: Vec<Term> = vec![];
    for _ in 0..*arms {
        let mut arm = leaf(&mut program, *operator);
        for _ in 0..*levels {
            let short = leaf(&mut program, *operator);
            arm = over(&mut program, *operator, short, arm);
        }
        all.push(arm);
    }
    while all.len() > 1 {
        let mut next = vec![];
        for pair in all.chunks(2) {
            next.push(match pair {
                [a, b] => over(&mut program, *operator, a.clone(), b.clone()),
                _ => pair[0].clone(),
            });
        }
        all = next;
    }
    program.image(&all[0])
}

/// Each record that may be longer has so many words more, which are skipped (document 02, card 1).
fn lengthened(image: &[u8], words: usize) -> Vec<u8> {
    let word = |at: usize| u16::from_le_bytes([image[at], image[at + 1]]);
    let (mut longer, mut at) = (vec![], 0);
    while at < image.len() {
        let (length, kind) = (usize::from(word(at)), word(at + 2));
        let more = if EXACT.contains(&kind) { 0 } else { 2 * words };
        longer.extend(((length + more) as u16).to_le_bytes());
        longer.extend(&image[at + 2..at + length]);
        longer.extend(vec![0; more]);
        at += length;
    }
    longer
}

pub fn long_records(point: &[usize]) -> Vec<u8> {
    let [operator, leaves, skipped] = point else { panic!("three numbers") };
    lengthened(&tree(&[*operator, *leaves, 50, 2]), *skipped)
}

/// Objects whose bodies are calls of objects, so many levels, in so many arms.
pub fn objects(point: &[usize]) -> Vec<u8> {
    let [bodies, levels, arms, types] = point else { panic!("four numbers") };
    let mut program = Program::new(&[1]);
    let number = program.number_type();
    let mut last = number;
    let mut kinds = vec![];
    for _ in 0..*types {
        let mut methods = vec![(0, number); *bodies];
        methods[bodies - 1].1 = last;
        last = program.make(Shape::Object(methods));
        kinds.push(last);
    }
    let of = kinds[0];
    let mut root = program.number(0);
    for _ in 0..*arms {
        let mut called = program.number(1);
        for _ in 0..*levels {
            let small = program.number(2);
            let mut each = vec![small; bodies - 1];
            each.push(called);
            let object = program.object(of, each);
            called = program.call(object, 0);
        }
        if root.depth() < 40 {
            root = program.plus(called, root);
        }
    }
    program.image(&root)
}
