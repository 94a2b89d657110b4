//! Images most of whose bytes are domains or types.
use super::trees::flat;
use crate::images::chain;
use crate::random::Random;
use bukzarn::program::{Program, Shape, Term, Type};

/// The types' kinds and the prime that crates/check_layout sorts descriptors by.
const FUNCTION: usize = 20;
const REMAINDERS: usize = 251;

/// So many terms: a number under frame bytes, or as a sum.
pub fn filler(program: &mut Program, terms: usize) -> Term {
    let mut term = program.number(1);
    while term.size() + 2 <= terms && term.depth() < 60 {
        let one = program.number(1);
        term = program.plus(one, term);
    }
    while term.size() < terms && term.depth() < 63 {
        term = program.frame_byte(term);
    }
    term
}

/// The methods of object type number `i`, of so many: their domains and what they give.
fn methods(form: usize, count: usize, apart: usize, i: usize, known: &[Type]) -> Vec<(u16, Type)> {
    let mut all = vec![(0, known[0]); count];
    match form {
        // One method gives the type before, the last one or so many from the end.
        0 => all[count - apart.min(count)].1 = known[i],
        // The same methods in another order.
        1 => {
            let mut left: Vec<u16> = (2..count as u16).collect();
            let mut order = i;
            for method in all.iter_mut().skip(2) {
                let n = left.len();
                method.0 = left.remove(order % n);
                order /= n;
            }
        }
        // Three domains whose sum is the same.
        2 => {
            let (a, b) = (i as u16 % 16, i as u16 / 16 % 16);
            let parts = [a.min(15 - b), b, 15 - b - a.min(15 - b)];
            let last = all.iter_mut().rev().zip(parts);
            last.for_each(|(method, domain)| method.0 = domain);
        }
        // Anything behind a method and a domain.
        _ => {
            let mut random = Random::new((1_000 * apart + i) as u64);
            for method in all.iter_mut().skip(1) {
                *method = (random.below(16) as u16, known[random.below(known.len())]);
            }
        }
    }
    all
}

/// Types of objects that are nearly alike.
pub fn object_types(point: &[usize]) -> Vec<u8> {
    let [types, count, form, apart, terms] = point else { panic!("five numbers") };
    let mut program = Program::new(&flat(16));
    let mut known = vec![program.number_type()];
    for i in 0..*types {
        // One that is there already is not made again.
        let of = program.make(Shape::Object(methods(*form, *count, *apart, i, &known)));
        known.push(of);
    }
    let root = filler(&mut program, *terms);
    program.image(&root)
}

/// The types of functions over the first so many types whose descriptors have the remainder of the first of all.
fn alike(types: u16) -> impl Iterator<Item = (u16, u16, u16)> {
    let all = (0..types).flat_map(move |a| (0..16).flat_map(move |p| (0..types).map(move |b| (a, p, b))));
    let descriptor = |a, p, b| FUNCTION + 256 * usize::from(a) + 65_536 * usize::from(p) + 16_777_216 * usize::from(b);
    all.filter(move |(a, p, b)| (descriptor(*a, *p, *b) - FUNCTION).is_multiple_of(REMAINDERS))
}

/// Types of functions whose descriptors have one remainder, as far as there are any.
pub fn types_of_one_remainder(point: &[usize]) -> Vec<u8> {
    let [types, terms] = point else { panic!("two numbers") };
    let mut program = Program::new(&chain());
    let number = program.number_type();
    let mut known = vec![number];
    while known.len() <= *types {
        let shape = |(a, p, b): (u16, u16, u16)| Shape::Function(known[usize::from(a)], p, known[usize::from(b)]);
        let is_new = |shape: &Shape| known.iter().all(|of| program.shape(*of) != *shape);
        let next = alike(known.len() as u16).map(shape).find(is_new);
        // If there is none, one that brings more numbers.
        let next = next.unwrap_or(Shape::Function(known[known.len() - 1], 0, number));
        known.push(program.make(next));
    }
    let root = filler(&mut program, *terms);
    program.image(&root)
}

/// Domains each of which is below so many before it.
pub fn domains(point: &[usize]) -> Vec<u8> {
    let [domains, below, terms] = point else { panic!("three numbers") };
    let mut masks: Vec<u16> = vec![];
    for d in 0..*domains {
        let above = masks.iter().enumerate().filter(|(q, _)| q + below >= d).fold(1 << d, |mask, (_, of)| mask | of);
        masks.push(above);
    }
    let mut program = Program::new(&masks);
    let root = filler(&mut program, *terms);
    program.image(&root)
}
