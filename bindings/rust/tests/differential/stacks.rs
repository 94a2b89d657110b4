//! Images with keeps and matches (document 02, card 6), made for one refusal or one outcome each.
use crate::made::record;
use bukzarn::program::{Close, Entry, Program, Shape, Term};

/// An image over the types unit, number, stack, label and pointcut of number at domain 0, label at domain 1 (0 to 5),
/// of domain 0 and domain 1, which is below it.
fn over(records: &[Vec<u8>]) -> Vec<u8> {
    let domains = [record(1, &[1]), record(1, &[3])];
    let types = [record(16, &[]), record(18, &[]), record(26, &[]), record(22, &[1, 0]), record(23, &[1, 0])];
    [domains.concat(), types.concat(), record(22, &[1, 1]), records.concat()].concat()
}

/// Four terms, 0 to 3, and a match as the root: its first child is the first, its branches are the next two.
fn match_over(parts: [&Vec<u8>; 4], own: u16, behind: &[u16]) -> Vec<u8> {
    let fields = [&[own, 0, 1, 2], behind].concat();
    over(&[parts.map(Vec::clone).concat(), record(58, &fields)])
}

/// A keep under an abort of a label type (0) of the numbers 5 (1 and 2).
fn keep(own: u16, label: u16) -> Vec<u8> {
    let five = record(34, &[1, 5, 0]);
    over(&[record(53, &[label]), five.clone(), five, record(57, &[own, 0, 1, 2])])
}

/// Types and terms that are refused, with the number.
pub fn refused() -> Vec<(u16, Vec<u8>)> {
    let (unit, five) = (record(32, &[0]), record(34, &[1, 5, 0]));
    let (stack, cut) = (record(56, &[2]), record(46, &[4]));
    let parts = [&stack, &five, &five, &cut];
    let behind = |fields: &[u16]| match_over(parts, 1, fields);
    let mut byte_more = behind(&[4, 0]);
    let at = byte_more.len() - 16;
    byte_more[at] = 17;
    byte_more.push(0);
    vec![
        // A keep without its body, a match without its close, one with nine entries, one with a byte behind its close.
        (4, over(&[record(57, &[1, 0, 1])])),
        (4, behind(&[])),
        (4, behind(&[4, 0, 0, 0, 0, 0, 0, 0, 0, 0])),
        (4, byte_more),
        // An entry whose term is not lower, a close over 1, a branch that is not lower.
        (7, behind(&[5, 0])),
        (7, behind(&[4, 2])),
        (7, over(&[parts.map(Vec::clone).concat(), record(58, &[1, 0, 1, 4, 4, 0])])),
        (8, over(&[record(26, &[])])),
        // A pointcut that is used twice, and one that is not used.
        (11, behind(&[4, 4, 0])),
        (11, behind(&[0, 0])),
        // A stack of another type; a keep of another type than its body's, of no label, of a value not its label's.
        (14, over(&[record(56, &[1])])),
        (14, keep(0, 3)),
        (14, keep(1, 1)),
        (14, over(&[record(53, &[3]), unit.clone(), stack.clone(), record(57, &[2, 0, 1, 2])])),
        // A match of no stack, of another type than its branches', with another second branch, with no pointcut.
        (14, match_over([&five, &five, &five, &cut], 1, &[4, 0])),
        (14, match_over(parts, 0, &[4, 0])),
        (14, match_over([&stack, &five, &unit, &cut], 1, &[4, 0])),
        (14, match_over([&stack, &five, &five, &five], 1, &[4, 0])),
        // A keep under a low label.
        (15, keep(1, 5)),
        (16, over(&[stack])),
    ]
}

/// Images that end with an outcome.
pub fn ending() -> Vec<(u16, Vec<u8>)> {
    vec![
        (0, taken_apart()),
        (
            3,
            endless(|program, label, call| {
                let five = program.number(5);
                program.keep(label, five, call)
            }),
        ),
        (
            8,
            endless(|program, label, call| {
                let (five, none) = (program.number(5), program.unit());
                let stack = program.stack();
                let asked = program.match_stack(stack, vec![], Close::Empty, none.clone(), none);
                let body = program.sequence(asked, call);
                program.keep(label, five, body)
            }),
        ),
        (
            4,
            endless(|program, _, call| {
                let (stack, none) = (program.stack(), program.number(0));
                let entries = vec![];
                program.match_stack(stack, entries, Close::Rest, call, none)
            }),
        ),
    ]
}

/// Three numbers kept under two labels; a match takes them apart, and the rest, which it binds, is matched later.
fn taken_apart() -> Vec<u8> {
    let mut program = Program::new(&[1]);
    let (number, stack) = (program.number_type(), program.stack_type());
    let new = program.new_label(number, 0);
    let (outer, inner) = (program.variable(new.of(), 0), program.variable(new.of(), 1));
    let cut = |program: &mut Program, label: &Term| program.pointcut(number, 0, vec![label.clone()]);
    let (first, second) = (cut(&mut program, &inner), cut(&mut program, &outer));
    // Levels 2 and 3 are the value on top and the rest; level 4 is the last value.
    let rest = program.variable(stack, 3);
    let sum = program.plus(program.variable(number, 2), program.variable(number, 4));
    let none = program.number(-1);
    let later = program.match_stack(rest, vec![Entry::Anything, Entry::Under(second)], Close::Empty, sum, none.clone());
    let now = program.stack();
    let body = program.match_stack(now, vec![Entry::Under(first)], Close::Rest, later, none);
    let numbers = [3, 20, 100].map(|n| program.number(n));
    let [top, middle, bottom] = numbers;
    let body = program.keep(inner.clone(), top, body);
    let body = program.keep(inner, middle, body);
    let body = program.keep(outer, bottom, body);
    let inside = program.bind(0, new.clone(), body);
    let root = program.bind(0, new, inside);
    program.image(&root)
}

/// A function that calls itself for ever; `around` has a label and the call.
fn endless(around: impl Fn(&mut Program, Term, Term) -> Term) -> Vec<u8> {
    let mut program = Program::new(&[1]);
    let number = program.number_type();
    let new = program.new_label(number, 0);
    let of = program.make(Shape::Object(vec![(0, number)]));
    let (label, itself) = (program.variable(new.of(), 0), program.variable(of, 1));
    let call = program.call(itself, 0);
    let body = around(&mut program, label, call);
    let call = program.call(program.object(of, vec![body]), 0);
    let root = program.bind(0, new, call);
    program.image(&root)
}
