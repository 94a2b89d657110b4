//! Images with objects (document 02, card 3), made for one refusal or one outcome each.
use crate::made::record;
use bukzarn::program::{Program, Shape, Term, Type};

/// The records of an image over the types unit and number (0 and 1) of domain 0 and domain 1, which is below it.
fn over(records: &[Vec<u8>]) -> Vec<u8> {
    let head = [record(1, &[1]), record(1, &[3]), record(16, &[]), record(18, &[])];
    [head.concat(), records.concat()].concat()
}

/// An object type of number and unit at domain 0 (type 2), an object of it (term 2), and this root.
fn over_object(root: Vec<u8>) -> Vec<u8> {
    let five = record(34, &[1, 5, 0]);
    over(&[record(25, &[0, 1, 0, 0]), five, record(32, &[0]), record(54, &[2, 0, 1]), root])
}

/// Object types and terms that are refused, with the number.
pub fn refused() -> Vec<(u16, Vec<u8>)> {
    let (number, unit) = (record(34, &[1, 5, 0]), record(32, &[0]));
    let two = record(25, &[0, 1, 0, 0]);
    vec![
        // No method, nine, half a method, a method and a half; no body, nine; a call without its method.
        (4, over(&[record(25, &[])])),
        (4, over(&[record(25, &[0; 18])])),
        (4, over(&[record(25, &[0])])),
        (4, over(&[record(25, &[0, 1, 0])])),
        (4, over(&[record(54, &[0])])),
        (4, over(&[record(54, &[0; 10])])),
        (4, over_object(record(55, &[1, 2]))),
        // A domain that is absent, a type that is not lower, a body and an object that are not lower.
        (7, over(&[record(25, &[2, 1])])),
        (7, over(&[record(25, &[0, 1, 0, 2])])),
        (7, over(&[two.clone(), record(54, &[2, 0])])),
        (7, over(&[two.clone(), record(55, &[1, 0, 0])])),
        (8, over(&[two.clone(), record(25, &[0, 1]), two.clone()])),
        // One body too few, one too many, a body of another type, an object of another type.
        (14, over(&[two.clone(), number.clone(), record(54, &[2, 0])])),
        (14, over(&[record(25, &[0, 1]), number.clone(), unit.clone(), record(54, &[2, 0, 1])])),
        (14, over(&[two.clone(), unit.clone(), unit.clone(), record(54, &[2, 0, 1])])),
        (14, over(&[number.clone(), record(54, &[1, 0])])),
        // A method number past the last, also a far one; a call of another type; a call of a number.
        (14, over_object(record(55, &[1, 2, 2]))),
        (14, over_object(record(55, &[1, 2, 65_535]))),
        (14, over_object(record(55, &[0, 2, 0]))),
        (14, over(&[number.clone(), record(55, &[1, 0, 0])])),
        // A low method that is called from above; in a low method's body, a call of the high one.
        (15, over(&[record(25, &[1, 1]), number.clone(), record(54, &[2, 0]), record(55, &[1, 1, 0])])),
        (15, low_calls_high()),
        (16, over(&[two, number, unit, record(54, &[2, 0, 1])])),
    ]
}

/// An object whose low method's body calls its high one.
fn low_calls_high() -> Vec<u8> {
    let mut program = Program::new(&[1, 3]);
    let number = program.number_type();
    let of = program.make(Shape::Object(vec![(0, number), (1, number)]));
    let five = program.number(5);
    let object = program.object(of, vec![five, program.call(program.variable(of, 0), 0)]);
    let root = program.call(object, 0);
    program.image(&root)
}

/// Images that end with an outcome.
pub fn ending() -> Vec<(u16, Vec<u8>)> {
    vec![
        (0, eight()),
        (0, in_cells()),
        (0, lowered()),
        (3, endless(|program, call, n| program.plus(n, call))),
        (4, endless(|_, call, _| call)),
        (
            9,
            endless(|program, call, n| {
                let (first, second) = (program.print(n.clone()), program.print(n));
                let both = program.sequence(first, second);
                program.sequence(both, call)
            }),
        ),
    ]
}

/// A method that calls itself for ever; `around` has the call, and a variable from outside.
fn endless(around: impl Fn(&mut Program, Term, Term) -> Term) -> Vec<u8> {
    let mut program = Program::new(&[1]);
    let number = program.number_type();
    let of = program.make(Shape::Object(vec![(0, number)]));
    let (outer, itself) = (program.variable(number, 0), program.variable(of, 1));
    let call = program.call(itself, 0);
    let body = around(&mut program, call, outer);
    let object = program.object(of, vec![body]);
    let call = program.call(object, 0);
    let five = program.number(5);
    let root = program.bind(0, five, call);
    program.image(&root)
}

/// Eight methods, each of which gives its number plus what the next one gives.
fn eight() -> Vec<u8> {
    let mut program = Program::new(&[1]);
    let number = program.number_type();
    let of = program.make(Shape::Object(vec![(0, number); 8]));
    let bodies = (0..8).map(|m| adding(&mut program, of, m)).collect();
    let object = program.object(of, bodies);
    let root = program.call(object, 0);
    program.image(&root)
}

fn adding(program: &mut Program, of: Type, m: u16) -> Term {
    let own = program.number(i32::from(m));
    if m == 7 {
        return own;
    }
    let next = program.call(program.variable(of, 0), m + 1);
    program.plus(own, next)
}

/// An object in a cell, replaced by another that has a variable from outside, then read and called.
fn in_cells() -> Vec<u8> {
    let mut program = Program::new(&[1]);
    let number = program.number_type();
    let of = program.make(Shape::Object(vec![(0, number)]));
    let cell = program.make(Shape::Reference(of, 0));
    let (cell, outer) = (program.variable(cell, 1), program.variable(number, 0));
    let store = program.store(cell.clone(), program.object(of, vec![outer]));
    let call = program.call(program.read(cell), 0);
    let body = program.sequence(store, call);
    let (five, one) = (program.number(5), program.number(1));
    let first = program.object(of, vec![one]);
    let first = program.new_cell(0, first);
    let inside = program.bind(0, first, body);
    let root = program.bind(0, five, inside);
    program.image(&root)
}

/// A low method that prints, called in a lower, and a high one of the same object.
fn lowered() -> Vec<u8> {
    let mut program = Program::new(&[1, 3]);
    let (number, unit) = (program.number_type(), program.unit_type());
    let of = program.make(Shape::Object(vec![(1, unit), (0, number)]));
    let (seven, five) = (program.number(7), program.number(5));
    let print = program.print(seven);
    let object = program.object(of, vec![print, five]);
    let itself = program.variable(of, 0);
    let low = program.call(itself.clone(), 0);
    let low = program.lower(1, low);
    let both = program.sequence(low, program.call(itself, 1));
    let root = program.bind(0, object, both);
    program.image(&root)
}
