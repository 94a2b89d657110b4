//! Recursion through a cell that holds the function itself.
use bukzarn::program::{Program, Shape, Term, Type};

/// The type of the cell of a function from number to a type, at domain 0.
pub fn knot_type(program: &mut Program, to: Type) -> Type {
    let number = program.number_type();
    let function = program.make(Shape::Function(number, 0, to));
    program.make(Shape::Reference(function, 0))
}

/// Binds a cell at a level, stores the function with this body in it (its argument is the next level), then goes on.
pub fn knot(program: &mut Program, level: u16, first: Term, body: Term, then: Term) -> Term {
    let number = program.number_type();
    let cell = knot_type(program, body.of());
    let cell = program.variable(cell, level);
    let body = program.function(number, 0, body);
    let tie = program.store(cell, body);
    let tied = program.sequence(tie, then);
    let first = program.function(number, 0, first);
    let new = program.new_cell(0, first);
    program.bind(0, new, tied)
}

/// The function in the cell of a level, applied.
pub fn again(program: &mut Program, level: u16, to: Type, argument: Term) -> Term {
    let cell = knot_type(program, to);
    let cell = program.variable(cell, level);
    let function = program.read(cell);
    program.apply(function, argument)
}

/// f(n) is 0 for n below 1, else the turn, which has n and f(n - 1).
fn recursion(program: &mut Program, turn: fn(&mut Program, Term, Term) -> Term) -> Term {
    let number = program.number_type();
    let n = program.variable(number, 1);
    let (zero, one) = (program.number(0), program.number(1));
    let less = program.minus(n.clone(), one.clone());
    let call = again(program, 0, number, less);
    let turn = turn(program, n.clone(), call);
    let test = program.less(n, one);
    program.choose(test, zero, turn)
}

/// f(n) = f(n - 1), n times.
pub fn tail(n: i32) -> Vec<u8> {
    let mut program = Program::new(&[1]);
    let number = program.number_type();
    let body = recursion(&mut program, |_, _, call| call);
    let (start, zero) = (program.number(n), program.number(0));
    let go = again(&mut program, 0, number, start);
    let root = knot(&mut program, 0, zero, body, go);
    program.image(&root)
}

/// f(n) = n + f(n - 1), so deep and so many times; each sum but the last is printed.
pub fn deep(n: i32, times: usize) -> Vec<u8> {
    let mut program = Program::new(&[1]);
    let number = program.number_type();
    let body = recursion(&mut program, |program, n, call| program.plus(n, call));
    let start = program.number(n);
    let mut all = again(&mut program, 0, number, start.clone());
    for _ in 1..times {
        let sum = again(&mut program, 0, number, start.clone());
        let print = program.print(sum);
        all = program.sequence(print, all);
    }
    let zero = program.number(0);
    let root = knot(&mut program, 0, zero, body, all);
    program.image(&root)
}
