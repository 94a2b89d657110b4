//! Random whole images: well-typed, looped, damaged.
use crate::counted;
use crate::damage;
use crate::generate::Maker;
use crate::random::Random;
use crate::stack_images;
use crate::takedowns;
use crate::watched;
use bukzarn::program::{Shape, Term, Type};

/// A random image; some have longer records than their kinds need, and a third are damaged.
pub fn image(random: &mut Random) -> Vec<u8> {
    let mut image = match random.below(12) {
        0 | 1 => looped(random, knot),
        2 => looped(random, object_knot),
        3 | 4 => watched::image(random),
        5 | 6 => stack_images::image(random),
        7 | 8 => counted::image(random),
        _ => straight(random),
    };
    if random.chance(20) {
        damage::lengthen(random, &mut image, &damage::EXACT);
    }
    if random.chance(33) {
        damage::damage(random, &mut image);
    }
    image
}

/// Labels and cells bound around a random body.
fn straight(random: &mut Random) -> Vec<u8> {
    let fuel = [5, 20, 60, 150, 400, 1000][random.below(6)];
    let deepest = if random.chance(10) { 80 } else { 30 };
    let depth = random.between(4, deepest);
    let mut maker = Maker::new(random, fuel);
    let root = bound(&mut maker, |maker, scope| {
        let of = result_type(maker);
        maker.term(of, 0, scope, depth)
    });
    maker.program.image(&root)
}

/// A plain type; rarely any.
fn result_type(maker: &mut Maker) -> Type {
    loop {
        let of = maker.any_type(2);
        if maker.program.is_plain(of) || maker.random.chance(2) {
            return of;
        }
    }
}

/// Some labels and cells, each bound outside of the next, and the body inside them.
fn bound(maker: &mut Maker, body: impl FnOnce(&mut Maker, &[Type]) -> Term) -> Term {
    let mut scope = vec![];
    let mut values = vec![];
    for _ in 0..maker.random.below(6) {
        let p = maker.domain_below(0);
        let a = maker.type_at(0, 1);
        let value = match maker.random.chance(60) {
            true => maker.program.new_label(a, p),
            false => {
                let first = maker.smallest(a, 0, &scope);
                maker.program.new_cell(p, first)
            }
        };
        scope.push(value.of());
        values.push(value);
    }
    let body = body(maker, &scope);
    values.into_iter().rev().fold(body, |body, value| maker.program.bind(0, value, body))
}

/// How often a loop turns: a little, about a limit of room, or any number.
pub fn turns(random: &mut Random) -> usize {
    match random.below(4) {
        0 => random.below(20),
        1 => [63, 64, 65, 127, 128, 129, 255, 256, 257, 1022, 1023, 1024][random.below(12)],
        _ => random.below(1300),
    }
}

/// A number by turns of a loop, under labels and cells. A loop at another domain than 0, which takes the room of the
/// other half, is lowered, and its number is printed.
fn looped(random: &mut Random, knot: impl Fn(&mut Maker, u16, &[Type], usize) -> Term) -> Vec<u8> {
    let turns = turns(random);
    let fuel = random.between(5, 60);
    let mut maker = Maker::new(random, fuel);
    let root = bound(&mut maker, |maker, scope| {
        let at = if maker.random.chance(50) { 0 } else { maker.domain_below(0) };
        let number = knot(maker, at, scope, turns);
        if at == 0 {
            return number;
        }
        let print = maker.program.print(number);
        let low = maker.program.lower(at, print);
        let of = maker.program.number_type();
        let end = maker.term(of, 0, scope, 4);
        maker.program.sequence(low, end)
    });
    maker.program.image(&root)
}

/// A number at a domain, by so many turns of a function that calls itself through a cell, from n down to 0. The cell of
/// the knot is the next variable, its argument the one after.
pub fn knot(maker: &mut Maker, at: u16, scope: &[Type], turns: usize) -> Term {
    let number = maker.program.number_type();
    let function = maker.program.make(Shape::Function(number, at, number));
    let cell = maker.program.make(Shape::Reference(function, at));
    let level = scope.len() as u16;
    let inner = [scope, &[cell, number]].concat();
    let cell_here = maker.program.variable(cell, level);
    let argument = maker.program.variable(number, level + 1);
    let end = maker.term(number, at, &inner, 6);
    let read = maker.program.read(cell_here.clone());
    let next = turn(maker, at, &read, &argument, &inner);
    let one = maker.program.number(1);
    let test = maker.program.less(argument, one);
    let body = maker.program.choose(test, end, next);
    let body = maker.program.function(number, at, body);
    let tie = maker.program.store(cell_here.clone(), body);
    let start = maker.program.number(turns as i32);
    let go = maker.program.apply(read, start);
    let tied = maker.program.sequence(tie, go);
    let zero = maker.program.number(0);
    let first = maker.program.function(number, at, zero);
    let first = maker.program.new_cell(at, first);
    maker.program.bind(at, first, tied)
}

/// The same by an object whose method gives the function: a call and an apply are a turn. The object stands in scope,
/// and the method's body has it as itself.
fn object_knot(maker: &mut Maker, at: u16, scope: &[Type], turns: usize) -> Term {
    let number = maker.program.number_type();
    let function = maker.program.make(Shape::Function(number, at, number));
    let object = maker.program.make(Shape::Object(vec![(at, number), (at, function)]));
    let level = scope.len() as u16;
    let inner = [scope, &[object, number]].concat();
    let itself = maker.program.variable(object, level);
    let argument = maker.program.variable(number, level + 1);
    let end = maker.term(number, at, &inner, 6);
    let again = maker.program.call(itself.clone(), 1);
    let next = turn(maker, at, &again, &argument, &inner);
    let one = maker.program.number(1);
    let test = maker.program.less(argument, one);
    let body = maker.program.choose(test, end, next);
    let body = maker.program.function(number, at, body);
    let other = maker.term(number, at, &[scope, &[object]].concat(), 4);
    let made = maker.program.object(object, vec![other, body]);
    let start = maker.program.number(turns as i32);
    let call = maker.program.call(itself, 1);
    let go = maker.program.apply(call, start);
    maker.program.bind(at, made, go)
}

/// One turn of a knot: a random statement, a mark, or one that takes room, then the call for one less, last or inside
/// a sum.
fn turn(maker: &mut Maker, at: u16, function: &Term, argument: &Term, scope: &[Type]) -> Term {
    let one = maker.program.number(1);
    let less = maker.program.minus(argument.clone(), one);
    let call = maker.program.apply(function.clone(), less);
    let call = match maker.random.chance(30) {
        true => maker.program.plus(argument.clone(), call),
        false => call,
    };
    let statement = match maker.random.below(10) {
        0..=3 => maker.statement(at, scope, 8),
        4..=6 => watched::mark(maker, at, scope),
        _ => take_room(maker, at, argument, scope),
    };
    maker.program.sequence(statement, call)
}

/// A statement that takes room each time: a cell, a label, a piece, installed advice, a record of log, or a stack.
fn take_room(maker: &mut Maker, at: u16, argument: &Term, scope: &[Type]) -> Term {
    let number = maker.program.number_type();
    let p = maker.domain_below(at);
    let value = match maker.random.below(6) {
        0 => maker.program.new_cell(p, argument.clone()),
        1 => maker.program.new_label(number, p),
        2 => maker.program.pair(argument.clone(), argument.clone()),
        3 => takedowns::install_again(maker, at, argument, scope),
        4 => maker.program.stack(),
        _ => maker.program.print(argument.clone()),
    };
    let unit = maker.program.unit();
    match maker.program.shape(value.of()) {
        Shape::Unit => value,
        Shape::Pair(..) => maker.program.split(value, unit),
        _ => maker.program.bind(at, value, unit),
    }
}
