//! Random programs with watches: labels and cells, advice installed on the labels, then marks.
use crate::generate::Maker;
use crate::images::{knot, turns};
use crate::random::Random;
use bukzarn::program::{Program, Shape, Term, Type};

pub fn image(random: &mut Random) -> Vec<u8> {
    let fuel = random.between(20, 200);
    let mut maker = Maker::new(random, fuel);
    let number = maker.program.number_type();
    let values = [number, maker.type_at(0, 1)];
    let mut bound: Vec<Term> = vec![];
    for _ in 0..maker.random.between(1, 3) {
        // Labels of the mainline can be marked by it, others only inside a lower.
        let p = if maker.random.chance(70) { 0 } else { maker.domain_below(0) };
        let a = values[maker.random.below(2)];
        bound.push(maker.program.new_label(a, p));
    }
    for _ in 0..maker.random.below(4) {
        let p = maker.domain_below(0);
        let first = maker.constant();
        bound.push(maker.program.new_cell(p, first));
    }
    let scope: Vec<Type> = bound.iter().map(Term::of).collect();
    let body = body(&mut maker, &scope);
    let root = bound.into_iter().rev().fold(body, |body, value| maker.program.bind(0, value, body));
    maker.program.image(&root)
}

/// Installs, marks and other statements, in sequence, and a number at the end.
fn body(maker: &mut Maker, scope: &[Type]) -> Term {
    let number = maker.program.number_type();
    let mut statements: Vec<Term> = vec![];
    for _ in 0..maker.random.between(1, 8) {
        let p = maker.domain_below(0);
        statements.push(install(maker, p, scope));
        if maker.random.chance(25) {
            statements.push(maker.statement(0, scope, 5));
        }
    }
    for _ in 0..maker.random.between(1, 4) {
        let p = maker.domain_below(0);
        let mark = mark(maker, p, scope);
        statements.push(maker.program.lower(p, mark));
        let direct = self::mark(maker, 0, scope);
        statements.push(direct);
        if maker.random.chance(20) {
            statements.push(maker.takedown(0));
        }
    }
    let end = match maker.random.chance(30) {
        true => {
            let turns = turns(maker.random);
            knot(maker, 0, scope, turns)
        }
        false => maker.term(number, 0, scope, 4),
    };
    statements.into_iter().rev().fold(end, |rest, statement| maker.program.sequence(statement, rest))
}

/// Installs advice of domain p on some of the labels that it may watch.
fn install(maker: &mut Maker, p: u16, scope: &[Type]) -> Term {
    let label = maker.variable(scope, move |q, t| matches!(q.shape(t), Shape::Label(_, d) if q.below(p, d)));
    let Some(Shape::Label(a, _)) = label.map(|label| maker.program.shape(label.of())) else {
        return maker.program.unit();
    };
    let fits = move |q: &Program, t: Type| matches!(q.shape(t), Shape::Label(b, d) if a == b && q.below(p, d));
    let count = if maker.random.chance(10) { 8 } else { maker.random.between(1, 3) };
    let labels: Vec<Term> = (0..count).filter_map(|_| maker.variable(scope, fits)).collect();
    let pointcut = maker.program.pointcut(a, p, labels);
    let inner = [scope, &[a]].concat();
    let first = maker.statement(p, &inner, 6);
    let number = maker.program.number_type();
    let printed = maker.term(number, p, &inner, 3);
    let print = maker.program.print(printed);
    let mut body = maker.program.sequence(first, print);
    if maker.random.chance(15) {
        let down = maker.takedown(p);
        body = maker.program.sequence(down, body);
    }
    let advice = maker.program.advice(p, pointcut, body);
    maker.program.install(advice)
}

/// Marks one of the labels of domain p.
pub fn mark(maker: &mut Maker, p: u16, scope: &[Type]) -> Term {
    let label = maker.variable(scope, move |q, t| matches!(q.shape(t), Shape::Label(_, d) if d == p));
    let Some(label) = label else { return maker.program.unit() };
    let Shape::Label(a, _) = maker.program.shape(label.of()) else { return maker.program.unit() };
    let value = maker.term(a, p, scope, 3);
    maker.program.mark(label, value)
}
