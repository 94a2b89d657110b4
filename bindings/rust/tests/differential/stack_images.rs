//! Random terms with keeps and matches (document 02, card 6), and programs in which many matches fit.
use crate::generate::Maker;
use crate::images::{knot, turns};
use crate::random::Random;
use crate::watched;
use bukzarn::program::{Close, Entry, Program, Shape, Term, Type};

/// Is a type that of a label of domain `at`?
fn label_at(at: u16) -> impl Fn(&Program, Type) -> bool {
    move |program, of| matches!(program.shape(of), Shape::Label(_, d) if d == at)
}

impl Maker<'_> {
    /// A keep around a term of a type, under a label of the current domain.
    pub fn keeping(&mut self, of: Type, at: u16, scope: &[Type], depth: usize) -> Term {
        let body = self.term(of, at, scope, depth - 1);
        self.keep(body, at, scope, depth)
    }

    fn keep(&mut self, body: Term, at: u16, scope: &[Type], depth: usize) -> Term {
        let label = self.variable(scope, label_at(at)).unwrap_or_else(|| {
            let a = self.type_at(at, 1);
            let label = self.program.make(Shape::Label(a, at));
            self.term(label, at, scope, depth - 1)
        });
        let Shape::Label(a, _) = self.program.shape(label.of()) else { unreachable!() };
        let value = self.term(a, at, scope, depth - 1);
        self.program.keep(label, value, body)
    }

    /// A match of a stack: the current one, one in scope, or any.
    pub fn matching(&mut self, of: Type, at: u16, scope: &[Type], depth: usize) -> Term {
        let stack_type = self.program.stack_type();
        let stack = match self.random.chance(60) {
            true => self.program.stack(),
            false => self.term(stack_type, at, scope, depth - 1),
        };
        let count = if self.random.chance(5) { self.random.below(9) } else { self.random.below(4) };
        let entries: Vec<Entry> = (0..count).map(|_| self.entry(at, scope, depth)).collect();
        let close = if self.random.chance(60) { Close::Rest } else { Close::Empty };
        let mut inner = scope.to_vec();
        inner.extend(entries.iter().filter_map(|entry| value_of(&self.program, entry)));
        inner.extend((close == Close::Rest).then_some(stack_type));
        let yes = self.term(of, at, &inner, depth - 1);
        let no = self.term(of, at, scope, depth - 1);
        self.program.match_stack(stack, entries, close, yes, no)
    }

    /// Anything, or a pointcut: mostly one of labels in scope, which a kept value may be under.
    fn entry(&mut self, at: u16, scope: &[Type], depth: usize) -> Entry {
        if self.random.chance(25) {
            return Entry::Anything;
        }
        let label = self.variable(scope, |program, of| matches!(program.shape(of), Shape::Label(..)));
        let (a, p) = match label.as_ref().map(|label| self.program.shape(label.of())) {
            Some(Shape::Label(a, p)) => (a, p),
            _ => (self.type_at(at, 1), at),
        };
        if self.random.chance(30) {
            let pointcut = self.program.make(Shape::Pointcut(a, p));
            return Entry::Under(self.term(pointcut, at, scope, depth - 1));
        }
        let fits = move |program: &Program, of: Type| program.shape(of) == Shape::Label(a, p);
        let others = (0..self.random.below(3)).filter_map(|_| self.variable(scope, fits)).collect::<Vec<_>>();
        let labels = label.into_iter().chain(others).collect();
        Entry::Under(self.program.pointcut(a, p, labels))
    }
}

/// The type of the value that an entry binds.
fn value_of(program: &Program, entry: &Entry) -> Option<Type> {
    let Entry::Under(pointcut) = entry else { return None };
    let Shape::Pointcut(a, _) = program.shape(pointcut.of()) else { unreachable!() };
    Some(a)
}

/// Labels, maybe a watch on them, then keeps around matches, or around a loop in which there are some.
pub fn image(random: &mut Random) -> Vec<u8> {
    let fuel = random.between(10, 120);
    let mut maker = Maker::new(random, fuel);
    let number = maker.program.number_type();
    let other = maker.type_at(0, 1);
    let mut bound: Vec<Term> = vec![];
    for _ in 0..maker.random.between(1, 3) {
        let a = if maker.random.chance(70) { number } else { other };
        bound.push(maker.program.new_label(a, 0));
    }
    let scope: Vec<Type> = bound.iter().map(Term::of).collect();
    let body = body(&mut maker, &scope);
    let root = bound.into_iter().rev().fold(body, |body, value| maker.program.bind(0, value, body));
    maker.program.image(&root)
}

fn body(maker: &mut Maker, scope: &[Type]) -> Term {
    let number = maker.program.number_type();
    let matched = match maker.random.chance(30) {
        true => {
            let turns = turns(maker.random);
            knot(maker, 0, scope, turns)
        }
        false => maker.matching(number, 0, scope, 5),
    };
    let mark = watched::mark(maker, 0, scope);
    let mut body = maker.program.sequence(mark, matched);
    for _ in 0..maker.random.below(5) {
        body = maker.keep(body, 0, scope, 3);
        if maker.random.chance(40) {
            let first = watched::mark(maker, 0, scope);
            body = maker.program.sequence(first, body);
        }
    }
    let p = maker.domain_below(0);
    let watch = install(maker, p, scope);
    maker.program.sequence(watch, body)
}

/// Installs advice whose body asks what is kept around the mark.
fn install(maker: &mut Maker, p: u16, scope: &[Type]) -> Term {
    let fits =
        move |program: &Program, of: Type| matches!(program.shape(of), Shape::Label(_, d) if program.below(p, d));
    let Some(label) = maker.variable(scope, fits) else { return maker.program.unit() };
    let Shape::Label(a, _) = maker.program.shape(label.of()) else { unreachable!() };
    let pointcut = maker.program.pointcut(a, p, vec![label]);
    let number = maker.program.number_type();
    let found = maker.matching(number, p, &[scope, &[a]].concat(), 5);
    let print = maker.program.print(found);
    let advice = maker.program.advice(p, pointcut, print);
    maker.program.install(advice)
}
