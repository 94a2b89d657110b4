//! Random terms that make a value of an asked type, and statements.
use crate::generate::{Class, Maker};
use bukzarn::program::{Program, Shape, Term, Type};

impl Maker<'_> {
    /// A term that makes a value of a type.
    pub fn made(&mut self, of: Type, at: u16, scope: &[Type], depth: usize) -> Term {
        match self.program.shape(of) {
            Shape::Unit => self.statement(at, scope, depth),
            Shape::Truth | Shape::Number => self.arithmetic(of, at, scope, depth),
            Shape::Pair(a, b) => {
                let first = self.term(a, at, scope, depth - 1);
                let second = self.term(b, at, scope, depth - 1);
                self.program.pair(first, second)
            }
            Shape::Function(a, p, b) => {
                let body = self.term(b, p, &[scope, &[a]].concat(), depth - 1);
                self.program.function(a, p, body)
            }
            Shape::Reference(a, p) if self.program.below(p, at) => {
                let value = self.term(a, at, scope, depth - 1);
                self.program.new_cell(p, value)
            }
            Shape::Pointcut(a, p) => self.pointcut(a, p, at, scope, depth),
            Shape::Advice(p) => self.advice(p, at, scope, depth),
            Shape::Object(methods) => {
                let inner = [scope, &[of]].concat();
                let bodies = methods.into_iter().map(|(p, of)| self.term(of, p, &inner, depth - 1)).collect();
                self.program.object(of, bodies)
            }
            Shape::Stack if self.random.chance(30) => self.matching(of, at, scope, depth),
            _ => self.smallest(of, at, scope),
        }
    }

    fn arithmetic(&mut self, of: Type, at: u16, scope: &[Type], depth: usize) -> Term {
        if self.random.chance(40) {
            return self.smallest(of, at, scope);
        }
        let number = self.program.number_type();
        let a = self.term(number, at, scope, depth - 1);
        if of == number && self.random.chance(30) {
            return self.program.frame_byte(a);
        }
        let b = self.term(number, at, scope, depth - 1);
        match (of == number, self.random.chance(50)) {
            (true, true) => self.program.plus(a, b),
            (true, false) => self.program.minus(a, b),
            (false, true) => self.program.less(a, b),
            (false, false) => self.program.equal(a, b),
        }
    }

    fn pointcut(&mut self, a: Type, p: u16, at: u16, scope: &[Type], depth: usize) -> Term {
        let fits = move |q: &Program, t: Type| matches!(q.shape(t), Shape::Label(b, d) if b == a && q.below(p, d));
        let count = if self.random.chance(10) { self.random.below(9) } else { self.random.below(3) };
        let mut labels = vec![];
        for _ in 0..count {
            let label = match self.variable(scope, fits) {
                Some(variable) => variable,
                None => {
                    let d = self.domain(|program, d| program.below(p, d)).unwrap_or(p);
                    let label = self.program.make(Shape::Label(a, d));
                    self.term(label, at, scope, depth - 1)
                }
            };
            labels.push(label);
        }
        self.program.pointcut(a, p, labels)
    }

    fn advice(&mut self, p: u16, at: u16, scope: &[Type], depth: usize) -> Term {
        // Advice over the labels in scope is the advice that a mark may find.
        let label = self.variable(scope, move |q, t| matches!(q.shape(t), Shape::Label(_, d) if q.below(p, d)));
        let a = match label.map(|label| self.program.shape(label.of())) {
            Some(Shape::Label(a, _)) => a,
            _ => self.type_at(at, 1),
        };
        let q = self.domain(|program, q| program.below(p, q)).unwrap_or(p);
        let pointcut = self.program.make(Shape::Pointcut(a, if self.random.chance(60) { p } else { q }));
        let pointcut = self.term(pointcut, at, scope, depth - 1);
        let outside = self.class;
        if outside == Class::Counted {
            self.class = Class::CountedBody;
        }
        let body = self.statement(p, &[scope, &[a]].concat(), depth - 1);
        self.class = outside;
        self.program.advice(p, pointcut, body)
    }

    /// Installs advice of a domain; in a program that is counted, advice that stands right there.
    fn installing(&mut self, at: u16, scope: &[Type], depth: usize) -> Term {
        let p = self.domain_below(at);
        let advice = match self.class {
            Class::Any => {
                let advice = self.program.make(Shape::Advice(p));
                self.term(advice, at, scope, depth - 1)
            }
            _ => self.advice(p, at, scope, depth - 1),
        };
        self.program.install(advice)
    }

    /// A term of type unit that does something.
    pub fn statement(&mut self, at: u16, scope: &[Type], depth: usize) -> Term {
        if self.fuel == 0 || depth < 2 {
            return self.program.unit();
        }
        self.fuel -= 1;
        match self.random.below(13) {
            0 => self.program.unit(),
            1..=3 => {
                let number = self.program.number_type();
                let number = self.term(number, at, scope, depth - 1);
                self.program.print(number)
            }
            4 | 5 if self.class != Class::CountedBody => self.marking(at, scope, depth),
            6 | 7 if self.class != Class::CountedBody => self.installing(at, scope, depth),
            8 | 9 => self.storing(at, scope, depth),
            10 => {
                let p = self.domain_below(at);
                let body = self.statement(p, scope, depth - 1);
                self.program.lower(p, body)
            }
            11 => self.takedown(at),
            _ => {
                let first = self.statement(at, scope, depth - 1);
                let second = self.statement(at, scope, depth - 1);
                self.program.sequence(first, second)
            }
        }
    }

    fn marking(&mut self, at: u16, scope: &[Type], depth: usize) -> Term {
        let known = self.variable(scope, move |q, t| matches!(q.shape(t), Shape::Label(_, d) if d == at));
        let label = known.unwrap_or_else(|| {
            let a = self.type_at(at, 1);
            let label = self.program.make(Shape::Label(a, at));
            self.term(label, at, scope, depth - 1)
        });
        let Shape::Label(a, _) = self.program.shape(label.of()) else { unreachable!() };
        let value = self.term(a, at, scope, depth - 1);
        self.program.mark(label, value)
    }

    fn storing(&mut self, at: u16, scope: &[Type], depth: usize) -> Term {
        let known = self.variable(scope, move |q, t| matches!(q.shape(t), Shape::Reference(_, d) if q.below(d, at)));
        let cell = known.unwrap_or_else(|| {
            let (a, p) = (self.type_at(at, 1), self.domain_below(at));
            let cell = self.program.make(Shape::Reference(a, p));
            self.term(cell, at, scope, depth - 1)
        });
        let Shape::Reference(a, _) = self.program.shape(cell.of()) else { unreachable!() };
        let value = self.term(a, at, scope, depth - 1);
        self.program.store(cell, value)
    }
}
