//! Random programs that follow the typing and domain rules.
use crate::random::Random;
use bukzarn::program::{Program, Shape, Term, Type};

/// Makes terms of asked types, at a domain, under the variables of a scope (their types, the outermost first).
pub struct Maker<'r> {
    pub program: Program,
    pub random: &'r mut Random,
    /// How many more terms may be made freely; past it only the smallest are.
    pub fuel: usize,
    pub class: Class,
}

/// Which programs are made: any; or those whose needs can be told without a run (document 02, card 10), outside the
/// bodies of advice or inside one.
#[derive(Clone, Copy, PartialEq, Eq)]
pub enum Class {
    Any,
    Counted,
    CountedBody,
}

/// The numbers of an object type's methods with this domain and this type; none of another type.
fn fitting(program: &Program, object: Type, wanted: (u16, Type)) -> Vec<u16> {
    let Shape::Object(methods) = program.shape(object) else { return vec![] };
    (0..methods.len() as u16).filter(|m| methods[usize::from(*m)] == wanted).collect()
}

/// A random partial order of so many domains, as masks.
fn order(random: &mut Random, domains: usize) -> Vec<u16> {
    let mut masks: Vec<u16> = (0..domains).map(|d| 1 << d).collect();
    let top_first = random.chance(80);
    let density = random.between(20, 100);
    // Upwards from the highest rank, so that what is above is complete when it is taken over.
    let rank = |d: usize| if top_first { d } else { domains - 1 - d };
    for d in (0..domains).map(rank).collect::<Vec<_>>() {
        for q in (0..domains).filter(|q| rank(*q) < rank(d)) {
            if random.chance(density) {
                masks[d] |= masks[q];
            }
        }
    }
    masks
}

impl<'r> Maker<'r> {
    pub fn new(random: &'r mut Random, fuel: usize) -> Maker<'r> {
        let domains = if random.chance(5) { 16 } else { random.between(1, 4) };
        let program = Program::new(&order(random, domains));
        Maker { program, random, fuel, class: Class::Any }
    }

    /// A domain that meets a test.
    pub fn domain(&mut self, test: impl Fn(&Program, u16) -> bool) -> Option<u16> {
        let good: Vec<u16> = (0..self.program.domains()).filter(|p| test(&self.program, *p)).collect();
        self.random.pick(&good)
    }

    /// A domain at or below another.
    pub fn domain_below(&mut self, at: u16) -> u16 {
        self.domain(|program, p| program.below(p, at)).unwrap_or(at)
    }

    fn any_domain(&mut self) -> u16 {
        self.domain(|_, _| true).unwrap_or(0)
    }

    /// A random type; those with many parts are rare, and few are new once there are many.
    pub fn any_type(&mut self, depth: usize) -> Type {
        let known: Vec<Type> = self.program.types().collect();
        if known.len() > 100 || (!known.is_empty() && self.random.chance(40)) {
            return known[self.random.below(known.len())];
        }
        let choice = if depth == 0 { self.random.below(3) } else { self.random.below(15) };
        let shape = match choice {
            0 => Shape::Unit,
            1 => Shape::Truth,
            3 | 4 => Shape::Pair(self.any_type(depth - 1), self.any_type(depth - 1)),
            5 => Shape::Function(self.any_type(depth - 1), self.any_domain(), self.any_type(depth - 1)),
            6 => Shape::Reference(self.any_type(depth - 1), self.any_domain()),
            7 => Shape::Label(self.any_type(depth - 1), self.any_domain()),
            8 => Shape::Pointcut(self.any_type(depth - 1), self.any_domain()),
            9 => Shape::Advice(self.any_domain()),
            10 | 11 => Shape::Object(self.methods(depth)),
            12 => Shape::Stack,
            _ => Shape::Number,
        };
        self.program.make(shape)
    }

    /// Methods of an object: mostly few, as their bodies' sizes add up; those of one with many give unit or number.
    fn methods(&mut self, depth: usize) -> Vec<(u16, Type)> {
        let many = self.random.chance(10);
        let count = if many { self.random.between(4, 8) } else { self.random.between(1, 3) };
        let mut methods = vec![];
        for _ in 0..count {
            let of = match (many, self.random.below(3)) {
                (false, _) => self.any_type(depth - 1),
                (true, 0) => self.program.unit_type(),
                (true, _) => self.program.number_type(),
            };
            methods.push((self.any_domain(), of));
        }
        methods
    }

    /// A variable whose type meets a test.
    pub fn variable(&mut self, scope: &[Type], test: impl Fn(&Program, Type) -> bool) -> Option<Term> {
        let good: Vec<usize> = (0..scope.len()).filter(|i| test(&self.program, scope[*i])).collect();
        let level = self.random.pick(&good)?;
        Some(self.program.variable(scope[level], level as u16))
    }

    /// A term of a type at a domain.
    pub fn term(&mut self, of: Type, at: u16, scope: &[Type], depth: usize) -> Term {
        if self.fuel == 0 || depth == 0 {
            return self.smallest(of, at, scope);
        }
        self.fuel -= 1;
        match self.random.below(100) {
            0..=29 => match self.variable(scope, |_, t| t == of) {
                Some(variable) => variable,
                None => self.made(of, at, scope, depth),
            },
            30..=37 => {
                let first = self.statement(at, scope, depth - 1);
                let second = self.term(of, at, scope, depth - 1);
                self.program.sequence(first, second)
            }
            38..=42 => self.choice(of, at, scope, depth),
            43..=47 => self.splitting(of, at, scope, depth),
            48..=55 if self.class == Class::Any => self.application(of, at, scope, depth),
            56..=61 if self.class == Class::Any => self.calling(of, at, scope, depth),
            62..=66 => self.reading(of, at, scope, depth),
            67..=70 => self.keeping(of, at, scope, depth),
            71..=74 => self.matching(of, at, scope, depth),
            75 if self.random.chance(10) => self.program.abort(of),
            _ => self.made(of, at, scope, depth),
        }
    }

    fn choice(&mut self, of: Type, at: u16, scope: &[Type], depth: usize) -> Term {
        let truth = self.program.truth_type();
        let test = self.term(truth, at, scope, depth - 1);
        let yes = self.term(of, at, scope, depth - 1);
        let no = self.term(of, at, scope, depth - 1);
        self.program.choose(test, yes, no)
    }

    fn splitting(&mut self, of: Type, at: u16, scope: &[Type], depth: usize) -> Term {
        let (a, b) = (self.type_at(at, 1), self.type_at(at, 1));
        let pair = self.program.make(Shape::Pair(a, b));
        let pair = self.term(pair, at, scope, depth - 1);
        let body = self.term(of, at, &[scope, &[a, b]].concat(), depth - 1);
        self.program.split(pair, body)
    }

    fn application(&mut self, of: Type, at: u16, scope: &[Type], depth: usize) -> Term {
        let fits = move |p: &Program, t: Type| matches!(p.shape(t), Shape::Function(_, q, b) if q == at && b == of);
        let known = if self.random.chance(50) { self.variable(scope, fits) } else { None };
        let function = known.unwrap_or_else(|| {
            let from = self.type_at(at, 2);
            let function = self.program.make(Shape::Function(from, at, of));
            self.term(function, at, scope, depth - 1)
        });
        let Shape::Function(from, ..) = self.program.shape(function.of()) else { unreachable!() };
        let argument = self.term(from, at, scope, depth - 1);
        self.program.apply(function, argument)
    }

    /// A call of a method of the current domain, of an object in scope (maybe the one that is being made) or a new one.
    fn calling(&mut self, of: Type, at: u16, scope: &[Type], depth: usize) -> Term {
        let known = if self.random.chance(50) {
            self.variable(scope, move |p, t| !fitting(p, t, (at, of)).is_empty())
        } else {
            None
        };
        let object = known.unwrap_or_else(|| {
            let mut methods = if self.random.chance(70) { vec![] } else { self.methods(1) };
            methods.truncate(7);
            methods.insert(self.random.below(methods.len() + 1), (at, of));
            let object = self.program.make(Shape::Object(methods));
            self.term(object, at, scope, depth - 1)
        });
        let methods = fitting(&self.program, object.of(), (at, of));
        let method = methods[self.random.below(methods.len())];
        self.program.call(object, method)
    }

    fn reading(&mut self, of: Type, at: u16, scope: &[Type], depth: usize) -> Term {
        let fits =
            move |p: &Program, t: Type| matches!(p.shape(t), Shape::Reference(a, q) if a == of && p.below(at, q));
        if let Some(cell) = self.variable(scope, fits) {
            return self.program.read(cell);
        }
        let cell = self.program.make(Shape::Reference(of, at));
        let cell = self.term(cell, at, scope, depth - 1);
        self.program.read(cell)
    }

    /// The smallest term of a type: a variable, a value made at once, or abort where none can be made at the domain.
    pub fn smallest(&mut self, of: Type, at: u16, scope: &[Type]) -> Term {
        if let Some(variable) = self.variable(scope, |_, t| t == of) {
            return variable;
        }
        match self.program.shape(of) {
            Shape::Unit => self.program.unit(),
            Shape::Truth => {
                let truth = self.random.chance(50);
                self.program.truth(truth)
            }
            Shape::Number => self.constant(),
            Shape::Pair(a, b) => {
                let (a, b) = (self.smallest(a, at, scope), self.smallest(b, at, scope));
                self.program.pair(a, b)
            }
            Shape::Function(a, p, b) => {
                let body = self.smallest(b, p, &[scope, &[a]].concat());
                self.program.function(a, p, body)
            }
            Shape::Reference(a, p) if self.program.below(p, at) => {
                let value = self.smallest(a, at, scope);
                self.program.new_cell(p, value)
            }
            Shape::Label(a, p) if self.program.below(p, at) => self.program.new_label(a, p),
            Shape::Pointcut(a, p) => self.program.pointcut(a, p, vec![]),
            Shape::Advice(p) => {
                let number = self.program.number_type();
                let (pointcut, body) = (self.program.pointcut(number, p, vec![]), self.program.unit());
                self.program.advice(p, pointcut, body)
            }
            Shape::Object(methods) => {
                let inner = [scope, &[of]].concat();
                let bodies = methods.into_iter().map(|(p, of)| self.smallest(of, p, &inner)).collect();
                self.program.object(of, bodies)
            }
            Shape::Stack => self.program.stack(),
            Shape::Reference(..) | Shape::Label(..) => self.program.abort(of),
        }
    }

    /// Can a value of this type be made at a domain without abort?
    fn can_be_made(&self, of: Type, at: u16) -> bool {
        match self.program.shape(of) {
            Shape::Pair(a, b) => self.can_be_made(a, at) && self.can_be_made(b, at),
            Shape::Reference(a, p) => self.program.below(p, at) && self.can_be_made(a, at),
            Shape::Label(_, p) => self.program.below(p, at),
            _ => true,
        }
    }

    /// A random type; mostly one whose values can be made at a domain.
    pub fn type_at(&mut self, at: u16, depth: usize) -> Type {
        let mut of = self.any_type(depth);
        while !self.can_be_made(of, at) && self.random.chance(95) {
            of = self.any_type(depth);
        }
        of
    }

    /// A number: small, at an end of the range, or any.
    pub fn constant(&mut self) -> Term {
        let any = self.random.bits() as i32;
        let small = self.random.below(300) as i32 - 20;
        let ends = [i32::MIN, i32::MAX, -1, 0, 1];
        let n = match self.random.below(10) {
            0 => any,
            1 | 2 => ends[self.random.below(ends.len())],
            _ => small,
        };
        self.program.number(n)
    }
}
