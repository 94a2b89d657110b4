//! Random programs on which the engine of document 01 alone and the one with the cards of document 02 agree, by their
//! form: they have kinds of document 01 alone, in records of their exact lengths (cards 1, 3, 6, 7); one operand of every
//! sum is a number of at most 1,000, and nothing runs more often than there are terms, so that no sum comes near the ends
//! of the range (card 2); a label is named by one advice at most, which is installed once (card 8); and cells, labels,
//! advice, pieces and bindings stay below half of their rooms, so that none is ever lacking (cards 4, 5, 9). Where
//! prints are counted, each runs once at most.
use crate::random::Random;
use bukzarn::program::{Program, Shape, Term, Type};

/// The most that a term may add to a number.
const SMALL: usize = 1_000;
/// The most terms that take from a room: cells, labels, advice and pieces. The smallest half of a room is 32.
const TAKEN: usize = 30;
/// The deepest that terms are made freely; the image's limit is 64.
const DEEP: usize = 24;

/// A variable: its type, and what can be done with it.
#[derive(Clone, Copy, PartialEq)]
enum Variable {
    Number,
    Truth,
    Cell(u16),
    Label(u16),
}

/// Makes terms of asked types, at a domain, under variables, the outermost first.
pub struct Maker<'r> {
    program: Program,
    random: &'r mut Random,
    /// How many more terms may be made freely.
    fuel: usize,
    /// How many more prints there may be, if they are counted.
    prints: Option<usize>,
    taken: usize,
    /// Inside the body of an advice, which may run again and again.
    inside: bool,
    scope: Vec<Variable>,
}

/// The image of a random program, with so many prints at most if they are counted.
pub fn image(random: &mut Random, prints: Option<usize>) -> Vec<u8> {
    let masks = order(random);
    let fuel = random.between(3, 120);
    let program = Program::new(&masks);
    let mut maker = Maker { program, random, fuel, prints, taken: 0, inside: false, scope: vec![] };
    let root = maker.number(0, 1);
    maker.program.image(&root)
}

/// A random partial order of some domains, as masks: each is below some before it, and below what these are below.
fn order(random: &mut Random) -> Vec<u16> {
    let mut masks: Vec<u16> = vec![1];
    for d in 1..random.between(1, 4) {
        let above = (0..d).filter(|_| random.chance(70)).fold(1 << d, |mask, q| mask | masks[q]);
        masks.push(above);
    }
    masks
}

impl Maker<'_> {
    /// Whether a term with parts may be made at this depth.
    fn free(&mut self, depth: usize) -> bool {
        self.fuel = self.fuel.saturating_sub(1);
        self.fuel > 0 && depth < DEEP
    }

    /// Whether one more term may take from a room.
    fn take(&mut self) -> bool {
        let may = !self.inside && self.taken < TAKEN;
        self.taken += usize::from(may);
        may
    }

    fn domain_below(&mut self, at: u16) -> u16 {
        let below: Vec<u16> = (0..self.program.domains()).filter(|p| self.program.below(*p, at)).collect();
        self.random.pick(&below).unwrap_or(at)
    }

    /// The level of some variable that meets a test.
    fn level(&mut self, test: impl Fn(&Program, Variable) -> bool) -> Option<u16> {
        let fitting = |level: &u16| test(&self.program, self.scope[usize::from(*level)]);
        let levels: Vec<u16> = (0..self.scope.len() as u16).filter(fitting).collect();
        self.random.pick(&levels)
    }

    fn type_of(&mut self, variable: Variable) -> Type {
        let number = self.program.number_type();
        match variable {
            Variable::Number => number,
            Variable::Truth => self.program.truth_type(),
            Variable::Cell(p) => self.program.make(Shape::Reference(number, p)),
            Variable::Label(p) => self.program.make(Shape::Label(number, p)),
        }
    }

    fn variable(&mut self, level: u16) -> Term {
        let of = self.type_of(self.scope[usize::from(level)]);
        self.program.variable(of, level)
    }

    /// What is made under one variable more.
    fn under<T>(&mut self, variable: Variable, make: impl FnOnce(&mut Self) -> T) -> T {
        self.scope.push(variable);
        let made = make(self);
        self.scope.pop();
        made
    }

    fn small(&mut self) -> Term {
        let number = self.random.below(2 * SMALL + 1) as i32 - SMALL as i32;
        self.program.number(number)
    }

    /// A number that is a constant, a variable, or a byte of the frame, at a constant index that may be outside it.
    fn least_number(&mut self) -> Term {
        match (self.random.below(3), self.level(|_, v| v == Variable::Number)) {
            (0, Some(level)) => self.variable(level),
            (1, _) => {
                let index = self.small();
                self.program.frame_byte(index)
            }
            _ => self.small(),
        }
    }

    fn number(&mut self, at: u16, depth: usize) -> Term {
        if !self.free(depth) {
            return self.least_number();
        }
        match self.random.below(12) {
            0 | 1 => self.sum(at, depth),
            2 => self.choice(at, depth, Self::number),
            3 | 4 => self.sequence(at, depth, Self::number),
            5 => {
                let index = self.number(at, depth + 1);
                self.program.frame_byte(index)
            }
            6 => match self.level(|program, v| matches!(v, Variable::Cell(p) if program.below(at, p))) {
                Some(level) => {
                    let cell = self.variable(level);
                    self.program.read(cell)
                }
                None => self.least_number(),
            },
            7 if self.random.chance(10) => {
                let of = self.program.number_type();
                self.program.abort(of)
            }
            8 => self.split(at, depth, Self::number),
            _ => self.bound(at, depth, Self::number),
        }
    }

    fn sum(&mut self, at: u16, depth: usize) -> Term {
        let number = self.number(at, depth + 1);
        let small = self.small();
        if self.random.chance(50) {
            self.program.plus(number, small)
        } else {
            self.program.minus(number, small)
        }
    }

    fn truth(&mut self, at: u16, depth: usize) -> Term {
        if !self.free(depth) {
            let truth = self.random.chance(50);
            return self.program.truth(truth);
        }
        if let (true, Some(level)) = (self.random.chance(20), self.level(|_, v| v == Variable::Truth)) {
            return self.variable(level);
        }
        let (a, b) = (self.number(at, depth + 1), self.number(at, depth + 1));
        if self.random.chance(50) {
            self.program.less(a, b)
        } else {
            self.program.equal(a, b)
        }
    }

    fn unit(&mut self, at: u16, depth: usize) -> Term {
        if !self.free(depth) {
            return self.program.unit();
        }
        match self.random.below(10) {
            0 | 1 => self.print(at, depth),
            2 => self.choice(at, depth, Self::unit),
            3 => self.sequence(at, depth, Self::unit),
            4 => {
                let p = self.domain_below(at);
                let body = self.unit(p, depth + 1);
                self.program.lower(p, body)
            }
            5 | 6 => match self.level(|program, v| matches!(v, Variable::Cell(p) if program.below(p, at))) {
                Some(level) => {
                    let (cell, value) = (self.variable(level), self.number(at, depth + 1));
                    self.program.store(cell, value)
                }
                None => self.program.unit(),
            },
            7 | 8 => match self.level(|_, v| v == Variable::Label(at)) {
                Some(level) if !self.inside => {
                    let (label, value) = (self.variable(level), self.number(at, depth + 1));
                    self.program.mark(label, value)
                }
                _ => self.program.unit(),
            },
            _ => self.bound(at, depth, Self::unit),
        }
    }

    fn print(&mut self, at: u16, depth: usize) -> Term {
        match self.prints {
            Some(0) => return self.program.unit(),
            Some(_) if self.inside => return self.program.unit(),
            Some(left) => self.prints = Some(left - 1),
            None => {}
        }
        let number = self.number(at, depth + 1);
        self.program.print(number)
    }

    fn choice(&mut self, at: u16, depth: usize, make: fn(&mut Self, u16, usize) -> Term) -> Term {
        let test = self.truth(at, depth + 1);
        let (yes, no) = (make(self, at, depth + 1), make(self, at, depth + 1));
        self.program.choose(test, yes, no)
    }

    fn sequence(&mut self, at: u16, depth: usize, make: fn(&mut Self, u16, usize) -> Term) -> Term {
        let (first, second) = (self.unit(at, depth + 1), make(self, at, depth + 1));
        self.program.sequence(first, second)
    }

    /// A pair of numbers, split at once.
    fn split(&mut self, at: u16, depth: usize, make: fn(&mut Self, u16, usize) -> Term) -> Term {
        if !self.take() {
            return make(self, at, depth + 1);
        }
        let (first, second) = (self.number(at, depth + 2), self.number(at, depth + 2));
        let pair = self.program.pair(first, second);
        let body =
            self.under(Variable::Number, |maker| maker.under(Variable::Number, |maker| make(maker, at, depth + 1)));
        self.program.split(pair, body)
    }

    /// A term under a variable for a number, a truth, a new cell, or a new label that is watched.
    fn bound(&mut self, at: u16, depth: usize, make: fn(&mut Self, u16, usize) -> Term) -> Term {
        if self.inside || depth + 4 > DEEP {
            return make(self, at, depth + 1);
        }
        let number = self.program.number_type();
        let (value, variable) = match self.random.below(4) {
            0 if self.take() => {
                let p = self.domain_below(at);
                let held = self.number(at, depth + 2);
                (self.program.new_cell(p, held), Variable::Cell(p))
            }
            1 if self.take() => (self.program.new_label(number, at), Variable::Label(at)),
            2 => (self.truth(at, depth + 1), Variable::Truth),
            _ => (self.number(at, depth + 1), Variable::Number),
        };
        let body = self.under(variable, |maker| match variable {
            Variable::Label(_) => maker.watched(at, depth + 1, make),
            _ => make(maker, at, depth + 1),
        });
        self.program.bind(at, value, body)
    }

    /// The innermost variable is a label: an advice for it is installed, then it may be marked.
    fn watched(&mut self, at: u16, depth: usize, make: fn(&mut Self, u16, usize) -> Term) -> Term {
        if !self.take() || !self.take() {
            return make(self, at, depth);
        }
        let number = self.program.number_type();
        let label = self.variable(self.scope.len() as u16 - 1);
        let p = self.domain_below(at);
        let pointcut = self.program.pointcut(number, p, vec![label]);
        let q = self.domain_below(p);
        self.inside = true;
        let body = self.under(Variable::Number, |maker| maker.unit(q, depth + 3));
        self.inside = false;
        let advice = self.program.advice(q, pointcut, body);
        let (install, rest) = (self.program.install(advice), make(self, at, depth + 1));
        self.program.sequence(install, rest)
    }
}
