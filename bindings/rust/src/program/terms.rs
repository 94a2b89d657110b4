//! Terms of a program, each with the type that its parts ask for.
use super::{Close, Entry, Field, Program, Shape, Term, Type};

/// A term of this kind and type over these children.
fn over<const N: usize>(kind: u16, of: Type, children: [Term; N]) -> Term {
    Term { kind, of, fields: children.into_iter().map(Field::Child).collect() }
}

impl Program {
    /// Unit.
    pub fn unit(&mut self) -> Term {
        over(32, self.unit_type(), [])
    }

    /// A truth.
    pub fn truth(&mut self, truth: bool) -> Term {
        Term { kind: 33, of: self.truth_type(), fields: vec![Field::Word(truth.into())] }
    }

    /// A number.
    pub fn number(&mut self, number: i32) -> Term {
        Term { kind: 34, of: self.number_type(), fields: vec![Field::Number(number)] }
    }

    /// The variable of this level, the outermost being 0.
    pub fn variable(&self, of: Type, level: u16) -> Term {
        Term { kind: 35, of, fields: vec![Field::Level(level)] }
    }

    /// `first`, then `second`.
    pub fn sequence(&self, first: Term, second: Term) -> Term {
        over(36, second.of, [first, second])
    }

    /// Prints a number.
    pub fn print(&mut self, number: Term) -> Term {
        over(37, self.unit_type(), [number])
    }

    /// `yes` if the test is true, else `no`.
    pub fn choose(&self, test: Term, yes: Term, no: Term) -> Term {
        over(38, yes.of, [test, yes, no])
    }

    /// A pair.
    pub fn pair(&mut self, first: Term, second: Term) -> Term {
        let of = self.make(Shape::Pair(first.of, second.of));
        over(39, of, [first, second])
    }

    /// Binds the parts of a pair in a body, the first part at the lower level.
    pub fn split(&self, pair: Term, body: Term) -> Term {
        over(40, body.of, [pair, body])
    }

    /// A function from a type that runs at a domain.
    pub fn function(&mut self, from: Type, at: u16, body: Term) -> Term {
        let of = self.make(Shape::Function(from, at, body.of));
        over(41, of, [body])
    }

    /// Applies a function.
    ///
    /// # Panics
    /// If it has no function type.
    pub fn apply(&self, function: Term, argument: Term) -> Term {
        let Shape::Function(_, _, to) = self.shape(function.of) else { panic!("apply takes a function") };
        over(42, to, [function, argument])
    }

    /// Binds a value in a body that runs at a domain: a function applied at once.
    pub fn bind(&mut self, at: u16, value: Term, body: Term) -> Term {
        let function = self.function(value.of, at, body);
        self.apply(function, value)
    }

    /// A sum, which stops at the ends of the range of 32-bit numbers.
    pub fn plus(&mut self, a: Term, b: Term) -> Term {
        let of = self.number_type();
        Self::arithmetic(of, 0, a, b)
    }

    /// A difference, which stops at the ends of the range of 32-bit numbers.
    pub fn minus(&mut self, a: Term, b: Term) -> Term {
        let of = self.number_type();
        Self::arithmetic(of, 1, a, b)
    }

    /// Is `a` less than `b`, as signed numbers?
    pub fn less(&mut self, a: Term, b: Term) -> Term {
        let of = self.truth_type();
        Self::arithmetic(of, 2, a, b)
    }

    /// Are two numbers equal?
    pub fn equal(&mut self, a: Term, b: Term) -> Term {
        let of = self.truth_type();
        Self::arithmetic(of, 3, a, b)
    }

    fn arithmetic(of: Type, op: u16, a: Term, b: Term) -> Term {
        Term { kind: 43, of, fields: vec![Field::Word(op), Field::Child(a), Field::Child(b)] }
    }

    /// A new label for values of a type, of a domain.
    pub fn new_label(&mut self, value: Type, domain: u16) -> Term {
        over(44, self.make(Shape::Label(value, domain)), [])
    }

    /// Marks a point with a label and a value: matching advice runs, the newest first.
    pub fn mark(&mut self, label: Term, value: Term) -> Term {
        over(45, self.unit_type(), [label, value])
    }

    /// A pointcut of labels.
    pub fn pointcut(&mut self, value: Type, domain: u16, labels: Vec<Term>) -> Term {
        let of = self.make(Shape::Pointcut(value, domain));
        Term { kind: 46, of, fields: labels.into_iter().map(Field::Child).collect() }
    }

    /// Advice of a domain: the body runs with the marked value bound.
    pub fn advice(&mut self, domain: u16, pointcut: Term, body: Term) -> Term {
        over(47, self.make(Shape::Advice(domain)), [pointcut, body])
    }

    /// Installs advice.
    pub fn install(&mut self, advice: Term) -> Term {
        over(48, self.unit_type(), [advice])
    }

    /// A new cell of a domain.
    pub fn new_cell(&mut self, domain: u16, value: Term) -> Term {
        over(49, self.make(Shape::Reference(value.of, domain)), [value])
    }

    /// Reads a cell.
    ///
    /// # Panics
    /// If it has no reference type.
    pub fn read(&self, cell: Term) -> Term {
        let Shape::Reference(to, _) = self.shape(cell.of) else { panic!("read takes a reference") };
        over(50, to, [cell])
    }

    /// Stores a value in a cell.
    pub fn store(&mut self, cell: Term, value: Term) -> Term {
        over(51, self.unit_type(), [cell, value])
    }

    /// Runs a body at a domain.
    pub fn lower(&mut self, domain: u16, body: Term) -> Term {
        Term { kind: 52, of: self.unit_type(), fields: vec![Field::Word(domain), Field::Child(body)] }
    }

    /// Aborts, at any type.
    pub fn abort(&self, of: Type) -> Term {
        over(53, of, [])
    }

    /// An object of a type, with a body for each of its methods. Each body binds the object itself, and runs at its
    /// method's domain.
    pub fn object(&self, of: Type, bodies: Vec<Term>) -> Term {
        Term { kind: 54, of, fields: bodies.into_iter().map(Field::Child).collect() }
    }

    /// Calls a method of an object; the first is number 0.
    ///
    /// # Panics
    /// If it has no object type, or the type no such method.
    pub fn call(&self, object: Term, method: u16) -> Term {
        let Shape::Object(methods) = self.shape(object.of) else { panic!("call takes an object") };
        let (_, of) = methods[usize::from(method)];
        Term { kind: 55, of, fields: vec![Field::Child(object), Field::Word(method)] }
    }

    /// The current stack: what is kept around it, the innermost first.
    pub fn stack(&mut self) -> Term {
        over(56, self.stack_type(), [])
    }

    /// Keeps a value under a label while a body runs.
    pub fn keep(&self, label: Term, value: Term, body: Term) -> Term {
        over(57, body.of, [label, value, body])
    }

    /// `yes` if the entries, from the top of the stack on, and the close fit it, else `no`. Each pointcut binds its
    /// value in `yes`, left to right, each inside the one before; the rest of the stack is bound last.
    pub fn match_stack(&self, stack: Term, entries: Vec<Entry>, close: Close, yes: Term, no: Term) -> Term {
        let of = yes.of;
        let mut fields = vec![Field::Child(stack), Field::Child(yes), Field::Child(no)];
        fields.extend(entries.into_iter().map(|entry| match entry {
            Entry::Anything => Field::Entry(None),
            Entry::Under(pointcut) => Field::Entry(Some(pointcut)),
        }));
        fields.push(Field::Word((close == Close::Rest).into()));
        Term { kind: 58, of, fields }
    }

    /// Removes every installed advice of a domain, which is at or below the current one. What a mark has picked before
    /// still runs.
    pub fn takedown(&mut self, domain: u16) -> Term {
        Term { kind: 59, of: self.unit_type(), fields: vec![Field::Word(domain)] }
    }

    /// The byte of the frame at an index, or -1.
    pub fn frame_byte(&mut self, index: Term) -> Term {
        over(60, self.number_type(), [index])
    }
}
