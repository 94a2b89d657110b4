//! Types of a program.
use super::write::field;
use super::Program;

/// A type, by its number.
#[derive(Clone, Copy, Debug, PartialEq, Eq, PartialOrd, Ord, Hash)]
pub struct Type(pub(super) u16);

/// What a type is made of; the last part of most is a domain.
#[derive(Clone, Debug, PartialEq, Eq)]
pub enum Shape {
    /// Unit.
    Unit,
    /// Truth.
    Truth,
    /// Number.
    Number,
    /// A pair of two types.
    Pair(Type, Type),
    /// A function from a type, running at a domain, to a type.
    Function(Type, u16, Type),
    /// A reference to a cell of a type, of a domain.
    Reference(Type, u16),
    /// A label that marks values of a type, of a domain.
    Label(Type, u16),
    /// A pointcut over values of a type, of a domain.
    Pointcut(Type, u16),
    /// Advice of a domain.
    Advice(u16),
    /// An object with these methods, numbered from 0: for each the domain at which its body runs, and the type of what
    /// a call gives. There are 1 to 8.
    Object(Vec<(u16, Type)>),
    /// A stack of kept values.
    Stack,
}

impl Shape {
    /// The kind and the fields of its record.
    pub(super) fn record(&self) -> (u16, Vec<u16>) {
        match *self {
            Shape::Unit => (16, vec![]),
            Shape::Truth => (17, vec![]),
            Shape::Number => (18, vec![]),
            Shape::Pair(a, b) => (19, vec![a.0, b.0]),
            Shape::Function(a, p, b) => (20, vec![a.0, p, b.0]),
            Shape::Reference(a, p) => (21, vec![a.0, p]),
            Shape::Label(a, p) => (22, vec![a.0, p]),
            Shape::Pointcut(a, p) => (23, vec![a.0, p]),
            Shape::Advice(p) => (24, vec![p]),
            Shape::Stack => (26, vec![]),
            Shape::Object(ref methods) => (25, methods.iter().flat_map(|(p, of)| [*p, of.0]).collect()),
        }
    }
}

impl Program {
    /// The type of this shape, made if the program does not have it yet.
    pub fn make(&mut self, shape: Shape) -> Type {
        let known = self.types.iter().position(|s| *s == shape);
        let number = known.unwrap_or_else(|| {
            self.types.push(shape);
            self.types.len() - 1
        });
        Type(field(number))
    }

    /// What a type is made of.
    ///
    /// # Panics
    /// If the type is another program's, and this one has not as many.
    #[must_use]
    pub fn shape(&self, of: Type) -> Shape {
        self.types[usize::from(of.0)].clone()
    }

    /// Every type that the program has so far.
    pub fn types(&self) -> impl Iterator<Item = Type> {
        (0..field(self.types.len())).map(Type)
    }

    /// The type unit.
    pub fn unit_type(&mut self) -> Type {
        self.make(Shape::Unit)
    }

    /// The type truth.
    pub fn truth_type(&mut self) -> Type {
        self.make(Shape::Truth)
    }

    /// The type number.
    pub fn number_type(&mut self) -> Type {
        self.make(Shape::Number)
    }

    /// The type of a stack.
    pub fn stack_type(&mut self) -> Type {
        self.make(Shape::Stack)
    }

    /// Is the type plain: unit, truth, number or a pair of plain types, with at most 8 leaves?
    #[must_use]
    pub fn is_plain(&self, of: Type) -> bool {
        self.leaves(of, 8).is_some()
    }

    /// What is left of a room of leaves once those of the type are taken from it.
    fn leaves(&self, of: Type, room: usize) -> Option<usize> {
        match self.shape(of) {
            Shape::Unit | Shape::Truth | Shape::Number => room.checked_sub(1),
            Shape::Pair(a, b) => self.leaves(b, self.leaves(a, room)?),
            _ => None,
        }
    }
}
