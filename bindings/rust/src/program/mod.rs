//! Writing images: programs as trees of terms, written as the bytes of an image (document 01, "The image").
//!
//! Terms and types belong to the program that made them. A method that asks for the shape of another program's type
//! panics, or answers for another type; one that is given a part of the wrong kind panics as it says.
//!
//! A [`Program`] keeps the masks of the domains and the types, each once. Its methods make terms with the types that
//! their parts ask for. Nothing here decides whether an image is accepted: the engine does.
//!
//! Variables are named by level: the outermost binding is level 0, the one inside it level 1. The image has the number
//! that counts from the innermost.
//!
//! An object is made of a type, which comes first, since each body has the object itself as a variable:
//!
//! ```
//! use bukzarn::program::{Program, Shape};
//!
//! let mut program = Program::new(&[1]);
//! let number = program.number_type();
//! let sonde = program.make(Shape::Object(vec![(0, number), (0, number)]));
//! let itself = program.variable(sonde, 0);
//! let (offset, byte) = (program.number(-4), program.number(16));
//! let (read, correction) = (program.frame_byte(byte), program.call(itself, 1));
//! let corrected = program.plus(read, correction);
//! let object = program.object(sonde, vec![corrected, offset]);
//! let image = program.image(&program.call(object, 0));
//! # let _ = image;
//! ```
//!
//! A keep holds a value under a label while its body runs, and a match asks what is kept around it, the innermost
//! first:
//!
//! ```
//! use bukzarn::program::{Close, Entry, Program};
//!
//! let mut program = Program::new(&[1]);
//! let unit = program.unit_type();
//! let descent = program.new_label(unit, 0);
//! let label = program.variable(descent.of(), 0);
//! let pointcut = program.pointcut(unit, 0, vec![label.clone()]);
//! let (stack, under, outside) = (program.stack(), program.number(1), program.number(0));
//! let asked = program.match_stack(stack, vec![Entry::Under(pointcut)], Close::Rest, under, outside);
//! let kept = program.unit();
//! let body = program.keep(label, kept, asked);
//! let root = program.bind(0, descent, body);
//! let image = program.image(&root);
//! # let _ = image;
//! ```
mod terms;
mod types;
mod write;

pub use types::{Shape, Type};

/// A term with its type and its parts.
#[derive(Clone, Debug)]
#[must_use]
pub struct Term {
    kind: u16,
    of: Type,
    fields: Vec<Field>,
}

/// A field of a term, in the order of the record.
#[derive(Clone, Debug)]
enum Field {
    Word(u16),
    Number(i32),
    Level(u16),
    Child(Term),
    /// An entry of a match: 0, or the number of its pointcut plus 1.
    Entry(Option<Term>),
}

/// What one entry of a match stands for.
#[derive(Clone, Debug)]
pub enum Entry {
    /// Any kept value, which is not bound.
    Anything,
    /// A value that is kept under a label of this pointcut; it is bound.
    Under(Term),
}

/// What may be left of the stack behind the entries of a match.
#[derive(Clone, Copy, Debug, PartialEq, Eq)]
pub enum Close {
    /// Nothing.
    Empty,
    /// Anything, also nothing; it is bound, as a stack.
    Rest,
}

impl Term {
    /// The type that the term states.
    #[must_use]
    pub fn of(&self) -> Type {
        self.of
    }

    /// How many terms the tree has.
    #[must_use]
    pub fn size(&self) -> usize {
        1 + self.children().map(Term::size).sum::<usize>()
    }

    /// How deep the tree is; a term without parts has depth 1.
    #[must_use]
    pub fn depth(&self) -> usize {
        1 + self.children().map(Term::depth).max().unwrap_or(0)
    }

    fn children(&self) -> impl Iterator<Item = &Term> {
        self.fields.iter().filter_map(|field| match field {
            Field::Child(child) | Field::Entry(Some(child)) => Some(child),
            _ => None,
        })
    }
}

/// The domains and types of a program, and the maker of its terms.
#[derive(Clone, Debug)]
pub struct Program {
    masks: Vec<u16>,
    types: Vec<Shape>,
}

impl Program {
    /// A program with these domains: bit q of a mask is set if the domain is at or below domain q.
    #[must_use]
    pub fn new(masks: &[u16]) -> Program {
        Program { masks: masks.to_vec(), types: Vec::new() }
    }

    /// How many domains there are.
    #[must_use]
    pub fn domains(&self) -> u16 {
        write::field(self.masks.len())
    }

    /// Is domain `p` at or below domain `q`? No, if there is no such domain.
    #[must_use]
    pub fn below(&self, p: u16, q: u16) -> bool {
        let mask = self.masks.get(usize::from(p)).copied().unwrap_or_default();
        mask.checked_shr(q.into()).is_some_and(|from_q| from_q & 1 == 1)
    }
}
