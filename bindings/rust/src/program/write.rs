//! The bytes of an image.
use super::{Field, Program, Term};

/// A number as a field of 16 bits. A larger one is only found in programs that are too large for an image, whose images
/// are refused whatever they say.
pub(super) fn field(number: usize) -> u16 {
    u16::try_from(number).unwrap_or(u16::MAX)
}

/// A record: its length, its kind, its fields as bytes.
fn record(image: &mut Vec<u8>, kind: u16, fields: &[u8]) {
    image.extend(field(4 + fields.len()).to_le_bytes());
    image.extend(kind.to_le_bytes());
    image.extend(fields);
}

/// 16-bit fields as bytes.
fn words(fields: &[u16]) -> Vec<u8> {
    fields.iter().flat_map(|word| word.to_le_bytes()).collect()
}

/// How many variables a child's scope gains: two in a split's second child, one in the body of a function, an advice
/// or a method, and in a match's first branch one for each pointcut and one for the rest.
fn bound(term: &Term, child: usize) -> u16 {
    match (term.kind, child) {
        (40, 1) => 2,
        (41, 0) | (47, 1) | (54, _) => 1,
        (58, 1) => field(term.fields.iter().filter(|f| matches!(f, Field::Entry(Some(_)) | Field::Word(1))).count()),
        _ => 0,
    }
}

/// Writes a term after its children, left to right, and answers its number.
fn write_term(image: &mut Vec<u8>, next: &mut u16, term: &Term, scope: u16) -> u16 {
    let mut fields = words(&[term.of.0]);
    let mut child = 0;
    for field in &term.fields {
        match field {
            Field::Word(word) => fields.extend(word.to_le_bytes()),
            Field::Number(number) => fields.extend(number.to_le_bytes()),
            Field::Level(level) => fields.extend(scope.wrapping_sub(1).wrapping_sub(*level).to_le_bytes()),
            Field::Child(below) => {
                let number = write_term(image, next, below, scope.saturating_add(bound(term, child)));
                fields.extend(number.to_le_bytes());
                child += 1;
            }
            Field::Entry(None) => fields.extend([0, 0]),
            Field::Entry(Some(pointcut)) => {
                let number = write_term(image, next, pointcut, scope);
                fields.extend(number.saturating_add(1).to_le_bytes());
            }
        }
    }
    record(image, term.kind, &fields);
    let number = *next;
    *next = next.saturating_add(1);
    number
}

impl Program {
    /// The image of the program with this root.
    #[must_use]
    pub fn image(&self, root: &Term) -> Vec<u8> {
        let mut image = Vec::new();
        for mask in &self.masks {
            record(&mut image, 1, &words(&[*mask]));
        }
        for shape in &self.types {
            let (kind, fields) = shape.record();
            record(&mut image, kind, &words(&fields));
        }
        write_term(&mut image, &mut 0, root, 0);
        image
    }
}
