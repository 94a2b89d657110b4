//! Refusals 1 to 9: the records of an image, front to back (document 01, "The image").
use super::Refused;

/// A record: where it stands, its kind, its known fields after the kind as 16-bit words (a number's 4 bytes are two).
/// What stands behind these is skipped (document 02, card 1).
#[derive(Debug, PartialEq, Eq)]
pub struct Record {
    pub offset: usize,
    pub kind: u16,
    pub fields: Vec<u16>,
}

/// The three sections.
pub struct Records {
    pub domains: Vec<Record>,
    pub types: Vec<Record>,
    pub terms: Vec<Record>,
}

/// What a field must be.
#[derive(Clone, Copy, Debug, PartialEq, Eq)]
pub enum Field {
    /// A type below the record's own, of a type record.
    Part,
    /// A type, of a term record.
    Type,
    /// A term below the record's own.
    Child,
    Domain,
    Op,
    Truth,
    /// An entry of a match: 0, or one more than a term below the record's own.
    Entry,
    /// The close of a match: 0 or 1.
    Close,
    /// A mask, a variable, half a number, a method's number.
    Any,
}

/// Which section a kind belongs to.
fn section(kind: u16) -> Option<usize> {
    match kind {
        1 => Some(0),
        16..=26 => Some(1),
        32..=60 => Some(2),
        _ => None,
    }
}

/// Kinds whose length says how often a group of fields stands, so that no bytes may stand behind these (cards 1, 3
/// and 6).
const EXACT: [u16; 4] = [25, 46, 54, 58];

/// How often a group of so many bytes stands beside the other ones of a record, if that is from least to 8 times.
fn groups(length: usize, others: usize, group: usize, least: usize) -> usize {
    (length.saturating_sub(others) / group).clamp(least, 8)
}

/// The fields of a kind. A pointcut term has as many children as its length says; so have an object its bodies, its
/// type its methods, each a domain and a type, and a match its entries.
fn fields(kind: u16, length: usize) -> Vec<Field> {
    use Field::*;
    match kind {
        1 => vec![Any],
        16..=18 | 26 => vec![],
        19 => vec![Part, Part],
        20 => vec![Part, Domain, Part],
        21..=23 => vec![Part, Domain],
        24 => vec![Domain],
        32 | 44 | 53 | 56 => vec![Type],
        33 => vec![Type, Truth],
        34 => vec![Type, Any, Any],
        35 => vec![Type, Any],
        38 | 57 => vec![Type, Child, Child, Child],
        37 | 41 | 48 | 49 | 50 | 60 => vec![Type, Child],
        36 | 39 | 40 | 42 | 45 | 47 | 51 => vec![Type, Child, Child],
        43 => vec![Type, Op, Child, Child],
        25 => (0..groups(length, 4, 4, 1)).flat_map(|_| [Domain, Part]).collect(),
        46 => [Type].into_iter().chain((0..groups(length, 6, 2, 0)).map(|_| Child)).collect(),
        54 => [Type].into_iter().chain((0..groups(length, 6, 2, 1)).map(|_| Child)).collect(),
        55 => vec![Type, Child, Any],
        58 => {
            let entries = (0..groups(length, 14, 2, 0)).map(|_| Entry);
            [Type, Child, Child, Child].into_iter().chain(entries).chain([Close]).collect()
        }
        52 => vec![Type, Domain, Child],
        59 => vec![Type, Domain],
        _ => unreachable!("section() knows the kinds"),
    }
}

impl Record {
    /// Its known fields, each with what it is.
    pub fn known(&self) -> impl Iterator<Item = (Field, u16)> + '_ {
        fields(self.kind, 4 + 2 * self.fields.len()).into_iter().zip(self.fields.iter().copied())
    }
}

impl Records {
    fn section(&self, section: usize) -> &Vec<Record> {
        [&self.domains, &self.types, &self.terms][section]
    }

    fn in_range(&self, field: &Field, value: u16) -> bool {
        let limit = match field {
            Field::Part | Field::Type => self.types.len(),
            Field::Child => self.terms.len(),
            Field::Domain => self.domains.len(),
            Field::Op => 4,
            Field::Truth | Field::Close => 2,
            Field::Entry => self.terms.len() + 1,
            Field::Any => return true,
        };
        usize::from(value) < limit
    }
}

fn word(image: &[u8], at: usize) -> u16 {
    u16::from(image[at]) + 256 * u16::from(image[at + 1])
}

/// The record at an offset, if it meets none of 2 to 8; `current` is the section of the one before it.
fn record(image: &[u8], offset: usize, before: &Records, current: usize) -> Result<(usize, Record), Refused> {
    let refuse = |number| Err(Refused(number, offset));
    let left = image.len() - offset;
    if left < 4 {
        return refuse(2);
    }
    let length = usize::from(word(image, offset));
    if length < 4 || length > left {
        return refuse(2);
    }
    let kind = word(image, offset + 2);
    let Some(section) = section(kind) else { return refuse(3) };
    let wanted = fields(kind, length);
    let known = 4 + 2 * wanted.len();
    if length < known || (EXACT.contains(&kind) && length != known) {
        return refuse(4);
    }
    if section < current {
        return refuse(5);
    }
    if before.section(section).len() == [16, 128, 1024][section] {
        return refuse(6);
    }
    let fields: Vec<u16> = (0..wanted.len()).map(|i| word(image, offset + 4 + 2 * i)).collect();
    if !wanted.iter().zip(&fields).all(|(field, value)| before.in_range(field, *value)) {
        return refuse(7);
    }
    if section == 1 && before.types.iter().any(|earlier| earlier.kind == kind && earlier.fields == fields) {
        return refuse(8);
    }
    Ok((section, Record { offset, kind, fields }))
}

/// The records of an image that meets none of 1 to 9.
pub fn read(image: &[u8]) -> Result<Records, Refused> {
    if image.len() > 16_384 {
        return Err(Refused(1, 0));
    }
    let mut records = Records { domains: vec![], types: vec![], terms: vec![] };
    let (mut offset, mut current) = (0, 0);
    while offset < image.len() {
        let (section, record) = record(image, offset, &records, current)?;
        offset += usize::from(word(image, offset));
        current = section;
        [&mut records.domains, &mut records.types, &mut records.terms][section].push(record);
    }
    match (0..3).any(|section| records.section(section).is_empty()) {
        true => Err(Refused(9, image.len())),
        false => Ok(records),
    }
}
