//! Images written anew from their records (document 02, cards 11 and 13).
use super::layout::{Field, Record, Records};
use super::shape::below;

/// A record: its length, its kind, its fields.
fn bytes(kind: u16, fields: &[u16]) -> Vec<u8> {
    let length = 4 + 2 * fields.len() as u16;
    [&[length, kind], fields].concat().iter().flat_map(|word| word.to_le_bytes()).collect()
}

/// Types and terms that are written so far; `numbers` has for each type of the image its new number. Children are written
/// left to right, or right to left.
struct Writer<'a> {
    records: &'a Records,
    leftward: bool,
    /// Bit p of the high domains; bodies of lowers and advice at another domain are left out.
    high: u16,
    numbers: Vec<Option<u16>>,
    types: Vec<Vec<u8>>,
    terms: Vec<Vec<u8>>,
}

impl Writer<'_> {
    /// "Types in the order in which the terms so written first have them, each after its own parts, left to right."
    fn write_type(&mut self, of: u16) -> u16 {
        if let Some(number) = self.numbers[usize::from(of)] {
            return number;
        }
        let record = &self.records.types[usize::from(of)];
        let fields: Vec<u16> = record
            .known()
            .map(|(field, value)| if field == Field::Part { self.write_type(value) } else { value })
            .collect();
        self.types.push(bytes(record.kind, &fields));
        let number = self.types.len() as u16 - 1;
        self.numbers[usize::from(of)] = Some(number);
        number
    }

    /// "Terms by a walk from the root that writes each term after its children, left to right"; its type is met then.
    fn write_term(&mut self, number: u16) -> u16 {
        let record = &self.records.terms[usize::from(number)];
        let known: Vec<(Field, u16)> = record.known().collect();
        let mut fields = record.fields.clone();
        for i in 0..known.len() {
            let i = if self.leftward { known.len() - 1 - i } else { i };
            fields[i] = match self.loses(record, i) {
                true => self.write_unit(known[i].1),
                false => self.child(known[i].0, known[i].1),
            };
        }
        fields[0] = self.write_type(record.fields[0]);
        self.push(record.kind, &fields)
    }

    fn push(&mut self, kind: u16, fields: &[u16]) -> u16 {
        self.terms.push(bytes(kind, fields));
        self.terms.len() as u16 - 1
    }

    /// "Every low lower body and low advice body replaced by unit": is this field such a body?
    fn loses(&self, record: &Record, i: usize) -> bool {
        let domain = match (record.kind, i) {
            (52, 2) => record.fields[1],
            (47, 2) => self.records.types[usize::from(record.fields[0])].fields[0],
            _ => return false,
        };
        self.high >> domain & 1 == 0
    }

    /// Unit, with the type of the body that it replaces.
    fn write_unit(&mut self, body: u16) -> u16 {
        let of = self.write_type(self.records.terms[usize::from(body)].fields[0]);
        self.push(32, &[of])
    }

    /// The field of a term as it is written: of a child its new number; its type is set later.
    fn child(&mut self, field: Field, value: u16) -> u16 {
        match field {
            Field::Child => self.write_term(value),
            Field::Entry if value > 0 => self.write_term(value - 1) + 1,
            _ => value,
        }
    }
}

const EVERY_DOMAIN: u16 = u16::MAX;

/// "Domains kept; […] unused types and skipped bytes dropped."
fn image(records: &Records, leftward: bool, high: u16) -> Vec<u8> {
    let unmet = vec![None; records.types.len()];
    let mut writer = Writer { records, leftward, high, numbers: unmet, types: vec![], terms: vec![] };
    writer.write_term(records.terms.len() as u16 - 1);
    let domain = |record: &Record| bytes(record.kind, &record.fields);
    let domains: Vec<u8> = records.domains.iter().flat_map(domain).collect();
    [domains, writer.types.concat(), writer.terms.concat()].concat()
}

/// The fixed form of an image that the check accepts.
pub fn fixed(records: &Records) -> Vec<u8> {
    image(records, false, EVERY_DOMAIN)
}

/// Another image of the same program: its terms stand in another order, and so do its types.
pub fn reordered(records: &Records) -> Vec<u8> {
    image(records, true, EVERY_DOMAIN)
}

/// The stripped form of an image that the check accepts.
pub fn stripped(records: &Records, high: u16) -> Vec<u8> {
    image(records, false, high)
}

/// Is this a set of high domains: does it hold 0, none that is absent, and with each member every domain above it?
pub fn high_domains(records: &Records, set: u16) -> bool {
    let member = |p: usize| set >> p & 1 == 1;
    let closed = |p: usize| (0..16).all(|q| !below(records, p, q) || member(q));
    member(0) && (0..16).filter(|p| member(*p)).all(|p| p < records.domains.len() && closed(p))
}

/// Has an image a takedown?
pub fn takes_down(records: &Records) -> bool {
    records.terms.iter().any(|term| term.kind == 59)
}
