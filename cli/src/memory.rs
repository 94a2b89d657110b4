//! Does a watch of an image keep something for later? Nothing is kept from one frame to the next, which its author should
//! know.
use std::collections::BTreeMap;

/// Kinds of records (document 01, "The image").
const FIRST_TYPE: u16 = 16;
const FUNCTION_TYPE: u16 = 20;
const REFERENCE_TYPE: u16 = 21;
const ADVICE_TYPE: u16 = 24;
const OBJECT_TYPE: u16 = 25;
const FIRST_TERM: u16 = 32;
const FUNCTION: u16 = 41;
const POINTCUT: u16 = 46;
const ADVICE: u16 = 47;
const NEW_CELL: u16 = 49;
const LOWER: u16 = 52;
const OBJECT: u16 = 54;
const MATCH: u16 = 58;
const TAKEDOWN: u16 = 59;

/// The fields of each kind of term behind its type, from the first kind on: e is a child. A pointcut, an object and a match
/// have as many as their length says.
const TERMS: [&str; 29] = [
    "", "v", "nn", "k", "ee", "e", "eee", "ee", "ee", "e", "ee", "oee", "", "ee", "", "ee", "e", "e", "e", "ee", "pe",
    "", "", "ei", "", "eee", "", "p", "e",
];

/// A record: its kind and its fields.
struct Record {
    kind: u16,
    fields: Vec<u16>,
}

/// What watches do that would outlast a frame, if anything did.
#[derive(Clone, Copy, Debug, Default, PartialEq, Eq)]
pub struct Memory {
    /// A cell is made, other than for a function that calls itself.
    pub cells: bool,
    /// Watches are taken down.
    pub takedowns: bool,
}

impl Memory {
    /// What an accepted image does at other domains than 0.
    pub fn of(image: &[u8]) -> Memory {
        let records = records(image);
        let types: Vec<&Record> = records.iter().filter(|r| (FIRST_TYPE..FIRST_TERM).contains(&r.kind)).collect();
        let terms: Vec<&Record> = records.iter().filter(|r| r.kind >= FIRST_TERM).collect();
        let mut here: BTreeMap<usize, u16> = BTreeMap::new();
        let mut memory = Memory::default();
        for (number, term) in terms.iter().enumerate().rev() {
            let domain = here.get(&number).copied().unwrap_or_default();
            let own = term.fields.first().and_then(|of| types.get(usize::from(*of)));
            memory.cells |= domain != 0 && term.kind == NEW_CELL && own.is_some_and(|own| holds_values(own, &types));
            memory.takedowns |= domain != 0 && term.kind == TAKEDOWN;
            for (place, child) in children(term).into_iter().enumerate() {
                here.insert(child, domain_of(term, own.copied(), place, domain));
            }
        }
        memory
    }

    /// What is said of a recording that is run with such watches; nothing of others.
    pub fn notice(self) -> Option<&'static str> {
        const KEPT: &str =
            "each frame is a run of its own: what a watch keeps in its cells ends with the frame; --cells \
                            and --totals write what each run left there";
        const DOWN: &str = "each frame is a run of its own: watches that are taken down are up again in the next frame";
        const BOTH: &str = "each frame is a run of its own: what a watch keeps in its cells ends with the frame, and \
                            watches that are taken down are up again in the next; --cells and --totals write what each \
                            run left";
        match (self.cells, self.takedowns) {
            (true, true) => Some(BOTH),
            (true, false) => Some(KEPT),
            (false, true) => Some(DOWN),
            (false, false) => None,
        }
    }
}

/// The records of an image that is laid out.
fn records(image: &[u8]) -> Vec<Record> {
    let (mut found, mut rest) = (Vec::new(), image);
    while let [low, high, ..] = rest {
        let length = usize::from(u16::from_le_bytes([*low, *high])).clamp(4, rest.len().max(4));
        let Some(record) = rest.get(2..length) else { break };
        let mut words = record.chunks_exact(2).map(|word| u16::from_le_bytes([word[0], word[1]]));
        found.push(Record { kind: words.next().unwrap_or_default(), fields: words.collect() });
        rest = &rest[length..];
    }
    found
}

/// Does a reference of this type hold something else than a function?
fn holds_values(own: &Record, types: &[&Record]) -> bool {
    let held = own.fields.first().and_then(|of| types.get(usize::from(*of)));
    own.kind == REFERENCE_TYPE && held.is_some_and(|held| held.kind != FUNCTION_TYPE)
}

/// The numbers of a term's children, from left to right.
fn children(term: &Record) -> Vec<usize> {
    let fields = term.fields.get(1..).unwrap_or_default();
    match term.kind {
        POINTCUT | OBJECT => fields.iter().map(|child| usize::from(*child)).collect(),
        MATCH => {
            let (first, entries) = fields.split_at(fields.len().min(3));
            let entries = entries.iter().take(entries.len().saturating_sub(1)).filter(|entry| **entry > 0);
            first.iter().map(|child| usize::from(*child)).chain(entries.map(|entry| usize::from(*entry) - 1)).collect()
        }
        kind => {
            let letters = TERMS.get(usize::from(kind - FIRST_TERM)).copied().unwrap_or_default();
            let named = letters.bytes().zip(fields).filter(|(letter, _)| *letter == b'e');
            named.map(|(_, child)| usize::from(*child)).collect()
        }
    }
}

/// The domain at which a term's child at a place runs.
fn domain_of(term: &Record, own: Option<&Record>, place: usize, here: u16) -> u16 {
    let field = |record: Option<&Record>, at: usize| record.and_then(|r| r.fields.get(at).copied()).unwrap_or(here);
    let own = own.filter(|own| matches!(own.kind, FUNCTION_TYPE | ADVICE_TYPE | OBJECT_TYPE));
    match (term.kind, place) {
        (LOWER, _) => field(Some(term), 1),
        (FUNCTION, _) => field(own, 1),
        (ADVICE, 1) => field(own, 0),
        (OBJECT, method) => field(own, 2 * method),
        _ => here,
    }
}
