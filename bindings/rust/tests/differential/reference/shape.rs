//! Refusals 10 to 12: the order of the domains, the uses and the depth of the terms.
use super::layout::{Record, Records};
use super::Refused;

/// The children of a term record, in its order. A match has its stack, its two branches, and the pointcuts of its
/// entries; an entry 0 is no child.
pub fn children(record: &Record) -> Vec<u16> {
    let f = &record.fields;
    match record.kind {
        32..=35 | 44 | 53 | 56 | 59 => vec![],
        43 | 52 => f[2..].to_vec(),
        55 => f[1..2].to_vec(),
        58 => f[1..4].iter().copied().chain(entries(record).iter().filter_map(|entry| entry.checked_sub(1))).collect(),
        _ => f[1..].to_vec(),
    }
}

/// The entries of a match: 0 for anything, else a pointcut's term number plus 1.
pub fn entries(record: &Record) -> &[u16] {
    &record.fields[4..record.fields.len() - 1]
}

/// Does a match bind the rest of the stack?
pub fn binds_rest(record: &Record) -> bool {
    record.fields.last() == Some(&1)
}

/// Is domain `d` at or below domain `q`?
pub fn below(records: &Records, d: usize, q: usize) -> bool {
    q < 16 && records.domains.get(d).is_some_and(|domain| domain.fields[0] >> q & 1 == 1)
}

/// "Domain d is at fault in 10 if its mask names an absent domain, lacks d, names e ≠ d that names d, or names e where
/// e names f and d does not."
fn at_fault(records: &Records, d: usize) -> bool {
    let names = |d: usize, q: usize| below(records, d, q);
    let absent = (records.domains.len()..16).any(|q| names(d, q));
    let symmetric = (0..16).any(|e| e != d && names(d, e) && names(e, d));
    let broken = (0..16).any(|e| names(d, e) && (0..16).any(|f| names(e, f) && !names(d, f)));
    absent || !names(d, d) || symmetric || broken
}

/// How often each term stands as a child.
fn uses(terms: &[Record]) -> Vec<usize> {
    let mut uses = vec![0; terms.len()];
    for child in terms.iter().flat_map(children) {
        uses[usize::from(child)] += 1;
    }
    uses
}

/// The depth of each term; a parent has a higher number than its children.
fn depths(terms: &[Record]) -> Vec<usize> {
    let mut depths = vec![1; terms.len()];
    for (number, term) in terms.iter().enumerate().rev() {
        for child in children(term) {
            depths[usize::from(child)] = depths[number] + 1;
        }
    }
    depths
}

pub fn check(records: &Records) -> Result<(), Refused> {
    let terms = &records.terms;
    if let Some(d) = (0..records.domains.len()).find(|d| at_fault(records, *d)) {
        return Err(Refused(10, records.domains[d].offset));
    }
    let uses = uses(terms);
    if let Some(e) = (0..terms.len() - 1).find(|e| uses[*e] != 1) {
        return Err(Refused(11, terms[e].offset));
    }
    match depths(terms).iter().position(|depth| *depth > 64) {
        Some(e) => Err(Refused(12, terms[e].offset)),
        None => Ok(()),
    }
}
