//! Damage to an image, so that it is refused in every way.
use crate::random::Random;

/// Kinds whose lengths are exact: object types, pointcut terms, objects and matches.
pub const EXACT: [u16; 4] = [25, 46, 54, MATCH];
const MATCH: u16 = 58;

/// One to three random changes.
pub fn damage(random: &mut Random, image: &mut Vec<u8>) {
    for _ in 0..random.between(1, 3) {
        match random.below(15) {
            0 => change_byte(random, image),
            1 => truncate(random, image),
            2 => append(random, image),
            3 | 4 => change_records(random, image),
            5 => change_word(random, image, 0),
            6 => change_word(random, image, 2),
            7 | 8 => change_meaning(random, image),
            9 => lengthen(random, image, &[]),
            10 | 11 => change_groups(random, image),
            _ => change_field(random, image),
        }
    }
}

/// The offsets at which records begin.
fn records(image: &[u8]) -> Vec<usize> {
    let mut offsets = vec![];
    let mut at = 0;
    while at + 4 <= image.len() {
        offsets.push(at);
        let length = usize::from(u16::from_le_bytes([image[at], image[at + 1]]));
        at += length.max(4);
    }
    offsets
}

/// A few bytes behind some records, each of which is as much longer then; those of some kinds stay as they are. Only
/// kinds of exact lengths are refused for it.
pub fn lengthen(random: &mut Random, image: &mut Vec<u8>, but: &[u16]) {
    for at in records(image).into_iter().rev() {
        let word = |at: usize| u16::from_le_bytes([image[at], image[at + 1]]);
        let (length, more) = (word(at), random.below(5));
        let end = at + usize::from(length);
        if random.chance(30) && length >= 4 && end <= image.len() && !but.contains(&word(at + 2)) {
            let mut bytes = vec![0; more];
            random.fill(&mut bytes);
            image[at..at + 2].copy_from_slice(&(length + more as u16).to_le_bytes());
            image.splice(end..end, bytes);
        }
    }
}

fn change_byte(random: &mut Random, image: &mut [u8]) {
    if !image.is_empty() {
        let at = random.below(image.len());
        image[at] = random.bits() as u8;
    }
}

fn truncate(random: &mut Random, image: &mut Vec<u8>) {
    let length = random.below(image.len() + 1);
    image.truncate(length);
}

/// A few bytes more, or a little over the longest image.
fn append(random: &mut Random, image: &mut Vec<u8>) {
    let length = match random.chance(10) {
        true => random.between(16_380, 16_390).saturating_sub(image.len()),
        false => random.below(20),
    };
    let mut bytes = vec![0; length];
    random.fill(&mut bytes);
    image.extend(bytes);
}

/// Deletes, doubles or moves a record.
fn change_records(random: &mut Random, image: &mut Vec<u8>) {
    let offsets = records(image);
    let Some(at) = random.pick(&offsets) else { return };
    let length = usize::from(u16::from_le_bytes([image[at], image[at + 1]])).max(4);
    let end = (at + length).min(image.len());
    let record: Vec<u8> = image[at..end].to_vec();
    let there = offsets[random.below(offsets.len())];
    match random.below(3) {
        0 => drop(image.drain(at..end)),
        1 => drop(image.splice(at..at, record)),
        _ => drop(image.splice(there..there, record)),
    }
}

/// One method, label, body or entry more or less in a record of exact lengths: the last one is doubled or left out. The
/// close of a match, behind its entries, stays.
fn change_groups(random: &mut Random, image: &mut Vec<u8>) {
    let word = |at: usize| u16::from_le_bytes([image[at], image[at + 1]]);
    let exact: Vec<usize> = records(image).into_iter().filter(|at| EXACT.contains(&word(at + 2))).collect();
    let Some(at) = random.pick(&exact) else { return };
    let group = if word(at + 2) == 25 { 4 } else { 2 };
    let length = word(at);
    let close = if word(at + 2) == MATCH { 2 } else { 0 };
    let end = (at + usize::from(length)).saturating_sub(close);
    if length < 8 || end + close > image.len() {
        return;
    }
    let last = image[end - group..end].to_vec();
    let doubled = random.chance(50);
    let new = if doubled { length + group as u16 } else { length - group as u16 };
    image[at..at + 2].copy_from_slice(&new.to_le_bytes());
    match doubled {
        true => drop(image.splice(end..end, last)),
        false => drop(image.drain(end - group..end)),
    }
}

/// Changes the length (0) or the kind (2) of a record, to one near it or to any.
fn change_word(random: &mut Random, image: &mut [u8], word: usize) {
    if let Some(at) = random.pick(&records(image)) {
        change_at(random, image, at + word);
    }
}

/// Changes a field of a record.
fn change_field(random: &mut Random, image: &mut [u8]) {
    if let Some(at) = random.pick(&records(image)) {
        let length = usize::from(u16::from_le_bytes([image[at], image[at + 1]]));
        if length >= 6 {
            let field = 4 + 2 * random.below((length - 4) / 2);
            change_at(random, image, at + field);
        }
    }
}

/// Changes the number of a variable or a method, a mask, the domain of a type, a lower or a takedown, or the close of a
/// match: the layout stays whole.
fn change_meaning(random: &mut Random, image: &mut [u8]) {
    let word = |at: usize| usize::from(u16::from_le_bytes([image[at], image[at + 1]]));
    let fields: Vec<usize> = records(image)
        .into_iter()
        .filter_map(|at| match word(at + 2) {
            35 | 52 | 59 | 20..=23 => Some(at + 6),
            24 | 25 | 1 => Some(at + 4),
            55 => Some(at + 8),
            58 => (at + word(at)).checked_sub(2),
            _ => None,
        })
        .collect();
    let domains = records(image).into_iter().filter(|at| word(at + 2) == 1).count();
    let Some(at) = random.pick(&fields).filter(|at| at + 2 <= image.len()) else { return };
    let new = if random.chance(90) { random.below(domains.max(2)) } else { random.below(40) };
    image[at..at + 2].copy_from_slice(&(new as u16).to_le_bytes());
}

fn change_at(random: &mut Random, image: &mut [u8], at: usize) {
    if at + 2 > image.len() {
        return;
    }
    let old = u16::from_le_bytes([image[at], image[at + 1]]);
    let new = match random.below(4) {
        0 => old.wrapping_add(1),
        1 => old.wrapping_sub(1),
        2 => random.below(64) as u16,
        _ => old.wrapping_add(random.below(9) as u16).wrapping_sub(4),
    };
    image[at..at + 2].copy_from_slice(&new.to_le_bytes());
}
