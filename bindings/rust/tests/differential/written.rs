//! Images written anew (document 02): the fixed form (card 11) and the form without watches (card 13), by the library
//! beside the reference, and the cards' claims.
use crate::compare::hex;
use crate::damage;
use crate::random::Random;
use crate::reference::{self, Ran, Refused};
use bukzarn::Refusal;
use bukzarn::{Leaf, LogRecord, Run};

/// A length of output about the image's.
fn output_length(random: &mut Random, image: &[u8]) -> usize {
    match random.below(4) {
        0 => image.len().saturating_sub(random.between(1, 20)),
        1 => image.len(),
        _ => image.len() + random.below(50),
    }
}

/// One call that writes beside what the reference says: the answer, and every byte of the output.
fn same(
    random: &mut Random,
    image: &[u8],
    length: usize,
    expected: &Result<Vec<u8>, Refused>,
    write: impl FnOnce(&mut [u8]) -> Result<usize, Refusal>,
) {
    let mut output = vec![0; length];
    random.fill(&mut output);
    let mut after = output.clone();
    if let Ok(bytes) = expected {
        after[..bytes.len()].copy_from_slice(bytes);
    }
    let answer = write(&mut output).map_err(|refusal| Refused(refusal.cause.number(), refusal.place));
    let wanted = expected.as_ref().map(Vec::len).map_err(|refused| *refused);
    assert!(answer == wanted, "written: {answer:?}, by the reference {wanted:?}\nimage {}", hex(image));
    assert!(output == after, "the output differs\nimage {}", hex(image));
}

/// The fixed form by the reference, and by the library where it has the function.
pub fn fixed(random: &mut Random, image: &[u8]) -> Result<Vec<u8>, Refused> {
    let length = output_length(random, image);
    let expected = reference::fixed(image, length);
    same(random, image, length, &expected, |output| bukzarn::write_fixed(image, output));
    expected
}

/// "Writing twice changes nothing", "equal programs should be equal bytes", and the form is no longer than the image.
pub fn try_fixed(random: &mut Random, image: &[u8], fixed: &[u8]) {
    let of = |image: &[u8]| reference::fixed(image, usize::MAX).ok();
    assert!(fixed.len() <= image.len(), "a longer form\nimage {}", hex(image));
    assert!(of(fixed).is_some_and(|again| again == fixed), "written twice it differs\nimage {}", hex(image));
    let mut other = reference::reordered(image).expect("an image that is accepted");
    damage::lengthen(random, &mut other, &damage::EXACT);
    if other.len() > 16_384 {
        return;
    }
    assert!(
        of(&other).is_some_and(|form| form == fixed),
        "another image of the program has another form\nimage {}",
        hex(image)
    );
}

/// The masks of an image's domains, which stand first: 16 at most.
fn domains(image: &[u8]) -> Vec<u16> {
    let word = |at: usize| image.get(at..at + 2).map_or(0, |bytes| u16::from_le_bytes([bytes[0], bytes[1]]));
    let (mut masks, mut at) = (vec![], 0);
    while masks.len() < 16 && word(at + 2) == 1 && word(at) >= 6 {
        masks.push(word(at + 4));
        at += usize::from(word(at));
    }
    masks
}

/// A set of domains: mostly one that holds 0 and what is above its members.
fn set_of_domains(random: &mut Random, image: &[u8]) -> u16 {
    let any = random.bits() as u16;
    if random.chance(10) {
        return any;
    }
    let (masks, few) = (domains(image), any & random.bits() as u16);
    let member = |p: &usize| few >> p & 1 == 1 || *p == 0;
    let closed = (0..masks.len()).filter(member).fold(1, |set, p| set | masks[p]);
    match random.below(20) {
        0 => closed & !1,
        1 => closed ^ 1 << random.below(16),
        _ => closed,
    }
}

/// The form without watches for some high domains, by the reference, and by the library where it has the function.
pub fn stripped(random: &mut Random, image: &[u8]) -> (u16, Result<Vec<u8>, Refused>) {
    let (length, high) = (output_length(random, image), set_of_domains(random, image));
    let expected = reference::stripped(image, high, length);
    same(random, image, length, &expected, |output| bukzarn::write_stripped(image, high, output));
    (high, expected)
}

/// What card 13 compares of two runs: the result, the plain high cells, the high log.
type Seen = (Vec<Leaf>, Vec<(u16, Vec<Leaf>)>, Vec<LogRecord>);

fn seen(ran: &Ran, high: u16) -> (u32, Seen) {
    let run = Run::read(&ran.log, &ran.report).expect("a report");
    let is_high = |domain: u16| high >> domain & 1 == 1;
    let plain = |cell: bukzarn::Cell| cell.leaves.map(|leaves| (cell.domain, leaves.collect()));
    let cells = run.cells().filter(|cell| is_high(cell.domain)).filter_map(plain).collect();
    let log = run.log().filter(|record| is_high(record.domain)).collect();
    (run.steps(), (run.result().collect(), cells, log))
}

/// "The stripped run is done […] with the same result, the same plain high cells and high log, in no more steps", where
/// the full run is done and no low body contains a takedown.
pub fn try_stripped(image: &[u8], high: u16, full: &Ran, bare: &Ran) {
    if full.outcome != 0 || !reference::calm(image) {
        return;
    }
    let ((steps, with), (fewer, without)) = (seen(full, high), seen(bare, high));
    let agreed = bare.outcome == 0 && fewer <= steps && with == without;
    assert!(agreed, "the stripped run differs, high {high:04x}: {with:?} and {without:?}\nimage {}", hex(image));
}
