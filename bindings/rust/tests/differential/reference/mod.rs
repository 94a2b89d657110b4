//! What a call answers and leaves, written from documents 01, 02 (cards 1 to 3, 5 to 11 and 13) and 003 alone and as literally
//! as possible: the check rule by rule, the run by substitution. It shares no text with the engine.
mod decode;
mod layout;
pub mod needs;
mod report;
mod run;
mod shape;
mod stacks;
mod step;
mod term;
mod typing;
mod written;

/// The published length of the work area, and the least length of a report.
pub const WORK: usize = 35_857;
pub const REPORT: usize = 17_994;

/// Number and place of a refusal.
#[derive(Clone, Copy, Debug, PartialEq, Eq)]
pub struct Refused(pub u16, pub usize);

/// What a run left: its outcome, and the bytes that it wrote; and what it used, as card 10 counts it.
pub struct Ran {
    pub outcome: u16,
    pub log: Vec<u8>,
    pub report: Vec<u8>,
    pub used: needs::Numbers,
}

/// The records of an image that the check accepts: refusals 1 to 16.
fn check(image: &[u8]) -> Result<layout::Records, Refused> {
    let records = layout::read(image)?;
    shape::check(&records)?;
    typing::check(&records)?;
    Ok(records)
}

/// One call with lent parts of these lengths.
pub fn call(image: &[u8], frame: &[u8], budget: u32, log: usize, report: usize, work: usize) -> Result<Ran, Refused> {
    let records = check(image)?;
    if work < WORK {
        return Err(Refused(17, 0));
    }
    if report < REPORT {
        return Err(Refused(18, 0));
    }
    let ended = run::run(decode::root(&records), frame, budget, log);
    Ok(Ran { outcome: ended.outcome, report: report::report(&ended), used: ended.used, log: ended.log })
}

/// What a run of an image will need (document 02, card 10).
pub fn need(image: &[u8]) -> Result<needs::Numbers, Refused> {
    needs::needs(&check(image)?)
}

/// Is this an accepted image without choice, mark and takedown?
pub fn straight(image: &[u8]) -> bool {
    check(image).is_ok_and(|records| needs::straight(&records))
}

/// The fixed form of an image, with an output of so many bytes (document 02, card 11).
pub fn fixed(image: &[u8], output: usize) -> Result<Vec<u8>, Refused> {
    let records = check(image)?;
    if output < image.len() {
        return Err(Refused(20, 0));
    }
    Ok(written::fixed(&records))
}

/// Another image of an accepted image's program.
pub fn reordered(image: &[u8]) -> Option<Vec<u8>> {
    check(image).ok().map(|records| written::reordered(&records))
}

/// The image stripped of its watches, for a set of high domains and an output of so many bytes (document 02, card 13).
pub fn stripped(image: &[u8], high: u16, output: usize) -> Result<Vec<u8>, Refused> {
    let records = check(image)?;
    if !written::high_domains(&records, high) {
        return Err(Refused(23, 0));
    }
    if output < image.len() {
        return Err(Refused(24, 0));
    }
    Ok(written::stripped(&records, high))
}

/// Is this an accepted image without takedowns?
pub fn calm(image: &[u8]) -> bool {
    check(image).is_ok_and(|records| !written::takes_down(&records))
}
