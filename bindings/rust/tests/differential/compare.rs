//! Calls of the library beside the reference, every lent byte compared.
use crate::random::Random;
use crate::reference::{self, Ran, Refused};
use bukzarn::{Frames, Refusal, Run, Written};

/// Bytes of noise around each lent part, which no call may touch.
const GUARD: usize = 16;

/// What is given to a call; log, report and work area by their lengths.
#[derive(Clone)]
pub struct Given<'a> {
    pub image: &'a [u8],
    pub frame: Vec<u8>,
    pub budget: u32,
    pub log: usize,
    pub report: usize,
    pub work: usize,
}

/// The three lent parts in one piece of memory, with guards around them.
struct Memory {
    bytes: Vec<u8>,
    starts: [usize; 3],
    lengths: [usize; 3],
}

impl Memory {
    fn new(random: &mut Random, lengths: [usize; 3]) -> Memory {
        let starts = [GUARD, 2 * GUARD + lengths[0], 3 * GUARD + lengths[0] + lengths[1]];
        let mut bytes = vec![0; starts[2] + lengths[2] + GUARD];
        random.fill(&mut bytes);
        Memory { bytes, starts, lengths }
    }

    fn parts(&mut self) -> [&mut [u8]; 3] {
        let (before, work) = self.bytes.split_at_mut(self.starts[2]);
        let (before, report) = before.split_at_mut(self.starts[1]);
        let log = &mut before[self.starts[0]..];
        [&mut log[..self.lengths[0]], &mut report[..self.lengths[1]], &mut work[..self.lengths[2]]]
    }

    /// "Bytes past these are unchanged. The work area is zero over its published length and unchanged past it." So it is
    /// of each call, with its part of log and report. A refusal writes nothing.
    fn after(&self, calls: &[Result<Ran, Refused>]) -> Vec<u8> {
        let mut bytes = self.bytes.clone();
        for (i, ran) in calls.iter().enumerate().filter_map(|(i, call)| Some((i, call.as_ref().ok()?))) {
            let [log, report] = [0, 1].map(|part| self.starts[part] + i * (self.lengths[part] / calls.len()));
            bytes[log..][..ran.log.len()].copy_from_slice(&ran.log);
            bytes[report..][..ran.report.len()].copy_from_slice(&ran.report);
            bytes[self.starts[2]..][..reference::WORK].fill(0);
        }
        bytes
    }
}

/// Calls the library and the reference; panics where they differ.
pub fn compare(random: &mut Random, given: &Given) -> Result<Ran, Refused> {
    let expected = reference::call(given.image, &given.frame, given.budget, given.log, given.report, given.work);
    let mut memory = Memory::new(random, [given.log, given.report, given.work]);
    let after = memory.after(std::slice::from_ref(&expected));
    let read_only = (given.image.to_vec(), given.frame.clone());
    let [log, report, work] = memory.parts();
    let answer = bukzarn::call(given.image, &given.frame, given.budget, log, report, work);
    same_answer(given, &expected, answer);
    agree(given, memory.bytes == after, "lent memory");
    agree(given, (given.image, &given.frame) == (&read_only.0, &read_only.1), "what is only read");
    if let (Ok(ran), Ok(written)) = (&expected, answer) {
        let [log, report, _] = memory.parts();
        let run = Run::read(&log[..written.log], &report[..written.report]).unwrap();
        agree(given, run.outcome().number() == ran.outcome, "the outcome that is read");
    }
    expected
}

/// Calls the library once over several frames, the given one and others of its length, and the reference over each of
/// them; panics where they differ. Bytes of frames, logs and reports may be left over.
pub fn compare_frames(random: &mut Random, given: &Given) {
    let count = random.below(4);
    let left_over = |random: &mut Random| random.below(count.max(1));
    let mut frames = vec![0; count * given.frame.len() + left_over(random)];
    random.fill(&mut frames);
    if count > 0 {
        frames[..given.frame.len()].copy_from_slice(&given.frame);
    }
    let of_frame = |i| &frames[i * given.frame.len()..][..given.frame.len()];
    let single = |i| reference::call(given.image, of_frame(i), given.budget, given.log, given.report, given.work);
    let expected: Vec<_> = (0..count).map(single).collect();
    let [logs, reports] = [given.log, given.report].map(|length| count * length + left_over(random));
    let mut memory = Memory::new(random, [logs, reports, given.work]);
    let after = memory.after(&expected);
    let [logs, reports, work] = memory.parts();
    let answers =
        bukzarn::call_frames(given.image, Frames::in_parts(&frames, count), given.budget, logs, reports, work);
    agree(given, answers.len() == count, "how many answers there are");
    for (expected, answer) in expected.iter().zip(answers) {
        same_answer(given, expected, answer);
    }
    agree(given, memory.bytes == after, "memory lent for several frames");
}

fn same_answer(given: &Given, expected: &Result<Ran, Refused>, answer: Result<Written, Refusal>) {
    let expected = match expected {
        Ok(ran) => Ok((ran.log.len(), ran.report.len())),
        Err(refused) => Err(*refused),
    };
    let refused = |refusal: Refusal| Refused(refusal.cause.number(), refusal.place);
    let answered = answer.map(|written| (written.log, written.report)).map_err(refused);
    agree(given, answered == expected, &format!("answers: {answered:?}, by the reference {expected:?}"));
    let verdict = bukzarn::validate(given.image, given.work, given.report).map_err(refused);
    agree(given, verdict == expected.map(|_| ()), &format!("verdicts: {verdict:?}, by the reference {expected:?}"));
}

fn agree(given: &Given, agreed: bool, what: &str) {
    assert!(
        agreed,
        "difference in {what}\nframe {:?}\nbudget {} log {} report {} work {}\nimage {}",
        given.frame,
        given.budget,
        given.log,
        given.report,
        given.work,
        hex(given.image)
    );
}

/// Bytes as a failed comparison shows them.
pub fn hex(bytes: &[u8]) -> String {
    bytes.iter().map(|byte| format!("{byte:02x}")).collect()
}
