//! One procedure over its recording: answers compared, then times.
use super::images::Procedure;
use crate::instructions::Counter;
use crate::processor::processor_time;
use crate::worst::Function;
use bukzarn::{call, call_frames, validate, Frames, Refusal, Written, REPORT_LENGTH, WORK_LENGTH};
use std::hint::black_box;

const LOG: usize = 16_384;
/// The frames of one call of a recording.
const BATCH: usize = 64;
/// What lent memory holds before calls are compared.
const BEFORE: u8 = 0xA5;

/// What was measured; times in nanoseconds.
pub struct Recorded {
    pub name: &'static str,
    pub bytes: usize,
    pub length: usize,
    pub frames: usize,
    /// Of all frames together.
    steps: u64,
    pub check: f64,
    /// A frame in a call of its own, with the greatest budget and with none.
    pub single: f64,
    start: f64,
    /// A frame among others in one call.
    pub together: f64,
    /// Of a step, if they are counted.
    pub instructions: Option<f64>,
}

impl Recorded {
    pub fn steps_a_frame(&self) -> f64 {
        self.steps as f64 / self.frames as f64
    }

    /// The nanoseconds of a step in single calls.
    pub fn step(&self) -> f64 {
        (self.single - self.start).max(0.0) / self.steps_a_frame()
    }
}

/// Memory for one call, or for a batch of frames.
struct Memory {
    logs: Vec<u8>,
    reports: Vec<u8>,
    work: Vec<u8>,
}

impl Memory {
    fn new(frames: usize, content: u8) -> Memory {
        Memory {
            logs: vec![content; frames * LOG],
            reports: vec![content; frames * REPORT_LENGTH],
            work: vec![content; WORK_LENGTH],
        }
    }

    fn single(&mut self, procedure: &Procedure, frame: &[u8], budget: u32) -> Result<Written, Refusal> {
        let (log, report) = (&mut self.logs[..LOG], &mut self.reports[..REPORT_LENGTH]);
        call(black_box(&procedure.image), frame, budget, log, report, &mut self.work)
    }

    fn together(&mut self, procedure: &Procedure, frames: &[u8]) -> Vec<Result<Written, Refusal>> {
        let frames = Frames::of_length(frames, procedure.length).expect("the recording has whole frames");
        let (logs, reports) =
            (&mut self.logs[..frames.count() * LOG], &mut self.reports[..frames.count() * REPORT_LENGTH]);
        call_frames(black_box(&procedure.image), frames, u32::MAX, logs, reports, &mut self.work)
    }
}

/// The steps that a report tells of.
fn steps(report: &[u8]) -> u64 {
    u64::from(u32::from_le_bytes([report[6], report[7], report[8], report[9]]))
}

/// Runs the recording in batches and frame by frame: answers, logs, reports and the work area must be the same, past
/// what is written too. Answers the steps of all frames, and of the first.
fn compared(procedure: &Procedure) -> (u64, u64) {
    let (mut all, mut first) = (0, None);
    for batch in procedure.frames.chunks(BATCH * procedure.length) {
        let mut together = Memory::new(BATCH, BEFORE);
        let answers = together.together(procedure, batch);
        let mut work = vec![];
        for (i, (frame, answer)) in batch.chunks(procedure.length).zip(answers).enumerate() {
            let mut alone = Memory::new(1, BEFORE);
            let same = alone.single(procedure, frame, u32::MAX) == answer
                && alone.logs == together.logs[i * LOG..][..LOG]
                && alone.reports == together.reports[i * REPORT_LENGTH..][..REPORT_LENGTH];
            assert!(same, "{}: frame {i} of a batch differs from a call of its own", procedure.name);
            let taken = if answer.is_ok() { steps(&alone.reports) } else { 0 };
            all += taken;
            first.get_or_insert(taken);
            work = alone.work;
        }
        assert!(work == together.work, "{}: a batch leaves another work area", procedure.name);
    }
    (all, first.unwrap_or(0))
}

/// The least of some times.
fn least(repetitions: usize, mut time: impl FnMut() -> f64) -> f64 {
    (0..repetitions).map(|_| time()).fold(f64::INFINITY, f64::min)
}

/// The instructions of a step of the first frame's run.
fn counted(procedure: &Procedure, steps: u64, counter: &Counter) -> f64 {
    let frame = &procedure.frames[..procedure.length];
    let count = |function: Function| counter.count(function.symbol(), function.name(), &procedure.image, frame) as f64;
    (count(Function::Call) - count(Function::Start)) / steps as f64
}

pub fn measure(procedure: &Procedure, repetitions: usize, counter: Option<&Counter>) -> Recorded {
    let (steps, first) = compared(procedure);
    let frames = procedure.frames.len() / procedure.length;
    let mut alone = Memory::new(1, 0);
    let mut together = Memory::new(BATCH, 0);
    let mut by_frame = |budget: u32| {
        let start = processor_time();
        for frame in procedure.frames.chunks(procedure.length) {
            let _ = black_box(alone.single(procedure, frame, budget));
        }
        (processor_time() - start) / frames as f64
    };
    let single = least(repetitions, || by_frame(u32::MAX));
    let start = least(repetitions, || by_frame(0));
    let mut by_batch = || {
        let start = processor_time();
        for batch in procedure.frames.chunks(BATCH * procedure.length) {
            black_box(together.together(procedure, batch));
        }
        (processor_time() - start) / frames as f64
    };
    let together = least(repetitions, &mut by_batch);
    let check = least(repetitions, || {
        let start = processor_time();
        for _ in 0..BATCH {
            let _ = black_box(validate(black_box(&procedure.image), WORK_LENGTH, REPORT_LENGTH));
        }
        (processor_time() - start) / BATCH as f64
    });
    Recorded {
        name: procedure.name,
        bytes: procedure.image.len(),
        length: procedure.length,
        frames,
        steps,
        check,
        single,
        start,
        together,
        instructions: counter.filter(|_| first > 0).map(|counter| counted(procedure, first, counter)),
    }
}
