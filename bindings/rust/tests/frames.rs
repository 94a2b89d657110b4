//! Many frames in one call: the answers and the lent memory of one call for each frame.
use bukzarn::{call, call_frames, run, run_frames, Cause, Frames, Lent, Refusal, Written, REPORT_LENGTH, WORK_LENGTH};

const IMAGE: &[u8] = include_bytes!("../../../examples/ascent/watched.img");
const RECORDING: &[u8] = include_bytes!("../../../examples/ascent/ascent.frames");
const LENGTH: usize = 12;
const BUDGET: u32 = 100_000;
const LOG: usize = 16_384;

/// Logs, reports and a work area, with something in them.
#[derive(Clone, PartialEq)]
struct Memory {
    logs: Vec<u8>,
    reports: Vec<u8>,
    work: Vec<u8>,
}

impl Memory {
    fn new(logs: usize, reports: usize, work: usize) -> Memory {
        let filled = |length| (0..length).map(|i| (i % 251) as u8).collect();
        Memory { logs: filled(logs), reports: filled(reports), work: filled(work) }
    }

    /// One call for each frame, each with its part of the memory.
    fn one_by_one(&mut self, image: &[u8], frames: &[u8], count: usize) -> Vec<Result<Written, Refusal>> {
        let part = |length: usize, i: usize| i * (length / count)..(i + 1) * (length / count);
        let one = |i| {
            let frame = &frames[part(frames.len(), i)];
            let (log, report) = (part(self.logs.len(), i), part(self.reports.len(), i));
            call(image, frame, BUDGET, &mut self.logs[log], &mut self.reports[report], &mut self.work)
        };
        (0..count).map(one).collect()
    }

    fn together(&mut self, image: &[u8], frames: &[u8], count: usize) -> Vec<Result<Written, Refusal>> {
        let frames = Frames::in_parts(frames, count);
        call_frames(image, frames, BUDGET, &mut self.logs, &mut self.reports, &mut self.work)
    }
}

/// The answers, which are the same one by one and together, as is what is left.
fn compared(image: &[u8], frames: &[u8], count: usize, memory: &Memory) -> Vec<Result<Written, Refusal>> {
    let (mut one_by_one, mut together) = (memory.clone(), memory.clone());
    let answers = together.together(image, frames, count);
    assert_eq!(answers, one_by_one.one_by_one(image, frames, count));
    assert!(one_by_one == together, "lent memory differs");
    assert!(answers.iter().all(Result::is_ok) || *memory == together, "a refusal wrote");
    answers
}

#[test]
fn the_ascent() {
    let count = RECORDING.len() / LENGTH;
    let answers = compared(IMAGE, RECORDING, count, &Memory::new(count * LOG, count * REPORT_LENGTH, WORK_LENGTH));
    assert_eq!((answers.len(), answers.iter().filter(|answer| answer.is_ok()).count()), (600, 600));
    let printed: usize = answers.iter().flatten().map(|written| written.log / 10).sum();
    let table = include_str!("../../../examples/ascent/watched.csv");
    assert_eq!(printed, table.lines().count() - 1);
}

/// What does not divide into equal parts is left over, and logs may be short.
#[test]
fn parts_of_any_length() {
    for (frames, logs) in [(0, 0), (1, 7), (5, 65), (7, 29), (24, 100), (61, 16_384)] {
        let memory = Memory::new(logs, 5 * REPORT_LENGTH + 4, WORK_LENGTH + 9);
        assert!(compared(IMAGE, &RECORDING[..frames], 5, &memory).iter().all(Result::is_ok));
    }
}

#[test]
fn refusals() {
    let memory = Memory::new(100, 3 * REPORT_LENGTH, WORK_LENGTH);
    let refused = |image: &[u8], memory| {
        let answers = compared(image, &RECORDING[..36], 3, memory);
        assert!(answers.len() == 3 && answers.iter().all(|answer| *answer == answers[0]));
        answers[0].unwrap_err()
    };
    assert_eq!(refused(&[], &memory), Refusal { cause: Cause::EmptySection, place: 0 });
    assert_eq!(refused(&[0; 16_385], &memory), Refusal { cause: Cause::ImageTooLong, place: 0 });
    assert_eq!(refused(&IMAGE[..IMAGE.len() - 1], &memory).cause, Cause::BrokenRecord);
    let short_report = Memory::new(100, 3 * REPORT_LENGTH - 1, WORK_LENGTH);
    assert_eq!(refused(IMAGE, &short_report), Refusal { cause: Cause::ShortReport, place: 0 });
    let short_work = Memory::new(100, 3 * REPORT_LENGTH, WORK_LENGTH - 1);
    assert_eq!(refused(IMAGE, &short_work), Refusal { cause: Cause::ShortWorkArea, place: 0 });
}

/// Without frames nothing happens, also to an image that would be refused.
#[test]
fn no_frames() {
    for image in [IMAGE, &[]] {
        let (mut memory, before) = (Memory::new(100, 100, 100), Memory::new(100, 100, 100));
        assert_eq!(memory.together(image, RECORDING, 0), []);
        assert!(memory == before);
        assert_eq!(run_frames(image, Frames::in_parts(&[], 0), BUDGET, &mut Lent::new(LOG)).unwrap().len(), 0);
    }
}

#[test]
fn frames_of_no_bytes() {
    let mut lent = Lent::new(LOG);
    let runs = run_frames(IMAGE, Frames::in_parts(&[], 3), BUDGET, &mut lent).unwrap();
    let left: Vec<_> = runs.iter().map(|run| (run.log_bytes().to_vec(), run.report_bytes().to_vec())).collect();
    let single = run(IMAGE, &[], BUDGET, &mut lent).unwrap();
    let single = (single.log_bytes().to_vec(), single.report_bytes().to_vec());
    assert_eq!(left, vec![single; 3]);
}

/// Memory that was lent to a batch serves single calls and batches of other sizes.
#[test]
fn lent_memory_serves_batches() {
    let (mut lent, mut other) = (Lent::new(LOG), Lent::new(LOG));
    let mut frames = RECORDING.chunks(LENGTH);
    for size in [2, 64, 1, 0, 65, 3] {
        let batch: Vec<u8> = frames.by_ref().take(size).flatten().copied().collect();
        let runs = run_frames(IMAGE, Frames::of_length(&batch, LENGTH).unwrap(), BUDGET, &mut lent).unwrap();
        assert_eq!(runs.len(), size);
        for (run_of_batch, frame) in runs.iter().zip(batch.chunks(LENGTH)) {
            let single = run(IMAGE, frame, BUDGET, &mut other).unwrap();
            assert_eq!(
                (run_of_batch.log_bytes(), run_of_batch.report_bytes()),
                (single.log_bytes(), single.report_bytes())
            );
        }
    }
    let refused = run_frames(&[], Frames::of_length(RECORDING, LENGTH).unwrap(), BUDGET, &mut lent);
    assert_eq!(refused.unwrap_err(), Refusal { cause: Cause::EmptySection, place: 0 });
}

#[test]
fn only_whole_frames() {
    assert_eq!(Frames::of_length(RECORDING, LENGTH).map(|frames| frames.count()), Some(600));
    assert_eq!(Frames::of_length(&RECORDING[..25], LENGTH), None);
    assert_eq!(Frames::of_length(&RECORDING[..5], LENGTH), None);
    assert_eq!(Frames::of_length(RECORDING, 0), None);
    assert_eq!(Frames::of_length(&[], LENGTH).map(|frames| frames.count()), Some(0));
}
