//! Lent memory of the right lengths, and the calls that use it.
use crate::{call, call_frames, Frames, Refusal, Run, Written, REPORT_LENGTH, WORK_LENGTH};

/// The memory that is lent to calls: a log and a report, or as many as frames are run at once, and a work area. It can be
/// lent again and again.
#[derive(Clone, Debug)]
pub struct Lent {
    /// The length of one log.
    log: usize,
    logs: Vec<u8>,
    reports: Vec<u8>,
    work: Vec<u8>,
}

impl Lent {
    /// A log of so many bytes, a report and a work area of their published lengths. A printed number takes 10 bytes of
    /// log; no log is too short to start.
    #[must_use]
    pub fn new(log: usize) -> Lent {
        Lent { log, logs: vec![0; log], reports: vec![0; REPORT_LENGTH], work: vec![0; WORK_LENGTH] }
    }

    /// Makes room for so many logs and reports, and lends them with the work area.
    fn parts(&mut self, count: usize) -> (&mut [u8], &mut [u8], &mut [u8]) {
        let (logs, reports) = (self.log.saturating_mul(count), REPORT_LENGTH.saturating_mul(count));
        if self.reports.len() < reports {
            (self.logs, self.reports) = (vec![0; logs], vec![0; reports]);
        }
        (&mut self.logs[..logs], &mut self.reports[..reports], &mut self.work)
    }
}

/// Accepts or refuses the image, and runs an accepted one over the frame for at most `budget` steps.
///
/// The report and the work area are long enough, so no refusal is [`Cause::ShortReport`](crate::Cause::ShortReport) or
/// [`Cause::ShortWorkArea`](crate::Cause::ShortWorkArea).
///
/// # Errors
///
/// A [`Refusal`] with its number and place, if the image is refused.
///
/// # Panics
///
/// Never: the library is proved to write a report that begins with outcome and steps.
pub fn run<'a>(image: &[u8], frame: &[u8], budget: u32, lent: &'a mut Lent) -> Result<Run<'a>, Refusal> {
    let (log, report, work) = lent.parts(1);
    let written = call(image, frame, budget, log, report, work)?;
    Ok(read(written, log, report))
}

/// Accepts or refuses the image, once, and runs an accepted one over each frame, for at most `budget` steps each: the
/// runs that [`run`] would make, one after another, in less time. Without frames there are no runs, whatever the image.
///
/// The lent memory grows to a log and a report for each frame, so run a long recording in batches:
///
/// ```
/// use bukzarn::program::Program;
/// use bukzarn::{run_frames, Frames, Leaf, Lent};
///
/// let mut program = Program::new(&[1]);
/// let one = program.number(1);
/// let byte = program.frame_byte(one);
/// let image = program.image(&byte);
///
/// let recording = [10, 11, 20, 21, 30, 31];
/// let mut lent = Lent::new(16_384);
/// for (batch, expected) in recording.chunks(4).zip([&[11, 21][..], &[31]]) {
///     let frames = Frames::of_length(batch, 2).expect("whole frames");
///     let runs = run_frames(&image, frames, 100, &mut lent).unwrap();
///     let second_bytes: Vec<_> = runs.iter().flat_map(|run| run.result()).collect();
///     assert!(second_bytes.into_iter().eq(expected.iter().map(|byte| Leaf::Number(*byte))));
/// }
/// ```
///
/// # Errors
///
/// A [`Refusal`] with its number and place, if the image is refused and there is a frame.
///
/// # Panics
///
/// If there is no memory for so many logs and reports.
pub fn run_frames<'a>(image: &[u8], frames: Frames, budget: u32, lent: &'a mut Lent) -> Result<Vec<Run<'a>>, Refusal> {
    let length = lent.log;
    let (logs, reports, work) = lent.parts(frames.count());
    let answers = call_frames(image, frames, budget, logs, reports, work);
    let (logs, reports) = (&*logs, &*reports);
    let run = |(i, answer): (usize, Result<Written, Refusal>)| {
        answer.map(|written| read(written, &logs[i * length..], &reports[i * REPORT_LENGTH..]))
    };
    answers.into_iter().enumerate().map(run).collect()
}

/// What a run left at the front of log and report.
fn read<'a>(written: Written, log: &'a [u8], report: &'a [u8]) -> Run<'a> {
    let run = Run::read(&log[..written.log], &report[..written.report]);
    run.expect("a report begins with outcome and steps")
}
