//! `bukzarn run`: an image over one frame, or over each frame of a recording.
use crate::arguments::Arguments;
use crate::error::{Error, Status};
use crate::input::{self, Recording};
use crate::memory::Memory;
use crate::output::{Format, Rows};
use crate::plan::{Plan, CELLS, TOTALS};
use crate::program::{expected_name, Program, NAME};
use crate::progress::Progress;
use crate::sink::Sink;
use crate::tally::Tally;
use crate::totals::Totals;
use crate::{help, signals};
use bukzarn::{run, run_frames, validate, Lent, Run, REPORT_LENGTH, WORK_LENGTH};
use std::ffi::OsString;
use std::io::Write;
use std::path::{Path, PathBuf};

const OPTIONS: [&str; 9] =
    ["--frame", "--frames", "--length", "--budget", "--log", "--out", "--report", "--log-file", NAME];

/// Runs the image as the words say.
pub fn command(words: &[OsString]) -> Result<Status, Error> {
    let words = Arguments::parse(words, "run", &OPTIONS, &[CELLS, TOTALS])?;
    if words.help {
        return help::show("run");
    }
    let (plan, name) = (Plan::read(&words)?, expected_name(&words)?);
    let program = Program::read(&words)?;
    program.check_name(name)?;
    if let Err(refusal) = validate(&program.image, WORK_LENGTH, REPORT_LENGTH) {
        return program.refused(refusal, plan.format == Format::Listing);
    }
    let mut runner = Runner::new(&words, &plan, program.image);
    let status = match plan.length {
        Some(length) => runner.recording(Path::new(words.value("--frames").unwrap_or_default()), length),
        None => runner.single(words.value("--frame").map(Path::new)),
    };
    let written = runner.outputs.finish();
    status.and_then(|status| written.map(|()| status))
}

/// Frames of a recording that are run at once, and the bytes of logs and reports that are lent for it, if one frame does
/// not take more.
const BATCH: usize = 64;
const LENT: usize = 16 << 20;

/// An accepted image with the memory that is lent to the calls, and where the runs are written.
struct Runner {
    image: Vec<u8>,
    budget: u32,
    batch: usize,
    lent: Lent,
    outputs: Outputs,
}

impl Runner {
    fn new(words: &Arguments, plan: &Plan, image: Vec<u8>) -> Runner {
        let batch = (LENT / (plan.log + REPORT_LENGTH)).clamp(1, BATCH);
        let outputs = Outputs::new(words, plan);
        Runner { image, budget: plan.budget, batch, lent: Lent::new(plan.log), outputs }
    }

    /// One frame: a file, or the bench sheet's bytes 0 to 255.
    fn single(&mut self, path: Option<&Path>) -> Result<Status, Error> {
        let frame = path.map_or_else(|| Ok((0..=u8::MAX).collect()), input::frame)?;
        let run = run(&self.image, &frame, self.budget, &mut self.lent).map_err(Error::Refused)?;
        self.outputs.open()?;
        self.outputs.write(0, &run)?;
        if self.outputs.format != Format::Listing && !self.outputs.tally.all_done() {
            self.outputs.summary("");
        }
        Ok(self.outputs.status())
    }

    /// Each frame of a recording. However it ends, what was counted till then is told, unless nobody reads us any more; also
    /// if a signal ends it.
    fn recording(&mut self, path: &Path, length: usize) -> Result<Status, Error> {
        let mut recording = Recording::open(path, length, self.batch)?;
        signals::install_handlers();
        if let Some(words) = Memory::of(&self.image).notice() {
            let _ = writeln!(std::io::stderr(), "bukzarn: {words}");
        }
        let mut progress = Progress::new(recording.expected);
        let ended = self.frames(&mut recording, &mut progress);
        progress.clear();
        let frames = self.outputs.tally.frames();
        if !ended.as_ref().is_err_and(Error::is_closed_pipe) {
            self.outputs.summary(&format!("{frames} frames in {}: ", progress.speed(frames)));
        }
        ended.map(|()| self.outputs.status())
    }

    /// Runs the image over the frames, a batch at a time.
    fn frames(&mut self, recording: &mut Recording, progress: &mut Progress) -> Result<(), Error> {
        let mut count = 0;
        while let Some(frames) = recording.next()? {
            if count == 0 {
                self.outputs.open()?;
            }
            let runs = run_frames(&self.image, frames, self.budget, &mut self.lent).map_err(Error::Refused)?;
            for run in runs {
                self.outputs.name(count)?;
                self.outputs.write(count, &run)?;
                count += 1;
                progress.at(count);
            }
            // Whoever waits for the rows has them before the next frames are waited for.
            self.outputs.flush()?;
        }
        Ok(())
    }
}

/// Where the runs are written, and how many ended how. Nothing is opened before there is something to write.
struct Outputs {
    format: Format,
    rows: Rows,
    report_file: Option<PathBuf>,
    log_file: Option<PathBuf>,
    sinks: Option<Sinks>,
    tally: Tally,
    totals: Totals,
}

/// Standard output, and the files for the bytes themselves.
struct Sinks {
    out: Sink,
    report: Option<Sink>,
    log: Option<Sink>,
}

impl Sinks {
    /// Does something with each of them; the first failure is told.
    fn each(&mut self, perform: impl Fn(&mut Sink) -> Result<(), Error>) -> Result<(), Error> {
        let sinks = [Some(&mut self.out), self.report.as_mut(), self.log.as_mut()];
        sinks.into_iter().flatten().map(perform).fold(Ok(()), Result::and)
    }
}

impl Outputs {
    fn new(words: &Arguments, plan: &Plan) -> Outputs {
        let file = |name| words.value(name).map(PathBuf::from);
        let (report_file, log_file) = (file("--report"), file("--log-file"));
        let (tally, totals) = (Tally::default(), Totals::default());
        Outputs { format: plan.format, rows: plan.rows, report_file, log_file, sinks: None, tally, totals }
    }

    /// Opens everything that is written to, now that there is something to write.
    fn open(&mut self) -> Result<(), Error> {
        let create = |file: &Option<PathBuf>| file.as_deref().map(Sink::create).transpose();
        let (report, log, mut out) = (create(&self.report_file)?, create(&self.log_file)?, Sink::standard()?);
        out.put(|out| out.write_all(self.format.head(self.rows).as_bytes()))?;
        self.sinks = Some(Sinks { out, report, log });
        Ok(())
    }

    /// The line above the listing of a frame.
    fn name(&mut self, number: u64) -> Result<(), Error> {
        match &mut self.sinks {
            Some(sinks) if self.format == Format::Listing => sinks.out.put(|out| writeln!(out, "frame {number}")),
            _ => Ok(()),
        }
    }

    /// Writes what a run left.
    fn write(&mut self, number: u64, run: &Run) -> Result<(), Error> {
        self.tally.add(run.outcome());
        if self.rows == Rows::Totals {
            self.totals.add(run);
        }
        let Some(sinks) = &mut self.sinks else { return Ok(()) };
        sinks.out.put(|out| self.format.write(out, self.rows, number, run))?;
        if let Some(report) = &mut sinks.report {
            report.put(|out| out.write_all(run.report_bytes()))?;
        }
        if let Some(log) = &mut sinks.log {
            log.put(|out| out.write_all(run.log_bytes()))?;
        }
        Ok(())
    }

    /// Writes out what is held back, everywhere.
    fn flush(&mut self) -> Result<(), Error> {
        self.sinks.as_mut().map_or(Ok(()), |sinks| sinks.each(Sink::flush))
    }

    /// Tells how many runs ended how.
    fn summary(&self, head: &str) {
        if self.tally.frames() > 0 {
            let _ = writeln!(std::io::stderr(), "bukzarn: {head}{}", self.tally);
        }
    }

    fn status(&self) -> Status {
        if self.tally.all_done() {
            Status::Done
        } else {
            Status::Otherwise
        }
    }

    /// Writes the totals, if they are asked for, and what is still held back; the files take their places.
    fn finish(&mut self) -> Result<(), Error> {
        let Some(mut sinks) = self.sinks.take() else { return Ok(()) };
        let rows = if self.rows == Rows::Totals { self.totals.rows(self.format) } else { String::new() };
        let written = sinks.out.put(|out| out.write_all(rows.as_bytes()));
        written.and(sinks.each(Sink::finish))
    }
}
