//! The job of one image in other languages, as what a station might take instead of the engine, beside the engines on the
//! image itself.
mod programs;
mod rows;

use crate::images::{harmful_decode, Image, DECODED};
use crate::measure::{summary, Lent, Time};
use crate::processor::processor_time;
use crate::table;
use crate::{verified, Engine};
use bukzarn::{Leaf, Outcome, Run};
use rows::{Program, Watch};
use std::hint::black_box;

/// Fewer instructions than a call in any language needs, and fewer steps than the run of the image: it is stopped if the
/// limit is kept.
const TOO_FEW: u32 = 1_000;

/// The nanoseconds that the calls of one measurement take, about: long beside a microsecond, the unit of most clocks.
const BATCH: f64 = 1e6;
const MOST_CALLS: f64 = 2_000.0;

/// The number of the refusal of a watch that stores to the decoder's cell: a domain rule.
const DOMAIN_RULE: u16 = 15;

/// A line of the table.
pub struct Line {
    name: &'static str,
    /// Nothing without a step limit, else whether it is kept.
    kept: Option<bool>,
    /// Whether a watch can change the decoder's state: yes, no, or that it is refused.
    harm: &'static str,
    time: Time,
}

/// The lines, the verified engine's first; what is not installed; the versions of what is.
pub struct Compared {
    lines: Vec<Line>,
    absent: Vec<String>,
    versions: Vec<String>,
}

impl Compared {
    /// All its times.
    pub fn times(&mut self) -> impl Iterator<Item = &mut Time> {
        self.lines.iter_mut().map(|line| &mut line.time)
    }

    /// How many times as fast as the engine a line is.
    fn faster(&self, name: &str) -> Option<f64> {
        let line = self.lines.iter().find(|line| line.name == name)?;
        Some(self.lines[0].time.least / line.time.least)
    }

    /// The table, what it comes to, and what was left out.
    pub fn text(&self) -> String {
        let heads = [DECODED, "step limit", "harm", "least", "median", "ratio"].map(String::from);
        let mut text = "The decoding job, in nanoseconds of processor time:\n\n".to_string() + &table::head(&heads);
        for of in &self.lines {
            let limit = of.kept.map_or("none", |kept| if kept { "kept" } else { "not kept" });
            let ratio = self.lines[0].time.least / of.time.least;
            let times = [of.time.least, of.time.median].map(|time| format!("{time:.0}"));
            let words = [of.name, limit, of.harm].map(String::from);
            text += &table::line(&[&words[..], &times, &[format!("{ratio:.2}")]].concat());
        }
        if let Some(times) = self.faster(programs::SANDBOX) {
            text += &format!(
                "\nA compiled sandbox with fuel is {times:.0} times as fast as the verified engine, and says nothing of \
                 harm: what is hung on the decoder may change whatever the sandbox holds.\n"
            );
        }
        if !self.versions.is_empty() {
            text += &format!("\nMeasured with {}.\n", self.versions.join("; "));
        }
        if !self.absent.is_empty() {
            text += &format!("\nNot installed, and so left out: {}.\n", self.absent.join(", "));
        }
        text
    }
}

/// What the job leaves by the engine's report and log: the result, greatest byte and sum, the printed numbers.
fn left(image: &Image) -> Vec<i64> {
    let mut lent = Lent::new();
    let (log, report) = lent.call(verified, &image.bytes, u32::MAX).expect("the image is accepted");
    let run = Run::read(&lent.log[..log], &lent.report[..report]).expect("a run reports");
    assert_eq!(run.outcome(), Outcome::Done);
    let number = |leaf| if let Leaf::Number(number) = leaf { number } else { panic!("{leaf} is not a number") };
    let cells = run.cells().filter_map(|cell| cell.leaves).flatten();
    let numbers = run.result().chain(cells).map(number).chain(run.log().map(|record| record.number));
    numbers.map(i64::from).collect()
}

/// So many calls of about this time fill a batch.
fn batch_of(time: f64) -> u32 {
    (BATCH / time.max(1.0)).clamp(1.0, MOST_CALLS) as u32
}

/// The nanoseconds of one of so many calls of an engine.
fn engine_calls(engine: Engine, lent: &mut Lent, image: &Image, calls: u32) -> f64 {
    let start = processor_time();
    for _ in 0..calls {
        let _ = black_box(lent.call(engine, black_box(&image.bytes), u32::MAX));
    }
    (processor_time() - start) / f64::from(calls)
}

/// Whether an engine keeps the budget.
fn engine_keeps(engine: Engine, lent: &mut Lent, image: &Image) -> bool {
    let answer = lent.call(engine, &image.bytes, TOO_FEW);
    let run = answer.ok().and_then(|(log, report)| Run::read(&lent.log[..log], &lent.report[..report]));
    run.is_some_and(|run| (run.outcome(), run.steps()) == (Outcome::Spent, TOO_FEW))
}

/// What an engine says of the image whose watch stores to the decoder's sum.
fn engine_harm(engine: Engine, lent: &mut Lent) -> &'static str {
    match lent.call(engine, &harmful_decode(), u32::MAX) {
        Err((DOMAIN_RULE, _)) => "refused",
        _ => "yes",
    }
}

/// Whether a watch that tries to changes the decoder's state: its numbers are others then, of this frame or of the next.
fn harm(program: &mut Program, expected: &[i64]) -> &'static str {
    let numbers = program.calls(2, program.limit, Watch::Harmful).1;
    if numbers.get(..3) == expected.get(..3) {
        "no"
    } else {
        "yes"
    }
}

/// Measures each engine and each program in turn, again and again, so that a busy machine disturbs all alike. Before,
/// what they leave is compared.
pub fn compare(image: &Image, engines: &[Engine], repetitions: usize) -> Compared {
    let mut lent = Lent::new();
    let expected = left(image);
    let (mut programs, absent, versions) = rows::start(&lent.frame, &expected);
    let engine_batch = batch_of(engine_calls(engines[0], &mut lent, image, 20));
    let batches: Vec<u32> = programs.iter_mut().map(|p| batch_of(p.calls(20, p.limit, Watch::Honest).0)).collect();
    let mut times = vec![vec![]; engines.len() + programs.len()];
    for _ in 0..repetitions {
        let of_engines = engines.iter().map(|engine| engine_calls(*engine, &mut lent, image, engine_batch));
        let measured = programs.iter_mut().zip(&batches);
        let of_programs = measured.map(|(program, calls)| program.calls(*calls, program.limit, Watch::Honest).0);
        for (times, time) in times.iter_mut().zip(of_engines.chain(of_programs)) {
            times.push(time);
        }
    }
    let names = ["verified engine", "plain engine"].into_iter().zip(engines);
    let mut said: Vec<(&'static str, Option<bool>, &'static str)> = vec![];
    for (name, engine) in names {
        said.push((name, Some(engine_keeps(*engine, &mut lent, image)), engine_harm(*engine, &mut lent)));
    }
    for program in &mut programs {
        said.push((program.name, program.kept(TOO_FEW), harm(program, &expected)));
    }
    let line = |((name, kept, harm), times)| Line { name, kept, harm, time: summary(times) };
    Compared { lines: said.into_iter().zip(times).map(line).collect(), absent, versions }
}
