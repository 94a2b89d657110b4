//! Times of the calls on one image.
use crate::images::Image;
use crate::{Answer, Engine};
use std::hint::black_box;
use std::time::Instant;

/// More than any engine's published length of the work area.
const WORK: usize = 65_536;
const REPORT: usize = 17_994;
const LOG: usize = 16_384;

/// Nanoseconds of many calls.
#[derive(Clone, Copy)]
pub struct Time {
    pub least: f64,
    pub median: f64,
}

/// What one engine takes for an image.
#[derive(Clone, Copy)]
pub struct Times {
    /// A whole call.
    pub call: Time,
    /// A call with a budget of no steps.
    pub start: Time,
    /// The check alone: a call with a report of no bytes, which is refused with 18 after everything else is checked.
    pub check: Time,
}

/// What was measured of one image.
pub struct Row {
    pub name: &'static str,
    pub bytes: usize,
    pub terms: usize,
    /// The outcome's number and the steps, or the number of the refusal.
    pub end: Result<(u16, u32), u16>,
    /// The verified engine, then the plain one if there is one.
    pub engines: Vec<Times>,
}

impl Row {
    /// All its times.
    pub fn times(&mut self) -> impl Iterator<Item = &mut Time> {
        self.engines.iter_mut().flat_map(|times| [&mut times.call, &mut times.start, &mut times.check])
    }
}

/// The memory that is lent to a call.
pub struct Lent {
    pub frame: Vec<u8>,
    pub log: Vec<u8>,
    pub report: Vec<u8>,
    work: Vec<u8>,
}

impl Lent {
    pub fn new() -> Lent {
        let frame = (0..240u32).map(|i| (i * 83 % 241) as u8).collect();
        Lent { frame, log: vec![0; LOG], report: vec![0; REPORT], work: vec![0; WORK] }
    }

    pub fn call(&mut self, engine: Engine, image: &[u8], budget: u32) -> Answer {
        engine(image, &self.frame, budget, &mut self.log, &mut self.report, &mut self.work)
    }

    fn check(&mut self, engine: Engine, image: &[u8]) -> Answer {
        engine(image, &self.frame, u32::MAX, &mut self.log, &mut [], &mut self.work)
    }
}

/// The nanoseconds of one of so many calls.
fn time(calls: usize, mut call: impl FnMut() -> Answer) -> f64 {
    let start = Instant::now();
    for _ in 0..calls {
        let _ = black_box(call());
    }
    start.elapsed().as_nanos() as f64 / calls as f64
}

pub fn summary(mut times: Vec<f64>) -> Time {
    times.sort_by(f64::total_cmp);
    Time { least: times[0], median: times[times.len() / 2] }
}

/// How the image ends by the first engine; every engine must leave the same bytes.
fn end(image: &Image, engines: &[Engine]) -> Result<(u16, u32), u16> {
    let left = |engine: Engine| {
        let mut lent = Lent::new();
        let answer = lent.call(engine, &image.bytes, u32::MAX);
        (answer, lent.log, lent.report)
    };
    let (answer, log, report) = left(engines[0]);
    for engine in &engines[1..] {
        assert!(left(*engine) == (answer, log.clone(), report.clone()), "the engines differ on {}", image.name);
    }
    match answer {
        Err((number, _)) => Err(number),
        Ok(_) => {
            let steps = report[6..10].try_into().map(u32::from_le_bytes);
            Ok((u16::from_le_bytes([report[4], report[5]]), steps.unwrap()))
        }
    }
}

/// Measures each engine in turn, again and again, so that a busy machine disturbs all alike.
pub fn measure(image: &Image, engines: &[Engine], repetitions: usize) -> Row {
    let end = end(image, engines);
    let mut lent = Lent::new();
    let bytes = &image.bytes;
    // As many calls at a time as take about 100 microseconds.
    let calls = (100_000.0 / time(5, || lent.call(engines[0], bytes, u32::MAX))).clamp(1.0, 1000.0) as usize;
    let mut times = vec![(vec![], vec![], vec![]); engines.len()];
    for _ in 0..repetitions {
        for (engine, (whole, start, check)) in engines.iter().zip(&mut times) {
            whole.push(time(calls, || lent.call(*engine, black_box(bytes), u32::MAX)));
            start.push(time(calls, || lent.call(*engine, black_box(bytes), 0)));
            check.push(time(calls, || lent.check(*engine, black_box(bytes))));
        }
    }
    let engines = times
        .into_iter()
        .map(|(call, start, check)| Times { call: summary(call), start: summary(start), check: summary(check) })
        .collect();
    Row { name: image.name, bytes: bytes.len(), terms: image.terms(), end, engines }
}
