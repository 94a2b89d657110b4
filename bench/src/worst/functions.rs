//! The public functions as what is measured of them.
use crate::images::constant;
use crate::instructions::Counter;
use crate::measure::Lent;
use crate::processor::processor_time;
use crate::verified;
use bukzarn::{need, validate, write_fixed, write_stripped, IMAGE_LIMIT, REPORT_LENGTH, WORK_LENGTH};
use std::hint::black_box;

/// An image shorter than this is not judged by its bytes: what it takes is nearly all fixed cost.
pub const SHORTEST: usize = 128;

/// What is measured of a function.
#[derive(Clone, Copy, PartialEq, Eq, Debug)]
pub enum Function {
    /// `bukzarn_validate`.
    Check,
    /// `bukzarn_run` with a budget of no steps.
    Start,
    /// The steps of `bukzarn_run`.
    Step,
    /// `bukzarn_run` with the greatest budget, as a whole.
    Call,
    /// `bukzarn_need`.
    Need,
    /// `bukzarn_fixed`.
    Fixed,
    /// `bukzarn_strip` that keeps domain 0 alone.
    StripLow,
    /// `bukzarn_strip` that keeps all domains.
    StripNone,
}

/// What a price is for.
#[derive(Clone, Copy, PartialEq, Eq, Debug)]
pub enum Unit {
    Byte,
    Step,
    Call,
}

/// How often calls are made for one measurement, and for how long.
#[derive(Clone, Copy)]
pub struct Effort {
    pub batches: u32,
    /// Nanoseconds of a batch, unless a single call takes longer.
    pub batch: f64,
    /// Nanoseconds after which no further batch is begun.
    pub whole: f64,
}

/// What an image costs.
#[derive(Clone, Copy)]
pub struct Price {
    /// Nanoseconds of one unit.
    pub rate: f64,
    /// The steps of its run, 0 where it has none.
    pub steps: u32,
}

impl Function {
    pub const ALL: [Function; 8] = [
        Function::Check,
        Function::Start,
        Function::Step,
        Function::Call,
        Function::Need,
        Function::Fixed,
        Function::StripLow,
        Function::StripNone,
    ];

    pub fn name(self) -> &'static str {
        match self {
            Function::Check => "check",
            Function::Start => "run, before its steps",
            Function::Step => "run, its steps",
            Function::Call => "run, the whole call",
            Function::Need => "need",
            Function::Fixed => "fixed",
            Function::StripLow => "strip, domain 0 kept",
            Function::StripNone => "strip, all kept",
        }
    }

    /// The function with this name.
    pub fn named(name: &str) -> Option<Function> {
        Function::ALL.into_iter().find(|function| function.name() == name)
    }

    /// The function of the library.
    pub fn symbol(self) -> &'static str {
        match self {
            Function::Check => "bukzarn_validate",
            Function::Start | Function::Step | Function::Call => "bukzarn_run",
            Function::Need => "bukzarn_need",
            Function::Fixed => "bukzarn_fixed",
            Function::StripLow | Function::StripNone => "bukzarn_strip",
        }
    }

    pub fn unit(self) -> Unit {
        match self {
            Function::Step => Unit::Step,
            Function::Call => Unit::Call,
            _ => Unit::Byte,
        }
    }

    /// One call on an image; whether it got as far as the function goes.
    pub fn once(self, image: &[u8], memory: &mut Memory) -> bool {
        match self {
            Function::Check => black_box(validate(image, WORK_LENGTH, REPORT_LENGTH)).is_ok(),
            Function::Start => memory.lent.call(verified, image, 0).is_ok(),
            Function::Step | Function::Call => memory.lent.call(verified, image, u32::MAX).is_ok(),
            Function::Need => black_box(need(image)).is_ok(),
            Function::Fixed => black_box(write_fixed(image, &mut memory.output)).is_ok(),
            Function::StripLow => black_box(write_stripped(image, 1, &mut memory.output)).is_ok(),
            Function::StripNone => {
                let all = (1u32 << domains(image)) - 1;
                black_box(write_stripped(image, all as u16, &mut memory.output)).is_ok()
            }
        }
    }
}

/// How many domain records stand at the front.
fn domains(image: &[u8]) -> usize {
    let (mut at, mut count) = (0, 0);
    while at + 4 <= image.len() && image[at + 2..at + 4] == [1, 0] {
        count += 1;
        at += usize::from(u16::from_le_bytes([image[at], image[at + 1]]));
    }
    count.min(16)
}

/// What calls are lent.
pub struct Memory {
    pub lent: Lent,
    output: Vec<u8>,
}

impl Memory {
    pub fn new() -> Memory {
        Memory { lent: Lent::new(), output: vec![0; IMAGE_LIMIT] }
    }

    /// The steps of the run that the report tells of.
    fn steps(&self) -> u32 {
        let report = &self.lent.report;
        u32::from_le_bytes([report[6], report[7], report[8], report[9]])
    }
}

/// The least nanoseconds of a call, in processor time.
pub fn least(effort: Effort, mut call: impl FnMut()) -> f64 {
    let begin = processor_time();
    call();
    let one = processor_time() - begin;
    let calls = (effort.batch / one.max(1.0)).clamp(1.0, 1_000.0) as u32;
    let mut least = f64::INFINITY;
    for batch in 0..effort.batches {
        let start = processor_time();
        for _ in 0..calls {
            call();
        }
        let now = processor_time();
        least = least.min((now - start) / f64::from(calls));
        if batch > 0 && now - begin > effort.whole {
            break;
        }
    }
    least
}

/// The nanoseconds of a function for the smallest image: its fixed cost.
pub fn fixed_cost(function: Function, memory: &mut Memory, effort: Effort) -> f64 {
    let image = constant();
    least(effort, || {
        function.once(black_box(&image), memory);
    })
}

/// The instructions that a unit costs, for an image of so many steps.
pub fn instructions(function: Function, image: &[u8], steps: u32, counter: &Counter) -> f64 {
    let frame = Lent::new().frame;
    let count =
        |function: Function, image: &[u8]| counter.count(function.symbol(), function.name(), image, &frame) as f64;
    let call = count(function, image);
    match function.unit() {
        Unit::Call => call,
        Unit::Step => (call - count(Function::Start, image)) / f64::from(steps),
        Unit::Byte => (call - count(function, &constant())) / (image.len() - constant().len()) as f64,
    }
}

/// What an image costs; nothing if it is too short, or refused by a function that must go on behind the check.
pub fn price(function: Function, image: &[u8], fixed: f64, memory: &mut Memory, effort: Effort) -> Option<Price> {
    let full = function.once(image, memory);
    if function != Function::Check && !full {
        return None;
    }
    let steps = if matches!(function, Function::Step | Function::Call) { memory.steps() } else { 0 };
    let mut time = |function: Function| {
        least(effort, || {
            function.once(black_box(image), memory);
        })
    };
    let call = time(function);
    let rate = match function.unit() {
        Unit::Call => call,
        Unit::Step if steps == 0 => return None,
        Unit::Step => (call - time(Function::Start)).max(0.0) / f64::from(steps),
        Unit::Byte if image.len() < SHORTEST => return None,
        Unit::Byte => (call - fixed).max(0.0) / (image.len() - constant().len()) as f64,
    };
    Some(Price { rate, steps })
}
