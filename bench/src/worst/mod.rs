//! The worst case of each public function: a search for the dearest images, whose prices are published.
mod families;
mod functions;
mod search;

use crate::instructions::Counter;
use crate::random::Random;
use families::{far_comparisons, Family, ALL};
pub use functions::Function;
use functions::{fixed_cost, instructions, least, price, Effort, Memory, Unit, SHORTEST};
use search::{climb, Found, Limits};
use std::fmt::Write;
use std::fs;
use std::hint::black_box;
use std::path::Path;
use std::time::Duration;

/// The search is the same each time, as far as times are.
const SEED: u64 = 1;

/// No image should cost the check more nanoseconds a byte than this.
const CHECK_BAR: f64 = 6.0;

/// Of so many families the dearest image is measured once more, with more effort.
const MEASURED_AGAIN: usize = 3;

/// How the search is done, and how what it finds is measured.
pub struct Plan {
    limits: Limits,
    last: Effort,
    counter: Option<Counter>,
}

impl Plan {
    /// Quick or not; with instructions, if they are asked for and can be counted.
    pub fn new(quick: bool, counted: bool) -> Plan {
        let effort = |batches, micros: f64, whole: f64| Effort { batches, batch: micros * 1e3, whole: whole * 1e6 };
        let counter = counted.then(Counter::new).flatten();
        if quick {
            let limits = Limits { images: 9, time: Duration::from_millis(100), effort: effort(2, 30.0, 20.0) };
            return Plan { limits, last: effort(5, 100.0, 100.0), counter };
        }
        let limits = Limits { images: 240, time: Duration::from_secs(8), effort: effort(5, 30.0, 40.0) };
        Plan { limits, last: effort(301, 100.0, 3_000.0), counter }
    }
}

/// What was found for one function.
struct Worst {
    function: Function,
    fixed: f64,
    found: Found,
    /// The instructions of a unit, if they are counted.
    instructions: Option<f64>,
}

/// The dearest image for a function among all families; and how many were tried.
fn worst(function: Function, plan: &Plan, memory: &mut Memory, random: &mut Random) -> (Worst, usize) {
    let fixed = fixed_cost(function, memory, plan.last);
    let mut all: Vec<Found> = vec![];
    let mut tried = 0;
    for family in &ALL {
        let (found, images) = climb(function, family, fixed, memory, random, plan.limits);
        tried += images;
        all.extend(found);
    }
    all.sort_by(|a, b| b.price.rate.total_cmp(&a.price.rate));
    all.truncate(MEASURED_AGAIN);
    for found in &mut all {
        let again = price(function, &found.image, fixed, memory, plan.last);
        found.price = again.expect("an image that had a price has one again");
    }
    let dearest = all.into_iter().max_by(|a, b| a.price.rate.total_cmp(&b.price.rate));
    let found = dearest.expect("some image of some family is accepted");
    let count = |counter| instructions(function, &found.image, found.price.steps, counter);
    let instructions = plan.counter.as_ref().map(count);
    (Worst { function, fixed, found, instructions }, tried)
}

/// A price with its unit.
fn said(unit: Unit, rate: f64) -> String {
    match unit {
        Unit::Byte => format!("{rate:.2} ns a byte"),
        Unit::Step => format!("{rate:.0} ns a step"),
        Unit::Call => format!("{:.1} ms a call", rate / 1e6),
    }
}

/// A number, or a dash where there is none.
fn or_dash(number: Option<f64>) -> String {
    number.map_or("-".into(), |number| format!("{number:.0}"))
}

fn line(worst: &Worst) -> String {
    let Worst { function, fixed, found, instructions } = worst;
    let unit = function.unit();
    let steps = (found.price.steps > 0).then(|| f64::from(found.price.steps));
    let family: &Family = found.family;
    format!(
        "| {} | {} | {} | {} | {}: {} | {} | {} |\n",
        function.name(),
        or_dash((unit == Unit::Byte).then_some(*fixed)),
        said(unit, found.price.rate),
        or_dash(*instructions),
        family.name,
        family.said(&found.point),
        found.image.len(),
        or_dash(steps)
    )
}

/// The line of `bukzarn_load`, which takes a seed and no image: the price of a byte that it writes.
fn load_line(plan: &Plan, random: &mut Random) -> String {
    let mut out = vec![0; bukzarn::LOAD_LENGTH];
    let mut made = |seed: u32, depth: usize, effort: Effort| {
        let time = least(effort, || {
            let _ = black_box(bukzarn::generate(black_box(seed), depth, &mut out));
        });
        (time, bukzarn::generate(seed, depth, &mut out).expect("the depth is one that there is"))
    };
    let (fixed, shortest) = made(0, 1, plan.last);
    let mut rate = |seed: u32, effort: Effort| {
        let (time, bytes) = made(seed, bukzarn::LOAD_DEPTH, effort);
        let judged = bytes >= SHORTEST;
        (if judged { (time - fixed) / (bytes - shortest) as f64 } else { 0.0 }, bytes)
    };
    let seeds: Vec<u32> = (0..plan.limits.images).map(|_| random.bits() as u32).collect();
    let rates = seeds.iter().map(|seed| (rate(*seed, plan.limits.effort).0, *seed));
    let dearest = rates.max_by(|a, b| a.0.total_cmp(&b.0)).expect("some seeds are tried").1;
    let (dearest_rate, bytes) = rate(dearest, plan.last);
    let price = said(Unit::Byte, dearest_rate);
    format!("| load | {fixed:.0} | {price} | - | seed {dearest}, depth {} | {bytes} | - |\n", bukzarn::LOAD_DEPTH)
}

/// Whether any image is above the bar of the check.
fn judged(all: &[Worst]) -> String {
    let check = all.iter().find(|worst| worst.function == Function::Check).expect("the check is measured");
    let rate = check.found.price.rate;
    let verdict = if rate > CHECK_BAR { "an image was found above it" } else { "no image was found above it" };
    format!("The bar for the check is {CHECK_BAR} ns a byte: {verdict}.")
}

/// The levels of matches around the work of `lookups`: each binds nine variables.
const LEVELS: [usize; 6] = [0, 1, 5, 11, 22, 33];

/// What a step costs that compares two variables or chooses by that, by the bindings between them and their use.
fn lookups(plan: &Plan, memory: &mut Memory) -> String {
    let mut text = "| bindings between a variable and its use | ns a step |\n|---:|---:|\n".to_string();
    for levels in LEVELS {
        let (image, hops) = far_comparisons(levels);
        let price = price(Function::Step, &image, 0.0, memory, plan.last).expect("the image is accepted");
        let _ = writeln!(text, "| {hops} | {:.1} |", price.rate);
    }
    text
}

/// The table, with the line of load.
fn text(all: &[Worst], load: &str, tried: usize) -> String {
    let mut text =
        "| function | fixed, ns | at most | instructions | dearest image found | bytes | steps |\n".to_string();
    text += "|---|---:|---:|---:|---|---:|---:|\n";
    text.extend(all.iter().map(line));
    text += load;
    let _ = writeln!(text, "\n{} {tried} images of {} families were tried.", judged(all), ALL.len());
    text
}

/// Writes the dearest image of each function as a file of a folder.
fn dump(all: &[Worst], folder: &Path) {
    fs::create_dir_all(folder).unwrap_or_else(|error| panic!("{}: {error}", folder.display()));
    for worst in all {
        let path = folder.join(worst.function.name().replace(", ", "-").replace(' ', "-") + ".img");
        fs::write(&path, &worst.found.image).unwrap_or_else(|error| panic!("{}: {error}", path.display()));
    }
}

/// Searches, and answers the table; writes the images into a folder if there is one.
pub fn search(plan: &Plan, folder: Option<&Path>) -> String {
    let (mut memory, mut random) = (Memory::new(), Random::new(SEED));
    let mut tried = 0;
    let mut all = vec![];
    for function in Function::ALL {
        let (worst, images) = worst(function, plan, &mut memory, &mut random);
        tried += images;
        all.push(worst);
    }
    if let Some(folder) = folder {
        dump(&all, folder);
    }
    let load = load_line(plan, &mut random);
    text(&all, &load, tried) + "\n" + &lookups(plan, &mut memory)
}

/// Makes the one call that a count asks for: a function by its name, on the image and the frame in two files.
pub fn one(arguments: &[String]) {
    let [name, image, frame] = arguments else { panic!("a function, an image and a frame are named") };
    let read = |path: &String| fs::read(path).unwrap_or_else(|error| panic!("{path}: {error}"));
    let mut memory = Memory::new();
    memory.lent.frame = read(frame);
    let function = Function::named(name).unwrap_or_else(|| panic!("{name} is no function"));
    function.once(&read(image), &mut memory);
}
