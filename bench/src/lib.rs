//! Times of the watch engine, alone or beside a plain Rust engine, on the same images in one run.
//!
//! Options: `--images DIR` measures the images in files of a folder and not its own, `--load SEEDS` images that are
//! generated, of depth 9 or of the one after `--depth`, `--quick` measures less often, `--dump DIR` writes the images and
//! measures nothing, `--save FILE` adds the times to a file, `--means FILE` adds them too and then prints the means of all
//! runs in the file, `--write DOCS` writes the tables into the documents of the folder DOCS.
//!
//! `--procedures` measures the procedures of examples/ over recordings, `--languages` the decoding job in other
//! languages, `--worst` searches for the dearest images of each function, with `--instructions` counted too. `--calls N`
//! measures nothing: it makes so many calls of both engines on random images, of seed 1 or of the one after `--seed`, and
//! stops at the first that differs. `--one` makes the single call that is counted.
#![deny(missing_docs)]
mod calls;
mod document;
mod images;
mod instructions;
mod languages;
mod load;
mod measure;
mod options;
mod plot;
mod procedures;
mod processor;
mod programs;
#[allow(dead_code)]
#[path = "../../bindings/rust/tests/differential/random.rs"]
mod random;
mod saved;
mod table;
mod worst;

use measure::{Row, Time};
use options::{number, Options};

/// The documents that have tables of what was measured.
const PERFORMANCE: &str = "PERFORMANCE.md";
const STATIONS: &str = "STATIONS.md";

/// What a call answers: bytes of log and report, or number and place of a refusal.
pub type Answer = Result<(usize, usize), (u16, usize)>;

/// An engine: image, frame, budget, log, report, work area.
pub type Engine = fn(&[u8], &[u8], u32, &mut [u8], &mut [u8], &mut [u8]) -> Answer;

/// The verified engine.
fn verified(image: &[u8], frame: &[u8], budget: u32, log: &mut [u8], report: &mut [u8], work: &mut [u8]) -> Answer {
    match bukzarn::call(image, frame, budget, log, report, work) {
        Ok(written) => Ok((written.log, written.report)),
        Err(refusal) => Err((refusal.cause.number(), refusal.place)),
    }
}

/// Prints a text and, if there is a folder for it, writes it between two marks of a document.
fn show(text: &str, options: &Options, document: &str, mark: &str) {
    println!("{}\n", text.trim_end());
    if let Some(docs) = options.path("--write") {
        document::write(docs, document, mark, text);
    }
}

/// Does with the times of several runs what the options say. True if there is nothing to show yet.
fn keep(times: Vec<&mut Time>, options: &Options) -> bool {
    if let Some(file) = options.path("--save") {
        saved::append(file, &times);
        return true;
    }
    if let Some(file) = options.path("--means") {
        saved::append(file, &times);
        saved::means(file, times);
    }
    false
}

/// Searches for the dearest images of each function.
fn worst_cases(options: &Options) {
    let plan = worst::Plan::new(options.has("--quick"), options.has("--instructions"));
    show(&worst::search(&plan, options.path("--dump")), options, STATIONS, "worst");
}

/// Measures the procedures of the examples.
fn real_procedures(options: &Options) {
    let texts = procedures::texts(options.repetitions());
    show(&texts.procedures, options, PERFORMANCE, "measured on procedures");
    show(&texts.recordings, options, STATIONS, "recordings");
}

/// Measures the decoding job in other languages.
fn other_languages(engines: &[Engine], options: &Options) {
    let images = images::all();
    let image = images.iter().find(|image| image.name == images::DECODED).expect("the bench has the image");
    let mut compared = languages::compare(image, engines, options.repetitions());
    if !keep(compared.times().collect(), options) {
        show(&compared.text(), options, PERFORMANCE, "measured in other languages");
    }
}

/// Measures the bench's own images, or those of files or seeds.
fn measured_images(engines: &[Engine], options: &Options) {
    let (folder, seeds) = (options.path("--images"), options.after("--load"));
    let images = match (folder, seeds) {
        (Some(folder), _) => images::read(folder),
        (None, Some(seeds)) => load::images(seeds, options.after("--depth")),
        (None, None) => images::all(),
    };
    if let Some(folder) = options.path("--dump") {
        return images::dump(&images, folder);
    }
    let measured = |image| measure::measure(image, engines, options.repetitions());
    let mut rows: Vec<Row> = images.iter().map(measured).collect();
    if seeds.is_some() {
        return println!("{}", load::text(&rows));
    }
    if keep(rows.iter_mut().flat_map(Row::times).collect(), options) {
        return;
    }
    if folder.is_some() {
        return show(&table::text(&rows), options, PERFORMANCE, "measured on files");
    }
    show(&table::text(&rows), options, PERFORMANCE, "measured");
    if let Some(docs) = options.path("--write") {
        document::draw(docs, &plot::svg(&rows));
    }
}

/// The program: measures the verified engine and, if there is one, a plain one.
pub fn main(plain: Option<Engine>) {
    let options = Options::read();
    let engines: Vec<Engine> = [Some(verified as Engine), plain].into_iter().flatten().collect();
    if let Some(asked) = options.rest(instructions::ONE) {
        worst::one(asked);
    } else if let Some(calls) = options.after("--calls") {
        let seed = options.after("--seed").map_or(1, number);
        println!("{}", calls::compare(&engines, number(calls), seed));
    } else if options.has("--worst") {
        worst_cases(&options);
    } else if options.has("--procedures") {
        real_procedures(&options);
    } else if options.has("--languages") {
        other_languages(&engines, &options);
    } else {
        measured_images(&engines, &options);
    }
}
