//! Real procedures: images of examples/ over recordings, in a call for each frame and in one call for many.
mod images;
mod recorded;

use crate::instructions::Counter;
use crate::processor::processor_time;
use bukzarn::WORK_LENGTH;
use images::{bench_images, examples, Procedure};
use recorded::{measure, Recorded};
use std::fmt::Write;
use std::hint::black_box;

/// The ascent's images, and the part of the time with a clearing at each frame that a recording of each may take.
const BARS: [(&str, f64); 2] = [(images::WATCHED, 0.74), (images::PLAIN, 0.68)];

/// What is printed, and written into two documents.
pub struct Texts {
    /// The procedures, for PERFORMANCE.md.
    pub procedures: String,
    /// A frame in a call of its own and in a recording, for STATIONS.md.
    pub recordings: String,
}

/// The least nanoseconds of clearing a work area.
fn clearing(repetitions: usize) -> f64 {
    const CLEARINGS: u32 = 100;
    let mut work = vec![1u8; WORK_LENGTH];
    let time = |_| {
        let start = processor_time();
        for _ in 0..CLEARINGS {
            black_box(&mut work[..]).fill(0);
        }
        (processor_time() - start) / f64::from(CLEARINGS)
    };
    (0..repetitions).map(time).fold(f64::INFINITY, f64::min)
}

fn procedure_line(recorded: &Recorded) -> String {
    let instructions = recorded.instructions.map_or("-".into(), |number| format!("{number:.1}"));
    format!(
        "| {} | {} | {} | {} | {:.1} | {:.2} | {instructions} | {:.2} | {:.2} | {:.2} | {:.0} |\n",
        recorded.name,
        recorded.bytes,
        recorded.length,
        recorded.frames,
        recorded.steps_a_frame(),
        recorded.step(),
        recorded.check / 1e3,
        recorded.single / 1e3,
        recorded.together / 1e3,
        1e9 / recorded.together
    )
}

/// The table of the procedures.
fn procedures_text(all: &[Recorded], counted: bool) -> String {
    let mut text =
        "| procedure | bytes | frame | frames | steps a frame | ns a step | instructions a step | check, µs | \
                    a call each, µs | recorded, µs | frames a second |\n"
            .to_string();
    text += "|---|---:|---:|---:|---:|---:|---:|---:|---:|---:|---:|\n";
    text.extend(all.iter().map(procedure_line));
    if !counted {
        text += "\nvalgrind is not installed, so instructions are not counted.\n";
    }
    text
}

/// What a recording saves by clearing the work area once, beside the bars.
fn clearing_text(all: &[Recorded], cleared: f64) -> String {
    let mut text = format!("A clearing of the work area takes {cleared:.0} ns.\n\n");
    text += "| procedure | recorded, ns a frame | with a clearing at each frame | ratio | bar |\n|---|---:|---:|---:|---:|\n";
    for (name, bar) in BARS {
        let recorded = all.iter().find(|recorded| recorded.name == name).expect("the ascent is measured");
        let with = recorded.together + cleared;
        let ratio = recorded.together / with;
        let verdict = if ratio <= bar { "kept" } else { "not kept" };
        let _ = writeln!(text, "| {name} | {:.0} | {with:.0} | {ratio:.2} | {bar:.2}: {verdict} |", recorded.together);
    }
    text
}

/// The table of a frame's time, alone and among many.
fn recordings_text(all: &[&Recorded]) -> String {
    let mut text = "| image | a call for each frame | 64 frames in a call |\n|---|---:|---:|\n".to_string();
    for recorded in all {
        let (single, together) = (recorded.single / 1e3, recorded.together / 1e3);
        let _ = writeln!(text, "| {} | {single:.2} µs | {together:.2} µs |", recorded.name);
    }
    text
}

/// Measures all of them; the answers are compared before.
pub fn texts(repetitions: usize) -> Texts {
    let counter = Counter::new();
    let measured = |procedure: Procedure| measure(&procedure, repetitions, counter.as_ref());
    let procedures: Vec<Recorded> = examples().into_iter().map(measured).collect();
    let others: Vec<Recorded> =
        bench_images().into_iter().map(|procedure| measure(&procedure, repetitions, None)).collect();
    let ascents = procedures.iter().filter(|recorded| BARS.iter().any(|(name, _)| *name == recorded.name));
    let stations: Vec<&Recorded> = ascents.chain(&others).collect();
    let cleared = clearing(repetitions);
    Texts {
        procedures: procedures_text(&procedures, counter.is_some()) + "\n" + &clearing_text(&procedures, cleared),
        recordings: recordings_text(&stations),
    }
}
