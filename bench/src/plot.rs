//! The plot: for each image a bar for the whole call and one for a step, as times of the plain engine's.
use crate::measure::Row;
use crate::table::{rates, ratios};
use std::fmt::Write;

const LEFT: f64 = 190.0;
const SCALE_WIDTH: f64 = 520.0;
const BAR: f64 = 11.0;
const ROW: f64 = 34.0;
const TOP: f64 = 56.0;

/// One bar with its number.
fn bar(svg: &mut String, y: f64, length: f64, colour: &str, label: &str) {
    let _ = writeln!(svg, r#"<rect x="{LEFT}" y="{y:.1}" width="{length:.1}" height="{BAR}" fill="{colour}"/>"#);
    let (x, y) = (LEFT + length + 5.0, y + BAR - 2.0);
    let _ = writeln!(svg, r#"<text x="{x:.1}" y="{y:.1}" font-size="10">{label}</text>"#);
}

/// What is drawn of an image: the call and the step, as ratios, or as microseconds and nanoseconds of the one engine.
fn numbers(row: &Row) -> (f64, Option<f64>) {
    match ratios(row, |time| time.least) {
        Some(ratios) => (ratios.call, ratios.step),
        None => {
            let rates = rates(row, &row.engines[0], |time| time.least);
            (rates.call / 1000.0, rates.step)
        }
    }
}

/// The whole plot.
pub fn svg(rows: &[Row]) -> String {
    let compared = rows.iter().any(|row| row.engines.len() > 1);
    let all: Vec<(f64, Option<f64>)> = rows.iter().map(numbers).collect();
    let most = all.iter().flat_map(|(call, step)| [*call, step.unwrap_or(0.0)]).fold(1.0, f64::max);
    let unit = SCALE_WIDTH / (most * 1.05);
    let height = TOP + ROW * rows.len() as f64 + 20.0;
    let width = LEFT + SCALE_WIDTH + 50.0;
    let mut svg = format!(
        "<svg xmlns=\"http://www.w3.org/2000/svg\" viewBox=\"0 0 {width} {height}\" font-family=\"sans-serif\">\n\
         <rect width=\"{width}\" height=\"{height}\" fill=\"white\"/>\n"
    );
    let title = match compared {
        true => "Time of the verified engine as a multiple of the plain engine's (least times)",
        false => "Time of the verified engine (least times): a call in microseconds, a step in nanoseconds",
    };
    let _ = writeln!(svg, r#"<text x="10" y="20" font-size="14">{title}</text>"#);
    for (x, colour, label) in [(LEFT, "#4477aa", "whole call"), (LEFT + 100.0, "#ddaa33", "step")] {
        let _ = writeln!(svg, r#"<rect x="{x}" y="32" width="10" height="10" fill="{colour}"/>"#);
        let _ = writeln!(svg, r#"<text x="{}" y="41" font-size="11">{label}</text>"#, x + 15.0);
    }
    for (i, (row, (call, step))) in rows.iter().zip(all).enumerate() {
        let y = TOP + ROW * i as f64;
        let _ = writeln!(svg, r#"<text x="10" y="{:.1}" font-size="12">{}</text>"#, y + 15.0, row.name);
        bar(&mut svg, y, call * unit, "#4477aa", &format!("{call:.2}"));
        if let Some(step) = step {
            bar(&mut svg, y + BAR + 1.0, step * unit, "#ddaa33", &format!("{step:.2}"));
        }
    }
    if compared {
        let (x, end) = (LEFT + unit, height - 15.0);
        let _ = writeln!(
            svg,
            r##"<line x1="{x:.1}" y1="{:.1}" x2="{x:.1}" y2="{end:.1}" stroke="#222" stroke-dasharray="4 3"/>"##,
            TOP - 6.0
        );
    }
    svg + "</svg>\n"
}
