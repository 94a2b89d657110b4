//! The tables that are printed.
use crate::images::{CONSTANT, LOOPS};
use crate::measure::{Row, Time, Times};

/// Nanoseconds of a call, per step of its run, per byte of its check.
#[derive(Clone, Copy)]
pub struct Rates {
    pub call: f64,
    /// None of an image that makes no steps.
    pub step: Option<f64>,
    pub byte: f64,
}

type Choose = fn(Time) -> f64;

/// The rates of one engine.
pub fn rates(row: &Row, times: &Times, choose: Choose) -> Rates {
    let (call, start, check) = (choose(times.call), choose(times.start), choose(times.check));
    let steps = row.end.map_or(0, |(_, steps)| steps);
    let step = (steps > 0).then(|| (call - start).max(0.0) / f64::from(steps));
    Rates { call, step, byte: check / row.bytes as f64 }
}

/// The first engine's rates over the second's.
pub fn ratios(row: &Row, choose: Choose) -> Option<Rates> {
    let [a, b] = [row.engines.first()?, row.engines.get(1)?].map(|times| rates(row, times, choose));
    let step = a.step.zip(b.step).map(|(a, b)| a / b);
    Some(Rates { call: a.call / b.call, step, byte: a.byte / b.byte })
}

/// The geometric mean.
pub fn mean(numbers: impl Iterator<Item = f64>) -> f64 {
    let logs: Vec<f64> = numbers.map(f64::ln).collect();
    (logs.iter().sum::<f64>() / logs.len() as f64).exp()
}

/// A line of a table, the first cell to the left and the others to the right.
pub fn line(cells: &[String]) -> String {
    let rest: String = cells[1..].iter().map(|cell| format!(" {cell:>10} |")).collect();
    format!("| {:<24} |{rest}\n", cells[0])
}

/// The head of a table.
pub fn head(cells: &[String]) -> String {
    let rule: String = cells[1..].iter().map(|_| " ---------: |").collect();
    format!("{}| {} |{rule}\n", line(cells), "-".repeat(24))
}

fn optional(number: Option<f64>) -> String {
    number.map_or("-".into(), |number| format!("{number:.2}"))
}

fn cells(rates: Rates, digits: usize) -> [String; 3] {
    [format!("{:.digits$}", rates.call), optional(rates.step), format!("{:.2}", rates.byte)]
}

/// One image's line.
fn image_line(row: &Row, choose: Choose) -> String {
    let end = match row.end {
        Ok((0, _)) => "done".into(),
        Ok((outcome, _)) => format!("outcome {outcome}"),
        Err(number) => format!("refused {number}"),
    };
    let steps = row.end.map_or("-".into(), |(_, steps)| steps.to_string());
    let mut line_cells = vec![row.name.into(), row.bytes.to_string(), row.terms.to_string(), end, steps];
    for times in &row.engines {
        line_cells.extend(cells(rates(row, times, choose), 0));
    }
    line_cells.extend(ratios(row, choose).into_iter().flat_map(|rates| cells(rates, 2)));
    line(&line_cells)
}

/// The line of geometric means of the ratios.
fn mean_line(rows: &[Row], choose: Choose) -> Option<String> {
    let all: Vec<Rates> = rows.iter().filter_map(|row| ratios(row, choose)).collect();
    if all.is_empty() {
        return None;
    }
    let means = Rates {
        call: mean(all.iter().map(|rates| rates.call)),
        step: Some(mean(all.iter().filter_map(|rates| rates.step))),
        byte: mean(all.iter().map(|rates| rates.byte)),
    };
    let mut line_cells = vec!["geometric mean".to_string()];
    line_cells.extend(vec![String::new(); 10]);
    line_cells.extend(cells(means, 2));
    Some(line(&line_cells))
}

fn table(rows: &[Row], choose: Choose) -> String {
    let plain = rows.iter().any(|row| row.engines.len() > 1);
    let mut heads: Vec<String> = ["image", "bytes", "terms", "end", "steps"].map(String::from).to_vec();
    let groups: &[&str] = if plain { &["", "plain ", "ratio "] } else { &[""] };
    for group in groups {
        heads.extend(["call", "step", "byte"].map(|head| format!("{group}{head}")));
    }
    let mut text = head(&heads);
    text.extend(rows.iter().map(|row| image_line(row, choose)));
    text.extend(mean_line(rows, choose));
    text
}

/// What the ratios of the bench's own images come to, if there is a plain engine.
fn outline(rows: &[Row]) -> Option<String> {
    let of = |part: &dyn Fn(&Row) -> bool, rate: fn(&Rates) -> Option<f64>| {
        let rows = rows.iter().filter(|row| part(row));
        let all: Vec<f64> = rows.filter_map(|row| ratios(row, |time| time.least)).filter_map(|r| rate(&r)).collect();
        (!all.is_empty()).then(|| mean(all.into_iter()))
    };
    let loops = of(&|row| LOOPS.contains(&row.name), |rates| rates.step)?;
    let call = of(&|_| true, |rates| Some(rates.call))?;
    let byte = of(&|_| true, |rates| Some(rates.byte))?;
    let larger = of(&|row| row.name != CONSTANT, |rates| Some(rates.byte))?;
    Some(format!(
        "Geometric means of the ratios (least times): a step of the six images with loops {loops:.2}; a call {call:.2}; a \
         byte of the check {byte:.2}, without the constant {larger:.2}.\n"
    ))
}

/// Two tables: the least times and the medians; and what they come to.
pub fn text(rows: &[Row]) -> String {
    let least = table(rows, |time| time.least);
    let median = table(rows, |time| time.median);
    let outline = outline(rows).map_or_else(String::new, |outline| format!("\n{outline}"));
    format!("Least times, in nanoseconds:\n\n{least}\nMedians, in nanoseconds:\n\n{median}{outline}")
}
