//! Generated images, with which stations compare their boards (document 02, card 12).
use crate::images::Image;
use crate::measure::{Row, Time};
use crate::options::number;
use crate::table;

/// The depth of the images if none is said: the greatest, whose runs are the longest.
const DEPTH: usize = bukzarn::LOAD_DEPTH;

/// The seeds of a list such as `7,12,100-163`, in its order.
fn seeds(list: &str) -> Vec<u32> {
    let range = |part: &str| match part.split_once('-') {
        Some((first, last)) => number(first)..=number(last),
        None => number(part)..=number(part),
    };
    list.split(',').flat_map(range).collect()
}

/// The image of each seed of a list.
pub fn images(list: &str, depth: Option<&str>) -> Vec<Image> {
    let depth = depth.map_or(DEPTH, number);
    let image = |seed: u32| {
        let bytes = bukzarn::load(seed, depth).unwrap_or_else(|refusal| panic!("{refusal}"));
        // A name is kept as long as the program runs.
        Image { name: format!("seed {seed}, depth {depth}").leak(), bytes }
    };
    seeds(list).into_iter().map(image).collect()
}

/// The nanoseconds of the first engine for each step, if there is any, and for each byte, over all images together.
fn together(rows: &[Row], choose: fn(Time) -> f64) -> (String, f64) {
    let sum = |of: &dyn Fn(&Row) -> f64| rows.iter().map(of).sum::<f64>();
    let steps = sum(&|row| row.end.map_or(0.0, |(_, steps)| f64::from(steps)));
    let run = sum(&|row| choose(row.engines[0].call) - choose(row.engines[0].start));
    let check = sum(&|row| choose(row.engines[0].check));
    let step = if steps > 0.0 { format!("{:.2}", run / steps) } else { String::from("-") };
    (step, check / sum(&|row| row.bytes as f64))
}

/// The table, and what two stations compare: the bytes and steps must be equal, the times tell the boards apart.
pub fn text(rows: &[Row]) -> String {
    let bytes: usize = rows.iter().map(|row| row.bytes).sum();
    let steps: u32 = rows.iter().filter_map(|row| row.end.ok()).map(|(_, steps)| steps).sum();
    let [least, median] = [together(rows, |time| time.least), together(rows, |time| time.median)];
    format!(
        "{}\nAll {} images, {bytes} bytes, {steps} steps. Least: {} ns a step, {:.2} ns a byte. Median: {} ns a step, \
         {:.2} ns a byte.\n",
        table::text(rows),
        rows.len(),
        least.0,
        least.1,
        median.0,
        median.1
    )
}

#[cfg(test)]
mod tests {
    use super::*;

    #[test]
    fn lists_of_seeds() {
        assert_eq!(seeds("7"), [7]);
        assert_eq!(seeds("9,3-5,4294967295"), [9, 3, 4, 5, u32::MAX]);
    }

    #[test]
    fn images_are_named_by_seed_and_depth() {
        let made = images("7,8", Some("4"));
        assert_eq!(made.iter().map(|image| image.name).collect::<Vec<_>>(), ["seed 7, depth 4", "seed 8, depth 4"]);
        assert_eq!(made[0].bytes.len(), 68);
    }
}
