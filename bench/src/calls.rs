//! Calls of both engines on random images, whose answers and bytes must be the same.
use crate::programs;
use crate::random::Random;
use crate::{Answer, Engine};
use std::collections::BTreeMap;

const BUDGETS: [u32; 9] = [0, 1, 2, 3, 7, 30, 100, 1_000, 100_000];
/// The lengths of logs, and how many prints an image may have for which the log has room at each; the longest has room for
/// those of any image.
const LOGS: [(usize, Option<usize>); 3] = [(0, Some(0)), (25, Some(2)), (16_384, None)];
const REPORT: usize = 17_994;
const WORK: usize = 65_536;
/// What lent memory holds before a call.
const BEFORE: u8 = 0xA5;

/// What a call leaves.
#[derive(PartialEq)]
struct Left {
    answer: Answer,
    log: Vec<u8>,
    report: Vec<u8>,
}

impl Left {
    /// The outcome's number and the steps of a run.
    fn end(&self) -> Option<(u8, u32)> {
        self.answer.ok().map(|_| {
            let steps = [self.report[6], self.report[7], self.report[8], self.report[9]];
            (self.report[4], u32::from_le_bytes(steps))
        })
    }
}

fn left(engine: Engine, image: &[u8], budget: u32, log: usize) -> Left {
    let frame: Vec<u8> = (0..240u32).map(|i| (i * 83 % 241) as u8).collect();
    let (mut log, mut report, mut work) = (vec![BEFORE; log], vec![BEFORE; REPORT], vec![BEFORE; WORK]);
    let answer = engine(image, &frame, budget, &mut log, &mut report, &mut work);
    Left { answer, log, report }
}

/// Makes so many calls at least, of images that the seed tells; says how they ended.
pub fn compare(engines: &[Engine], calls: usize, seed: u64) -> String {
    let [verified, plain] = engines else { panic!("calls are compared with those of a plain engine") };
    let mut random = Random::new(seed);
    let mut ends: BTreeMap<String, usize> = BTreeMap::new();
    let (mut made, mut images) = (0, 0);
    while made < calls {
        let (_, prints) = LOGS[images % LOGS.len()];
        let image = programs::image(&mut random, prints);
        images += 1;
        let whole = left(*verified, &image, 100_000, 16_384).end().map_or(0, |(_, steps)| steps);
        let around = [whole.saturating_sub(1), whole, whole + 1];
        for (log, _) in
            LOGS.iter().filter(|(_, room)| room.is_none() || prints.is_some_and(|n| room.is_some_and(|m| n <= m)))
        {
            for budget in BUDGETS.into_iter().chain(around) {
                let ours = left(*verified, &image, budget, *log);
                let same = ours == left(*plain, &image, budget, *log);
                assert!(same, "image {images} of seed {seed} differs at budget {budget} and log {log}: {image:?}");
                let end = match ours.end() {
                    Some((outcome, _)) => format!("outcome {outcome}"),
                    None => format!("{:?}", ours.answer),
                };
                *ends.entry(end).or_default() += 1;
                made += 1;
            }
        }
    }
    let ends: Vec<String> = ends.into_iter().map(|(end, count)| format!("{end}: {count}")).collect();
    format!("{made} calls on {images} images of seed {seed}: the engines leave the same bytes. {}", ends.join(", "))
}

#[cfg(test)]
mod tests {
    use super::*;
    use crate::images::Image;

    /// Kinds of document 01: up to 53 and 60 of terms, up to 24 of types.
    fn of_the_base(image: &[u8]) -> bool {
        let word = |at: usize| u16::from_le_bytes([image[at], image[at + 1]]);
        let mut at = 0;
        while at < image.len() {
            let kind = word(at + 2);
            if !(kind <= 24 || (32..=53).contains(&kind) || kind == 60) {
                return false;
            }
            at += usize::from(word(at));
        }
        true
    }

    #[test]
    fn images_are_accepted_and_of_the_base() {
        let mut random = Random::new(7);
        for (_, prints) in LOGS.iter().cycle().take(300) {
            let bytes = programs::image(&mut random, *prints);
            assert!(of_the_base(&bytes));
            let end = left(crate::verified, &bytes, 100_000, 16_384).end();
            assert!(matches!(end, Some((0 | 2, _))), "{bytes:?}");
            assert!(Image { name: "", bytes }.terms() < 512);
        }
    }

    #[test]
    fn counted_prints_have_room() {
        let mut random = Random::new(8);
        for (log, prints) in LOGS.iter().cycle().take(300) {
            let image = programs::image(&mut random, *prints);
            assert!(left(crate::verified, &image, 100_000, *log).end().is_some_and(|(outcome, _)| outcome != 9));
        }
    }
}
