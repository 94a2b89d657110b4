//! The search: from points of a family that were dear before, and from random ones, to dearer ones beside them.
use super::families::Family;
use super::functions::{price, Effort, Function, Memory, Price};
use crate::random::Random;
use std::time::{Duration, Instant};

/// What is tried for one function in one family.
#[derive(Clone, Copy)]
pub struct Limits {
    /// How many images, of which a third are random.
    pub images: usize,
    pub time: Duration,
    pub effort: Effort,
}

/// An image with its price.
pub struct Found {
    pub family: &'static Family,
    pub point: Vec<usize>,
    pub image: Vec<u8>,
    pub price: Price,
}

/// A random point of a family.
fn anywhere(family: &Family, random: &mut Random) -> Vec<usize> {
    family.parameters.iter().map(|parameter| random.between(parameter.least, parameter.most)).collect()
}

/// A point beside another: one or two of its numbers are changed, by a little or to anything.
fn beside(family: &Family, point: &[usize], random: &mut Random) -> Vec<usize> {
    let mut next = point.to_vec();
    for _ in 0..random.between(1, 2) {
        let i = random.below(next.len());
        let parameter = &family.parameters[i];
        let reach = match random.below(4) {
            0 => parameter.most - parameter.least,
            1 => (parameter.most - parameter.least) / 8 + 1,
            _ => 2,
        };
        let low = next[i].saturating_sub(reach).max(parameter.least);
        next[i] = random.between(low, (next[i] + reach).min(parameter.most));
    }
    next
}

/// The dearest image of a family that is found for a function, and how many were tried.
pub fn climb(
    function: Function,
    family: &'static Family,
    fixed: f64,
    memory: &mut Memory,
    random: &mut Random,
    limits: Limits,
) -> (Option<Found>, usize) {
    let begin = Instant::now();
    let mut best: Option<Found> = None;
    for tried in 0..limits.images {
        if tried > 0 && begin.elapsed() > limits.time {
            return (best, tried);
        }
        let point = match &best {
            _ if tried < family.known.len() => family.known[tried].to_vec(),
            Some(found) if tried > limits.images / 3 => beside(family, &found.point, random),
            _ => anywhere(family, random),
        };
        let image = (family.make)(&point);
        let asked = |memory: &mut Memory| price(function, &image, fixed, memory, limits.effort);
        let dearer = |price: &Price| best.as_ref().is_none_or(|found| price.rate > found.price.rate);
        // Measured twice, since a busy machine makes an image look dear.
        let Some(first) = asked(memory).filter(dearer) else { continue };
        let Some(second) = asked(memory).filter(dearer) else { continue };
        let price = if second.rate < first.rate { second } else { first };
        best = Some(Found { family, point, image, price });
    }
    (best, limits.images)
}
