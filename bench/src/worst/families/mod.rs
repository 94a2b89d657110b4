//! Families of images: each is made from a few numbers, and some of its members are dear for some function.
mod scopes;
mod sections;
mod stacks;
mod trees;
mod watches;

pub use scopes::far_comparisons;

use crate::images::Image;
use crate::programs;
use crate::random::Random;

/// A number that an image is made with, from the least to the most.
pub struct Parameter {
    pub name: &'static str,
    pub least: usize,
    pub most: usize,
}

const fn from(name: &'static str, least: usize, most: usize) -> Parameter {
    Parameter { name, least, most }
}

/// Images of one form. Some of them may be refused.
pub struct Family {
    pub name: &'static str,
    pub parameters: &'static [Parameter],
    /// Points that an earlier search found to be the dearest for some function: they are tried first.
    pub known: &'static [&'static [usize]],
    /// The image of so many numbers, each within its bounds.
    pub make: fn(&[usize]) -> Vec<u8>,
}

impl Family {
    /// The numbers with their names.
    pub fn said(&self, point: &[usize]) -> String {
        let words: Vec<String> = self.parameters.iter().zip(point).map(|(p, n)| format!("{} {n}", p.name)).collect();
        words.join(", ")
    }
}

/// The bench's own images, by their number.
fn own(point: &[usize]) -> Vec<u8> {
    let images: Vec<Image> = crate::images::all();
    images[point[0]].bytes.clone()
}

/// A random program (programs.rs), by its seed.
fn random(point: &[usize]) -> Vec<u8> {
    programs::image(&mut Random::new(point[0] as u64), None)
}

/// A generated image (document 02, card 12), by its seed.
fn generated(point: &[usize]) -> Vec<u8> {
    bukzarn::load(point[0] as u32, bukzarn::LOAD_DEPTH).expect("the depth is one that there is")
}

/// Every family.
pub const ALL: [Family; 18] = [
    Family { name: "the bench's own", parameters: &[from("number", 0, 10)], known: &[], make: own },
    Family { name: "random programs", parameters: &[from("seed", 0, 1_000_000)], known: &[], make: random },
    Family { name: "generated images", parameters: &[from("seed", 0, 1_000_000)], known: &[], make: generated },
    Family {
        name: "object types alike",
        parameters: &[
            from("types", 1, 127),
            from("methods", 1, 8),
            from("form", 0, 3),
            from("apart", 1, 8),
            from("terms", 1, 100),
        ],
        known: &[&[124, 5, 0, 1, 10], &[121, 6, 0, 1, 7]],
        make: sections::object_types,
    },
    Family {
        name: "types of one remainder",
        parameters: &[from("types", 1, 120), from("terms", 1, 200)],
        known: &[],
        make: sections::types_of_one_remainder,
    },
    Family {
        name: "domains",
        parameters: &[from("domains", 1, 16), from("below", 1, 15), from("terms", 1, 200)],
        known: &[],
        make: sections::domains,
    },
    Family {
        name: "trees",
        parameters: &[from("operator", 0, 7), from("leaves", 1, 512), from("left", 1, 50), from("domains", 2, 16)],
        known: &[&[0, 3, 44, 15], &[4, 98, 28, 12]],
        make: trees::tree,
    },
    Family {
        name: "deep trees",
        parameters: &[from("operator", 0, 7), from("arms", 1, 32), from("levels", 1, 62)],
        known: &[&[7, 2, 48]],
        make: trees::arms,
    },
    Family {
        name: "long records",
        parameters: &[from("operator", 0, 7), from("leaves", 1, 512), from("skipped", 0, 100)],
        known: &[],
        make: trees::long_records,
    },
    Family {
        name: "objects",
        parameters: &[from("bodies", 1, 8), from("levels", 1, 20), from("arms", 1, 100), from("types", 1, 100)],
        known: &[],
        make: trees::objects,
    },
    Family {
        name: "too deep",
        parameters: &[from("operator", 0, 7), from("arms", 1, 16), from("levels", 1, 200)],
        known: &[],
        make: trees::arms,
    },
    Family {
        name: "low bodies",
        parameters: &[from("bodies", 1, 300), from("inside", 0, 20), from("advice", 0, 1)],
        known: &[&[3, 14, 0], &[82, 0, 1]],
        make: watches::low_bodies,
    },
    Family {
        name: "choices in a watch",
        parameters: &[from("advices", 1, 40), from("choices", 1, 58), from("pieces", 0, 8), from("match", 0, 1)],
        known: &[&[5, 9, 7, 1], &[9, 10, 6, 1]],
        make: watches::choices,
    },
    Family {
        name: "marks",
        parameters: &[from("advices", 0, 64), from("matching", 0, 64), from("times", 1, 1_000), from("copies", 0, 1)],
        known: &[],
        make: watches::marks,
    },
    Family {
        name: "takedowns",
        parameters: &[from("advices", 0, 63), from("takedowns", 1, 40), from("times", 1, 1_000)],
        known: &[],
        make: watches::takedowns,
    },
    Family {
        name: "pointcuts",
        parameters: &[from("labels", 0, 8), from("pointcuts", 1, 100), from("levels", 0, 28), from("entries", 0, 8)],
        known: &[],
        make: scopes::pointcuts,
    },
    Family {
        name: "kept values",
        parameters: &[from("keeps", 1, 50), from("calls", 0, 10), from("stacks", 1, 60), from("entries", 0, 8)],
        known: &[],
        make: stacks::kept,
    },
    Family {
        name: "far variables",
        parameters: &[
            from("levels", 0, 58),
            from("entries", 0, 8),
            from("work", 0, 4),
            from("chains", 1, 100),
            from("links", 1, 50),
            from("rounds", 1, 1_020),
            from("marks", 0, 1),
        ],
        known: &[&[41, 8, 0, 16, 36, 588, 1], &[29, 8, 0, 68, 44, 759, 0]],
        make: scopes::far,
    },
];

#[cfg(test)]
mod tests {
    use super::*;
    use bukzarn::{validate, REPORT_LENGTH, WORK_LENGTH};

    fn accepted(image: &[u8]) -> bool {
        validate(image, WORK_LENGTH, REPORT_LENGTH).is_ok()
    }

    #[test]
    fn each_family_has_an_image_of_its_least_numbers() {
        for family in &ALL {
            let least: Vec<usize> = family.parameters.iter().map(|parameter| parameter.least).collect();
            assert!(accepted(&(family.make)(&least)), "{}", family.name);
        }
    }

    #[test]
    fn a_point_gives_the_same_image_again() {
        for family in &ALL {
            let point: Vec<usize> = family.parameters.iter().map(|p| (p.least + p.most) / 2).collect();
            assert_eq!((family.make)(&point), (family.make)(&point), "{}", family.name);
        }
    }
}
