//! Generated images, by the library and by an implementation of its own (document 02, card 12).
use bukzarn::{generate, load, run, Cause, Lent, Outcome, Refusal, LOAD_DEPTH, LOAD_LENGTH};

/// What is drawn, as a tree.
enum Tree {
    Number(u32),
    Plus(Box<Tree>, Box<Tree>),
    Minus(Box<Tree>, Box<Tree>),
    /// A sequence of a print of the first, then the second.
    Printed(Box<Tree>, Box<Tree>),
}

struct Draws {
    state: u32,
}

impl Draws {
    fn draw(&mut self) -> u32 {
        self.state = self.state.wrapping_mul(1_664_525).wrapping_add(1_013_904_223);
        self.state >> 24
    }

    fn tree(&mut self, depth: usize) -> Tree {
        let choice = if depth == 1 { 0 } else { self.draw() % 4 };
        match choice {
            1 => self.two(Tree::Plus, depth - 1, depth - 1),
            2 => self.two(Tree::Minus, depth - 1, depth - 1),
            3 if depth >= 3 => self.two(Tree::Printed, depth - 2, depth - 1),
            _ => Tree::Number(self.draw()),
        }
    }

    /// Left is drawn first.
    fn two(&mut self, make: fn(Box<Tree>, Box<Tree>) -> Tree, left: usize, right: usize) -> Tree {
        let left = self.tree(left);
        let right = self.tree(right);
        make(Box::new(left), Box::new(right))
    }
}

/// The terms, as their words without the length, children first.
#[derive(Default)]
struct Terms(Vec<Vec<u16>>);

impl Terms {
    fn put(&mut self, words: &[u16]) -> u16 {
        self.0.push(words.to_vec());
        self.0.len() as u16 - 1
    }

    /// Writes a tree and gives the number of its root.
    fn write(&mut self, tree: &Tree) -> u16 {
        match tree {
            Tree::Number(n) => self.put(&[34, 1, *n as u16, 0]),
            Tree::Plus(a, b) | Tree::Minus(a, b) => {
                let (left, right) = (self.write(a), self.write(b));
                self.put(&[43, 1, u16::from(matches!(tree, Tree::Minus(..))), left, right])
            }
            Tree::Printed(a, b) => {
                let printed = self.write(a);
                let first = self.put(&[37, 0, printed]);
                let second = self.write(b);
                self.put(&[36, 1, first, second])
            }
        }
    }
}

/// The image of a seed and a depth: domain 0 alone, types unit and number, the terms.
fn expected(seed: u32, depth: usize) -> Vec<u8> {
    let mut terms = Terms::default();
    terms.write(&Draws { state: seed }.tree(depth));
    let head = [vec![1, 1], vec![16], vec![18]];
    let record = |words: &Vec<u16>| {
        let length = 2 + 2 * words.len() as u16;
        std::iter::once(length).chain(words.iter().copied()).flat_map(u16::to_le_bytes).collect::<Vec<u8>>()
    };
    head.iter().chain(&terms.0).flat_map(record).collect()
}

/// Seeds that are spread over all 32 bits.
fn seeds(count: u32) -> impl Iterator<Item = u32> {
    (0..count).map(|i| i.wrapping_mul(0x9E37_79B9)).chain([1, 7, u32::MAX])
}

#[test]
fn the_same_bytes_as_an_implementation_of_its_own() {
    for depth in 1..=LOAD_DEPTH {
        for seed in seeds(3_000) {
            assert_eq!(load(seed, depth).unwrap(), expected(seed, depth), "seed {seed}, depth {depth}");
        }
    }
}

#[test]
fn whatever_the_output_held() {
    for filler in [0, 0xA5, 0xFF] {
        let mut out = vec![filler; LOAD_LENGTH + 3];
        let length = generate(1_178_196_580, 9, &mut out).unwrap();
        assert_eq!(out[..length], expected(1_178_196_580, 9));
        assert!(out[length..].iter().all(|byte| *byte == filler));
    }
}

#[test]
fn refusals_in_their_order() {
    let refused = |depth, length| {
        let mut out = vec![7; length];
        let answer = generate(1, depth, &mut out);
        assert!(out.iter().all(|byte| *byte == 7));
        answer.unwrap_err()
    };
    let of = |cause| Refusal { cause, place: 0 };
    assert_eq!(refused(0, 0), of(Cause::WrongDepth));
    assert_eq!(refused(LOAD_DEPTH + 1, LOAD_LENGTH), of(Cause::WrongDepth));
    assert_eq!(refused(usize::MAX, LOAD_LENGTH - 1), of(Cause::WrongDepth));
    assert_eq!(refused(1, LOAD_LENGTH - 1), of(Cause::ShortLoad));
}

#[test]
fn every_load_runs_to_its_end() {
    let mut lent = Lent::new(16_384);
    for seed in seeds(500) {
        let image = load(seed, LOAD_DEPTH).unwrap();
        assert!(image.len() <= 6_146);
        assert_eq!(run(&image, &[], 1_000, &mut lent).unwrap().outcome(), Outcome::Done);
    }
}
