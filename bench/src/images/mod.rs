//! The images that are measured.
mod decode;
mod large;
mod loops;
mod marks;
mod varied;

pub use large::{chain, constant};
pub use loops::{again, knot};
use std::fs;
use std::path::{Path, PathBuf};

/// The image whose job is also done in other languages.
pub const DECODED: &str = "240 bytes decoded";
const DECODED_BYTES: i32 = 240;
/// The images with loops.
pub const LOOPS: [&str; 6] =
    ["recursion through a cell", DECODED, "marks, 1 advice", "marks, 8 advices", "marks, 64 advices", "deep recursion"];
/// The smallest.
pub const CONSTANT: &str = "constant (P2)";
/// The largest, of which most is read once, and the one that is refused.
pub const LARGEST: &str = "largest accepted";
pub const REFUSED: &str = "16,384 bytes, refused";

/// An image with its name.
pub struct Image {
    pub name: &'static str,
    pub bytes: Vec<u8>,
}

impl Image {
    /// How many term records it has.
    pub fn terms(&self) -> usize {
        let word = |at: usize| u16::from_le_bytes([self.bytes[at], self.bytes[at + 1]]);
        let (mut at, mut terms) = (0, 0);
        while at < self.bytes.len() {
            terms += usize::from(word(at + 2) >= 32);
            at += usize::from(word(at));
        }
        terms
    }
}

/// That image with a watch that stores to the decoder's sum.
pub fn harmful_decode() -> Vec<u8> {
    decode::harmful(DECODED_BYTES)
}

/// Every image, in the order of the tables.
pub fn all() -> Vec<Image> {
    let image = |name, bytes| Image { name, bytes };
    vec![
        image(CONSTANT, large::constant()),
        image("recursion through a cell", loops::tail(1_020)),
        image(DECODED, decode::decode(DECODED_BYTES)),
        image("marks, 1 advice", marks::marks(1, 1_000)),
        image("marks, 8 advices", marks::marks(8, 120)),
        image("marks, 64 advices", marks::marks(64, 15)),
        image("deep recursion", loops::deep(500, 2)),
        image("nested sums", large::nested()),
        image(LARGEST, large::largest()),
        image("1,024 varied terms", varied::varied()),
        image(REFUSED, large::refused()),
    ]
}

/// The images in a folder's files that end in .img, in the order of their names.
pub fn read(folder: &Path) -> Vec<Image> {
    let entries = fs::read_dir(folder).unwrap_or_else(|error| panic!("{}: {error}", folder.display()));
    let mut paths: Vec<_> = entries.map(|entry| entry.expect("an entry of the folder").path()).collect();
    paths.retain(|path| path.extension().is_some_and(|end| end == "img"));
    paths.sort();
    let image = |path: PathBuf| {
        let name = path.file_stem().map_or_else(String::new, |name| name.to_string_lossy().replace('_', " "));
        let bytes = fs::read(&path).unwrap_or_else(|error| panic!("{}: {error}", path.display()));
        // A name is kept as long as the program runs.
        Image { name: name.trim().to_string().leak(), bytes }
    };
    paths.into_iter().map(image).collect()
}

/// Writes each image as a file of a folder.
pub fn dump(images: &[Image], folder: &Path) {
    fs::create_dir_all(folder).unwrap_or_else(|error| panic!("{}: {error}", folder.display()));
    for image in images {
        let name: String = image.name.chars().filter(|c| c.is_alphanumeric() || *c == ' ').collect();
        let path = folder.join(name.replace(' ', "-") + ".img");
        fs::write(&path, &image.bytes).unwrap_or_else(|error| panic!("{}: {error}", path.display()));
    }
}

#[cfg(test)]
mod tests {
    use super::*;
    use bukzarn::{run, Cause, Lent, Outcome};

    /// How an image ends over a frame of 240 bytes.
    fn end(image: &Image) -> Result<Outcome, Cause> {
        let mut lent = Lent::new(16_384);
        run(&image.bytes, &[9; 240], u32::MAX, &mut lent).map(|run| run.outcome()).map_err(|refusal| refusal.cause)
    }

    #[test]
    fn all_but_the_last_are_done() {
        let images = all();
        let (last, others) = images.split_last().unwrap();
        assert!(others.iter().all(|image| end(image) == Ok(Outcome::Done)));
        assert_eq!((end(last), last.bytes.len(), last.terms()), (Err(Cause::UseCount), 16_384, 1_024));
    }

    #[test]
    fn sizes_are_as_named() {
        let sizes = |name: &str| {
            let image = all().into_iter().find(|image| image.name == name).unwrap();
            (image.bytes.len(), image.terms())
        };
        assert_eq!(sizes(CONSTANT), (20, 1));
        assert_eq!(sizes(LARGEST), (12_630, 1_024));
        assert_eq!(sizes("1,024 varied terms").1, 1_024);
    }
}
