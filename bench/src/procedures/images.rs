//! The procedures with their recordings.
use crate::images;
use std::fs;
use std::path::PathBuf;

pub const PLAIN: &str = "the ascent";
pub const WATCHED: &str = "the ascent, three watches";

/// The frames of a recording that is made here.
const MADE: usize = 64;
/// A frame that examples/crc.proc checks: its length, and where its sum stands.
const CRC_LENGTH: usize = 24;
const CRC_SUM: usize = 22;

/// An image and the frames that it runs over, one after another.
pub struct Procedure {
    pub name: &'static str,
    pub image: Vec<u8>,
    pub frames: Vec<u8>,
    /// The bytes of one frame.
    pub length: usize,
}

/// A file of the examples.
fn example(name: &str) -> Vec<u8> {
    let path: PathBuf = [env!("CARGO_MANIFEST_DIR"), "..", "examples", name].iter().collect();
    fs::read(&path).unwrap_or_else(|error| panic!("{}: {error}", path.display()))
}

/// CRC-16 with the polynomial 0x1021, started at 0xffff, the highest bit of each byte first.
fn crc16(bytes: &[u8]) -> u16 {
    bytes.iter().fold(0xffff, |sum, byte| {
        (0..8).fold(sum ^ (u16::from(*byte) << 8), |sum: u16, _| {
            let shifted = sum << 1;
            if sum & 0x8000 == 0 {
                shifted
            } else {
                shifted ^ 0x1021
            }
        })
    })
}

/// Frames with their sums; each eighth has a damaged byte.
fn checked_frames() -> Vec<u8> {
    let frame = |i: usize| {
        let mut frame: Vec<u8> = (0..CRC_SUM).map(|k| (i * 37 + k * 101 + 5) as u8).collect();
        frame.extend(crc16(&frame).to_be_bytes());
        frame[3] ^= u8::from(i % 8 == 7);
        debug_assert_eq!(frame.len(), CRC_LENGTH);
        frame
    };
    (0..MADE).flat_map(frame).collect()
}

/// The bench sheet's frame, the bytes 0 to 255, so many times.
fn bench_sheet_frames() -> Vec<u8> {
    (0..MADE).flat_map(|_| 0..=u8::MAX).collect()
}

/// The procedures of the examples.
pub fn examples() -> Vec<Procedure> {
    let over = |name, file, frames, length| Procedure { name, image: example(file), frames, length };
    let ascent = || example("ascent/ascent.frames");
    vec![
        over(PLAIN, "ascent/plain.img", ascent(), 12),
        over(WATCHED, "ascent/watched.img", ascent(), 12),
        over("six levels, two watches", "watched.img", bench_sheet_frames(), 256),
        over("CRC-16 of a frame", "crc.img", checked_frames(), CRC_LENGTH),
        over("two sondes as objects", "sondes.img", bench_sheet_frames(), 256),
        over("a watch that matches the stack", "descent.img", bench_sheet_frames(), 256),
    ]
}

/// Images of the bench, each over 64 frames of 240 bytes.
pub fn bench_images() -> Vec<Procedure> {
    let frames: Vec<u8> = (0..MADE * 240).map(|i| (i * 83 % 241) as u8).collect();
    let kept = [images::DECODED, images::LARGEST, images::REFUSED];
    let all = images::all().into_iter().filter(|image| kept.contains(&image.name));
    all.map(|image| Procedure { name: image.name, image: image.bytes, frames: frames.clone(), length: 240 }).collect()
}

#[cfg(test)]
mod tests {
    use super::*;
    use bukzarn::{run, Lent, Outcome};

    #[test]
    fn the_sum_is_the_known_one() {
        assert_eq!(crc16(b"123456789"), 0x29b1);
    }

    /// The procedure prints the sum of each frame, and aborts on those that are damaged.
    #[test]
    fn the_procedure_finds_the_same_sums() {
        let all = examples();
        let crc = all.iter().find(|procedure| procedure.length == CRC_LENGTH).unwrap();
        let mut lent = Lent::new(16_384);
        for (i, frame) in crc.frames.chunks(CRC_LENGTH).enumerate() {
            let run = run(&crc.image, frame, u32::MAX, &mut lent).unwrap();
            let printed: Vec<i32> = run.log().map(|record| record.number).collect();
            assert_eq!(printed, [i32::from(crc16(&frame[..CRC_SUM]))]);
            assert_eq!(run.outcome(), if i % 8 == 7 { Outcome::Aborted } else { Outcome::Done });
        }
    }
}
