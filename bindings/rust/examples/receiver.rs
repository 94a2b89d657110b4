//! A receiver: reads a recording or a pipe, frames of one length one after another, runs an image over the frames that have
//! come, a batch in one call, and prints a line for each printed number: frame, domain, number. With a name it refuses
//! another image than the one of that name, which `sha256sum` prints.
//!
//! In bindings/rust:
//!
//!     cargo run --release --example receiver -- ../../examples/ascent/watched.img ../../examples/ascent/ascent.frames 12
use bukzarn::{image_name, run_frames, Frames, Lent, Outcome, IMAGE_LIMIT};
use std::error::Error;
use std::ffi::OsString;
use std::fs::File;
use std::io::{self, BufWriter, Read, Write};

const BUDGET: u32 = 100_000;
const LOG: usize = 16_384;

/// Frames that are run in one call at most, and the longest frame, in bytes.
const BATCH: usize = 64;
const LONGEST: usize = 65_536;

fn main() -> Result<(), Box<dyn Error>> {
    let words: Vec<OsString> = std::env::args_os().skip(1).collect();
    let (image, recording, length, name) = match words.as_slice() {
        [image, recording, length] => (image, recording, length, None),
        [image, recording, length, name] => (image, recording, length, Some(name.to_string_lossy())),
        _ => return Err("usage: receiver IMAGE RECORDING LENGTH [NAME]".into()),
    };
    let length = length.to_str().and_then(|digits| digits.parse().ok()).filter(|length| (1..=LONGEST).contains(length));
    let length = length.ok_or_else(|| format!("the length is a number from 1 to {LONGEST}"))?;
    let image = read_image(image)?;
    if name.is_some_and(|name| !image_name(&image).begins_with(&name)) {
        return Err(format!("this is another image: its name is {}", image_name(&image)).into());
    }
    receive(&image, &mut open(recording)?, length)
}

/// A file; an error names it, without signs that a terminal would obey.
fn open(name: &OsString) -> Result<File, String> {
    File::open(name).map_err(|error| format!("{name:?}: {error}"))
}

/// The bytes of an image, or those of a longer file up to one too many.
fn read_image(name: &OsString) -> Result<Vec<u8>, String> {
    let mut image = Vec::new();
    let read = open(name)?.take(IMAGE_LIMIT as u64 + 1).read_to_end(&mut image);
    read.map(|_| image).map_err(|error| format!("{name:?}: {error}"))
}

/// Runs the image over the frames as they come, with the same lent memory; what they printed is written before the next are
/// waited for. A run that is not done is told.
fn receive(image: &[u8], recording: &mut impl Read, length: usize) -> Result<(), Box<dyn Error>> {
    let mut out = BufWriter::new(io::stdout().lock());
    writeln!(out, "frame,domain,number")?;
    let (mut lent, mut bytes, mut number) = (Lent::new(LOG), Vec::new(), 0);
    while next(recording, &mut bytes, length)? {
        let whole = bytes.len() - bytes.len() % length;
        let frames = Frames::of_length(&bytes[..whole], length).ok_or("the length is not 0")?;
        for run in run_frames(image, frames, BUDGET, &mut lent)? {
            for printed in run.log() {
                writeln!(out, "{number},{},{}", printed.domain, printed.number)?;
            }
            if run.outcome() != Outcome::Done {
                writeln!(io::stderr(), "frame {number}: {}", run.outcome().words())?;
            }
            number += 1;
        }
        out.flush()?;
        bytes.drain(..whole);
    }
    if !bytes.is_empty() || number == 0 {
        return Err(format!("frame {number} has {} of {length} bytes", bytes.len()).into());
    }
    Ok(())
}

/// Waits till there are more bytes, and takes those that have come. No, if the recording ends.
fn next(recording: &mut impl Read, bytes: &mut Vec<u8>, length: usize) -> io::Result<bool> {
    let (old, room) = (bytes.len(), BATCH * length);
    bytes.resize(room, 0);
    let got = loop {
        match recording.read(&mut bytes[old..]) {
            Err(error) if error.kind() == io::ErrorKind::Interrupted => (),
            got => break got,
        }
    };
    bytes.truncate(old + got.as_ref().unwrap_or(&0));
    Ok(got? > 0)
}
