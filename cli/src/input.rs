//! Reading: images, single frames, recordings. A read that fails is never taken for the end of a file.
use crate::error::Error;
use crate::files;
use crate::printable::display_name;
use crate::signals;
use bukzarn::Frames;
use std::fs::File;
use std::io::{self, BufReader, Read};
use std::path::{Path, PathBuf};

/// The longest frame that is read, in bytes: far more than a station sends, little enough for memory.
pub const LONGEST_FRAME: usize = 16 << 20;

/// Bytes that are read from a recording at once.
const BUFFER: usize = 1 << 16;

/// Standard input, for which `-` stands, or a file.
fn open(path: &Path) -> Result<File, Error> {
    let opened = if path == Path::new("-") { files::standard_input() } else { File::open(path) };
    opened.map_err(|error| failed(path, error))
}

fn failed(path: &Path, error: io::Error) -> Error {
    Error::Failed(source_name(path), error)
}

/// What an error calls a file.
fn source_name(path: &Path) -> String {
    if path == Path::new("-") {
        "standard input".into()
    } else {
        display_name(path)
    }
}

/// The bytes of a file, but at most one more than the limit: enough to see that it is longer.
pub fn whole(path: &Path, limit: usize) -> Result<Vec<u8>, Error> {
    let mut bytes = Vec::new();
    let read = open(path)?.take(limit as u64 + 1).read_to_end(&mut bytes);
    read.map(|_| bytes).map_err(|error| failed(path, error))
}

/// One frame: the whole file.
pub fn frame(path: &Path) -> Result<Vec<u8>, Error> {
    let bytes = whole(path, LONGEST_FRAME)?;
    if bytes.len() > LONGEST_FRAME {
        return Err(Error::Input(format!(
            "{} is longer than a frame may be, {LONGEST_FRAME} bytes: for a recording say --frames and --length",
            source_name(path)
        )));
    }
    Ok(bytes)
}

/// A recording: frames of one length, one after another, which are given in batches.
pub struct Recording {
    path: PathBuf,
    reader: BufReader<File>,
    length: usize,
    batch: usize,
    frames: Vec<u8>,
    count: u64,
    /// How many frames there will be, where that is known.
    pub expected: Option<u64>,
}

impl Recording {
    /// Opens a recording of frames of so many bytes, at least one, for batches of so many frames at most.
    pub fn open(path: &Path, length: usize, batch: usize) -> Result<Recording, Error> {
        let file = open(path)?;
        let known = file.metadata().ok().filter(std::fs::Metadata::is_file);
        let expected = known.map(|data| data.len() / length as u64);
        let reader = BufReader::with_capacity(BUFFER, file);
        Ok(Recording { path: path.into(), reader, length, batch, frames: Vec::new(), count: 0, expected })
    }

    /// The next frames, or nothing at the end, or if a signal says that this is the end. One frame is waited for, the others
    /// are those that came with it, so that no frame waits for later ones, and no read fails before all frames ahead of it
    /// were given. A last frame that is short and a recording without frames are errors.
    pub fn next(&mut self) -> Result<Option<Frames<'_>>, Error> {
        self.frames.clear();
        let got = self.read_frame()?;
        let (name, length, count) = (source_name(&self.path), self.length, self.count);
        if signals::pending() && got < length {
            return Ok(None);
        }
        if got == 0 && count == 0 {
            return Err(Error::Input(format!("{name} is empty: a recording has at least one frame")));
        }
        if 0 < got && got < length {
            return Err(Error::Input(format!(
                "{name}: frame {count}, the last, is short: it has {got} of {length} bytes"
            )));
        }
        if got == 0 {
            return Ok(None);
        }
        while self.frames.len() < self.batch * length && length <= self.reader.buffer().len() {
            if self.read_frame()? < length {
                break; // a signal came
            }
        }
        let frames = Frames::in_parts(&self.frames, self.frames.len() / length);
        self.count += frames.count() as u64;
        Ok(Some(frames))
    }

    /// Reads up to a whole frame, and answers how many bytes came before the end or before a signal.
    fn read_frame(&mut self) -> Result<usize, Error> {
        let start = self.frames.len();
        self.frames.resize(start + self.length, 0);
        let mut got = 0;
        while got < self.length && !signals::pending() {
            match self.reader.read(&mut self.frames[start + got..]) {
                Ok(0) => break,
                Ok(more) => got += more,
                Err(error) if error.kind() == io::ErrorKind::Interrupted => (),
                Err(error) => return Err(failed(&self.path, error)),
            }
        }
        self.frames.truncate(start + got);
        Ok(got)
    }
}
