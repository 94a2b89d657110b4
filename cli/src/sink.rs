//! Where something is written: standard output, a device, or a file, which is written under another name and put in its
//! place when it is whole. What stood there before is there until then.
use crate::error::Error;
use crate::files::{parent_folder, resolve_links};
use crate::printable::display_name;
use crate::signals;
use std::fs::{self, File};
use std::io::{self, BufWriter, Write};
use std::path::{Path, PathBuf};
use std::sync::atomic::{AtomicU32, Ordering};

/// What standard output is called in an error.
pub const STANDARD_OUTPUT: &str = "standard output";

/// Counts temporary files, so that each has a name of its own.
static COUNT: AtomicU32 = AtomicU32::new(0);

/// A file, a device or standard output, with its name for errors.
pub struct Sink {
    name: String,
    out: BufWriter<Box<dyn Write>>,
    temporary: Option<TemporaryFile>,
}

/// A file that is written beside the one whose place it will take. If it never does, it goes.
struct TemporaryFile {
    file: File,
    path: PathBuf,
    target: PathBuf,
}

impl Drop for TemporaryFile {
    fn drop(&mut self) {
        let _ = fs::remove_file(&self.path);
    }
}

impl TemporaryFile {
    /// A new file in the folder of the target, with its rights if it is there and may be written.
    fn create(target: PathBuf) -> io::Result<TemporaryFile> {
        let rights = match fs::metadata(&target) {
            Ok(data) => Some(File::options().write(true).open(&target).map(|_| data.permissions())?),
            Err(error) if error.kind() == io::ErrorKind::NotFound => None,
            Err(error) => return Err(error),
        };
        let number = COUNT.fetch_add(1, Ordering::Relaxed);
        let path = parent_folder(&target).join(format!(".bukzarn-{}-{number}", std::process::id()));
        let file = File::options().write(true).create_new(true).open(&path)?;
        let made = TemporaryFile { file, path, target };
        rights.map_or(Ok(()), |rights| made.file.set_permissions(rights))?;
        Ok(made)
    }

    /// Puts the whole file in its place.
    fn commit(&self) -> io::Result<()> {
        self.file.sync_all()?;
        fs::rename(&self.path, &self.target)
    }
}

impl Sink {
    /// Standard output.
    pub fn standard() -> Result<Sink, Error> {
        signals::check_stdout(STANDARD_OUTPUT)?;
        Ok(Sink { name: STANDARD_OUTPUT.into(), out: BufWriter::new(Box::new(io::stdout())), temporary: None })
    }

    /// A file, or standard output, for which `-` stands.
    pub fn create(path: &Path) -> Result<Sink, Error> {
        if path == Path::new("-") {
            return Sink::standard();
        }
        let name = display_name(path);
        open_target(path)
            .map(|(out, temporary)| Sink { name: name.clone(), out: BufWriter::new(out), temporary })
            .map_err(|error| Error::Failed(name, error))
    }

    /// Writes with a function; a failure is told with the name.
    pub fn put(&mut self, write: impl FnOnce(&mut BufWriter<Box<dyn Write>>) -> io::Result<()>) -> Result<(), Error> {
        write(&mut self.out).map_err(|error| Error::Failed(self.name.clone(), error))
    }

    /// Writes out what is still held back.
    pub fn flush(&mut self) -> Result<(), Error> {
        self.put(Write::flush)
    }

    /// Writes out what is still held back; a temporary file takes its place.
    pub fn finish(&mut self) -> Result<(), Error> {
        self.flush()?;
        let placed = self.temporary.take().map_or(Ok(()), |temporary| temporary.commit());
        placed.map_err(|error| Error::Failed(self.name.clone(), error))
    }
}

/// What is written to, and the temporary file if what is meant is no device or pipe.
fn open_target(path: &Path) -> io::Result<(Box<dyn Write>, Option<TemporaryFile>)> {
    if fs::metadata(path).is_ok_and(|data| !data.is_file()) {
        return Ok((Box::new(File::options().write(true).open(path)?), None));
    }
    let temporary = TemporaryFile::create(resolve_links(path))?;
    Ok((Box::new(temporary.file.try_clone()?), Some(temporary)))
}

/// Writes to standard output, at once.
pub fn write_whole(bytes: &[u8]) -> Result<(), Error> {
    let mut out = Sink::standard()?;
    out.put(|out| out.write_all(bytes))?;
    out.finish()
}
