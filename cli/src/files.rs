//! Which file a name stands for, so that no command writes over what it reads.
use std::ffi::{OsStr, OsString};
use std::fs::{self, File, Metadata};
use std::io;
use std::os::fd::AsFd;
use std::os::unix::fs::{FileTypeExt, MetadataExt};
use std::path::{Path, PathBuf};

/// The longest chain of links that is followed, as the system has it.
const LINKS: usize = 40;

/// A file, whatever its names: by device and number, or, if it is not there yet, by its folder and its name.
#[derive(Clone, Debug, PartialEq, Eq)]
pub enum Identity {
    Existing(u64, u64),
    New(u64, u64, OsString),
}

/// The file that a name stands for; `-` is standard input. Nothing for a device, like /dev/null, which may be named as often
/// as one likes, and for what cannot be there.
pub fn identity(name: &OsStr) -> Option<Identity> {
    if name == "-" {
        return standard_input().ok().and_then(|file| of_metadata(&file.metadata().ok()?));
    }
    let path = resolve_links(Path::new(name));
    match fs::metadata(&path) {
        Ok(data) => of_metadata(&data),
        Err(_) => {
            let folder = fs::metadata(parent_folder(&path)).ok()?;
            Some(Identity::New(folder.dev(), folder.ino(), path.file_name()?.into()))
        }
    }
}

/// The file behind standard output, if it is no device.
pub fn stdout_identity() -> Option<Identity> {
    let file = File::from(io::stdout().as_fd().try_clone_to_owned().ok()?);
    of_metadata(&file.metadata().ok()?)
}

/// Standard input as a file.
pub fn standard_input() -> io::Result<File> {
    Ok(File::from(io::stdin().as_fd().try_clone_to_owned()?))
}

fn of_metadata(data: &Metadata) -> Option<Identity> {
    (!data.file_type().is_char_device()).then_some(Identity::Existing(data.dev(), data.ino()))
}

/// The folder of a file.
pub fn parent_folder(path: &Path) -> &Path {
    path.parent().filter(|folder| !folder.as_os_str().is_empty()).unwrap_or(Path::new("."))
}

/// The path that a chain of links leads to, also if nothing is there.
pub fn resolve_links(path: &Path) -> PathBuf {
    let mut path = path.to_path_buf();
    for _ in 0..LINKS {
        match fs::read_link(&path) {
            Ok(next) => path = parent_folder(&path).join(next),
            Err(_) => break,
        }
    }
    path
}
