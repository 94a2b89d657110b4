//! The command as a user calls it.
use std::fs;
use std::path::{Path, PathBuf};
use std::process::{Command, Output};

/// A command in the folder of the examples.
pub fn bukzarn(words: &[&str]) -> Command {
    let mut command = Command::new(env!("CARGO_BIN_EXE_bukzarn"));
    command.args(words).current_dir(examples());
    command
}

/// The folder of the examples.
pub fn examples() -> PathBuf {
    Path::new(env!("CARGO_MANIFEST_DIR")).join("../examples")
}

/// The bytes of an example.
pub fn example(name: &str) -> Vec<u8> {
    fs::read(examples().join(name)).unwrap()
}

/// The exit status, and what went to standard output and standard error.
pub fn said(words: &[&str]) -> (Option<i32>, String, String) {
    let Output { status, stdout, stderr } = bukzarn(words).output().unwrap();
    (status.code(), String::from_utf8(stdout).unwrap(), String::from_utf8(stderr).unwrap())
}

/// The exit status of each line of words.
pub fn statuses(lines: &[(&[&str], i32)]) {
    for (words, status) in lines {
        assert_eq!(said(words).0, Some(*status), "{words:?}");
    }
}

/// A file of a test's own, with these bytes.
pub fn file(name: &str, bytes: &[u8]) -> String {
    let path = Path::new(env!("CARGO_TARGET_TMPDIR")).join(name);
    fs::write(&path, bytes).unwrap();
    path.to_str().unwrap().into()
}

/// An empty folder of a test's own.
pub fn folder(name: &str) -> PathBuf {
    let path = Path::new(env!("CARGO_TARGET_TMPDIR")).join(format!("folder-{name}"));
    let _ = fs::remove_dir_all(&path);
    fs::create_dir_all(&path).unwrap();
    path
}
