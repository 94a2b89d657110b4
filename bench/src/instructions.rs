//! Instructions of single calls, counted by valgrind's tool callgrind where it is installed.
use std::env;
use std::ffi::OsStr;
use std::fs;
use std::path::{Path, PathBuf};
use std::process::{Command, Stdio};

/// The option with which the bench makes one call and measures nothing: what is counted.
pub const ONE: &str = "--one";

/// A folder of this process for the files of its counts, which is removed at the end.
pub struct Counter {
    folder: PathBuf,
}

impl Counter {
    /// Nothing if valgrind is not installed.
    pub fn new() -> Option<Counter> {
        let asked = Command::new("valgrind").arg("--version").stdout(Stdio::null()).stderr(Stdio::null()).status();
        asked.ok().filter(|status| status.success())?;
        let folder = env::temp_dir().join(format!("bukzarn-bench-{}", std::process::id()));
        fs::create_dir_all(&folder).unwrap_or_else(|error| panic!("{}: {error}", folder.display()));
        Some(Counter { folder })
    }

    /// The bytes as a file.
    fn file(&self, name: &str, bytes: &[u8]) -> PathBuf {
        let path = self.folder.join(name);
        fs::write(&path, bytes).unwrap_or_else(|error| panic!("{}: {error}", path.display()));
        path
    }

    /// The instructions inside a function of the library, while this program makes the one call that `what` names on an
    /// image and a frame.
    pub fn count(&self, symbol: &str, what: &str, image: &[u8], frame: &[u8]) -> u64 {
        let (image, frame) = (self.file("image", image), self.file("frame", frame));
        let out = self.folder.join("count");
        let mut asked = Command::new("valgrind");
        asked.args(["--tool=callgrind", "--collect-atstart=no", &format!("--toggle-collect={symbol}")]);
        asked.arg(format!("--callgrind-out-file={}", out.display()));
        asked.arg(env::current_exe().expect("the program knows its own file"));
        asked.args([ONE.as_ref(), OsStr::new(what), image.as_os_str(), frame.as_os_str()]);
        // Names are looked up before the call, not in it.
        asked.env("LD_BIND_NOW", "1").stdout(Stdio::null()).stderr(Stdio::null());
        let status = asked.status().expect("valgrind starts");
        assert!(status.success(), "valgrind could not run {what}");
        total(&out)
    }
}

impl Drop for Counter {
    fn drop(&mut self) {
        let _ = fs::remove_dir_all(&self.folder);
    }
}

/// The number of callgrind's line `totals:` or `summary:`.
fn total(path: &Path) -> u64 {
    let text = fs::read_to_string(path).expect("callgrind writes its file");
    let line = text.lines().find_map(|line| line.strip_prefix("totals: ").or(line.strip_prefix("summary: ")));
    line.and_then(|number| number.trim().parse().ok()).expect("callgrind writes a total")
}
