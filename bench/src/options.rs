//! What the command line says.
use std::path::Path;

/// The words of the command line.
pub struct Options {
    words: Vec<String>,
}

impl Options {
    pub fn read() -> Options {
        Options { words: std::env::args().skip(1).collect() }
    }

    fn place(&self, option: &str) -> Option<usize> {
        self.words.iter().position(|word| word == option)
    }

    /// Is the option there?
    pub fn has(&self, option: &str) -> bool {
        self.place(option).is_some()
    }

    /// All words behind an option.
    pub fn rest(&self, option: &str) -> Option<&[String]> {
        self.place(option).map(|at| &self.words[at + 1..])
    }

    /// The word after an option.
    pub fn after(&self, option: &str) -> Option<&str> {
        let rest = self.rest(option)?;
        Some(rest.first().unwrap_or_else(|| panic!("{option} takes an argument")))
    }

    /// The file or folder after an option.
    pub fn path(&self, option: &str) -> Option<&Path> {
        self.after(option).map(Path::new)
    }

    /// How often everything is measured.
    pub fn repetitions(&self) -> usize {
        if self.has("--quick") {
            31
        } else {
            301
        }
    }
}

/// The number that a word says.
pub fn number<T: std::str::FromStr>(word: &str) -> T {
    word.parse().unwrap_or_else(|_| panic!("{word} is no number that fits"))
}
