//! The words of a command: files, options with values, and options without.
use crate::error::Error;
use crate::files;
use crate::printable::display_name;
use std::ffi::{OsStr, OsString};
use std::os::unix::ffi::OsStrExt;
use std::path::PathBuf;

/// The words of one command.
#[derive(Debug)]
pub struct Arguments {
    command: &'static str,
    /// The words that are no options.
    pub files: Vec<PathBuf>,
    values: Vec<(&'static str, OsString)>,
    flags: Vec<&'static str>,
    /// Is help asked for?
    pub help: bool,
}

impl Arguments {
    /// Takes the words of a command apart. An option has a value, `--name value` or `--name=value`; a flag has none. Each is
    /// given once. Words need not be UTF-8, since names of files need not be.
    pub fn parse(
        words: &[OsString],
        command: &'static str,
        options: &[&'static str],
        flags: &[&'static str],
    ) -> Result<Arguments, Error> {
        let mut found = Arguments { command, files: Vec::new(), values: Vec::new(), flags: Vec::new(), help: false };
        let mut rest = words.iter();
        while let Some(word) = rest.next() {
            let flag = flags.iter().find(|flag| word == **flag);
            match (word.as_bytes(), flag) {
                (b"--help" | b"-h", _) => found.help = true,
                (b"--", _) => found.files.extend(rest.by_ref().map(PathBuf::from)),
                (_, Some(flag)) => found.flags.push(flag),
                ([b'-', _, ..], None) => found.option(word, &mut rest, options)?,
                _ => found.files.push(PathBuf::from(word)),
            }
        }
        Ok(found)
    }

    /// Keeps the value of an option, which stands in the same word or is the next.
    fn option<'a>(
        &mut self,
        word: &OsStr,
        rest: &mut impl Iterator<Item = &'a OsString>,
        options: &[&'static str],
    ) -> Result<(), Error> {
        let mut parts = word.as_bytes().splitn(2, |byte| *byte == b'=').map(OsStr::from_bytes);
        let (name, own) = (parts.next().unwrap_or_default(), parts.next());
        let Some(known) = options.iter().find(|option| name == **option) else {
            return Err(self.usage(format!("there is no option {}", display_name(name))));
        };
        if self.value(known).is_some() {
            return Err(self.usage(format!("{known} is given twice")));
        }
        let Some(value) = own.map(OsString::from).or_else(|| rest.next().cloned()) else {
            return Err(self.usage(format!("{known} needs a value")));
        };
        self.values.push((known, value));
        Ok(())
    }

    /// The error that the words make no sense.
    pub fn usage(&self, words: String) -> Error {
        Error::Usage(words, self.command)
    }

    /// The value of an option.
    pub fn value(&self, name: &str) -> Option<&OsStr> {
        self.values.iter().find(|(option, _)| *option == name).map(|(_, value)| value.as_os_str())
    }

    /// Is an option without a value given?
    pub fn flag(&self, name: &str) -> bool {
        self.flags.contains(&name)
    }

    /// The number that an option gives, within limits; the one that holds without it.
    pub fn number(&self, name: &str, least: u64, most: u64, otherwise: u64) -> Result<u64, Error> {
        self.value(name).map_or(Ok(otherwise), |value| self.digits(name, value, least, most))
    }

    /// The number that a word says in digits, within limits.
    pub fn digits(&self, name: &str, word: &OsStr, least: u64, most: u64) -> Result<u64, Error> {
        let number = word.to_str().filter(|word| !word.starts_with('+')).and_then(|word| word.parse().ok());
        number
            .filter(|number| (least..=most).contains(number))
            .ok_or_else(|| self.usage(format!("{name} takes a number from {least} to {most}")))
    }

    /// Standard input, for which `-` stands, can be read once.
    pub fn one_standard_input(&self, inputs: &[&str]) -> Result<(), Error> {
        let image = self.files.first().map(|file| file.as_os_str());
        let given = inputs.iter().map(|name| self.value(name)).chain([image]);
        match given.flatten().filter(|name| *name == "-").count() {
            0 | 1 => Ok(()),
            _ => Err(self.usage("- stands for standard input, which can be read only once".into())),
        }
    }

    /// What is written to is neither read nor written to otherwise, whatever its names: files are compared by device and
    /// number, standard input and output too.
    pub fn outputs_apart(&self, inputs: &[&str], outputs: &[&str]) -> Result<(), Error> {
        let read =
            self.files.iter().map(|file| file.as_os_str()).chain(inputs.iter().filter_map(|name| self.value(name)));
        let mut taken: Vec<_> = read.filter_map(files::identity).collect();
        if let Some(output) = files::stdout_identity() {
            if taken.contains(&output) {
                return Err(self.usage("standard output goes to a file that is read".into()));
            }
            taken.push(output);
        }
        for name in outputs {
            let Some(file) = self.value(name).filter(|file| *file != "-") else { continue };
            let Some(identity) = files::identity(file) else { continue };
            if taken.contains(&identity) {
                return Err(self.usage(format!("{name} would write to {}, which has another use", display_name(file))));
            }
            taken.push(identity);
        }
        Ok(())
    }
}
