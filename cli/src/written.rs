//! `bukzarn fixed`, `bukzarn strip` and `bukzarn load`: images that are written (document 02, cards 11 to 13).
use crate::arguments::Arguments;
use crate::error::{Error, Status};
use crate::help;
use crate::program::{Program, NAME};
use crate::sink::Sink;
use bukzarn::{fixed_form, image_name, load as load_of, stripped_form, Refusal, NAME_DIGITS};
use std::ffi::{OsStr, OsString};
use std::io::{self, IsTerminal, Write};
use std::path::Path;

/// The option that names the file to write.
const OUT: &str = "-o";

/// The most domains that an image has.
const DOMAINS: u32 = 16;

/// The one image of a program, or the archive's name for it: the first digits of its SHA-256 sum.
pub fn fixed(words: &[OsString]) -> Result<Status, Error> {
    let words = Arguments::parse(words, "fixed", &[OUT], &[NAME])?;
    if words.help {
        return help::show("fixed");
    }
    if !words.flag(NAME) {
        return rewritten(&words, fixed_form);
    }
    words.outputs_apart(&[], &[OUT])?;
    let program = Program::read(&words)?;
    match fixed_form(&program.image) {
        Ok(form) => write(&words, format!("{:.NAME_DIGITS$}\n", image_name(&form).to_string()).as_bytes()),
        Err(refusal) => program.refused(refusal, false),
    }
}

/// An image without the watches below the kept domains.
pub fn strip(words: &[OsString]) -> Result<Status, Error> {
    let words = Arguments::parse(words, "strip", &["--keep", OUT], &[])?;
    if words.help {
        return help::show("strip");
    }
    let kept = mask(&words)?;
    rewritten(&words, |image| stripped_form(image, kept))
}

/// The image of a seed and a depth.
pub fn load(words: &[OsString]) -> Result<Status, Error> {
    let words = Arguments::parse(words, "load", &[OUT], &[])?;
    if words.help {
        return help::show("load");
    }
    let [seed, depth] = words.files.as_slice() else {
        return Err(words.usage("a load has a seed and a depth".into()));
    };
    let seed = words.digits("the seed", seed.as_os_str(), 0, u32::MAX.into())?;
    let depth = words.digits("the depth", depth.as_os_str(), 0, u32::MAX.into())?;
    refuse_terminal(&words)?;
    let made = load_of(u32::try_from(seed).unwrap_or_default(), usize::try_from(depth).unwrap_or_default());
    write(&words, &made.map_err(Error::Refused)?)
}

/// Writes what a function makes of the image that the words name.
fn rewritten(words: &Arguments, make: impl Fn(&[u8]) -> Result<Vec<u8>, Refusal>) -> Result<Status, Error> {
    words.outputs_apart(&[], &[OUT])?;
    refuse_terminal(words)?;
    let program = Program::read(words)?;
    match make(&program.image) {
        Ok(image) => write(words, &image),
        Err(refusal) => program.refused(refusal, false),
    }
}

/// Writes an image to the file that is named, or to standard output. A file is not touched before there is an image.
fn write(words: &Arguments, image: &[u8]) -> Result<Status, Error> {
    let mut sink = Sink::create(Path::new(words.value(OUT).unwrap_or(OsStr::new("-"))))?;
    sink.put(|out| out.write_all(image))?;
    sink.finish().map(|()| Status::Done)
}

/// The bytes of an image are of no use to a reader at a terminal.
fn refuse_terminal(words: &Arguments) -> Result<(), Error> {
    if words.value(OUT).is_none() && io::stdout().is_terminal() {
        return Err(words.usage("an image is bytes and no text: name a file with -o".into()));
    }
    Ok(())
}

/// The domains to keep, a bit for each: `0,2,3`, or a mask like `0xd`. Domain 0 alone if nothing is said.
fn mask(words: &Arguments) -> Result<u16, Error> {
    let said = words.value("--keep").unwrap_or(OsStr::new("0"));
    let text = said.to_str().unwrap_or_default();
    let found = match text.strip_prefix("0x").or_else(|| text.strip_prefix("0X")) {
        Some(digits) => u16::from_str_radix(digits, 16).ok().filter(|_| !digits.starts_with('+')),
        None => text.split(',').try_fold(0, |mask, domain| Some(mask | bit(domain)?)),
    };
    found.ok_or_else(|| {
        words.usage(format!("--keep takes domains from 0 to {}, like 0,2, or a mask, like 0x5", DOMAINS - 1))
    })
}

/// The bit of a domain.
fn bit(domain: &str) -> Option<u16> {
    let number: u32 = domain.parse().ok().filter(|_| !domain.starts_with('+'))?;
    (number < DOMAINS).then(|| 1 << number)
}
