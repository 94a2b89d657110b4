//! The program that a command is about: a file of an image's bytes, or texts that the assembler makes an image of.
use crate::arguments::Arguments;
use crate::error::{Error, Status};
use crate::printable::{display_name, printable};
use crate::{input, sink};
use bukzarn::{image_name, Name, Refusal, IMAGE_LIMIT, NAME_DIGITS};
use std::env;
use std::ffi::OsString;
use std::io::{self, Write};
use std::os::unix::process::ExitStatusExt;
use std::path::{Path, PathBuf};
use std::process::{Command, Output, Stdio};

/// The option that says which image is meant.
pub const NAME: &str = "--name";

/// The endings of texts' names. A watch alone is a slip, of which the assembler tells.
const TEXTS: [&str; 3] = ["proc", "rec", "watch"];

/// More bytes than the assembler takes for a text.
const LONGEST_TEXT: usize = 1_000_000;

/// The last refusal that the assembler foresees, and tells of with the line of the text.
const LAST_OF_THE_CHECK: u16 = 16;

/// The assembler's exit status for a text that gives no image.
const NO_IMAGE: i32 = 1;

/// A text: its file, and what was read of it, once.
struct Text {
    file: PathBuf,
    bytes: Vec<u8>,
}

/// An image, and the texts that it was made of.
pub struct Program {
    /// The image's bytes, or those of a longer file up to one too many.
    pub image: Vec<u8>,
    texts: Vec<Text>,
}

impl Program {
    /// The program that the files of a command name.
    pub fn read(words: &Arguments) -> Result<Program, Error> {
        match words.files.as_slice() {
            [] => Err(words.usage("name an image".into())),
            [file] if !is_text(file) => Ok(Program { image: input::whole(file, IMAGE_LIMIT)?, texts: Vec::new() }),
            [file, other, ..] if !is_text(file) => Err(words.usage(format!(
                "'{}' is one file too many: watches go with the text of a procedure, {} is taken for an image",
                display_name(other),
                display_name(file)
            ))),
            files => {
                let read = |file: &PathBuf| Ok(Text { file: file.clone(), bytes: input::whole(file, LONGEST_TEXT)? });
                let texts = files.iter().map(read).collect::<Result<Vec<Text>, Error>>()?;
                Ok(Program { image: assembled(&texts)?, texts })
            }
        }
    }

    /// Refuses another image than the one of a name, if one is given.
    pub fn check_name(&self, name: Option<&str>) -> Result<(), Error> {
        match name {
            Some(name) if !image_name(&self.image).begins_with(name) => Err(Error::OtherImage(image_name(&self.image))),
            _ => Ok(()),
        }
    }

    /// Ends a command that the library refused: the refusal's line goes to standard output if a listing was to stand
    /// there, its reason to standard error. Of texts, the assembler tells the line that is meant.
    pub fn refused(&self, refusal: Refusal, listed: bool) -> Result<Status, Error> {
        if listed {
            sink::write_whole(format!("{}\n", refusal.listing()).as_bytes())?;
        }
        if self.texts.is_empty() && looks_like_text(&self.image) {
            return Err(Error::TextTaken(refusal));
        }
        if !self.texts.is_empty() && refusal.cause.number() > LAST_OF_THE_CHECK {
            self.explain(refusal);
        }
        Err(Error::Refused(refusal))
    }

    /// Lets the assembler explain a refusal on standard error, as far as it can be had.
    fn explain(&self, refusal: Refusal) {
        let answer = [refusal.cause.number().to_string(), refusal.place.to_string()];
        if let Ok(said) = assembler(&["explain", "--refused", &answer[0], &answer[1]], &self.texts) {
            tell(&said.stdout);
        }
    }
}

/// The name that `--name` says, 16 to 64 hexadecimal digits.
pub fn expected_name(words: &Arguments) -> Result<Option<&str>, Error> {
    let Some(name) = words.value(NAME) else { return Ok(None) };
    match name.to_str().filter(|name| Name::is_well_formed(name)) {
        Some(name) => Ok(Some(name)),
        None => {
            Err(words.usage(format!("{NAME} takes {NAME_DIGITS} to 64 hexadecimal digits, as sha256sum prints them")))
        }
    }
}

/// Is this a text, by its name?
fn is_text(file: &Path) -> bool {
    file.extension().is_some_and(|ending| TEXTS.iter().any(|text| ending == *text))
}

/// Are these bytes a text that was taken for an image? Every image has bytes that no text has.
fn looks_like_text(bytes: &[u8]) -> bool {
    let text = std::str::from_utf8(bytes).unwrap_or_default();
    !text.is_empty() && text.chars().all(|sign| !sign.is_control() || sign.is_whitespace())
}

/// The assembler: watchtool.py in the folder that the environment names, or in that of the repository in which this command
/// was built.
pub fn assembler_path() -> PathBuf {
    let named = env::var_os("BUKZARN_TOOLS").filter(|folder| !folder.is_empty());
    let built = || Path::new(env!("CARGO_MANIFEST_DIR")).with_file_name("tools");
    named.map_or_else(built, PathBuf::from).join("watchtool.py")
}

/// Hands on to standard error what the assembler said. It is not given our standard error itself, so that Ctrl-C, which
/// ends both, leaves no last words of its own.
fn tell(said: &[u8]) {
    let _ = io::stderr().write_all(printable(&String::from_utf8_lossy(said), true).as_bytes());
}

/// What a command of the assembler says of texts. It is given their bytes, each behind a line with its length, so that every
/// text is read once; if we end, so does it.
fn assembler(command: &[&str], texts: &[Text]) -> Result<Output, Error> {
    let tool = assembler_path();
    if !tool.exists() {
        return Err(Error::Input(format!(
            "a text needs the assembler, and {} is not there: name its folder in BUKZARN_TOOLS",
            display_name(tool)
        )));
    }
    let files = texts.iter().map(|text| OsString::from(&text.file));
    let mut python = Command::new("python3");
    // -I: nothing of the environment or the current folder; -S: without others' packages, so that it starts sooner.
    python.arg("-I").arg("-S").arg(tool).args(command).args(["--stdin-texts", "--"]).args(files);
    let failed = |error| Error::Failed("python3, which runs the assembler".into(), error);
    let child = python.stdin(Stdio::piped()).stdout(Stdio::piped()).stderr(Stdio::piped()).spawn();
    let mut child = child.map_err(failed)?;
    if let Some(mut pipe) = child.stdin.take() {
        for text in texts {
            // If the assembler does not read on, its own words say why.
            let _ = writeln!(pipe, "{}", text.bytes.len()).and_then(|()| pipe.write_all(&text.bytes));
        }
    }
    child.wait_with_output().map_err(failed)
}

/// The image that the assembler makes of texts, also one that the engine will refuse.
fn assembled(texts: &[Text]) -> Result<Vec<u8>, Error> {
    let made = assembler(&["asm", "--force"], texts)?;
    tell(&made.stderr);
    match (made.status.code(), made.status.signal()) {
        (Some(0), _) => Ok(made.stdout),
        (Some(NO_IMAGE), _) => Err(Error::NoImage),
        (_, Some(signal)) => Err(Error::Input(format!("the assembler was ended by signal {signal}"))),
        (status, None) => {
            Err(Error::Input(format!("the assembler failed, with status {}", status.unwrap_or_default())))
        }
    }
}
