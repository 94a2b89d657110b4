//! What ends a command early, and the exit status.
use crate::printable::printable;
use bukzarn::{Name, Refusal};
use std::fmt;
use std::io;

/// The exit status.
#[derive(Clone, Copy, Debug, PartialEq, Eq)]
#[repr(u8)]
pub enum Status {
    /// Every run is done; the image is accepted; what was asked for is written.
    Done = 0,
    /// The image or what was asked of it is refused, it is another one, or a text gives no image.
    Refused = 1,
    /// The words of the command make no sense.
    Usage = 2,
    /// Something could not be read or written.
    Failed = 3,
    /// A run ended otherwise than done.
    Otherwise = 4,
}

/// What ends a command early.
#[derive(Debug)]
pub enum Error {
    /// What is wrong with the words, and the command whose help tells more.
    Usage(String, &'static str),
    /// The library refused.
    Refused(Refusal),
    /// The library refused a text that was taken for an image.
    TextTaken(Refusal),
    /// The image is another one than that of the name that was given; its own.
    OtherImage(Name),
    /// The text gives no image; the assembler has said why.
    NoImage,
    /// Reading or writing what is named failed.
    Failed(String, io::Error),
    /// What was read is not what was asked for.
    Input(String),
}

impl Error {
    /// The exit status for it.
    pub fn status(&self) -> Status {
        match self {
            Error::Usage(..) => Status::Usage,
            Error::Refused(_) | Error::TextTaken(_) | Error::OtherImage(_) | Error::NoImage => Status::Refused,
            Error::Failed(..) | Error::Input(_) => Status::Failed,
        }
    }

    /// Did the reader of our output go away?
    pub fn is_closed_pipe(&self) -> bool {
        matches!(self, Error::Failed(_, error) if error.kind() == io::ErrorKind::BrokenPipe)
    }
}

impl fmt::Display for Error {
    fn fmt(&self, f: &mut fmt::Formatter<'_>) -> fmt::Result {
        match self {
            Error::Usage(words, command) => {
                let space = if command.is_empty() { "" } else { " " };
                write!(f, "{words}; see `bukzarn{space}{command} --help`")
            }
            Error::Refused(refusal) => write!(f, "{refusal}"),
            Error::TextTaken(refusal) => {
                write!(f, "{refusal}. This is a text, not an image: the name of a procedure's text ends with .proc")
            }
            Error::OtherImage(name) => write!(f, "this is another image: its name is {name}"),
            Error::NoImage => f.write_str("the text gives no image"),
            Error::Failed(name, error) => write!(f, "{name}: {}", printable(&error.to_string(), false)),
            Error::Input(words) => f.write_str(words),
        }
    }
}
