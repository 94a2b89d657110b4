//! The help of each command.
use crate::error::{Error, Status};
use crate::printable::display_name;
use crate::{program, sink};
use std::ffi::OsString;

const ALL: &str = "\
bukzarn: the watch engine. It accepts or refuses an image, and runs an accepted one over received frames.

    bukzarn run IMAGE [OPTIONS]             run an image over one frame, or over each frame of a recording
    bukzarn check IMAGE                     accepted, or refused with number, place and reason
    bukzarn need IMAGE [OPTIONS]            what any run of an image will need, known without a run
    bukzarn fixed IMAGE -o FILE             the one image of a program: equal programs, equal bytes; with --name its name
    bukzarn strip IMAGE --keep 0 -o FILE    the image without its watches
    bukzarn load SEED DEPTH -o FILE         a generated image, the same at every station
    bukzarn COMMAND --help                  the use of a command
    bukzarn --version

IMAGE may be the text of a procedure with its watches. Exit status: 0 done or accepted, 1 refused, 2 wrong use, 3 reading
or writing failed, 4 a run ended otherwise than done.
";

const IMAGE: &str = "
IMAGE is the file of an image, or - for standard input. The text of a procedure (its name ends with .proc or .rec), with
the texts of watches behind it, works too: python3 runs the assembler, watchtool.py in the folder that the variable
BUKZARN_TOOLS names, or in tools/ of the repository in which this command was built (`bukzarn --version` says which).
";

const RUN: &str = "\
bukzarn run IMAGE [OPTIONS]
bukzarn run PROCEDURE [WATCH ...] [OPTIONS]

Runs an image over one frame, or over each frame of a recording.

    --frame FILE       one frame: the whole file. Without --frame and --frames: the 256 bytes 0 to 255
    --frames FILE      a recording: frames one after another, each of the length that --length says
    --length N         bytes of a frame of the recording
    --budget N         steps that a run may take, 0 to 4294967295 (100000)
    --log N            bytes of log that a run may fill, 10 for each printed number (16384)
    --out FORMAT       what is written to standard output:
                         listing   log, outcome with steps, result and cells, a line each (of one frame)
                         table     a line for each printed number: frame, domain, number (of a recording)
                         csv       the same, with commas
                         json      an object for each frame, one to a line, with all that the run left
    --cells            in place of the printed numbers, a row for each cell that a run left: frame, domain, cell, value.
                       Each domain counts its cells from 0, in order of creation
    --totals           in place of both, a row for what each domain printed and for each cell, over all runs, done or
                       not: count, sum, least, greatest, last. A truth counts as 0 or 1
    --name HEX         refuse another image than the one with this name: SHA-256 of its bytes, 16 to 64 digits
    --report FILE      the bytes of the report, as the engine wrote them; of a recording, one after another
    --log-file FILE    the bytes of the log, likewise
";

const NOTE: &str = "
Frames are counted from 0. Each is a run of its own: nothing is kept from one to the next, neither cells nor takedowns.
Rows are written before the next frames are waited for. How many runs of a recording ended how is told on standard error,
and there is a progress bar if that is a terminal and standard output is none. Ctrl-C ends a recording after the frames
that are decoded; their rows, totals and files are written. Files are opened when the first frame is there, written beside
and put in their place at the end.

Exit status: 0 every run is done, 1 refused, 2 wrong use, 3 reading or writing failed, 4 a run ended otherwise.
";

const CHECK: &str = "\
bukzarn check IMAGE [--name HEX]
bukzarn check PROCEDURE [WATCH ...] [--name HEX]

Writes `accepted`, or `refused N PLACE` with the reason on standard error, without a run. The check finds harm, not damage:
an image with a flipped bit may be accepted. So images travel with their name, which `sha256sum` prints.

    --name HEX         refuse another image than the one with this name: SHA-256 of its bytes, 16 to 64 digits
";

const NEED: &str = "\
bukzarn need IMAGE [OPTIONS]
bukzarn need PROCEDURE [WATCH ...] [OPTIONS]

Writes upper numbers of what any run of an image will use, whatever the frame: steps, bindings, pieces and cells of domain
0 and of the other domains together, labels, advice, unfinished terms, log records. They are known of images without calls,
whose installs each stand directly over an advice, and whose advice neither marks nor installs; another is refused with 19.

    --out FORMAT       listing   a word and a number to a line, or `refused N PLACE`
                       table     each number beside its limit, with a bar
                       json      an object with each number and its limit, and whether all fit
    --budget N         the budget beside which the steps are shown (100000)
    --log N            the bytes of log beside which the log records are shown, 10 for each (16384)
";

const FIXED: &str = "\
bukzarn fixed IMAGE [--name] [-o FILE]
bukzarn fixed PROCEDURE [WATCH ...] [--name] [-o FILE]

Writes the fixed form of an accepted image: images of the same program with the same domains give the same bytes.

    --name             the archive's name in place of the form: the first 16 digits of its SHA-256 sum
    -o FILE            the file to write, not the image itself; without it or with -, standard output
";

const STRIP: &str = "\
bukzarn strip IMAGE [--keep DOMAINS] [-o FILE]
bukzarn strip PROCEDURE [WATCH ...] [--keep DOMAINS] [-o FILE]

Writes an accepted image, in its fixed form, with every body of a `lower` or an advice below the kept domains emptied.

    --keep DOMAINS     the kept domains: numbers, like 0,2, or a mask, like 0x5, of which bit q stands for domain q. Domain
                       0 must be among them, and with each domain every domain above it. Without it, domain 0 alone
    -o FILE            the file to write, not the image itself; without it or with -, standard output
";

const LOAD: &str = "\
bukzarn load SEED DEPTH [-o FILE]

Writes the image of a seed (0 to 4294967295) and a depth (1 to 9), the same bytes at every station, to compare boards with.

    -o FILE            the file to write; without it or with -, standard output
";

/// How the commands other than `run` end.
const STATUS: &str = "
Exit status: 0 done, 1 refused, 2 wrong use, 3 reading or writing failed.
";

/// The commands.
const COMMANDS: [&str; 6] = ["run", "check", "need", "fixed", "strip", "load"];

/// Writes the help of the command that is named, or of all.
pub fn command(words: &[OsString]) -> Result<Status, Error> {
    match words {
        [] => show(""),
        [word] if COMMANDS.iter().any(|command| word == command) => show(&word.to_string_lossy()),
        [word, ..] => Err(Error::Usage(format!("there is no help on '{}'", display_name(word)), "")),
    }
}

/// Writes the help of a command, or of all.
pub fn show(command: &str) -> Result<Status, Error> {
    let text = match command {
        "run" => [RUN, IMAGE, NOTE].concat(),
        "check" => [CHECK, IMAGE, STATUS].concat(),
        "need" => [NEED, IMAGE, STATUS].concat(),
        "fixed" => [FIXED, IMAGE, STATUS].concat(),
        "strip" => [STRIP, IMAGE, STATUS].concat(),
        "load" => [LOAD, STATUS].concat(),
        _ => ALL.into(),
    };
    sink::write_whole(text.as_bytes())?;
    Ok(Status::Done)
}

/// Writes the version, and where the assembler for texts is looked for.
pub fn version() -> Result<Status, Error> {
    let text =
        format!("bukzarn {}, with {} for texts\n", env!("CARGO_PKG_VERSION"), display_name(program::assembler_path()));
    sink::write_whole(text.as_bytes())?;
    Ok(Status::Done)
}
