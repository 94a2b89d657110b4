//! A program of each language that is installed, with its pipe of questions and answers: decode.lua says what they are.
use super::programs::{Language, ALL};
use std::io::{BufRead, BufReader, Write};
use std::process::{Child, ChildStdout, Stdio};

/// The instructions that a limited call may take: more than it needs.
const LIMIT: u32 = 100_000;

/// What is hung on the decoder.
#[derive(Clone, Copy, PartialEq)]
pub enum Watch {
    Honest,
    Harmful,
}

/// A program that runs, with a limit of steps or 0.
pub struct Program {
    pub name: &'static str,
    pub limit: u32,
    child: Child,
    answers: BufReader<ChildStdout>,
}

impl Program {
    /// Started, with the frame read. Nothing, but its reason, if something is not installed.
    fn start(language: &'static Language, limited: bool, frame: &[u8]) -> Result<Program, String> {
        let mut command = language.command()?;
        command.stdin(Stdio::piped()).stdout(Stdio::piped()).stderr(Stdio::null());
        let mut child = command.spawn().unwrap_or_else(|error| panic!("{}: {error}", language.name));
        let answers = BufReader::new(child.stdout.take().expect("the program writes into a pipe"));
        let limit = if limited { LIMIT } else { 0 };
        let program = Program { name: language.name, limit, child, answers };
        let digits: String = frame.iter().map(|byte| format!("{byte:02x}")).collect();
        program.ask(&digits);
        Ok(program)
    }

    fn ask(&self, line: &str) {
        let mut questions = self.child.stdin.as_ref().expect("the program reads from a pipe");
        writeln!(questions, "{line}").unwrap_or_else(|error| panic!("{} does not read: {error}", self.name));
    }

    /// The nanoseconds of one of so many calls, and what the last one left: no numbers if it was stopped.
    pub fn calls(&mut self, calls: u32, limit: u32, watch: Watch) -> (f64, Vec<i64>) {
        let watch = if watch == Watch::Harmful { "harmful" } else { "honest" };
        self.ask(&format!("{calls} {limit} {watch}"));
        let mut answer = String::new();
        self.answers.read_line(&mut answer).expect("the program answers");
        let mut words = answer.split_whitespace();
        let time = words.next().and_then(|word| word.parse().ok());
        let time = time.unwrap_or_else(|| panic!("{} answers {answer:?}", self.name));
        (time, words.map(|word| word.parse().expect("the program answers with numbers")).collect())
    }

    /// Nothing without a step limit, else whether it is kept.
    pub fn kept(&mut self, too_few: u32) -> Option<bool> {
        (self.limit > 0).then(|| self.calls(1, too_few, Watch::Honest).1.is_empty())
    }
}

impl Drop for Program {
    /// Closes its input, at whose end it ends.
    fn drop(&mut self) {
        drop(self.child.stdin.take());
        let _ = self.child.wait();
    }
}

/// The programs, each of which has left what the engine leaves; what is not installed; the versions of what is.
pub fn start(frame: &[u8], expected: &[i64]) -> (Vec<Program>, Vec<String>, Vec<String>) {
    let (mut programs, mut absent, mut versions) = (vec![], vec![], vec![]);
    for language in &ALL {
        for limited in language.limited {
            match Program::start(language, *limited, frame) {
                Err(missing) => absent.push(missing),
                Ok(mut program) => {
                    let name = language.name;
                    let (_, numbers) = program.calls(1, program.limit, Watch::Honest);
                    assert!(numbers == expected, "{name} leaves {numbers:?}, the engine {expected:?}: it is not timed");
                    versions.push(language.version());
                    programs.push(program);
                }
            }
        }
    }
    absent.dedup();
    versions.dedup();
    (programs, absent, versions)
}
