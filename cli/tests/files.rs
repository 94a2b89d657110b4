//! Nothing is lost: files that are read stay as they are, outputs take their place when they are whole, and what was decoded
//! is written, whatever ends a run.
#[allow(dead_code)]
mod common;

use common::{bukzarn, example, examples, folder, said, statuses};
use std::fs;
use std::io::{BufRead, BufReader, Read, Write};
use std::os::unix::fs::{symlink, PermissionsExt};
use std::os::unix::process::ExitStatusExt;
use std::path::Path;
use std::process::{Child, ChildStdout, Command, Stdio};
use std::thread::sleep;
use std::time::Duration;

/// A folder with the recording and the image of the ascent, as a command sees it.
fn station(name: &str) -> std::path::PathBuf {
    let folder = folder(name);
    fs::copy(examples().join("ascent/ascent.frames"), folder.join("w.frames")).unwrap();
    fs::copy(examples().join("ascent/watched.img"), folder.join("i.img")).unwrap();
    folder
}

/// A shell's line in a folder, with the command as `$B`: exit status, output, words.
fn shell(folder: &Path, line: &str) -> (Option<i32>, String, String) {
    let mut shell = Command::new("bash");
    shell.arg("-c").arg(line).current_dir(folder).env("B", env!("CARGO_BIN_EXE_bukzarn"));
    let ended = shell.output().unwrap();
    let text = |bytes: &[u8]| String::from_utf8_lossy(bytes).into_owned();
    (ended.status.code(), text(&ended.stdout), text(&ended.stderr))
}

/// The recording under another name, as standard input, as a hard link, as standard output: it stays.
#[test]
fn a_recording_is_not_written_over() {
    let folder = station("over");
    fs::hard_link(folder.join("w.frames"), folder.join("hard")).unwrap();
    symlink("w.frames", folder.join("soft")).unwrap();
    symlink("new", folder.join("dangling")).unwrap();
    for line in [
        "$B run i.img --frames - --length 12 --report w.frames < w.frames",
        "$B run i.img --frames - --length 12 --report hard < w.frames",
        "$B run i.img --frames w.frames --length 12 --log-file hard",
        "$B run i.img --frames w.frames --length 12 --log-file soft",
        "$B run i.img --frames w.frames --length 12 >> w.frames",
        "$B run i.img --frames w.frames --length 12 --report out > out",
        "$B run i.img --frames w.frames --length 12 --report new --log-file ./new",
        "$B run i.img --frames w.frames --length 12 --report new --log-file dangling",
        "$B run - --frame w.frames --report i.img < i.img",
        "$B fixed - -o i.img < i.img",
        "$B strip i.img -o ./i.img",
    ] {
        let (status, out, told) = shell(&folder, line);
        assert_eq!((status, out.as_str()), (Some(2), ""), "{line}");
        assert!(told.contains("another use") || told.contains("standard output goes to a file that is read"), "{told}");
        assert_eq!(fs::read(folder.join("w.frames")).unwrap(), example("ascent/ascent.frames"), "{line}");
        assert_eq!(fs::read(folder.join("i.img")).unwrap(), example("ascent/watched.img"), "{line}");
        assert!(!folder.join("new").exists());
    }
}

/// A file is not touched before the first frame is there, and has the old bytes or all of the new ones.
#[test]
fn outputs_are_opened_late() {
    let folder = station("late");
    for line in [
        "$B run i.img --frame none --report r --log-file l",
        "$B run i.img --frames none --length 12 --report r --log-file l",
        "$B run i.img --frames /dev/null --length 12 --report r --log-file l",
        "$B run i.img --frames w.frames --length 9999 --report r --log-file l",
        "$B run i.img --frames w.frames --length 12 --report r --log-file no/such/folder/l",
    ] {
        fs::write(folder.join("r"), "old").unwrap();
        fs::write(folder.join("l"), "old").unwrap();
        let (status, out, _) = shell(&folder, line);
        assert_eq!((status, out.as_str()), (Some(3), ""), "{line}");
        assert_eq!(fs::read(folder.join("r")).unwrap(), b"old", "{line}");
        assert_eq!(fs::read(folder.join("l")).unwrap(), b"old", "{line}");
    }
    assert_eq!(shell(&folder, "$B run i.img --frames w.frames --length 12 --report r --log-file l").0, Some(4));
    assert!(fs::read(folder.join("r")).unwrap().starts_with(&[10, 0, 70, 0]));
    let left = fs::read_dir(&folder)
        .unwrap()
        .filter(|file| file.as_ref().unwrap().file_name().to_string_lossy().starts_with(".bukzarn"));
    assert_eq!(left.count(), 0);
}

/// A file keeps its rights, a link stays a link, a pipe is written to as it stands.
#[test]
fn files_that_are_replaced() {
    let folder = station("rights");
    fs::write(folder.join("r"), "old").unwrap();
    fs::set_permissions(folder.join("r"), fs::Permissions::from_mode(0o640)).unwrap();
    symlink("r", folder.join("link")).unwrap();
    assert_eq!(shell(&folder, "$B run i.img --frames w.frames --length 12 --report link").0, Some(4));
    assert!(folder.join("link").symlink_metadata().unwrap().is_symlink());
    assert_eq!(fs::metadata(folder.join("r")).unwrap().permissions().mode() & 0o777, 0o640);
    let report = fs::read(folder.join("r")).unwrap();
    let line = "$B run i.img --frames w.frames --length 12 --report >(cat > piped) > /dev/null; sleep 0.2; cmp r piped";
    assert_eq!(shell(&folder, line).0, Some(0));
    assert!(report.starts_with(&[10, 0, 70, 0]));
}

/// A recording from a pipe, which a test feeds.
struct Live {
    child: Child,
    rows: BufReader<ChildStdout>,
}

impl Live {
    fn start(folder: &Path, more: &[&str]) -> Live {
        // A shell that starts the tests in the background ignores some signals, and so would the command.
        let mut command = Command::new("env");
        command.args(["--default-signal", env!("CARGO_BIN_EXE_bukzarn")]);
        command.args(["run", "i.img", "--frames", "-", "--length", "12"]).args(more).current_dir(folder);
        let mut child = command.stdin(Stdio::piped()).stdout(Stdio::piped()).stderr(Stdio::piped()).spawn().unwrap();
        let rows = BufReader::new(child.stdout.take().unwrap());
        Live { child, rows }
    }

    fn send(&mut self, bytes: &[u8]) {
        self.child.stdin.as_mut().unwrap().write_all(bytes).unwrap();
    }

    fn row(&mut self) -> String {
        let mut row = String::new();
        self.rows.read_line(&mut row).unwrap();
        row
    }

    /// Ends by a signal; the exit, the rows that are left, and the words.
    fn end(mut self, signal: &str) -> (Option<i32>, String, String) {
        Command::new("kill").args([signal, &self.child.id().to_string()]).status().unwrap();
        let (mut rows, mut told) = (String::new(), String::new());
        self.rows.read_to_string(&mut rows).unwrap();
        self.child.stderr.take().unwrap().read_to_string(&mut told).unwrap();
        (self.child.wait().unwrap().signal(), rows, told)
    }
}

/// Two frames, a pause, two frames: the rows of the first two are there before the others are sent.
#[test]
fn a_pipe_that_pauses() {
    let folder = station("pause");
    let (frames, table) = (example("ascent/ascent.frames"), example("ascent/watched.csv"));
    let expected: Vec<String> = String::from_utf8(table).unwrap().lines().map(|line| format!("{line}\n")).collect();
    let mut live = Live::start(&folder, &["--out", "csv"]);
    live.send(&frames[..24]);
    for row in &expected[..7] {
        assert_eq!(live.row(), *row);
    }
    live.send(&frames[24..48]);
    drop(live.child.stdin.take());
    for row in &expected[7..13] {
        assert_eq!(live.row(), *row);
    }
    assert_eq!((live.row().as_str(), live.child.wait().unwrap().code()), ("", Some(0)));
}

/// Ctrl-C while the next frame is waited for: rows, totals and files have all frames that came.
#[test]
fn a_signal_ends_a_recording() {
    let frames = example("ascent/ascent.frames");
    for (number, signal) in [(2, "-INT"), (15, "-TERM"), (1, "-HUP")] {
        let folder = station(&format!("signal{number}"));
        let mut live = Live::start(&folder, &["--out", "csv", "--report", "r", "--log-file", "l"]);
        live.send(&frames[..30]);
        for _ in 0..7 {
            assert_ne!(live.row(), "");
        }
        let (ended, rows, told) = live.end(signal);
        assert_eq!((ended, rows.as_str()), (Some(number), ""));
        assert!(told.contains("2 frames in ") && told.ends_with(": 2 done\n"), "{told}");
        assert_eq!(fs::read(folder.join("l")).unwrap().len(), 60);
        assert!(fs::read(folder.join("r")).unwrap().starts_with(&[10, 0, 70, 0]));
    }
    // `timeout` sends its signal twice: to the command, and to its group.
    let folder = station("signal-twice");
    let line =
        "(head -c 30 w.frames; sleep 3) | timeout -s INT 1 $B run i.img --frames - --length 12 --report r --out csv";
    let (_, rows, told) = shell(&folder, line);
    assert_eq!((rows.lines().count(), told.ends_with(": 2 done\n")), (7, true), "{told}");
    assert!(fs::read(folder.join("r")).unwrap().starts_with(&[10, 0, 70, 0]));
    let folder = station("signal-totals");
    let mut live = Live::start(&folder, &["--out", "csv", "--totals"]);
    live.send(&frames[..24]);
    assert!(live.row().starts_with("what,domain,cell,count,"));
    // The two frames are decoded once both are read; there is no row that would tell.
    sleep(Duration::from_millis(500));
    let (ended, rows, _) = live.end("-INT");
    assert_eq!((ended, rows.starts_with("printed,0,,6,")), (Some(2), true), "{rows}");
}

/// A text from a pipe is read once; what cannot be written to is told.
#[test]
fn pipes_and_closed_descriptors() {
    let folder = station("pipes");
    let sonde = examples().join("sonde.proc");
    let line = format!("mkfifo a.proc; cat {} > a.proc & timeout 20 $B check a.proc", sonde.display());
    assert_eq!(shell(&folder, &line).1, "accepted\n");
    for line in ["$B check i.img >&-", "$B run i.img >&-", "$B --help >&-", "$B --help > /dev/full", "$B load 7 3 >&-"]
    {
        let (status, _, told) = shell(&folder, line);
        assert_eq!((status, told.starts_with("bukzarn: standard output: ")), (Some(3), true), "{line}: {told}");
    }
    assert_eq!(shell(&folder, "$B check i.img 2>&-").0, Some(0));
    assert_eq!(shell(&folder, "$B run i.img --frames - --length 12 <&-").0, Some(3));
}

/// What the assembler does is not for the current folder or the environment to say, and its death is no refusal.
#[test]
fn the_assembler() {
    let folder = station("assembler");
    let sonde = examples().join("sonde.proc");
    fs::copy(sonde, folder.join("sonde.proc")).unwrap();
    for (script, status) in [("import os; os.kill(os.getpid(), 9)", 3), ("import sys; sys.exit(70)", 3)] {
        fs::write(folder.join("watchtool.py"), script).unwrap();
        let (ended, _, told) = shell(&folder, "BUKZARN_TOOLS=. $B check sonde.proc");
        assert_eq!((ended, told.contains("the assembler")), (Some(status), true), "{told}");
    }
    assert_eq!(shell(&folder, "BUKZARN_TOOLS= $B check sonde.proc").1, "accepted\n");
    fs::write(folder.join("argparse.py"), "open('ran', 'w'); raise SystemExit(1)").unwrap();
    assert_eq!(shell(&folder, "PYTHONPATH=. $B check sonde.proc").1, "accepted\n");
    assert!(!folder.join("ran").exists());
}

/// Signs that a terminal would obey are written out, in names and in what the assembler says.
#[test]
fn foreign_signs() {
    let folder = station("signs");
    fs::write(folder.join("\u{1b}[31m.proc"), "domain a\nprint \u{1b}[32m5").unwrap();
    for line in [
        "$B check $'\\e[31m.img'",
        "$B check $'\\e[31m.proc'",
        "$B $'\\e[31m'",
        "$B run i.img $'--\\e'",
        "$B run i.img $'\\xe2\\x80\\xae\\xff'",
        "$B fixed i.img -o $'no/\\e/such'",
    ] {
        let (status, out, told) = shell(&folder, line);
        assert!(matches!(status, Some(1..=3)), "{line}");
        assert!(!(out + &told).contains(['\u{1b}', '\u{202e}']), "{line}: {told}");
        assert!(told.contains("\\u{1b}") || told.contains("\\x1b") || told.contains("\\u{202e}\\xff"), "{told}");
    }
}

#[test]
fn words_that_make_no_sense() {
    statuses(&[
        (&["help", "nonsense"], 2),
        (&["help", "run"], 0),
        (&["help"], 0),
        (&["run", "plain.img", "--cells", "--totals"], 2),
        (&["run", "plain.img", "--cells", "--out", "json"], 2),
        (&["run", "plain.img", "--totals", "--out", "listing"], 2),
        (&["run", "plain.img", "--name"], 2),
        (&["check", "plain.img", "--name", "0123"], 2),
        (&["check", "plain.img", "--name", "0123456789abcdef"], 1),
        (&["fixed", "alter.img", "--name"], 1),
    ]);
    assert!(said(&["--version"]).1.contains("tools/watchtool.py"));
    let mut child = bukzarn(&["run", "-", "--cells"]).stdin(Stdio::piped()).stdout(Stdio::piped()).spawn().unwrap();
    child.stdin.take().unwrap().write_all(&example("plain.img")).unwrap();
    assert!(child.wait_with_output().unwrap().stdout.starts_with(b"   frame domain cell       value\n"));
}
