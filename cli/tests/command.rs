//! The commands run and check: what they write, and their exit status.
#[allow(dead_code)]
mod common;

use common::{bukzarn, example, examples, file, said, statuses};
use std::ffi::OsStr;
use std::fs::{self, File, Permissions};
use std::io::Write;
use std::os::unix::ffi::OsStrExt;
use std::os::unix::fs::PermissionsExt;
use std::process::Stdio;

#[test]
fn listings_are_those_of_the_examples() {
    let list = fs::read_to_string(examples().join("LIST")).unwrap();
    for name in list.lines().filter(|line| !line.starts_with('#')).filter_map(|line| line.split_whitespace().next()) {
        let (_, listing, _) = said(&["run", &format!("{name}.img")]);
        assert_eq!(listing, fs::read_to_string(examples().join(format!("{name}.txt"))).unwrap(), "{name}");
    }
}

#[test]
fn statuses_of_runs() {
    let empty = file("empty", b"");
    statuses(&[
        (&["run", "plain.img"], 0),
        (&["check", "plain.img"], 0),
        (&["run", "--help"], 0),
        (&["check", "--help"], 0),
        (&["--help"], 0),
        (&["help", "run"], 0),
        (&["--version"], 0),
        (&["run", "alter.img"], 1),
        (&["check", "alter.img"], 1),
        (&["run", &empty], 1),
        (&["run", "count.watch"], 1),
        (&[], 2),
        (&["fly"], 2),
        (&["run"], 2),
        (&["run", "plain.img", "--fast"], 2),
        (&["run", "plain.img", "--budget"], 2),
        (&["run", "plain.img", "--budget", "1e5"], 2),
        (&["run", "plain.img", "--budget", "1", "--budget", "2"], 2),
        (&["run", "plain.img", "--frames", "plain.img"], 2),
        (&["run", "plain.img", "--out", "xml"], 2),
        (&["run", "plain.img", "--report", "-"], 2),
        (&["check", "plain.img", "count.watch"], 2),
        (&["run", "."], 3),
        (&["run", "plain.img", "--frame", "."], 3),
        (&["run", "plain.img", "--frames", ".", "--length", "12"], 3),
        (&["check", "no such file"], 3),
        (&["check", "no such text.proc"], 3),
        (&["check", "sonde.proc", "no such.watch"], 3),
        (&["run", "plausible.img"], 4),
    ]);
}

/// A file without permission. Whoever may read everything may read it too.
#[test]
fn no_permission() {
    let locked = file("locked", &example("plain.img"));
    fs::set_permissions(&locked, Permissions::from_mode(0o000)).unwrap();
    if File::open(&locked).is_err() {
        let (status, _, told) = said(&["run", &locked]);
        assert_eq!((status, told.starts_with(&format!("bukzarn: {locked}: "))), (Some(3), true));
    }
}

/// Names of files and words that are no UTF-8.
#[test]
fn words_of_any_bytes() {
    let strange = OsStr::from_bytes(b"\xff\xfe");
    for (words, status) in
        [(&["run"][..], 3), (&["run", "plain.img", "--frame"], 3), (&["run", "plain.img", "--budget"], 2)]
    {
        let output = bukzarn(words).arg(strange).output().unwrap();
        assert_eq!(output.status.code(), Some(status), "{words:?}");
    }
    for (option, status) in [(&b"--frame=\xff"[..], 3), (b"--\xff", 2), (b"--out=\xff", 2)] {
        let output = bukzarn(&["run", "plain.img"]).arg(OsStr::from_bytes(option)).output().unwrap();
        assert_eq!(output.status.code(), Some(status), "{option:?}");
    }
    assert_eq!(bukzarn(&[]).arg(strange).output().unwrap().status.code(), Some(2));
}

#[test]
fn a_recording_is_a_table() {
    let frames: Vec<u8> = (0..=255).chain(0..=255).collect();
    let recording = file("two", &frames);
    let (status, table, told) = said(&["run", "plain.img", "--frames", &recording, "--length", "256", "--out", "csv"]);
    assert_eq!(status, Some(0));
    assert!(told.contains("2 frames in ") && told.contains(": 2 done"), "{told}");
    let mut expected = String::from("frame,domain,number\n");
    let listing = fs::read_to_string(examples().join("plain.txt")).unwrap();
    for frame in 0..2 {
        for line in listing.lines().filter_map(|line| line.strip_prefix("log ")) {
            expected += &format!("{frame},{}\n", line.replace(' ', ","));
        }
    }
    assert_eq!(table, expected);
}

#[test]
fn the_ascent() {
    for name in ["plain", "watched"] {
        let image = format!("ascent/{name}.img");
        let words = ["run", &image, "--frames", "ascent/ascent.frames", "--length", "12", "--out", "csv"];
        let (status, table, told) = said(&words);
        assert_eq!(status, Some(4));
        assert_eq!(table, fs::read_to_string(examples().join(format!("ascent/{name}.csv"))).unwrap());
        assert!(told.ends_with(": 559 done, 41 aborted (the program aborted)\n"), "{told}");
    }
}

/// Frames that are run at once leave what each leaves alone.
#[test]
fn frames_of_a_batch() {
    let frames = &example("ascent/ascent.frames")[..12 * 66];
    let recording = file("batch", frames);
    let (_, objects, _) =
        said(&["run", "ascent/watched.img", "--frames", &recording, "--length", "12", "--out", "json"]);
    assert_eq!(objects.lines().count(), 66);
    for (number, (object, frame)) in objects.lines().zip(frames.chunks(12)).enumerate() {
        let frame = file("alone", frame);
        let (_, alone, _) = said(&["run", "ascent/watched.img", "--frame", &frame, "--out", "json"]);
        assert_eq!(alone.trim_end().replace("\"frame\":0", &format!("\"frame\":{number}")), object);
    }
}

/// A recording that comes in pieces, which do not end with a frame, and ends with a short one.
#[test]
fn a_recording_in_pieces() {
    let words = ["run", "ascent/watched.img", "--frames", "-", "--length", "12", "--out", "csv"];
    let mut child =
        bukzarn(&words).stdin(Stdio::piped()).stdout(Stdio::piped()).stderr(Stdio::piped()).spawn().unwrap();
    let mut pipe = child.stdin.take().unwrap();
    for piece in example("ascent/ascent.frames").chunks(1_001) {
        pipe.write_all(piece).unwrap();
    }
    pipe.write_all(&[0; 5]).unwrap();
    drop(pipe);
    let output = child.wait_with_output().unwrap();
    assert_eq!(output.status.code(), Some(3));
    assert_eq!(output.stdout, example("ascent/watched.csv"));
    let told = String::from_utf8(output.stderr).unwrap();
    assert!(told.ends_with("frame 600, the last, is short: it has 5 of 12 bytes\n"), "{told}");
}

/// The outputs that docs/FORMAT.md shows are those of its text.
#[test]
fn outputs_of_the_page() {
    let page = fs::read_to_string(examples().join("../docs/FORMAT.md")).unwrap();
    let shown: Vec<&str> = page.split("```\n").skip(1).step_by(2).collect();
    let [text, listing, csv, json] = shown.as_slice() else { panic!("the page has {} texts", shown.len()) };
    let (program, frame) = (file("page.proc", text.as_bytes()), file("page.frame", &[7]));
    for (format, output) in [("listing", listing), ("csv", csv), ("json", json)] {
        assert_eq!(said(&["run", &program, "--frame", &frame, "--out", format]).1, **output, "{format}");
    }
}

#[test]
fn json_has_all_that_a_run_left() {
    let (status, object, _) = said(&["run", "first.img", "--out", "json"]);
    assert_eq!(status, Some(0));
    let log: Vec<&str> = object.split("\"number\":").skip(1).map(|rest| rest.split('}').next().unwrap()).collect();
    let listing = fs::read_to_string(examples().join("first.txt")).unwrap();
    let printed: Vec<&str> = listing.lines().filter_map(|line| line.strip_prefix("log 0 ")).collect();
    assert_eq!(log, printed);
    assert!(object.starts_with("{\"frame\":0,\"outcome\":\"done\",\"steps\":") && object.ends_with("]}\n"), "{object}");
}

#[test]
fn a_short_last_frame_is_named() {
    let recording = file("short", &[0; 300]);
    let (status, table, told) = said(&["run", "first.img", "--frames", &recording, "--length", "256"]);
    assert_eq!(status, Some(3));
    assert!(table.lines().count() > 1, "{table}");
    assert!(told.contains("frame 1, the last, is short: it has 44 of 256 bytes"), "{told}");
    let empty = file("none", b"");
    let (status, _, told) = said(&["run", "first.img", "--frames", &empty, "--length", "256"]);
    assert_eq!(status, Some(3));
    assert!(told.contains("is empty: a recording has at least one frame"), "{told}");
}

#[test]
fn outcomes_are_counted() {
    let recording = file("three", &[0; 300]);
    let words = ["run", "plain.img", "--frames", &recording, "--length", "100", "--budget", "3"];
    let (status, _, told) = said(&words);
    assert_eq!(status, Some(4));
    assert!(told.ends_with(": 3 spent (the budget of steps is spent)\n"), "{told}");
}

#[test]
fn raw_bytes() {
    let (report, log) = (file("report", b""), file("log", b""));
    assert_eq!(said(&["run", "first.img", "--report", &report, "--log-file", &log]).0, Some(0));
    let (report, log) = (fs::read(report).unwrap(), fs::read(log).unwrap());
    assert_eq!(report[..6], [10, 0, 70, 0, 0, 0]);
    assert!(!log.is_empty() && log.chunks(10).all(|record| record[..4] == [10, 0, 64, 0]));
    let (status, _, told) = said(&["run", "first.img", "--report", "."]);
    assert_eq!((status, told.starts_with("bukzarn: .: ")), (Some(3), true));
}

/// A recording is not overwritten by the runs over it.
#[test]
fn inputs_and_outputs_are_apart() {
    let recording = file("kept", &[7; 24]);
    let words = ["run", "first.img", "--frames", &recording, "--length", "12"];
    for more in [["--report", &recording], ["--log-file", "first.img"]] {
        assert_eq!(said(&[&words[..], &more[..]].concat()).0, Some(2));
    }
    assert_eq!(said(&[&words[..], &["--report", "new", "--log-file", "new"]].concat()).0, Some(2));
    assert_eq!(said(&[&words[..], &["--report", "/dev/null", "--log-file", "/dev/null"]].concat()).0, Some(0));
    assert_eq!(said(&["run", "-", "--frame", "-"]).0, Some(2));
    assert_eq!(fs::read(recording).unwrap(), [7; 24]);
}

#[test]
fn a_text_with_watches() {
    let (status, listing, _) = said(&["run", "sonde.proc", "count.watch"]);
    assert_eq!((status, listing), (Some(0), fs::read_to_string(examples().join("count.txt")).unwrap()));
    let (status, verdict, told) = said(&["check", "sonde.proc", "alter.watch"]);
    assert_eq!((status, verdict.as_str()), (Some(1), "refused 15 450\n"));
    assert!(told.contains("alter.watch, line 4"), "{told}");
}

/// A text whose name does not say so.
#[test]
fn a_text_for_an_image() {
    let text = file("sonde.txt", &example("sonde.proc"));
    let (status, listing, told) = said(&["run", &text]);
    assert_eq!((status, listing.starts_with("refused ")), (Some(1), true));
    assert!(told.ends_with("the name of a procedure's text ends with .proc\n"), "{told}");
}

#[test]
fn an_image_from_standard_input() {
    let mut command = bukzarn(&["check", "-"]);
    let mut child = command.stdin(Stdio::piped()).stdout(Stdio::piped()).spawn().unwrap();
    child.stdin.take().unwrap().write_all(&example("plain.img")).unwrap();
    assert_eq!(child.wait_with_output().unwrap().stdout, b"accepted\n");
}

/// A full device and a reader that went away: no panic, and status 3.
#[test]
fn output_that_fails() {
    if let Ok(full) = File::options().write(true).open("/dev/full") {
        let output = bukzarn(&["run", "plain.img"]).stdout(full).stderr(Stdio::piped()).output().unwrap();
        assert_eq!(output.status.code(), Some(3));
        assert!(String::from_utf8_lossy(&output.stderr).starts_with("bukzarn: standard output: "));
    }
    let recording = file("long", &vec![0; 1 << 20]);
    let words = ["run", "plain.img", "--frames", &recording, "--length", "256", "--out", "json"];
    let mut child = bukzarn(&words).stdout(Stdio::piped()).stderr(Stdio::piped()).spawn().unwrap();
    drop(child.stdout.take());
    let output = child.wait_with_output().unwrap();
    assert_eq!(output.status.code(), Some(3));
    assert!(!String::from_utf8_lossy(&output.stderr).contains("panicked"));
}
