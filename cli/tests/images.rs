//! The commands that tell of images and write them: need, fixed, strip, load.
#[allow(dead_code)]
mod common;

use common::{bukzarn, example, examples, file, said, statuses};
use std::fs;
use std::io::Write;
use std::path::Path;
use std::process::Stdio;

/// A file that no test has written, for one.
fn fresh(name: &str) -> String {
    let path = file(name, b"");
    fs::remove_file(&path).unwrap();
    path
}

#[test]
fn statuses_of_images() {
    statuses(&[
        (&["need", "--help"], 0),
        (&["fixed", "--help"], 0),
        (&["strip", "--help"], 0),
        (&["load", "--help"], 0),
        (&["need", "limits.img"], 0),
        (&["need", "alter.img"], 1),
        (&["fixed", "alter.img"], 1),
        (&["strip", "watched.img", "--keep", "0,9"], 1),
        (&["strip", "watched.img", "--keep", "1"], 1),
        (&["load", "7", "0"], 1),
        (&["load", "7", "10"], 1),
        (&["need"], 2),
        (&["need", "limits.img", "--out", "csv"], 2),
        (&["strip", "watched.img", "--keep", "16"], 2),
        (&["strip", "watched.img", "--keep", "0x10000"], 2),
        (&["strip", "watched.img", "--keep", "decoder"], 2),
        (&["load", "7"], 2),
        (&["load", "4294967296", "4"], 2),
        (&["load", "+7", "4"], 2),
        (&["fixed", "."], 3),
        (&["fixed", "plain.img", "-o", "/"], 3),
        (&["fixed", "plain.img", "-o", "no/such/folder/file"], 3),
    ]);
}

/// The listing is that of the examples, which the program `need` wrote.
#[test]
fn needs() {
    let (status, listing, _) = said(&["need", "limits.img"]);
    assert_eq!((status, listing.as_bytes()), (Some(0), example("limits.need").as_slice()));
    assert_eq!(said(&["need", "ground.proc", "limits.watch"]).1, listing);
    let steps = listing.lines().next().unwrap().strip_prefix("steps ").unwrap();
    let (_, table, _) = said(&["need", "limits.img", "--out", "table", "--budget", steps]);
    let line = table.lines().next().unwrap();
    assert!(
        line.starts_with("steps ") && line.ends_with(&format!("{steps} of {steps:>10}  ####################")),
        "{line}"
    );
    assert!(table.ends_with("every run is done or aborted, whatever the frame.\n"), "{table}");
    let (_, table, _) = said(&["need", "limits.img", "--out", "table", "--budget", "1", "--log", "0"]);
    assert!(table.contains("Over the limit: steps, log."), "{table}");
    let (_, object, _) = said(&["need", "limits.img", "--out", "json", "--budget", "1"]);
    assert!(object.starts_with(&format!("{{\"steps\":{{\"need\":{steps},\"limit\":1}},")), "{object}");
    assert!(object.ends_with(",\"fit\":false}\n"), "{object}");
}

/// An image outside the class, and of a text the line that is meant.
#[test]
fn no_needs() {
    let (status, listing, told) = said(&["need", "plain.img"]);
    assert_eq!((status, listing.as_bytes()), (Some(1), example("plain.need").as_slice()));
    assert!(told.starts_with("bukzarn: refused 19 "), "{told}");
    let (status, _, told) = said(&["need", "sonde.proc", "--out", "json"]);
    assert!(status == Some(1) && told.contains("sonde.proc, line "), "{told}");
}

#[test]
fn fixed_forms() {
    let (made, again) = (fresh("fixed.img"), fresh("again.img"));
    assert_eq!(said(&["fixed", "newer.img", "-o", &made]).0, Some(0));
    assert_eq!(said(&["fixed", &made, "-o", &again]).0, Some(0));
    let form = fs::read(&made).unwrap();
    assert!(form.len() < example("newer.img").len());
    assert_eq!(fs::read(&again).unwrap(), form);
    assert_eq!(bukzarn(&["fixed", "newer.rec", "-o", "-"]).output().unwrap().stdout, form);
    assert_eq!(said(&["run", &made]).1.as_bytes(), example("newer.txt"));
}

/// From standard input to standard output.
#[test]
fn a_filter() {
    let mut command = bukzarn(&["fixed", "-", "-o", "-"]);
    let mut child = command.stdin(Stdio::piped()).stdout(Stdio::piped()).spawn().unwrap();
    child.stdin.take().unwrap().write_all(&example("newer.img")).unwrap();
    assert_eq!(child.wait_with_output().unwrap().stdout, bukzarn(&["fixed", "newer.img"]).output().unwrap().stdout);
}

/// The watches of the examples, stripped, leave the procedure.
#[test]
fn without_watches() {
    let stripped = |words: &[&str]| bukzarn(words).output().unwrap().stdout;
    let plain = stripped(&["fixed", "plain.img"]);
    for keep in [&[][..], &["--keep", "0"], &["--keep=0x1"]] {
        assert_eq!(stripped(&[&["strip", "watched.img"], keep].concat()), plain, "{keep:?}");
    }
    assert_eq!(stripped(&["strip", "sonde.proc", "count.watch", "trace.watch"]), plain);
    assert_eq!(stripped(&["strip", "watched.img", "--keep", "0,1"]), stripped(&["fixed", "watched.img"]));
}

#[test]
fn loads() {
    let stored = |name: &str| fs::read(examples().join("../crates/load").join(name)).unwrap();
    let words = String::from_utf8(stored("args")).unwrap();
    let words: Vec<&str> = ["load"].into_iter().chain(words.split_whitespace()).collect();
    assert_eq!(bukzarn(&words).output().unwrap().stdout, stored("stdout"));
}

/// A refusal leaves no file, and no image is written over itself.
#[test]
fn files_are_left_alone() {
    let made = fresh("none.img");
    assert_eq!(said(&["fixed", "alter.img", "-o", &made]).0, Some(1));
    assert_eq!(said(&["load", "7", "10", "-o", &made]).0, Some(1));
    assert!(!Path::new(&made).exists());
    let image = file("own.img", &example("newer.img"));
    assert_eq!(said(&["fixed", &image, "-o", &image]).0, Some(2));
    assert_eq!(fs::read(&image).unwrap(), example("newer.img"));
}
