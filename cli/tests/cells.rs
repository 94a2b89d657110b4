//! Nobody is fooled: memory ends with the frame, which is said, and what each run left can be had; another image than the one
//! that is meant is refused.
#[allow(dead_code)]
mod common;

use common::{example, file, said};

/// What is said once of an image whose watches keep something.
const ONCE: &str = "each frame is a run of its own";

/// Frames of the bench sheet, so many.
fn frames(name: &str, count: usize) -> String {
    file(name, &(0..=u8::MAX).collect::<Vec<u8>>().repeat(count))
}

#[test]
fn cells_of_each_run() {
    let recording = frames("cells", 2);
    let (status, rows, _) =
        said(&["run", "count.img", "--frames", &recording, "--length", "256", "--cells", "--out", "csv"]);
    let own = "F,0,0,other\nF,0,1,-4\nF,1,0,6\nF,0,2,other\n";
    let expected = format!("frame,domain,cell,value\n{}{}", own.replace('F', "0"), own.replace('F', "1"));
    assert_eq!((status, rows), (Some(0), expected));
}

/// A cell of several leaves has them in one value; the totals have a row for each.
#[test]
fn cells_of_several_leaves() {
    let text =
        file("pair.proc", b"domain a\nlet c = new cell (frame[0], (true, ())) in let d = new cell frame[1] in ()");
    let recording = file("pair", &[5, 7, 250, 9, 5, 8]);
    let words = ["run", &text, "--frames", &recording, "--length", "2", "--out", "csv"];
    let (_, rows, told) = said(&[&words[..], &["--cells"]].concat());
    assert!(rows.contains("\n0,0,0,5 true unit\n0,0,1,7\n1,0,0,250 true unit\n"), "{rows}");
    assert!(!told.contains(ONCE), "domain 0 is no watch: {told}");
    let (_, totals, _) = said(&[&words[..], &["--totals"]].concat());
    let rows = "cell,0,0.0,3,260,5,250,5\ncell,0,0.1,3,3,1,1,1\ncell,0,0.2,3,,,,\ncell,0,1,3,24,7,9,8\n";
    assert_eq!(totals, format!("what,domain,cell,count,sum,least,greatest,last\n{rows}"));
}

/// The totals of the ascent are those of its table.
#[test]
fn totals_of_printed_numbers() {
    let words = ["run", "ascent/watched.img", "--frames", "ascent/ascent.frames", "--length", "12", "--out", "csv"];
    let (status, totals, _) = said(&[&words[..], &["--totals"]].concat());
    assert_eq!(status, Some(4));
    let table = String::from_utf8(example("ascent/watched.csv")).unwrap();
    for domain in ["0", "1"] {
        let numbers: Vec<i64> = table
            .lines()
            .skip(1)
            .filter_map(|line| line.split(',').nth(1).filter(|own| *own == domain).and(line.split(',').next_back()))
            .map(|number| number.parse().unwrap())
            .collect();
        let (least, greatest) = (numbers.iter().min().unwrap(), numbers.iter().max().unwrap());
        let (count, sum, last) = (numbers.len(), numbers.iter().sum::<i64>(), numbers.last().unwrap());
        let row = format!("\nprinted,{domain},,{count},{sum},{least},{greatest},{last}\n");
        assert!(totals.contains(&row), "{row}{totals}");
    }
}

/// Watches that make cells or take down are told of, once, over a recording; others are not, nor functions in cells.
#[test]
fn memory_is_told_of_once() {
    let recording = frames("told", 3);
    for (image, cells, down) in [
        ("count", true, false),
        ("three", true, true),
        ("trace", false, false),
        ("plain", false, false),
        ("greedy", true, false),
    ] {
        let image = format!("{image}.img");
        let (_, _, told) = said(&["run", &image, "--frames", &recording, "--length", "256"]);
        assert_eq!(told.matches(ONCE).count(), usize::from(cells || down), "{image}: {told}");
        assert_eq!(
            (told.contains("keeps in its cells"), told.contains("taken down")),
            (cells, down),
            "{image}: {told}"
        );
        assert!(!said(&["run", &image]).2.contains(ONCE));
    }
    let recursive = "domain a\ndomain w <= a\nlet l = new label number in lower to w {\ndefine f (n : number) to number \
                     { if n < 1 then 0 else f(n - 1) } in install advice on pointcut {l} as x { print f(x) } }; mark l with 2";
    let text = file("recursive.proc", recursive.as_bytes());
    assert!(!said(&["run", &text, "--frames", &recording, "--length", "256"]).2.contains(ONCE));
}

/// An image with one bit changed is another image, and so is a text with another number.
#[test]
fn names() {
    let name = "0c562fe05c04381f9c148de3b53506be7585b21e3e0869653f511c070669b88d";
    assert_eq!(said(&["check", "ascent/watched.img", "--name", name]).1, "accepted\n");
    assert_eq!(said(&["check", "ascent/watched.img", "--name", &name[..16].to_uppercase()]).1, "accepted\n");
    let watches = ["check", "ascent/ascent.proc", "ascent/cloud.watch", "ascent/cold.watch", "ascent/battery.watch"];
    assert_eq!(said(&[&watches[..], &["--name", name]].concat()).1, "accepted\n");
    assert_eq!(said(&[&watches[..4], &["--name", name]].concat()).0, Some(1));
    let mut image = example("ascent/watched.img");
    image[700] ^= 1;
    let damaged = file("damaged.img", &image);
    for command in ["check", "run"] {
        let (status, out, told) = said(&[command, &damaged, "--name", name]);
        assert_eq!((status, out.as_str()), (Some(1), ""));
        assert!(told.starts_with("bukzarn: this is another image: its name is "), "{told}");
    }
    for image in ["first.img", "newer.img", "newer.rec"] {
        assert_eq!(said(&["fixed", image, "--name"]).1, "a85c1f5eccb73306\n");
    }
}

/// The CRC-16 of bytes, as examples/crc.proc checks it.
fn crc(bytes: &[u8]) -> u16 {
    bytes.iter().fold(0xffff, |sum, byte| {
        (0..8).fold(sum ^ u16::from(*byte) << 8, |sum: u16, _| sum << 1 ^ if sum >> 15 == 1 { 0x1021 } else { 0 })
    })
}

/// The example finds right sums and wrong ones, at the cost and up to the length that docs/LANGUAGE.md says.
#[test]
fn check_sums() {
    let page = std::fs::read_to_string(common::examples().join("../docs/LANGUAGE.md")).unwrap();
    let text = String::from_utf8(example("crc.proc")).unwrap();
    for (length, outcome) in [(24, "done 112"), (25, "done 117"), (112, "done "), (113, "bindings ")] {
        let own = text.replace("LENGTH = 24", &format!("LENGTH = {length}"));
        let own = file("crc.proc", own.replace("SUM = 22", &format!("SUM = {}", length - 2)).as_bytes());
        let mut frame: Vec<u8> = (0..length as u32 - 2).map(|n| (n * n % 251) as u8).collect();
        let sum = crc(&frame);
        frame.extend(sum.to_be_bytes());
        let (_, listing, _) = said(&["run", &own, "--frame", &file("crc.frame", &frame)]);
        assert!(listing.lines().any(|line| line.starts_with(outcome)), "{length}: {listing}");
        assert_eq!(listing.starts_with(&format!("log 0 {sum}\n")), length < 113);
        frame[length / 2] ^= 4;
        let (status, listing, _) = said(&["run", &own, "--frame", &file("crc.frame", &frame)]);
        assert!(status == Some(4) && !listing.contains("done"), "{listing}");
    }
    assert!(page.contains("takes some 11,200 steps, 500 for each byte") && page.contains("has 112 bytes"));
    assert!(page.contains(&format!("in {} lines", text.lines().count())));
}

/// The frames of the ascent, counted by a watch: its cell's sum is the count of frames that are done.
#[test]
fn frames_are_counted() {
    let words =
        ["run", "ascent/ascent.proc", "ascent/frames.watch", "--frames", "ascent/ascent.frames", "--length", "12"];
    let (_, totals, told) = said(&[&words[..], &["--totals", "--out", "csv"]].concat());
    assert!(totals.ends_with("\ncell,1,0,600,559,0,1,1\n"), "{totals}");
    assert!(told.contains(ONCE) && told.contains("559 done"), "{told}");
}
