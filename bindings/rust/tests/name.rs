//! The name of an image is its SHA-256 sum.
use bukzarn::{image_name, run_frames, Frames, Lent, Name, NAME_DIGITS};
use std::fs;
use std::path::Path;

/// Sums of FIPS 180-4's examples, and of zeros whose length stands around the end of a block, as `sha256sum` prints them.
#[test]
fn sums() {
    let cases = [
        (b"abc".to_vec(), "ba7816bf8f01cfea414140de5dae2223b00361a396177a9cb410ff61f20015ad"),
        (Vec::new(), "e3b0c44298fc1c149afbf4c8996fb92427ae41e4649b934ca495991b7852b855"),
        (vec![0; 55], "02779466cdec163811d078815c633f21901413081449002f24aa3e80f0b88ef7"),
        (vec![0; 56], "d4817aa5497628e7c77e6b606107042bbba3130888c5f47a375e6179be789fbb"),
        (vec![0; 63], "c7723fa1e0127975e49e62e753db53924c1bd84b8ac1ac08df78d09270f3d971"),
        (vec![0; 64], "f5a5fd42d16a20302798ef6ed309979b43003d2320d9f0e8ea9831a92759fb4b"),
        (vec![0; 65], "98ce42deef51d40269d542f5314bef2c7468d401ad5d85168bfab4c0108f75f7"),
        (vec![0; 119], "f616b0d54e78571a9611f343c9f8e022e859e920381ab0e4d3da01e193a7bd7e"),
        (vec![0; 120], "6edd9f6f9cc92cded36e6c4a580933f9c9f1b90562b46903b806f21902a1a54f"),
        (vec![0; 16384], "4fe7b59af6de3b665b67788cc2f99892ab827efae3a467342b3bb4e3bc8e5bfe"),
    ];
    for (bytes, sum) in cases {
        assert_eq!(image_name(&bytes).to_string(), sum, "{} bytes", bytes.len());
    }
}

#[test]
fn fronts_of_names() {
    let name = image_name(b"abc");
    let whole = name.to_string();
    for digits in [16, 17, 63, 64] {
        assert!(name.begins_with(&whole[..digits]) && name.begins_with(&whole[..digits].to_uppercase()));
    }
    assert!(!name.begins_with(&whole[..15]) && !name.begins_with(&(whole.clone() + "0")));
    assert!(!name.begins_with(&whole.replace("ba", "bb")) && !name.begins_with(""));
    assert!(Name::is_well_formed(&whole) && !Name::is_well_formed("0123456789abcdeg") && !Name::is_well_formed("0xba"));
}

/// The numbers that the decoder, domain 0, prints over the recorded ascent, frame by frame; nothing of a refused image.
fn decoded(image: &[u8], recording: &[u8], lent: &mut Lent) -> Option<Vec<(usize, i32)>> {
    let frames = Frames::of_length(recording, 12).unwrap();
    let runs = run_frames(image, frames, 100_000, lent).ok()?;
    let printed = runs.iter().enumerate().flat_map(|(n, run)| run.log().map(move |printed| (n, printed)));
    Some(printed.filter(|(_, printed)| printed.domain == 0).map(|(n, printed)| (n, printed.number)).collect())
}

/// The check finds harm, not damage: of all images with one bit flipped some are accepted, and some of those decode other
/// numbers. The name finds every one. docs/STATIONS.md has these counts.
#[test]
fn flipped_bits() {
    let folder = Path::new(env!("CARGO_MANIFEST_DIR")).join("../../examples/ascent");
    let (image, recording) =
        (fs::read(folder.join("watched.img")).unwrap(), fs::read(folder.join("ascent.frames")).unwrap());
    let (name, mut lent) = (image_name(&image).to_string(), Lent::new(16_384));
    let right = decoded(&image, &recording, &mut lent);
    let (mut accepted, mut other) = (0, 0);
    for bit in 0..8 * image.len() {
        let mut flipped = image.clone();
        flipped[bit / 8] ^= 1 << (bit % 8);
        assert!(!image_name(&flipped).begins_with(&name[..NAME_DIGITS]));
        let found = decoded(&flipped, &recording, &mut lent);
        accepted += usize::from(found.is_some());
        other += usize::from(found.is_some() && found != right);
    }
    let page = fs::read_to_string(folder.join("../../docs/STATIONS.md")).unwrap();
    let counts = format!(
        "Of the {} images that differ from the ascent's in one bit, {accepted} are accepted, and {other} of \
                          these give other decoder numbers",
        8 * image.len()
    );
    assert!(page.contains(&counts), "{counts}");
}
