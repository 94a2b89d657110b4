//! The name under which an image travels: SHA-256 over its bytes (FIPS 180-4), as `sha256sum` prints it.
//!
//! The check finds harm, not damage: an image with a flipped bit may be accepted, and then gives other numbers. Whoever
//! receives an image compares its name with the one that was sent with it.
use std::fmt;

/// The least digits of a name that are compared. Of an image in its fixed form they are the archive's name.
pub const NAME_DIGITS: usize = 16;

/// The bytes of a whole name, and of a block of the sum.
const LENGTH: usize = 32;
const BLOCK: usize = 64;

/// The first words, and one for each round (FIPS 180-4, 5.3.3 and 4.2.2).
const START: [u32; 8] =
    [0x6a09_e667, 0xbb67_ae85, 0x3c6e_f372, 0xa54f_f53a, 0x510e_527f, 0x9b05_688c, 0x1f83_d9ab, 0x5be0_cd19];
const ROUNDS: [u32; 64] = [
    0x428a_2f98,
    0x7137_4491,
    0xb5c0_fbcf,
    0xe9b5_dba5,
    0x3956_c25b,
    0x59f1_11f1,
    0x923f_82a4,
    0xab1c_5ed5,
    0xd807_aa98,
    0x1283_5b01,
    0x2431_85be,
    0x550c_7dc3,
    0x72be_5d74,
    0x80de_b1fe,
    0x9bdc_06a7,
    0xc19b_f174,
    0xe49b_69c1,
    0xefbe_4786,
    0x0fc1_9dc6,
    0x240c_a1cc,
    0x2de9_2c6f,
    0x4a74_84aa,
    0x5cb0_a9dc,
    0x76f9_88da,
    0x983e_5152,
    0xa831_c66d,
    0xb003_27c8,
    0xbf59_7fc7,
    0xc6e0_0bf3,
    0xd5a7_9147,
    0x06ca_6351,
    0x1429_2967,
    0x27b7_0a85,
    0x2e1b_2138,
    0x4d2c_6dfc,
    0x5338_0d13,
    0x650a_7354,
    0x766a_0abb,
    0x81c2_c92e,
    0x9272_2c85,
    0xa2bf_e8a1,
    0xa81a_664b,
    0xc24b_8b70,
    0xc76c_51a3,
    0xd192_e819,
    0xd699_0624,
    0xf40e_3585,
    0x106a_a070,
    0x19a4_c116,
    0x1e37_6c08,
    0x2748_774c,
    0x34b0_bcb5,
    0x391c_0cb3,
    0x4ed8_aa4a,
    0x5b9c_ca4f,
    0x682e_6ff3,
    0x748f_82ee,
    0x78a5_636f,
    0x84c8_7814,
    0x8cc7_0208,
    0x90be_fffa,
    0xa450_6ceb,
    0xbef9_a3f7,
    0xc671_78f2,
];

/// The name of an image.
#[derive(Clone, Copy, Debug, PartialEq, Eq, Hash)]
pub struct Name([u8; LENGTH]);

/// The name of these bytes.
///
/// ```
/// let name = bukzarn::image_name(b"abc");
/// assert_eq!(name.to_string(), "ba7816bf8f01cfea414140de5dae2223b00361a396177a9cb410ff61f20015ad");
/// assert!(name.begins_with("BA7816BF8F01CFEA") && !name.begins_with("ba7816"));
/// ```
#[must_use]
pub fn image_name(image: &[u8]) -> Name {
    let mut state = START;
    let mut blocks = image.chunks_exact(BLOCK);
    for block in &mut blocks {
        state = compress(state, block);
    }
    for block in padding(blocks.remainder(), image.len()).chunks_exact(BLOCK) {
        state = compress(state, block);
    }
    let mut bytes = [0; LENGTH];
    for (place, word) in bytes.chunks_exact_mut(4).zip(state) {
        place.copy_from_slice(&word.to_be_bytes());
    }
    Name(bytes)
}

/// What is left over, a bit, zeros, and the length in bits: one block or two.
fn padding(rest: &[u8], length: usize) -> Vec<u8> {
    let mut last = rest.to_vec();
    last.push(0x80);
    let whole = if last.len() + 8 <= BLOCK { BLOCK } else { 2 * BLOCK };
    last.resize(whole - 8, 0);
    last.extend((8 * length as u64).to_be_bytes());
    last
}

/// The state after one more block.
fn compress(state: [u32; 8], block: &[u8]) -> [u32; 8] {
    let words = schedule(block);
    let [mut a, mut b, mut c, mut d, mut e, mut f, mut g, mut h] = state;
    for (word, constant) in words.into_iter().zip(ROUNDS) {
        let turned = e.rotate_right(6) ^ e.rotate_right(11) ^ e.rotate_right(25);
        let chosen = (e & f) ^ (!e & g);
        let first = h.wrapping_add(turned).wrapping_add(chosen).wrapping_add(constant).wrapping_add(word);
        let turned = a.rotate_right(2) ^ a.rotate_right(13) ^ a.rotate_right(22);
        let most = (a & b) ^ (a & c) ^ (b & c);
        (h, g, f, e, d, c, b, a) =
            (g, f, e, d.wrapping_add(first), c, b, a, first.wrapping_add(turned.wrapping_add(most)));
    }
    let mut next = state;
    for (sum, part) in next.iter_mut().zip([a, b, c, d, e, f, g, h]) {
        *sum = sum.wrapping_add(part);
    }
    next
}

/// A word for each round: those of the block, then sums of earlier ones.
fn schedule(block: &[u8]) -> [u32; 64] {
    let mut words = [0; 64];
    for (word, bytes) in words.iter_mut().zip(block.chunks_exact(4)) {
        *word = bytes.iter().fold(0, |sum, byte| sum << 8 | u32::from(*byte));
    }
    for n in 16..64 {
        let (near, far) = (words[n - 2], words[n - 15]);
        let low = far.rotate_right(7) ^ far.rotate_right(18) ^ far >> 3;
        let high = near.rotate_right(17) ^ near.rotate_right(19) ^ near >> 10;
        words[n] = low.wrapping_add(high).wrapping_add(words[n - 7]).wrapping_add(words[n - 16]);
    }
    words
}

impl Name {
    /// Is this a name, whole or its front: [`NAME_DIGITS`] to 64 hexadecimal digits?
    #[must_use]
    pub fn is_well_formed(digits: &str) -> bool {
        (NAME_DIGITS..=2 * LENGTH).contains(&digits.len()) && digits.bytes().all(|digit| digit.is_ascii_hexdigit())
    }

    /// Does the name begin with these digits, which are [`NAME_DIGITS`] at least?
    #[must_use]
    pub fn begins_with(&self, digits: &str) -> bool {
        Name::is_well_formed(digits) && self.to_string().starts_with(&digits.to_ascii_lowercase())
    }
}

/// All 64 digits.
impl fmt::Display for Name {
    fn fmt(&self, f: &mut fmt::Formatter<'_>) -> fmt::Result {
        self.0.iter().try_for_each(|byte| write!(f, "{byte:02x}"))
    }
}
