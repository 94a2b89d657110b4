//! Foreign words in our own: names of files and texts may hold signs that a terminal would obey.
use std::ffi::OsStr;
use std::fmt::Write;
use std::os::unix::ffi::OsStrExt;

/// A text with every sign that a terminal would obey, or that would turn the text around it, written out in ASCII; line
/// breaks too, if it is to stand on one line.
pub fn printable(text: &str, lines: bool) -> String {
    let mut shown = String::new();
    for sign in text.chars() {
        match sign {
            '\n' if lines => shown.push(sign),
            sign if sign.is_control() || is_bidi_control(sign) => shown.extend(sign.escape_default()),
            sign => shown.push(sign),
        }
    }
    shown
}

/// Does the sign change the direction or the lines of the text around it?
fn is_bidi_control(sign: char) -> bool {
    matches!(sign, '\u{61c}' | '\u{200e}' | '\u{200f}' | '\u{2028}'..='\u{202e}' | '\u{2066}'..='\u{2069}')
}

/// A word or the name of a file as a message shows it; bytes that are no UTF-8 are written out.
pub fn display_name(word: impl AsRef<OsStr>) -> String {
    let mut text = String::new();
    for part in word.as_ref().as_bytes().utf8_chunks() {
        text.push_str(&printable(part.valid(), false));
        for byte in part.invalid() {
            let _ = write!(text, "\\x{byte:02x}");
        }
    }
    text
}
