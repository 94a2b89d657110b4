"""Foreign words in our own: names of files, titles and lines of a text may hold signs that a terminal would obey, or that no
picture may have."""

# What changes the direction or the lines of the text around it.
BIDI_CONTROLS = frozenset("\u061c\u200e\u200f\u2028\u2029\u202a\u202b\u202c\u202d\u202e\u2066\u2067\u2068\u2069\ufeff")


def escape_code(sign):
    """A sign in ASCII, as it is written in Python and Rust; a byte that was no UTF-8 as that byte."""
    code = ord(sign)
    if 0xDC80 <= code <= 0xDCFF:
        return f"\\x{code - 0xDC00:02x}"
    return {"\n": "\\n", "\r": "\\r", "\t": "\\t"}.get(sign) or (f"\\x{code:02x}" if code < 0x100 else f"\\u{code:04x}")


def is_control(sign):
    """Would a terminal do something else than show the sign?"""
    code = ord(sign)
    return code < 0x20 or 0x7F <= code < 0xA0 or 0xD800 <= code < 0xE000 or code in (0xFFFE, 0xFFFF) or sign in BIDI_CONTROLS


def printable(text, kept=""):
    """A text on one line with such signs written out; those of `kept` stay."""
    if text.isascii() and text.isprintable():
        return text
    return "".join(escape_code(sign) if is_control(sign) and sign not in kept else sign for sign in text)
