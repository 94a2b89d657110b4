"""What the command reads and writes: texts, images, other bytes."""
import sys
from collections import deque

from bukzarn.lang import outfile
from bukzarn.lang.assembler import Assembled, assemble

# Longer files are neither texts of procedures nor images, of which none has more than 16,384 bytes.
LONGEST_FILE = 1_000_000


class Fault(Exception):
    """What ends a command, in words."""


class Misused(Exception):
    """A command without what it needs, in words."""


class StdinTexts:
    """Texts that another program hands over on standard input, in the order in which it names them: each behind a line with
    its length. Without one, files are opened."""

    def __init__(self):
        self.texts = None

    def take(self):
        """Takes over all that stands on standard input."""
        data, self.texts = sys.stdin.buffer.read(), deque()
        while data:
            length, _, data = data.partition(b"\n")
            if not length.isdigit() or len(length) > 9 or int(length) > len(data):
                raise Fault("what was given on standard input is cut off")
            self.texts.append(data[:int(length)])
            data = data[int(length):]

    def read(self, file):
        """The first bytes of a file, each file once."""
        if self.texts is not None:
            if not self.texts:
                raise Fault("there are fewer texts on standard input than names")
            return self.texts.popleft()
        with open(file, "rb") as opened:
            return opened.read(LONGEST_FILE + 1)


STDIN_TEXTS = StdinTexts()


def contents(file):
    """The bytes of a file that is a text, an image, a report or a log."""
    data = STDIN_TEXTS.read(file)
    if len(data) > LONGEST_FILE:
        raise Fault(f"{file} has more than {LONGEST_FILE:,} bytes: no text or image is so long; of a longer report take a part")
    return data


def text(file):
    """The text of a file; a byte order mark before it is no part of it."""
    if is_image(file):
        raise Fault(f"{file} is an image: a watch is a text, and its procedure is one too")
    try:
        return contents(file).decode("utf-8-sig")
    except UnicodeDecodeError as error:
        raise Fault(f"{file} is not a text (byte {error.start} is not UTF-8); the name of an image ends with .img") from None


def is_image(file):
    return file.endswith(".img")


def load(files):
    """The image that a file holds, or that the texts in files give."""
    if is_image(files[0]):
        if len(files) > 1:
            raise Fault(f"{files[0]} is an image, and takes no watches: name the text of its procedure")
        return Assembled(contents(files[0]), {}, None)
    if files[0].endswith(".watch"):
        raise Fault(f"{files[0]} is a watch: the procedure on which it hangs comes first")
    return assemble(text(files[0]), files[0], [(text(f), f) for f in files[1:]])


def write(made, out):
    """Writes text or bytes to a file, or to standard output; bytes not to a terminal."""
    data = made.encode() if isinstance(made, str) else made
    if out:
        outfile.write_file(out, data)
    elif data is made and sys.stdout and sys.stdout.isatty():
        raise Fault("an image is not for a terminal: name a file with -o FILE")
    else:
        outfile.write_stdout(data)
