"""For those who write watches: turns texts into images and back, puts refusals and outcomes into words, and makes tables and
pictures of soundings."""
import argparse
import os
import sys

from bukzarn import Image, NoLibrary
from bukzarn.lang import archive, generated, needs, outcomes, outfile, refusals, report, sounding, stripped
from bukzarn.lang.disassembler import disassemble, program
from bukzarn.lang.gate import verdict
from bukzarn.lang.layout import Refused
from bukzarn.lang.lexer import SourceError
from bukzarn.lang.picture import picture
from bukzarn.lang.printable import printable
from bukzarn.lang.profile import profile
from bukzarn.texts import STDIN_TEXTS, Fault, Misused, contents, load, text, write

# Enough for texts that are far deeper than an image may be, and few enough for the memory that Python has for calls.
DEEPEST = 6_000

# Exit status: refused, or wrong in itself. For wrong use argparse has 2.
REFUSED = 1

NEW_LINE = "\n"


def words_of(made, refused):
    """A refusal of an assembled image in words."""
    return refusals.explain(made.image, refused.number, refused.place, made.places, made.domains)


def asm(args):
    """An image that the engine would refuse is told of, and written only on demand."""
    made = load(args.files)
    refused = verdict(made.image, made.domains)
    if refused:
        sys.stderr.write(words_of(made, refused))
    if refused and not args.keep:
        sys.stderr.write("No image is written; --keep writes it all the same.\n")
        return REFUSED
    write(made.image, args.out)
    return 0


def check(args):
    made = load(args.files)
    refused = verdict(made.image, made.domains)
    write(words_of(made, refused) if refused else "accepted\n", None)
    return REFUSED if refused else 0


def explained(args):
    """An outcome, a refusal that is named, or the refusal of an image, in words."""
    if args.outcome is not None:
        return outcomes.explain(args.outcome)
    if not args.files and not args.refused:
        raise Misused("name a FILE, --refused N PLACE or --outcome N")
    if args.refused and args.refused[0] not in refusals.REFUSALS:
        raise Misused(refusals.unknown(args.refused[0]).rstrip())
    if not args.files:
        return refusals.in_general(*args.refused)
    made = load(args.files)
    refused = Refused(*args.refused, "") if args.refused else verdict(made.image, made.domains)
    return words_of(made, refused) if refused else "The image is accepted.\n"


def explain(args):
    write(explained(args), None)


def disasm(args):
    if args.image.endswith((".proc", ".watch")):
        raise Fault(f"{args.image} is a text: disasm takes an image, whose name ends with .img")
    image = contents(args.image)
    write(program(image) if args.program else disassemble(image), args.out)


def draw(args):
    made = load(args.files)
    write(picture(made.image, made.domains), args.out)


def show_report(args):
    data = contents(args.report)
    runs = [report.read_run(data, contents(args.log))] if args.log else report.read_runs(data)
    tell = report.in_words if args.words else report.listing
    heads = [f"frame {n}\n" for n in range(len(runs))] if len(runs) > 1 else [""]
    write("".join(head + tell(run) for head, run in zip(heads, runs)), args.out)


def engine(files):
    """The image of files, for the library's calls; a refusal of one is explained with the line of its text."""
    made = load(files)
    return Image(made.image, made.domains or (), made.places)


def ask(call):
    """What a call of the library answers; a refusal ends the tool, explained."""
    try:
        return call()
    except Refused as refused:
        raise Fault(str(refused)) from None


def need(args):
    """The library's numbers beside the limits of a call."""
    write(ask(engine(args.files).need).table(args.budget, args.log), args.out)


def fixed(args):
    """The fixed form, or the name that the archive has for it."""
    form = ask(engine(args.files).fixed_form).data
    write(archive.name(form) + "\n" if args.name else form, args.out)


def generate(args):
    """The image of a seed and a depth, as the program `load` writes it."""
    try:
        write(generated.image(args.seed, args.depth), args.out)
    except Refused as refused:
        raise Fault(refusals.in_general(refused.number, refused.place).rstrip()) from None


def bare(image, high):
    """An image without the watches below the high domains; of a set that is not one the fault is told."""
    try:
        return image.stripped_form(stripped.members(high))
    except Refused as refused:
        if refused.number != stripped.WRONG_SET:
            raise Fault(str(refused)) from None
        here = stripped.fault(image.data, high, list(image.domains))
        raise Fault(refusals.in_general(refused.number, refused.place, here).rstrip()) from None


def strip(args):
    image = engine(args.files)
    write(bare(image, stripped.mask(args.keep, image.domains)).data, args.out)


def rerun(args):
    """Both runs are the library's, over the bench sheet's frame or each frame of a recording."""
    if bool(args.frames) != (args.length is not None):
        raise Misused("--frames and --length go together")
    image = engine(args.files)
    high = stripped.mask(args.keep, image.domains)
    without, takedown = bare(image, high), stripped.low_takedown(image.data, high)
    if args.frames:
        words, holds = rerun_frames(image, without, high, takedown, args)
    else:
        full, without = (stripped.read(ask(i.run).listing(), high) for i in (image, without))
        words, holds = stripped.told(full, without, takedown)
    write(words, args.out)
    if not holds:
        raise Fault("the two runs differ where they may not")


def read_frames(file, length):
    """The frames of a recording, one after another."""
    if not length:
        raise Misused("a frame has at least one byte: --length N")
    with open(file, "rb") as recording:
        while frame := recording.read(length):
            if len(frame) < length:
                raise Fault(f"{file}: the last frame has {len(frame)} of {length} bytes")
            yield frame


def rerun_frames(full, without, high, takedown, args):
    """The runs of two images over the frames of a recording, compared."""
    def seen(image):
        return (stripped.read(run.listing(), high) for run in image.run_each(read_frames(args.frames, args.length)))
    return stripped.compare_frames(zip(seen(full), seen(without), strict=True), takedown)


def soundings(args):
    """The soundings of the tables, each named by its file, by the whole path where two files have one name."""
    found = [sounding.read(file, args.columns, args.cut) for file in args.tables]
    names = [s.name for s in found]
    for s, file in zip(found, args.tables):
        s.name = s.name if names.count(s.name) == 1 else file
    return found


def table(args):
    write("\n".join(s.text() for s in soundings(args)), args.out)


def plot(args):
    write(profile(soundings(args), args.title), args.out)


def bench(args):
    """Serves the bench until it is ended. What it needs is read here, since the other commands do without."""
    from bukzarn.bench.serve import StartError, bench as made
    texts = [(text(file), file) for file in args.files]
    try:
        server = made(texts, args.frames, args.length, args.port, args.columns)
    except StartError as error:
        raise Fault(str(error)) from None
    print(f"The bench is at {server.url} (Ctrl-C ends it)", flush=True)
    server.serve_forever()


def natural(word):
    """A number of an option or a seed: digits, below 2^32."""
    if not word.isascii() or not word.isdecimal() or len(word) > 10 or int(word) >= generated.MODULUS:
        raise argparse.ArgumentTypeError(f"'{word[:20]}' is not a number from 0 to {generated.MODULUS - 1}")
    return int(word)


def column_option(word):
    """The columns of an option, as they were written."""
    sounding.columns(word)
    return word


def outcome(word):
    """The number of an outcome of an option."""
    try:
        return outcomes.number(word)
    except ValueError as error:
        raise argparse.ArgumentTypeError(str(error)) from None


class Parser(argparse.ArgumentParser):
    """argparse keeps quiet about help that could not be written, and shows words as they came."""

    def print_help(self, file=None):
        outfile.write_stdout(self.format_help().encode())

    def error(self, message):
        super().error(printable(message))


class Commands:
    """The commands with their options."""

    def __init__(self):
        self.parser = Parser(
            prog="watchtool.py", description=__doc__,
            epilog="FILE is an image if its name ends with .img, else a text (docs/LANGUAGE.md). COMMAND --help tells how to use "
                   "a command. need, fixed, strip, rerun and bench call the proved library, which python/bukzarn/build.py makes "
                   "loadable. Exit status: 0 if all went well, 1 if something was refused or a file is wrong, 2 if the "
                   "command was used wrongly.")
        self.found = self.parser.add_subparsers(dest="command", metavar="COMMAND", required=True)
        self.of_texts()
        self.of_images()
        self.of_soundings()
        self.of_the_bench()

    def add(self, name, perform, words, files="", out=True):
        """A command; `files` is how many texts it takes, as argparse says it."""
        sub = self.found.add_parser(name, help=words, description=words[0].upper() + words[1:] + ".")
        sub.set_defaults(perform=perform)
        if files:
            sub.add_argument("files", nargs=files, metavar="FILE", help="a procedure with its watches, or an image")
            # For programs that have read the files themselves: see StdinTexts.
            sub.add_argument("--stdin-texts", action="store_true", help=argparse.SUPPRESS)
        if out:
            sub.add_argument("-o", dest="out", metavar="FILE", help="write to a file instead of standard output")
        return sub

    def of_texts(self):
        self.add("asm", asm, "assemble a procedure and its watches into an image", "+").add_argument(
            "--keep", "--force", action="store_true", help="write an image that the engine will refuse, too")
        self.add("check", check, "say whether the engine will accept an image, and why not", "+", False)
        words = "say why an image is refused and in which line of its text, or what an outcome means"
        sub = self.add("explain", explain, words, "*", False).add_mutually_exclusive_group()
        sub.add_argument("--refused", nargs=2, type=natural, metavar=("N", "PLACE"), help="the refusal that the engine answered")
        sub.add_argument("--outcome", type=outcome, metavar="N", help="the outcome of a run: its number or its word")
        self.add("refusals", lambda args: write(refusals.table(), args.out), "list all refusals and how to mend them")
        self.add("outcomes", lambda args: write(outcomes.table(), args.out), "list all outcomes and what to do about them")

    def of_images(self):
        sub = self.add("disasm", disasm, "write an image as a text that assembles to the same bytes")
        sub.add_argument("image", metavar="IMAGE")
        sub.add_argument("--program", action="store_true", help="as a tree, in whatever order its records stand")
        self.add("picture", draw, "draw the tree and the domains, as Graphviz text", "+")
        sub = self.add("report", show_report, "list what a report and its log say, or the reports of a recording")
        sub.add_argument("report", metavar="REPORT")
        sub.add_argument("log", nargs="?", metavar="LOG")
        sub.add_argument("--words", action="store_true", help="in sentences")
        sub = self.add("need", need, "tell what any run of an image will need, beside the limits", "+")
        sub.add_argument("--budget", type=natural, default=needs.BUDGET, metavar="N", help="the budget of a call")
        sub.add_argument("--log", type=natural, default=needs.LOG_LENGTH, metavar="BYTES", help="the length of its log")
        self.add("fixed", fixed, "write the fixed form of an image, the same for every image of a program", "+").add_argument(
            "--name", action="store_true", help="the archive's name for it in place of the image")
        for name, perform, words in (("strip", strip, "write an image without the watches below the kept domains"),
                                     ("rerun", rerun, "run an image with and without these watches, and compare")):
            sub = self.add(name, perform, words, "+")
            sub.add_argument("--keep", metavar="DOMAINS", default="0",
                             help="the domains to keep, with commas between them: names, or numbers for an image")
        sub.add_argument("--frames", metavar="FILE", help="compare them over each frame of a recording")
        sub.add_argument("--length", type=natural, metavar="N", help="bytes of a frame of the recording")
        sub = self.add("load", generate, "write a generated image, the same at every station")
        sub.add_argument("seed", type=natural, metavar="SEED")
        sub.add_argument("depth", type=natural, metavar="DEPTH")

    def of_soundings(self):
        for name, perform, words in (("table", table, "list the levels of a sounding, a line for each"),
                                     ("plot", plot, "draw a sounding as SVG: pressure downwards, temperature, humidity")):
            sub = self.add(name, perform, words)
            sub.add_argument("tables", nargs="+", metavar="TABLE", help="what `bukzarn run --out csv` or `table` wrote")
            sub.add_argument("--columns", type=sounding.columns, default=sounding.COLUMNS, metavar="NAMES",
                             help=f"what the decoder prints for each frame ({sounding.COLUMNS_TEXT})")
            sub.add_argument("--cut", action="store_true", help="leave out the numbers of a level that a run did not finish")
        sub.add_argument("--title", default="", help="a line above the picture")

    def of_the_bench(self):
        sub = self.add("bench", bench, "serve a page on which a watch is written, judged as one types, and drawn", out=False)
        sub.add_argument("files", nargs="+", metavar="FILE", help="a procedure, and the watches to begin with")
        sub.add_argument("--frames", metavar="FILE", help="a recording (the bench sheet's frame)")
        sub.add_argument("--length", type=natural, metavar="N", help="the bytes of a frame of it")
        sub.add_argument("--columns", type=column_option, default=sounding.COLUMNS_TEXT, metavar="NAMES",
                         help=f"what the decoder prints for each level ({sounding.COLUMNS_TEXT})")
        sub.add_argument("--port", type=natural, default=0, metavar="N", help="where the page is served (any free port)")


def inputs(args):
    """The files that a command reads."""
    named = [getattr(args, name, None) for name in ("image", "report", "log", "frames")]
    return [*getattr(args, "files", ()), *getattr(args, "tables", ()), *(name for name in named if isinstance(name, str))]


def perform(words):
    """Performs a command, and answers its exit status."""
    parser = Commands().parser
    args = parser.parse_args(words)
    try:
        if getattr(args, "out", None):
            outfile.check_output(args.out, inputs(args))
        if getattr(args, "stdin_texts", False):
            STDIN_TEXTS.take()
        return args.perform(args) or 0
    except BrokenPipeError:
        raise
    except (Misused, outfile.OutputConflict) as error:
        parser.error(str(error))
    except ValueError as error:
        if "null byte" not in str(error):
            raise
        raise Fault("the name of a file has no byte 0") from None
    except OSError as error:
        raise Fault(f"{error.filename or 'standard output'}: {error.strerror}") from None
    except Refused as refused:
        raise Fault(f"the image is {refused}: {refused.words}") from None


# What ends a command, in words.
FAULTS = (report.Damaged, sounding.Unreadable, NoLibrary, stripped.NoDomain, Fault)


def flush_stdout():
    """Hands over what Python still holds for standard output."""
    if sys.stdout is not None:
        sys.stdout.flush()


def discard_stdout():
    """What Python still holds for standard output, which cannot be written, goes nowhere."""
    os.dup2(os.open(os.devnull, os.O_WRONLY), 1)


def fail_with(words):
    """Ends a command that failed, with words that a terminal only shows."""
    sys.exit(f"watchtool: {printable(words, kept=NEW_LINE)}")


def main(words=None):
    sys.setrecursionlimit(DEEPEST)
    for stream in (sys.stdout, sys.stderr):
        # A terminal that lacks a sign is shown its number.
        if hasattr(stream, "reconfigure"):
            stream.reconfigure(errors="backslashreplace")
    try:
        try:
            status = perform(words)
        finally:
            flush_stdout()
    except BrokenPipeError:
        # Whoever read our output has gone away.
        discard_stdout()
        status = REFUSED
    except OSError as error:
        discard_stdout()
        fail_with(f"standard output: {error.strerror}")
    except SourceError as error:
        fail_with(f"{error}{error.excerpt()}")
    except FAULTS as error:
        fail_with(str(error))
    if status:
        sys.exit(status)
