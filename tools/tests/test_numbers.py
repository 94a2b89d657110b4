"""The numbers in include/, bindings/rust and tools/ are those of the definitions in specs/."""
import re
import unittest

import common
from bukzarn.lang import archive, generated, header as heads, kinds, needs, outcomes, refusals, sounding


def text(*path):
    return common.ROOT.joinpath(*path).read_text(encoding="utf-8")


def cases(crate, module, function, enum):
    """What a function of specs/ gives each constructor of an enum."""
    found = re.findall(rf"^{function} \(?(?:Err \()?{enum}\.(\w+)[^=\n]*= (\d+)$", text("crates", crate, "specs", module), re.M)
    return {name: int(number) for name, number in found}


def worked_out(found, known):
    """Numbers by their names, from pairs of a name and a sum of numbers and of names that come before it or are known."""
    numbers = dict(known)
    for name, said in found:
        names = re.findall(r"[A-Za-z]\w*", said)
        if re.fullmatch(r"[\w +*/()-]+", said) and all(one in numbers for one in names):
            numbers[name] = eval(re.sub(r"[A-Za-z]\w*", lambda one: str(numbers[one.group()]), said).replace("/", "//"))
    return {name: numbers[name] for name, _ in found if name in numbers}


def constants(crate, module):
    """The numbers that specs/ name: numerals, and what follows from others, as the length of the work area does."""
    known = {}
    for place in (("calculus", "Limits.antt"), ("base_bytes", "Memory.antt"), (crate, module)):
        found = re.findall(r"^(\w+) = ([^\n]+)$", text("crates", place[0], "specs", place[1]), re.M)
        last = worked_out(found, known)
        known |= last
    return last


def rows(data):
    """The numbers of the kinds of a section, in the order of the table."""
    found = re.findall(rf"^\w+_row\w* {data}\.(\w+) = [^\n]*?(\d+)", text("crates", "image", "specs", "Kinds.antt"), re.M)
    return {name: int(number) for name, number in found}


def upper(name):
    """ImageTooLong and image_limit as the header writes them."""
    return re.sub(r"(?<=[a-z])(?=[A-Z])", "_", name).upper()


def header():
    return {name: int(n) for name, n in re.findall(r"BUKZARN_(\w+) = (\d+)", text("include", "bukzarn.h"))}


def code(file):
    """A module of Rattle without its comments and its strings."""
    return re.sub(r"//.*", "", re.sub(r'b"(?:[^"\\]|\\.)*"', '""', file.read_text(encoding="utf-8")))


def rattle(crate):
    """The constants of a crate's lib.rt, those of the crates below it known."""
    known = {}
    for one in ("calculus", "base_bytes", crate):
        found = re.findall(r"const (\w+): \w+ = ([^;]+);", code(common.ROOT / "crates" / one / "src/lib.rt"))
        found = [(name, re.sub(r" as \w+|\s+", " ", said).strip()) for name, said in found]
        last = worked_out(found, known)
        known |= last
    return last


def rust(module):
    """The numbers that Rust's enum of a module gives its variants."""
    found = re.findall(r"^ +\(?(\d+),\s+\w+::(\w+),", text("bindings", "rust", "src", module), re.M)
    return {name: int(number) for number, name in found}


# What a number of the papers, or one that follows from such numbers, may be besides: a numeral of it in src/ is a limit that is
# written out, but for these.
BYTE = "a byte, or the numbers that a byte holds"
NOT_LIMITS = {
    "check_fields/lib.rt": ({256}, BYTE),
    "check_scopes/scope.rt": ({256}, BYTE),
    "listing_lines/offsets.rt": ({256}, BYTE),
    "read_records/numbers.rt": ({256}, BYTE),
    "read_records/table.rt": ({16}, "four bits of a kind's code"),
    "vm_matches/looks.rt": ({256}, BYTE),
    "vm_matches/operands.rt": ({256}, BYTE),
    "vm_memory/slots.rt": ({256}, BYTE),
}

# A table of the classes of instructions by their numbers.
TABLES = {"vm_dispatch/begin.rt"}

# Constants that are numerals of such a number, outside the two places of the limits.
OTHER_CONSTANTS = {
    "check_repeats/keys.rt": {"RANGE"},
    "check_uses/children.rt": {"USED"},
    "read_records/kinds.rt": {"UNIT_TYPE"},
    "read_records/table.rt": {"CHILDREN", "GROUP", "LEAD", "LAST", "LEAST"},
    "report/fixed.rt": {"LOG"},
    "vm_memory/slots.rt": {"BYTES", "DIGITS", "NEXT"},
    "vm_words/code.rt": {"CLASSES", "COUNTS"},
    "vm_words/value.rt": {"TAGS"},
    "watch/conformance.rt": {"FRAME_LENGTH", "LOG_LENGTH"},
    "write_load/lib.rt": {"OUTPUT_LENGTH"},
}

# Constants that several crates use, each with the one module that has it.
ONE_PLACE = {
    "MAINLINE": "read_records/numbers.rt", "OBJECT_TYPE": "read_records/kinds.rt", "NO_BINDING": "vm_memory/bindings.rt",
    "FUEL_BIAS": "vm_registers/regs.rt", "FRAME_SLOTS": "vm_registers/regs.rt", "SPENT": "calculus/outcomes.rt",
    "CODE_LENGTH": "vm_words/terms.rt", "SCOPE_LENGTH": "check_rules/leaf.rt", "FIELD_A": "vm_words/code.rt",
    "CAUSES": "check_typing/pass.rt", "TERM_LIMIT": "image/lib.rt", "LABEL_LIMIT": "calculus/lib.rt",
}


def papers_numbers():
    """The limits from 16 on, and what follows from them: places of tables and scopes, lengths, places of a word's fields."""
    run, image = constants("calculus", "Limits.antt"), constants("image", "Limits.antt")
    memory = constants("base_bytes", "Memory.antt")
    tables = re.findall(r"^(\w+_(?:places|base|binding)) = (.+)$", text("crates", "vm_machine", "specs", "Memory.antt"), re.M)
    numbers = {*run.values(), *image.values(), *memory.values(), *worked_out(tables, run | image | memory).values()}
    terms, depth = image["term_limit"], image["depth_limit"]
    numbers |= {terms + 1, image["image_limit"] + 1, depth * (image["entry_limit"] + 1)}
    place = 1
    for size in (256, 8, image["domain_limit"], terms, 2 * terms, 2 * terms, depth):
        place *= size
        numbers.add(place)
    return {n for n in numbers if n >= 16}


class Numerals(unittest.TestCase):
    """A number of the papers stands once in specs and once in Rattle; array lengths and contracts name it."""

    def modules(self):
        for file in sorted(common.ROOT.glob("crates/*/src/*.rt")):
            yield f"{file.parts[-3]}/{file.name}", code(file)

    def test_the_list(self):
        """The numbers that are looked for: limits as they are, sums of them, a product, the place of a word's last field."""
        run, image = constants("calculus", "Limits.antt"), constants("image", "Limits.antt")
        meant = {run["label_limit"], run["frame_limit"] + 1, 2 * run["binding_limit"] - 1, image["work_length"], image["report_length"],
                 constants("base_bytes", "Memory.antt")["word_count"], 9 * image["depth_limit"], image["term_limit"] + 1, 1 << 53}
        self.assertLessEqual(meant, papers_numbers())
        self.assertGreater(image["work_length"], 8 * image["term_limit"])

    def test_limits_in_rattle(self):
        """Each limit has the same number under the same name in specs/ and in Rattle."""
        for crate, apart in (("calculus", {"minus_one"}), ("image", set())):
            said = {upper(name): n for name, n in constants(crate, "Limits.antt").items() if name not in apart}
            self.assertGreater(len(said), 8)
            self.assertEqual({name: n for name, n in rattle(crate).items() if name in said}, said)

    def test_numerals(self):
        numbers, found = papers_numbers(), {}
        for name, source in self.modules():
            bare = re.sub(r"\bconst \w+: [^=]+ = [^;]*;", "", source)
            numerals = {int(n) for n in re.findall(r"(?<![\w.])(?<!\^ )(\d+)(?:u\d+|usize)?\b", bare)} & numbers
            if numerals and name not in TABLES:
                found[name] = numerals
        self.assertEqual(found, {name: numerals for name, (numerals, _) in NOT_LIMITS.items()})

    def test_constants(self):
        numbers, found = papers_numbers(), {}
        for name, source in self.modules():
            named = {one for one, n in re.findall(r"\bconst (\w+): \w+ = (\d+);", source) if int(n) in numbers}
            if named and name not in ("calculus/lib.rt", "image/lib.rt"):
                found[name] = named
        self.assertEqual(found, OTHER_CONSTANTS)

    def test_one_place(self):
        for constant, place in ONE_PLACE.items():
            self.assertEqual([name for name, source in self.modules() if f"const {constant}:" in source], [place], constant)


class Numbers(unittest.TestCase):
    def header_has(self, numbers):
        self.assertTrue(numbers)
        self.assertEqual({upper(n): v for n, v in numbers.items()}, {n: v for n, v in header().items() if n in map(upper, numbers)})

    def test_outcomes(self):
        numbers = cases("calculus", "Report.antt", "outcome_number", "Outcome")
        self.assertEqual(sorted(numbers.values()), list(range(len(numbers))))
        self.assertEqual(rust("outcome.rs"), numbers)
        words = [upper(name).lower().replace("_", "-") for name in sorted(numbers, key=numbers.get)]
        self.assertEqual(list(outcomes.WORDS), words)
        listed = text("examples", "c", "watch.c").split("outcomes[] = {")[1].split("}")[0]
        self.assertEqual(re.findall('"(.*?)"', listed), words)
        self.header_has(numbers)

    def test_kinds_of_the_command(self):
        """What `bukzarn run` reads of an image, to see whether its watches keep something: the fields of each kind of term,
        and the kinds that it names. Where a record has as many children as its length says, they are not in the table."""
        code = text("cli", "src", "memory.rs")
        letters = re.findall('"(.*?)"', code.split("const TERMS")[1].split("];")[0])
        terms = [kind for kind in kinds.KINDS if kinds.section(kind) == 2]
        self.assertEqual(terms, list(range(kinds.UNIT, kinds.UNIT + len(letters))))
        for kind, own in zip(terms, letters):
            said = kinds.KINDS[kind][1][1:].replace("n", "nn")
            self.assertEqual(own, "" if kind in kinds.GROUPS else said, kinds.name(kind))
        named = {name: int(number) for name, number in re.findall(r"^const (\w+): u16 = (\d+);", code, re.M)}
        self.assertGreaterEqual(len(named), 14)
        known = {"FIRST_TYPE": kinds.UNIT_T, "FIRST_TERM": kinds.UNIT}
        for name, number in named.items():
            own = name.removesuffix("_TYPE") + "_T" if name.endswith("_TYPE") else name
            self.assertEqual(number, known.get(name, getattr(kinds, own, None)), name)

    def test_names_of_images(self):
        """The least digits of a name are those of the archive's, in Rust and in C."""
        self.assertIn(f"pub const NAME_DIGITS: usize = {archive.DIGITS};", text("bindings", "rust", "src", "name.rs"))
        self.assertIn(f"NAME_LEAST = {archive.DIGITS},", text("examples", "c", "name.h"))

    def test_the_range_of_numbers(self):
        self.assertEqual((heads.SMALLEST, heads.LARGEST), (sounding.LEAST, sounding.GREATEST))
        self.assertEqual((heads.SMALLEST, heads.LARGEST), (-(1 << 31), (1 << 31) - 1))

    def test_rooms(self):
        """What is said of an outcome names the limit; that of bindings, cells and pieces is of one half."""
        limits = constants("calculus", "Limits.antt")
        named = {"frames": "frame", "bindings": "binding", "cells": "cell", "labels": "label", "advice": "advice",
                 "pieces": "piece", "other-bindings": "binding", "other-cells": "cell", "other-pieces": "piece"}
        in_rust = dict(re.findall(r'Outcome::\w+, "([a-z-]+)", "(.*?)"', text("bindings", "rust", "src", "outcome.rs")))
        self.assertEqual(list(in_rust), list(outcomes.WORDS))
        for word, limit in named.items():
            for sentence in (outcomes.sentence(outcomes.number(word), 0), in_rust[word]):
                self.assertIn(f"{limits[limit + '_limit']:,} ", sentence)

    def test_needs(self):
        """What a flight will need is told beside the limits, in the order of the program `need`, which is that of the
        struct that the library answers."""
        room = constants("calculus", "Limits.antt")
        for word, limit in needs.ROOMS.items():
            self.assertEqual(limit, room[word.removeprefix("other-").removesuffix("s") + "_limit"], word)
        self.assertEqual(needs.LOG_RECORD, room["log_record_length"])
        named = re.findall(r"^const (\w+): \w+ = ([\d_]+);", text("bindings", "rust", "src", "needs.rs"), re.M)
        self.assertEqual({name: int(n) for name, n in named},
                         {upper(name): n for name, n in room.items() if upper(name) in dict(named)})
        self.assertEqual(len(named), 7)
        fields = [word.replace("-", "_") for word in needs.limits()]
        for module in (("crates", "image_needs", "src", "lib.rt"), ("bindings", "rust", "src", "needs.rs")):
            struct = text(*module).split("pub struct Needs {")[1].split("}")[0]
            self.assertEqual(re.findall(r"pub (\w+): u32", struct), fields)
        places = text("include", "bukzarn.h").split("enum bukzarn_need_number {")[1].split("}")[0]
        self.assertEqual([word.lower() for word in re.findall(r"BUKZARN_NEED_(\w+)", places)], fields)

    def test_refusals(self):
        causes = cases("image", "Refusals.antt", "refusal_number", "Refusal")
        causes["OutsideClass"] = cases("image_needs", "Forecasts.antt", "forecast_number", "Unforeseen")["OutsideClass"]
        causes["ShortOutput"] = constants("write_fixed", "Calls.antt")["short_output"]
        load = constants("write_load", "Loads.antt")
        causes |= {"WrongDepth": load["wrong_depth"], "ShortLoad": load["short_load"]}
        stripped = constants("write_stripped", "Calls.antt")
        causes |= {"WrongSet": stripped["wrong_set_number"], "ShortStrippedOutput": stripped["short_output"]}
        causes["TooFewPlaces"] = constants("answers_as_numbers", "Forecasts.antt")["too_few_places"]
        self.assertEqual(rust("refusal.rs"), causes)
        self.assertEqual(sorted(refusals.REFUSALS), sorted(causes.values()))
        self.header_has(causes)

    def test_lengths(self):
        limits = constants("image", "Limits.antt")
        lengths = {name: limits[name] for name in ("image_limit", "work_length", "report_length")}
        self.header_has(lengths)
        for name, length in lengths.items():
            self.assertIn(f"pub const {upper(name)}: usize = {length:_};", text("bindings", "rust", "src", "lib.rs"))

    def test_load(self):
        """The numbers of a draw and the limits of a load."""
        numbers = constants("image_written", "Generated.antt")
        self.assertEqual(
            (generated.MULTIPLIER, generated.INCREMENT, generated.DIVISOR, generated.DEPTH_LIMIT),
            tuple(numbers[name] for name in ("draw_multiplier", "draw_increment", "draw_divisor", "load_depth_limit")))
        self.header_has({"load_length": numbers["load_length"], "load_depth": numbers["load_depth_limit"]})
        load = text("bindings", "rust", "src", "load.rs")
        self.assertIn(f"pub const LOAD_LENGTH: usize = {numbers['load_length']:_};", load)
        self.assertIn(f"pub const LOAD_DEPTH: usize = {numbers['load_depth_limit']};", load)

    def test_limits(self):
        limits = constants("image", "Limits.antt")
        self.assertEqual(
            (kinds.IMAGE_LIMIT, kinds.DOMAIN_LIMIT, kinds.TYPE_LIMIT, kinds.TERM_LIMIT, kinds.DEPTH_LIMIT,
             kinds.LABEL_LIMIT, kinds.METHOD_LIMIT, kinds.ENTRY_LIMIT),
            tuple(limits[name] for name in ("image_limit", "domain_limit", "type_limit", "term_limit", "depth_limit",
                                            "pointcut_limit", "method_limit", "entry_limit")))
        self.assertEqual(kinds.LEAF_LIMIT, constants("calculus", "Limits.antt")["leaf_limit"])

    def test_records_of_log_and_report(self):
        leaves = cases("calculus", "Report.antt", "leaf_kind", "Leaf")
        self.header_has(leaves)
        self.assertEqual(header()["PRINTED"], constants("base_bytes", "Records.antt")["log_kind"])

    def test_kinds(self):
        types, terms = rows("TypeKind"), rows("TermKind")
        self.assertEqual(set(types.values()) | set(terms.values()) | {kinds.DOMAIN}, set(kinds.KINDS))
        of_types = re.findall(r"Shape::\w+(?:\([^)]*\))? => \((\d+),", text("bindings", "rust", "src", "program", "types.rs"))
        self.assertEqual(sorted(map(int, of_types)), sorted(types.values()))
        of_terms = re.findall(r"(?:over\(|kind: )(\d+)", text("bindings", "rust", "src", "program", "terms.rs"))
        self.assertEqual({int(n) for n in of_terms}, set(terms.values()))
