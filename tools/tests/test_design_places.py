"""tools/house/design_places.py finds a planted place of each point, and tells those that have a reason beside them."""
import unittest

import common
import design_places

CODE = """
pub enum Read {
    Value(u32),
    NoValue,
}

pub enum Wrong {
    WrongDepth,
    ShortOutput(usize),
}

struct Part {
    whole: bool,
    at: usize,
}

const RED: u16 = 1;

const GREEN: u16 = 2;

const BLUE: u16 = 3;

const BLACK: u16 = 4;

fn number_of(c: Colour) -> u16
    requires { IsColour c.hue × (0 < limit) }
{
    match c {
        Colour::Red => 1,
        Colour::Green => 2,
        Colour::Blue => 3,
    }
}

fn is_red<F: Fn(u8) -> bool>(kind: u16, f: F) -> bool
    requires { 0 < limit }
{
    kind == 1
}

fn first(s: &[u8], n: usize) -> u8
    ensures { result ≡ 0 }
    requires named { (0 < limit) × (n < 3) }
{
    let a = s[0];
    let b = a + 1;
    b - 1
}

fn second(s: &[u8], n: usize) -> u8 {
    let c = s[1];
    let d = c + 2;
    d - 2
}

// Some zeros.
// Kept: the proof did not close, since it was tried with a closure that is lent twice.
fn clear(area: &mut [u8]) {
    let mut i: usize = 0;
    while i < area.len() {
        area[i] = 0;
        i += 1;
    }
    while fuel != 0 {
        fuel = burnt(fuel);
    }
}

fn wide(x: u8) -> usize {
    x as usize
}

fn moved(p: Place) -> Place {
    Place { x: p.x, y: p.y, z: 0 }
}

fn both(a: bool, b: bool) -> bool {
    a && b
}

fn least(a: u8, b: u8) -> u8 {
    if a < b {
        a
    } else {
        b
    }
}

fn fits(n: u8) -> bool {
    if n == 0 {
        return false;
    }
    n < 8
}

fn low(k: u16) -> u8 {
    // Kept: the form is no plainer.
    match k {
        RED => 7,
        GREEN => 8,
        BLUE => 9,
        _ => 0,
    }
}
"""

PROOFS = {
    "crates/a/proofs/f/Answers.antt": "pub one : goal.one\none c = auto\n\npub two : goal.two\ntwo c = c.g.ensures\n",
    "crates/a/proofs/f/Invariants.antt": "abbrev pub invariant-loop-1 : goal.invariant-loop-1\n",
    "crates/a/proofs/Laws.antt": "law : ℕ\nlaw = 0\n",
}


class Places(unittest.TestCase):
    def setUp(self):
        self.root = common.tree(self, {"crates/a/src/lib.rt": CODE, **PROOFS})

    def said(self, point, of="Source"):
        return {what for _, _, _, what in design_places.places(self.root, point)}

    def test_own_enums_and_numbers(self):
        self.assertEqual(self.said(1), {
            "enum Read: Value, NoValue", "struct Part with a truth", "4 numbers from RED", "number_of answers one of 3 numbers",
            "low answers one of 4 numbers", "is_red takes kind"})

    def test_twins(self):
        self.assertEqual(self.said(2), {f"{name} of 2: first, second" for name in ("first", "second")})

    def test_loops(self):
        self.assertEqual(self.said(3), {"clear: while i < area.len()", "clear: while fuel != 0"})

    def test_forms_by_hand(self):
        self.assertEqual(self.said(4), {
            "wide is a cast", "moved: Place, 2 copied, 0 doubled", "number_of maps an enum to u16", "both is an operator",
            "least is min or max", "fits: 1 branches are true or false"})

    def test_facts(self):
        self.assertEqual(self.said(5), {"in 3 functions: 0 < limit"})
        given = "a: u8, b: &mut [u8], c: T"
        root = common.tree(self, {"crates/a/src/lib.rt": "".join(f"fn f{i}(x{i}: u8, {given}) {{}}\n" for i in range(5))})
        found = [what for *_, what in design_places.places(root, 5)]
        self.assertEqual(found, ["in 5 functions: a: u8, b: &[u8], c: T"])

    def test_lengths(self):
        self.assertEqual(self.said(6), {"first: s beside n", "second: s beside n"})
        root = common.tree(self, {"crates/a/src/lib.rt": "fn f(a: &[u8; SIZE], b: &mut [u16; SIZE]) {}\n"})
        self.assertEqual([what for *_, what in design_places.places(root, 6)], ["f: arrays of one length: a, b"])

    def test_switches(self):
        self.assertEqual(self.said(7), {"low: match k, 3 numbers"})
        root = common.tree(self, {"crates/a/src/lib.rt": "fn f(up: bool) { if up { g() } else { h() } }\nfn t(r: [fn(u8) -> u8; 2]) {}\n"})
        self.assertEqual([what for *_, what in design_places.places(root, 7)], ["f: up says which", "t: functions in a table"])

    def test_proofs(self):
        found = dict(design_places.proofs(self.root))
        self.assertEqual((found["answers"], found["files Answers.antt"], found["files of lemmas"], found["lines of proofs/"]), (2, 1, 1, 8))

    def test_reasons(self):
        """A reason above a function is one for each place in it, a reason above a line for that line."""
        kept = {what for point in (3, 7) for _, source, line, what in design_places.places(self.root, point) if source.kept(line)}
        self.assertEqual(kept, {"clear: while i < area.len()", "clear: while fuel != 0", "low: match k, 3 numbers"})
        self.assertFalse(any(source.kept(line) for _, source, line, _ in design_places.places(self.root, 4)))


if __name__ == "__main__":
    unittest.main()
