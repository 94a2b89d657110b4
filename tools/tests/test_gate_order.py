"""The order of crates.txt: layer by layer, those with the most lines first; and the longest chain."""
import unittest

import common
import gate_order

BELOW = {"top": ["long", "short"], "short": ["base"], "long": ["base"], "other": ["base"], "base": []}
LINES = {"base": 2, "short": 3, "long": 30, "other": 31, "top": 4}


class Order(unittest.TestCase):
    def test_the_longest_of_a_layer_first(self):
        self.assertEqual(gate_order.ordered(BELOW, LINES), ["base", "other", "long", "short", "top"])

    def test_the_chain(self):
        self.assertEqual(gate_order.chain(BELOW, LINES), ["base", "long", "top"])

    def test_lines(self):
        root = common.tree(self, {"crates/a/src/lib.rt": "1\n2\n", "crates/a/proofs/f/Answers.antt": "3\n", "crates/a/stdout": "4\n"})
        self.assertEqual(gate_order.lines("a", root), 3)

    def test_the_file(self):
        """It is read with what stands behind a crate's name, and is in layers."""
        self.assertEqual(gate_order.crates("# a\nlow:\nffi staticlib: low\napp status=3: ffi low # b\nalone\n"),
                         {"low": [], "ffi": ["low"], "app": ["ffi", "low"], "alone": []})
        below = gate_order.crates((common.ROOT / "crates.txt").read_text(encoding="utf-8"))
        folders = {file.parents[1].name for file in common.ROOT.glob("crates/*/src/*.rt") if file.name in ("lib.rt", "main.rt")}
        self.assertEqual(set(below), folders)
        layer = gate_order.layers(below)
        self.assertEqual([layer[name] for name in below], sorted(layer.values()))


if __name__ == "__main__":
    unittest.main()
