"""What keeps the machine's registers in the processor: a function that hands them on is called in one place, or is small. The second
class shows that the check can fail."""
import collections
import re
import unittest

import common
import test_forms
import test_house

# The machine's loop keeps its registers out of memory as long as every function that hands them on is compiled into it. A
# function that is called in one place always is; one that is called in more places only if it is small. These are called in more,
# and were when a step was measured (docs/changes/0062-look-back.md): small ones; those that begin the loop; and two for the entries
# of a match, which are handed copies, so that those of the loop stay where they are.
CALLED_IN_PLACES = """vm_actions: go store; vm_dispatch: alone;
vm_registers: called completed given halt halt_with lacking new_piece same stuck;
vm_loop: run_turns start_regs; vm_matches: begin_operand entries_from"""


def called_in_places(root):
    """Functions of the machine that answer its registers and are called in more than one place."""
    texts = {path: test_forms.without_comments(path.read_text(encoding="utf-8")) for path in sorted(root.glob("crates/vm_*/src/**/*.rt"))}
    calls = collections.Counter(name for text in texts.values() for name in re.findall(r"(?<!fn )\b(\w+)\(", text))
    found = set()
    for path, text in texts.items():
        for match in re.finditer(r"\bfn (\w+)(?:<[^>]*>)?\(", text):
            end = test_forms.closing(text, match.end() - 1, "()")
            if re.match(r"\s*-> (?:Regs|Start)\b", text[end:]) and calls[match[1]] > 1:
                found.add((path.relative_to(root).parts[1], match[1]))
    return found


class Registers(unittest.TestCase):
    def test_registers(self):
        self.assertEqual(called_in_places(common.ROOT), test_house.listed(CALLED_IN_PLACES, ";"))


class CanFail(unittest.TestCase):
    def test_registers(self):
        loop = "fn f(r: Regs) -> Regs { match a { A => g(r, true), B => g(r, false) } }\n"
        once = "fn f(r: Regs) -> Regs { match a { A | B => g(r, c) } }\n"
        text = "fn g(r: Regs, b: bool) -> Regs { r }\n"
        self.assertEqual(called_in_places(common.tree(self, {"crates/vm_a/src/lib.rt": text + loop})), {("vm_a", "g")})
        self.assertEqual(called_in_places(common.tree(self, {"crates/vm_a/src/lib.rt": text + once})), set())


if __name__ == "__main__":
    unittest.main()
