"""The tool's verdict is the one that the engine's stored listings have, and every refusal is told in words."""
import unittest

import common
from bukzarn.lang import kinds, refusals, rules
from bukzarn.lang.gate import verdict


class Gate(unittest.TestCase):
    def test_stored_listings(self):
        numbers = set()
        for file, listing in common.stored_listings():
            refused = verdict(file.read_bytes())
            if listing.startswith("refused"):
                self.assertEqual(listing, f"refused {refused.number} {refused.place}\n", file.name)
                numbers.add(refused.number)
            else:
                self.assertIsNone(refused, file.name)
        self.assertEqual(numbers, set(range(1, 17)))

    def test_an_equal_type(self):
        image = bytes.fromhex("060001000100" "04001200" "04001200")
        self.assertEqual((verdict(image).number, verdict(image).place), (8, 10))

    def test_every_kind_has_a_rule(self):
        self.assertEqual(set(rules.RULES), {k for k in kinds.KINDS if kinds.section(k) == 2})

    def test_every_refusal_is_told(self):
        self.assertEqual(sorted(refusals.REFUSALS)[:18], list(range(1, 19)))
        for file, listing in common.stored_listings():
            if listing.startswith("refused"):
                _, number, place = listing.split()
                said = refusals.explain(file.read_bytes(), int(number), int(place))
                self.assertIn("Here: ", said, file.name)
                self.assertIn("To mend it: ", said)

    def test_broken_records(self):
        domain = bytes.fromhex("060001000100")
        for more, number, words in (
                ("0600", 2, "2 bytes left over behind the last record"),
                ("00", 2, "1 byte left over behind the last record"),
                ("03001200", 2, "the record's length is 3, but a record has at least 4 bytes"),
                ("08001200", 2, "the record's length is 8, but only 4 bytes left"),
                ("04006300", 3, "the record's kind is 99, but no kind has this number"),
                ("060013000000", 4, "the record of the type pair has 6 bytes, but it has at least 8"),
                ("0a00190000000000" "0000", 4, "the record of the type object has 10 bytes, but it may have 8, 12, 16")):
            refused = verdict(domain + bytes.fromhex(more))
            self.assertEqual((refused.number, refused.place), (number, len(domain)))
            self.assertTrue(refused.words.startswith(words), refused.words)

    def told(self, *cases):
        """Each stored image is refused with the number, and told in these words."""
        for name, number, words in cases:
            image = (common.STORED / "data" / f"{name}.img").read_bytes()
            refused = verdict(image)
            self.assertEqual(refused.number, number, name)
            self.assertIn(words, refusals.explain(image, number, refused.place))

    def test_objects_have_words_of_their_own(self):
        self.told(
            ("method-past-the-last", 14, "Here: method 2 is called, but the methods are 0 to 1: object { m0 at d0"),
            ("method-past-the-last", 14, "To mend it: Call a method that the type of the object has"),
            ("bodies-too-few", 14, "Here: the object has 1 body, but its type has 2 methods"),
            ("bodies-too-many", 14, "To mend it: Give the object one body for each method"),
            ("low-method-from-above", 15, "Here: the method's domain is d1, and must equal the current domain, d0"),
            ("low-method-calls-high", 15, "To mend it: Call a method of the current domain"),
            ("object-type-twice", 8, "Here: this type equals type 1"),
            ("methods-9", 4, "an object 1 to 8 methods"))

    def test_stacks_have_words_of_their_own(self):
        self.told(
            ("match-of-9-entries", 4, "a match 0 to 8 entries"),
            ("match-entry-of-itself", 7, "Here: the record names entry 5, but an entry is 0 or a lower term's number"),
            ("match-close-2", 7, "Here: the record names close 2, but a close is 0 or 1"),
            ("match-of-a-number", 14, "Here: what is matched must have type stack, but has number"),
            ("match-entry-no-pointcut", 14, "Here: each entry that is not 0 must be a pointcut, but has type number"),
            ("match-branches-differ", 14, "To mend it: Give both branches the same type"),
            ("match-second-branch-binds-nothing", 13, "Here: variable 0 is not bound: 0 variables in scope here"),
            ("keep-of-another-type", 14, "Here: the kept value must have type number, but has unit"),
            ("keep-of-another-type", 14, "To mend it: What stands there gives nothing"),
            ("keep-under-low-label", 15, "Here: the label's domain is d1, and must equal the current domain, d0"),
            ("low-keep-under-high-label", 15, "To mend it: Keep the value under a label of the current domain"))

    def test_takedowns_have_words_of_their_own(self):
        self.told(
            ("takedown-of-an-absent-domain", 7, "Here: the record names domain 1, but"),
            ("takedown-of-another-type", 14, "Here: a takedown must have type unit, but is said to have number"),
            ("takedown-of-another-type", 14, "To mend it: A takedown gives unit"),
            ("takedown-upward", 15, "Here: the domain that is taken down is d0, and must be at or below the current"),
            ("takedown-beside", 15, "To mend it: Take down a domain at or below the current one"))

    def test_another_place(self):
        image = (common.ROOT / "examples/alter.img").read_bytes()
        self.assertIn("By these rules this image is refused 15", refusals.explain(image, 14, 450))
        self.assertIn("no refusal 99", refusals.explain(image, 99, 0))

    def test_memory_is_not_the_images_fault(self):
        image = (common.ROOT / "examples/plain.img").read_bytes()
        self.assertNotIn("By these rules", refusals.explain(image, 17, 0))


if __name__ == "__main__":
    unittest.main()
