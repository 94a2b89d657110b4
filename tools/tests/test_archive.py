"""The fixed form and the archive's name."""
import hashlib
import unittest

import common
from test_tool import run
from bukzarn.lang import archive

FOLDER = common.ROOT / "examples"
# The image of this example is its own fixed form.
FORM = (FOLDER / "first.img").read_bytes()


class Archive(unittest.TestCase):
    @common.with_library
    def test_the_form_is_what_the_library_writes(self):
        self.assertEqual(run("fixed", FOLDER / "newer.img")[0], FORM)
        self.assertNotEqual((FOLDER / "newer.img").read_bytes(), FORM)

    @common.with_library
    def test_a_name_is_the_front_of_the_hash(self):
        said = run("fixed", FOLDER / "newer.img", "--name")[0].decode()
        self.assertEqual(said, hashlib.sha256(FORM).hexdigest()[:16] + "\n")
        self.assertNotEqual(archive.name(FORM + b"\0"), archive.name(FORM))

    def test_the_documents_have_the_name_of_the_example(self):
        for document in ("examples/README.md", "docs/RESEARCHERS.md"):
            self.assertIn(archive.name(FORM), (common.ROOT / document).read_text(encoding="utf-8"))

    @common.with_library
    def test_a_refused_image_is_explained(self):
        with self.assertRaises(SystemExit) as caught:
            run("fixed", FOLDER / "sonde.proc", FOLDER / "alter.watch")
        self.assertIn("alter.watch, line 4, column 5:", str(caught.exception))


if __name__ == "__main__":
    unittest.main()
