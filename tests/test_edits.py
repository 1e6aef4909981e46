"""The edits that the prover must refuse, those that the gate tries and those that it leaves out: each changes lines of code
that are there. What the prover says of them, the gate and `tests/edits` see."""

import glob
import os
import unittest

import program

CRATES = os.path.join(program.TOP, "crates")


def edits():
    """The path of each edit, and its crate."""
    for folder in ("must-fail", "more-edits"):
        for path in sorted(glob.glob(os.path.join(CRATES, "*", folder, "*.edit"))):
            yield path, os.path.dirname(os.path.dirname(path))


def steps(path):
    """The file, the old text and the new text of each pair of lines."""
    file = old = None
    with open(path) as lines:
        for line in lines.read().splitlines():
            if line.startswith("file: "):
                file = line[len("file: ") :]
            elif line.startswith("old: "):
                old = line[len("old: ") :]
            elif line.startswith("new: "):
                yield file, old, line[len("new: ") :]


class Edits(unittest.TestCase):
    def test_each_changes_a_line_of_code_that_is_there(self):
        for path, crate in edits():
            with self.subTest(os.path.relpath(path, CRATES)):
                texts = {}
                for file, old, new in steps(path):
                    self.assertTrue(file.startswith("src/"))
                    if file not in texts:
                        with open(os.path.join(crate, file)) as source:
                            texts[file] = source.read()
                    self.assertEqual(texts[file].count(old), 1, old)
                    self.assertNotEqual(old, new)
                    texts[file] = texts[file].replace(old, new)
                self.assertTrue(texts)

    def test_no_two_of_a_crate_have_one_name(self):
        names = [(crate, os.path.basename(path)) for path, crate in edits()]
        self.assertEqual(sorted(set(names)), sorted(names))


if __name__ == "__main__":
    unittest.main()
