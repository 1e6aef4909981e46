"""The documents' links: each leads to a file and a heading that is there, and where its text names clauses, calls or
definitions, these stand in the file."""

import glob
import os
import re
import unittest

import program

TOP = os.path.normpath(program.TOP)
LINK = re.compile(r"\[([^\]\n]*)\]\(([^)\s]+)\)")
NAME = re.compile(r"`([A-Za-z_][A-Za-z0-9_]*)`")
CODE = {
    ".rt": r"\b(?:fn|struct|enum|trait|ghost|ensures\*?|requires\*?) %s\b",
    ".antt": r"^ *(?:(?:pub|abbrev|unfoldable|record|data) )+%s\b",
}


def documents():
    found = glob.glob(os.path.join(TOP, "*.md"))
    for folder in ("docs", "bench", "examples", "crates/*"):
        found += glob.glob(os.path.join(TOP, folder, "*.md"))
    return sorted(found)


def text_of(path):
    with open(path) as file:
        return file.read()


def prose(path):
    """A document without its blocks of code."""
    text = re.sub(r"^```.*?^```", "", text_of(path), flags=re.M | re.S)
    return "\n".join(line for line in text.splitlines() if not line.startswith("    "))


def anchors(path):
    """The anchors of a document's headings, as the usual hosts make them."""
    headings = re.findall(r"^#+ (.*)$", prose(path), re.M)
    return {re.sub(r"[^\w\- ]", "", heading.lower()).strip().replace(" ", "-") for heading in headings}


class Links(unittest.TestCase):
    def links(self):
        for document in documents():
            for text, target in LINK.findall(prose(document)):
                if "://" not in target:
                    file, _, anchor = target.partition("#")
                    path = os.path.join(os.path.dirname(document), file) if file else document
                    yield os.path.relpath(document, TOP), text, os.path.normpath(path), anchor

    def test_each_leads_somewhere(self):
        for document, text, path, anchor in self.links():
            with self.subTest(document=document, text=text):
                self.assertTrue(os.path.exists(path), path)
                if anchor:
                    self.assertIn(anchor, anchors(path))

    def test_each_name_is_there(self):
        names = 0
        for document, text, path, _ in self.links():
            form = CODE.get(os.path.splitext(path)[1])
            for name in NAME.findall(text) if form else ():
                names += 1
                with self.subTest(document=document, name=name):
                    self.assertRegex(text_of(path), re.compile(form % name, re.M))
        self.assertGreater(names, 100)


class Whole(unittest.TestCase):
    def test_each_file_that_is_named_is_there(self):
        named = re.compile(r"`((?:tests|bench|docs|examples|crates)/[\w./-]+)`")
        for document in documents():
            for path in named.findall(prose(document)):
                if "NAME" not in path:
                    with self.subTest(document=os.path.relpath(document, TOP), path=path):
                        self.assertTrue(os.path.exists(os.path.join(TOP, path)))

    def test_each_crate_is_listed(self):
        crates = {line.split(":")[0].split()[0] for line in text_of(os.path.join(TOP, "crates.txt")).splitlines() if line[:1] not in "#\n"}
        for document in ("PROMISES", "ARCHITECTURE"):
            rows = set(re.findall(r"^\| (sn_\w+)", text_of(os.path.join(TOP, "docs", document + ".md")), re.M))
            self.assertEqual(rows, crates, document)
        for crate in crates:
            self.assertTrue(os.path.exists(os.path.join(TOP, "crates", crate, "README.md")), crate)

    def test_what_each_crate_stands_on(self):
        wanted = {}
        for line in text_of(os.path.join(TOP, "crates.txt")).splitlines():
            if line[:1] not in ("#", ""):
                crate, below = line.split(":")
                wanted[crate.split()[0]] = sorted(below.split())
        rows = re.findall(r"^\| (sn_\w+) \|(.*)\|$", text_of(os.path.join(TOP, "docs", "ARCHITECTURE.md")), re.M)
        found = {crate: sorted(re.findall(r"\w+", "".join(cells.split("|")[-2:]))) for crate, cells in rows}
        self.assertEqual(found, wanted)

    def test_files_named_in_the_table_of_crates(self):
        rows = re.findall(r"^\| (sn_\w+).*\|(.*)\|$", text_of(os.path.join(TOP, "docs", "PROMISES.md")), re.M)
        for crate, files in rows:
            for file in re.findall(r"`([^`]+)`", files):
                with self.subTest(crate=crate, file=file):
                    self.assertTrue(os.path.exists(os.path.join(TOP, "crates", crate, file)))

    def test_the_toolchain_crates_that_are_trusted(self):
        (trusted,) = re.findall(r"^\*\*Trusted\*\*.*$", text_of(os.path.join(TOP, "README.md")), re.M)
        lines = [line for line in text_of(os.path.join(TOP, "crates.txt")).splitlines() if line[:1] not in ("#", "")]
        used = {name for line in lines for name in line.split(":")[1].split() if not name.startswith("sn_")}
        self.assertEqual({name for name in re.findall(r"`(\w+)`", trusted)} - {"rt"} - {"outside"}, used)

    def test_how_long_a_build_takes(self):
        (needed,) = re.findall(r'^time_needed="(.*)"$', text_of(os.path.join(TOP, "sn")), re.M)
        self.assertIn(needed, text_of(os.path.join(TOP, "README.md")))

    def test_the_edit_that_is_shown(self):
        edit = os.path.join(TOP, "crates", "sn_cbc", "must-fail", "part_of_a_block_is_whole.edit")
        shown = "".join("    %s\n" % line for line in text_of(edit).splitlines())
        self.assertIn(shown, text_of(os.path.join(TOP, "CONTRIBUTING.md")))

    def test_the_map_has_each_document(self):
        for document in os.listdir(os.path.join(TOP, "docs")):
            self.assertIn("docs/" + document, text_of(os.path.join(TOP, "README.md")))


if __name__ == "__main__":
    unittest.main()
