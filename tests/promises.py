#!/usr/bin/env python3
"""docs/PROMISES.md names every must-fail edit, and only edits, definitions and crates that are there."""
import pathlib
import re
import unittest

ROOT = pathlib.Path(__file__).resolve().parent.parent
TEXT = (ROOT / "docs" / "PROMISES.md").read_text()
EDITS = {(path.parent.parent.name, path.stem) for path in ROOT.glob("crates/*/must-fail/*.edit")}
CRATES = {path.name for path in (ROOT / "crates").iterdir()}


class Promises(unittest.TestCase):
    def test_every_edit_is_named(self):
        words = set(re.findall(r"[a-z0-9_]+", TEXT))
        self.assertEqual([], sorted(f"{crate}/{edit}" for crate, edit in EDITS if edit not in words))

    def test_every_edit_that_is_named_is_there(self):
        # crate/edit, and the names after it up to one that says its crate
        lists = re.findall(r"\b([a-z0-9_]+)/([a-z0-9_]+(?:(?:,|;| and)\s+[a-z0-9]+(?:_[a-z0-9]+)+(?![a-z0-9_/`:]))*)", TEXT)
        named = {(crate, edit) for crate, rest in lists if crate in CRATES for edit in re.split(r"(?:,|;| and)\s+", rest)}
        folders = {"specs", "proofs", "src", "stdin", "stdout"}
        self.assertGreater(len(named), 200)
        self.assertEqual([], sorted(f"{crate}/{edit}" for crate, edit in named - EDITS if edit not in folders))

    def test_every_file_of_definitions_that_is_named_is_there(self):
        tables = TEXT[TEXT.index("\n## ") :]
        files = re.findall(r"\b([a-z0-9_]+/(?:specs|proofs)/[A-Z]\w*)", tables)
        self.assertGreater(len(files), 100)
        self.assertEqual([], sorted({f for f in files if not (ROOT / "crates" / f"{f}.antt").is_file()}))


if __name__ == "__main__":
    unittest.main()
