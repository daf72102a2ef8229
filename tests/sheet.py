#!/usr/bin/env python3
"""Tests of tools/sheet.py: a sheet from its text and back, what is wrong told in words, and the picture of a night."""
import importlib.util
import pathlib
import subprocess
import sys
import tempfile
import unittest
import xml.etree.ElementTree as xml

REPOSITORY = pathlib.Path(__file__).resolve().parent.parent
TOOL = REPOSITORY / "tools" / "sheet.py"
NIGHTS = REPOSITORY / "nights"
spec = importlib.util.spec_from_file_location("sheet", TOOL)
sheet = importlib.util.module_from_spec(spec)
spec.loader.exec_module(sheet)

# document 01's sheet, byte for byte
TWO_BLOCKS = bytes.fromhex(
    "02000000 03000000 11ea2d819997713d 01000000 00000000 01000000 00000000 00000000 01000000"
    "00000000 00000000 4c000000 01000000 00000000 54000000 01000000 01000000 5c000000"
    "0000000000001040 0000000000000040 0000000000001440 0000000000002040 0000000000002040"
)
MIXED = """
tolerance 1e-9   # a remark
block 2
block 1 late
block 3
order 2 1 0
stored 2 0: 1 2; 3 4; -0.0 0x7FF8000000000001
stored 0 0: 4 1; 1 5
stored 2 2: 9 0 0; 0 9 0; 0 0 9
right 1 2 3 nan inf -5e-324
"""


def run(*words):
    return subprocess.run([sys.executable, str(TOOL), *map(str, words)], capture_output=True, text=True)


class Sheets(unittest.TestCase):
    def test_the_example_of_document_01(self):
        self.assertEqual(sheet.to_bytes(sheet.parse((NIGHTS / "two_blocks.txt").read_text())), TWO_BLOCKS)
        self.assertEqual(len(TWO_BLOCKS), 116)

    def test_every_night_of_the_repository_is_its_text(self):
        texts = sorted(NIGHTS.glob("*.txt"))
        self.assertTrue(texts)
        for text in texts:
            self.assertEqual(text.with_suffix(".sheet").read_bytes(), sheet.to_bytes(sheet.parse(text.read_text())), text.name)

    def test_show_prints_what_write_reads(self):
        for text in [(NIGHTS / "two_blocks.txt").read_text(), MIXED, "tolerance 0\nright\n"]:
            data = sheet.to_bytes(sheet.parse(text))
            shown = sheet.text_of(sheet.from_bytes(data))
            self.assertEqual(sheet.to_bytes(sheet.parse(shown)), data)
            self.assertEqual(sheet.text_of(sheet.parse(shown)), shown)

    def test_bodies_are_column_major_and_sorted(self):
        made = sheet.parse(MIXED)
        self.assertEqual([e[:2] for e in made.contents], [(0, 0), (2, 0), (2, 2)])
        self.assertEqual([sheet.word_of(b) for b in made.bodies[1]], ["1.0", "3.0", "-0.0", "2.0", "4.0", "0x7FF8000000000001"])
        self.assertEqual(made.contents[0][2], 16 + 12 * 3 + 12 * 3)
        self.assertEqual(made.contents[1][2], made.contents[0][2] + 8 * 4)

    def test_what_is_wrong_with_a_text(self):
        for text, words in [
            ("block 1\nright 1\n", "no line 'tolerance'"),
            ("tolerance 0\nblock 1\nright\n", "'right' has 0 numbers, and there are 1 scalars"),
            ("tolerance 0\nblock 1\norder 0 1\nright 1\n", "'order' has 2 numbers"),
            ("tolerance 0\nblock 1\nstored 1 0: 1\nright 1\n", "block (1, 0) is stored, and there are 1 blocks"),
            ("tolerance 0\nblock 2\nstored 0 0: 1 2\nright 1 1\n", "has not 2 rows of 2 numbers"),
            ("tolerance 0\nblock 1\nstored 0 0: 1\nstored 0 0: 1\nright 1\n", "line 4: the block (0, 0) a second time"),
            ("tolerance x\n", "line 1: x is no number"),
            ("tolerance 0\ntolerance 0\n", "line 2: a second line 'tolerance'"),
            ("tolerance 0\nblock -1\n", "line 2: dimension: -1 is not a number from 0"),
            ("tolerance 0\nsensor 1\n", "line 2: this line is not understood: sensor 1"),
            ("tolerance 0x1FFFFFFFFFFFFFFFF\n", "more than sixteen digits"),
        ]:
            with self.assertRaisesRegex(sheet.Bad, words.replace("(", r"\(").replace(")", r"\)")):
                sheet.parse(text)

    def test_what_is_wrong_with_a_sheet(self):
        for data, words in [
            (TWO_BLOCKS[:15], "shorter than a sheet's first 16"),
            (TWO_BLOCKS[:75], "take 76 bytes before the first body, and the sheet has 75"),
            (TWO_BLOCKS[:99], "the body of entry 2 of the contents goes past the sheet's end"),
            (TWO_BLOCKS[:108], "behind the bodies stand 8 bytes, and the right side takes 16"),
            (TWO_BLOCKS + b"\0", "behind the bodies stand 17 bytes"),
            (TWO_BLOCKS[:48] + b"\x4d" + TWO_BLOCKS[49:], "entry 0 of the contents has the offset 77, and its body lies at 76"),
            (TWO_BLOCKS[:52] + b"\x02" + TWO_BLOCKS[53:], r"entry 1 of the contents is the block \(2, 0\)"),
            (TWO_BLOCKS[:20] + b"\x02" + TWO_BLOCKS[21:], "a late flag is neither 0 nor 1"),
            (TWO_BLOCKS[:52] + b"\x00" + TWO_BLOCKS[53:], "not by column, then row, each block once"),
        ]:
            with self.assertRaisesRegex(sheet.Bad, words):
                sheet.from_bytes(data)

    def test_elimination(self):
        # document 01's P1 and P4
        links = [(1, 0), (2, 1), (3, 0)]
        text = "tolerance 0\n" + "block 1\n" * 4 + "".join(f"stored {i} {j}: 1\n" for i, j in links) + "right 1 1 1 1\n"
        self.assertEqual(sheet.eliminated(sheet.parse(text))[2], [{1, 3}, {2, 3}, {3}, set()])
        hub = "tolerance 0\n" + "block 1\n" * 4 + "".join(f"stored {i} 0: 1\n" for i in (1, 2, 3)) + "right 1 1 1 1\n"
        self.assertEqual(sum(map(len, sheet.eliminated(sheet.parse(hub))[2])), 6)
        self.assertEqual(sum(map(len, sheet.eliminated(sheet.parse(hub + "order 3 2 1 0\n"))[2])), 3)
        # a late block comes last, the others keep their order
        self.assertEqual(sheet.eliminated(sheet.parse(MIXED))[0], [2, 0, 1])


class Pictures(unittest.TestCase):
    def drawn(self, text, answer):
        made = sheet.parse(text)
        return xml.fromstring(sheet.draw(made, sheet.silent_of(made, answer) if answer else set()))

    def count(self, picture, name):
        return sum(1 for r in picture.iter("{http://www.w3.org/2000/svg}rect") if r.get("class") == name)

    def test_silent_scalars_are_marked_in_both_panels(self):
        text = (NIGHTS / "two_blocks.txt").read_text()
        lines = "blocks 2 scalars 2 stored 1 products 1 silent 1\n0 3FF8000000000000 heard\n1 0000000000000000 silent\n"
        self.assertEqual(self.count(self.drawn(text, lines), "silent"), 2)
        self.assertEqual(self.count(self.drawn(text, None), "silent"), 0)

    def test_no_blocks_can_be_drawn(self):
        self.drawn("tolerance 0\nright\n", "blocks 0 scalars 0 stored 0 products 0 silent 0\n")

    def test_an_answer_that_is_refused_or_of_another_night(self):
        made = sheet.parse((NIGHTS / "two_blocks.txt").read_text())
        for answer in ["refused 13\n", "", "blocks 2 scalars 3 stored 1 products 1 silent 0\n0 0 heard\n"]:
            with self.assertRaises(sheet.Bad):
                sheet.silent_of(made, answer)


class Commands(unittest.TestCase):
    def test_the_three_commands(self):
        with tempfile.TemporaryDirectory() as folder:
            out = pathlib.Path(folder)
            self.assertEqual(run("write", NIGHTS / "two_blocks.txt", out / "a.sheet").returncode, 0)
            self.assertEqual((out / "a.sheet").read_bytes(), TWO_BLOCKS)
            self.assertIn("stored 1 0: 2.0", run("show", out / "a.sheet").stdout)
            self.assertEqual(run("draw", out / "a.sheet", out / "a.svg").returncode, 0)
            self.assertTrue((out / "a.svg").read_text().startswith("<svg"))
            (out / "b.sheet").write_bytes(TWO_BLOCKS[:20])
            wrong = run("show", out / "b.sheet")
            self.assertEqual(wrong.returncode, 1)
            self.assertIn("b.sheet", wrong.stderr)
            self.assertEqual(run("show", out / "none").returncode, 1)
            self.assertEqual(run("paint").returncode, 2)


if __name__ == "__main__":
    unittest.main()
