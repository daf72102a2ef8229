#!/usr/bin/env python3
"""The README is true: its examples in C, Rust and Python print what it says, the text beside the promise of factorize is the contract's,
and what it links to is there. Needs what tools/build makes."""
import os
import pathlib
import re
import subprocess
import sys
import unittest
import xml.etree.ElementTree as xml

ROOT = pathlib.Path(__file__).resolve().parent.parent
README = (ROOT / "README.md").read_text()
OUT = ROOT / "target" / "tests"
LIB = ROOT / "target" / "lib"


def run(*command, **more):
    done = subprocess.run([str(c) for c in command], capture_output=True, text=True, **more)
    if done.returncode:
        raise AssertionError(f"{command[0]} failed\n{done.stdout}{done.stderr}")
    return done.stdout


def in_c(path):
    program = path.with_suffix(".c.out")
    run("cc", "-std=c11", "-Wall", "-Wextra", "-Werror", "-I", ROOT / "include", "-o", program, path, LIB / "libbeyqaloosh.a", "-lm")
    return run(program)


def in_rust(path):
    program = path.with_suffix(".rs.out")
    face = ROOT / "target" / "rust" / "debug" / "libbeyqaloosh.rlib"
    run("rustc", "--edition", "2021", "-D", "warnings", "--extern", f"beyqaloosh={face}", "-L", f"native={LIB}", "-o", program, path)
    return run(program)


def in_python(path):
    return run(sys.executable, path, env=os.environ | {"PYTHONPATH": str(ROOT / "python")})


RUN = {"c": (in_c, "c"), "rust": (in_rust, "rs"), "python": (in_python, "py")}


def examples():
    """Each example with its language and what is printed: the next text."""
    waiting = []
    for language, body in re.findall(r"^```(\w+)\n(.*?)^```$", README, re.M | re.S):
        if language == "text":
            for each in waiting:
                yield *each, body
            waiting = []
        else:
            waiting.append((language, body))
    assert not waiting, "an example without its output"


class Examples(unittest.TestCase):
    def test_each_prints_what_the_readme_says(self):
        OUT.mkdir(parents=True, exist_ok=True)
        seen = []
        for number, (language, body, printed) in enumerate(examples()):
            runs, suffix = RUN[language]
            path = OUT / f"readme_{number}.{suffix}"
            path.write_text(body)
            with self.subTest(example=path.name):
                self.assertEqual(runs(path), printed)
            seen.append(language)
        self.assertEqual(sorted(seen), ["c", "c", "python", "python", "rust"])


class Promise(unittest.TestCase):
    def test_the_text_of_factorize_is_that_of_the_contract(self):
        specs = ROOT / "crates" / "factor_core" / "specs"
        self.holds("the text", ROOT / "crates" / "factorize" / "src" / "lib.rt", specs / "Factorize.antt")
        self.holds("the text of the cache", specs / "Cache.antt")

    def holds(self, head, *sources):
        contract = " ".join(" ".join(path.read_text() for path in sources).split())
        table = README.split(f"| {head} | in words |\n|---|---|\n")[1].split("\n\n")[0]
        rows = re.findall(r"^\| `(.*?)` \| (.*) \|$", table, re.M)
        self.assertEqual(len(rows), len(table.splitlines()))
        for text, _ in rows:
            for part in text.split("…"):
                self.assertIn(part.strip(), contract)


class Links(unittest.TestCase):
    def test_what_is_linked_is_there(self):
        links = re.findall(r"\]\(([^)#]+)[^)]*\)", README)
        self.assertTrue(links)
        for link in links:
            self.assertTrue((ROOT / link).exists(), link)
            if link.endswith(".svg"):
                xml.parse(ROOT / link)

    def test_each_section_that_is_linked_is_there(self):
        sections = {re.sub(r"[^\w -]", "", head.lower()).replace(" ", "-") for head in re.findall(r"^## (.*)$", README, re.M)}
        links = re.findall(r"\]\(#([^)]+)\)", README)
        self.assertTrue(links)
        self.assertLessEqual(set(links), sections)


if __name__ == "__main__":
    unittest.main()
