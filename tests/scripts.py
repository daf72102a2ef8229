#!/usr/bin/env python3
"""The scripts in a folder of their own, with commands that only tell how they were called: the gate's verdict on a tally, which library
the tests are run against, and when the program fit is built again."""
import os
import pathlib
import shutil
import subprocess
import sys
import tempfile
import time
import unittest

ROOT = pathlib.Path(__file__).resolve().parent.parent


class Scripts(unittest.TestCase):
    def setUp(self):
        kept = tempfile.TemporaryDirectory()
        self.addCleanup(kept.cleanup)
        self.folder = pathlib.Path(kept.name)
        self.log = self.folder / "log"

    def copied(self, *scripts):
        for script in scripts:
            (self.folder / script).parent.mkdir(exist_ok=True)
            shutil.copy(ROOT / script, self.folder / script)

    def written(self, path, text):
        path = self.folder / path
        path.parent.mkdir(parents=True, exist_ok=True)
        path.write_text(text)
        path.chmod(0o755)
        return path

    def command(self, name, body=""):
        """A command that tells how it was called, and then does this."""
        found = 'in=$(basename "$PWD") BEYQALOOSH_LIB=${BEYQALOOSH_LIB-} CARGO_TARGET_DIR=${CARGO_TARGET_DIR-}'
        self.written(f"commands/{name}", f'#!/bin/sh\necho "{name} $* {found}" >>"{self.log}"\n{body}\n')

    def run_script(self, *words, **more):
        path = f"{self.folder / 'commands'}{os.pathsep}{os.environ['PATH']}"
        self.log.write_text("")
        done = subprocess.run(words, cwd=self.folder, env=os.environ | {"PATH": path} | more, capture_output=True, text=True)
        return done.returncode, done.stdout.splitlines()

    def calls(self):
        return self.log.read_text().splitlines()

    def test_the_gate_wants_something_to_have_passed_and_nothing_to_have_failed(self):
        self.copied(".ci/run")
        self.written("tests/run", "#!/bin/sh\nexit ${TESTS-0}\n")
        self.command("rt", 'printf "some lines\\n$OK\\n$TALLY\\n"; exit ${STATUS-0}')
        good, ok = "12 passed, 0 failed", "rt: ok; handles allowed: none; must-fail edits: 9 refused, 1 of them only by a limit; every proof was done"
        for tally, last in [
            (good, good),
            ("12 passed, 0 failed (and more)", good),
            ("0 passed, 0 failed", None),
            ("00 passed, 0 failed", None),
            (" passed, 0 failed", None),
            ("12 passed, 1 failed", None),
            ("12 passed, 0 failedness", None),
            ("all 12 passed, 0 failed", None),
            ("", None),
        ]:
            status, lines = self.run_script(".ci/run", TALLY=tally, OK=ok)
            self.assertEqual((status == 0, lines[-1] == last), (last is not None,) * 2, tally)
            # a plain rt ci, here
            self.assertEqual([call.split()[:3] for call in self.calls()], [["rt", "ci", f"in={self.folder.name}"]])
        for bad in [
            {"STATUS": "1"},
            {"STATUS": "2"},
            {"TESTS": "1"},
            {"OK": "rt: note: all is well"},
            {"OK": "rt: ok; handles allowed: none; must-fail edits: 9 refused, 1 bad; every proof was done"},
            {"OK": "rt: ok; handles allowed: none; must-fail edits: 9 refused, 2 of them only by a limit, 10 bad; the others are kept"},
        ]:
            status, lines = self.run_script(".ci/run", **{"TALLY": good, "OK": ok} | bad)
            self.assertEqual((status == 0, lines[-1] == good), (False, False), bad)

    def test_the_tests_run_against_what_was_built(self):
        self.copied("tests/run", "tools/build", "tools/archive.py")
        for crate in ("some_abi", "used", "under"):
            self.written(f"crates/{crate}/src/lib.rt", "")
        self.written("crates.txt", "# a list\nunder:\nused: under\nsome_abi staticlib: used io\n")
        (self.folder / "rust").mkdir()
        (self.folder / "tests" / "spare").mkdir()
        for name in ("cargo", "ar"):
            self.command(name)
        # the scripts for Python are named, and archive.py runs
        self.command("python3", f'case $1 in *archive.py) exec {sys.executable} "$@" ;; esac')
        # it knows the kit by rt
        made = 'while [ "$1" != -o ]; do shift; done; echo "#!/bin/sh" >"$2"; chmod +x "$2"'
        kit = self.folder / "kit"
        self.command("rt", f'[ "$1" != doc ] || echo "{kit}/START-HERE.md"')
        self.command("cc", made)
        self.command("../kit/bin/rattle", f"[ ! -e refused ] || exit 1; {made}")
        elsewhere = {"BEYQALOOSH_LIB": "elsewhere", "CARGO_TARGET_DIR": "elsewhere"}
        by_rt = [["rt", "lib", "in=some_abi"]]

        def asked(*words):
            self.assertEqual(self.run_script(*words, **elsewhere), (0, []))
            self.assertLessEqual({"ar", "cc", "cargo"}, {call.split()[0] for call in self.calls()})
            for call in self.calls():
                self.assertTrue(call.endswith(" BEYQALOOSH_LIB= CARGO_TARGET_DIR="), call)
            return [call.split()[:3] for call in self.calls() if call.split()[0] in ("rt", "../kit/bin/rattle") and call.split()[1] != "doc"]

        for script in ("tools/build", "tests/run"):
            self.assertEqual(asked(script), by_rt)
            self.assertEqual("python3" in {call.split()[0] for call in self.calls()}, script == "tests/run")
        # over what rt ci has built, where all of it is rt ci's
        self.assertEqual(asked("tests/run", "--over-ci"), by_rt)
        for crate in ("used", "under"):
            self.written(f"crates/{crate}/out/rlib/{crate}.rlib/format", "")
        for script in ("tools/build", "tests/run"):
            self.assertEqual(asked(script), by_rt)
            self.assertEqual([words[:2] for words in asked(script, "--over-ci")], [["../kit/bin/rattle", "build"]])
        # what cannot be made so is left to rt
        refused = self.written("crates/some_abi/refused", "")
        self.assertEqual([words[1] for words in asked("tools/build", "--over-ci")], ["build", "lib"])
        refused.unlink()
        self.written("crates/under/out/rlib/stamp", "rt lib built it")
        self.assertEqual(asked("tools/build", "--over-ci"), by_rt)
        # where it is not proved nothing is built
        self.command("rt", '[ "$1" != lib ]')
        status, _ = self.run_script("tools/build")
        self.assertEqual((status, "ar" in {call.split()[0] for call in self.calls()}), (1, False))

    def test_a_night_is_run_by_no_older_program_than_its_sources(self):
        self.copied("tools/night")
        self.written("nights/storm.sheet", "a sheet\n")
        source, listed = self.written("crates/some/src/lib.rt", ""), self.written("crates.txt", "")
        self.written("crates/fit/src/main.rt", "")
        fit = self.folder / "crates" / "fit" / "out" / "fit"
        # builds what is not there, leaves alone what is, and runs it
        build = f'mkdir -p out; [ -x out/fit ] || {{ printf "#!/bin/sh\\ncat\\n" >out/fit; chmod +x out/fit; }}'
        self.command("rt", f"{build}; out/fit")
        ago = lambda path, seconds: os.utime(path, (time.time() - seconds,) * 2)

        def asks():
            self.assertEqual(self.run_script("tools/night"), (0, ["a sheet"]))
            return [call.split()[:3] for call in self.calls()]

        run = [["rt", "run", "in=fit"]]
        # not there yet, then there
        for path in [listed, *(self.folder / "crates").rglob("*")]:
            ago(path, 200)
        self.assertEqual((asks(), asks()), (run, []))
        # a source that is newer, one that is gone, and a list of crates; once each
        for changed in (source, source.parent, listed):
            ago(fit, 100)
            ago(changed, 50)
            self.assertEqual((asks(), asks()), (run, []))
            ago(changed, 200)
        # what rt makes is no source
        ago(fit, 100)
        self.written("crates/some/out/rlib/stamp", "")
        self.assertEqual(asks(), [])
        # one that is changed while it is proved is newer than what comes of it
        self.command("rt", f'sleep 0.05; touch "{source}"; out/fit')
        ago(source, 50)
        self.assertEqual((asks(), asks()), (run, run))
        # where it is not proved nothing is run
        self.command("rt", "exit 1")
        self.assertEqual(self.run_script("tools/night"), (1, []))


if __name__ == "__main__":
    unittest.main()
