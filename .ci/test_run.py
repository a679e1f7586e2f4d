#!/usr/bin/env python3
"""Tests of .ci/run itself, with stand-ins for rt, cargo, python/test and .ci/citations in a temporary folder. By hand: .ci/test_run.py"""

import os
import shutil
import subprocess
import sys
import tempfile
import time
import unittest
from pathlib import Path

HERE = Path(__file__).resolve().parent
TOOLS = ["bash", "sh", "dirname", "nice", "nproc", "df", "awk", "chmod", "mktemp", "rm", "cat", "sleep", "gcc"]

# Each stand-in says that it was called, and then does what its variable says.
RT = """#!/bin/sh
echo "called rt $*" >>"$CALLS"
eval "${CI:-echo rt: must-fail a/b: refused; echo rt: ok; echo 12 passed, 0 failed}"
"""
STAND_IN = """#!/bin/sh
[ "$1" = --version ] && exit 0
echo "called {name}${{1:+ $1}}" >>"$CALLS"
eval "${{{variable}:-:}}"
"""


class Gate(unittest.TestCase):
    def setUp(self):
        folder = tempfile.TemporaryDirectory()
        self.addCleanup(folder.cleanup)
        self.room = Path(folder.name)
        self.bin = self.room / "bin"
        for name in "bin", "tree/.ci", "tree/python", "tree/reference":
            (self.room / name).mkdir(parents=True)
        shutil.copy(HERE / "run", self.room / "tree/.ci/run")
        for tool in TOOLS:
            (self.bin / tool).symlink_to(shutil.which(tool))
        # the interpreter itself, since a version manager's python3 may need more than this path
        self.script(self.bin / "python3", f'#!/bin/sh\nexec "{os.path.realpath(sys.executable)}" "$@"\n')
        self.script(self.bin / "rt", RT)
        self.script(self.bin / "cargo", STAND_IN.format(name="cargo", variable="CARGO"))
        self.script(self.room / "tree/python/test", STAND_IN.format(name="python/test", variable="PYTHON"))
        self.script(self.room / "tree/.ci/citations", STAND_IN.format(name="citations", variable="CITATIONS"))

    def script(self, path, text):
        path.write_text(text)
        path.chmod(0o755)

    def run_gate(self, **variables):
        """The status of the gate, its lines and the calls that it made."""
        calls = self.room / "calls"
        calls.write_text("")
        environment = {"PATH": str(self.bin), "CALLS": str(calls), **variables}
        gate = ["bash", self.room / "tree/.ci/run"]
        done = subprocess.run(gate, env=environment, stdout=subprocess.PIPE, stderr=subprocess.STDOUT, text=True, timeout=60)
        return done.returncode, done.stdout.splitlines(), calls.read_text()

    def fails(self, said, **variables):
        status, lines, calls = self.run_gate(**variables)
        self.assertEqual((status, lines[-1]), (1, f"FAILED: {said}"), lines)
        return lines, calls

    def test_pass(self):
        status, lines, calls = self.run_gate()
        self.assertEqual((status, lines[-1]), (0, "12 passed, 0 failed"))
        self.assertEqual(lines.count("12 passed, 0 failed"), 1)
        self.assertNotIn("NOT RUN", "\n".join(lines))
        wanted = ["citations", "cargo test", "rt ci", "python/test"]
        called = calls.splitlines()
        self.assertEqual(sorted(called), sorted(f"called {call}" for call in wanted))
        self.assertEqual(called[0], "called citations")
        self.assertLess(called.index("called rt ci"), called.index("called python/test"))

    def test_python_after_rt(self):
        """The Python tests begin when rt ci has passed."""
        ci = 'echo rt: must-fail a/b: refused; sleep 2; echo "edits done" >>"$CALLS"; echo 12 passed, 0 failed'
        status, lines, calls = self.run_gate(CI=ci, PYTHON='echo "python done" >>"$CALLS"; echo said')
        self.assertEqual((status, lines[-1]), (0, "12 passed, 0 failed"))
        self.assertLess(calls.index("edits done"), calls.index("called python/test"))
        self.assertIn("said", lines)

    def test_no_edit(self):
        """Without an edit the Python tests are run all the same."""
        status, lines, calls = self.run_gate(CI="echo rt: ok; echo 12 passed, 0 failed")
        self.assertEqual((status, lines[-1]), (0, "12 passed, 0 failed"))
        self.assertIn("called python/test", calls)

    def test_not_proved(self):
        """Where a crate is not proved the Python tests are not run, and the gate says so."""
        ci = "echo 'rt: record NOT PROVED'; echo rt: must-fail a/b: refused; echo 11 passed, 1 failed; exit 1"
        lines, calls = self.fails("rt ci, with status 1", CI=ci)
        self.assertIn("NOT RUN: the Python tests, since rt ci did not pass", lines)
        self.assertNotIn("python/test", calls)

    def test_bad_edits(self):
        """An edit that cannot be tried fails the gate, though rt ci passes."""
        ok = "rt: ok; handles allowed: none; must-fail edits: 12 refused"
        said = "rt ci, which counts must-fail edits that are bad"
        _, calls = self.fails(said, CI=f"echo '{ok}, 1 bad; every proof and must-fail edit was done in this run'; echo 12 passed, 0 failed")
        self.assertNotIn("python/test", calls)
        status, lines, _ = self.run_gate(CI=f"echo '{ok}; every proof and must-fail edit was done in this run'; echo 12 passed, 0 failed")
        self.assertEqual((status, lines[-1]), (0, "12 passed, 0 failed"))

    def test_rt_fails(self):
        lines, calls = self.fails("rt ci, with status 1", CI="echo rt: FAILED: record; echo 11 passed, 1 failed; exit 1")
        self.assertIn("rt ci: 11 passed, 1 failed", lines)
        self.assertNotIn("python/test", calls)
        self.fails("rt ci, with status 2", CI="echo no crates.txt >&2; exit 2")
        self.fails("rt ci, with status 1", CI="echo 12 passed, 0 failed; exit 1")
        self.fails("rt ci, with status 143", CI="kill -TERM $$")

    def test_rt_without_a_count(self):
        said = "rt ci, which did not end with a count of what passed"
        counts = "echo 12 passed, 0 failed; echo more", "echo 0 passed, 0 failed", "echo 12 passed, 1 failed", "echo all 12 passed, 0 failed"
        for ci in (":", "echo rt: ok", *counts):
            with self.subTest(ci=ci):
                lines, calls = self.fails(said, CI=ci)
                self.assertNotIn("python/test", calls)

    def test_python_fails(self):
        lines, _ = self.fails("the Python tests", PYTHON="echo FAILED '(failures=1)'; exit 1")
        self.assertIn("rt ci: 12 passed, 0 failed", lines)

    def test_reference_fails(self):
        lines, calls = self.fails("the tests of the reference", CARGO="echo one failed; exit 101")
        self.assertIn("rt ci: 12 passed, 0 failed", lines)
        self.assertIn("one failed", lines)
        self.assertIn("called python/test", calls)

    def test_cheap_checks_fail(self):
        _, calls = self.fails("what the documents cite (.ci/citations)", CITATIONS="exit 1")
        self.assertNotIn("rt ci", calls)

    def test_missing(self):
        for tool, wanted, kept in (
            ("cargo", ["NOT RUN: the tests of the reference, for want of cargo"], "called python/test"),
            ("gcc", ["NOT RUN: the Python tests and the vectors, for want of Python 3.9 or later or of gcc"], "called citations"),
            ("python3", ["NOT RUN: the check of what the documents cite, for want of Python 3.9 or later",
                         "NOT RUN: the Python tests and the vectors, for want of Python 3.9 or later or of gcc"], "called cargo"),
        ):
            with self.subTest(tool=tool):
                (self.bin / tool).rename(self.room / tool)
                status, lines, calls = self.run_gate()
                (self.room / tool).rename(self.bin / tool)
                self.assertEqual((status, lines[-1]), (0, "12 passed, 0 failed"))
                self.assertEqual([line for line in lines if "NOT RUN" in line], wanted)
                self.assertIn(kept, calls)
                self.assertIn("called rt ci", calls)

    def test_missing_and_failed(self):
        (self.bin / "cargo").unlink()
        lines, _ = self.fails("the Python tests", PYTHON="exit 1")
        self.assertIn("NOT RUN: the tests of the reference, for want of cargo", lines)

    def test_no_rt(self):
        (self.bin / "rt").unlink()
        self.fails("rt ci, with status 127")

    def test_output_as_it_comes(self):
        ci = "echo first; sleep 2; echo last, without a newline; printf '3 passed, 0 failed'"
        environment = {"PATH": str(self.bin), "CALLS": str(self.room / "calls"), "CI": ci}
        began = time.monotonic()
        with subprocess.Popen(["bash", self.room / "tree/.ci/run"], env=environment, stdout=subprocess.PIPE, text=True) as gate:
            for line in gate.stdout:
                if line == "first\n":
                    self.assertLess(time.monotonic() - began, 1.9)
            self.assertEqual(line, "3 passed, 0 failed\n")


if __name__ == "__main__":
    unittest.main()
