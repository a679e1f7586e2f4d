"""What the README prints is what is printed."""

import contextlib
import io
import os
import re
import shlex
import shutil
import tempfile
import textwrap
import unittest

import context
from spernevan.command import main, usage

README = (context.HERE.parent / "README.md").read_text()


@context.with_engine
class Readme(unittest.TestCase):
    def setUp(self):
        folder = tempfile.TemporaryDirectory()
        self.addCleanup(folder.cleanup)
        self.addCleanup(os.chdir, os.getcwd())
        os.chdir(folder.name)
        shutil.copytree(context.SAMPLES, "samples")

    def test_commands(self):
        """Each command line between backquotes that is followed by its output; of `list`, the beginning of it."""
        shown = re.findall(r"`\./spernevan ([^`]+)`[^`\n]*:\n\n((?:    .*\n)+)", README)
        commands = ["list", "compare", "evaluate", "evaluate", "show", "determined", "test", "compare", "test"]
        commands += ["equivalent", "evaluate", "show", "define", "define"]
        self.assertEqual([line.split()[0] for line, _ in shown], commands)
        for line, wanted in shown:
            command = shlex.split(line)
            out = io.StringIO()
            with contextlib.redirect_stdout(out):
                self.assertEqual(main(command), int(command[0] in ("compare", "test")))
            printed = textwrap.indent(out.getvalue(), "    ")
            self.assertTrue(printed.startswith(wanted) if command[0] == "list" else printed == wanted, line)

    def test_every_command_is_there(self):
        commands = next(action for action in usage()._actions if action.choices).choices
        self.assertEqual(re.findall(r"^\| `(\w+) (?:FILE|TEXT)", README, re.MULTILINE), list(commands))

    def test_every_module_is_there(self):
        modules = {path.stem for path in (context.HERE.parent / "spernevan").glob("[a-z]*.py")}
        self.assertEqual(set(re.findall(r"^\| `(\w+)` \|", README, re.MULTILINE)), modules)

    def test_python(self):
        block = re.search(r"## From Python\n\n(.*?)\n\n`Record`", README, re.DOTALL).group(1)
        out = io.StringIO()
        with contextlib.redirect_stdout(out):
            exec(textwrap.dedent(block), {})
        wanted = re.findall(r"print\(.*\)\s+# (.*)", block)
        self.assertEqual(out.getvalue().splitlines(), wanted)


if __name__ == "__main__":
    unittest.main()
