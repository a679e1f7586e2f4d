"""The command as a program: started through a link, on a small stack, interrupted, with closed streams."""

import os
import pty
import resource
import shutil
import signal
import subprocess
import sys
import tempfile
import threading
import time
import unittest

import context
from spernevan import Record
from test_command import DATA, FLIGHTS, Command


class Started(Command):
    def interrupted_early(self, program):
        """An interrupt in the first hundredths of a second ends a program without a word."""
        for wait in range(0, 60, 4):
            running = subprocess.Popen([str(program), "list", FLIGHTS], stdout=subprocess.PIPE, stderr=subprocess.PIPE)
            time.sleep(wait / 1000)
            running.send_signal(signal.SIGINT)
            _, err = running.communicate(timeout=20)
            self.assertEqual(err, b"")
            self.assertIn(running.returncode, (-signal.SIGINT, 0))


class Program(Started):
    def slow(self):
        """An evaluation that takes far longer than a test."""
        text = self.folder / "slow.text"
        rows = ", ".join(
            f"edge(x{a}, x{b})" for a, b in [(0, 1), (1, 2), (2, 3), (3, 4), (4, 5), (5, 6), (6, 7), (0, 3), (1, 5), (2, 6), (4, 7), (0, 7)]
        )
        text.write_text(f"edge(a, b)\n0: ans(x0, x1, x2, x3, x4, x5, x6, x7) :- {rows}\n")
        data = self.folder / "slow.data"
        data.write_text("".join(f"edge({a}, {b})\n" for a in range(120) for b in range(120)))
        return [str(text), "0", str(data)]

    def test_only_what_needs_the_engine_builds_it(self):
        tree = self.folder / "tree"
        shutil.copytree(context.HERE.parent, tree / "python", ignore=shutil.ignore_patterns("__pycache__", "tests", "dist", "*.so"))
        shutil.copy(context.ROOT / "spernevan", tree)
        (tree / "python" / "build").write_text("#!/bin/sh\necho building\nexit 1\n")
        for arguments, status, out, err in (
            (["--version"], 0, b"spernevan 1", b""),
            (["--help"], 0, b"usage: ", b""),
            (["lst"], 2, b"", b"spernevan: argument COMMAND"),
            (["list", FLIGHTS], 2, b"", f"building\nspernevan: {tree}/python/build failed\n".encode()),
        ):
            done = subprocess.run([str(tree / "spernevan"), *arguments], capture_output=True)
            self.assertEqual(done.returncode, status)
            self.assertTrue(done.stdout.startswith(out) and done.stderr.startswith(err) and bool(done.stderr) == bool(err), done)

    def test_nothing_of_the_network_is_loaded(self):
        """The start would take a quarter longer."""
        asked = "import sys, spernevan.command; print(sorted({'ssl', 'socket', 'http.client', 'email'} & set(sys.modules)))"
        done = subprocess.run([sys.executable, "-c", asked], cwd=context.HERE.parent, capture_output=True, text=True)
        self.assertEqual(done.stdout, "[]\n", done.stderr)

    def test_through_a_link(self):
        link = self.folder / "linked"
        link.symlink_to(context.ROOT / "spernevan")
        for program in (link, context.ROOT / "spernevan"):
            done = subprocess.run([str(program), "list", FLIGHTS], capture_output=True, cwd=self.folder)
            self.assertEqual((done.returncode, done.stderr), (0, b""))
            self.assertIn(b"Place 0", done.stdout)

    def test_a_small_stack(self):
        def small():
            resource.setrlimit(resource.RLIMIT_STACK, (512 * 1024, 512 * 1024))

        data = self.folder / "many.data"
        data.write_text("".join(f"burst({n}, {n})\n" for n in range(20000)))
        for arguments in (
            ["evaluate", FLIGHTS, "5", DATA],
            ["evaluate", FLIGHTS, "1", str(data)],
            ["test", FLIGHTS, str(data)],
            ["list", FLIGHTS],
        ):
            done = subprocess.run([*context.PROGRAM, *arguments], capture_output=True, preexec_fn=small)
            self.assertEqual((done.returncode, done.stderr), (0, b""))

    def test_little_memory(self):
        """Where the machine gives less than is asked for, all is answered with that."""

        def little():
            resource.setrlimit(resource.RLIMIT_AS, (400 * 2**20, 400 * 2**20))

        data = self.folder / "many.data"
        data.write_text("".join(f"burst({n}, {n})\n" for n in range(3000)))
        for arguments, out in (
            (["evaluate", FLIGHTS, "1", str(data), "--count"], b"3000\n"),
            (["evaluate", FLIGHTS, "ans() :- burst(x, _), burst(x, x), burst(y, _), burst(_, y)", str(data)], b"ans()\n# 1 answer\n"),
            (["test", FLIGHTS, str(data)], b""),
        ):
            done = subprocess.run([*context.PROGRAM, *arguments], capture_output=True, preexec_fn=little)
            self.assertEqual((done.returncode, done.stderr, done.stdout.endswith(out)), (0, b"", True), done.stdout[-99:])

    def test_a_thread_with_a_small_stack(self):
        record = Record.read(FLIGHTS)
        found = []
        before = threading.stack_size(256 * 1024)
        try:
            threads = [
                threading.Thread(target=lambda: found.append(record.evaluate(1, [(4, (n, n)) for n in range(9000)]))) for _ in range(3)
            ]
            for thread in threads:
                thread.start()
        finally:
            threading.stack_size(before)
        for thread in threads:
            thread.join()
        self.assertEqual([len(answers) for answers in found], [9000] * 3)

    def test_an_interrupt_ends_the_command_at_once(self):
        running = subprocess.Popen([*context.PROGRAM, "evaluate", *self.slow()], stdout=subprocess.PIPE, stderr=subprocess.PIPE)
        time.sleep(1.5)
        self.assertIsNone(running.poll())
        running.send_signal(signal.SIGINT)
        out, err = running.communicate(timeout=20)
        self.assertEqual((running.returncode, out, err), (-signal.SIGINT, b"", b""))

    def test_an_interrupt_while_python_starts(self):
        if subprocess.run(["env", "--block-signal=INT", "true"], capture_output=True).returncode != 0:
            self.skipTest("env does not know --block-signal")
        self.interrupted_early(context.ROOT / "spernevan")

    def test_nothing_is_read_before_an_interrupt_ends_the_command(self):
        done = subprocess.run([sys.executable, "-X", "importtime", *context.PROGRAM[1:], "--version"], capture_output=True, text=True)
        self.assertIn("spernevan.command", done.stderr)
        alone = [line.split("| ")[-1] for line in done.stderr.splitlines()]
        self.assertNotIn("signal", alone)

    def test_an_interrupt_in_python(self):
        """Waiting for the engine ends with KeyboardInterrupt, and the next call works."""
        code = (
            "import os, signal, sys, threading, time\n"
            f"sys.path.insert(0, {str(context.HERE.parent)!r})\n"
            "from spernevan import pack, read_database\n"
            "record, names = pack(open(sys.argv[1]).read())\n"
            "data = read_database([sys.argv[3]], names)\n"
            "threading.Timer(1, os.kill, (os.getpid(), signal.SIGINT)).start()\n"
            "start = time.monotonic()\n"
            "try:\n    record.evaluate(0, data)\n"
            "except KeyboardInterrupt:\n    print(time.monotonic() - start < 15, len(record.filled()), record.test(data))\n"
        )
        done = subprocess.run([sys.executable, "-c", code, *self.slow()], capture_output=True, timeout=60)
        self.assertEqual((done.stdout, done.stderr), (b"True 1 None\n", b""))

    def test_closed_streams(self):
        for closing, status in (("<&-", 0), (">&-", 2), ("2>&-", 0), (">&- 2>&-", 2)):
            done = subprocess.run(["sh", "-c", f'"$@" {closing}', "sh", *context.PROGRAM, "list", FLIGHTS], capture_output=True)
            self.assertEqual((done.returncode, b"Traceback" in done.stderr), (status, False), closing)
        done = subprocess.run(["sh", "-c", '"$@" <&-', "sh", *context.PROGRAM, "list", "-"], capture_output=True)
        self.assertEqual((done.returncode, done.stderr), (2, b"spernevan: standard input is closed\n"))

    def test_a_reader_that_leaves(self):
        running = subprocess.Popen([*context.PROGRAM, "list", FLIGHTS], stdout=subprocess.PIPE, stderr=subprocess.PIPE)
        running.stdout.close()
        self.assertEqual((running.stderr.read(), running.wait()), (b"", 128 + signal.SIGPIPE))
        running.stderr.close()

    def test_progress_on_a_terminal(self):
        """It is shown on a terminal once the work takes long, and never elsewhere."""
        cells = self.folder / "burst.csv"
        cells.write_text("flight,height\n" + "".join(f"{n},{n}\n" for n in range(120_000)))
        ours, theirs = pty.openpty()
        code = (
            f"import sys; sys.path.insert(0, {str(context.HERE.parent)!r}); import spernevan.data as d; real = d.time.monotonic; "
            "d.time.monotonic = lambda: real() * 1000; from spernevan.command import main; sys.exit(main(sys.argv[1:]))"
        )
        text = self.folder / "a.text"
        text.write_text("burst(flight, height)\n")
        arguments = [sys.executable, "-c", code, "test", str(text), str(cells)]
        done = subprocess.run(arguments, stdout=subprocess.PIPE, stderr=theirs)
        os.close(theirs)
        shown = os.read(ours, 65536)
        os.close(ours)
        self.assertEqual((done.returncode, done.stdout), (0, b"Obeys: 120000 rows, 0 dependencies\n"))
        self.assertIn(b"000 rows\x1b[K", shown)
        self.assertTrue(shown.endswith(b"\r\x1b[K"))
        self.assertEqual(subprocess.run(arguments, capture_output=True).stderr, b"")


def other_python():
    """The oldest Python, from 3.9 on, that this machine has beside the one that runs, and its environment; None if there is no other."""
    for minor in range(9, 30):
        name, environment = f"python3.{minor}", {**os.environ, "PYENV_VERSION": f"3.{minor}"}  # A version manager has the others by this alone.
        if minor == sys.version_info.minor or shutil.which(name) is None:
            continue
        if subprocess.run([name, "-c", "import ctypes, sqlite3"], env=environment, capture_output=True).returncode == 0:
            return name, environment
    return None


class OtherPython(unittest.TestCase):
    def test_answers(self):
        found = other_python()
        if found is None:
            self.skipTest("there is no other Python")
        name, environment = found
        command = [name, "-m", "unittest", "discover", "-s", str(context.HERE), "-p", "test_data.py", "-k", "FromPython"]
        done = subprocess.run(command, env=environment, capture_output=True, text=True)
        self.assertEqual(done.returncode, 0, done.stderr)


class Install(Started):
    """The wheel, and then the folder in its stead, in a fresh environment without this folder."""

    def pip(self, *arguments):
        quiet = {**os.environ, "PIP_DISABLE_PIP_VERSION_CHECK": "1", "PIP_ROOT_USER_ACTION": "ignore"}
        environment = self.folder / "venv" / "bin" / "python"
        return subprocess.run([sys.executable, "-m", "pip", "--python", str(environment), *arguments], capture_output=True, text=True, env=quiet)

    def tried(self, what):
        done = self.pip("install", "--quiet", "--no-index", "--force-reinstall", str(what))
        self.assertEqual(done.returncode, 0, done.stdout + done.stderr)
        program = self.folder / "venv" / "bin" / "spernevan"
        bare = {"PATH": "/nowhere"}
        done = subprocess.run([program, "evaluate", "flights.file", "5", "flights.data"], capture_output=True, cwd=self.folder, env=bare)
        self.assertEqual((done.returncode, done.stdout, done.stderr), (0, b"ans(101, 31200)\nans(102, 29850)\n# 2 answers\n", b""))
        code = "import spernevan; print(spernevan.__file__, spernevan.__version__)"
        done = subprocess.run(
            [self.folder / "venv" / "bin" / "python", "-c", code], capture_output=True, text=True, cwd=self.folder, env=bare, check=True
        )
        self.assertTrue(done.stdout.startswith(str(self.folder / "venv")))
        link = self.folder / "link"
        if not link.exists():
            link.symlink_to(program)
            self.assertEqual(subprocess.run([link, "--version"], capture_output=True, env=bare).returncode, 0)
            self.assertEqual(subprocess.run(["/bin/sh", "spernevan", "--version"], capture_output=True, env=bare, cwd=program.parent).returncode, 0)
            if subprocess.run(["env", "--block-signal=INT", "true"], capture_output=True).returncode == 0:
                self.interrupted_early(program)

    def environment(self):
        """Makes a fresh environment, with an archive and its data beside it."""
        subprocess.run([sys.executable, "-m", "venv", "--without-pip", str(self.folder / "venv")], check=True)
        if self.pip("--version").returncode != 0:
            self.skipTest("pip is not here, or does not know --python")
        for name in ("flights.file", "flights.names", "flights.data"):
            shutil.copy(context.SAMPLES / name, self.folder)

    @unittest.skipUnless(context.LONG and shutil.which("rt"), "takes a minute and the Rattle toolchain; SPERNEVAN_TEST_LONG=1 runs it")
    def test_the_engine_is_built_on_the_way(self):
        self.environment()
        copy = self.folder / "tree"
        shutil.copytree(context.ROOT, copy, ignore=shutil.ignore_patterns(".git", "__pycache__", "dist", "*.so", "staticlib"))
        self.assertFalse((copy / "python" / "spernevan" / "libspernevan.so").exists())
        self.tried(copy / "python")

    def test_the_wheel_and_the_folder(self):
        self.environment()
        made = subprocess.run([str(context.HERE.parent / "wheel"), str(self.folder / "dist")], check=True, capture_output=True, text=True)
        path = made.stdout.strip()
        self.assertTrue(path.endswith("-py3-none-linux_x86_64.whl"))
        self.tried(path)
        copy = self.folder / "python"
        shutil.copytree(context.HERE.parent, copy, ignore=shutil.ignore_patterns("__pycache__", "tests", "dist"))
        # so that it is seen that what is tried comes from the folder
        shutil.rmtree(self.folder / "dist")
        self.tried(copy)


class Types(unittest.TestCase):
    @unittest.skipUnless(shutil.which("mypy"), "mypy is not installed")
    def test_strict(self):
        with tempfile.TemporaryDirectory() as cache:
            done = subprocess.run(
                ["mypy", "--strict", "--cache-dir", cache, "spernevan", "backend.py"],
                cwd=context.HERE.parent,
                capture_output=True,
                text=True,
            )
        self.assertEqual((done.returncode, done.stderr), (0, ""), done.stdout)


if __name__ == "__main__":
    unittest.main()
