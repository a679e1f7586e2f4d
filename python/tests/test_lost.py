"""Nothing is lost: files are whole or as they were, and an archive and its names never part without a word."""

import concurrent.futures
import multiprocessing
import os
import pickle
import resource
import stat
import subprocess
import threading
import time
import unittest
from unittest import mock

import context
from spernevan import NotationError, Record, Refused, files, pack, parse_query
from test_command import FLIGHTS, Command, run

OLD = "flight(number, sonde)\n0: ans(old) :- flight(old, s)\n"
NEW = "sounding(a, b)\nburst(c, d)\n0: ans(new) :- sounding(new, s)\n1: ans(x) :- burst(x, 'y')\n"


def refuse(number):
    raise Refused(number)


def misread(text):
    return pack(text)


class Lost(Command):
    def setUp(self):
        super().setUp()
        self.file, self.names = self.folder / "a.file", self.folder / "a.names"
        self.old, self.new = self.write("old.text", OLD), self.write("new.text", NEW)
        self.done("pack", self.old, self.file)
        self.before = self.state()

    def state(self):
        return {path.name: path.read_bytes() for path in self.folder.iterdir() if path.is_file()}

    def unchanged(self):
        self.assertEqual(self.state(), self.before)


class Writing(Lost):
    def test_a_full_disk(self):
        def small():
            resource.setrlimit(resource.RLIMIT_FSIZE, (0, 0))

        for arguments in (
            ["pack", self.new, self.file],
            ["put", self.file, "1", "ans(x) :- flight(x, y)"],
            ["unpack", self.file, self.folder / "fresh.text"],
            ["reduce", self.file, "0", "-o", self.folder / "fresh.text"],
            ["list", self.file, "-o", self.folder / "fresh"],
        ):
            done = subprocess.run([*context.PROGRAM, *map(str, arguments)], capture_output=True, preexec_fn=small)
            self.assertEqual((done.returncode, done.stdout), (2, b""))
            self.assertEqual(done.stderr.decode(), f"spernevan: {arguments[-1] if arguments[0] != 'put' else self.file}: File too large\n")
            self.unchanged()

    def test_a_full_output(self):
        with open("/dev/full", "wb") as full:
            for arguments in (
                ["list", FLIGHTS],
                ["pack", self.old, "-"],
                ["evaluate", FLIGHTS, "5", str(context.SAMPLES / "flights.data")],
                ["--help"],
                ["--version"],
                ["list", "--help"],
            ):
                done = subprocess.run([*context.PROGRAM, *arguments], stdout=full, stderr=subprocess.PIPE)
                self.assertEqual((done.returncode, done.stderr), (2, b"spernevan: output: No space left on device\n"))

    def test_a_names_file_that_cannot_be_written(self):
        self.names.unlink()
        self.names.mkdir()
        before = self.file.read_bytes()
        self.failed(f"{self.names}: Is a directory", "pack", self.new, self.file)
        self.assertEqual(self.file.read_bytes(), before)
        self.assertEqual(sorted(path.name for path in self.folder.iterdir()), ["a.file", "a.names", "new.text", "old.text"])

    def test_a_file_that_may_not_be_written(self):
        with mock.patch.object(os, "access", lambda path, mode: not str(path).endswith("a.names")):
            self.failed(f"{self.names}: Permission denied", "pack", self.new, self.file)
        self.unchanged()

    def test_a_failure_between_the_two(self):
        real = os.replace
        for fails in (0, 1):
            calls = []

            def replace(old, new):
                calls.append(new)
                if len(calls) == fails + 1:
                    raise OSError(5, "Input/output error", new)
                real(old, new)

            for target in (self.file, self.folder / "fresh.file"):
                calls.clear()
                with mock.patch.object(files.os, "replace", replace):
                    status, _, err = run("pack", self.new, target)
                self.assertEqual(status, 2)
                self.assertIn("Input/output error", err)
                self.unchanged()

    def test_a_text_is_not_replaced(self):
        kept = "which an archive file does not replace: write elsewhere, or remove it first"
        for arguments in (["pack", self.old, self.new], ["pack", self.old, self.old]):
            self.failed(f"{arguments[-1]} is a text, {kept}", *arguments)
        self.failed(f"{self.old} is there already, and may have comments that would be lost", "drop", self.file, 0, "-o", self.old)
        self.failed(f"{self.old} is there already, and may have comments that would be lost", "unpack", self.file, self.old)
        self.failed(f"{self.file} is there already", "unpack", self.file, self.file)
        self.unchanged()
        self.failed(f"{self.folder}/n.names is where the names of {self.folder}/n.file go", "pack", self.write("n.names", OLD), self.folder / "n.file")
        with self.assertRaisesRegex(ValueError, kept):
            Record.read(self.file).write(self.new)
        fresh = self.folder / "fresh.text"
        self.done("unpack", self.file, fresh)
        self.assertEqual(pack(fresh.read_text())[0].file, self.file.read_bytes())

    def test_the_names_of_another_archive_are_not_replaced(self):
        self.done("put", self.file, 3, "ans(a) :- flight(a, 'Lindenberg')")
        self.before = self.state()
        other = self.folder / "a.other"
        for arguments in (["drop", self.file, 3, "-o", other], ["pack", self.new, other]):
            self.failed(f"{self.names} has the names of another archive file, which those of {other} would replace: ", *arguments)
        with self.assertRaisesRegex(ValueError, "the names of another archive file"):
            Record.read(self.file).write(other)
        self.unchanged()
        self.done("pack", self.new, self.file)
        self.file.write_bytes(pack(OLD)[0].file)
        self.failed(f"{self.names} has the names of another archive file", "pack", self.new, self.file)
        self.names.write_text("Ada, Grace\n")
        self.failed(f"{self.names} is no names file, or is cut short, and the names of {self.file} would replace it", "pack", self.new, self.file)
        self.names.unlink()
        self.done("pack", self.new, self.file)

    def test_an_archive_replaces_an_archive_only(self):
        other = self.write("a.db", b"SQLite format 3\0 and more")
        self.before = self.state()
        for arguments in (["pack", self.new, other], ["drop", self.file, 0, "-o", other]):
            self.failed(f"{other} is no archive file, and an archive file does not replace it: write elsewhere, or remove it first", *arguments)
        self.unchanged()

    def test_rights_and_links_stay(self):
        self.file.chmod(0o640)
        link = self.folder / "link.file"
        link.symlink_to("a.file")
        self.done("drop", self.file, 0)
        self.assertEqual(stat.S_IMODE(self.file.stat().st_mode), 0o640)
        self.done("pack", self.new, link)
        self.assertTrue(link.is_symlink())
        self.assertEqual(self.file.read_bytes(), pack(NEW)[0].file)
        out = self.folder / "new.file"
        before = os.umask(0o027)
        self.addCleanup(os.umask, before)
        self.done("pack", self.old, out)
        self.assertEqual(stat.S_IMODE(out.stat().st_mode), 0o640)

    def test_names_go_with_the_file_and_not_with_a_link(self):
        folder = self.folder / "links"
        folder.mkdir()
        link = folder / "link.file"
        link.symlink_to(self.file)
        self.done("put", link, 3, "ans(a) :- flight(a, 'Lindenberg')")
        self.assertIn("'Lindenberg'", self.done("list", self.file))
        self.assertEqual(self.done("unpack", self.file), self.done("unpack", link))
        self.assertEqual(Record.read(link).names, Record.read(self.file).names)
        self.assertEqual([path.name for path in folder.iterdir()], ["link.file"])
        # A link to an archive whose names are only beside the link.
        self.names.rename(folder / "link.names")
        self.done("drop", link, 0)
        self.assertIn("'Lindenberg'", self.done("list", link))
        self.assertFalse(self.names.exists())
        # One that leads nowhere yet.
        ahead = folder / "ahead.file"
        ahead.symlink_to(self.folder / "later.file")
        self.done("pack", self.old, ahead)
        self.done("list", self.folder / "later.file")
        self.assertTrue((self.folder / "later.names").exists())

    def test_devices_are_written_as_they_are(self):
        done = subprocess.run([*context.PROGRAM, "unpack", str(self.file), "/dev/stdout"], capture_output=True)
        self.assertEqual((done.returncode, done.stderr), (0, b""))
        self.assertIn(b"ans(old)", done.stdout)
        self.assertTrue(stat.S_ISCHR(os.stat("/dev/null").st_mode))


class Together(Lost):
    def test_two_writers_at_once(self):
        for _ in range(2):
            self.done("pack", self.old, self.file)
            rules = {place: f"ans(x{place}) :- flight(x{place}, 'y{place}')" for place in range(1, 6)}
            started = [subprocess.Popen([*context.PROGRAM, "put", self.file, str(place), rule], stdout=subprocess.DEVNULL) for place, rule in rules.items()]
            self.assertEqual([one.wait(60) for one in started], [0] * 5)
            text = self.done("unpack", self.file)
            for place, rule in rules.items():
                self.assertIn(f"{place}: {rule}\n", text)

    def test_a_change_waits_for_the_one_before(self):
        with files.locked(self.file):
            waiting = subprocess.Popen([*context.PROGRAM, "drop", self.file, "0"], stdout=subprocess.DEVNULL)
            self.assertRaises(subprocess.TimeoutExpired, waiting.wait, 1)
            self.done("list", self.file)
            self.unchanged()
        self.assertEqual(waiting.wait(60), 0)
        self.assertEqual(self.done("list", self.file), "Every place is vacant.\n")

    def test_who_reads_waits_for_one_who_writes(self):
        after = Record.read(self.file).put(3, "ans(a) :- flight(a, b)")
        other = self.folder / "b.file"
        after.write(other)
        found = []

        def read():
            found.append(Record.read(self.file))
            found.append(self.done("list", self.file))

        with files.locked(self.file):
            self.file.write_bytes(after.file)  # The names are still those of the archive before.
            reader = threading.Thread(target=read)
            reader.start()
            time.sleep(0.1)
            self.assertEqual(found, [])
            self.names.write_bytes((self.folder / "b.names").read_bytes())
        reader.join()
        self.assertEqual(found, [after, self.done("list", other)])

    def test_a_folder_that_cannot_be_locked(self):
        with mock.patch.object(files.fcntl, "flock", side_effect=OSError(38, "Function not implemented")):
            self.done("drop", self.file, 0)
        self.failed(f"{self.folder}/none/a.file: No such file", "pack", self.old, self.folder / "none" / "a.file")


class Parting(Lost):
    def test_an_archive_under_the_names_of_another(self):
        self.file.write_bytes(pack("kite(a, b)\n0: ans(x) :- kite(x, y)\n1: ans(x) :- kite(x, x)\n")[0].file)
        for arguments in (["list", self.file], ["put", self.file, 3, "ans(x) :- flight(x, y)"], ["unpack", self.file]):
            self.failed(f"{self.names}: these names were written for another state of {self.file}: ", *arguments)
        with self.assertRaisesRegex(files.Failure, "written for another state"):
            Record.read(self.file)
        self.done("list", "--plain", self.file)
        self.assertEqual(len(Record.read(self.file, names=False).filled()), 2)
        # A names file that a person wrote has no checksum, and is taken at its word.
        self.names.write_text("kite(a, b)\n")
        self.assertIn("kite(v0, v0)", self.done("list", self.file))

    def test_an_archive_whose_names_are_gone(self):
        self.done("put", self.file, 3, "ans(a) :- flight(a, 'Lindenberg')")
        self.names.unlink()
        status, out, err = run("show", self.file, 3)
        self.assertEqual((status, out.count("2000000000"), err.count("\n")), (0, 2, 1))
        self.assertIn(f"{self.file} has the constant 2000000000 and no names file, {self.names}, beside it", err)
        self.done("list", "--plain", self.file)

    def test_names_that_are_cut_short(self):
        self.done("put", self.file, 3, "ans(a) :- flight(a, 'Lindenberg'), flight(a, 12.55)")
        whole = self.names.read_bytes()
        archive = self.file.read_bytes()
        lines = whole.splitlines(keepends=True)
        self.assertEqual(lines[0].split()[-2:], [b"5", b"lines"])
        for length in range(len(whole)):
            self.names.write_bytes(whole[:length])
            for arguments in (["list", self.file], ["put", self.file, 4, "ans(x) :- flight(x, y)"]):
                status, out, err = run(*arguments)
                self.assertEqual((status, out, err.count("\n")), (2, "", 1), whole[:length])
                self.assertRegex(err, f"{self.names}:[0-9]+:[0-9]+: this names file is cut short: put back the whole one, or remove it and pack the text")
            self.assertRaises((files.Failure, NotationError), Record.read, self.file)
        # Names files with a checksum and without a count of lines.
        for kept in (lines[1:], lines[1:5]):
            self.names.write_bytes(lines[0].split(b",")[0] + b"\n" + b"".join(kept))
            if kept == lines[1:]:
                self.done("list", self.file)
            else:
                self.failed(f"{self.names}: these names are cut short: {self.file} has the constant 2000000001", "list", self.file)
        # Names that a person wrote, and an archive on standard input.
        self.names.write_bytes(b"".join(lines[1:4]))
        status, out, err = run("list", self.file)
        self.assertEqual((status, err.count("\n")), (0, 1))
        self.assertIn(f"{self.file} has the constant 2000000000 and {self.names} has no line for it", err)
        for plain, said in (([], 1), (["--plain"], 0)):
            done = subprocess.run([*context.PROGRAM, "unpack", *plain, "-"], input=archive, capture_output=True)
            self.assertEqual((done.returncode, done.stderr.count(b"\n")), (0, said))
            self.assertEqual(done.stderr.count(b"standard input has the constant 2000000000 and comes without its names"), said)
        self.assertEqual(self.file.read_bytes(), archive)

    def test_every_change_writes_both(self):
        for arguments in (
            ["put", self.file, 3, "ans(a, b) :- flight(a, b), flight(a, 'Lindenberg')"],
            ["add", self.file, "flight: number -> sonde"],
            ["reduce", self.file, 3, 5],
            ["drop", self.file, 0],
        ):
            self.done(*arguments)
            record = Record.read(self.file)
            self.assertEqual(record.names.tables[0].name, "flight")
        self.assertIn(
            "3: ans(a, b) :- flight(a, b), flight(a, 'Lindenberg')\n5: ans(a, 'Lindenberg') :- flight(a, 'Lindenberg')\n",
            self.done("unpack", self.file),
        )
        self.assertEqual(self.names.read_text().splitlines()[2:], ["3: a, b", "5: a", "2000000000 = 'Lindenberg'"])

    def test_from_python(self):
        record = Record.read(FLIGHTS)
        query = parse_query("ans(x) :- burst(x, y)", record.names)
        record = record.drop(1).put(1, query)
        record.write(self.file)
        self.assertIn("Place 1\n  Long form, 1 row:\n    ans(v0) :- burst(v0, _)\n", self.done("list", self.file))
        Record.read(self.file).drop(1).put(1, "ans(flight) :- burst(flight, 'x')").write(self.file)
        self.assertIn("1: ans(flight) :- burst(flight, 'x')\n", self.done("unpack", self.file))
        self.assertIn("0: ans(f, h) :-\n    flight(f, s, 7, t)", self.done("unpack", self.file))
        short = Record.read(self.file).reduce(0, 4).record
        short.write(self.file)
        self.assertIn("sonde(s, c, _),\n                 calibration(c, _, 2),\n                 burst(f, h)\n", self.done("show", self.file, 4))
        self.assertIn("sonde(s, c, m), calibration(c, l, 2), burst(f, h)\n", self.done("unpack", self.file))

    def test_a_dictionary_without_names(self):
        record = Record.open([2])
        record = record.put(0, parse_query("ans(x) :- R0(x, 'Lindenberg')", record.names)).drop(0)
        record = record.put(1, parse_query("ans(x) :- R0(x, 'Lindenberg')", record.names))
        self.assertIn("'Lindenberg'", str(record))

    def test_a_record_without_names_does_not_take_them_away(self):
        before = self.state()
        with self.assertRaisesRegex(ValueError, "a.names has the names of an archive, and this record has none: read it with Record.read"):
            Record(self.file.read_bytes()).drop(0).write(self.file)
        self.assertEqual(self.state(), before)
        fresh = self.folder / "fresh.file"
        Record(self.file.read_bytes()).write(fresh)
        self.assertFalse(fresh.with_suffix(".names").exists())
        Record.open([2]).put(0, "ans(x) :- R0(x, 'y')").write(fresh)
        self.assertIn("'y'", str(Record.read(fresh)))


class Processes(Lost):
    def test_errors_can_be_pickled(self):
        for error in (
            NotationError("a.text", 3, 4, "a comma is missing"),
            Refused(11),
            Refused(11, "place 4 is vacant"),
            files.Failure("x"),
        ):
            again = pickle.loads(pickle.dumps(error))
            self.assertEqual((type(again), str(again), vars(again)), (type(error), str(error), vars(error)))

    def test_a_process_pool(self):
        for method in ("fork", "spawn"):
            with concurrent.futures.ProcessPoolExecutor(1, multiprocessing.get_context(method)) as pool:
                with self.assertRaises(NotationError) as caught:
                    pool.submit(misread, "flight(a\n").result(timeout=60)
                self.assertEqual(caught.exception.line, 1)
                self.assertRaises(Refused, pool.submit(refuse, 7).result, timeout=60)
                self.assertEqual(pool.submit(misread, OLD).result(timeout=60), pack(OLD))

    def test_records(self):
        record = Record.read(self.file)
        again = pickle.loads(pickle.dumps(record))
        self.assertEqual((again, again.names), (record, record.names))
        self.assertEqual(hash(again), hash(record))
        self.assertNotEqual(record, record.drop(0))
        self.assertNotEqual(record, record.file)
        self.assertEqual(str(record), OLD.replace("\n0", "\n\n0").rstrip())
        page = Record.open([2]).put(0, "ans(x) :- R0(x, '<b>')")._repr_html_()
        self.assertIn("ans(x) :- R0(x, &#x27;&lt;b&gt;&#x27;)", page)
        self.assertEqual(page.count("<table>"), 2)


if __name__ == "__main__":
    unittest.main()
