"""The command: what it prints for the sample, its messages and its status."""

import contextlib
import io
import json
import os
import subprocess
import sys
import tempfile
import unittest
from pathlib import Path
from unittest import mock

import context
from spernevan import Failure, Record, parse_query, read_names
from spernevan.command import main
from spernevan.files import names_path

FLIGHTS = str(context.SAMPLES / "flights.file")
DATA = str(context.SAMPLES / "flights.data")
EXAMPLE = str(context.SAMPLES / "example.file")


def run(*arguments):
    """Status, output and messages of the command."""
    out, err = io.StringIO(), io.StringIO()
    with contextlib.redirect_stdout(out), contextlib.redirect_stderr(err):
        try:
            status = main([str(argument) for argument in arguments])
        except SystemExit as end:
            status = end.code
    return status, out.getvalue(), err.getvalue()


@context.with_engine
class Command(unittest.TestCase):
    def setUp(self):
        folder = tempfile.TemporaryDirectory()
        self.addCleanup(folder.cleanup)
        self.folder = Path(folder.name)

    def write(self, name, text):
        path = self.folder / name
        path.write_bytes(text if isinstance(text, bytes) else text.encode())
        return str(path)

    def done(self, *arguments, status=0):
        """The output of a command that has nothing to complain of: it is done, or its answer is no (status 1)."""
        found, out, err = run(*arguments)
        self.assertEqual((found, err), (status, ""))
        return out

    def failed(self, message, *arguments):
        status, out, err = run(*arguments)
        self.assertEqual((status, out), (2, ""), err)
        self.assertEqual(err.count("\n"), 1)
        self.assertTrue(err.startswith(f"spernevan: {message}"), err)


class Sample(Command):
    def test_list_example(self):
        self.assertEqual(
            self.done("list", EXAMPLE),
            "Place 0\n"
            "  Long form, 2 rows:\n"
            "    ans(v0, v1, v2) :- R0(v0, v1, v2),\n"
            "                       R0(v0, 7, _)\n"
            "  Short form, 1 row:\n"
            "    ans(v0, 7, v2) :- R0(v0, 7, v2)\n"
            "  Mapping from the long form to the short:\n"
            "    v0 -> v0, v1 -> 7, v2 -> v2\n"
            "    row 1 -> row 1, row 2 -> row 1\n"
            "  Replaced by the dependencies: 1 variable\n",
        )

    def test_list_flights(self):
        record = Record.read(FLIGHTS)
        names = read_names(Path(names_path(FLIGHTS)).read_text(), "names")
        found = json.loads(self.done("list", "--json", FLIGHTS))
        facts = [(f["place"], len(f["long"]["rows"]), len(f["short"]["rows"]), f["replaced"]) for f in found]
        self.assertEqual(facts, [(0, 7, 4, 6), (1, 2, 1, 1), (2, 6, 3, 7), (3, 2, 0, 1), (5, 2, 2, 0), (6, 3, 2, 0)])
        self.assertEqual(found[1]["short"]["rule"], "ans(f, low, low) :- burst(f, low)")
        self.assertEqual(found[1]["mapping"], {"f": "f", "low": "low", "high": "low"})
        self.assertEqual(found[1]["short"]["rows"], [{"table": "burst", "entries": ["f", "low"]}])
        self.assertEqual((found[3]["short"]["never"], found[3]["mapping"]), (True, None))
        self.assertEqual(found[0]["mapping"]["p"], 7)
        text = self.done("list", FLIGHTS)
        for one in found:
            # The forms that are printed are the saved query and one that is equal to it.
            alone = record.alone(one["place"])
            self.assertIn(one["long"]["rule"].split(" :- ")[0], text)
            long = parse_query(one["long"]["rule"], names)
            short = parse_query(one["short"]["rule"], names)
            other = 7 - one["place"]
            both = alone.drop(one["place"]).put(one["place"], long).put(other, short)
            self.assertTrue(both.compare(one["place"], other).contained)
            self.assertTrue(both.compare(other, one["place"]).contained)
        self.assertIn("  Short form, 0 rows:\n    ans(_) :- never\n  Replaced by the dependencies: 1 variable\n", text)
        self.assertLess(max(map(len, text.splitlines())), 80)
        self.assertIn("ans(v0, v1, v1) :- R4(v0, v1)", self.done("list", "--plain", FLIGHTS))

    def test_list_and_define_write_variables_alike(self):
        for arguments in (["list", FLIGHTS], ["show", FLIGHTS, *range(4), 5, 6], ["list", "--plain", EXAMPLE]):
            text = self.done(*arguments)
            plain = ["--plain"] if "--plain" in arguments else []
            for place in ([0] if plain else [0, 1, 2, 3, 5, 6]):
                defined = self.done("define", arguments[-1] if plain else FLIGHTS, place, *plain)
                self.assertIn(f"Place {place}\n" + defined[defined.index("  Long form") :], text)
            self.assertNotIn("v3", text)

    def test_list_nothing(self):
        path = self.folder / "empty.file"
        Record.open([1]).write(path)
        self.assertEqual(self.done("list", path), "Every place is vacant.\n")
        self.assertEqual(json.loads(self.done("list", "--json", path)), [])

    def test_compare(self):
        self.assertEqual(
            self.done("compare", FLIGHTS, 0, 5),
            "Contained: on every database that obeys the dependencies,\n"
            "each answer of place 0 is an answer of place 5.\n"
            "Mapping from place 5 to place 0 with the dependencies applied:\n"
            "    f -> f, h -> h, v2 -> s, v3 -> t\n",
        )
        self.assertEqual(
            self.done("compare", FLIGHTS, 5, 0, status=1),
            "Not contained. This database obeys the dependencies:\n"
            "  flight\n"
            "    number  sonde  site  launch\n"
            "         f     v2     7      v3\n"
            "  burst\n"
            "    flight  height\n"
            "         f       h\n"
            "There ans(f, h) is an answer of place 5 and not of place 0.\n"
            "A name stands for a value of its own, unlike every other value here and in the archive.\n",
        )
        self.assertIn("The dependencies leave place 3 without an answer.", self.done("compare", FLIGHTS, 3, 3))
        found = json.loads(self.done("compare", "--json", FLIGHTS, 5, 0, status=1))
        self.assertEqual((found["contained"], found["mapping"]), (False, None))
        self.assertEqual(found["counterexample"]["answer"], [2147483648, 2147483649])
        self.assertEqual(found["counterexample"]["rows"][1], {"table": "burst", "values": [2147483648, 2147483649]})
        self.assertEqual(found["counterexample"]["variables"], {"f": 2147483648, "h": 2147483649, "v2": 2147483650, "v3": 2147483651})
        text = self.done("compare", FLIGHTS, "ans(x, 'y') :- burst(x, 'y')", "ans(x, 7) :- burst(x, 'y')", status=1)
        self.assertIn("There ans(x, 'y') is an answer of the first rule", text)
        found = json.loads(self.done("compare", "--json", FLIGHTS, 0, 5))
        self.assertEqual((found["contained"], found["counterexample"]), (True, None))
        self.assertEqual(found["mapping"], {"f": "f", "h": "h", "v2": "s", "v3": "t"})

    def test_evaluate(self):
        self.assertEqual(self.done("evaluate", FLIGHTS, 0, DATA), "ans(101, 31200)\n# 1 answer\n")
        self.assertEqual(self.done("evaluate", FLIGHTS, 5, DATA), "ans(101, 31200)\nans(102, 29850)\n# 2 answers\n")
        self.assertEqual(self.done("evaluate", FLIGHTS, 6, DATA), "# 0 answers\n")
        layer = self.write("layer.data", "layer(1, 2, 3, 4)\nburst(1, 3)\n")
        self.assertEqual(self.done("evaluate", FLIGHTS, 6, layer), "ans()\n# 1 answer\n")
        for place, number in ((0, 1), (5, 2), (6, 0)):
            self.assertEqual(self.done("evaluate", FLIGHTS, place, DATA, "--count"), f"{number}\n")

    def test_test(self):
        self.assertEqual(self.done("test", FLIGHTS, DATA), "Obeys: 13 rows, 10 dependencies\n")
        data = self.write("bad.data", "burst(1, 3)\n\n# again\nburst(2, 3)\nburst(1, 4)\n")
        self.assertEqual(
            self.done("test", FLIGHTS, data, status=1),
            "Breaks burst: flight -> height (dependency 9):\n"
            f"  {data}:1: burst(1, 3)\n"
            f"  {data}:5: burst(1, 4)\n",
        )

    def test_determined(self):
        self.assertEqual(
            self.done("determined", FLIGHTS, "layer", "level", "flight", "flight"),
            "layer: flight, level determines flight, level, height, temperature (4 of 4 columns)\n",
        )
        self.assertEqual(
            self.done("determined", "--plain", FLIGHTS, "R3", "b"), "R3: b determines b (1 of 4 columns)\n"
        )

    def test_pack_and_unpack(self):
        text = self.write("a.text", self.done("unpack", FLIGHTS))
        out = self.folder / "a.file"
        names = self.folder / "a.names"
        self.assertEqual(self.done("pack", text, out), f"{out}: 510 bytes; names in {names}\n")
        self.assertEqual(out.read_bytes(), Path(FLIGHTS).read_bytes())
        self.assertEqual(names.read_text(), Path(names_path(FLIGHTS)).read_text())
        self.assertEqual(self.done("unpack", out), Path(text).read_text())
        plain = self.write("b.text", self.done("unpack", "--plain", EXAMPLE))
        self.done("pack", plain, self.folder / "b.file")
        self.assertEqual((self.folder / "b.file").read_bytes(), Path(EXAMPLE).read_bytes())

    def test_names_of_another_file(self):
        names = self.write("other.names", "sounding(a, b, c)\n")
        self.assertIn("sounding(v0, 7, v2)", self.done("list", "--names", names, EXAMPLE))


class Messages(Command):
    def test_archive_files(self):
        self.failed("nowhere.file: No such file", "list", "nowhere.file")
        self.failed(f"{self.folder}: Is a directory", "list", self.folder)
        thirteen = Path(EXAMPLE).read_bytes().replace(b"\3\2", b"\3\15")
        for meaning, data in [
            ("is empty: neither an archive file nor the text of one", b""),
            ("is no archive file, and no text: the parts of the file do not follow", b"\2\0\1\0\1\0\2\0\1\0"),
            ("is no archive file, and no text: a query is wrong: at most 8 entries in the head, 12 rows", thirteen),
            ("is no archive file, and no text: the file does not begin as an archive file does", b"\x89PNG\r\n\x1a\n\0\0"),
        ]:
            bad = self.write("bad.file", data)
            for command in (["list", bad], ["unpack", bad], ["compare", bad, 0, 0], ["test", bad, DATA], ["put", bad, 0, "ans() :- never"]):
                self.failed(f"{bad} {meaning}", *command)
        self.failed("/dev/zero is no archive file", "list", "/dev/zero")

    def test_another_kind_of_file(self):
        """What is given in place of an archive, of a text or of data is called by its name, with the cure."""
        data, pack = "test and evaluate take it as data, after the archive", "pack makes an archive file from a text"
        names = context.SAMPLES / "flights.names"
        for file, kind, cure in (
            (names, "a names file", "give the archive file beside it, whose names these are"),
            (self.write("a.db", b"SQLite format 3\0\x10\0"), "an SQLite file", data),
            (self.write("flight.csv", "number,site\n"), "a CSV file", data),
            ("/bin/sh", "a program", pack),
            (self.write("a.html", b"<!DOCTYPE html>\n<title>"), "an HTML page", pack),
            (self.write("a.tex", b"\\documentclass{article}\n"), "LaTeX", pack),
            (self.write("a.xlsx", b"PK\x03\x04\x14\0"), "a ZIP file, as those of Excel are", f"{pack}, and data is saved as CSV"),
        ):
            for command in (["list", file], ["evaluate", file, 0, DATA], ["drop", file, 0]):
                self.failed(f"{file} is {kind}, where an archive file or the text of one was expected; {cure}\n", *command)
            with self.assertRaisesRegex(Failure, f"is {kind}, where an archive file or the text of one was expected; {cure}"):
                Record.read(file)
            if kind != "a CSV file":
                text = f"{file} is {kind}, where the text of an archive was expected, as samples/flights.text is one\n"
                self.failed(text, "pack", file, self.folder / "x.file")
            if kind not in ("a CSV file", "a names file"):
                self.failed(f"{file} is {kind}, where a names file was expected; --names NAMES takes another", "list", FLIGHTS, "--names", file)
            if kind not in ("a CSV file", "an SQLite file"):
                self.failed(f"{file}: this is {kind}; a database is rows of text, a CSV file or", "test", FLIGHTS, file)
        self.failed(f"{FLIGHTS}: this is an archive file; a database is rows of text", "test", FLIGHTS, FLIGHTS)
        noise = self.write("noise", bytes(range(254, -1, -1)))
        self.failed(f"{noise} is no text, where the text of an archive was expected", "pack", noise, self.folder / "x.file")
        self.failed(f"{names} has the names", "pack", context.SAMPLES / "flights.text", context.SAMPLES / "flights.other")

    def test_places(self):
        self.failed(f"{FLIGHTS}: there is no place 8: places go from 0 to 7", "compare", FLIGHTS, 0, 8)
        self.failed(f"{FLIGHTS}: there is no place 9: ", "compare", FLIGHTS, 9, 0)
        different = "the first query shows 2 columns and the second 1: only heads of one length can be compared"
        self.failed(f"{FLIGHTS}: {different}", "compare", FLIGHTS, 0, 3)
        self.failed(f"{FLIGHTS}: {different}", "equivalent", FLIGHTS, 0, "ans(x) :- burst(x, y)")
        self.failed(f"{FLIGHTS}: place 4 is vacant; filled: 0, 1, 2, 3, 5, 6", "evaluate", FLIGHTS, 4, DATA)
        for asked in ((4, 0), (0, 4), (4, 7), (4, "ans(x) :- burst(x, y)")):
            self.failed(f"{FLIGHTS}: place 4 is vacant; filled: 0, 1, 2, 3, 5, 6", "compare", FLIGHTS, *asked)
        self.failed(f"{FLIGHTS}: there is no place 99999999999999999999: ", "evaluate", FLIGHTS, "9" * 5000, DATA)
        self.assertEqual(run("evaluate", FLIGHTS, "0" * 5000 + "5", DATA)[0], 0)

    def test_texts(self):
        out = self.folder / "x.file"
        for text, message in [
            ("flight(a)\n0: ans(x) :- flight(y)\n", "2:8: x is in no row"),
            (b"flight(a)\n# \xff\n", "2:3: this byte is not UTF-8 text"),
            ("flight(a)\r\n0: ans(x) :- sonde(y)\r\n", "2:14: there is no table sonde; there is flight"),
            ("", "1:1: a text has at least one table"),
            (b"flight(a)\n\0", "2:1: '\\x00' has no meaning here; is this a text at all?"),
            ("flight(a, b)\n0: ans(x) :- flight(x, y)\n   flight(x, z)\n", "3:4: there is a table flight already; where a rule goes on, the line before it ends with a comma"),
            ("flight(a, b)\n0: ans(x) :- flight(x, y) flight(x, z)\n", "2:27: a comma is missing before flight"),
            ("flight(a, b)\n0: ans(x) :- flight(x y)\n", "2:23: a comma is missing before y"),
            ("flight(a 'b')\n", "1:10: a comma is missing before 'b'"),
            ("flight('a', b)\n", "1:8: the name of a column was expected, not the text 'a'; quotes are for values"),
            ("flight(a)\n0.5: ans() :- never\n", "2:1: a line such as flight(number, sonde), flight: number -> sonde or 0: ans(f) :- .. was expe"),
            ("flight(a)\n0: ans() :- flight('Lindenberg)\n", "2:20: the quote ' that begins here does not end on this line"),
            ("flight(a)\n0: ans() :- flight(.5)\n", "2:20: '.' has no meaning here; a decimal has digits before and after its point"),
            ("flight(a)\n0: ans() :- flight(2026-02-30)\n", "2:20: there is no day 2026-02-30"),
            ("flight(a*, b, c, d, e, f, g, h)\n" + "flight: a -> b, c\n" * 13, "14:1: an archive has 32 functional dependencies at most, and these make 33; each"),
        ]:
            path = self.write("x.text", text)
            self.failed(f"{path}:{message}", "pack", path, out)
            self.assertFalse(out.exists())
        for encoding, place in (("latin-1", "2:15"), ("utf-16", "1:1")):
            path = self.write("x.text", "flight(a)\n0: ans() :- 'Höhe'\n".encode(encoding))
            for command in (["pack", path, out], ["list", path], ["drop", path, 0]):
                self.failed(f"{path}:{place}: this byte is not UTF-8 text; save the file in UTF-8", *command)
            with self.assertRaisesRegex(Failure, "not UTF-8 text"):
                Record.read(path)
        self.failed("nowhere.text: No such file", "pack", "nowhere.text", out)
        good = self.write("good.text", "\ufeffflight(a)\n")
        self.failed(f"{self.folder}/none/x.file: No such file", "pack", good, self.folder / "none" / "x.file")
        self.failed(f"{good} is a text, which an archive file does not replace", "pack", good, good)
        self.failed(f"{self.folder}/x.names is a name for a names file", "pack", good, self.folder / "x.names")
        self.assertEqual(Path(good).read_text(), "\ufeffflight(a)\n")
        self.done("pack", good, out)

    def test_data(self):
        for text, message in [
            ("burst(1)\n", "1:1: burst(flight, height) has 2 columns, not 1"),
            ("burst(1, 2)\nburst(1, - 2)\n", "2:10: '-' has no meaning here"),
            ("burst(1, high)", "1:10: a value was expected, not 'high'; a text stands between quotes"),
            ("burst(1, 2) burst(1, 2)", "1:13: the end of the line was expected, not 'burst'"),
            ("burst(1 2)", "1:9: a comma is missing before 2"),
            ("\nkite(1)", "2:1: there is no table kite; there is flight, sonde"),
        ]:
            path = self.write("x.data", text)
            self.failed(f"{path}:{message}", "evaluate", FLIGHTS, 0, path)
            self.failed(f"{path}:{message}", "test", FLIGHTS, path)
        self.failed("nowhere.data: No such file", "test", FLIGHTS, "nowhere.data")

    def test_names(self):
        short = self.write("x.names", "flight(a)\n")
        self.failed(f"{short}: there are names for 1 table, the record has 5", "list", "--names", short, FLIGHTS)
        path = self.write("e.file", Path(EXAMPLE).read_bytes())
        self.write("e.names", "sonde(a, b)\n")
        self.failed(f"{self.folder}/e.names: sonde(a, b) has names for 2 columns", "list", path)
        self.write("e.names", "sonde(a, b, b)\n")
        self.failed(f"{self.folder}/e.names:1:13: sonde has a column b already", "unpack", path)
        self.done("unpack", "--plain", path)
        self.failed("nowhere: No such file", "list", "--names", "nowhere", FLIGHTS)
        self.failed("there is no table kite; there is flight,", "determined", FLIGHTS, "kite", "a")
        self.failed("burst(flight, height) has no column a", "determined", FLIGHTS, "burst", "a")
        self.failed("one name was expected, not 'x'", "determined", FLIGHTS, "burst x", "a")
        self.failed("the name of a column was expected", "determined", FLIGHTS, "burst", "")

    def test_usage(self):
        for arguments in (
            [], ["shorten"], ["list"], ["list", FLIGHTS, FLIGHTS], ["list", "--yaml", FLIGHTS], ["pack", "a"],
            ["compare", FLIGHTS, 0], ["compare", FLIGHTS, 0, "x"], ["compare", FLIGHTS, 0, -1],
            ["compare", FLIGHTS, 0, "\u0663"], ["evaluate", FLIGHTS, "", DATA], ["determined", FLIGHTS],
            ["evaluate", FLIGHTS, 0, DATA, "--count", "--format", "csv"], ["drop", FLIGHTS, 0, "-o", ""], ["page", FLIGHTS, "-o", ""],
            ["pack", FLIGHTS, ""], ["unpack", FLIGHTS, ""],
        ):
            status, out, err = run(*arguments)
            self.assertEqual((status, out), (2, ""), arguments)
            self.assertRegex(err, r"\Aspernevan.*: .*; spernevan.* --help says more\n\Z")
        self.assertEqual(run("--help")[0], 0)

    def test_engine_missing(self):
        from spernevan import engine

        for there, message in [(False, "is not there; the command python/build makes it"), (True, "cannot be used")]:
            path = self.folder / "libspernevan.so"
            if there:
                path.write_bytes(b"no object")
            engine._library.cache_clear()
            self.addCleanup(engine._library.cache_clear)
            with mock.patch.object(engine, "_LIBRARY", path):
                status, out, err = run("list", FLIGHTS)
            self.assertEqual((status, out), (2, ""))
            self.assertIn(message, err)

    def test_as_a_program(self):
        environment = {**os.environ, "PYTHONPATH": str(context.HERE.parent), "LC_ALL": "C", "PYTHONUTF8": "0"}
        module = [sys.executable, "-m", "spernevan"]
        names = self.write("x.names", "höhe(a, b, c)\n")
        for arguments in (["unpack", EXAMPLE], ["list", "--names", names, EXAMPLE]):
            done = subprocess.run([*module, *arguments], capture_output=True, env=environment)
            self.assertEqual((done.returncode, done.stderr), (0, b""))
        both = {"stdout": subprocess.PIPE, "stderr": subprocess.PIPE}
        pipe = subprocess.Popen([*module, "list", FLIGHTS], env=environment, **both)
        pipe.stdout.close()
        self.assertEqual(pipe.stderr.read(), b"")
        pipe.stderr.close()
        pipe.wait()


if __name__ == "__main__":
    unittest.main()
