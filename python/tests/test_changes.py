"""The commands that change an archive, and those that take rules: their output, their status and their messages."""

import itertools
import json
import shutil
import subprocess
import unittest

import context
from spernevan import Record, __version__, pack
from test_command import DATA, FLIGHTS, Command, run


class Changes(Command):
    def setUp(self):
        super().setUp()
        self.file = self.folder / "f.file"
        shutil.copy(FLIGHTS, self.file)
        shutil.copy(context.SAMPLES / "flights.names", self.folder / "f.names")

    def test_put_and_drop(self):
        rule = "ans(f, 'x') :- burst(f, 12.5)"
        self.assertEqual(self.done("put", self.file, 4, rule), f"{self.file}: place 4 holds {rule}\n")
        self.assertIn(f"4: {rule}\n", self.done("unpack", self.file))
        self.failed(f"{self.file}: place 4 is filled; vacant: 7", "put", self.file, 4, rule)
        self.failed("rule:1:15: there is no table kite; there is flight, sonde", "put", self.file, 7, "ans(f, 'x') :-kite(f)")
        self.failed(f"{self.file}: there is no place 8: places go from 0 to 7", "put", self.file, 8, rule)
        self.assertEqual(self.done("drop", self.file, 4, 0), f"{self.file}: vacant now: 4, 0\n")
        self.failed(f"{self.file}: place 4 is vacant; filled: 1, 2, 3, 5, 6", "drop", self.file, 1, 4)
        self.assertEqual(Record.read(self.file).filled(), [1, 2, 3, 5, 6])

    def test_put_writes_a_blank_as_it_came(self):
        rule = "ans(f) :- flight(f, _, _, t), burst(f, _)"
        self.assertEqual(self.done("put", self.file, 4, rule), f"{self.file}: place 4 holds {rule}\n")
        self.assertIn(f"4: {rule}\n", self.done("unpack", self.file))
        found = json.loads(self.done("compare", "--json", self.file, rule, 4))
        self.assertEqual(found["p"], rule)

    def test_add(self):
        self.assertEqual(
            self.done("add", self.file, "burst: height -> flight", "layer: level -> height, flight"),
            f"{self.file}: 3 dependencies added, 13 in all\n",
        )
        self.assertIn("burst: flight -> height\nburst: height -> flight\nlayer: level -> height, flight\n", self.done("unpack", self.file))
        self.failed("dependency:1:8: burst(flight, height) has no column site", "add", self.file, "burst: site -> flight")
        self.failed("dependency:1:7: the name of a column or '->' was expected, not the end", "add", self.file, "burst:")
        each = [f"flight: {a}, {b} -> number, sonde, site, launch" for a, b in itertools.combinations(["number", "sonde", "site", "launch"], 2)]
        self.failed(
            f"{self.file}: 13 functional dependencies are held, and 20 more would make 33; there may be 32, and each column on the right counts one",
            "add",
            self.file,
            *each[:5],
        )
        self.assertEqual(len(Record.read(self.file).dependencies), 13)
        self.done("add", self.file, *each[:4], "sonde: maker -> serial, calibration")
        self.failed(f"{self.file}: 31 functional dependencies are held, and 2 more would make 33", "add", self.file, "layer: height -> level, flight")
        self.done("add", self.file, "layer: height -> level")
        self.failed(f"{self.file}: 32 functional dependencies are held, which is as many as there may be", "add", self.file, "layer: height -> flight")

    def test_add_what_is_held(self):
        """A dependency that is held is said, and not added again."""
        before = self.file.read_bytes()
        held = "0 dependencies added, 10 in all; held already: burst: flight -> height"
        self.assertEqual(self.done("add", self.file, "burst: flight -> height"), f"{self.file}: {held}\n")
        self.assertEqual(self.file.read_bytes(), before)
        self.assertEqual(
            self.done("add", self.file, *["burst: height -> flight"] * 2, "burst: flight -> height, flight"),
            f"{self.file}: 2 dependencies added, 12 in all; held already: burst: flight -> height\n",
        )

    def test_add_a_key(self):
        text = self.write("k.text", "layer(flight, level, height, temperature)\nlayer: flight, level -> height\n")
        file = self.folder / "k.file"
        self.done("pack", text, file)
        self.assertEqual(
            self.done("add", file, "layer(flight*, level*, height, temperature)"),
            f"{file}: 1 dependency added, 2 in all; held already: layer: flight, level -> height\n",
        )
        self.assertIn("layer: flight, level -> height, temperature\n", self.done("unpack", file))
        for given, message in (
            ("kite(a*, b)", "dependency:1:1: there is no table kite; there is layer"),
            ("layer(flight*, level)", "dependency:1:1: the table is layer(flight, level, height, temperature); a key is a mark *"),
            ("layer(flight, level, height, temperature)", "dependency:1:1: a key is a mark * at some of the columns"),
            ("layer(flight*, level*, height*, temperature*)", "dependency:1:1: a key is a mark * at some of the columns"),
            ("layer(flight*, level*, height, temperature) x", "dependency:1:45: the end was expected, not 'x'"),
        ):
            self.failed(message, "add", file, given)

    def test_reduce(self):
        rule = "ans(f, h) :- flight(f, s, 7, t), sonde(s, c, m), calibration(c, l, 2), burst(f, h)"
        self.assertEqual(self.done("reduce", self.file, 0), f"{self.file}: place 4 holds the short form of place 0, 4 rows: {rule}\n")
        unpacked = self.done("unpack", self.file)
        self.assertIn(f"\n4: f, h, s, t, v4, v5, v6, c, m, v9, v10, l\n4: {rule}\n", unpacked)
        self.assertEqual(pack(unpacked)[0].file, self.file.read_bytes())
        self.assertEqual(pack(unpacked)[1].variables[4], Record.read(self.file).names.variables[4])
        self.failed(f"{self.file}: place 5 is filled; vacant: 7", "reduce", self.file, 0, 5)
        self.assertEqual(
            self.done("reduce", self.file, "ans(a, b, c) :- burst(a, b), burst(a, c)", 7),
            f"{self.file}: place 7 holds the short form of the rule, 1 row: ans(a, b, b) :- burst(a, b)\n",
        )
        self.failed(f"{self.file}: every place is filled: drop one first", "reduce", self.file, 0)
        self.assertIn("7: ans(a, b, b) :- burst(a, b)\n", self.done("unpack", self.file))

    def test_output(self):
        before = self.file.read_bytes()
        other = self.folder / "other.file"
        self.done("drop", self.file, 0, "-o", other)
        self.assertEqual((self.file.read_bytes(), Record.read(other).filled()), (before, [1, 2, 3, 5, 6]))
        text = self.write("a.text", "flight(a, b)\n# a comment\n")
        self.failed(f"{text} is a text: pack it first, or say with --output where the new text or archive file goes", "put", text, 0, "ans() :- never")
        self.failed(f"{text} is a text: pack it first", "put", text, 0, "ans() :- never", "-o", text)
        self.failed(
            f"{self.folder}/x.names is a name for a names file; an archive file has another ending",
            "drop",
            self.file,
            0,
            "-o",
            self.folder / "x.names",
        )
        self.failed(f"{self.file} is no text; if it is an archive file, unpack makes a text of it", "pack", self.file, other)
        self.done("put", text, 0, "ans() :- never", "--output", other)
        self.assertEqual(Record.read(other).names.tables[0].name, "flight")
        # A name that ends as a text's does gets a text, which is never replaced.
        fresh = self.folder / "fresh.text"
        for source in (text, other):
            self.done("put", source, 1, "ans(x) :- flight(x, 'y')", "-o", fresh)
            self.assertIn("\n1: ans(x) :- flight(x, 'y')\n", fresh.read_text())
            self.failed(f"{fresh} is there already, and may have comments that would be lost", "drop", other, 0, "-o", fresh)
            self.assertFalse((self.folder / "fresh.names").exists())
            fresh.unlink()
        self.failed(f"{fresh} is a name for a text; an archive file has another ending, such as .file", "pack", text, fresh)

    def test_pipes(self):
        """Text goes through as text and an archive as an archive."""
        text = b"flight(a, b)\n"
        for command in (
            ["put", "-", "0", "ans(x) :- flight(x, 'y'), flight(x, z)"],
            ["reduce", "-", "0", "1"],
            ["add", "-", "flight: a -> b"],
        ):
            done = subprocess.run([*context.PROGRAM, *command], input=text, capture_output=True)
            self.assertEqual((done.returncode, done.stderr), (0, b""))
            text = done.stdout
        self.assertEqual(
            text.decode(), "flight(a, b)\n\nflight: a -> b\n\n0: ans(x) :- flight(x, 'y'), flight(x, z)\n1: ans(x) :- flight(x, 'y')\n"
        )
        packed = subprocess.run([*context.PROGRAM, "pack", "-", "-"], input=text, capture_output=True)
        self.assertEqual(
            (packed.stdout, packed.stderr), (pack(text.decode())[0].file, b"spernevan: standard output has the archive without the names\n")
        )
        dropped = subprocess.run([*context.PROGRAM, "drop", "-", "0"], input=packed.stdout, capture_output=True)
        self.assertEqual(dropped.stdout, pack(text.decode())[0].drop(0).file)
        ruled = subprocess.run([*context.PROGRAM, "put", str(self.file), "7", "-"], input=b"ans(x) :-\n  burst(x, y)\n", capture_output=True)
        self.assertEqual((ruled.returncode, ruled.stderr), (0, b""))
        both = subprocess.run([*context.PROGRAM, "put", "-", "7", "-"], input=text, capture_output=True)
        self.assertEqual((both.returncode, both.stderr), (2, b"spernevan: standard input can be the archive or the rule, not both\n"))


class Rules(Command):
    def test_not_equivalent(self):
        for p, q in ((5, 0), (0, 5)):
            said = "Not equivalent: place 5 is not contained in place 0. This database obeys the dependencies:\n  flight\n"
            self.assertTrue(self.done("equivalent", FLIGHTS, p, q, status=1).startswith(said))

    def test_equivalent(self):
        short = "ans(f, h) :- flight(f, s, 7, t), sonde(s, c, m), calibration(c, l, 2), burst(f, h)"
        same = "Equivalent: place 0 and the rule have the same answers on every database that obeys the dependencies.\n"
        self.assertEqual(self.done("equivalent", FLIGHTS, 0, short), same)
        self.assertIn("is an answer of place 5 and not of place 0.\n", self.done("equivalent", FLIGHTS, 5, 0, status=1))
        self.assertIn("is an answer of place 5 and not of place 0.\n", self.done("equivalent", FLIGHTS, 0, 5, status=1))
        found = json.loads(self.done("equivalent", "--json", FLIGHTS, 0, 5, status=1))
        self.assertEqual((found["equivalent"], found["p_in_q"]["contained"], found["q_in_p"]["contained"]), (False, True, False))
        self.assertTrue(Record.read(FLIGHTS).equivalent(0, short))
        self.assertFalse(Record.read(FLIGHTS).equivalent(0, 5))

    def test_compare_rules(self):
        one, other = "ans(f) :- burst(f, 3)", "ans(f) :- burst(f, h)"
        self.assertIn("each answer of the first rule is an answer of the second rule.\n", self.done("compare", FLIGHTS, one, other))
        found = json.loads(self.done("compare", "--json", FLIGHTS, other, one, status=1))
        self.assertEqual((found["p"], found["q"], found["contained"]), (other, one, False))
        self.failed("rule:1:5: f is in no row", "compare", FLIGHTS, "ans(f) :- burst(g, 3)", 0)

    def test_show(self):
        self.assertEqual(self.done("show", FLIGHTS), self.done("unpack", FLIGHTS))
        self.assertEqual(self.done("show", FLIGHTS, 1), self.done("list", FLIGHTS).split("\n\n")[1] + "\n")
        shown = self.done("show", FLIGHTS, "ans(a) :- burst(a, b), burst(a, c)", 3)
        self.assertTrue(
            shown.startswith(
                "The rule\n  Long form, 2 rows:\n    ans(a) :- burst(a, _),\n              burst(a, _)\n  Short form, 1 row:\n"
            ),
            shown,
        )
        self.assertIn("\n\nPlace 3\n", shown)
        found = json.loads(self.done("show", "--json", FLIGHTS, 1, "ans(a) :- burst(a, b)"))
        self.assertEqual([one["query"] for one in found], [1, "ans(a) :- burst(a, b)"])
        self.failed(f"{FLIGHTS}: place 4 is vacant; filled: 0, 1, 2, 3, 5, 6", "show", FLIGHTS, 4)

    def test_a_text_wherever_a_file_is(self):
        text = context.SAMPLES / "flights.text"
        for arguments in (
            ["list"],
            ["unpack"],
            ["evaluate", 5, DATA],
            ["test", DATA],
            ["determined", "burst", "flight"],
            ["compare", 0, 5],
            ["show", 1],
            ["equivalent", 0, 0],
        ):
            name, *rest = arguments
            self.assertEqual(self.done(name, text, *rest), self.done(name, FLIGHTS, *rest))
        self.failed(f"{text} is a text, which has its names in it; --names is for archive files", "list", "--names", "x", text)
        self.failed(f"{DATA}:2:8: the name of a column was expected, not '101'", "list", DATA)

    def test_pipes_as_files(self):
        """A file that can be read only once."""
        script = 'text=$1 data=$2; shift 2; "$@" evaluate <(cat "$text") 5 <(cat "$data")'
        done = subprocess.run(["bash", "-c", script, "bash", context.SAMPLES / "flights.text", DATA, *context.PROGRAM], capture_output=True)
        self.assertEqual((done.returncode, done.stdout, done.stderr), (0, b"ans(101, 31200)\nans(102, 29850)\n# 2 answers\n", b""))

    def test_keys_and_short_forms(self):
        record, _ = pack("layer(flight*, level*, height, temperature)\nburst(flight*, height)\nburst: height -> flight, height\n")
        self.assertEqual(
            [(d.relation, sorted(d.left), d.right) for d in record.dependencies],
            [(0, [0, 1], 2), (0, [0, 1], 3), (1, [0], 1), (1, [1], 0), (1, [1], 1)],
        )
        self.assertEqual(pack("a(b*)\n")[0].dependencies, ())

    def test_version_and_help(self):
        self.assertEqual(run("--version")[:2], (0, f"spernevan {__version__}\n"))
        from spernevan.command import usage

        commands = next(action for action in usage()._actions if action.choices).choices
        for name, parser in commands.items():
            self.assertEqual(run(name, "--help")[0], 0)
            for action in parser._actions:
                self.assertTrue(action.help and len(action.help) > 8, (name, action.dest))

    def test_what_is_no_place_and_no_rule(self):
        for arguments in (
            ["compare", FLIGHTS, 0, "burst(x)"],
            ["drop", FLIGHTS, "ans() :- never"],
            ["reduce", FLIGHTS, 0, "x"],
            ["show", FLIGHTS, "1.5"],
        ):
            status, out, err = run(*arguments)
            self.assertEqual((status, out), (2, ""))
            self.assertRegex(err, "is neither a place, 0 to 7, nor a rule|is not a place; places go from 0 to 7")

        for arguments in (["put", FLIGHTS, "x", "ans(f) :- burst(f, h)"], ["put", FLIGHTS, "burst(x)", "ans() :- never"]):
            self.assertIn(f"argument PLACE: '{arguments[2]}' is not a place; places go from 0 to 7", run(*arguments)[2])

    def test_standard_input_named_twice(self):
        for both, arguments in (
            ("can be the first rule or the second rule, not both", ["compare", FLIGHTS, "-", "-"]),
            ("can be the first rule or the second rule, not both", ["equivalent", FLIGHTS, "-", " - "]),
            ("can be the archive or the second rule, not both", ["compare", "-", 0, "-"]),
            ("is named twice for the rule, and can be read once", ["show", FLIGHTS, "-", "-"]),
            ("can be the rule or the data, not both", ["evaluate", FLIGHTS, "-", "-"]),
            ("is named twice for the data, and can be read once", ["test", FLIGHTS, "-", "-"]),
            ("can be the archive or the rule, not both", ["put", "-", 6, "-"]),
            ("can be the archive or the rule, not both", ["reduce", "-", "-"]),
            ("can be the archive or the names, not both", ["list", "-", "--names", "-"]),
        ):
            self.failed(f"standard input {both}\n", *arguments)

    def test_a_place_named_twice(self):
        self.failed("place 0 is named twice\n", "drop", FLIGHTS, 1, 0, 0, "-o", self.folder / "x.file")

    def test_a_file_without_a_name(self):
        self.failed("'': No such file or directory\n", "list", "")

    def test_a_mistake_of_the_command_itself(self):
        from unittest import mock

        with mock.patch("spernevan.commands.unpack", side_effect=TypeError("x")):
            self.failed("a mistake in the command itself, TypeError: x; SPERNEVAN_TRACE=1 shows where", "unpack", FLIGHTS)


if __name__ == "__main__":
    unittest.main()
