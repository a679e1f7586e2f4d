"""Columns that never vary, by functional dependencies without a left column: the calls, the text form, tests of databases, and every command."""

import json
import random
import shutil
import tempfile
import unittest
import warnings
from pathlib import Path

import context
from context import MANY, plain_broken, random_data, random_record, rule
from spernevan import (
    Broken,
    Constant,
    Dependency,
    JoinDependency,
    Names,
    NotationError,
    Query,
    Record,
    Refused,
    Row,
    Table,
    Variable,
    engine,
    latex,
    pack,
    unpack,
)
from spernevan.definition import define
from spernevan.notation import format_dependencies, format_dependency, never_varies, parse_dependencies
from spernevan.page import page
from test_command import Command, run

STATION = str(context.SAMPLES / "station.text")
DATA = str(context.SAMPLES / "station.data")
NAMES = Names((Table("flight", ("number", "sonde", "site", "launch")), Table("burst", ("flight", "height"))))
TEXT = "flight(number, sonde, site)\n\nflight: -> site\n\n0: ans(f, p, q) :- flight(f, _, p), flight(_, _, q)\n"


def v(number):
    return Variable(number)


class Notation(unittest.TestCase):
    def test_model(self):
        self.assertEqual(Dependency(0, (), 2), Dependency(0, frozenset(), 2))
        self.assertNotEqual(Dependency(0, (), 2), Dependency(0, (2,), 2))
        self.assertEqual((Dependency(0, (), 2).left, Dependency(0, (), 2).columns()), (frozenset(), {2}))

    def test_read(self):
        both = [Dependency(0, (), 2), Dependency(0, (), 3)]
        for text, found in (
            ("flight: -> site", both[:1]),
            ("flight:->site", both[:1]),
            ("flight : -> site  # one station", both[:1]),
            ("flight: -> site, launch", both),
            ("flight:\n  ->\n  site,\n  launch", both),
            ("burst: -> flight", [Dependency(1, (), 0)]),
        ):
            with self.subTest(text=text):
                self.assertEqual(parse_dependencies(text, NAMES), found)

    def test_print(self):
        for text in ("flight: -> site", "burst: -> flight"):
            (one,) = parse_dependencies(text, NAMES)
            self.assertEqual(format_dependency(one, NAMES), text)
        held = [Dependency(0, (), 2), Dependency(0, (), 3), Dependency(0, (0,), 1), Dependency(0, (), 1), Dependency(1, (), 1), Dependency(1, (), 0)]
        lines = ["flight: -> site, launch", "flight: number -> sonde", "flight: -> sonde", "burst: -> height, flight"]
        self.assertEqual(format_dependencies(held, NAMES), lines)
        self.assertEqual([one for line in lines for one in parse_dependencies(line, NAMES)], held)

    def test_words(self):
        self.assertEqual(never_varies(Dependency(0, (), 2), NAMES), "site never varies")
        self.assertEqual(never_varies(Dependency(0, (2,), 2), NAMES), "")
        self.assertEqual(never_varies(JoinDependency(1, ((0,), (1,))), NAMES), "")

    def test_errors(self):
        for text, message in (
            ("flight:", "1:8: the name of a column or '->' was expected, not the end"),
            ("flight: ->", "1:11: the name of a column was expected, not the end"),
            ("flight: , level -> site", "1:9: the name of a column or '->' was expected, not ','"),
            ("flight -> site", "1:8: ':' was expected, not '->'"),
            ("flight: site", "1:13: ',' or '->' was expected, not the end"),
            ("flight: -> site launch", "1:17: a comma is missing before launch"),
            ("flight: -> kite", "1:12: flight(number, sonde, site, launch) has no column kite"),
            ("flight: -> site -> launch", "1:17: the end was expected, not '->'"),
            ("flight: 7 -> site", "1:9: the name of a column or '->' was expected, not '7'"),
            ("-> site", "1:1: the name of a table was expected, not '->'"),
            ("kite: -> site", "1:1: there is no table kite; there is flight, burst"),
            # No marked column is no key, and not one without columns.
            ("burst(flight, height)", "1:1: a key is a mark * at some of the columns, which determine the others"),
        ):
            with self.subTest(text=text), self.assertRaises(NotationError) as caught:
                parse_dependencies(text, NAMES)
            self.assertEqual(str(caught.exception), f"dependency:{message}")


@context.with_engine
class Calls(unittest.TestCase):
    def refused(self, number, call, *arguments):
        with self.assertRaises(Refused) as caught:
            call(*arguments)
        self.assertEqual(caught.exception.number, number)
        return caught.exception.meaning

    def test_add(self):
        record = Record.open([3, 1]).add(0, (), 2).add(0, [0], 1)
        self.assertEqual(record.dependencies, (Dependency(0, (), 2), Dependency(0, {0}, 1)))
        self.assertIn(bytes([2, 0, 0, 2, 0, 1, 1]), record.file)
        self.assertEqual(record, Record.open([3, 1]).add("R0: -> c").add("R0: a -> b"))
        self.assertEqual(record, Record.open([3, 1]).add_all(record.dependencies))
        self.assertEqual(Record(record.file).dependencies, record.dependencies)
        self.assertEqual(record.put(0, "ans() :- never").drop(0), record)
        self.assertEqual(engine.add(record.file, 1, 0, 0), record.add(1, (), 0).file)
        # The same one may be held more than once, as any other, up to the 32nd.
        full = record.add_all([Dependency(1, (), 0)] * 30)
        self.assertEqual((len(full.dependencies), Record(full.file)), (32, full))
        self.refused(13, full.add, 1, (), 0)

    def test_refusals(self):
        record = Record.open([3, 1])
        for relation, right in ((2, 0), (255, 0), (0, 3), (1, 1), (0, 255)):
            said = self.refused(4, record.add, relation, (), right)
            self.assertEqual(said.split(", and in")[0], "a functional dependency, or a set of columns, is wrong: its table and columns must exist")
        for relation in (2, 255):
            self.refused(4, record.determined, relation, ())
        # The sets of a join dependency are not empty, as before.
        self.refused(15, record.add_join, 0, [[], [0, 1, 2]])
        with self.assertRaisesRegex(ValueError, r"a functional dependency has left columns, \(\) for none, and a right column"):
            record.add(0)
        with self.assertRaisesRegex(ValueError, "a dependency in words stands alone"):
            record.add("R0: -> a", (0,))

    def test_zeros_in_a_file(self):
        """A dependency of three zero bytes is one; only the count says how many are held."""
        record = Record.open([1]).add(0, (), 0)
        self.assertEqual(record.file, bytes([2, 0, 10, 0, 2, 0, 12, 0, 4, 0, 1, 1, 1, 0, 0, 0]))
        more = record.add(0, (), 0).add(0, [0], 0).put(0, "ans(x) :- R0(x)")
        for one in (record, more):
            self.assertEqual((Record(one.file), engine.write(one.file)), (one, one.file))
            self.assertEqual(Record(one.file).dependencies[0], Dependency(0, (), 0))
        self.assertEqual(len(more.dependencies), 3)
        self.assertEqual(Record.open([1]).dependencies, ())
        with_join = Record.open([2]).add(0, (), 0).add_join(0, [[0], [1]])
        self.assertEqual(Record(with_join.file).all_dependencies, (Dependency(0, (), 0), JoinDependency(0, ({0}, {1}))))
        # Zero bytes beyond the count are what a join dependency would be.
        self.refused(15, Record, bytes([2, 0, 10, 0, 2, 0, 12, 0, 7, 0, 1, 1, 1, 0, 0, 0, 0, 0, 0]))
        self.refused(4, Record, bytes([2, 0, 10, 0, 2, 0, 12, 0, 4, 0, 1, 1, 2, 0, 0, 0]))

    def test_determined(self):
        record = Record.open([4, 2])
        self.assertEqual(record.determined(0, ()), frozenset())
        self.assertEqual(engine.determined(record.file, 0, 0), (0, 0))
        record = record.add(0, [1], 2).add(0, (), 1).add(0, [0], 3)
        self.assertEqual(record.determined(0, ()), {1, 2})
        self.assertEqual(record.determined(0, {0}), {0, 1, 2, 3})
        self.assertEqual(record.determined(0, [3]), {1, 2, 3})
        self.assertEqual((record.determined(1, ()), record.determined(1, (1,))), (frozenset(), {1}))
        # Join dependencies are not read.
        self.assertEqual(Record.open([2]).add_join(0, [[0], [1]]).determined(0, ()), frozenset())

    def test_determined_of_random_sets(self):
        rng = random.Random(51)
        sizes = set()
        for _ in range(100 * MANY):
            record = random_record(rng, most_dependencies=8, most_rows=1)
            for relation, width in enumerate(record.widths):
                given = set(rng.sample(range(width), rng.randint(0, width)))
                found = set(given)
                while True:
                    more = {one.right for one in record.dependencies if one.relation == relation and one.left <= found}
                    if more <= found:
                        break
                    found |= more
                self.assertEqual(record.determined(relation, given), found)
                if not given:
                    sizes.add(len(found))
        self.assertLessEqual({0, 1, 2}, sizes)

    def test_reduce(self):
        """Two rows that agree on no column have one value in the one that never varies, and become one."""
        long = "ans(x, y, z) :- R0(x, y), R0(w, z)"
        self.assertEqual(len(Record.open([2]).shorten(long).result.rows), 2)
        got = Record.open([2]).add(0, (), 1).shorten(long)
        self.assertEqual((got.result, got.replaced), (Query((v(0), v(1), v(1)), (Row(0, (v(0), v(1))),)), 1))
        self.assertEqual(got.mapping, {0: v(0), 1: v(1), 2: v(1), 3: v(0)})
        # A constant stays, in every row of the relation and in no other one.
        record = Record.open([2, 2]).add(0, (), 1)
        got = record.shorten("ans(x, y, z) :- R0(x, y), R1(x, z), R0(w, 7), R1(w, z)")
        self.assertEqual(got.result, rule(record, "ans(v0, 7, v2) :- R0(v0, 7), R1(v0, v2)"))
        # Two of them have no answer.
        got = record.shorten("ans(x) :- R0(x, 7), R0(y, 8)")
        self.assertEqual((got.result, got.mapping), (Query.never(1), None))
        # Where every column is the same, a table has one row.
        got = Record.open([2]).add(0, (), 0).add(0, (), 1).shorten("ans(x) :- R0(x, y), R0(z, x), R0(w, w)")
        self.assertEqual((got.result, got.replaced), (Query((v(0),), (Row(0, (v(0), v(0))),)), 3))

    def test_compare(self):
        one, two = "ans(x) :- R0(x, y), R0(z, 7)", "ans(x) :- R0(x, 7)"
        record = Record.open([2])
        compared = record.compare(one, two)
        self.assertFalse(compared.contained)
        rows, answer = compared.counterexample()
        self.assertIsNone(record.test(rows))
        held = record.add(0, (), 1)
        self.assertEqual(held.test(rows), Broken(0, 0, 1))
        compared = held.compare(one, two)
        self.assertEqual((compared.contained, compared.mapping), (True, {0: v(0)}))
        self.assertTrue(held.equivalent(one, two))
        self.assertEqual(held.compare("ans() :- R0(x, 7), R0(y, 8)", "ans() :- never").contained, True)
        # A database that obeys has one value in the column.
        compared = held.compare("ans(x, z) :- R0(x, y), R0(z, y)", "ans(x, x) :- R0(x, y)")
        self.assertFalse(compared.contained)
        self.assertEqual(len({values[1] for _, values in compared.counterexample()[0]}), 1)

    def test_compare_with_joins(self):
        """The chase with join dependencies has both kinds."""
        record = Record.open([2]).add_join(0, [[0], [1]])
        one, two = "ans(x, y) :- R0(x, y), R0(z, w)", "ans(x, w) :- R0(x, y), R0(z, w)"
        self.assertTrue(record.equivalent("ans(x, w) :- R0(x, y), R0(z, w)", "ans(x, w) :- R0(x, w)"))
        self.assertTrue(record.add(0, (), 1).equivalent(one, two))
        self.assertTrue(record.add(0, (), 1).compare("ans() :- R0(1, x), R0(2, y)", "ans() :- R0(1, x), R0(2, x)").contained)

    def test_test(self):
        record = Record.open([2, 1]).add(0, (), 1)
        self.assertIsNone(record.test([]))
        self.assertIsNone(record.test([(0, (1, 7))]))
        self.assertIsNone(record.test([(0, (1, 7)), (1, (3,)), (0, (2, 7)), (1, (4,)), (0, (1, 7))]))
        self.assertEqual(record.test([(1, (3,)), (0, (1, 7)), (1, (4,)), (0, (2, 7)), (0, (3, 8)), (0, (4, 9))]), Broken(0, 1, 4))
        self.assertEqual(record.add(1, (), 0).test([(1, (3,)), (0, (1, 7)), (1, (4,)), (0, (2, 7))]), Broken(1, 0, 2))

    def test_random_databases(self):
        rng = random.Random(52)
        found = set()
        for _ in range(200 * MANY):
            record = random_record(rng, most_width=3, most_relations=3, most_dependencies=4, most_rows=1)
            rows = random_data(rng, record.widths, values=rng.choice([1, 2, 3]))
            broken = record.test(rows)
            self.assertEqual(broken, plain_broken(record, rows))
            found.add(broken and bool(record.dependencies[broken.dependency].left))
        self.assertEqual(found, {None, False, True})

    def test_definition(self):
        record = Record.open([2]).add(0, [0], 1).add(0, (), 1)
        record = record.put(0, "ans(x, y, z) :- R0(x, y), R0(w, z)").put(1, "ans(x, y, z) :- R0(x, y), R0(x, z)")
        self.assertEqual(define(record, record.names, 0).used, (1,))
        # Either does for rows with one left value, and the earlier is named.
        self.assertEqual(define(record, record.names, 1).used, (0,))


@context.with_engine
class Texts(unittest.TestCase):
    def test_round_trip(self):
        record, names = pack(TEXT)
        self.assertEqual(record.dependencies, (Dependency(0, (), 2),))
        self.assertEqual(unpack(record, names), TEXT)
        self.assertEqual((str(record), pack(unpack(record, names))), (TEXT.rstrip("\n"), (record, names)))
        self.assertEqual(unpack(record, Names.default([3])).splitlines()[2], "R0: -> c")
        self.assertIn("<td style='text-align:left;white-space:pre'>flight: -&gt; site</td>", record._repr_html_())

    def test_several_columns(self):
        text = "R(a, b, c)\n\nR: -> c, a\nR: a -> b\nR: -> b\n"
        record, names = pack(text)
        self.assertEqual(record.dependencies, (Dependency(0, (), 2), Dependency(0, (), 0), Dependency(0, {0}, 1), Dependency(0, (), 1)))
        self.assertEqual(unpack(record, names), text)

    def test_columns_of_other_words(self):
        record, names = pack("R(join, ans)\nR: -> join, ans\nR: join (join) (ans)\n")
        self.assertEqual(record.all_dependencies, (Dependency(0, (), 0), Dependency(0, (), 1), JoinDependency(0, ({0}, {1}))))
        self.assertEqual(pack(unpack(record, names))[0], record)

    def test_mistakes_in_texts(self):
        table = "flight(number, site)\n"
        for text, message in (
            (table + "flight -> site", "2:8: ':' was expected, not '->'"),
            (table + "flight: ->\nflight: number -> site", "2:9: the name of a column was expected after '->'"),
            (table + "flight: ->\n\n0: ans(f) :- flight(f, s)", "2:9: the name of a column was expected after '->'"),
            (table + "flight: ->\nburst(flight)", "2:9: the name of a column was expected after '->'"),
        ):
            with self.subTest(text=text), self.assertRaises(NotationError) as caught:
                pack(text)
            self.assertTrue(str(caught.exception).endswith(message), str(caught.exception))
        self.assertEqual(pack(table + "flight: ->\nsite\n")[0], pack(table + "flight: -> site\n")[0])

    def test_no_mark_is_no_key(self):
        self.assertEqual(pack("R(a, b)\n")[0].dependencies, ())
        self.assertEqual(pack("R(a, b)\nR: -> a\n")[0].dependencies, (Dependency(0, (), 0),))

    def test_files(self):
        record, _ = pack("flight(number)\nflight: -> number\n")
        self.assertIn(bytes([1, 0, 0, 0]), record.file)
        with tempfile.TemporaryDirectory() as folder:
            path = Path(folder, "zeros.file")
            record.write(path)
            again = Record.read(path)
        self.assertEqual((again, again.names, again.dependencies), (record, record.names, (Dependency(0, (), 0),)))


class Commands(Command):
    def test_the_sample(self):
        record = Record.read(STATION)
        self.assertEqual(record.dependencies[-1], Dependency(0, (), 2))
        self.assertEqual(pack(str(record) + "\n")[0], record)
        self.assertIn("\nflight: -> site\n", self.done("unpack", STATION))

    def test_add(self):
        flights = self.folder / "f.file"
        shutil.copy(context.SAMPLES / "flights.file", flights)
        shutil.copy(context.SAMPLES / "flights.names", self.folder / "f.names")
        self.assertEqual(self.done("add", flights, "flight: -> site, launch"), f"{flights}: 2 dependencies added, 12 in all\n")
        self.assertEqual(
            self.done("add", flights, "flight: -> launch", "sonde: -> maker"),
            f"{flights}: 1 dependency added, 13 in all; held already: flight: -> launch\n",
        )
        self.assertIn("\nburst: flight -> height\nflight: -> site, launch\nsonde: -> maker\n", self.done("unpack", flights))
        text = self.write("f.text", self.done("unpack", flights))
        self.done("pack", text, self.folder / "again.file")
        self.assertEqual((self.folder / "again.file").read_bytes(), flights.read_bytes())
        self.failed("dependency:1:8: the name of a column or '->' was expected, not the end", "add", flights, "flight:")
        self.failed("dependency:1:8: ':' was expected, not '->'", "add", flights, "flight -> site")

    def test_determined(self):
        text = self.write("d.text", "flight(number, sonde, site, launch)\nburst(flight)\nflight: -> launch\nflight: launch -> site\nburst: -> flight\n")
        self.assertEqual(self.done("determined", text, "flight"), "flight: site, launch never vary (2 of 4 columns)\n")
        self.assertEqual(self.done("determined", text, "flight", "number"), "flight: number determines number, site, launch (3 of 4 columns)\n")
        self.assertEqual(self.done("determined", text, "burst"), "burst: flight never varies (1 of 1 column)\n")
        self.assertEqual(self.done("determined", "--plain", text, "R0"), "R0: c, d never vary (2 of 4 columns)\n")
        flights = context.SAMPLES / "flights.file"
        self.assertEqual(self.done("determined", flights, "flight"), "flight: no column has to be the same in all rows (0 of 4 columns)\n")
        self.failed("there is no table kite; there is flight, burst", "determined", text, "kite")
        said = " ".join(run("determined", "--help")[1].split())
        self.assertIn("FILE TABLE [COLUMN ...]", said)
        self.assertIn("the following arguments are required: TABLE;", run("determined", text)[2])
        self.assertIn("without any, the columns that never vary", said)

    def test_test(self):
        broken = f"Breaks flight: -> site (dependency 2), by which site never varies:\n  {DATA}:2: flight(101, 9001, 7)\n  {DATA}:4: flight(103, 9003, 8)\n"
        self.assertEqual(self.done("test", STATION, DATA, status=1), broken)
        sound = self.write("sound.data", "flight(101, 9001, 7)\nflight(102, 9002, 7)\n")
        self.assertEqual(self.done("test", STATION, sound), "Obeys: 2 rows, 3 dependencies\n")
        status, out, err = run("evaluate", STATION, 0, DATA)
        self.assertEqual((status, out.splitlines()[-1]), (0, "# 6 answers"))
        self.assertEqual(err, broken + "On such a database the long and the short form of a query may have different answers.\n")
        self.assertEqual(self.done("evaluate", STATION, 0, sound), "ans(101, 7, 7)\nans(102, 7, 7)\n# 2 answers\n")
        cells = self.write("flight.csv", "number,sonde,site\n101,9001,Lindenberg\n102,9002,De Bilt\n")
        self.assertEqual(
            self.done("test", STATION, cells, status=1),
            "Breaks flight: -> site (dependency 2), by which site never varies:\n"
            f"  {cells}:2: flight(101, 9001, 'Lindenberg')\n  {cells}:3: flight(102, 9002, 'De Bilt')\n",
        )
        absent = self.folder / "absent"
        absent.mkdir()
        (absent / "flight.csv").write_text("number,sonde,site\n101,9001,\n")
        text = self.write("site.text", "flight(number, sonde, site)\nflight: -> site\n")
        self.failed(f"{absent}/flight.csv:2: column site: the cell is empty (NULL)", "evaluate", text, "ans(f) :- flight(f, _, _)", absent)

    def test_warning(self):
        record = Record.read(STATION)
        data = {"flight": [(101, 9001, "x"), (102, 9002, "y")]}
        self.assertEqual(record.test(data), Broken(2, 0, 1))
        message = r"^the database breaks flight: -> site \(site never varies; row 0 of flight: flight\(101, 9001, 'x'\); row 1 of flight: .*\): on such a database"
        with self.assertWarnsRegex(UserWarning, message):
            record.evaluate(0, data)
        with warnings.catch_warnings():
            warnings.simplefilter("error")
            record.evaluate(0, {"flight": data["flight"][:1]})

    def test_reduce_and_compare(self):
        out = self.folder / "s.file"
        short = "ans(f, p, p) :- flight(f, s, p)"
        self.assertEqual(self.done("reduce", STATION, 0, "-o", out), f"{out}: place 1 holds the short form of place 0, 1 row: {short}\n")
        self.assertEqual(self.done("equivalent", out, 0, 1).split(":")[0], "Equivalent")
        self.assertTrue(self.done("compare", STATION, 0, short).startswith("Contained: on every database"))
        without = self.write("without.text", "flight(number*, sonde, site)\n0: ans(f, p, q) :- flight(f, s, p), flight(g, t, q)\n")
        self.assertTrue(self.done("compare", without, 0, short, status=1).startswith("Not contained."))

    def test_define(self):
        text = self.done("define", STATION, 0)
        self.assertIn("  Dependencies needed:\n    flight: -> site\n  Long form, 2 rows:\n", text)
        found = json.loads(self.done("define", STATION, 0, "--format", "json"))
        self.assertEqual(found["dependencies"], [{"table": "flight", "left": [], "right": "site"}])
        tex = self.done("define", STATION, 0, "--format", "latex")
        self.assertIn(r"\textsf{flight}: $\emptyset$~$\to$~\textit{site} (never varies)", tex)
        self.assertIn("On every finite database that obeys these dependencies the two forms", tex)
        record = Record.read(STATION)
        self.assertEqual(latex.dependency(record.dependencies[0], record.names), r"\textsf{flight}: \textit{number}~$\to$~\textit{sonde}")
        self.assertEqual(self.done("define", STATION, 0, "--format", "sql").count("FROM"), 1)

    def test_page(self):
        text = self.done("page", STATION)
        self.assertIn("<li><code>flight: number \u2192 sonde</code></li>", text)
        self.assertIn("<li><code>flight: \u2205 \u2192 site (never varies)</code></li>", text)
        self.assertIn("<dt>Dependencies needed</dt><dd><code>flight: \u2205 \u2192 site (never varies)</code></dd>", text)
        record, names = pack("R(a, b)\nR: join (a) (b)\nR: -> a\n")
        self.assertIn("<li><code>R: \u2205 \u2192 a (never varies)</code></li><li><code>R: join (a) (b)</code></li>", page(record, names))


if __name__ == "__main__":
    unittest.main()
