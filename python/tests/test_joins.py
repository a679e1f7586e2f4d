"""Join dependencies: the calls, their refusals, the chase with both kinds, tests of databases, and every command that shows or adds one."""

import json
import random
import shutil
import unittest
import warnings
from array import array

import context
from context import MANY, plain_answers, plain_broken, random_data, random_record, rule
from spernevan import Broken, BrokenJoin, Constant, Dependency, JoinDependency, Names, Query, Record, Refused, Row, Variable, engine, latex, pack, unpack
from spernevan.definition import define
from spernevan.page import page
from test_command import Command, run

LAYERS = str(context.SAMPLES / "layers.file")
DATA = str(context.SAMPLES / "layers.data")
JOIN = "layer: join (flight, level, height) (flight, level, temperature)"


def v(number):
    return Variable(number)


def product(columns):
    """A record of one relation that is the product of its columns."""
    return Record.open([columns]).add_join(0, [[column] for column in range(columns)])


@context.with_engine
class Joins(unittest.TestCase):
    def refused(self, number, call, *arguments):
        with self.assertRaises(Refused) as caught:
            call(*arguments)
        self.assertEqual(caught.exception.number, number)
        return caught.exception.meaning


class Calls(Joins):
    def test_add(self):
        record = Record.open([3, 1]).add(0, [0], 1).add_join(0, [[0, 1], {2, 0}])
        self.assertEqual(record.join_dependencies, (JoinDependency(0, ({0, 1}, {0, 2})),))
        self.assertEqual(record.all_dependencies, (Dependency(0, {0}, 1), *record.join_dependencies))
        self.assertIn(bytes([1, 0, 1, 1, 1, 0, 2, 3, 5]), record.file)
        self.assertEqual(repr(record), "<Record of R0, R1; 2 dependencies; filled places: none>")
        more = record.add_join(1, [[0], [0]]).add(0, [1], 2)
        self.assertEqual(more.dependencies, (Dependency(0, {0}, 1), Dependency(0, {1}, 2)))
        self.assertEqual(more.join_dependencies, (*record.join_dependencies, JoinDependency(1, ({0}, {0}))))
        self.assertEqual(more.add("R0: join (a, b, c) (b) (c) (c)").join_dependencies[-1], JoinDependency(0, ({0, 1, 2}, {1}, {2}, {2})))
        self.assertEqual(Record(more.file), more)
        self.assertEqual(record.put(0, "ans() :- never").drop(0), record)

    def test_refusals(self):
        record = Record.open([3])
        for relation, sets in (
            (1, [[0], [1, 2]]), (255, [[0], [1, 2]]), (0, []), (0, [[0, 1, 2]]), (0, [[0, 1, 2]] * 5), (0, [[0], [1]]), (0, [[], [0, 1, 2]]),
            (0, [[0, 1], [2, 3]]), (0, [[0, 1, 2], [7]]), (0, [[0, 1, 2]] * 300),
        ):
            self.refused(15, record.add_join, relation, sets)
        for _ in range(4):
            record = record.add_join(0, [[0], [1, 2]])
        self.refused(15, record.add_join, 0, [[0], [1]])
        self.assertEqual(self.refused(16, record.add_join, 0, [[0], [1, 2]]), "4 join dependencies are held, which is as many as there may be")
        self.assertEqual(self.refused(16, record.add, "R0: join (a) (b, c)"), "4 join dependencies are held, which is as many as there may be")
        self.assertEqual(len(record.add(0, [0], 1).join_dependencies), 4)
        some = Record.open([3]).add_all(record.join_dependencies[:3])
        self.assertEqual(
            self.refused(16, some.add_all, [Dependency(0, {0}, 1), *record.join_dependencies[:2]]),
            "3 join dependencies are held, and 2 more would make 5; there may be 4",
        )
        some = Record.open([3]).add_all(record.join_dependencies[:1])
        self.assertEqual(
            self.refused(16, some.add_all, record.join_dependencies), "1 join dependency is held, and 4 more would make 5; there may be 4"
        )

    def test_files(self):
        """Bytes past the functional dependencies are join dependencies or refused, after a bad functional one and before a bad query."""
        record = Record.open([2]).add(0, [0], 1).add_join(0, [[0], [1]]).put(0, "ans(x) :- R0(x, y)")
        file = record.file
        held = bytes([1, 0, 2, 1, 2])
        self.assertIn(held, file)
        for other in (
            [0, 0, 2, 1, 2], [5, 0, 2, 1, 2], [2, 0, 2, 1, 2], [1, 1, 2, 1, 2], [1, 0, 1, 1, 2], [1, 0, 3, 1, 2], [1, 0, 2, 1, 1], [1, 0, 2, 0, 3],
            [1, 0, 2, 1, 6],
        ):
            bad = file.replace(held, bytes(other))
            for call in (Record, engine.write, engine.read):
                self.refused(15, call, bad)
            self.refused(15, Record, bad.replace(bytes([1, 1, 0, 0, 0, 0, 0]), bytes([1, 1, 0, 0, 0, 9, 0])))
            self.refused(4, Record, bad.replace(bytes([1, 0, 1, 1]), bytes([1, 0, 1, 2])))
        self.assertEqual(Record(file.replace(held, bytes([1, 0, 2, 3, 2]))).join_dependencies, (JoinDependency(0, ({0, 1}, {1})),))

    def test_any_bytes_are_a_record_or_refused(self):
        rng = random.Random(21)
        sound = Record.open([2, 3]).add(0, [0], 1).add_join(0, [[0], [1]]).add_join(1, [[0, 1], [1, 2], [2]]).put(0, "ans(x) :- R0(x, y)").file
        accepted = 0
        for _ in range(1000 * MANY):
            file = bytearray(sound)
            for _ in range(rng.randint(0, 2)):
                file[rng.randrange(len(file))] = rng.choice([0, 1, 2, 3, 7, 8, 255, rng.randrange(256)])
            try:
                record = Record(bytes(file))
            except Refused as refused:
                self.assertIn(refused.number, [*range(1, 7), 15, 18])
                continue
            accepted += 1
            self.assertEqual((engine.write(record.file), pack(unpack(record, record.names))[0].file), (file, file))
        self.assertGreater(accepted, 100)

    def test_a_join_and_a_dependency_give_another(self):
        """The join of (a, b) and (a, c) with a, b -> c gives a -> c."""
        both = Record.open([3]).add_join(0, [[0, 1], [0, 2]]).add(0, [0, 1], 2)
        for record, contained in ((both, True), (Record.open([3]).add(0, [0, 1], 2), False), (Record.open([3]).add_join(0, [[0, 1], [0, 2]]), False)):
            record = record.put(0, rule(record, "ans(a, x, y) :- R0(a, _, x), R0(a, _, y)")).put(1, rule(record, "ans(a, x, x) :- R0(a, _, x)"))
            self.assertEqual((record.compare(0, 1).contained, record.compare(1, 0).contained), (contained, True))
            self.assertEqual(record.equivalent(0, 1), contained)
            # Determined columns and reductions go by the functional dependencies.
            self.assertEqual(record.determined(0, [0]), {0})
            short = record.shorten(0)
            self.assertEqual((short.result, short.replaced), (record.queries[0], 0))

    def test_a_clash(self):
        record = Record.open([3]).add_join(0, [[0, 1], [0, 2]]).add(0, [0, 1], 2)
        record = record.put(0, rule(record, "ans() :- R0(a, 1, 3), R0(a, 2, 4)")).put(1, Query.never(0))
        compared = record.compare(0, 1)
        self.assertEqual((compared.contained, compared.mapping, compared.chased), (True, None, None))
        self.assertFalse(record.shorten(0).result.is_never)

    def test_rows_that_are_added(self):
        record = product(2)
        record = record.put(0, rule(record, "ans(v0) :- R0(v0, v1), R0(v2, v3), R0(v0, v1)")).put(1, Query.never(1))
        rows = tuple(Row(0, (v(a), v(b))) for a, b in ((0, 1), (2, 3), (0, 3), (2, 1)))
        compared = record.compare(0, 1)
        self.assertEqual(compared.chased, Query((v(0),), rows))
        self.assertEqual(len(compared.counterexample()[0]), 4)
        # Repeated rows go in every relation where a join dependency is held, and stay where there is none.
        twice = "ans() :- R0(x, y), R0(x, y)"
        for held, rows in ((Record.open([2, 1]), 2), (Record.open([2, 1]).add_join(1, [[0], [0]]), 1)):
            held = held.put(0, rule(held, twice)).put(1, Query.never(0))
            self.assertEqual(len(held.compare(0, 1).chased.rows), rows)

    def test_the_most_rows(self):
        """24 rows are shown; 25 are refused, after all else."""
        record = product(2)
        most = Query((), tuple(Row(0, (v(a), v(10 + a % 4))) for a in range(6)))
        over = Query((), tuple(Row(0, (v(a), v(10 + a))) for a in range(5)))
        record = record.put(0, most).put(1, over).put(2, Query.never(0)).put(3, Query.never(1))
        chased = record.compare(0, 2).chased
        self.assertEqual((len(chased.rows), chased.rows[:6]), (24, most.rows))
        rows, answer = record.compare(0, 2).counterexample()
        self.assertEqual((len(rows), answer, record.test(rows)), (24, (), None))
        meaning = "the comparison was given up: the join dependencies make the first query longer than 24 rows"
        for other in (0, 1, 2):
            self.assertEqual(self.refused(17, record.compare, 1, other), meaning)
            self.assertEqual(self.refused(17, record.compare, over, other), meaning)
        self.refused(8, record.compare, 1, 3)
        self.refused(11, record.compare, 1, 5)
        self.assertEqual(record.shorten(1).result.rows, over.rows[:1])
        self.assertFalse(record.equivalent(0, 2))
        self.assertEqual(self.refused(17, record.equivalent, 1, 0), meaning)
        self.assertEqual(self.refused(17, record.equivalent, 0, 1), meaning.replace("first", "second"))
        # Where one way is given up the other may say no.
        record = record.put(4, Query((), tuple(Row(0, (v(a), Constant(a))) for a in range(5))))
        self.refused(17, record.compare, 4, 0)
        self.assertEqual((record.equivalent(0, 4), record.equivalent(4, 0)), (False, False))

    def test_tests(self):
        record = Record.open([3, 1]).add(0, [0], 1).add_join(1, [[0], [0]]).add_join(0, [[0, 1], [1, 2]])
        rows = [(1, (7,)), (0, (1, 5, 1)), (0, (2, 5, 2)), (1, (7,))]
        self.assertEqual(record.test(rows), BrokenJoin(1, (1, 2)))
        self.assertEqual(record.join_dependencies[1].joined([rows[position][1] for position in (1, 2)]), (1, 5, 2))
        self.assertEqual(record.test([*rows, (0, (1, 5, 2))]), BrokenJoin(1, (2, 1)))
        self.assertIsNone(record.test([*rows, (0, (1, 5, 2)), (0, (2, 5, 1))]))
        self.assertEqual(record.test([*rows, (0, (1, 6, 1))]), Broken(0, 1, 4))
        self.assertIsNone(record.test([]))
        self.refused(9, record.test, array("I", [0, 1, 2]))
        four = product(4).join_dependencies[0]
        self.assertEqual(Record.open([4]).add_all([four]).test([(0, (0, 0, 0, 0)), (0, (1, 1, 1, 1))]), BrokenJoin(0, (0, 0, 0, 1)))
        # Those of some relations first, and of these the functional ones.
        words = array("I", [0, 1, 5, 1, 0, 1, 6, 1, 1, 7, 8, 1, 9, 10])
        both = Record.open([3, 2]).add(0, [0], 1).add_join(1, [[0], [1]])
        found = [both.broken(words, first) for first in ((), (0,), (1,), (0, 1))]
        self.assertEqual(found, [Broken(0, 0, 1), Broken(0, 0, 1), BrokenJoin(0, (2, 3)), Broken(0, 0, 1)])

    def test_random_databases(self):
        rng = random.Random(22)
        seen = set()
        for _ in range(60 * MANY):
            record = random_record(rng, 4, 2, 1, 4, most_rows=2, most_head=2)
            rows = random_data(rng, record.widths, values=2, most_rows=rng.choice([4, 12]))
            found = plain_broken(record, rows)
            self.assertEqual(record.test(rows), found)
            seen.add(type(found))
        self.assertEqual(seen, {Broken, BrokenJoin, type(None)})

    def test_large_databases(self):
        """Up to a hundred thousand rows that obey join dependencies of two and three sets, and without one of them."""
        rng = random.Random(24)
        record = Record.open([4]).add_join(0, [[0, 1, 2], [0, 3]]).add_join(0, [[0, 1], [0, 2], [0, 3]])
        two, three = record.join_dependencies
        for keys in (3, 600, 12500):
            rows = [(key, b, c, d) for key in range(keys) for b in (1, 2) for c in (1, 2) for d in (1, 2)]
            rng.shuffle(rows)
            self.assertIsNone(record.test([(0, row) for row in rows]))
            lost = rows.pop(rng.randrange(len(rows)))
            words = array("I", [word for row in rows for word in (0, *row)])
            for joins, first in (((two, three), two), ((three, two), three)):
                found = Record.open([4]).add_all(joins).test(words)
                # The first row that has the lost one's values in the columns of each set.
                places = [next(place for place, row in enumerate(rows) if all(row[c] == lost[c] for c in columns)) for columns in first.sets]
                self.assertEqual((found, first.joined([rows[place] for place in places])), (BrokenJoin(0, tuple(places)), lost))

    def test_random_comparisons(self):
        """A no shows an obeying database; a yes holds on obeying ones; reductions are those without join dependencies."""
        rng = random.Random(23)
        seen = set()
        for _ in range(40 * MANY):
            record = random_record(rng, 3, 2, 2, 3, most_rows=rng.choice([3, 12]), most_head=2, numbers=rng.choice([5, 96]))
            plain = Record.open(record.widths).add_all(record.dependencies)
            databases = []
            for _ in range(40):
                rows = random_data(rng, record.widths, values=2, most_rows=8)
                if record.test(rows) is None:
                    databases.append(rows)
            for place in record.filled():
                query = record.queries[place]
                self.assertEqual(record.shorten(place).result, plain.put(place, query).shorten(place).result)
                for other in record.filled():
                    rival = record.queries[other]
                    if rival.head_length != query.head_length:
                        continue
                    try:
                        compared = record.compare(place, other)
                    except Refused as refused:
                        self.assertEqual(refused.number, 17)
                        seen.add(17)
                        continue
                    seen.add(compared.contained)
                    if compared.contained:
                        for rows in databases:
                            self.assertLessEqual(set(plain_answers(query, rows)), set(plain_answers(rival, rows)))
                        continue
                    rows, answer = compared.counterexample()
                    self.assertLessEqual(len(compared.chased.rows), 24)
                    self.assertIsNone(record.test(rows))
                    self.assertIn(answer, record.evaluate(place, rows))
                    self.assertNotIn(answer, record.evaluate(other, rows))
                    self.assertFalse(plain.put(0, query).put(1, rival).compare(0, 1).contained)
        self.assertEqual(seen, {True, False, 17})


class Texts(Joins):
    def test_round_trip(self):
        text = f"layer(flight, level, height, temperature)\n\nlayer: flight -> level\n{JOIN}\n"
        record, names = pack(text)
        self.assertEqual(record.join_dependencies, (JoinDependency(0, ({0, 1, 2}, {0, 1, 3})),))
        self.assertEqual(unpack(record, names), text)
        self.assertEqual(str(record), text.rstrip("\n"))
        self.assertIn(f"<td style='text-align:left;white-space:pre'>{JOIN}</td>", record._repr_html_())
        # Wherever the line stands, however the columns are ordered, and over several lines.
        join = "layer: join (height, flight,\n  level) (level,\n temperature, flight)  # split\n"
        self.assertEqual(pack(f"layer(flight, level, height, temperature)\n{join}layer: flight -> level\n")[0], record)
        self.assertEqual(unpack(record, Names.default([4])).splitlines()[-1], "R0: join (a, b, c) (a, b, d)")

    def test_functional_ones_stay_apart(self):
        """A join dependency between two lines of one left side joins them in print, since those of a kind stand together."""
        record, names = pack("R(a, b, c)\nR: a -> b\nR: join (a) (b, c)\nR: a -> c\n")
        self.assertEqual(unpack(record, names), "R(a, b, c)\n\nR: a -> b, c\nR: join (a) (b, c)\n")
        self.assertEqual(pack(unpack(record, names))[0], record)

    def test_a_column_named_join(self):
        record, names = pack("R(join, b)\nR: join -> b\nR: join, b -> join\nR: join (join) (b)\n")
        self.assertEqual((len(record.dependencies), record.join_dependencies), (2, (JoinDependency(0, ({0}, {1})),)))
        self.assertEqual(pack(unpack(record, names))[0], record)

    def test_a_table_named_join(self):
        record, _ = pack("join(a, b)\njoin: join (a) (b)\n0: ans(x) :- join(x, y)\n")
        self.assertEqual(len(record.join_dependencies), 1)


class Commands(Command):
    def setUp(self):
        super().setUp()
        self.file = self.folder / "l.file"
        shutil.copy(LAYERS, self.file)
        shutil.copy(context.SAMPLES / "layers.names", self.folder / "l.names")

    def test_the_sample(self):
        record, names = pack((context.SAMPLES / "layers.text").read_text())
        self.assertEqual(record.file, (context.SAMPLES / "layers.file").read_bytes())
        self.assertEqual(pack(unpack(record, names)), (record, names))
        self.assertIn(f"\n{JOIN}\n", self.done("unpack", LAYERS))
        self.assertEqual(self.done("show", LAYERS), self.done("unpack", LAYERS))
        self.assertEqual(self.done("list", LAYERS).count("Short form"), 3)

    def test_add(self):
        join = "flight: join (number, sonde) (site, number)"
        shown = "flight: join (number, sonde) (number, site)"
        self.assertEqual(self.done("add", self.file, join, JOIN), f"{self.file}: 1 dependency added, 4 in all; held already: {JOIN}\n")
        self.assertIn(f"\n{JOIN}\n{shown}\n", self.done("unpack", self.file))
        self.assertEqual(
            self.done("add", self.file, "flight: site -> sonde", shown), f"{self.file}: 1 dependency added, 5 in all; held already: {shown}\n"
        )
        for text, message in (
            ("flight: join (number, sonde)", "dependency:1:9: a join has 2 to 4 sets of columns, each between parentheses"),
            ("flight: join (number) (sonde)", "dependency:1:9: the sets of a join have every column of flight(number, sonde, site) among them; site is"),
            ("flight: join (number)", "dependency:1:9: a join has 2 to 4 sets"),
            ("flight: join (number) (sonde) (site) x", "dependency:1:38: the end was expected, not 'x'"),
            ("flight: join (number) (kite)", "dependency:1:24: flight(number, sonde, site) has no column kite"),
        ):
            self.failed(message, "add", self.file, text)
        more = [f"flight: join (number, sonde, site) ({column})" for column in ("number", "sonde", "site")]
        self.failed(f"{self.file}: 2 join dependencies are held, and 3 more would make 5; there may be 4\n", "add", self.file, *more)
        self.done("add", self.file, *more[:2])
        self.failed(f"{self.file}: 4 join dependencies are held, which is as many as there may be\n", "add", self.file, more[2])

    def test_compare(self):
        self.assertTrue(self.done("compare", LAYERS, 1, 0).startswith("Contained: on every database that obeys the dependencies,\n"))
        self.assertEqual(
            self.done("equivalent", LAYERS, 0, 1),
            "Equivalent: place 0 and place 1 have the same answers on every database that obeys the dependencies.\n",
        )
        text = self.done("compare", LAYERS, 1, 2, status=1)
        self.assertTrue(text.startswith("Not contained. This database obeys the dependencies:\n"))
        self.assertIn("         f      l       h            t\n         f      l      v6           v5\n", text)
        found = json.loads(self.done("compare", "--json", LAYERS, 1, 2, status=1))
        self.assertEqual(len(found["counterexample"]["rows"]), 5)
        self.assertTrue(self.done("equivalent", LAYERS, 2, 1, status=1).startswith("Not equivalent: place 1 is not contained in place 2."))

    def test_given_up(self):
        text = self.write("p.text", "R(a, b)\nR: join (a) (b)\n0: ans() :- R(v, w), R(1, 2)\n")
        over = "ans() :- " + ", ".join(f"R(x{n}, y{n})" for n in range(5))
        given_up = "the comparison was given up: the join dependencies make {} longer than 24 rows\n"
        self.failed(f"{text}: {given_up.format('the rule')}", "compare", text, over, 0)
        self.failed(f"{text}: {given_up.format('the first rule')}", "compare", text, over, "ans() :- never")
        self.failed(f"{text}: {given_up.format('the second rule')}", "equivalent", text, "ans() :- R(x, y)", over)
        self.assertEqual(self.done("compare", text, 0, over).splitlines()[1], "each answer of place 0 is an answer of the rule.")
        # A no one way is enough.
        clash = "ans() :- " + ", ".join(f"R(x{n}, {n})" for n in range(5))
        self.assertTrue(self.done("equivalent", text, 0, clash, status=1).startswith("Not equivalent: place 0 is not contained in the rule."))
        self.assertTrue(self.done("equivalent", text, clash, 0, status=1).startswith("Not equivalent: place 0 is not contained in the rule."))
        found = json.loads(self.done("equivalent", "--json", text, clash, 0, status=1))
        self.assertEqual((found["equivalent"], found["p_in_q"], found["q_in_p"]["contained"]), (False, None, False))
        # A page has a question mark there.
        saved = self.folder / "p.file"
        self.done("put", text, 1, over, "-o", saved)
        shown = self.done("page", saved)
        self.assertIn('<td class="none">?</td>', shown)
        self.assertIn("A question mark stands where the comparison was given up, since the join dependencies make the place", shown)
        self.assertNotIn("question mark", self.done("page", LAYERS))

    def test_test(self):
        self.assertEqual(
            self.done("test", LAYERS, DATA, status=1),
            f"Breaks {JOIN} (join dependency 0):\n"
            f"  {DATA}:5: layer(101, 850, 1461, 2714) gives flight, level, height\n"
            f"  {DATA}:6: layer(101, 850, 1457, 2716) gives flight, level, temperature\n"
            "  missing: layer(101, 850, 1461, 2716)\n",
        )
        more = self.write("more.data", "layer(101, 850, 1461, 2716)\n")
        self.assertEqual(self.done("test", LAYERS, DATA, more), "Obeys: 9 rows, 3 dependencies\n")
        both = self.write("both.data", "flight(101, 9009, 7)\n")
        self.assertTrue(self.done("test", LAYERS, DATA, both, status=1).startswith("Breaks flight: number -> sonde (dependency 0):\n"))
        cells = self.write("flight.csv", "number,sonde,site\n101,9001,7\n")
        self.failed("the data has no table layer, which a dependency speaks of; ", "test", LAYERS, cells)

    def test_test_with_texts(self):
        text = self.write("s.text", "track(flight, site, sonde)\ntrack: join (flight, site) (site, sonde) (sonde, flight)\n")
        cells = self.write("track.csv", "flight,site,sonde\nF-1,De Bilt,0.50\nF-2,De Bilt,12\nF-1,Graz,12\n")
        self.assertEqual(
            self.done("test", text, cells, status=1),
            "Breaks track: join (flight, site) (site, sonde) (flight, sonde) (join dependency 0):\n"
            f"  {cells}:2: track('F-1', 'De Bilt', 0.50) gives flight, site\n"
            f"  {cells}:3: track('F-2', 'De Bilt', 12) gives site, sonde\n"
            f"  {cells}:4: track('F-1', 'Graz', 12) gives flight, sonde\n"
            "  missing: track('F-1', 'De Bilt', 12)\n",
        )
        absent = self.folder / "absent"
        absent.mkdir()
        (absent / "track.csv").write_text("flight,site,sonde\nF-1,,3\n")
        self.failed(f"{absent}/track.csv:2: column site: the cell is empty (NULL)", "evaluate", text, "ans(f) :- track(f, _, _)", absent)

    def test_evaluate(self):
        status, out, err = run("evaluate", LAYERS, 1, DATA)
        self.assertEqual((status, out.splitlines()[-1]), (0, "# 6 answers"))
        self.assertTrue(err.startswith(f"Breaks {JOIN} (join dependency 0):\n"), err)
        last = "The long and the short form of a query have the same answers here, but what compare says of two queries may not hold."
        self.assertEqual(err.splitlines()[3:], ["  missing: layer(101, 850, 1461, 2716)", last])
        err = run("evaluate", LAYERS, "ans(f) :- flight(f, _, _)", DATA)[2]
        self.assertEqual(err.splitlines()[-1], "The query does not ask for layer, and its long and short form have the same answers here.")
        record = Record.read(LAYERS)
        data = {"flight": [], "layer": [(1, 2, "x", 4), (1, 2, "y", 5)]}
        self.assertEqual(record.test(data), BrokenJoin(0, (0, 1)))
        message = r"breaks layer: join .* \(row 0 of layer: layer\(1, 2, 'x', 4\); row 1 of .*; missing: layer\(1, 2, 'x', 5\)\): the long"
        with self.assertWarnsRegex(UserWarning, message):
            record.evaluate(1, data)
        with warnings.catch_warnings():
            warnings.simplefilter("error")
            record.evaluate(1, {"flight": [], "layer": data["layer"][:1]})

    def test_reduce(self):
        done = self.done("reduce", self.file, 1)
        self.assertEqual(
            done, f"{self.file}: place 3 holds the short form of place 1, 3 rows: ans(f, h, t) :- flight(f, _, 7), layer(f, l, h, _), layer(f, l, _, t)\n"
        )
        self.assertEqual(len(Record.read(self.file).join_dependencies), 1)
        self.assertEqual(
            self.done("determined", LAYERS, "layer", "flight", "level"), "layer: flight, level determines flight, level (2 of 4 columns)\n"
        )
        for name in ("list", "show", "reduce", "define"):
            said = " ".join(run(name, "--help")[1].split())
            self.assertIn("The short form is judged under the functional dependencies only: join dependencies do not make it shorter.", said)

    def test_define(self):
        text = self.done("define", LAYERS, 1)
        self.assertIn(f"  Dependencies needed:\n    none\n  Join dependencies, which the short form does not use:\n    {JOIN}\n  Long form, 3 rows:\n", text)
        self.assertNotIn("Join", self.done("define", LAYERS, "ans(f) :- flight(f, _, _)"))
        found = json.loads(self.done("define", LAYERS, 1, "--format", "json"))
        sets = [["flight", "level", "height"], ["flight", "level", "temperature"]]
        self.assertEqual((found["dependencies"], found["join_dependencies"]), ([], [{"table": "layer", "sets": sets}]))
        tex = self.done("define", LAYERS, 1, "--format", "latex")
        self.assertIn(r"\textbf{Join dependencies, which the short form does not use.}", tex)
        columns = [", ".join(rf"\textit{{{name}}}" for name in one) for one in sets]
        self.assertIn(rf"\textsf{{layer}}:~$\bowtie$~({columns[0]}) ({columns[1]})", tex)
        self.assertEqual(self.done("define", LAYERS, 1, "--format", "sql").count("SELECT"), 1)
        record = Record.read(LAYERS)
        needs = define(record, record.names, 0)
        self.assertEqual(needs.used, ())
        query = "ans(f, s, z) :- flight(f, s, _), flight(f, z, _), layer(f, _, _, _)"
        text = self.done("define", LAYERS, query, "--format", "latex")
        self.assertIn("On every finite database that obeys these functional dependencies the two forms", text)
        query = query[: query.index(", layer")]
        self.assertIn("On every finite database that obeys these dependencies the two forms", self.done("define", LAYERS, query, "--format", "latex"))
        self.assertTrue(latex.dependency(record.join_dependencies[0], record.names).isascii())

    def test_page(self):
        text = self.done("page", LAYERS)
        self.assertIn("<p>2 tables, 3 dependencies, 3 saved queries.</p>", text)
        self.assertIn("On every database that obeys the functional dependencies the short form has", text)
        self.assertIn("Join dependencies make no form shorter.", text)
        self.assertIn(f"<li><code>{JOIN}</code></li>", text)
        self.assertIn(f"<dt>Join dependencies, which the short form does not use</dt><dd><code>{JOIN}</code></dd>", text)
        flights = page(Record.read(context.SAMPLES / "flights.file"), Record.read(context.SAMPLES / "flights.file").names)
        self.assertNotIn("Join", flights)
        self.assertIn("On every database that obeys the dependencies the short form has", flights)

    def test_wrong_archives(self):
        data = Record.read(LAYERS).file.replace(bytes([1, 1, 2, 7, 11]), bytes([1, 1, 2, 7, 3]))
        bad = self.write("bad.file", data)
        self.failed(f"{bad} is no archive file, and no text: a join dependency is wrong: its table must exist, and it has 2 to 4 sets", "list", bad)


if __name__ == "__main__":
    unittest.main()
