"""The text form of a whole record: round trips to the byte, and errors that say where."""

import random
import unittest

import context
from spernevan import Names, NotationError, Query, Record, Table, pack, unpack

SMALL = """
# two tables
flight(number, sonde)
burst(flight, height)

flight: number -> sonde     # a flight has one sonde
burst: join (flight) (height, flight)
burst: flight, height -> height
2: ans(f, h) :- flight(f, s), burst(f, h)
0: ans(_) :- never
"""


@context.with_engine
class Text(unittest.TestCase):
    def test_pack(self):
        record, names = pack(SMALL)
        self.assertEqual(record.widths, (2, 2))
        self.assertEqual([(d.relation, d.left, d.right) for d in record.dependencies], [(0, {0}, 1), (1, {0, 1}, 1)])
        self.assertEqual([(d.relation, d.sets) for d in record.join_dependencies], [(1, ({0}, {0, 1}))])
        self.assertEqual([place for place in range(8) if record.queries[place]], [0, 2])
        self.assertEqual(record.queries[0], Query.never(1))
        self.assertEqual(names.tables[1], Table("burst", ("flight", "height")))
        self.assertEqual(names.variables, {0: {}, 2: {0: "f", 1: "h", 2: "s"}})
        self.assertEqual(
            unpack(record, names),
            "flight(number, sonde)\nburst(flight, height)\n\n"
            "flight: number -> sonde\nburst: flight, height -> height\nburst: join (flight) (flight, height)\n\n"
            "0: ans(_) :- never\n2: ans(f, h) :- flight(f, s), burst(f, h)\n",
        )
        self.assertEqual(unpack(record, Names.default(record.widths)).splitlines()[-1],
                         "2: ans(v0, v1) :- R0(v0, _), R1(v0, v1)")

    def test_round_trip_to_the_byte(self):
        rng = random.Random(9)
        for _ in range(12 * context.MANY):
            record = context.random_record(rng, most_joins=rng.choice([0, 4]), constants=rng.choice([0, 3]))
            plain = Names.default(record.widths)
            again, _ = pack(unpack(record, plain))
            self.assertEqual(again.file, record.file)
            # Names for some variables never change the numbers.
            named = Names(
                plain.tables,
                {p: {n: f"x{n}" for n in range(96) if rng.random() < 0.8} for p in range(8) if rng.random() < 0.8},
            )
            again, names = pack(unpack(record, named))
            self.assertEqual(again.file, record.file)
            for place in record.filled():
                occurring = record.queries[place].variables()
                kept = {n: name for n, name in named.variables.get(place, {}).items() if n in occurring}
                self.assertEqual(names.variables[place], kept)

    def test_names_that_are_given_their_numbers(self):
        text = "flight(number, sonde)\n0: f, v1, v2, s\n0: ans(f) :- flight(f, s), flight(_, x), flight(x, _)\n"
        record, names = pack(text)
        rows = [[entry.number for entry in row.entries] for row in record.queries[0].rows]
        self.assertEqual((rows, names.variables[0]), ([[0, 3], [1, 2], [2, 4]], {0: "f", 2: "x", 3: "s"}))
        self.assertEqual(unpack(record, names).splitlines()[-2:], ["0: f, v1, x, s", "0: ans(f) :- flight(f, s), flight(_, x), flight(x, _)"])
        # A blank that would be read back with another number is written with its own.
        record, names = pack("R(a, b)\n0: ans() :- R(v5, v6), R(v0, v7)\n")
        self.assertEqual(unpack(record, names).splitlines()[-1], "0: ans() :- R(v5, v6), R(_, v7)")
        self.assertEqual(pack(unpack(record, names))[0], record)

    def test_names_come_back(self):
        record, names = pack(SMALL)
        again, known = pack(unpack(record, names))
        self.assertEqual((again, known), (record, names))

    def test_the_samples(self):
        record, names = pack((context.SAMPLES / "flights.text").read_text())
        self.assertEqual(record.file, (context.SAMPLES / "flights.file").read_bytes())
        self.assertEqual(pack(unpack(record, names)), (record, names))
        example = Record.read(context.SAMPLES / "example.file")
        self.assertEqual(pack(unpack(example, Names.default([3])))[0], example)

    def test_names_must_fit(self):
        record, _ = pack(SMALL)
        with self.assertRaisesRegex(ValueError, "names for 1 table, the record has 2"):
            unpack(record, Names.default([2]))

    def test_errors_say_where(self):
        table = "flight(number, sonde)\n"
        cases = [
            ("", "1:1: a text has at least one table"),
            ("# nothing\n", "2:1: a text has at least one table"),
            (table + "flight: number", "2:15: ',' or '->' was expected, not the end"),
            (table + "flight: height -> sonde", "2:9: flight(number, sonde) has no column height"),
            (table + "flight: ->", "2:11: the name of a column was expected, not the end"),
            (table + "flight: -> -> sonde", "2:12: the name of a column was expected, not '->'"),
            (table + "flight: -> height", "2:12: flight(number, sonde) has no column height"),
            (table + "flight: -> number sonde", "2:19: a comma is missing before sonde"),
            (table + "flight: , number -> sonde", "2:9: the name of a column or '->' was expected, not ','"),
            (table + "flight: number, -> sonde", "2:17: the name of a column was expected, not '->'"),
            (table + "flight:", "2:8: the name of a column or '->' was expected, not the end"),
            (table + "flight: () -> sonde", "2:9: the name of a column or '->' was expected, not '('"),
            (table + "flight: \u2205 -> sonde", "2:9: '\u2205' has no meaning here; a column that never varies has nothing before its '->', as in flight: -> site"),
            (table + "flight: number -> sonde number", "2:25: a comma is missing before number"),
            (table + "flight: number sonde -> number", "2:16: a comma is missing before sonde"),
            (table + "flight: number -> sonde,", "2:25: the name of a column was expected, not the end"),
            (table + "flight: 'number' -> sonde", "2:9: the name of a column or '->' was expected, not the text 'number'"),
            (table + "flight: join number, sonde", "2:14: a set of columns between parentheses was expected, not 'number'"),
            (table + "flight: join", "2:13: a set of columns between parentheses was expected, not the end"),
            (table + "flight: join (number, sonde)", "2:9: a join has 2 to 4 sets of columns, each between parentheses"),
            (table + "flight: join" + " (number, sonde)" * 5, "2:78: a join has 4 sets of columns at most"),
            (table + "flight: join () (number, sonde)", "2:15: a set of a join has at least one column"),
            (table + "flight: join (number), (sonde)", "2:22: no comma goes between the sets of a join"),
            (table + "flight: join (number) (number)", "2:9: the sets of a join have every column of flight(number, sonde) among them; sonde is in none"),
            (table + "flight: join (number sonde) (sonde)", "2:22: a comma is missing before sonde"),
            (table + "flight: join (number) (height)", "2:24: flight(number, sonde) has no column height"),
            (table + "flight: join (number) (sonde) -> sonde", "2:31: the end of the line was expected, not '->'"),
            (table + "flight: \u22c8 (number) (sonde)", "2:9: '\u22c8' has no meaning here; a join dependency is written with the word"),
            (table + "flight: join (number) (sonde)\n" * 5, "6:1: an archive has 4 join dependencies at most"),
            (table + "burst: join (a) (b)", "2:1: there is no table burst; there is flight"),
            (table + "7 = 'x'", "2:1: a code must be from 2000000000"),
            (table + "burst: number -> sonde", "2:1: there is no table burst; there is flight"),
            ("burst: a -> b\n" + table, "1:1: there is no table burst; the lines of the tables come first"),
            (table + "8: ans() :- never", "2:1: a place must be from 0 to 7, not 8"),
            (table + "0 ans() :- never", "2:3: ':' was expected, not 'ans'"),
            (table + "0: ans() :- never\n0: ans() :- never", "3:1: place 0 is filled on line 2"),
            (table + "ans() :- never", "2:1: a saved query has its place before it, as in 0: ans(.."),
            (table + "0: ans() :- flight(x, y) z", "2:26: the end of the line was expected, not 'z'"),
            (table + "0: ans(z) :- flight(x, y)", "2:8: z is in no row"),
            (table + "flight -> sonde", "2:8: ':' was expected, not '->'"),
            (table + "-> sonde", "2:1: a line such as flight(number, sonde), flight: number -> sonde or 0: ans(f) :- .. was expected, not '->'"),
            (table + "flight: number > sonde", "2:16: '>' has no meaning here; a rule has rows alone, joined by equal values, and no comparisons; a dep"),
            (table + "flight: number \u2192 sonde", "2:16: '\u2192' has no meaning here; '->' goes between the columns of a dependency, or between two codes"),
            ("flight(number TEXT, sonde)", "1:15: a comma is missing before TEXT; a column has a name and no type"),
            (table + "0: flight(x, y)", "2:4: a rule begins with ans, not flight"),
            (table + "flight: number -> sonde\n" * 33, "34:1: an archive has 32 functional dependencies at most, and these make 33; "),
            (table + "\t\u00b5\u00a7", "2:3: '\u00a7' has no meaning here"),
            (table + "0: f, s\n", "2:1: these are names for the variables of place 0, whose rule, 0: ans(.., is missing below"),
            (table + "0: f\n0: s\n", "3:1: the variables of place 0 have their names on line 2"),
            (table + "0: ans() :- never\n0: f\n", "3:1: place 0 is filled on line 2"),
            (table + "0: v1\n", "2:4: v1 cannot be the name of v0"),
        ]
        for text, message in cases:
            with self.subTest(text=text[-40:]), self.assertRaises(NotationError) as caught:
                pack(text, "a.text")
            self.assertTrue(str(caught.exception).startswith(f"a.text:{message}"), str(caught.exception))

    def test_any_text_is_a_record_or_an_error(self):
        rng = random.Random(10)
        words = SMALL.replace("(", " ( ").replace(")", " ) ").replace(",", " , ").split(" ")
        for _ in range(600 * context.MANY):
            mixed = list(words)
            for _ in range(rng.randint(1, 3)):
                at = rng.randrange(len(mixed))
                mixed[at : at + rng.randint(0, 2)] = rng.choices(words, k=rng.randint(0, 2))
            try:
                record, names = pack(" ".join(mixed))
            except NotationError:
                continue
            self.assertEqual(pack(unpack(record, names))[0], record)


if __name__ == "__main__":
    unittest.main()
