"""Codes that were renumbered: the calls, their refusals, the reading of queries and databases, the text form, and every command."""

import json
import random
import shutil
import sqlite3
import tempfile
import unittest
import warnings
from array import array
from contextlib import closing
from datetime import date
from decimal import Decimal
from pathlib import Path

import context
from context import MANY, plain_answers, plain_broken, plain_read, plain_short, random_data, random_pairs, random_record
from spernevan import (
    Broken,
    BrokenJoin,
    CodePair,
    Constant,
    Dependency,
    JoinDependency,
    Names,
    NotationError,
    Query,
    Record,
    Refused,
    Row,
    Table,
    Values,
    Variable,
    engine,
    latex,
    pack,
    read_database,
    unpack,
)
from spernevan.definition import define, define_query
from spernevan.model import decode_file
from spernevan.notation import code_fault, format_code, format_codes, is_read, parse_added, parse_dependencies
from spernevan.page import page
from spernevan.sql import archive_sql
from test_command import Command, run
from test_page import Tree

TEXT = str(context.SAMPLES / "catalogue.text")
DATA = str(context.SAMPLES / "catalogue.data")
ROWS = 100_000
TABLES = (Table("flight", ("number", "sonde", "site")), Table("burst", ("flight", "height")))


def names():
    return Names(TABLES)


def v(number):
    return Variable(number)


def c(number):
    return Constant(number)


class Notation(unittest.TestCase):
    def test_model(self):
        self.assertEqual((CodePair(5, 9).old, CodePair(5, 9).current), (5, 9))
        self.assertEqual(CodePair(0, 2**32 - 1), CodePair(0, 2**32 - 1))
        for old, current in ((-1, 0), (0, 2**32), ("5", 9), (5, None), (True, 9)):
            with self.assertRaises(ValueError):
                CodePair(old, current)
        query = Query((c(5), v(0)), (Row(0, (c(5), v(0), c(9))), Row(0, (c(6), c(0), v(1)))))
        read = Query((c(9), v(0)), (Row(0, (c(9), v(0), c(9))), Row(0, (c(7), c(0), v(1)))))
        self.assertEqual((query.read([CodePair(5, 9), CodePair(6, 7)]), query.read([])), (read, query))
        self.assertEqual(Query.never(3).read([CodePair(0, 9)]), Query.never(3))

    def test_bytes(self):
        """The pairs stand in part 0, after the widths."""
        pairs = bytes([2, 5, 0, 0, 0, 9, 0, 0, 0, 255, 255, 255, 127, 0, 1, 0, 0])
        for past, held in ((b"", ()), (pairs, (CodePair(5, 9), CodePair(2**31 - 1, 256)))):
            first = bytes([2, 3, 1]) + past
            parts = (first, bytes([0]), bytes([0, 0]))
            at, file = 2 + 4 * len(parts), bytes([len(parts), 0])
            for part in parts:
                file += at.to_bytes(2, "little") + len(part).to_bytes(2, "little")
                at += len(part)
            found = decode_file(file + b"".join(parts))
            self.assertEqual((found.widths, found.code_pairs, found.dependencies, found.queries[0]), ((3, 1), held, (), Query.never(0)))

    def test_read(self):
        for text, found in (
            ("code 5 -> 9", CodePair(5, 9)),
            ("code 5->9", CodePair(5, 9)),
            ("\n code  0 ->\n 1999999999  # renumbered", CodePair(0, 1999999999)),
            ("code 7.0 -> 9", CodePair(7, 9)),
        ):
            with self.subTest(text=text):
                self.assertEqual(parse_added(text, names()), [found])
        self.assertEqual(parse_added("flight: number -> sonde", names()), [Dependency(0, {0}, 1)])
        self.assertEqual(parse_added("flight(number*, sonde, site)", names()), [Dependency(0, {0}, 1), Dependency(0, {0}, 2)])
        self.assertEqual(parse_added("burst: join (flight) (height)", names()), [JoinDependency(1, ({0}, {1}))])

    def test_values(self):
        """A value that is no plain number stands for its number, as in a rule."""
        held = names()
        (one,) = parse_added("code 'S0451' -> 'S9451'", held)
        (two,) = parse_added("code 12.5 -> 'S9451'", held)
        (three,) = parse_added("code 2026-01-14 -> 7", held)
        self.assertEqual((one, two, three), (CodePair(2000000000, 2000000001), CodePair(2000000002, 2000000001), CodePair(2000000003, 7)))
        lines = ["code 'S0451' -> 'S9451'", "code 12.5 -> 'S9451'", "code 2026-01-14 -> 7"]
        self.assertEqual(format_codes([one, two, three], held), lines)
        self.assertEqual([pair for line in lines for pair in parse_added(line, held)], [one, two, three])
        self.assertEqual(is_read(one, held), "'S0451' is read as 'S9451'")
        self.assertEqual(format_codes([one], names()), ["code 2000000000 -> 2000000001"])
        self.assertEqual((format_code(5, held), format_code(2000000002, held)), ("5", "12.5"))

    def test_errors(self):
        for text, message in (
            ("code", "code:1:5: an old code was expected, not the end"),
            ("code 5", "code:1:7: '->' was expected, not the end"),
            ("code 5 9", "code:1:8: '->' was expected, not '9'"),
            ("code 5 ->", "code:1:10: a current code was expected, not the end"),
            ("code -> 9", "code:1:6: an old code was expected, not '->'"),
            ("code 5, 6 -> 9", "code:1:7: each old code has a line of its own"),
            ("code 5 -> 9, 10", "code:1:12: the end was expected, not ','"),
            ("code 5 -> 9 -> 10", "code:1:13: the end was expected, not '->'"),
            ("code S0451 -> 9", "code:1:6: an old code was expected, not 'S0451'; a text stands between quotes"),
            ("code 5 -> S0451", "code:1:11: a current code was expected, not 'S0451'; a text stands between quotes"),
            ("code 5 = 9", "code:1:8: '->' was expected, not '='"),
            ("code 5 \u2192 9", "code:1:8: '\u2192' has no meaning here; '->' goes between the columns of a dependency, or between two codes"),
            ("codes 5 -> 9", "dependency:1:1: there is no table codes; there is flight, burst"),
            ("flight; number -> site", "dependency:1:7: ';' has no meaning here; ',' goes between the rows of a rule, and each row of a database has its own line"),
            ("code: number -> site", "dependency:1:1: there is no table code; there is flight, burst"),
        ):
            with self.subTest(text=text), self.assertRaises(NotationError) as caught:
                parse_added(text, names())
            self.assertEqual(str(caught.exception), message)

    def test_a_table_called_code(self):
        held = Names((Table("code", ("old", "new")),))
        self.assertEqual(parse_added("code: old -> new", held), [Dependency(0, {0}, 1)])
        self.assertEqual(parse_added("code(old*, new)", held), [Dependency(0, {0}, 1)])
        self.assertEqual(parse_added("code 5 -> 9", held), [CodePair(5, 9)])
        with self.assertRaisesRegex(NotationError, "':' was expected, not '->'"):
            parse_added("code -> new", held)
        with self.assertRaisesRegex(NotationError, "':' was expected, not '5'"):
            parse_dependencies("code 5 -> 9", held)

    def test_faults(self):
        held = [CodePair(3, 5), CodePair(9, 11)]
        for pair, words in (
            (CodePair(5, 5), "code 5 -> 5: the old and the current code are equal"),
            (CodePair(2**31, 7), "code 2147483648 -> 7: a code is at most 2147483647"),
            (CodePair(7, 2**32 - 1), "code 7 -> 4294967295: a code is at most 2147483647"),
            (CodePair(3, 7), "code 3 -> 7: 3 is an old code already, in code 3 -> 5"),
            (CodePair(3, 5), "code 3 -> 5: 3 is an old code already, in code 3 -> 5"),
            (CodePair(5, 7), "code 5 -> 7: 5 is the current code in code 3 -> 5, which then has to be code 3 -> 7"),
            (CodePair(7, 9), "code 7 -> 9: 9 is an old code itself, in code 9 -> 11; the current one is 11"),
            (CodePair(7, 5), ""),
            (CodePair(7, 8), ""),
            (CodePair(2**31 - 1, 0), ""),
        ):
            with self.subTest(pair=pair):
                self.assertEqual(code_fault(pair, held, names()), words)
        self.assertEqual(code_fault(CodePair(5, 7), [], names()), "")
        texts = Names(TABLES, {}, Values([(2000000000, "old"), (2000000001, "new")]))
        self.assertEqual(code_fault(CodePair(7, 2000000000), [CodePair(2000000000, 2000000001)], texts),
                         "code 7 -> 'old': 'old' is an old code itself, in code 'old' -> 'new'; the current one is 'new'")


@context.with_engine
class Codes(unittest.TestCase):
    def refused(self, number, call, *arguments):
        with self.assertRaises(Refused) as caught:
            call(*arguments)
        self.assertEqual(caught.exception.number, number)
        return caught.exception.meaning


class Calls(Codes):
    def test_add(self):
        record = Record.open([3, 1]).add(0, [0], 1)
        self.assertEqual(record.code_pairs, ())
        coded = record.add_code(5, 9).add_code(2**31 - 1, 0).add_code(6, 9)
        self.assertEqual(coded.code_pairs, (CodePair(5, 9), CodePair(2**31 - 1, 0), CodePair(6, 9)))
        self.assertIn(bytes([2, 3, 1, 3, 5, 0, 0, 0, 9, 0, 0, 0, 255, 255, 255, 127, 0, 0, 0, 0, 6, 0, 0, 0, 9, 0, 0, 0, 1, 0, 1, 1]), coded.file)
        self.assertEqual((coded.widths, coded.dependencies, record.code_pairs), ((3, 1), record.dependencies, ()))
        self.assertEqual(coded, record.add("code 5 -> 9").add_all([CodePair(2**31 - 1, 0), CodePair(6, 9)]))
        self.assertEqual(coded, record.add_all(coded.code_pairs))
        self.assertEqual((Record(coded.file), engine.write(coded.file)), (coded, coded.file))
        self.assertEqual(engine.add_code(record.file, 5, 9), record.add_code(5, 9).file)
        self.assertEqual(coded.put(0, "ans() :- never").drop(0), coded)
        self.assertEqual(coded.add(1, [0], 0).add_join(1, [[0], [0]]).code_pairs, coded.code_pairs)
        self.assertEqual(repr(coded), "<Record of R0, R1; 1 dependency, 3 renumbered codes; filled places: none>")
        self.assertEqual(repr(record.add_code(5, 9)), "<Record of R0, R1; 1 dependency, 1 renumbered code; filled places: none>")
        self.assertIn("code 5 -&gt; 9", coded._repr_html_())

    def test_values(self):
        record = Record.open([2]).add_code("S0451", "S9451").add_code(Decimal("12.5"), 7).add_code(date(2026, 1, 14), 13.0)
        self.assertEqual(record.code_pairs, (CodePair(2000000000, 2000000001), CodePair(2000000002, 7), CodePair(2000000003, 13)))
        self.assertEqual(str(record).splitlines()[2:], ["code 'S0451' -> 'S9451'", "code 12.5 -> 7", "code 2026-01-14 -> 13"])
        for wrong in (True, None, -1, 2**32, [5]):
            with self.assertRaises(ValueError):
                record.add_code(wrong, 9)
            with self.assertRaises(ValueError):
                record.add_code(8, wrong)

    def test_refusals(self):
        record = Record.open([2]).add_code(3, 5).add_code(9, 11)
        for old, current, words in (
            (7, 7, "code 7 -> 7: the old and the current code are equal"),
            (2**31, 7, "code 2147483648 -> 7: a code is at most 2147483647"),
            (7, 2**31, "code 7 -> 2147483648: a code is at most 2147483647"),
            (2**32 - 1, 2**32 - 2, "code 4294967295 -> 4294967294: a code is at most 2147483647"),
            (3, 7, "code 3 -> 7: 3 is an old code already, in code 3 -> 5"),
            (5, 7, "code 5 -> 7: 5 is the current code in code 3 -> 5, which then has to be code 3 -> 7"),
            (7, 9, "code 7 -> 9: 9 is an old code itself, in code 9 -> 11; the current one is 11"),
        ):
            with self.subTest(old=old, current=current):
                self.assertEqual(self.refused(18, record.add_code, old, current), words)
                self.assertEqual(self.refused(18, record.add_all, [CodePair(100, 101), CodePair(old, current)]), words)
        self.assertEqual(self.refused(18, record.add, "code 7 -> 7"), "code 7 -> 7: the old and the current code are equal")
        # The faults of a pair are told before the number of those held.
        full = record.add_all([CodePair(20 + number, 5) for number in range(14)])
        self.assertEqual(len(full.code_pairs), 16)
        self.refused(18, full.add_code, 7, 7)
        self.refused(18, full.add_code, 20, 6)
        held = "16 renumbered codes are held, which is as many as there may be"
        self.assertEqual((self.refused(19, full.add_code, 7, 8), self.refused(19, full.add, "code 7 -> 8")), (held, held))
        some = Record.open([2]).add_all(full.code_pairs[:15])
        self.assertEqual(
            self.refused(19, some.add_all, [Dependency(0, {0}, 1), CodePair(40, 41), CodePair(42, 41)]),
            "15 renumbered codes are held, and 2 more would make 17; there may be 16",
        )
        self.assertEqual(self.refused(19, Record.open([2]).add_all, [CodePair(number, 99) for number in range(17)]),
                         "0 renumbered codes are held, and 17 more would make 17; there may be 16")

    def test_files(self):
        """Bytes past the widths are pairs of codes or refused, after bad widths and before a bad dependency."""
        record = Record.open([2]).add(0, [0], 1).add_code(5, 9).put(0, "ans(x) :- R0(x, y)")
        held = bytes([1, 2, 1, 5, 0, 0, 0, 9, 0, 0, 0])
        self.assertIn(held, record.file)
        for other in ([1, 5, 0, 0, 0, 5, 0, 0, 0], [1, 5, 0, 0, 128, 9, 0, 0, 0], [1, 5, 0, 0, 0, 9, 0, 0, 128], [0, 5, 0, 0, 0, 9, 0, 0, 0],
                      [2, 5, 0, 0, 0, 9, 0, 0, 0], [17, 5, 0, 0, 0, 9, 0, 0, 0]):
            bad = record.file.replace(held, bytes([1, 2, *other]))
            for call in (Record, engine.write, engine.read):
                self.refused(18, call, bad)
            self.refused(18, Record, bad.replace(bytes([1, 0, 1, 1]), bytes([1, 0, 1, 2])))
            self.refused(3, Record, bad.replace(bytes([1, 2, *other]), bytes([1, 9, *other])))
        self.refused(4, Record, record.file.replace(bytes([1, 0, 1, 1]), bytes([1, 0, 1, 2])))

    def test_any_bytes_are_a_record_or_refused(self):
        rng = random.Random(31)
        sound = Record.open([2, 3]).add(0, [0], 1).add_all([CodePair(5, 9), CodePair(6, 9), CodePair(2**31 - 1, 0)]).put(0, "ans(x, 5) :- R0(x, y)").file
        accepted = 0
        for _ in range(1000 * MANY):
            file = bytearray(sound)
            for _ in range(rng.randint(0, 2)):
                file[rng.randrange(len(file))] = rng.choice([0, 1, 2, 3, 5, 6, 9, 128, 255, rng.randrange(256)])
            try:
                record = Record(bytes(file))
            except Refused as refused:
                self.assertIn(refused.number, [*range(1, 7), 15, 18])
                continue
            accepted += 1
            self.assertEqual((engine.write(record.file), pack(unpack(record, record.names))[0].file), (file, file))
        self.assertGreater(accepted, 100)

    def test_stored_queries_stay(self):
        record = Record.open([2]).put(0, "ans(x, 5) :- R0(x, 5)").add_code(5, 9).put(1, "ans(x, 5) :- R0(x, 5)")
        stored = Query((v(0), c(5)), (Row(0, (v(0), c(5))),))
        self.assertEqual(record.queries[:2], (stored, stored))
        self.assertEqual((record.query(0), Record(record.file).query(1)), (stored, stored))
        short = record.reduce(0, 2)
        self.assertEqual((short.result, short.record.query(0), short.record.query(2)), (stored.read(record.code_pairs), stored, short.result))
        # 0 may be an old code; the places of a query that are not in use and never stay.
        zero = Record.open([2]).add_code(0, 9).put(0, "ans(0) :- R0(x, 0)").put(1, "ans(_) :- never")
        self.assertEqual((zero.shorten(0).result, zero.shorten(1).result), (Query((c(9),), (Row(0, (v(0), c(9))),)), Query.never(1)))

    def test_compare(self):
        record = Record.open([2]).add_code(5, 9).add_code(6, 9)
        old, current, other = "ans(x) :- R0(x, 5)", "ans(x) :- R0(x, 9)", "ans(x) :- R0(x, 7)"
        for one in (old, current, "ans(x) :- R0(x, 6)"):
            for two in (old, current):
                self.assertTrue(record.compare(one, two).contained)
                self.assertTrue(record.equivalent(one, two))
            self.assertFalse(record.equivalent(one, other))
        compared = record.compare(old, other)
        self.assertEqual(compared.counterexample(), ([(0, (2**31, 9))], (2**31,)))
        self.assertEqual(record.compare("ans(5) :- R0(x, y)", "ans(9) :- R0(x, y)").mapping, {0: v(0), 1: v(1)})
        self.assertEqual(record.compare(old, "ans(x) :- R0(x, y)").mapping, {0: v(0), 1: c(9)})
        self.assertFalse(Record.open([2]).equivalent(old, current))

    def test_chase(self):
        """Constants clash when they differ after reading."""
        record = Record.open([2]).add(0, [0], 1)
        clash = "ans() :- R0(x, 5), R0(x, 9)"
        self.assertTrue(record.shorten(clash).result.is_never)
        coded = record.add_code(5, 9)
        self.assertEqual(coded.shorten(clash).result, Query((), (Row(0, (v(0), c(9))),)))
        self.assertTrue(coded.shorten("ans() :- R0(x, 5), R0(x, 8)").result.is_never)
        joined = coded.add_all([CodePair(3, 4)]).shorten("ans(y) :- R0(3, y), R0(4, z), R0(w, 5)")
        self.assertEqual((joined.replaced, joined.result), (1, Query((v(0),), (Row(0, (c(4), v(0))), Row(0, (v(2), c(9)))))))

    def test_check(self):
        record = Record.open([2]).add_code(5, 9).put(0, "ans(5) :- R0(x, 5)").put(1, "ans(y) :- R0(x, y)").put(2, "ans(9) :- R0(x, 9)")
        for image in (5, 9):
            self.assertTrue(record.check(0, 1, {0: c(image), 1: v(0)}))
        self.assertFalse(record.check(0, 1, {0: c(8), 1: v(0)}))
        self.assertTrue(record.check(0, 2, {0: v(0)}))
        self.assertTrue(record.check(2, 0, {0: v(0)}))

    def test_test(self):
        """Rows are read before they are tested; positions are those of the rows as they arrive."""
        record = Record.open([2, 1]).add(0, [0], 1).add_code(5, 9).add_code(0, 1)
        self.assertIsNone(record.test([(0, (5, 7)), (1, (5,)), (0, (9, 7))]))
        self.assertEqual(record.test([(1, (9,)), (0, (5, 7)), (0, (4, 1)), (0, (9, 8))]), Broken(0, 1, 3))
        self.assertIsNone(record.test([(0, (4, 0)), (0, (4, 1)), (0, (4, 0))]))
        # A relation's number is no code.
        self.assertEqual(record.test([(0, (4, 0)), (0, (4, 2)), (1, (0,))]), Broken(0, 0, 1))
        joined = Record.open([2]).add_join(0, [[0], [1]]).add_code(5, 9)
        self.assertIsNone(joined.test([(0, (5, 7)), (0, (9, 8))]))
        self.assertEqual(joined.test([(0, (5, 7)), (0, (6, 8))]), BrokenJoin(0, (0, 1)))

    def test_evaluate(self):
        record = Record.open([2, 1]).add_code(5, 9).add_code(6, 9)
        rows = [(0, (1, 5)), (0, (2, 9)), (0, (3, 6)), (0, (4, 7)), (1, (5,)), (1, (6,))]
        for rule in ("ans(x) :- R0(x, 5)", "ans(x) :- R0(x, 9)"):
            self.assertEqual((record.evaluate(rule, rows), record.count(rule, rows)), ([(1,), (2,), (3,)], 3))
        self.assertEqual(record.evaluate("ans(x) :- R1(x)", rows), [(9,)])
        self.assertEqual(record.evaluate("ans(x, y) :- R0(x, y), R1(y)", rows), [(1, 9), (2, 9), (3, 9)])
        self.assertEqual(record.evaluate("ans(5, x) :- R0(4, x)", rows), [(9, 7)])
        words = array("I", [0, 1, 5, 1, 9])
        self.assertEqual((record.evaluate("ans(x) :- R0(x, y), R1(y)", words), list(words)), ([(1,)], [0, 1, 5, 1, 9]))

    def test_random(self):
        """Whatever is asked with pairs held is what is asked without them of queries and databases that are read beforehand."""
        rng = random.Random(77)
        changed = 0
        for _ in range(80 * MANY):
            record = random_record(rng, most_width=3, most_relations=2, most_dependencies=3, most_joins=rng.choice([0, 1]), most_rows=3, most_head=2, constant=0.4)
            pairs = random_pairs(rng, rng.randint(1, 6), range(5))
            coded = record.add_all(pairs)
            self.assertEqual((coded.code_pairs, coded.queries), (tuple(pairs), record.queries))
            read = Record.open(record.widths).add_all(record.all_dependencies)
            for place in record.filled():
                read = read.put(place, record.query(place).read(pairs))
            rows = random_data(rng, record.widths, values=5, most_rows=6)
            self.assertEqual(coded.test(rows), plain_broken(read, plain_read(pairs, rows)))
            for place in coded.filled():
                self.assertEqual(coded.evaluate(place, rows), plain_answers(read.query(place), plain_read(pairs, rows)))
                changed += read.query(place) != record.query(place)
                before, after = coded.shorten(place), read.shorten(place)
                self.assertEqual((before.result, before.replaced), (after.result, after.replaced))
                if not record.dependencies:
                    self.assertEqual(before.result, plain_short(read.query(place)))
                for other in coded.filled():
                    outcomes = []
                    for one in (coded, read):
                        try:
                            found = one.compare(place, other)
                            outcomes.append((found.contained, found.chased))
                        except Refused as refused:
                            outcomes.append(refused.number)
                    self.assertEqual(*outcomes)
        self.assertGreater(changed, 20)

    def test_many_rows(self):
        """A tenth of a million rows are read as few are."""
        rng = random.Random(81)
        pairs = random_pairs(rng, 30, range(100))[:16]
        self.assertEqual(len(pairs), 16)
        bare = Record.open([2, 1]).add(0, [0], 1)
        record = bare.add_all(pairs)
        rows = [(0, (1000 + number, number % 100)) for number in range(ROWS)] + [(1, (code,)) for code in range(0, 100, 3)]
        read = plain_read(pairs, rows)
        self.assertIsNone(record.test(rows))
        for rule in ("ans(x) :- R0(x, y), R1(y)", "ans(y) :- R0(x, y)", f"ans(x, {pairs[0].old}) :- R0(x, {pairs[0].old})"):
            asked = bare.placed(rule)[0].query(0).read(pairs)
            self.assertEqual(record.evaluate(rule, rows), bare.evaluate(asked, read))
            self.assertEqual(record.count(rule, rows), bare.count(asked, read))
        old = next(number for number in range(ROWS) if number % 100 == pairs[0].old)
        self.assertIsNone(record.test([*rows, (0, (1000 + old, pairs[0].current))]))
        self.assertEqual(bare.test([*rows, (0, (1000 + old, pairs[0].current))]), Broken(0, old, len(rows)))
        self.assertEqual(record.test([*rows, (0, (1000 + old, 999))]), Broken(0, old, len(rows)))

    def test_definition(self):
        """The images of rows, and the dependencies that are needed, are told of rows that are read."""
        rng = random.Random(78)
        for _ in range(40 * MANY):
            record = random_record(rng, most_width=3, most_relations=2, most_dependencies=3, most_codes=5, most_rows=4, most_head=2, constant=0.4)
            for place in record.filled():
                one = define(record, record.names, place)
                read = record.query(place).read(record.code_pairs)
                self.assertEqual((one.long, one.chased.is_never), (record.query(place), one.short.is_never))
                if not one.short.is_never:
                    self.assertEqual(len(one.images()), len(read.rows))
                    self.assertEqual(sorted(row for row in one.kept() if row is not None), list(range(len(one.short.rows))))
                self.assertEqual([pair.old for pair in one.old_codes()],
                                 [pair.old for pair in record.code_pairs if c(pair.old) in record.query(place).entries()])
                self.assertIsInstance(one.used, tuple)


@context.with_engine
class Texts(Codes):
    def test_round_trip(self):
        text = (
            "flight(number, sonde, site)\nburst(flight, height)\n\nflight: number -> sonde\n\n"
            "code 5 -> 9\ncode 'S0451' -> 'S9451'\ncode 6 -> 9\n\n0: ans(f) :- flight(f, 'S0451', 5)\n"
        )
        record, known = pack(text)
        self.assertEqual(record.code_pairs, (CodePair(5, 9), CodePair(2000000000, 2000000001), CodePair(6, 9)))
        self.assertEqual(record.query(0), Query((v(0),), (Row(0, (v(0), c(2000000000), c(5))),)))
        self.assertEqual((unpack(record, known), str(record), pack(unpack(record, known))), (text, text.rstrip("\n"), (record, known)))
        self.assertEqual(unpack(record, Names.default(record.widths)).splitlines()[5:8], ["code 5 -> 9", "code 2000000000 -> 2000000001", "code 6 -> 9"])

    def test_values_that_are_given_their_numbers(self):
        """Where the lines alone would give other numbers, lines before them give them."""
        text = "flight(sonde)\n\n2000000003 = 'new'\n2000000005 = 'old'\n\ncode 'old' -> 'new'\n\n0: ans() :- flight('old')\n"
        record, known = pack(text)
        self.assertEqual(record.code_pairs, (CodePair(2000000005, 2000000003),))
        self.assertEqual((unpack(record, known), pack(unpack(record, known))[0]), (text, record))
        # A rule that stands above has its values first.
        record, known = pack("flight(sonde)\n0: ans() :- flight('old')\ncode 'other' -> 'old'\n")
        self.assertEqual(record.code_pairs, (CodePair(2000000001, 2000000000),))
        self.assertEqual(unpack(record, known).splitlines()[2:4], ["2000000000 = 'old'", "2000000001 = 'other'"])
        self.assertEqual(pack(unpack(record, known))[0], record)

    def test_where_lines_stand(self):
        record, _ = pack("# above the tables\ncode 5 -> 9\nflight(number)\n0: ans(5) :- flight(5)\ncode 6\t->\n  9 # the same\n")
        self.assertEqual((record.code_pairs, record.query(0).head), ((CodePair(5, 9), CodePair(6, 9)), (c(5),)))
        record, known = pack("code(code, never)\ncode: code -> never\ncode: -> code\ncode 5 -> 9\n0: ans(code) :- code(code, 5)\n")
        self.assertEqual((record.widths, len(record.dependencies), record.code_pairs), ((2,), 2, (CodePair(5, 9),)))
        self.assertEqual(pack(unpack(record, known))[0], record)

    def test_mistakes(self):
        start = "flight(number)\ncode 3 -> 5\ncode 9 -> 11\n"
        for text, message in (
            (start + "code 7 -> 7", "4:1: code 7 -> 7: the old and the current code are equal"),
            (start + "code 'x' -> 'x'", "4:1: code 'x' -> 'x': the old and the current code are equal"),
            (start + "code 3 -> 5", "4:1: code 3 -> 5: 3 is an old code already, in code 3 -> 5"),
            (start + "code 5 -> 7", "4:1: code 5 -> 7: 5 is the current code in code 3 -> 5, which then has to be code 3 -> 7"),
            (start + " code 7 -> 9", "4:2: code 7 -> 9: 9 is an old code itself, in code 9 -> 11; the current one is 11"),
            (start + "".join(f"code {20 + number} -> 5\n" for number in range(15)), "18:1: an archive has 16 renumbered codes at most"),
            (start + "code 7", "4:7: '->' was expected, not the end"),
            (start + "code 7\n0: ans() :- never", "4:7: '->' was expected, not the end of the line"),
            (start + "code 7 -> 8 flight(x)", "4:13: the end of the line was expected, not 'flight'"),
            (start + "code 7 -> 8, 9 -> 10", "4:12: the end of the line was expected, not ','; what follows goes on a line of its own"),
            (start + "code 7 ->\n0: ans() :- never", "4:8: a current code was expected after '->'"),
            (start + "code 7 ->\n2000000000 = 'x'", "4:8: a current code was expected after '->'"),
            (start + "code number -> 8", "4:6: an old code was expected, not 'number'; a text stands between quotes"),
            (start + "2000000000 = 5", "4:1: 5 stands for itself and has no code"),
            ("code 5 -> 9\n", "2:1: a text has at least one table, as in flight(number, sonde)"),
        ):
            with self.subTest(text=text), self.assertRaises(NotationError) as caught:
                pack(text)
            self.assertEqual(str(caught.exception), f"text:{message}")

    def test_random_round_trip(self):
        rng = random.Random(79)
        for _ in range(12 * MANY):
            record = random_record(rng, most_joins=rng.choice([0, 4]), most_codes=20, constants=rng.choice([0, 3]))
            again, _ = pack(unpack(record, Names.default(record.widths)))
            self.assertEqual(again.file, record.file)

    def test_names_beside(self):
        """The names file keeps what a renumbered code stands for, also where no query has it."""
        with tempfile.TemporaryDirectory() as folder:
            path = Path(folder, "named.file")
            record = Record.open([Table("flight", ("number", "sonde"))]).add("code 'RS92' -> 'RS41'")
            record.names.values.encode("of no query and no pair")
            record.write(path)
            beside = Path(folder, "named.names").read_text()
            self.assertEqual(beside.splitlines()[1:], ["flight(number, sonde)", "2000000000 = 'RS92'", "2000000001 = 'RS41'"])
            again = Record.read(path)
            self.assertEqual((again, str(again)), (record, str(record)))
            self.assertEqual(again.codes(), [2000000000, 2000000001])
            plain = Record.read(path, names=False)
            self.assertEqual(str(plain).splitlines()[-1], "code 2000000000 -> 2000000001")
            # A text in the data has a number of its own, not that of a pair.
            self.assertEqual(plain.evaluate("ans(x) :- R0(_, x)", {"R0": [(1, "a text")]}), [("a text",)])
            Path(folder, "named.names").write_text("\n".join(beside.splitlines()[1:-1]) + "\n")
            status, out, err = run("unpack", path)
            self.assertIn("has the constant 2000000001", err)


@context.with_engine
class Data(Codes):
    """Databases whose values have numbers of their own."""

    def record(self):
        return pack("flight(number, sonde)\nsonde(code, maker)\nsonde: code -> maker\ncode 'RS92' -> 'RS41'\ncode 12.5 -> 13\n0: ans(f) :- flight(f, 'RS92')\n")[0]

    def test_evaluate(self):
        record = self.record()
        data = {"flight": [("F-1", "RS92"), ("F-2", "RS41"), ("F-3", "DFM")], "sonde": [("RS92", "Vaisala"), ("RS41", "Vaisala")]}
        for rule in (0, "ans(f) :- flight(f, 'RS92')", "ans(f) :- flight(f, 'RS41')"):
            self.assertEqual((record.evaluate(rule, data), record.count(rule, data)), ([("F-1",), ("F-2",)], 2))
        self.assertEqual(record.evaluate("ans(s, m) :- sonde(s, m)", data), [("RS41", "Vaisala")])
        # A current code that the data does not have.
        self.assertEqual(record.evaluate("ans(s) :- flight('F-1', s)", {"flight": data["flight"][:1]}), [("RS41",)])
        self.assertEqual(record.evaluate("ans(s) :- flight(1, s)", {"flight": [(1, 12.5), (2, 12.25)]}), [(13.0,)])
        self.assertEqual(record.evaluate("ans(s) :- flight(1, s)", {"flight": [(1, Decimal("12.50"))]}), [(Decimal(13),)])

    def test_test(self):
        record = self.record()
        self.assertIsNone(record.test({"sonde": [("RS92", "Vaisala"), ("RS41", "Vaisala")]}))
        self.assertEqual(record.test({"sonde": [("RS92", "Graw"), ("DFM", "Graw"), ("RS41", "Vaisala")]}), Broken(0, 0, 2))
        with self.assertWarnsRegex(UserWarning, r"\(row 0 of sonde: sonde\('RS92', 1\); row 1 of sonde: sonde\('RS41', 2\); 'RS92' is read as 'RS41'\)"):
            record.evaluate("ans(m) :- sonde(_, m)", {"sonde": [("RS92", 1), ("RS41", 2)]})

    def test_the_dependencies_of_a_query(self):
        """Of several that a database breaks one of the query's tables is told, by rows that are read."""
        record = pack("flight(number*, sonde)\nsonde(code*, maker)\ncode 'RS92' -> 'RS41'\n")[0]
        data = {"flight": [(1, "a"), (1, "b")], "sonde": [("RS92", "Vaisala"), ("RS41", "Vaisala")]}
        self.assertEqual(record.broken(record.database(data), [1]), Broken(0, 0, 1))
        data["sonde"] = [("RS92", "Vaisala"), ("RS41", "Graw")]
        self.assertEqual(record.broken(record.database(data), [1]), Broken(1, 2, 3))
        data["flight"] = [("RS92", "a"), ("RS41", "b")]
        self.assertEqual(record.broken(record.database(data), [0, 1]), Broken(0, 0, 1))

    def test_missing_row(self):
        """The row that a join asks for is shown with current codes."""
        record = pack("layer(flight, height, sonde)\nlayer: join (flight, height) (flight, sonde)\ncode 'old' -> 'new'\n")[0]
        data = record.database({"layer": [("old", 1, "a"), ("new", 2, "b")]})
        found = record.test(data)
        self.assertEqual(found, BrokenJoin(0, (0, 1)))
        self.assertEqual(record.missing(found, data), "layer('new', 1, 'b')")
        self.assertEqual(record.read_in(found, data), ["'old' is read as 'new'"])
        data = record.database({"layer": [("new", 1, "a"), ("old", 2, "old")]})
        self.assertEqual(record.missing(record.test(data), data), "layer('new', 1, 'new')")
        data = record.database({"layer": [("new", 1, "a"), ("new", 2, "b")]})
        self.assertEqual(record.read_in(record.test(data), data), [])

    def test_another_dictionary(self):
        """A database that was read before a code was added may have other numbers for its values."""
        record = pack("flight(number, sonde)\nflight: number -> sonde\n")[0]
        database = record.database({"flight": [("F-1", "RS92"), ("F-1", "RS41"), ("F-2", "DFM")]})
        self.assertEqual(record.test(database), Broken(0, 0, 1))
        coded = record.add("code 'RS92' -> 'RS41'")
        self.assertNotEqual(coded.pairs_for(database), coded.code_pairs)
        self.assertIsNone(coded.test(database))
        self.assertEqual(coded.evaluate("ans(f) :- flight(f, 'RS92')", database), [("F-1",)])
        self.assertEqual(coded.evaluate("ans(s) :- flight(_, s)", database), [("DFM",), ("RS41",)])
        self.assertEqual(coded.test(record.database({"flight": [("F-2", "a"), ("F-2", "b")]})), Broken(0, 0, 1))
        with warnings.catch_warnings():
            warnings.simplefilter("error")
            self.assertEqual(coded.count("ans(f, s) :- flight(f, s)", database), 2)

    def test_text_and_number(self):
        """A text and a number that are read as one value are no two values."""
        record = pack("flight(number, sonde)\n")[0]
        data = {"flight": [(1, 13), (2, "13")]}
        with self.assertWarnsRegex(UserWarning, "the text '13' and the number 13 are different values"):
            record.evaluate("ans(f) :- flight(f, 13)", data)
        with warnings.catch_warnings():
            warnings.simplefilter("error")
            self.assertEqual(record.add("code '13' -> 13").evaluate("ans(f) :- flight(f, 13)", data), [(1,), (2,)])
            self.assertEqual(record.add("code 13 -> '13'").evaluate("ans(f) :- flight(f, 13)", data), [(1,), (2,)])
        # An old code that the data has as a text.
        with self.assertWarnsRegex(UserWarning, "the text '13' and the number 13 are different values"):
            self.assertEqual(record.add("code 13 -> 14").evaluate("ans(f) :- flight(f, 14)", {"flight": [(2, "13")]}), [])


class Commands(Command):
    def test_the_sample(self):
        """A query that was saved with the old code asks for the flights that one with the new code does."""
        record = Record.read(TEXT)
        self.assertEqual(record.code_pairs, (CodePair(4170101, 5170101), CodePair(4170102, 5170102), CodePair(4170103, 5170102)))
        self.assertEqual(pack(str(record) + "\n")[0], record)
        self.assertEqual(self.done("test", TEXT, DATA), "Obeys: 14 rows, 5 dependencies\n")
        both = "ans(101, 31200)\nans(104, 32650)\n# 2 answers\n"
        self.assertEqual((self.done("evaluate", TEXT, 0, DATA), self.done("evaluate", TEXT, 1, DATA)), (both, both))
        same = "Equivalent: place 0 and place 1 have the same answers on every database that obeys the dependencies.\n"
        self.assertEqual(self.done("equivalent", TEXT, 0, 1), same)
        # Sondes that became one.
        merged = "ans(102)\nans(103)\nans(105)\n# 3 answers\n"
        for code in (4170102, 4170103, 5170102):
            self.assertEqual(self.done("evaluate", TEXT, f"ans(f) :- flight(f, {code}, _)", DATA), merged)
        self.assertEqual(self.done("evaluate", TEXT, "ans(s) :- flight(f, s, _)", DATA), "ans(5170101)\nans(5170102)\n# 2 answers\n")
        # Without the codes the old query misses the flights that were entered since.
        bare = self.write("bare.text", "".join(line + "\n" for line in Path(TEXT).read_text().splitlines() if not line.startswith("code")))
        self.assertEqual(self.done("evaluate", bare, 0, DATA), "ans(101, 31200)\n# 1 answer\n")
        self.assertTrue(self.done("equivalent", bare, 0, 1, status=1).startswith("Not equivalent"))

    def test_show(self):
        self.assertIn("\ncode 4170101 -> 5170101\ncode 4170102 -> 5170102\ncode 4170103 -> 5170102\n\n0: ", self.done("show", TEXT))
        self.assertEqual(
            self.done("show", TEXT, 0),
            "Place 0\n"
            "  Long form, 2 rows:\n"
            "    ans(f, h) :- flight(f, 4170101, 7),\n"
            "                 burst(f, h)\n"
            "  Short form, 2 rows:\n"
            "    ans(f, h) :- flight(f, 5170101, 7),\n"
            "                 burst(f, h)\n"
            "  Old codes of the long form:\n"
            "    4170101 is read as 5170101\n"
            "  Mapping from the long form to the short:\n"
            "    f -> f, h -> h\n"
            "    row 1 -> row 1, row 2 -> row 2\n"
            "  Replaced by the dependencies: 0 variables\n",
        )
        self.assertNotIn("Old codes", self.done("show", TEXT, 1))
        found = json.loads(self.done("show", TEXT, 2, "--json"))[0]
        self.assertEqual(found["long"]["rows"][2]["entries"][1], 4170101)
        self.assertEqual((found["short"]["rule"], found["mapping"]["s"]), ("ans(f, b) :- flight(f, 5170101, p), sonde(5170101, b, x)", 5170101))

    def test_add(self):
        flights = self.folder / "f.file"
        shutil.copy(context.SAMPLES / "flights.file", flights)
        shutil.copy(context.SAMPLES / "flights.names", self.folder / "f.names")
        self.assertEqual(self.done("add", flights, "code 9001 -> 'RS41-1'"), f"{flights}: 1 renumbered code added, 1 in all\n")
        self.assertEqual(
            self.done("add", flights, "code 9002 -> 'RS41-1'", "flight: -> site", "code 9001 -> 'RS41-1'", "sonde: serial -> maker"),
            f"{flights}: 1 dependency added, 11 in all; 1 renumbered code added, 2 in all; held already: sonde: serial -> maker; code 9001 -> 'RS41-1'\n",
        )
        self.assertEqual(self.done("add", flights, "code 9001 -> 'RS41-1'"), f"{flights}: 0 renumbered codes added, 2 in all; held already: code 9001 -> 'RS41-1'\n")
        self.assertIn("\nflight: -> site\n\ncode 9001 -> 'RS41-1'\ncode 9002 -> 'RS41-1'\n\n0: ", self.done("unpack", flights))
        text = self.write("f.text", self.done("unpack", flights))
        self.done("pack", text, self.folder / "again.file")
        self.assertEqual((self.folder / "again.file").read_bytes(), flights.read_bytes())
        before = flights.read_bytes()
        self.failed(f"{flights}: code 9001 -> 7: 9001 is an old code already, in code 9001 -> 'RS41-1'", "add", flights, "code 9001 -> 7")
        self.failed(f"{flights}: code 5 -> 5: the old and the current code are equal", "add", flights, "code 7 -> 8", "code 5 -> 5")
        self.failed("code:1:8: '->' was expected, not '8'", "add", flights, "code 7 8")
        self.failed(f"{flights}: 2 renumbered codes are held, and 15 more would make 17; there may be 16", "add", flights, *[f"code {n} -> 99" for n in range(15)])
        self.assertEqual(flights.read_bytes(), before)
        self.done("add", flights, *[f"code {n} -> 99" for n in range(14)])
        self.failed(f"{flights}: 16 renumbered codes are held, which is as many as there may be", "add", flights, "code 50 -> 99")
        out = self.folder / "out.text"
        self.assertEqual(self.done("add", TEXT, "code 4170104 -> 5170101", "-o", out), f"{out}: 1 renumbered code added, 4 in all\n")
        self.assertIn("\ncode 4170104 -> 5170101\n", out.read_text())
        self.assertIn("'code 4103 -> 8103'", " ".join(run("add", "--help")[1].split()))

    def test_pack(self):
        text = self.write("bad.text", "flight(sonde)\ncode 5 -> 9\ncode 9 -> 11\n")
        self.failed(f"{text}:3:1: code 9 -> 11: 9 is the current code in code 5 -> 9, which then has to be code 5 -> 11", "pack", text, self.folder / "bad.file")
        bad = self.write("bad.file", bytes([2, 0, 10, 0, 11, 0, 21, 0, 1, 0, 1, 1, 1, 5, 0, 0, 0, 5, 0, 0, 0, 0]))
        self.failed(f"{bad} is no archive file, and no text: a renumbered code is wrong: the old and the current code differ", "list", bad)

    def test_reduce_and_put(self):
        out = self.folder / "s.file"
        short = "ans(f, b) :- flight(f, 5170101, p), sonde(5170101, b, x)"
        self.assertEqual(self.done("reduce", TEXT, 2, "-o", out), f"{out}: place 3 holds the short form of place 2, 2 rows: {short}\n")
        self.assertEqual(self.done("put", out, 4, "ans(f) :- flight(f, 4170102, _)"), f"{out}: place 4 holds ans(f) :- flight(f, 4170102, _)\n")
        self.assertEqual(self.done("equivalent", out, 2, 3).split(":")[0], "Equivalent")
        self.assertEqual(Record.read(out).query(4), Query((v(0),), (Row(0, (v(0), c(4170102), v(1))),)))

    def test_compare(self):
        text = self.done("compare", TEXT, "ans(f) :- flight(f, 4170101, 7)", "ans(f) :- flight(f, 4170102, 7)", status=1)
        self.assertIn("         f  5170101     7\n", text)
        self.assertNotIn("4170101", text)

    def test_test(self):
        broken = self.write("broken.data", "sonde(4170102, 6, 4)\nsonde(4170101, 9, 3)\nsonde(5170102, 8, 4)\n")
        said = (
            f"Breaks sonde: code -> battery (dependency 2):\n  {broken}:1: sonde(4170102, 6, 4)\n  {broken}:3: sonde(5170102, 8, 4)\n"
            "  4170102 is read as 5170102\n"
        )
        self.assertEqual(self.done("test", TEXT, broken, status=1), said)
        status, out, err = run("evaluate", TEXT, "ans(b) :- sonde(4170101, b, _)", broken)
        self.assertEqual((status, out), (0, "ans(9)\n# 1 answer\n"))
        self.assertEqual(err, said + "On such a database the long and the short form of a query may have different answers.\n")
        # A code outside the columns of the dependency is not told of.
        other = self.write("other.data", "flight(1, 4170101, 7)\nflight(1, 5170101, 8)\n")
        self.assertTrue(self.done("test", TEXT, other, status=1).endswith("flight(1, 5170101, 8)\n"))

    def test_test_a_join(self):
        text = self.write("j.text", "layer(flight, height, sonde)\nlayer: join (flight, height) (flight, sonde)\ncode 5 -> 9\n")
        data = self.write("j.data", "layer(5, 1, 3)\nlayer(9, 2, 4)\n")
        self.assertEqual(
            self.done("test", text, data, status=1),
            "Breaks layer: join (flight, height) (flight, sonde) (join dependency 0):\n"
            f"  {data}:1: layer(5, 1, 3) gives flight, height\n  {data}:2: layer(9, 2, 4) gives flight, sonde\n"
            "  missing: layer(9, 1, 4)\n  5 is read as 9\n",
        )

    def test_csv(self):
        text = self.write("c.text", "flight(number*, sonde)\ncode 'RS92-SGP' -> 'RS41-SG'\n0: ans(f, s) :- flight(f, s), flight(f, 'RS92-SGP')\n")
        cells = self.write("flight.csv", "number,sonde\nF-1,RS92-SGP\nF-2,RS41-SG\nF-3,DFM-09\n")
        self.assertEqual(self.done("evaluate", text, 0, cells, "--format", "csv"), "f,s\nF-1,RS41-SG\nF-2,RS41-SG\n")
        out = self.folder / "c.file"
        self.done("pack", text, out)
        self.assertEqual(self.done("evaluate", out, 0, cells, "--format", "csv"), "f,s\nF-1,RS41-SG\nF-2,RS41-SG\n")
        record = Record.read(out)
        self.assertEqual(record.evaluate(0, read_database(cells, record)), [("F-1", "RS41-SG"), ("F-2", "RS41-SG")])

    def test_define(self):
        text = self.done("define", TEXT, 2)
        self.assertIn(
            "    flight: number -> sonde\n  Renumbered codes, each read as its current one:\n    code 4170101 -> 5170101\n    code 4170102 -> 5170102\n"
            "    code 4170103 -> 5170102\n  Long form, 4 rows:\n",
            text,
        )
        self.assertNotIn("Old codes", text)
        self.assertNotIn("Renumbered", self.done("define", context.SAMPLES / "station.text", 0))
        found = json.loads(self.done("define", TEXT, 2, "--format", "json"))
        self.assertEqual(found["renumbered_codes"][1:], [{"old": 4170102, "current": 5170102}, {"old": 4170103, "current": 5170102}])
        self.assertEqual((found["images"], found["kept"]), ([0, 1, 0, 1], [0, 1, None, None]))
        tex = self.done("define", TEXT, 2, "--format", "latex")
        self.assertIn("\\textbf{Renumbered codes, in queries and databases.}\n\\par\\nobreak\n\\par\\noindent\\hangindent=2em 4170101~is read as~5170101\n", tex)
        self.assertIn("On every finite database that obeys these dependencies, with old codes read as current ones, the two forms have", tex)
        self.assertTrue(tex.isascii())
        record, known = pack("R(a)\ncode 'W/m\u00b2' -> 'x_y'\n0: ans() :- R('W/m\u00b2')\n")
        self.assertTrue(latex.fragment(define(record, known, 0, known.values.decode)).isascii())
        self.assertEqual(define_query(record, known, record.query(0)).chased, Query((), (Row(0, (c(2000000001),)),)))

    def test_sql(self):
        """Statements have current codes, in the long form too, and say so."""
        note = "-- Current codes only, in the tables too: 4170101 is read as 5170101; 4170102 is read as 5170102; 4170103 is read as 5170102\n"
        for form in ("long", "short"):
            text = self.done("define", TEXT, 0, "--format", "sql", "--form", form)
            self.assertTrue(text.startswith(note + "SELECT DISTINCT "), text)
            self.assertEqual(text[len(note):].count("5170101"), 1)
            self.assertNotIn("4170101", text[len(note):])
        self.assertEqual(self.done("list", TEXT, "--format", "sql").count(note), 3)
        out = self.folder / "q.sql"
        for _ in range(2):
            self.assertEqual(self.done("define", TEXT, 0, "--format", "sql", "-o", out), "")
        self.assertTrue(out.read_text().startswith(note))
        self.assertEqual(self.done("define", context.SAMPLES / "station.text", 0, "--format", "sql")[:6], "SELECT")
        record, known = pack("R(a)\n0: ans(x) :- R(x)\n")
        self.assertNotIn("Current codes", archive_sql([define(record, known, 0)]))

    def test_sql_answers(self):
        """On tables that have current codes a statement has the engine's answers."""
        record = Record.read(TEXT)
        rows = [(table.columns, table.name) for table in record.names.tables]
        data = {name: [] for _, name in rows}
        for line in Path(DATA).read_text().splitlines()[1:]:
            name, values = line.rstrip(")").split("(")
            data[name].append(tuple(map(int, values.split(", "))))
        current = {pair.old: pair.current for pair in record.code_pairs}
        with closing(sqlite3.connect(":memory:")) as connection:
            for columns, name in rows:
                connection.execute(f"CREATE TABLE {name} ({', '.join(columns)})")
                connection.executemany(f"INSERT INTO {name} VALUES ({', '.join('?' * len(columns))})", [[current.get(v, v) for v in row] for row in data[name]])
            for place in record.filled():
                answers = record.evaluate(place, data)
                self.assertTrue(answers)
                for form in ("long", "short"):
                    text = self.done("define", TEXT, place, "--format", "sql", "--form", form)
                    self.assertEqual(sorted(connection.execute(text)), answers)

    def test_page(self):
        text = self.done("page", TEXT)
        self.assertIn("<p>3 tables, 5 dependencies, 3 renumbered codes, 3 saved queries.</p>", text)
        self.assertIn('<h2 id="codes">Renumbered codes</h2>', text)
        self.assertIn("<li><code>4170101 \u2192 5170101</code></li><li><code>4170102 \u2192 5170102</code></li>", text)
        self.assertEqual(text.count("<dt>Old codes of the long form</dt><dd><code>4170101 is read as 5170101</code></dd>"), 2)
        tree = Tree(text)
        self.assertEqual((tree.open, tree.faults, len(tree.ids)), ([], [], len(set(tree.ids))))
        record, known = pack("R(a)\ncode '<b>' -> '&'\n0: ans() :- R('<b>')\n")
        text = page(record, known, decode=known.values.decode)
        self.assertIn("<code>&#x27;&lt;b&gt;&#x27; \u2192 &#x27;&amp;&#x27;</code>", text)
        self.assertNotIn("<b>", text)
        self.assertNotIn("enumbered", self.done("page", context.SAMPLES / "station.text"))

    def test_random_pages(self):
        rng = random.Random(80)
        for _ in range(5 * MANY):
            record = random_record(rng, most_width=3, most_relations=2, most_dependencies=3, most_codes=4, most_rows=3, most_head=2, constant=0.4)
            tree = Tree(page(record, record.names))
            self.assertEqual((tree.open, tree.faults), ([], []))


if __name__ == "__main__":
    unittest.main()
