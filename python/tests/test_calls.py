"""Every call of the engine: the reference examples, the refusals, random records, hostile arguments."""

import ctypes
import mmap
import random
import re
import subprocess
import sys
import tempfile
import threading
import time
import unittest
import weakref
from array import array
from pathlib import Path
from types import SimpleNamespace
from unittest import mock

import context
from context import LONG, MANY, plain_answers, plain_broken, plain_short, random_data, random_query, random_record, rule
from spernevan import Broken, Constant, Query, Record, Refused, Row, Variable, engine

EXAMPLE = bytes.fromhex(
    "0300 0E000200 10000400 14003100 0103 01000101 0302 0100000000 0101000000 0102000000 00 0100000000 "
    "0101000000 0102000000 00 0100000000 0007000000 0103000000"
)


def v(number):
    return Variable(number)


@context.with_engine
class Calls(unittest.TestCase):
    def refused(self, number, call, *arguments):
        with self.assertRaises(Refused) as caught:
            call(*arguments)
        self.assertEqual(caught.exception.number, number)
        self.assertTrue(str(caught.exception).startswith(f"refused {number}: "))

    def reduced(self, widths, text, *dependencies):
        """The reduction of a rule, with dependencies as relation, left columns, right column."""
        record = Record.open(widths)
        for dependency in dependencies:
            record = record.add(*dependency)
        return record.put(0, rule(record, text)).reduce(0, 1)


class Examples(Calls):
    def test_p1_p2(self):
        first, second = Row(0, (v(0), v(1))), Row(0, (v(0), v(2)))
        got = self.reduced([2], "ans(v0) :- R0(v0, v1), R0(v0, v2)")
        self.assertEqual((got.result, got.replaced), (Query((v(0),), (first,)), 0))
        got = self.reduced([2], "ans(v0, v1, v2) :- R0(v0, v1), R0(v0, v2)")
        self.assertEqual((got.result, got.replaced), (Query((v(0), v(1), v(2)), (first, second)), 0))

    def test_p3(self):
        got = self.reduced([2], "ans(v0, v1, v2) :- R0(v0, v1), R0(v0, v2)", (0, [0], 1))
        self.assertEqual(got.result, Query((v(0), v(1), v(1)), (Row(0, (v(0), v(1))),)))
        self.assertEqual(got.replaced, 1)
        self.assertEqual(got.mapping, {0: v(0), 1: v(1), 2: v(1)})

    def test_p4_p5(self):
        got = self.reduced([2], "ans(v0) :- R0(v0, 3), R0(v0, 4)", (0, [0], 1))
        self.assertEqual((got.result, got.replaced, got.mapping), (Query.never(1), 0, None))
        got = self.reduced([2], "ans(v0) :- R0(v0, 3), R0(v0, 4)")
        self.assertEqual(got.result, Query((v(0),), (Row(0, (v(0), Constant(3))), Row(0, (v(0), Constant(4))))))

    def test_p6(self):
        got = self.reduced([3], "ans(v0) :- R0(v0, v1, v2), R0(v0, v3, v4)", (0, [1], 2), (0, [0], 1))
        self.assertEqual((got.result, got.replaced), (Query((v(0),), (Row(0, (v(0), v(1), v(2))),)), 2))

    def test_p7_p8(self):
        cycle = "ans() :- R0(v0, v1), R0(v1, v2), R0(v2, v0)"
        rows = tuple(Row(0, (v(a), v(b))) for a, b in ((0, 1), (1, 2), (2, 0), (3, 3)))
        self.assertEqual(self.reduced([2], cycle).result, Query((), rows[:3]))
        self.assertEqual(self.reduced([2], cycle + ", R0(v3, v3)").result, Query((), rows[3:]))

    def test_the_rows_that_stay(self):
        """The last rows are tried first, as they stand in the query."""

        def query(*rows):
            return Query((v(0),), tuple(Row(0, (v(a), v(b))) for a, b in rows))

        for given, stay in (
            (query((0, 1), (0, 2)), query((0, 1))),
            (query((0, 2), (0, 1)), query((0, 2))),
            (query((0, 3), (0, 1), (0, 2)), query((0, 3))),
            (query((0, 1), (0, 2), (0, 1)), query((0, 1))),
            (query((3, 4), (4, 0), (0, 1), (2, 0), (5, 6)), query((0, 1), (3, 4), (4, 0))),
        ):
            self.assertEqual(Record.open([2]).put(0, given).shorten(0).result, stay)

    def test_the_order_of_rows(self):
        """By relation, then by entries from the left, constants before variables, each by number."""
        rows = [Row(0, (a, v(0))) for a in (Constant(9), Constant(10), Constant(256), Constant(2**31 - 1), v(0), v(1), v(9), v(10))]
        rows += [Row(0, (v(10), v(1))), Row(1, (Constant(0), v(0))), Row(1, (v(0), Constant(0)))]
        query = Query((v(0), v(1), v(10), v(9)), tuple(rows))
        rng = random.Random(5)
        for _ in range(20):
            rng.shuffle(rows)
            self.assertEqual(Record.open([2, 2]).put(3, Query(query.head, tuple(rows))).shorten(3).result, query)

    def test_p9_p10(self):
        record = Record.open([2])
        record = record.put(0, rule(record, "ans() :- R0(v0, v0)")).put(1, rule(record, "ans() :- R0(v0, v1)"))
        there, back = record.compare(0, 1), record.compare(1, 0)
        self.assertTrue(there.contained)
        self.assertEqual((there.mapping, there.chased), ({0: v(0), 1: v(0)}, None))
        self.assertIsNone(there.counterexample())
        self.assertFalse(back.contained)
        self.assertEqual((back.mapping, back.chased), (None, record.queries[1]))
        self.assertEqual(back.counterexample(), ([(0, (2147483648, 2147483649))], ()))

    def test_p11(self):
        record = Record.open([3]).add(0, [0], 1).add(0, [1], 2)
        self.assertEqual(record.determined(0, [0]), {0, 1, 2})
        self.assertEqual(record.determined(0, [2]), {2})
        self.assertEqual(engine.determined(record.file, 0, 1), (7, 3))

    def test_the_limits(self):
        record = Record.open([1])
        rows = (Row(0, (v(95),)), Row(0, (Constant(2147483647),))) * 6
        self.assertEqual(record.put(0, Query((), rows)).queries[0].rows, rows)
        self.refused(5, record.put, 0, Query((), rows + rows[:1]))
        self.refused(5, record.put, 0, Query((), (Row(0, (v(96),)),)))
        self.refused(5, record.put, 0, Query((), (Row(0, (Constant(2147483648),)),)))
        filled = record.put(0, Query((), rows))
        self.refused(12, filled.reduce, 0, 0)

    def test_the_listing(self):
        record = Record(EXAMPLE)
        got = record.shorten(0)
        self.assertEqual(len(record.queries[0].rows), 2)
        self.assertEqual(got.result, Query((v(0), Constant(7), v(2)), (Row(0, (v(0), Constant(7), v(2))),)))
        self.assertEqual(got.replaced, 1)
        self.assertEqual(got.mapping, {0: v(0), 1: Constant(7), 2: v(2), 3: v(2)})


class Refusals(Calls):
    def setUp(self):
        record = Record.open([2, 1]).add(0, [0], 1)
        self.one = rule(record, "ans(x) :- R0(x, y)")
        self.record = record.put(0, self.one).put(1, rule(record, "ans() :- R1(x)"))

    def test_files(self):
        for number, text in [
            (1, ""), (1, "03"), (1, "0100"), (1, "0B00"), (1, "0300 0E000200"),
            (2, "0300 0F000200" + EXAMPLE[6:].hex()), (2, EXAMPLE.hex() + "00"), (2, EXAMPLE.hex()[:-2]),
            (3, EXAMPLE.hex().replace("0103", "0109", 1)), (4, EXAMPLE.hex().replace("01000101", "01000103", 1)),
            (4, EXAMPLE.hex().replace("01000101", "01000801", 1)), (5, EXAMPLE.hex().replace("0302", "0902", 1)),
            (6, EXAMPLE.hex().replace("0101000000", "0109000000", 1)),
        ]:
            with self.subTest(number=number, text=text[:40]):
                self.refused(number, Record, bytes.fromhex(text))
                self.refused(number, engine.write, bytes.fromhex(text))

    def test_open(self):
        for widths in ([], [0], [9], [1] * 9, [255], [3, 0]):
            self.refused(3, Record.open, widths)

    def test_dependencies(self):
        for bad in ((2, [0], 0), (2, [], 0), (255, [0], 0), (0, [], 2), (0, [2], 0), (0, [0, 7], 1), (0, [0], 2), (0, [0], 255)):
            self.refused(4, self.record.add, *bad)
        for bad in ((2, [0]), (2, []), (255, []), (0, [2]), (1, [1])):
            self.refused(4, self.record.determined, *bad)
        record = self.record
        for _ in range(31):
            record = record.add(0, [0], 1)
        self.assertEqual(len(record.dependencies), 32)
        self.refused(13, record.add, 0, [0], 1)
        self.refused(13, record.add, 0, [], 1)
        self.refused(4, record.add, 0, [], 2)

    def test_queries(self):
        for bad in (
            Query((Constant(1),) * 9, self.one.rows),
            Query((), (Row(2, (v(0),)),)),
            Query((), (Row(255, ()),)),
            Query((), self.one.rows * 13),
            Query((), (Row(0, (v(96), v(0))),)),
            Query((), (Row(0, (v(2**32 - 1), v(0))),)),
            Query((), (Row(0, (Constant(2**32 - 1), v(0))),)),
            Query.never(9),
            Query.never(255),
        ):
            self.refused(5, self.record.put, 2, bad)
        self.refused(6, self.record.put, 2, Query((v(9),), self.one.rows))
        self.refused(5, engine.put, self.record.file, 2, b"\xff")
        self.refused(5, engine.put, self.record.file, 2, b"")
        self.refused(5, engine.put, self.record.file, 2, b"\x00\x00\x00")

    def test_places(self):
        data = [(0, (1, 2))]
        for place in (8, 255, 256, 2**32, 2**64 - 1, 2**64, 2**64 + 1, 10**5000):
            self.refused(7, self.record.put, place, self.one)
            self.refused(7, self.record.drop, place)
            self.refused(7, self.record.reduce, place, 2)
            self.refused(7, self.record.reduce, 0, place)
            self.refused(7, self.record.shorten, place)
            self.refused(7, self.record.compare, place, 0)
            self.refused(7, self.record.compare, 3, place)
            self.refused(7, self.record.check, 3, place, {})
            self.refused(7, self.record.evaluate, place, data)
        self.refused(11, self.record.drop, 2)
        self.refused(11, self.record.reduce, 2, 2)
        self.refused(11, self.record.reduce, 2, 0)
        self.refused(11, self.record.shorten, 2)
        self.refused(11, self.record.compare, 0, 2)
        self.refused(11, self.record.check, 2, 0, {})
        self.refused(11, self.record.evaluate, 2, data)
        self.refused(12, self.record.put, 0, self.one)
        self.refused(12, self.record.reduce, 0, 1)
        self.refused(6, self.record.put, 0, Query((v(9),), self.one.rows))
        self.refused(8, self.record.compare, 0, 1)
        self.refused(8, self.record.check, 1, 0, {})

    def test_databases(self):
        for words in ([2, 1], [0], [0, 1], [0, 1, 2, 1], [0, 1, 2, 7, 7, 7], [2**32 - 1]):
            self.refused(9, self.record.test, array("I", words))
            self.refused(9, self.record.evaluate, 0, array("I", words))
        self.refused(9, self.record.test, [(0, (1, 2)), (2, ()), (0, (1, 2))])
        data = [(0, (value, value)) for value in range(5)]
        self.refused(10, self.record.evaluate, 0, data, 4)
        self.assertEqual(len(self.record.evaluate(0, data, 5)), 5)
        self.assertEqual(self.record.evaluate(1, [(1, (3,))], 0), [()])
        self.assertEqual(self.record.evaluate(1, data, 0), [])
        self.refused(11, self.record.evaluate, 3, array("I", [9]), 0)

    def test_lent_buffers_stay_as_they_were(self):
        library, file = engine._library(), self.record.file
        out = (ctypes.c_uint8 * engine.LONGEST_FILE)(*[7] * engine.LONGEST_FILE)
        size = ctypes.c_size_t(77)
        self.assertEqual(library.spernevan_drop(file, len(file), 5, out, len(out), ctypes.byref(size)), 11)
        self.assertEqual(library.spernevan_write(file, len(file), out, len(file) - 1, ctypes.byref(size)), 10)
        self.assertEqual((bytes(out), size.value), (b"\7" * len(out), 77))
        self.assertEqual(library.spernevan_write(file, len(file), out, len(file), ctypes.byref(size)), 0)
        self.assertEqual((bytes(out), size.value), (file + b"\7" * (len(out) - len(file)), len(file)))
        words, answers = array("I", [0, 1, 2, 0, 3, 4]), array("I", [9] * 4)
        lent = engine._words(words)
        room = engine._words(answers)[0]
        call = library.spernevan_evaluate
        self.assertEqual(call(file, len(file), 0, *lent, room, 1, ctypes.byref(size)), 10)
        self.assertEqual((list(answers), size.value), ([9, 9, 9, 9], len(file)))
        self.assertEqual(call(file, len(file), 0, *lent, room, 4, ctypes.byref(size)), 0)
        self.assertEqual((list(answers), size.value), ([1, 3, 9, 9], 2))


class Hostile(Calls):
    """Arguments that C could not be given are turned away, and never cut to fit."""

    def test_arguments(self):
        record = Record.open([2, 1])
        record = record.put(0, rule(record, "ans(x) :- R0(x, y)"))
        query = record.queries[0]
        file = record.file
        for call, *arguments in [
            (Record, None), (Record, "0300"), (Record, 5), (Record, [3, 0]),
            (Record.open, 2), (Record.open, [256]), (Record.open, [-1]), (Record.open, ["2"]), (Record.open, None),
            (Record.open, [258, 1]), (Record.open, "21"),
            (record.add, 256, [0], 1), (record.add, -1, [0], 1), (record.add, 0, [8], 1), (record.add, 0, [0], 257),
            (record.add, 0, 1, 1), (record.add, "R0", [0], 1), (record.add, 0, ["a"], 1), (record.add, 0, [0], None),
            (record.add, 0), (record.add, 0, [0]), (record.add, 0, None, 1),
            (record.add_join, 256, [[0], [1]]), (record.add_join, -1, [[0], [1]]), (record.add_join, 0, 3), (record.add_join, 0, [0, 1]),
            (record.add_join, 0, [[0], [8]]), (record.add_join, 0, [[0], ["b"]]), (record.add_join, "R0", [[0], [1]]),
            (record.put, -1, query), (record.put, 1.0, query), (record.put, None, query), (record.put, 1, None),
            (record.put, 1, 5), (record.put, 1, Query((), (Row(0, (v(0),)),))),
            (record.put, 1, Query((), (Row(1, (v(0), v(1))),))),
            (record.drop, -1), (record.drop, "0"), (record.reduce, 0, -1), (record.reduce, -(2**64), 1),
            (record.shorten, -8), (record.shorten, "0"), (record.compare, 0, None), (record.compare, -1, 0),
            (record.check, 0, 0, None), (record.check, 0, 0, {96: v(0)}), (record.check, 0, 0, {-1: v(0)}),
            (record.check, 0, 0, {0: 1}), (record.check, 0, 0, {"x": v(0)}), (record.check, 0, 0, [v(0)]),
            (record.determined, 256, [0]), (record.determined, 0, [9]), (record.determined, 0, 1),
            (record.test, 5), (record.test, [5]), (record.test, [(0, 5)]), (record.test, [(0, (1,))]),
            (record.test, [(0, (1, 2, 3))]), (record.test, [(0, (1, -1))]), (record.test, [(0, (1, 2**32))]),
            (record.test, [(0, (1, 1.5))]), (record.test, [(0, "ab")]), (record.test, [(-1, (1, 2))]),
            (record.test, [(2**32, (1, 2))]), (record.test, [("R0", (1, 2))]), (record.test, [(0, 1, 2)]),
            (record.test, array("H", [0, 1, 2])), (record.test, array("f", [0, 1, 2])),
            (record.test, array("Q", [0, 1, 2])),
            (record.evaluate, -1, []), (record.evaluate, 0, [(0, (1, None))]), (record.evaluate, 0, [], -1),
            (record.evaluate, 0, [], 2**60), (record.evaluate, 0, [], "4"),
            (engine.check, file, 0, 0, array("I", [0] * 191)), (engine.add, file, 0, 256, 0), (engine.add_join, file, 256, b"\1\2"), (engine.add_join, file, 0, "12"),
            (engine.determined, file, 0, 256), (engine.put, file, 0, "x"), (engine.read, None),
        ]:
            with self.subTest(call=call.__qualname__, arguments=repr(arguments)[:60]):
                with self.assertRaises(ValueError) as caught:
                    call(*arguments)
                self.assertTrue(str(caught.exception))
        self.assertEqual(record.file, file)

    def test_bytes_of_every_kind(self):
        self.assertEqual(Record(bytearray(EXAMPLE)), Record(memoryview(EXAMPLE)))
        held = bytearray(EXAMPLE)
        record = Record(held)
        held[0] = 99
        self.assertEqual(record.file, EXAMPLE)

    def test_any_bytes_are_a_record_or_refused(self):
        rng = random.Random(4)
        accepted = 0
        for _ in range(1000 * MANY):
            file = bytearray(EXAMPLE)
            for _ in range(rng.randint(0, 3)):
                file[rng.randrange(len(file))] = rng.choice([0, 1, 2, 3, 7, 8, 255, rng.randrange(256)])
            if rng.random() < 0.2:
                del file[rng.randrange(len(file)) :]
            try:
                record = Record(bytes(file))
            except Refused as refused:
                self.assertIn(refused.number, [*range(1, 7), 15, 18])
                continue
            accepted += 1
            self.assertEqual(engine.write(record.file), bytes(file))
            self.assertEqual(len(record.queries), 8)
        self.assertGreater(accepted, 100)


class Random(Calls):
    def test_contents(self):
        rng = random.Random(5)
        for _ in range(30 * MANY):
            widths = [rng.randint(1, 8) for _ in range(rng.randint(1, 8))]
            record = Record.open(widths)
            self.assertEqual(record.widths, tuple(widths))
            self.assertEqual((record.dependencies, record.queries), ((), (None,) * 8))
            query = random_query(rng, widths, constants=0)
            place = rng.randrange(8)
            after = record.put(place, query)
            self.assertEqual(after.queries, (None,) * place + (query,) + (None,) * (7 - place))
            self.assertEqual(after.drop(place), record)
            self.assertEqual(Record(after.file), after)
            self.assertTrue(repr(after).startswith("<Record of R0") and repr(after).endswith(f"filled places: {place}>"))

    def test_files(self):
        rng = random.Random(6)
        with tempfile.TemporaryDirectory() as folder:
            for number in range(10 * MANY):
                record = random_record(rng, most_joins=4, most_codes=4)
                path = Path(folder, f"{number}.file")
                record.write(path)
                self.assertEqual(path.read_bytes(), record.file)
                self.assertEqual(Record.read(path), record)

    def test_the_longest_file(self):
        record = Record.open([8] * 8)
        for _ in range(32):
            record = record.add(7, range(8), 7)
        for _ in range(4):
            record = record.add_join(7, [range(8)] * 4)
        for number in range(16):
            record = record.add_code(number, 2**31 - 1)
        row = Row(7, tuple(v(n) for n in range(88, 96)))
        for place in range(8):
            record = record.put(place, Query(row.entries, (row,) * 12))
        self.assertEqual((len(record.file), engine.LONGEST_FILE), (4574, 4574))
        self.assertEqual(Record(record.file), record)
        self.assertEqual(record.shorten(7).result, Query(row.entries, (row,)))

    def test_reductions_and_comparisons(self):
        rng = random.Random(7)
        seen = set()
        for _ in range(80 * MANY):
            record = random_record(rng, 3, 2, 3, most_rows=5, most_head=2, numbers=rng.choice([5, 96]))
            for place, query in enumerate(record.queries):
                if query is None:
                    continue
                target = (place + 3) % 8
                base = record if record.queries[target] is None else record.drop(target)
                got = base.reduce(place, target)
                self.assertEqual(got.record.drop(target), base)
                self.assertEqual(got.record.queries[target], got.result)
                self.assertLessEqual(got.replaced, len(query.variables()))
                never = Query.never(query.head_length)
                chased = Record.open(record.widths).add_all(record.dependencies).put(0, query).put(1, never).compare(0, 1).chased
                self.assertEqual(got.result, never if chased is None else plain_short(chased))
                seen.add(("never", got.result.is_never, query.is_never))
                if got.mapping is not None:
                    self.assertEqual(sorted(got.mapping), query.variables())
                    self.assertTrue(got.record.check(target, place, got.mapping))
                    spare = next(number for number in range(96) if number not in got.mapping)
                    self.assertFalse(got.record.check(target, place, {**got.mapping, spare: Constant(1)}))
                self.assertTrue(got.record.compare(place, target).contained)
                self.assertTrue(got.record.compare(target, place).contained)
                for other, rival in enumerate(record.queries):
                    if rival is None or rival.head_length != query.head_length:
                        continue
                    compared = record.compare(place, other)
                    seen.add(("contained", compared.contained, compared.mapping is None))
                    if not compared.contained:
                        rows, answer = compared.counterexample()
                        self.assertIsNone(record.test(rows))
                        self.assertIn(answer, record.evaluate(place, rows))
                        self.assertNotIn(answer, record.evaluate(other, rows))
        self.assertEqual(len(seen), 6)

    def test_databases(self):
        rng = random.Random(8)
        broken = 0
        for _ in range(50 * MANY):
            record = random_record(rng, 3, 2, 3, rng.choice([0, 2]), most_rows=3, most_head=3)
            rows = random_data(rng, record.widths, values=rng.choice([2, 3]))
            found = plain_broken(record, rows)
            self.assertEqual(record.test(rows), found)
            broken += found is not None
            for place, query in enumerate(record.queries):
                if query is None:
                    continue
                answers = plain_answers(query, rows)
                self.assertEqual(record.evaluate(place, rows), answers)
                if found is None:
                    short = record.shorten(place)
                    self.assertEqual(plain_answers(short.result, rows), answers)
        self.assertGreater(broken, 7)

    def test_many_answers(self):
        record = Record.open([2])
        record = record.put(0, rule(record, "ans(y, x) :- R0(x, y)"))
        rows = [(0, (n, 2**32 - 1 - n)) for n in range(3000)]
        want = sorted((2**32 - 1 - n, n) for n in range(3000))
        self.assertEqual(record.evaluate(0, rows), want)
        found = []
        thread = threading.Thread(target=lambda: found.append(record.evaluate(0, rows)))
        thread.start()
        thread.join()
        self.assertEqual(found, [want])

    def test_more_answers_than_rows(self):
        record = Record.open([1])
        record = record.put(0, rule(record, "ans(x, y) :- R0(x), R0(y)"))
        want = [(x, y) for x in range(80) for y in range(80)]
        self.assertEqual(record.evaluate(0, [(0, (n,)) for n in range(80)]), want)

    def test_large_databases(self):
        """Up to a hundred thousand rows, and on either side of 4,096 words, from which on rows that a query can do without are dropped."""
        record = Record.open([2, 2]).add(0, [0], 1)
        joined = record.put(0, rule(record, "ans(z, x) :- R0(x, y), R1(y, z)"))
        joined = joined.put(1, rule(record, "ans(z) :- R0(x, y), R1(y, z)"))
        joined = joined.put(2, rule(record, "ans() :- R0(x, y), R1(y, x)"))
        joined = joined.put(3, rule(record, "ans(a) :- R1(a, b), R1(b, c), R1(c, d), R1(d, e), R1(e, f), R0(f, g)"))
        rng = random.Random(6)
        for n in (40, 170, 682, 683, 9000, 65600):
            left = [(rng.randrange(2 * n), rng.randrange(n)) for _ in range(n)]
            right = [(rng.randrange(n), rng.randrange(n)) for _ in range(n)]
            rows = [row for pair in zip(left, right) for row in ((0, pair[0]), (1, pair[1]))]
            after = {}
            for y, z in right:
                after.setdefault(y, set()).add(z)
            both = {(z, x) for x, y in left for z in after.get(y, ())}
            self.assertEqual(joined.evaluate(0, rows), sorted(both))
            self.assertEqual(joined.count(0, rows), len(both))
            self.assertEqual(joined.evaluate(1, rows), sorted({(z,) for z, _ in both}))
            self.assertEqual(joined.evaluate(2, rows), [()] if any(x in after.get(y, ()) for x, y in left) else [])
            reached = {x for x, _ in left}
            for _ in range(5):
                reached = {y for y, zs in after.items() if zs & reached}
            self.assertEqual(joined.evaluate(3, rows), sorted((y,) for y in reached))
            first, broken = {}, None
            for k, (x, y) in enumerate(left):
                i = first.setdefault(x, k)
                if left[i][1] != y and (broken is None or 2 * i < broken[1]):
                    broken = (0, 2 * i, 2 * k)
            self.assertEqual(record.test(rows), broken and Broken(*broken))

    @unittest.skipUnless(LONG, "takes half a minute; SPERNEVAN_TEST_LONG=1 runs it")
    def test_a_million_rows_a_table(self):
        """Four million answers, and a key join of a million rows a table, in seconds."""
        n, rng = 1_000_000, random.Random(7)
        record = Record.open([2, 2]).add(0, [0], 1).add(1, [0], 1)
        record = record.put(0, rule(record, "ans(x, y, z) :- R0(x, y), R1(x, z)")).put(1, rule(record, "ans(x, y) :- R0(x, g), R0(y, g)"))
        keys = [rng.sample(range(n), n) for _ in range(2)]
        words = array("I", [word for relation in (0, 1) for key in keys[relation] for word in (relation, key, key // 4 + relation)])
        for what, call, want in (
            ("test", lambda: record.test(words), None),
            ("join", lambda: record.evaluate(0, words), [(key, key // 4, key // 4 + 1) for key in range(n)]),
            ("count", lambda: record.count(1, words), 4 * n),
            ("four million answers", lambda: record.evaluate(1, words)[-1], (n - 1, n - 1)),
        ):
            start = time.process_time()
            self.assertEqual(call(), want)
            took = time.process_time() - start
            print(f"\n{what}: {took:.1f} s", file=sys.stderr)
            self.assertLess(took, 30)

    def test_more_answers_than_a_batch(self):
        record = Record.open([1])
        record = record.put(0, rule(record, "ans(x, y) :- R0(x), R0(y)"))
        want = [(x, y) for x in range(300) for y in range(300)]
        self.assertEqual(record.evaluate(0, [(0, (n,)) for n in reversed(range(300))]), want)

    def test_very_many_ways(self):
        """Each database row six times, rows of the query that hang together loosely."""
        record = Record.open([2])
        record = record.put(0, rule(record, "ans(x) :- " + ", ".join(["R0(x, y)"] + ["R0(a%d, b%d)" % (k, k) for k in range(11)])))
        record = record.put(1, rule(record, "ans(a0, a12) :- " + ", ".join("R0(a%d, a%d)" % (k, k + 1) for k in range(12))))
        rows = [(0, (n, (n + step) % 20)) for n in range(20) for step in (1, 2)] * 6
        self.assertEqual(record.evaluate(0, rows), [(n,) for n in range(20)])
        self.assertEqual(record.evaluate(1, rows), sorted((n, (n + k) % 20) for n in range(20) for k in range(12, 25)))

    def test_no_rows(self):
        record = Record.open([1]).add(0, [0], 0)
        record = record.put(0, rule(record, "ans(x) :- R0(x)"))
        self.assertIsNone(record.test([]))
        self.assertIsNone(record.test(array("I")))
        lent, length = engine._words(array("I"))
        self.assertEqual((ctypes.addressof(lent) % 4, length), (0, 0))
        self.assertEqual(record.evaluate(0, []), [])


class Memory(Calls):
    """Working memory is lent as there is any: with less of it the answers are the same, and what was lent is let go."""

    def setUp(self):
        record = Record.open([2, 2]).add(0, [0], 1).add(1, [0, 1], 0)
        self.record = record.put(0, rule(record, "ans(x, z) :- R0(x, y), R1(y, z)")).put(1, rule(record, "ans() :- R1(x, x), R0(x, y)"))
        self.rows = [(0, (n, n % 7)) for n in range(60)] + [(1, (n % 7, n)) for n in range(60)]
        self.want = sorted((n, m) for n in range(60) for m in range(60) if n % 7 == m % 7)

    def answered(self):
        self.assertEqual(self.record.evaluate(0, self.rows), self.want)
        self.assertEqual(self.record.evaluate(0, self.rows, 2 * len(self.want)), self.want)
        self.refused(10, self.record.evaluate, 0, self.rows, 2 * len(self.want) - 1)
        self.assertEqual(self.record.count(0, self.rows), len(self.want))
        self.assertEqual((self.record.evaluate(1, self.rows), self.record.count(1, self.rows)), ([()], 1))
        self.assertIsNone(self.record.test(self.rows))
        self.assertEqual(self.record.test([*self.rows, (0, (5, 9))]), Broken(0, 5, 120))

    def test_less_of_it(self):
        plain = engine._map
        for most in (2**30, 2**16, 2**13, 2**12):

            def scarce(size, huge):
                if size > most:
                    raise OSError(12, "Cannot allocate memory")
                return plain(size, huge)

            with self.subTest(most=most), mock.patch.object(engine, "_map", scarce):
                if most > 8 * len(self.want):
                    self.answered()
                    continue
                self.assertEqual(self.record.count(0, self.rows), len(self.want))
                with self.assertRaisesRegex(MemoryError, f"there are {len(self.want)} answers, for which there is not enough memory"):
                    self.record.evaluate(0, self.rows)
        with mock.patch.object(engine, "_map", mock.Mock(side_effect=ValueError)), self.assertRaises(MemoryError):
            self.record.evaluate(0, self.rows)

    def test_any_of_it(self):
        """Parts of any lengths, whatever they hold."""
        rng, plain = random.Random(12), engine._lent

        def some(database, words):
            sizes = [words[0]] if len(words) == 1 else [rng.choice([0, 1, 15, 16, 47, 64, 300, size]) for size in words]
            parts = plain(database, sizes)
            for part, size in parts:
                part[:size] = [rng.choice([0, 1, 2**32 - 1, rng.randrange(2**32)])] * size
            return parts

        with mock.patch.object(engine, "AMPLE_WORDS", 10_000), mock.patch.object(engine, "_lent", some):
            for _ in range(10 * MANY):
                self.answered()

    def test_more_answers_than_were_expected(self):
        for ample in (0, 1, 100, 2 * len(self.want) - 1, 2 * len(self.want)):
            with mock.patch.object(engine, "AMPLE_WORDS", ample):
                self.answered()
        with mock.patch.object(engine, "AMPLE_WORDS", 16), mock.patch.object(engine, "_memory", lambda: 16):
            with self.assertRaisesRegex(MemoryError, f"there are {len(self.want)} answers"):
                self.record.evaluate(0, self.rows)

    def test_no_more_than_can_be_used(self):
        with mock.patch.object(engine, "_lent", side_effect=engine._lent) as lent:
            self.record.evaluate(0, [(0, (1, 2)), (1, (2, 3))])
            self.record.test([(0, (1, 2)), (1, (2, 3))])
            self.record.add_join(0, [[0], [1]]).test([(0, (1, 2)), (1, (2, 3))])
        self.assertEqual([call.args[1] for call in lent.call_args_list], [[18], [124, 0, 100, 100], [3, 12], [20, 36]])
        self.assertLess(engine._for_answers(2**31, engine.Size(12, 8), 1)[0], 2**32 - 1)

    def test_huge_pages(self):
        """A large database has them, and where there are none the answers are the same."""
        for most, asked in ((engine.HUGE_WORDS, {False}), (1, {True})):
            with mock.patch.object(engine, "HUGE_WORDS", most), mock.patch.object(engine, "_map", side_effect=engine._map) as lent:
                self.answered()
            self.assertEqual({call.args[1] for call in lent.call_args_list}, asked)
        self.assertEqual(len(engine._map(2**22, True)), 2**22)
        with mock.patch.object(engine, "HUGE_WORDS", 1), mock.patch.object(engine.mmap, "MADV_HUGEPAGE", 9999, create=True):
            self.answered()  # No machine knows this advice.
        other = SimpleNamespace(mmap=mmap.mmap, MAP_PRIVATE=mmap.MAP_PRIVATE, MAP_ANONYMOUS=mmap.MAP_ANONYMOUS)
        with mock.patch.object(engine, "HUGE_WORDS", 1), mock.patch.object(engine, "mmap", other):
            self.answered()  # Nor does every system have the word for it.

    def test_it_is_let_go(self):
        plain, held = engine._map, []

        def noted(size, huge):
            found = plain(size, huge)
            held.append(weakref.ref(found))
            return found

        with mock.patch.object(engine, "_map", noted):
            self.answered()
            try:
                self.record.evaluate(0, array("I", [0, 1]))
            except Refused as refused:
                kept = refused  # As a prompt of Python keeps the last error.
        self.assertEqual(kept.number, 9)
        until = time.monotonic() + 60
        while any(one() is not None for one in held) and time.monotonic() < until:
            time.sleep(0.001)
        self.assertEqual([one() for one in held], [None] * len(held))
        self.assertGreater(len(held), 10)


class Listing(Calls):
    """What the calls give is what the listing program writes."""

    def listed(self, record):
        lines = []
        for place, query in enumerate(record.queries):
            if query is None:
                continue
            got = record.shorten(place)
            if got.result.is_never:
                lines.append(f"place {place} rows {len(query.rows)} never replaced {got.replaced}")
                continue
            lines.append(f"place {place} rows {len(query.rows)} kept {len(got.result.rows)} replaced {got.replaced}")
            lines.append(" ".join(["head", *map(str, got.result.head)]))
            lines += [" ".join(["row", str(row.relation), *map(str, row.entries)]) for row in got.result.rows]
            lines.append(" ".join(["map", *(f"v{n}={entry}" for n, entry in sorted(got.mapping.items()))]))
        return "".join(f"{line}\n" for line in lines)

    def test_listing(self):
        program = context.ROOT / "crates" / "listing" / "out" / "listing"
        if not program.exists() and not context.ALL:
            self.skipTest("crates/listing/out/listing is not there; rt run makes it in crates/listing")
        rng = random.Random(11)
        for _ in range(20 * MANY):
            record = random_record(rng, 4, 3, 4, most_rows=7, most_head=3)
            done = subprocess.run([program], input=record.file, capture_output=True)
            self.assertEqual(done.stdout.decode(), self.listed(record))


class Header(unittest.TestCase):
    """The parameters that the package passes are those of the header."""

    def test_parameters(self):
        header = context.ROOT / "include" / "spernevan.h"
        text = re.sub(r"/\*.*?\*/|//[^\n]*", " ", header.read_text(), flags=re.DOTALL)
        declared = dict(re.findall(r"uint8_t\s+spernevan_(\w+)\s*\(([^)]*)\)", text))
        self.assertEqual(sorted(declared), sorted(engine._CALLS))
        sizes = {name: int(size) for name, size in re.findall(r"#define SPERNEVAN_(\w+) (\d+)", text)}
        ours = {"FILE": engine.LONGEST_FILE, "QUERY": engine.LONGEST_QUERY, "CHASED": engine.LONGEST_CHASED, "MAPPING": engine.MAPPING_WORDS}
        self.assertEqual(sizes, ours)
        kinds = {
            "uint8_t": ctypes.c_uint8,
            "uint32_t": ctypes.c_uint32,
            "size_t": ctypes.c_size_t,
            "uint8_t*": ctypes.POINTER(ctypes.c_uint8),
            "uint32_t*": ctypes.POINTER(ctypes.c_uint32),
            "size_t*": ctypes.POINTER(ctypes.c_size_t),
        }
        for name, parameters in declared.items():
            types = []
            for parameter in parameters.split(","):
                constant = "const" in parameter.split()
                kind = re.sub(r"\bconst\b|\s", "", re.sub(r"\w+\s*$", "", parameter))
                types.append(ctypes.c_char_p if constant and kind == "uint8_t*" else kinds[kind])
            self.assertEqual(types, engine._CALLS[name], name)


if __name__ == "__main__":
    unittest.main()
