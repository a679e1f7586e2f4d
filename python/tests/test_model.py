"""Entries, queries and dependencies; values that the file has no bytes for."""

import random
import unittest

import context
from spernevan import Constant, Dependency, JoinDependency, Query, Row, Variable
from spernevan.model import columns_of, decode_query, encode_query, mask_of, whole

HUGE = 10**5000


class Model(unittest.TestCase):
    def test_whole(self):
        self.assertEqual(whole("x", 255, 255), 255)
        self.assertEqual(whole("x", HUGE), HUGE)
        for bad in (-1, 256, HUGE, -HUGE, 1.0, "1", None, [], b"1"):
            with self.assertRaises(ValueError) as caught:
                whole("a relation", bad, 255)
            self.assertIn("a relation must be", str(caught.exception))
            self.assertLess(len(str(caught.exception)), 120)

    def test_entries(self):
        self.assertEqual(str(Constant(7)), "7")
        self.assertEqual(str(Variable(7)), "v7")
        self.assertNotEqual(Constant(7), Variable(7))
        for made in (Constant, Variable):
            for bad in (-1, 2**32, "x", None, 1.5):
                self.assertRaises(ValueError, made, bad)

    def test_rows_and_queries(self):
        row = Row(0, [Variable(0)])
        self.assertEqual(row.entries, (Variable(0),))
        for bad in ((256, ()), (-1, ()), ("R", ()), (0, (1,)), (0, 5), (0, "ab")):
            self.assertRaises(ValueError, Row, *bad)
        bad_queries = [
            ((Variable(0),), ()),
            ((1,), (row,)),
            ((), (1,)),
            ((), 5),
            (None, (row,)),
            ((Variable(0),), (row,), 2),
            ((), (), 256),
            ((), (row,) * 256),
            ((Constant(1),) * 256, (row,)),
        ]
        for bad in bad_queries:
            self.assertRaises(ValueError, Query, *bad)
        self.assertRaises(ValueError, Query.never, -1)
        self.assertTrue(Query.never(3).is_never)
        self.assertEqual(Query.never(3).head_length, 3)
        self.assertEqual(Query((Variable(0),), (row,)).head_length, 1)

    def test_columns(self):
        self.assertEqual(mask_of([0, 2, 2]), 5)
        self.assertEqual(columns_of(5), {0, 2})
        for bad in ([8], [-1], ["a"], 3, None):
            self.assertRaises(ValueError, mask_of, bad)
        self.assertEqual(Dependency(0, [1, 1], 0), Dependency(0, (1,), 0))
        for bad in ((256, [0], 0), (0, [8], 0), (0, [0], 256), (0, 0, 0)):
            self.assertRaises(ValueError, Dependency, *bad)
        self.assertEqual(JoinDependency(0, [[1, 1], (0,)]), JoinDependency(0, ({1}, {0})))
        self.assertNotEqual(JoinDependency(0, [[1], [0]]), JoinDependency(0, [[0], [1]]))
        for bad in ((256, [[0], [1]]), (0, [[8], [1]]), (0, [0, 1]), (0, None), (0, "ab")):
            self.assertRaises(ValueError, JoinDependency, *bad)
        self.assertEqual((Dependency(0, [1, 2], 5).columns(), JoinDependency(0, [[0, 1], [1, 3]]).columns()), ({1, 2, 5}, {0, 1, 3}))
        self.assertEqual(JoinDependency(0, [[0, 1], [1, 2]]).joined(["abc", "xbz"]), ("a", "b", "z"))

    def test_bytes_of_a_query(self):
        rng = random.Random(1)
        for _ in range(300):
            widths = [rng.randint(1, 8) for _ in range(rng.randint(1, 8))]
            query = context.random_query(rng, widths, constants=rng.choice([0, 3]))
            self.assertEqual(decode_query(encode_query(query, widths), widths), query)
        narrow = Query((), (Row(0, (Variable(0),)),))
        with self.assertRaisesRegex(ValueError, "row 0 has 1 entries, relation 0 has 2 columns"):
            encode_query(narrow, [2])
        self.assertRaises(ValueError, encode_query, "ans()", [2])


if __name__ == "__main__":
    unittest.main()
