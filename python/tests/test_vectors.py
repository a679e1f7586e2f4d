"""The exported calls against the stored vectors of the reference; and that a wrong vector is seen."""

import unittest

import context
import vectors
from context import with_engine

STORED = context.ROOT / "reference" / "vectors.txt"


def stored():
    with STORED.open(encoding="ascii") as lines:
        return list(lines)


@with_engine
class Vectors(unittest.TestCase):
    def test_stored(self):
        tried, wrong, unread = vectors.judge(stored())
        self.assertEqual((wrong, unread), ([], []))
        self.assertEqual(tried, [300] * 15)

    def test_wrong_ones(self):
        """A vector whose last number is another one is told wrong, or no vector."""
        first = {}
        for text in stored():
            call = int(text.split(" ", 1)[0])
            if not text.split(" ", 2)[1] == "0" and call not in first:
                first[call] = text
        for call, text in first.items():
            *rest, last = text.split()
            for other in (int(last) + 1, int(last) ^ 1):
                _, wrong, unread = vectors.judge([" ".join([*rest, str(other)]) + "\n"])
                self.assertEqual(len(wrong) + len(unread), 1, (vectors.CALLS[call], other))

    def test_no_vector(self):
        for text in ("\n", "15 0 0\n", "0 3 1 2\n", "2 0 3 4\n", "2 0 3", "x\n"):
            tried, wrong, unread = vectors.judge([text])
            self.assertEqual((sum(tried), wrong, len(unread)), (0, [], 1), text)


if __name__ == "__main__":
    unittest.main()
