#!/usr/bin/env python3
"""Times comparisons whose chase is long, with join dependencies and with many functional ones, through the C interface.

usage: bench/joins.py [LIBRARY]    (default: python/spernevan/libspernevan.so, which python/build makes)

Each case has dependencies of one relation and a query, which is compared with itself: what takes time is its chase, up to 24
rows or to the refusal 17. Reading the file is included. A time is the processor's, the best of 5 calls. A case that answers
otherwise than expected, or takes 10 milliseconds, makes the exit status 1.
"""
import ctypes
import itertools
import os
import random
import sys
import time

from hard_queries import archive, part, v

LIMIT = 10.0
CONTAINED, OVERFLOW = 'contained', 'refused 17'


def rows(*tuples):
    return [(0, [v(8 * n + c) for c, n in enumerate(t)]) for t in tuples]


def cases():
    """Name, what is expected, width, functional dependencies, join dependencies, rows. Column c has variables of its own."""
    pair = [(0, [1, 2])] * 4
    yield '4 by 6 values, two sets', CONTAINED, 2, [], pair, rows((0, 0), (1, 1), (2, 2), (3, 3), (3, 4), (3, 5))
    yield '5 by 5 values, two sets', OVERFLOW, 2, [], pair, rows((0, 0), (1, 1), (2, 2), (3, 3), (4, 4))
    single = [(0, [1, 2, 4, 8])] * 4
    yield '2 by 2 by 2 by 3 values, four sets', CONTAINED, 4, [], single, rows((0, 0, 0, 0), (1, 1, 1, 1), (0, 0, 0, 2))
    yield '12 values in each column, four sets', OVERFLOW, 4, [], single, rows(*[(i,) * 4 for i in range(12)])
    whole = [(0, [1, 2, 4, 15])] * 4
    yield '12 values in each column, a set of all columns last', CONTAINED, 4, [], whole, rows(*[(i,) * 4 for i in range(12)])
    ring = [(0, [3, 6, 12, 9])] * 4
    yield '12 values in each column, four sets in a ring', CONTAINED, 4, [], ring, rows(*[(i,) * 4 for i in range(12)])
    yield 'two values in each column, four sets in a ring', CONTAINED, 4, [], ring, rows(*[(i % 2, i // 2 % 2, i // 4 % 2, i // 8) for i in range(12)])
    apart = [(0, [3, 12, 6])] * 4
    yield 'sets that share nothing before one that joins them', CONTAINED, 4, [], apart, rows(*[(i,) * 4 for i in range(12)])
    wide = [(0, [15, 51, 85, 255])] * 2 + [(0, [15, 240, 60, 195])] * 2
    yield '8 columns', CONTAINED, 8, [], wide, rows(*[tuple(i if c % 2 else i // 2 for c in range(8)) for i in range(12)])
    late = [(0, [3, 5, 9, 3])] * 4
    yield 'a functional dependency after each row', CONTAINED, 4, [(0, 7, 3), (0, 11, 2)], late, rows(*[(i // 4, i % 4, i, i) for i in range(12)])
    # column c is determined by those before it: 12 rows that share their first entry become one
    chain = [(0, 127, 7)] * 25 + [(0, 2 ** c - 1, c) for c in range(7, 0, -1)]
    yield '77 replacements, 32 functional dependencies', CONTAINED, 8, chain, [], rows(*[(0,) + (i,) * 7 for i in range(12)])


def random_joins(rng, width):
    everything = 2 ** width - 1
    for _ in range(4):
        sets = [rng.randint(1, everything) for _ in range(rng.choice((2, 3, 4, 4)))]
        missing = everything
        for s in sets:
            missing &= ~s
        sets[rng.randrange(len(sets))] |= missing
        yield 0, sets


def random_rows(rng, width, values, count):
    return rows(*[tuple(rng.randrange(values) for _ in range(width)) for _ in range(count)])


def random_cases():
    rng = random.Random(3)
    for k in range(1000):
        width = rng.randint(2, 8)
        joins = list(random_joins(rng, width))
        dependencies = [(0, rng.randint(1, 2 ** width - 1), rng.randrange(width)) for _ in range(rng.choice((0, 0, 2, 8)))]
        values = rng.randint(2, 6)
        yield '1000 random records', None, width, dependencies, joins, random_rows(rng, width, values, rng.randint(2, 12))


def random_functional_cases():
    """32 functional dependencies, most of them with wide left sets, which leave more rows apart."""
    rng = random.Random(5)
    for k in range(4000):
        width = rng.randint(3, 8)
        lacking = rng.randint(1, 2)
        dependencies = []
        for _ in range(32):
            left = 2 ** width - 1
            for _ in range(rng.randint(1, lacking)):
                left &= ~2 ** rng.randrange(width)
            dependencies.append((0, left or 1, rng.randrange(width)))
        joins = list(random_joins(rng, width))
        yield '4000 random records, 32 functional dependencies', None, width, dependencies, joins, random_rows(rng, width, rng.randint(2, 6), 12)


class Engine:
    def __init__(self, library):
        self.library = ctypes.CDLL(library)
        self.library.spernevan_compare.restype = ctypes.c_uint8
        self.mapping = (ctypes.c_uint32 * 192)()
        self.room = (ctypes.c_uint8 * 1026)()
        self.length = ctypes.c_size_t()
        self.verdict = ctypes.c_uint8()

    def compare(self, data):
        n = ctypes.c_size_t
        best = None
        for _ in range(5):
            start = time.process_time()
            refusal = self.library.spernevan_compare(data, n(len(data)), n(0), n(0), ctypes.byref(self.verdict), self.mapping, n(192), self.room, n(1026),
                                                     ctypes.byref(self.length))
            took = 1000 * (time.process_time() - start)
            best = took if best is None else min(best, took)
        return best, 'refused %d' % refusal if refusal else ('not contained', 'contained', 'contained')[self.verdict.value]


def main():
    here = os.path.dirname(os.path.abspath(__file__))
    default = os.path.join(here, '..', 'python', 'spernevan', 'libspernevan.so')
    engine = Engine(sys.argv[1] if len(sys.argv) > 1 else default)
    wrong = False
    worst = {}
    for name, expected, width, dependencies, joins, query in itertools.chain(cases(), random_cases(), random_functional_cases()):
        took, says = engine.compare(archive([width], dependencies, [part(query, [])], joins))
        if took >= LIMIT or says not in ((CONTAINED, OVERFLOW) if expected is None else (expected,)):
            wrong = True
            says += '  <-- ' + ('slow' if took >= LIMIT else 'wrong')
            print('%7.2f ms  %-56s %s' % (took, name, says))
        elif expected is None:
            worst[name, says] = max(worst.get((name, says), 0.0), took)
        else:
            print('%7.2f ms  %-56s %s' % (took, name, says))
    for name, says in sorted(worst):
        print('%7.2f ms  %-56s %s' % (worst[name, says], 'worst of ' + name, says))
    sys.exit(1 if wrong else 0)


if __name__ == '__main__':
    main()
