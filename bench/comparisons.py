#!/usr/bin/env python3
"""Times comparisons and reductions whose mapping search is hard, through the C interface.

usage: bench/comparisons.py [LIBRARY]    (default: python/spernevan/libspernevan.so, which python/build makes)

Each case has two queries, p and q. One call is timed at a time, reading the file included: whether p is contained in q,
and the reductions of both. A time is the best of 5 calls. A case that says otherwise than expected, or takes a tenth of a
second, makes the exit status 1.
"""
import ctypes
import itertools
import os
import random
import sys
import time

from hard_queries import archive, edges, part

LIMIT = 100.0
APART, CONTAINED = 0, 1


def cycle(n, first=0):
    return [(first + i, first + (i + 1) % n) for i in range(n)]


def path(n, first=0):
    return [(first + i, first + i + 1) for i in range(n)]


def clique(n, first=0):
    return [(first + a, first + b) for a in range(n) for b in range(n) if a != b]


def free(n, first=0):
    return [(first + 2 * i, first + 2 * i + 1) for i in range(n)]


def grid(high, wide):
    def at(i, j):
        return wide * i + j
    return ([(at(i, j), at(i, j + 1)) for i in range(high) for j in range(wide - 1)]
            + [(at(i, j), at(i + 1, j)) for i in range(high - 1) for j in range(wide)])


def wheel(n):
    return cycle(n) + [(n, i) for i in range(n)]


def labels(rows):
    """Rows of the second relation."""
    return [(1, entries) for _, entries in rows]


def cases():
    """Name, whether p is contained in q, p's rows, q's rows. Relations R and S have two columns each."""
    # a failure that does not depend on most rows
    lost = labels(edges([(90, 91)]))
    yield 'eleven free rows and one of a relation that p lacks', APART, edges(clique(4)), edges(free(11)) + lost
    yield 'eleven free rows and one that p has', CONTAINED, edges(clique(4)[:11]) + lost, edges(free(11)) + lost
    star = edges([(0, i) for i in range(1, 7)])
    twigs = labels(edges([(i, 10 + i) for i in range(1, 7)]))
    fork = edges([(0, 1), (0, 2), (0, 3), (0, 4), (0, 5)]) + labels(edges([(1, 10), (2, 11), (3, 12), (4, 13)]))
    yield 'star of six branches of two rows', CONTAINED, fork, star + twigs
    yield 'star of six branches, of which one fails', APART, fork, star + twigs[:5] + labels(edges([(6, 6)]))
    # colourings
    colours = edges(clique(3))
    yield 'odd wheel of 5 into three colours', APART, colours, edges(wheel(5))
    yield 'even wheel of 6 into three colours', CONTAINED, colours, edges(wheel(6))
    yield '12 edges of the prism into three colours', CONTAINED, colours, edges(cycle(3) + cycle(3, 3) + [(i, i + 3) for i in range(3)] + path(3, 20))
    yield 'four mutual neighbours into three colours', APART, colours, edges(clique(4))
    yield 'four mutual neighbours into 12 edges on five', APART, edges([e for e in clique(5) if e not in ((0, 1), (1, 0), (2, 3), (3, 2), (0, 4), (4, 1), (2, 4), (4, 3))]), edges(clique(4))
    # cycles
    for n, m in ((12, 11), (12, 5), (12, 7), (11, 5), (9, 3), (12, 6), (12, 4)):
        yield '%d-cycle into a %d-cycle' % (n, m), CONTAINED if n % m == 0 else APART, edges(cycle(m)), edges(cycle(n))
    yield '12-cycle into a 5-cycle and a 7-cycle', APART, edges(cycle(5) + cycle(7, 10)), edges(cycle(12))
    yield '12-cycle into a 5-cycle and a 7-cycle that meet', CONTAINED, edges(cycle(5) + [(a % 7 and a % 7 + 10, b % 7 and b % 7 + 10) for a, b in cycle(7)]), edges(cycle(12))
    # independent parts and ties
    yield '3-cycle beside nine free rows into an 8-cycle', APART, edges(cycle(8)), edges(cycle(3) + free(9, 10))
    yield 'two 6-cycles into a 4-cycle and an 8-cycle', APART, edges(cycle(4) + cycle(8, 10)), edges(cycle(6) + cycle(6, 20))
    yield 'three 4-cycles into a 12-cycle', APART, edges(cycle(12)), edges(cycle(4) + cycle(4, 10) + cycle(4, 20))
    yield 'three 4-cycles into a 5-cycle and a 7-cycle', APART, edges(cycle(5) + cycle(7, 10)), edges(cycle(4) + cycle(4, 10) + cycle(4, 20))
    yield 'three 4-cycles, of which one fails', APART, edges(cycle(4)) + labels(edges(cycle(8, 10))), edges(cycle(4) + cycle(4, 10)) + labels(edges(cycle(4, 20)))
    yield 'three 4-cycles into 4-cycles', CONTAINED, edges(cycle(4)) + labels(edges(cycle(4, 10))), edges(cycle(4) + cycle(4, 10)) + labels(edges(cycle(4, 20)))
    # grids
    yield 'grid of 3 by 3 into a path of 4', APART, edges(path(3)), edges(grid(3, 3))
    yield 'grid of 3 by 3 into a path of 5', CONTAINED, edges(path(4)), edges(grid(3, 3))
    yield 'grid of 3 by 3 into a grid of 2 by 4', CONTAINED, edges(grid(2, 4)), edges(grid(3, 3))
    yield 'grid of 3 by 3 into a grid of 2 by 3', APART, edges(grid(2, 3)), edges(grid(3, 3))
    # repeated rows
    yield '12-cycle into one row 12 times', APART, edges([(0, 1)] * 12), edges(cycle(12))
    # what hill-climbing found slowest for a search that only compared with placed rows
    yield 'a search among repeated rows', APART, edges(TARGET_A), edges(HILL_A)
    yield 'a search among many walks', APART, edges(TARGET_B), edges(HILL_B)


TARGET_A = [(1, 0), (0, 1), (0, 1), (0, 1), (1, 0), (1, 0), (0, 1), (0, 1)]
HILL_A = [(3, 2), (7, 8), (9, 2), (5, 6), (11, 6), (11, 0), (10, 9), (5, 10), (4, 7), (1, 0), (3, 8), (4, 0)]
HILL_B = [(1, 2), (8, 6), (7, 2), (5, 6), (9, 4), (11, 10), (1, 4), (8, 12), (9, 3), (11, 3), (10, 12), (7, 6)]
TARGET_B = [(7, 2), (7, 5), (6, 4), (6, 5), (1, 5), (2, 3), (6, 2), (2, 6), (1, 2), (7, 4), (1, 4)]


def random_cases():
    rng = random.Random(11)
    for k in range(1000):
        n, m = rng.randint(2, 8), rng.randint(3, 14)
        p = edges([(rng.randrange(n), rng.randrange(n)) for _ in range(rng.randint(6, 12))])
        q = edges([(rng.randrange(m), rng.randrange(m)) for _ in range(12)])
        yield 'random %d' % k, None, p, q


class Engine:
    def __init__(self, library):
        self.library = ctypes.CDLL(library)
        self.library.spernevan_compare.restype = ctypes.c_uint8
        self.library.spernevan_reduce.restype = ctypes.c_uint8
        self.mapping = (ctypes.c_uint32 * 192)()
        self.room = (ctypes.c_uint8 * 4574)()
        self.length = ctypes.c_size_t()
        self.byte = ctypes.c_uint8()

    def timed(self, call):
        best = None
        for _ in range(5):
            start = time.perf_counter()
            refusal = call()
            took = 1000 * (time.perf_counter() - start)
            if refusal != 0:
                sys.exit('refused %d' % refusal)
            best = took if best is None else min(best, took)
        return best

    def compare(self, data):
        n = ctypes.c_size_t
        took = self.timed(lambda: self.library.spernevan_compare(
            data, n(len(data)), n(0), n(1), ctypes.byref(self.byte), self.mapping, n(192), self.room, n(4574), ctypes.byref(self.length)))
        return took, self.byte.value

    def reduce(self, data, source):
        n = ctypes.c_size_t
        return self.timed(lambda: self.library.spernevan_reduce(
            data, n(len(data)), n(source), n(2), self.room, n(4574), ctypes.byref(self.length), ctypes.byref(self.byte), self.mapping, n(192)))


def main():
    here = os.path.dirname(os.path.abspath(__file__))
    default = os.path.join(here, '..', 'python', 'spernevan', 'libspernevan.so')
    engine = Engine(sys.argv[1] if len(sys.argv) > 1 else default)
    wrong = False
    worst = {APART: (0.0, 0.0), CONTAINED: (0.0, 0.0)}
    for name, expected, p, q in itertools.chain(cases(), random_cases()):
        data = archive([2, 2], [], [part(p, []), part(q, [])])
        compared, verdict = engine.compare(data)
        reduced = max(engine.reduce(data, 0), engine.reduce(data, 1))
        says = {APART: 'not contained', CONTAINED: 'contained'}[verdict]
        if expected not in (None, verdict) or max(compared, reduced) >= LIMIT:
            wrong = True
            says += '  <-- ' + ('slow' if expected in (None, verdict) else 'wrong')
        if not name.startswith('random'):
            print('%7.2f ms  %7.2f ms  %-52s %s' % (compared, reduced, name, says))
        else:
            worst[verdict] = max(worst[verdict][0], compared), max(worst[verdict][1], reduced)
    for verdict, says in ((APART, 'not contained'), (CONTAINED, 'contained')):
        print('%7.2f ms  %7.2f ms  %-52s %s' % (*worst[verdict], 'worst of 1000 random pairs', says))
    sys.exit(1 if wrong else 0)


if __name__ == "__main__":
    main()
