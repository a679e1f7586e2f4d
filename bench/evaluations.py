#!/usr/bin/env python3
"""Times evaluations of queries that can be carried into the database in very many ways, through the package's engine, which python/build makes.

Relations R and S have two columns. A database has random rows of R, over so many values, and a few of S. Reading the file is
included. A time is the processor's, the best of 3 calls. An evaluation that takes five seconds makes the exit status 1. Whether the answers are
right is for the vectors to say.
"""
import array
import random
import sys
import time
from pathlib import Path

sys.path.insert(0, str(Path(__file__).resolve().parent.parent / 'python'))

from comparisons import clique, cycle, free, grid, labels, path
from hard_queries import archive, edges, part
from spernevan import engine

LIMIT = 5000.0
DATABASES = ((20, 100), (100, 1000), (1000, 10000))


def cases():
    """Name, the variables of the head, rows."""
    yield 'path of 12, one end', [0], edges(path(12))
    yield 'path of 12, the other end', [12], edges(path(12))
    yield 'path of 12, no head', [], edges(path(12))
    yield 'path of 12 to a row of S, one end', [0], edges(path(11)) + labels(edges([(11, 12)]))
    yield 'path of 11 to a row that fails', [0], edges(path(11)) + labels(edges([(11, 11)]))
    yield 'path of 2, both ends', [0, 2], edges(path(2))
    yield 'path of 8, both ends', [0, 8], edges(path(8))
    yield 'twelve free rows, no head', [], edges(free(12))
    yield 'twelve free rows, one variable', [0], edges(free(12))
    yield 'eleven free rows and one that fails', [0], edges(free(11)) + labels(edges([(90, 90)]))
    yield 'star of twelve, its centre', [0], edges([(0, i) for i in range(1, 13)])
    yield 'star of six branches of two', [0], edges([(0, i) for i in range(1, 7)] + [(i, i + 10) for i in range(1, 7)])
    yield '3-cycle', [0, 1, 2], edges(cycle(3))
    yield '12-cycle, no head', [], edges(cycle(12))
    yield '6-cycle, one variable', [0], edges(cycle(6))
    yield 'grid of 3 by 3, no head', [], edges(grid(3, 3))
    yield 'four mutual neighbours', [0, 1, 2, 3], edges(clique(4))


def graph(values, rows):
    r = random.Random(rows)
    words = array.array('I')
    for _ in range(rows):
        words.extend((0, r.randrange(values), r.randrange(values)))
    for k in range(10):
        words.extend((1, k, k + 1))
    return words


def main():
    slow = False
    for name, head, rows in cases():
        data = archive([2, 2], [], [part(rows, ['v%d' % v for v in head])])
        cells = []
        for values, size in DATABASES[:2] if name == 'path of 8, both ends' else DATABASES:  # a million answers there, in 10^11 ways
            words = graph(values, size)
            best, count = None, 0
            for _ in range(3):
                start = time.process_time()
                count, _ = engine.evaluate(data, 0, words, engine.Size(len(rows), len(head)))
                took = 1000 * (time.process_time() - start)
                best = took if best is None else min(best, took)
                if took > LIMIT / 2:
                    break
            slow = slow or best >= LIMIT
            cells.append('%9.2f ms %8s' % (best, count))
        print('%-40s %s' % (name, '  '.join(cells)), flush=True)
    sys.exit(1 if slow else 0)


if __name__ == "__main__":
    main()
