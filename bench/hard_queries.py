#!/usr/bin/env python3
"""Times the listing program on saved queries whose mapping search is hard.

usage: bench/hard_queries.py [LISTING]    (default: crates/listing/out/listing; build it with `rt run` in crates/listing)

Each query is written as a file with one filled place; the whole program is timed, start included: best of 5 runs.
"""
import random
import struct
import subprocess
import sys
import time


def part(rows, head):
    def entry(e):
        return struct.pack('<BI', 1 if isinstance(e, str) else 0, int(e[1:]) if isinstance(e, str) else e)
    body = bytes([len(head), len(rows)]) + b''.join(entry(e) for e in head)
    return body + b''.join(bytes([r]) + b''.join(entry(e) for e in es) for r, es in rows)


def archive(widths, dependencies, queries, joins=()):
    """A file with functional dependencies (relation, left set, right column) and join dependencies (relation, sets)."""
    tail = bytes([len(joins)] + [b for r, sets in joins for b in [r, len(sets)] + sets]) if joins else b''
    parts = [bytes([len(widths)] + widths), bytes([len(dependencies)] + [b for d in dependencies for b in d]) + tail] + queries
    at = 2 + 4 * len(parts)
    pairs = b''
    for p in parts:
        pairs += struct.pack('<HH', at, len(p))
        at += len(p)
    return struct.pack('<H', len(parts)) + pairs + b''.join(parts)


def v(n):
    return 'v%d' % n


def edges(pairs):
    return [(0, [v(a), v(b)]) for a, b in pairs]


def cases():
    yield 'eleven free rows and one of another relation', edges([(2 * i, 2 * i + 1) for i in range(11)]) + [(1, [v(90), v(91)])]
    yield 'twelve free rows', edges([(2 * i, 2 * i + 1) for i in range(12)])
    yield 'star of eleven branches', edges([(0, i + 1) for i in range(11)]) + [(1, [v(5), v(20)])]
    yield 'star of six branches of two', edges([(0, i) for i in range(1, 7)]) + [(1, [v(i), v(20 + i)]) for i in range(1, 7)]
    yield 'six edges of three colours and six more', edges([(a, b) for a in range(3) for b in range(3) if a != b] + [(10, 11), (11, 12), (12, 13), (13, 14), (14, 10), (10, 12)])
    for n in (3, 5, 11, 12):
        yield 'directed %d-cycle' % n, edges([(i, (i + 1) % n) for i in range(n)])
    yield '3-cycle beside nine free rows', edges([(0, 1), (1, 2), (2, 0)] + [(10 + 2 * i, 11 + 2 * i) for i in range(9)])
    yield '5-cycle beside a 7-cycle', edges([(i, (i + 1) % 5) for i in range(5)] + [(10 + i, 10 + (i + 1) % 7) for i in range(7)])
    rng = random.Random(7)
    for k in range(200):
        n = rng.randint(3, 12)
        yield 'random %d' % k, edges([(rng.randrange(n), rng.randrange(n)) for _ in range(12)])


def main():
    listing = sys.argv[1] if len(sys.argv) > 1 else 'crates/listing/out/listing'
    worst_random = (0.0, '')
    for name, rows in cases():
        data = archive([2, 2], [], [part(rows, [])])
        best = 1e9
        for _ in range(5):
            start = time.perf_counter()
            out = subprocess.run([listing], input=data, stdout=subprocess.PIPE).stdout
            best = min(best, time.perf_counter() - start)
        first = out.decode().split('\n')[0]
        if name.startswith('random'):
            worst_random = max(worst_random, (best, first))
        else:
            print('%6.2f ms  %-46s %s' % (best * 1000, name, first))
    print('%6.2f ms  %-46s %s' % (worst_random[0] * 1000, 'worst of 200 random queries', worst_random[1]))


if __name__ == "__main__":
    main()
