#!/usr/bin/env python3
"""Counts the instructions of reductions beside two programs without proofs, by valgrind's callgrind.

usage: bench/reductions.py [LISTING [PLAIN [CAREFUL]]]    (default: crates/listing/out/listing, which `rt run` in crates/listing makes, and
spernevan-reference and careful in reference/target/release, which `cargo build --offline --release` makes in reference/)

The plain program is the reference, written to be right at sight; the careful one, reference/src/bin/careful.rs, is written for speed. Each query is written
as a file with one filled place, and all three list it: read, reduce, write. Their start is included; the line without a query shows it. The columns are the
instructions of the listing program, of the plain one and of the careful one, and how many times those of the plain and of the careful one the first are.
"""
import re
import subprocess
import sys
import tempfile

from comparisons import HILL_B, cycle, free, grid, wheel
from hard_queries import archive, edges, part, v


def cases():
    """Name, widths, rows, head."""
    yield 'twelve free rows', [2], edges(free(12)), []
    yield 'twelve free rows, eight head variables', [2], edges(free(12)), [v(2 * i) for i in range(8)]
    yield 'star of twelve rows of 8 columns', [8], [(0, [v(0)] + [v(7 * i + c) for c in range(1, 8)]) for i in range(12)], []
    yield '12-cycle', [2], edges(cycle(12)), []
    yield '5-cycle beside a 7-cycle', [2], edges(cycle(5) + cycle(7, 10)), []
    yield 'grid of 3 by 3', [2], edges(grid(3, 3)), []
    yield 'odd wheel of 5', [2], edges(wheel(5)), []
    yield 'even wheel of 6', [2], edges(wheel(6)), []
    yield 'many walks', [2], edges(HILL_B), []
    yield 'one row twelve times', [2], edges([(0, 1)] * 12), []
    yield 'no query', [2], None, []


def instructions(command, data):
    with tempfile.NamedTemporaryFile() as out:
        said = subprocess.run(['valgrind', '--tool=callgrind', '--callgrind-out-file=' + out.name] + command, input=data, stdout=subprocess.DEVNULL,
                              stderr=subprocess.PIPE).stderr.decode()
    return int(re.search(r'Collected : (\d+)', said).group(1))


def main():
    programs = ['crates/listing/out/listing', 'reference/target/release/spernevan-reference', 'reference/target/release/careful']
    given = sys.argv[1:]
    listing, plain, careful = given + programs[len(given):]
    print('   listing       plain     careful   plain  careful   (millions; times)')
    for name, widths, rows, head in cases():
        data = archive(widths, [], [] if rows is None else [part(rows, head)])
        n, p, c = [instructions(command, data) / 1e6 for command in ([listing], [plain, 'list'], [careful, 'list'])]
        print('%10.3f  %10.3f  %10.3f  %6.2f  %7.2f   %s' % (n, p, c, n / p, n / c, name))


if __name__ == "__main__":
    main()
