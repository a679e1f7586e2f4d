"""The C functions themselves: buffers of every length around the needed one, and a C program over the header."""

import ctypes
import shutil
import subprocess
import tempfile
import unittest
from pathlib import Path

import context
from context import engine, rule, with_engine
from spernevan import Record

UNTOUCHED = 0x5A

PROGRAM = r"""
#include <stdio.h>
#include <string.h>
#include "spernevan.h"

/* Opens a record of one relation of two columns, saves ans(y) :- R(x, y), R(x, 7), and evaluates it on three rows, with and without working memory;
   then says that the relation is the product of its columns, which the rows are not; and that the code 7 is 8 now. */
int main(void) {
    const uint8_t widths[] = {2};
    const uint8_t query[] = {1, 2, 1, 1, 0, 0, 0,
                             0, 1, 0, 0, 0, 0, 1, 1, 0, 0, 0,
                             0, 1, 0, 0, 0, 0, 0, 7, 0, 0, 0};
    const uint32_t words[] = {0, 1, 7, 0, 1, 9, 0, 2, 8};
    uint8_t file[SPERNEVAN_FILE], saved[SPERNEVAN_FILE];
    uint32_t answers[3] = {5, 5, 5}, again[3] = {6, 6, 6}, lent[4][200];
    const uint8_t sets[] = {1, 2};
    size_t length = 0, size = 0, count = 0, counted = 0, found = 0, dependency = 9, first = 9, second = 9, third = 9, fourth = 9;
    uint8_t verdict = 9;
    uint8_t opened = spernevan_open(widths, 1, file, sizeof file, &length);
    uint8_t put = spernevan_put(file, length, 0, query, sizeof query, saved, sizeof saved, &size);
    uint8_t done = spernevan_evaluate(saved, size, 0, words, 9, answers, 3, &count);
    memset(lent, 77, sizeof lent);
    uint8_t more = spernevan_evaluate_lent(saved, size, 0, words, 9, again, 3, lent[0], 200, lent[1], 9, lent[2], 200, lent[3], 200, &found);
    uint8_t number = spernevan_count(saved, size, 0, words, 9, &counted);
    uint8_t most = spernevan_count_lent(saved, size, 0, words, 9, lent[0], 0, lent[1], 0, lent[2], 0, lent[3], 0, &length);
    uint8_t tested = spernevan_test_lent(saved, size, words, 9, lent[0], 5, lent[1], 14, &verdict, &dependency, &first, &second, &third, &fourth);
    printf("%d %d %d %zu %u %u %u\n", opened, put, done, count, (unsigned)answers[0], (unsigned)answers[1], (unsigned)answers[2]);
    printf("%d %zu %u %u %u\n", more, found, (unsigned)again[0], (unsigned)again[1], (unsigned)again[2]);
    printf("%d %zu %d %zu %d %d %zu %zu %zu\n", number, counted, most, length, tested, verdict, dependency, first, second);
    uint8_t joined = spernevan_add_join(saved, size, 0, sets, 2, file, sizeof file, &length);
    tested = spernevan_test(file, length, words, 9, &verdict, &dependency, &first, &second, &third, &fourth);
    printf("%d %zu %d %d %zu %zu %zu %zu %zu\n", joined, length - size, tested, verdict, dependency, first, second, third, fourth);
    uint8_t coded = spernevan_add_code(saved, size, 7, 8, file, sizeof file, &length);
    done = spernevan_evaluate(file, length, 0, words, 9, answers, 3, &count);
    printf("%d %zu %d %zu %u %u\n", coded, length - size, done, count, (unsigned)answers[0], (unsigned)answers[1]);
    return 0;
}
"""
SAID = "0 0 0 2 7 9 5\n0 2 7 9 6\n0 2 0 2 0 1 0 0 0\n0 5 0 2 0 0 2 0 0\n0 9 0 2 8 9\n"


@with_engine
class ShortBuffers(unittest.TestCase):
    """One byte or word too few gives 10 and leaves all as it was; just enough does not."""

    def setUp(self):
        record = Record.open([2, 2]).add(0, [0], 1)
        record = record.put(0, rule(record, "ans(x) :- R0(x, y), R0(x, z), R1(z, 7)"))
        self.record = record.put(1, rule(record, "ans(x) :- R0(x, y)"))
        self.file = bytes(self.record.file)

    def tried(self, name, before, after=()):
        """Calls `name` with an output buffer of each length from none to two more than it needs."""
        library = getattr(engine._library(), f"spernevan_{name}")

        def call(size):
            out = (ctypes.c_uint8 * max(size, 1))(*[UNTOUCHED] * size)
            length = ctypes.c_size_t(77)
            number = library(*before, out, size, ctypes.byref(length), *after)
            return number, bytes(out[:size]), length.value

        number, _, needed = call(engine.LONGEST_FILE)
        self.assertEqual(number, 0)
        self.assertGreater(needed, 0)
        for size in (0, 1, needed - 1):
            self.assertEqual(call(size), (10, bytes([UNTOUCHED]) * size, 77))
        for size in (needed, needed + 1):
            number, out, length = call(size)
            self.assertEqual((number, length, out[needed:]), (0, needed, bytes([UNTOUCHED]) * (size - needed)))

    def test_each_call(self):
        file = (self.file, len(self.file))
        part = bytes([1, 1, 1, 3, 0, 0, 0, 0, 1, 3, 0, 0, 0, 1, 4, 0, 0, 0])
        byte = ctypes.c_uint8()
        mapping = (ctypes.c_uint32 * 192)()
        self.tried("write", file)
        self.tried("open", (bytes([2, 2]), 2))
        self.tried("add", (*file, 1, 1, 1))
        self.tried("add_join", (*file, 1, bytes([1, 2]), 2))
        self.tried("add_code", (*file, 7, 2**31 - 1))
        self.tried("put", (*file, 2, part, len(part)))
        self.tried("drop", (*file, 1))
        self.tried("reduce", (*file, 0, 2), (ctypes.byref(byte), mapping, 192))
        self.tried("compare", (*file, 1, 0, ctypes.byref(byte), mapping, 192))

    def test_mappings(self):
        """A mapping of fewer than 192 words is refused with 10 too."""
        library = engine._library()
        out, length, byte = (ctypes.c_uint8 * engine.LONGEST_FILE)(), ctypes.c_size_t(), ctypes.c_uint8()
        for size in (0, 191):
            mapping = (ctypes.c_uint32 * 192)(*[UNTOUCHED] * 192)
            file = (self.file, len(self.file), 0, 2)
            numbers = [
                library.spernevan_reduce(*file, out, len(out), ctypes.byref(length), ctypes.byref(byte), mapping, size),
                library.spernevan_compare(self.file, len(self.file), 0, 1, ctypes.byref(byte), mapping, size, out, len(out), ctypes.byref(length)),
            ]
            self.assertEqual((numbers, set(mapping), set(out)), ([10, 10], {UNTOUCHED}, {0}))


@with_engine
class FromC(unittest.TestCase):
    """The header compiles without a warning, and a program over it links and runs."""

    def test_program(self):
        archive = context.ROOT / "crates" / "interface" / "out" / "libinterface.a"
        if not (archive.exists() and shutil.which("gcc")):
            if context.ALL:
                self.fail("no archive, or no gcc")
            self.skipTest("no archive, or no gcc")
        with tempfile.TemporaryDirectory() as room:
            source, program = Path(room) / "small.c", Path(room) / "small"
            source.write_text(PROGRAM)
            strict = ["gcc", "-std=c99", "-Wall", "-Wextra", "-Wpedantic", "-Werror", f"-I{context.ROOT / 'include'}"]
            subprocess.run([*strict, str(source), str(archive), "-o", str(program)], check=True)
            self.assertEqual(subprocess.run([str(program)], check=True, capture_output=True, text=True).stdout, SAID)


if __name__ == "__main__":
    unittest.main()
