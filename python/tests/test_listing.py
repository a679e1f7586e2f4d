"""The listing program, run on its standard input: whole outputs, refused files, long input, input in pieces.

The files are put together here, byte by byte, and each expected output is what docs/SPECIFICATION.md says, where nothing is free."""

import struct
import subprocess
import time
import unittest

import context

PROGRAM = context.ROOT / "crates" / "listing" / "out" / "listing"
SECONDS = 60  # for a run that should take milliseconds
MOST = 65536  # the bytes of its input that the program reads

EXAMPLE = bytes.fromhex(
    "0300 0E000200 10000400 14003100 0103 01000101 0302 0100000000 0101000000 0102000000"
    " 00 0100000000 0101000000 0102000000 00 0100000000 0007000000 0103000000"
)
EXAMPLE_LISTING = b"place 0 rows 2 kept 1 replaced 1\nhead v0 7 v2\nrow 0 v0 7 v2\nmap v0=v0 v1=7 v2=v2 v3=v2\n"

VACANT = b"\xff"
R = b"\x01\x02"  # part 0: one relation of two columns
NONE = b"\x00"  # part 1: no dependency
A_TO_B = bytes([1, 0, 1, 1])  # part 1: the first column of relation 0 determines the second


def entries(text):
    """The bytes of entries such as `v0 7`."""
    return b"".join(struct.pack("<BI", e[0] == "v", int(e.lstrip("v"))) for e in text.split())


def part(head, *rows):
    """The part of a query, from its head and its rows, such as `v0` and `0 v0 7`: a row begins with its relation."""
    start = bytes([len(head.split()), len(rows)])
    split = [row.split(" ", 1) for row in rows]
    return start + entries(head) + b"".join(bytes([int(relation)]) + entries(rest) for relation, rest in split)


def file(*parts):
    """The file of some parts."""
    at, pairs = 2 + 4 * len(parts), b""
    for one in parts:
        pairs += struct.pack("<HH", at, len(one))
        at += len(one)
    return struct.pack("<H", len(parts)) + pairs + b"".join(parts)


def coded(*pairs):
    """What part 0 has after the widths: pairs of an old and a current code."""
    return bytes([len(pairs)]) + b"".join(struct.pack("<II", *pair) for pair in pairs)


ONE = part("v0", "0 v0 v1")  # a sound query
LOOSE = part("v2", "0 v0 v1")  # its head variable is in no row
WIDE = part("v0", "0 v0 v96")  # a variable above 95


class Program(unittest.TestCase):
    def setUp(self):
        if not PROGRAM.exists():
            if context.ALL:
                self.fail("crates/listing/out/listing is not there; rt run makes it in crates/listing")
            self.skipTest("crates/listing/out/listing is not there; rt run makes it in crates/listing")

    def listed(self, data):
        """What the program writes on this input."""
        done = subprocess.run([PROGRAM], input=data, capture_output=True, timeout=SECONDS)
        self.assertEqual((done.returncode, done.stderr), (0, b""))
        return done.stdout

    def listed_in_pieces(self, pieces, pause, close=True):
        """What the program writes on input that comes in pieces, with a pause in seconds after each; the input may stay open after them."""
        with subprocess.Popen([PROGRAM], stdin=subprocess.PIPE, stdout=subprocess.PIPE, stderr=subprocess.PIPE, bufsize=0) as running:
            try:
                for piece in pieces:
                    self.assertEqual(running.stdin.write(piece), len(piece))
                    time.sleep(pause)
                if close:
                    running.stdin.close()
                self.assertEqual(running.wait(SECONDS), 0)
                self.assertEqual(running.stderr.read(), b"")
                return running.stdout.read()
            finally:
                running.kill()

    def lines(self, data, *lines):
        self.assertEqual(self.listed(data), "".join(f"{line}\n" for line in lines).encode())

    def refused(self, number, data):
        self.lines(data, f"refused {number}")


class Listings(Program):
    def test_example(self):
        self.assertEqual(self.listed(EXAMPLE), EXAMPLE_LISTING)

    def test_example_put_together(self):
        query = part("v0 v1 v2", "0 v0 v1 v2", "0 v0 7 v3")
        self.assertEqual(file(b"\x01\x03", A_TO_B, query), EXAMPLE)

    def test_no_filled_place(self):
        self.lines(file(R, NONE))

    def test_never(self):
        clash = part("v0", "0 v0 3", "0 v0 4")
        self.lines(file(R, A_TO_B, clash), "place 0 rows 2 never replaced 0")
        # b determines c, then a determines b: one replacement, then the clash
        later = part("v0", "0 v0 v1 3", "0 v0 v2 4")
        self.lines(file(b"\x01\x03", bytes([2, 0, 2, 2, 0, 1, 1]), later), "place 0 rows 2 never replaced 1")
        self.lines(file(R, A_TO_B, part("")), "place 0 rows 0 never replaced 0")
        self.lines(file(R, NONE, b"\x08\x00"), "place 0 rows 0 never replaced 0")

    def test_empty_head(self):
        self.lines(
            file(R, NONE, part("", "0 v5 v5")),
            "place 0 rows 1 kept 1 replaced 0", "head", "row 0 v5 v5", "map v5=v5",
        )

    def test_no_variables(self):
        self.lines(
            file(R, NONE, part("8 8", "0 0 2147483647")),
            "place 0 rows 1 kept 1 replaced 0", "head 8 8", "row 0 0 2147483647", "map",
        )

    def test_neither(self):
        self.lines(file(R, NONE, part("", "0 3 4")), "place 0 rows 1 kept 1 replaced 0", "head", "row 0 3 4", "map")

    def test_places_ascend(self):
        clash = part("v0", "0 v0 3", "0 v0 4")
        repeated = part("v95 v7", "1 v95 v7 v95", "1 v95 v7 v95")
        self.lines(
            file(b"\x02\x02\x03", A_TO_B, VACANT, repeated, VACANT, VACANT, VACANT, clash, b"\x01\x00", ONE),
            "place 1 rows 2 kept 1 replaced 0", "head v95 v7", "row 1 v95 v7 v95", "map v7=v7 v95=v95",
            "place 5 rows 2 never replaced 0",
            "place 6 rows 0 never replaced 0",
            "place 7 rows 1 kept 1 replaced 0", "head v0", "row 0 v0 v1", "map v0=v0 v1=v1",
        )

    def test_rows_that_stay(self):
        """The last rows are tried first, as they stand in the query."""
        for rows, stays in (("12", "1"), ("21", "2"), ("312", "3"), ("121", "1"), ("211", "2")):
            images = " ".join(f"v{n}=v{stays}" for n in sorted(set(rows)))
            self.lines(
                file(R, NONE, part("v0", *[f"0 v0 v{n}" for n in rows])),
                f"place 0 rows {len(rows)} kept 1 replaced 0", "head v0", f"row 0 v0 v{stays}", f"map v0=v0 {images}",
            )

    def test_order_of_rows(self):
        """By relation, then by entries from the left, constants before variables, each by number."""
        rows = "0 9 v0", "0 10 v0", "0 256 v0", "0 2147483647 v0", "0 v0 v1", "0 v0 v9", "0 v0 v10", "0 v1 v0", "1 0 v0 v0", "1 v0 0 v0", "1 v0 v0 0"
        head = "v9 v10 v1"
        for given in rows, rows[::-1], rows[1::2] + rows[::2]:
            self.lines(
                file(b"\x02\x02\x03", NONE, part(head, *given)),
                "place 0 rows 11 kept 11 replaced 0", f"head {head}", *[f"row {row}" for row in rows], "map v0=v0 v1=v1 v9=v9 v10=v10",
            )

    def test_a_column_that_never_varies(self):
        """A dependency of three zero bytes is one: the first column of relation 0."""
        query = part("v0 v2", "0 v0 v1", "0 v2 v3")
        one = "place 0 rows 2 kept 1 replaced 1", "head v0 v0", "row 0 v0 v1", "map v0=v0 v1=v1 v2=v0 v3=v1"
        self.lines(file(R, bytes([1, 0, 0, 0]), query), *one)
        self.lines(file(R, bytes([2, 0, 0, 0, 0, 0, 0]), query), *one)
        self.lines(
            file(R, NONE, query), "place 0 rows 2 kept 2 replaced 0", "head v0 v2", "row 0 v0 v1", "row 0 v2 v3", "map v0=v0 v1=v1 v2=v2 v3=v3"
        )
        self.lines(file(R, bytes([1, 0, 0, 0]), part("", "0 3 v0", "0 4 v1")), "place 0 rows 2 never replaced 0")

    def test_join_dependencies(self):
        """They change nothing in a listing."""
        repeated = part("v0", "0 v0 v1", "0 v0 v1", "0 v2 v3")
        held = NONE + bytes([1, 0, 2, 1, 2])
        self.assertEqual(self.listed(file(R, held, repeated)), self.listed(file(R, NONE, repeated)))
        self.assertEqual(self.listed(file(R, A_TO_B + bytes([1, 0, 2, 3, 3]), repeated)), self.listed(file(R, A_TO_B, repeated)))

    def test_renumbered_codes(self):
        """Each old code is read as its current one, before anything else is done."""
        pairs = coded((5, 9), (2147483647, 0), (6, 9))
        query = part("v0 5", "0 v0 5", "0 v0 9", "0 v1 6", "0 2147483647 v2")
        self.lines(
            file(R + pairs, NONE, query), "place 0 rows 4 kept 2 replaced 0", "head v0 9", "row 0 0 v2", "row 0 v0 9", "map v0=v0 v1=v0 v2=v2"
        )
        self.lines(file(R + pairs, A_TO_B, part("", "0 3 5", "0 3 9")), "place 0 rows 2 kept 1 replaced 0", "head", "row 0 3 9", "map")
        self.lines(file(R + pairs, A_TO_B, part("", "0 3 5", "0 3 8")), "place 0 rows 2 never replaced 0")
        self.lines(file(R + pairs, A_TO_B, part("v1", "0 5 v0", "0 6 v1")), "place 0 rows 2 kept 1 replaced 1", "head v1", "row 0 9 v1", "map v0=v1 v1=v1")
        # 0 may be an old code, and what is not in use stays.
        zero = coded((0, 9))
        self.lines(file(R + zero, NONE, b"\x02\x00"), "place 0 rows 0 never replaced 0")
        self.lines(file(R + zero, NONE, part("0", "0 v0 0")), "place 0 rows 1 kept 1 replaced 0", "head 9", "row 0 v0 9", "map v0=v0")

    def test_longest(self):
        row = "7 " + " ".join(["2147483647"] * 8)
        pairs = coded(*[(code, 2147483647) for code in range(16)])
        dependencies = bytes([32] + [7, 255, 7] * 32 + [4] + [7, 4, 255, 1, 2, 128] * 4)
        old = "7 " + " ".join(map(str, range(8, 16)))
        data = file(bytes([8] + [8] * 8) + pairs, dependencies, *[part(" ".join(["v95"] * 8), *["7" + " v95" * 8] * 11, old)] * 8)
        self.assertEqual(len(data), 4574)
        kept = ["kept 2 replaced 0", "head" + " v95" * 8]
        said = self.listed(data).decode().splitlines()
        self.assertEqual(len(said), 8 * 5)
        for place in range(8):
            mine = said[5 * place : 5 * place + 5]
            self.assertEqual(mine[:2], [f"place {place} rows 12 {kept[0]}", kept[1]])
            self.assertEqual(mine[2:4], [f"row {row}", "row 7" + " v95" * 8])
            self.assertEqual(mine[4], "map v95=v95")


class Refused(Program):
    def each(self, number, *files):
        for data in files:
            with self.subTest(number=number, data=data[:60].hex()):
                self.refused(number, data)

    def test_1(self):
        self.each(1, b"", b"\x03", b"\x00\x00", b"\x01\x00", b"\x0b\x00", b"\xff\xff", b"\x02\x01" + EXAMPLE[2:], EXAMPLE[:2], EXAMPLE[:13])
        self.each(1, file(R), file(R, NONE, *[VACANT] * 8, ONE))

    def test_2(self):
        sound = file(R, NONE, ONE)
        self.each(2, EXAMPLE[:14], sound + b"\x00", sound[:-1], EXAMPLE + EXAMPLE)
        # each offset and each length, one more and one less
        for at in range(2, 14, 2):
            for by in 1, -1:
                value = struct.unpack_from("<H", sound, at)[0] + by
                self.each(2, sound[:at] + struct.pack("<H", value) + sound[at + 2 :])
        # two parts that change places, in the pairs alone
        self.each(2, sound[:2] + sound[6:10] + sound[2:6] + sound[10:])

    def test_3(self):
        parts = b"", b"\x00", b"\x01", b"\x09" + b"\x01" * 9, b"\x01\x00", b"\x01\x09", b"\x02\x01", b"\x02\x01\x00"
        self.each(3, *[file(one, NONE) for one in parts], file(b"\x01\x09" + coded((5, 5)), NONE))

    def test_18(self):
        pairs = [
            ((5, 5),), ((2**31, 5),), ((5, 2**31),), ((2**32 - 1, 2**32 - 2),), ((5, 9), (5, 8)), ((5, 9), (5, 9)), ((5, 9), (9, 8)), ((5, 9), (4, 5)),
            tuple((code, 99) for code in range(17)), (),
        ]
        lengths = [b"\x01", coded((5, 9))[:-1], coded((5, 9)) + b"\x00", b"\x02" + coded((5, 9))[1:], b"\x00" + coded((5, 9))[1:]]
        past = [*[coded(*one) for one in pairs], *lengths]
        self.each(18, *[file(R + one, part_1) for one in past for part_1 in (NONE, b"\x01", b"")], *[file(R + one, NONE, WIDE) for one in past])
        self.each(4, file(R + coded((5, 9)), b"\x01"))

    def test_4(self):
        dependencies = bytes([1, 1, 1, 0]), bytes([1, 1, 0, 0]), bytes([1, 0, 4, 0]), bytes([1, 0, 1, 2]), bytes([1, 0, 0, 2]), bytes([1, 0, 128, 0])
        lengths = b"", b"\x01", bytes([1, 0, 1]), bytes([1, 0, 0]), bytes([2, 0, 1, 1]), bytes([2, 0, 0, 0])
        self.each(4, *[file(R, one) for one in dependencies + lengths], file(R, bytes([33] + [0, 1, 1] * 33)))

    def test_15(self):
        joins = [
            [0], [5] + [0, 2, 1, 2] * 5, [1, 1, 2, 1, 2], [1, 0, 1, 3], [1, 0, 5, 3, 3, 3, 3, 3],
            [1, 0, 2, 0, 3], [1, 0, 2, 1, 4], [1, 0, 2, 1, 7], [1, 0, 2, 1, 1],
        ]
        lengths = [1], [1, 0], [1, 0, 2], [1, 0, 2, 1], [1, 0, 2, 1, 2, 0], [2, 0, 2, 1, 2], [1, 0, 2, 1, 2, 0, 2, 1, 2]
        self.each(15, *[file(R, part + bytes(one)) for part in (NONE, A_TO_B) for one in [*joins, *lengths]])

    def test_5(self):
        row = "0 v0 v1"
        limits = [
            part(" ".join(["v0"] * 9), row), part("v0", *[row] * 13), WIDE, part("v96", row), part("v0", "0 v0 2147483648"), part("v0", row, "1 v0 v1"),
            bytes([0, 1, 0, 2, 0, 0, 0, 0, 0, 0, 0, 0, 0]), b"\x09\x00", b"\xfe\x00",
        ]
        lengths = [b"", b"\x01", ONE[:-1], ONE + b"\x00", ONE[:2], b"\x01\x00\x00", VACANT + VACANT, b"\x00\x00\x00"]
        self.each(5, *[file(R, NONE, one) for one in limits + lengths])
        self.each(5, file(R, NONE, VACANT), file(R, NONE, ONE, VACANT), file(R, NONE, *[VACANT] * 8))

    def test_6(self):
        self.each(6, file(R, NONE, LOOSE), file(R, NONE, part("0 v95", "0 v0 v94")), file(R, NONE, VACANT, ONE, LOOSE))

    def test_first_fault(self):
        both = part("v2", "0 v0 v96")
        self.each(2, file(b"", b"", b"") + b"\x00")
        self.each(3, file(b"\x01\x09", b"\x01\x01\x00\x00", WIDE))
        self.each(4, file(R, bytes([1, 1, 1, 0]), WIDE), file(R, bytes([1, 1, 1, 0, 9])))
        self.each(15, file(R, A_TO_B + b"\x00", WIDE), file(R, NONE + bytes([1, 0, 2, 1, 1]), LOOSE))
        self.each(5, file(R, NONE, both), file(R, NONE, WIDE, LOOSE), file(R, NONE, LOOSE + b"\x00"))
        self.each(6, file(R, NONE, LOOSE, WIDE), file(R, NONE, LOOSE, VACANT))


class Long(Program):
    """The first 65,536 bytes are the file, whatever follows."""

    def up_to_the_limit(self, beyond=0):
        """A directory by which the last part ends at byte 65,536, or so many after it, then sound relations and a last part that is too long."""
        pairs = struct.pack("<HHHHH", 2, 10, 2, 12, MOST - 12 + beyond)
        return (pairs + R).ljust(MOST + beyond, b"\x00")

    def test_sound_and_more(self):
        for length in len(EXAMPLE) + 1, MOST - 1, MOST, MOST + 1, 3 * MOST:
            with self.subTest(length=length):
                self.refused(2, EXAMPLE.ljust(length, b"\x00"))

    def test_just_the_limit(self):
        self.refused(15, self.up_to_the_limit())
        self.refused(2, self.up_to_the_limit()[:-1])

    def test_beyond(self):
        # were any byte after the limit read, its last part would not end with the file
        for more in 1, 100, MOST, 10 * MOST:
            with self.subTest(more=more):
                self.refused(15, self.up_to_the_limit() + b"\x00" * more)

    def test_a_part_beyond(self):
        # the file would be one by its directory, but only its first 65,536 bytes are taken
        self.refused(2, self.up_to_the_limit(beyond=1))
        self.refused(2, self.up_to_the_limit(beyond=11))

    def test_input_that_does_not_end(self):
        self.assertEqual(self.listed_in_pieces([self.up_to_the_limit()], 0, close=False), b"refused 15\n")


class Pieces(Program):
    """Input that arrives in pieces is taken whole."""

    def test_example(self):
        for size, pause in (1, 0.001), (5, 0.003), (68, 0.02):
            with self.subTest(size=size):
                pieces = [EXAMPLE[i : i + size] for i in range(0, len(EXAMPLE), size)]
                self.assertEqual(self.listed_in_pieces(pieces, pause), EXAMPLE_LISTING)

    def test_refused(self):
        self.assertEqual(self.listed_in_pieces([EXAMPLE[:1], EXAMPLE[1:14]], 0.01), b"refused 2\n")
        self.assertEqual(self.listed_in_pieces([EXAMPLE, b"\x00"], 0.01), b"refused 2\n")
        self.assertEqual(self.listed_in_pieces([b"\x03"], 0.01), b"refused 1\n")
        self.assertEqual(self.listed_in_pieces([], 0), b"refused 1\n")

    def test_long(self):
        data = Long.up_to_the_limit(self)
        pieces = [data[i : i + 4099] for i in range(0, MOST, 4099)]
        self.assertEqual(self.listed_in_pieces(pieces, 0.002), b"refused 15\n")
        self.assertEqual(self.listed_in_pieces(pieces[:-1] + [pieces[-1][:-1]], 0.002), b"refused 2\n")


if __name__ == "__main__":
    unittest.main()
