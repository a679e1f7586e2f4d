"""The dictionary of values: every value comes back, equal values have one number, and no code is a plain number."""

import pickle
import random
import unittest
from datetime import date, datetime
from decimal import Decimal

import context  # noqa: F401
from spernevan import Constant, Names, Table, Values, Variable, format_query, pack, parse_query, unpack
from spernevan.layout import set_mapping
from spernevan.values import FIRST_CODE, Null, format_value, read_cell, read_literal

NAMES = (Table("flight", ("number", "site")),)


class Codes(unittest.TestCase):
    def test_plain_numbers_stand_for_themselves(self):
        values = Values()
        for number in (0, 7, 1_999_999_999):
            self.assertEqual(values.encode(number), number)
            self.assertEqual(values.decode(number), number)
        self.assertEqual(values.encode(True), 1)
        self.assertEqual(values.encode(Decimal("13.00")), 13)
        self.assertEqual(values.encode(13.0), 13)
        self.assertEqual(len(values), 0)

    def test_every_value_comes_back(self):
        values = Values()
        given = [
            "Lindenberg",
            "",
            "7",
            "007",
            "a'b\n\"",
            Decimal("12.50"),
            Decimal("-0.001"),
            -1,
            2**31,
            10**30,
            date(2026, 1, 14),
            datetime(2026, 1, 14, 11, 45),
            2_000_000_005,
            2**31 - 1,
        ]
        codes = [values.encode(value) for value in given]
        self.assertEqual([values.decode(code) for code in codes], given)
        self.assertEqual(len(set(codes)), len(codes))
        self.assertTrue(all(FIRST_CODE <= code <= 2**31 - 1 for code in codes))
        self.assertEqual([values.encode(value) for value in given], codes)
        self.assertEqual(Values(values), values)
        self.assertEqual(pickle.loads(pickle.dumps(values)), values)

    def test_equal_numbers_are_one_value(self):
        values = Values()
        self.assertEqual(values.encode(Decimal("12.50")), values.encode(12.5))
        self.assertEqual(str(values.decode(values.encode(12.5))), "12.50")
        self.assertNotEqual(values.encode("12.5"), values.encode(12.5))
        self.assertNotEqual(values.encode("13"), 13)

    def test_a_date_and_its_text_are_one_value(self):
        values = Values()
        code = values.encode("2026-01-14")
        self.assertEqual(values.decode(code), "2026-01-14")
        self.assertEqual(values.encode(date(2026, 1, 14)), code)
        self.assertEqual(values.decode(code), date(2026, 1, 14))

    def test_no_code_is_a_plain_number_too(self):
        """Whatever is entered, in whatever order, different values have different numbers."""
        rng = random.Random(12)
        for _ in range(200):
            values = Values()
            values.reserve(rng.choices(range(FIRST_CODE, FIRST_CODE + 6), k=2))
            given = rng.choices([*range(FIRST_CODE - 3, FIRST_CODE + 6), "a", "b", "c", Decimal("1.5"), -1], k=12)
            codes = {value: values.encode(value) for value in given}
            self.assertEqual(len(set(codes.values())), len(codes))
            for value, code in codes.items():
                self.assertEqual((values.encode(value), values.decode(code)), (code, value))

    def test_numbers_of_a_record_keep_their_place(self):
        values = Values()
        values.reserve([7, FIRST_CODE, FIRST_CODE + 2])
        self.assertEqual([values.encode(text) for text in "ab"], [FIRST_CODE + 1, FIRST_CODE + 3])
        self.assertEqual(values.encode(FIRST_CODE), FIRST_CODE)

    def test_what_is_no_value(self):
        values = Values()
        for absent in (None, float("nan"), Decimal("nan")):
            self.assertRaises(Null, values.encode, absent)
        for bad in (float("inf"), b"x", [1], 10**2000, Decimal("1e2000"), object()):
            self.assertRaises(ValueError, values.encode, bad)
        self.assertEqual(len(values), 0)

    def test_given_codes(self):
        for code, value, message in [(7, "x", "a code must be"), (2**31, "x", "a code must be"), (FIRST_CODE, 7, "7 stands for itself")]:
            with self.assertRaisesRegex(ValueError, message):
                Values([(code, value)])


class Written(unittest.TestCase):
    def test_cells(self):
        for cell, value in [
            ("7", 7),
            ("0", 0),
            ("-3", -3),
            ("007", "007"),
            ("06610", "06610"),
            ("+7", "+7"),
            ("1_000", "1_000"),
            ("12.5", Decimal("12.5")),
            ("-0.25", Decimal("-0.25")),
            ("13.00", 13),
            ("1e-05", Decimal("1e-05")),
            ("52E10", "52E10"),
            ("1E+04", 10000),
            ("-0", 0),
            ("1.5E3", 1500),
            (" 7 ", 7),
            ("2026-01-14", date(2026, 1, 14)),
            ("2026-02-30", "2026-02-30"),
            ("Lindenberg", "Lindenberg"),
            (" x ", " x "),
            (".5", ".5"),
            ("\u0663", "\u0663"),
            ("-", "-"),
            ("1.", "1."),
            ("9" * 2000, "9" * 2000),
            ("2026-01-14 11:45", "2026-01-14 11:45"),
        ]:
            with self.subTest(cell=cell[:20]):
                self.assertEqual(read_cell(cell), value)
                self.assertIs(type(read_cell(cell)), type(value))

    def test_literals(self):
        for value in [
            "Lindenberg",
            "",
            "it's",
            'a "b"',
            "line\nbreak",
            "\u00e5",
            "\x7f",
            Decimal("12.50"),
            Decimal("1e-30"),
            -5,
            10**40,
            date(2026, 1, 14),
        ]:
            self.assertEqual(read_literal(format_value(value)), value)
            query = parse_query(f"ans(x) :- flight(x, {format_value(value)})", Names(NAMES))
            self.assertEqual(len(query.rows), 1)


class InMappings(unittest.TestCase):
    def test_a_text_is_not_broken(self):
        long = "a text, with  spaces -> and signs " * 4
        mapping = {0: Variable(0), 1: Constant(Values().encode("x")), 2: Variable(1)}
        values = Values([(FIRST_CODE, long)])
        self.assertEqual(set_mapping(mapping, {}, {}, values), f"    v0 -> v0,\n    v1 -> '{long}',\n    v2 -> v1")
        self.assertEqual(set_mapping({}, {}, {}, values), "    no variables")


@context.with_engine
class InQueries(unittest.TestCase):
    TEXT = "flight(number, site)\n\n0: ans(f, 'x') :- flight(f, 'De ''Bilt'), flight(f, 12.50)\n2: ans(f) :- flight(f, 2026-01-14), flight(-1, 'x')\n"

    def test_constants_stay_in_range(self):
        record, names = pack(self.TEXT)
        numbers = [e.number for q in record.queries if q for row in q.rows for e in row.entries if not str(e).startswith("v")]
        self.assertTrue(all(0 <= number <= 2**31 - 1 for number in numbers))
        self.assertEqual(unpack(record, names), self.TEXT)
        self.assertEqual(pack(unpack(record, names)), (record, names))

    def test_other_orders_pack_to_the_same_bytes(self):
        """A dictionary that pack would not make by itself is written down in the text."""
        record, names = pack("flight(number, site)\n2: ans(f) :- flight(f, 'b')\n0: ans(f) :- flight(f, 'a')\n")
        text = unpack(record, names)
        self.assertIn("2000000000 = 'b'\n2000000001 = 'a'\n", text)
        self.assertEqual(pack(text)[0].file, record.file)
        record, names = pack("flight(number, site)\n0: ans(f) :- flight(f, 'b'), flight(f, 2000000000)\n")
        self.assertEqual(pack(unpack(record, names))[0].file, record.file)
        self.assertIn("flight(f, 2000000000)", unpack(record, names))

    def test_a_text_that_looks_like_a_rule(self):
        query = "ans(f, 'a :- b') :- " + ", ".join(["flight(f, 'it''s, (x) :- # y')"] * 6)
        names = Names(NAMES)
        self.assertEqual(format_query(parse_query(query, names), names, {0: "f"}), query)
        record, names = pack(f"flight(number, site)\n0: {query}\n")
        self.assertEqual(pack(unpack(record, names)), (record, names))


if __name__ == "__main__":
    unittest.main()
