"""Rules, names and rows of a database: round trips, and errors that say where."""

import random
import unittest

import context
from spernevan import Constant, Names, NotationError, Query, Row, Table, Variable, format_query, parse_query, read_names
from spernevan.notation import format_mapping, format_names

NAMES = Names((Table("flight", ("number", "sonde", "launch")), Table("burst", ("flight", "height"))))


def v(number):
    return Variable(number)


class Rules(unittest.TestCase):
    def same(self, text, query):
        self.assertEqual(parse_query(text, NAMES), query)

    def test_rules(self):
        row = Row(0, (v(0), Constant(7), v(1)))
        self.same("ans(x, 7, z) :- flight(x, 7, z)", Query((v(0), Constant(7), v(1)), (row,)))
        self.same("ans() :- burst(x, x)", Query((), (Row(1, (v(0), v(0))),)))
        self.same("ans(x):-burst(x,_),burst(_,x)", Query((v(0),), (Row(1, (v(0), v(1))), Row(1, (v(2), v(0))))))
        self.same("  # a comment\n ans( # head\n x) :-\n\n burst(x,\n y),\n burst(x, 7)  # end\n",
                  Query((v(0),), (Row(1, (v(0), v(1))), Row(1, (v(0), Constant(7))))))
        self.same("ans(never, ans) :- burst(never, ans)", Query((v(0), v(1)), (Row(1, (v(0), v(1))),)))
        self.same("ans(höhe) :- burst(1, höhe)", Query((v(0),), (Row(1, (Constant(1), v(0))),)))

    def test_zeros_in_front_and_null(self):
        for word, said in [("007", "write '007' for the text, 7 for the number"), ("-00.5", "write '-00.5' for the text, -0.5 for the number")]:
            with self.assertRaisesRegex(NotationError, f"rule:1:20: {word} begins with 0: {said}"):
                parse_query(f"ans(x) :- burst(x, {word})", NAMES)
        self.same("ans(x) :- burst(x, 0)", Query((v(0),), (Row(1, (v(0), Constant(0))),)))
        for word in ("NULL", "null"):
            with self.assertRaisesRegex(NotationError, f"rule:1:20: {word} is no value and no variable"):
                parse_query(f"ans(x) :- burst(x, {word})", NAMES)

    def test_a_variable_called_null_loses_its_name(self):
        self.assertEqual(read_names("burst(a, b)\n0: x, NULL, y\n", "a.names").variables, {0: {0: "x", 2: "y"}})

    def test_words_that_are_no_value(self):
        for word, said in [
            ("2026-1-14", "2026-1-14 is no date; a date is written 2026-01-14, with two digits for the month and the day"),
            ("2026-01-145", "2026-01-145 is no date; a date is written 2026-01-14"),
            ("2026-01-14T00:00", "2026-01-14 goes on; a date is written 2026-01-14, and one with a time is a text between quotes"),
            ("5a", "5a is no number; a text stands between quotes"),
            ("0x10", "0x10 is no number; a text stands between quotes"),
            ("1e5x", "1e5x is no number; a text stands between quotes"),
            ("\u201cx\u201d", "'\u201c' is no quote of a rule; a text stands between straight quotes, as in 'De Bilt'"),
        ]:
            with self.subTest(word=word), self.assertRaisesRegex(NotationError, f"^rule:1:20: {said}"):
                parse_query(f"ans(x) :- burst(x, {word})", NAMES)
        for word in ("5 a", "x 5", "'a' 5", "2026 -1"):
            with self.subTest(word=word), self.assertRaisesRegex(NotationError, f"a comma is missing before {word.split()[1]}$"):
                parse_query(f"ans(x) :- burst({word})", NAMES)

    def test_never(self):
        self.same("ans(_, _) :- never", Query.never(2))
        self.same("ans() :- never", Query.never(0))
        self.assertEqual(format_query(Query.never(2), NAMES), "ans(_, _) :- never")
        self.assertEqual(format_query(Query.never(0), NAMES), "ans() :- never")

    def test_numbered_variables_keep_their_numbers(self):
        self.same("ans(v5) :- burst(v5, x), burst(v0, y)",
                  Query((v(5),), (Row(1, (v(5), v(1))), Row(1, (v(0), v(2))))))
        self.same("ans(v95, vx) :- burst(v95, vx)", Query((v(95), v(0)), (Row(1, (v(95), v(0))),)))

    def test_limits(self):
        most = "ans(" + ", ".join("v95" for _ in range(8)) + ") :- " + ", ".join(["burst(v95, 2147483647)"] * 12)
        self.assertEqual(len(parse_query(most, NAMES).rows), 12)
        wide = Names((Table("w", tuple("abcdefgh")),))
        rows = ", ".join(f"w({', '.join(f'x{8 * r + c}' for c in range(8))})" for r in range(12))
        self.assertEqual(parse_query(f"ans() :- {rows}", wide).variables(), list(range(96)))

    def test_print_and_parse(self):
        rng = random.Random(2)
        for _ in range(150 * context.MANY):
            widths = [rng.randint(1, 8) for _ in range(rng.randint(1, 8))]
            names = Names.default(widths)
            query = context.random_query(rng, widths, constants=rng.choice([0, 3]))
            self.assertEqual(parse_query(format_query(query, names), names), query)
            # Under other names it is the same query up to a one-to-one renaming.
            given = {n: f"x{rng.randrange(10)}_{n}" for n in query.variables() if rng.random() < 0.7}
            again = parse_query(format_query(query, names, given), names)
            pairs = {(a, b) for old, new in zip(query.rows, again.rows) for a, b in zip(old.entries, new.entries)}
            pairs |= set(zip(query.head, again.head))
            self.assertEqual([r.relation for r in query.rows], [r.relation for r in again.rows])
            self.assertEqual(query.head_length, again.head_length)
            self.assertEqual(len({a for a, _ in pairs}), len(pairs))
            self.assertEqual(len({b for _, b in pairs}), len(pairs))
            self.assertTrue(all(a == b for a, b in pairs if isinstance(a, Constant) or isinstance(b, Constant)))

    def test_errors_say_where(self):
        cases = [
            ("", 1, 1, "'ans' was expected, not the end"),
            ("foo(x) :- burst(x, y)", 1, 1, "a rule begins with ans, not foo"),
            ("ans(x", 1, 6, "',' or ')' was expected, not the end"),
            ("ans(x) burst(x, y)", 1, 8, "':-' was expected, not 'burst'"),
            ("ans(x) :-", 1, 10, "the name of a table was expected, not the end"),
            ("ans(x) :- burst(x, y),", 1, 23, "the name of a table was expected, not the end"),
            ("ans(x) :- burst(x, y) burst(x, z)", 1, 23, "a comma is missing before burst; ',' goes between the rows of a rule"),
            ("ans(x y) :- burst(x, y)", 1, 7, "a comma is missing before y"),
            ("ans(x) :- burst(x, 'a' 7)", 1, 24, "a comma is missing before 7"),
            ("ans(x) :- burst(x, y) z", 1, 23, "the rule ends here; ',' goes between its rows"),
            ("ans(x) :- burst(x, y),\n  layer(x)", 2, 3, "there is no table layer; there is flight, burst"),
            ("ans(x) :- burst(x)", 1, 11, "burst(flight, height) has 2 columns, not 1"),
            ("ans(x) :- burst()", 1, 11, "burst(flight, height) has 2 columns, not 0"),
            ("ans(x, y) :- burst(x, 1)", 1, 8, "y is in no row"),
            ("ans(v3) :- burst(x, 1)", 1, 5, "v3 is in no row"),
            ("ans(_) :- burst(x, 1)", 1, 5, "_ is for rows, and for the head of never"),
            ("ans(_, x) :- never", 1, 8, "the head of never has only _"),
            (f"ans() :- burst({'9' * 6000}, 1)", 1, 16, f"{'9' * 24} is no number, or one of more than 1000 digits"),
            ("ans() :- burst(v96, 1)", 1, 16, "variables with numbers go from v0 to v95"),
            ("ans() :- burst(v01, 1)", 1, 16, "variables with numbers go from v0 to v95"),
            ("ans() :- burst(-x, 1)", 1, 16, "'-' has no meaning here"),
            ("ans() :- burst(F-x, 1)", 1, 17, "'-' has no meaning here; a text, such as 'F-101', stands between quotes, and a name has _ for -"),
            ("ans() :- burst(F-101, 1)", 1, 16, "F-101 is no variable; a text stands between quotes"),
            ("ans() :- burst(2026-01-14 12:00, 1)", 1, 16, "2026-01-14 goes on with a time; a date with a time is a text between quotes"),
            ("ans() :- burst(x, 1).", 1, 21, "'.' has no meaning here; a line ends without one"),
            ("ans() <- burst(x, 1)", 1, 7, "'<' has no meaning here; ':-' goes between the head of a rule and its rows"),
            (
                "ans() :- burst(x, y), y > 1",
                1,
                25,
                "'>' has no meaning here; a rule has rows alone, joined by equal values, and no comparisons; a dependency has ->",
            ),
            ("ans() :- burst(x, y), y = 1", 1, 23, "a rule has no =: write the value, or another variable, in the place of y in its row"),
            ("ans() :- not burst(x, y)", 1, 10, "a rule has no not: it asks for rows that are there"),
            ("ans() :- burst(x, y) // all", 1, 22, "'/' has no meaning here; '#' begins a comment"),
            ("ans() :- burst(.5, 1)", 1, 16, "'.' has no meaning here; a decimal has digits before and after its point"),
            ("ans() :- burst('a, 1)", 1, 16, "the quote ' that begins here does not end on this line"),
            ('ans() :- burst("\\q", 1)', 1, 16, 'what follows \\ in a text between " is as in JSON'),
            ("ans() :- burst(2026-02-30, 1)", 1, 16, "there is no day 2026-02-30"),
            ("ans() :- 'burst'(x, 1)", 1, 10, "the name of a table was expected, not the text 'burst'; quotes are for values in a head or a row"),
            ("ans() :- 1.5(x, 1)", 1, 10, "the name of a table was expected, not the number 1.5"),
            ("ans(" + ", ".join("x" * 9) + ") :- burst(x, 1)", 1, 29, "a head has 8 entries at most"),
            ("ans() :- " + ",\n".join(["burst(x, 1)"] * 13), 13, 1, "a query has 12 rows at most"),
            ("ans() :- never, burst(x, y)", 1, 15, "the rule ends here; ',' goes between its rows"),
            ("ans() :- burst(x, y\n)", 1, 20, "',' or ')' was expected, not the end of the line"),
            ("ans(\ud800) :- never", 1, 5, "'\\ud800' has no meaning here"),
        ]
        for text, line, column, message in cases:
            with self.subTest(text=text[:60]), self.assertRaises(NotationError) as caught:
                parse_query(text, NAMES, "q.text")
            self.assertEqual(str(caught.exception), f"q.text:{line}:{column}: {message}")
            self.assertEqual((caught.exception.line, caught.exception.column), (line, column))

    def test_any_text_is_a_rule_or_an_error(self):
        rng = random.Random(3)
        words = "ans ( ) , :- -> : x v0 v99 7 _ never burst flight # é \0".split(" ") + [" ", "\n"]
        for _ in range(2000 * context.MANY):
            text = "".join(rng.choice(words) for _ in range(rng.randint(0, 25)))
            try:
                query = parse_query(text, NAMES)
            except NotationError:
                continue
            self.assertEqual(parse_query(format_query(query, NAMES), NAMES), query)

    def test_mapping(self):
        mapping = {3: Constant(7), 0: v(3)}
        self.assertEqual(format_mapping(mapping), "v0 -> v3, v3 -> 7")
        self.assertEqual(format_mapping(mapping, {0: "f"}, {3: "s"}), "f -> s, v3 -> 7")


class NamesFiles(unittest.TestCase):
    def test_round_trip(self):
        text = "flight(number, sonde, launch)\nburst(flight, height)\n0: f, v1, h\n7: x\n"
        names = read_names("# names\n" + text, "f.names")
        self.assertEqual(names.tables, NAMES.tables)
        self.assertEqual(names.variables, {0: {0: "f", 2: "h"}, 7: {0: "x"}})
        self.assertEqual(format_names(names), text)
        names.fit([3, 2])
        self.assertEqual(Names.default([2, 8]).tables[1], Table("R1", tuple("abcdefgh")))

    def test_names_that_do_not_fit(self):
        with self.assertRaisesRegex(ValueError, "names for 2 tables, the record has 1"):
            NAMES.fit([3])
        with self.assertRaisesRegex(ValueError, r"burst\(flight, height\) has names for 2 columns, the table has 3"):
            NAMES.fit([3, 3])

    def test_errors_say_where(self):
        cases = [
            ("flight(a)\nflight(b)", "2:1: there is a table flight already; where a rule goes on, the line before it ends with a comma"),
            ("flight(a*, b)", "1:1: a* marks a key, which belongs in the text of an archive and not here"),
            ("archive 'x'\narchive 'x'", "2:1: there is a line archive already"),
            ("7 = 'x'", "1:1: a code must be from 2000000000 to 2147483647, not 7"),
            ("2000000000 = 7", "1:1: 7 stands for itself and has no code"),
            ("2000000000 = 'x'\n2000000000 = 'y'", "2:1: 2000000000 stands for 'x' already"),
            ("2000000000 = 'x'\n2000000001 = 'x'", "2:1: 'x' has the code 2000000000 already"),
            ("2147483648 = 'x'", "1:1: a code must be from 0 to 2147483647, not 2147483648"),
            ("flight(a, a)", "1:11: flight has a column a already"),
            ("flight()", "1:1: a table has at least one column"),
            ("flight(a, b, c, d, e, f, g, h, i)", "1:32: a table has 8 columns at most"),
            ("\n".join(f"t{n}(a)" for n in range(9)), "9:1: there are 8 tables at most"),
            ("never(a)", "1:1: never cannot be the name of a table"),
            ("ans(a)", "1:1: ans cannot be the name of a table"),
            ("flight(a) x", "1:11: the end of the line was expected, not 'x'"),
            ("flight(7)", "1:8: the name of a column was expected, not '7'"),
            ("flight", "1:7: '(' was expected, not the end"),
            ("8: f", "1:1: a place must be from 0 to 7, not 8"),
            ("0: f\n0: g", "2:1: the variables of place 0 have their names already"),
            ("0: f, f", "1:7: f is the name of another variable"),
            ("0: v1", "1:4: v1 cannot be the name of v0"),
            ("0: _", "1:4: _ cannot be the name of v0"),
            ("0: " + ", ".join(f"x{n}" for n in range(97)), "1:474: there are 96 variables at most"),
        ]
        for text, message in cases:
            with self.subTest(text=text[:60]), self.assertRaises(NotationError) as caught:
                read_names(text, "f.names")
            self.assertEqual(str(caught.exception), f"f.names:{message}")


if __name__ == "__main__":
    unittest.main()
