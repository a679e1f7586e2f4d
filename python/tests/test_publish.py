"""Definitions, and the commands `define` and `page`."""

import io
import json
import os
import random
import unittest
from decimal import Decimal
from pathlib import Path
from unittest import mock

import context
from spernevan import Names, Query, Record, parse_query, publish, read_names
from spernevan.definition import Writer, define, define_all, define_query, used_dependencies
from spernevan.publish import Shape
from test_command import FLIGHTS, Command, run


def under(record, numbers, *queries):
    """A record with some of the dependencies, the renumbered codes and these queries."""
    made = Record.open(record.widths).add_all(record.code_pairs)
    for number in numbers:
        dependency = record.dependencies[number]
        made = made.add(dependency.relation, dependency.left, dependency.right)
    for place, query in enumerate(queries):
        made = made.put(place, query)
    return made


@context.with_engine
class Definitions(unittest.TestCase):
    def test_random_archives(self):
        rng = random.Random(3)
        needed = 0
        for _ in range(8 * context.MANY):
            record = context.random_record(rng, most_width=3, most_relations=2, most_dependencies=8, most_joins=4, most_codes=4)
            for one in define_all(record, Names.default(record.widths)):
                short = record.shorten(one.place)
                self.assertEqual((one.short, one.mapping, one.replaced), (short.result, short.mapping, short.replaced))

                # The needed dependencies are enough, and without one of them they are not.
                def same(numbers):
                    both = under(record, numbers, one.long, one.short)
                    return both.compare(0, 1).contained and both.compare(1, 0).contained

                self.assertTrue(same(one.used))
                for number in one.used:
                    self.assertFalse(same([other for other in one.used if other != number]))
                needed += len(one.used)

                # Each row of the short form was one of the long form, and the mapping has an image for each row.
                kept = [target for target in one.kept() if target is not None]
                self.assertEqual(sorted(kept), list(range(len(one.short.rows))))
                self.assertEqual(len(one.kept()), len(one.long.rows))
                self.assertEqual(len(one.images()), 0 if one.short.is_never else len(one.long.rows))
                if not one.short.is_never:
                    both = under(record, [], one.short, one.long)
                    self.assertTrue(both.check(0, 1, one.mapping))
        self.assertGreater(needed, 5)

    def test_repeated_dependencies(self):
        """Of two dependencies that do the same, one is needed."""
        record = Record.open([2]).add(0, [0], 1).add(0, [0], 1).add(0, [1], 0)
        record = record.put(0, parse_query("ans(x, y, z) :- R0(x, y), R0(x, z)", Names.default([2])))
        self.assertEqual(define(record, Names.default([2]), 0).used, (0,))
        query = record.queries[0]
        self.assertEqual(used_dependencies(record, query, query), ())

    def test_an_answer_lost(self):
        """A clash needs a dependency as well."""
        record = Record.open([2]).add(0, [1], 0).add(0, [0], 1)
        record = record.put(4, parse_query("ans(x) :- R0(x, 3), R0(x, 4)", Names.default([2])))
        one = define(record, Names.default([2]), 4)
        self.assertEqual((one.short, one.used, one.images(), one.kept()), (Query.never(1), (1,), (), (None, None)))

    def test_lone_variables(self):
        names = Names.default([3])
        query = parse_query("ans(x, y) :- R0(x, y, z), R0(x, w, 7), R0(u, u, t)", names)
        self.assertEqual(len(query.lone()), 3)
        text = Writer(query, {}).rule(names)
        self.assertEqual(text, "ans(v0, v1) :- R0(v0, v1, _), R0(v0, _, 7), R0(v4, v4, _)")
        again = parse_query(text, names)
        record = Record.open([3]).put(0, query).put(1, again)
        self.assertTrue(record.compare(0, 1).contained and record.compare(1, 0).contained)

    def test_rule_of_any_place(self):
        """A rule needs no vacant place, and its definition is that of the same query in a place."""
        rng = random.Random(4)
        for _ in range(3 * context.MANY):
            record = context.random_record(rng, most_width=3, most_relations=2, most_dependencies=8, most_joins=4, most_codes=4)
            names = Names.default(record.widths)
            for place, query in enumerate(record.queries):
                if query is not None:
                    saved, loose = define(record, names, place), define_query(record, names, query)
                    self.assertEqual(loose.place, None)
                    for field in ("long", "short", "chased", "mapping", "replaced", "used"):
                        self.assertEqual(getattr(saved, field), getattr(loose, field))


class Commands(Command):
    def test_text(self):
        self.assertEqual(
            self.done("define", FLIGHTS, 1),
            "Place 1\n"
            "  Tables:\n"
            "    burst(flight, height)\n"
            "  Dependencies needed:\n"
            "    burst: flight -> height\n"
            "  Long form, 2 rows:\n"
            "    ans(f, low, high) :- burst(f, low),\n"
            "                         burst(f, high)\n"
            "  Short form, 1 row:\n"
            "    ans(f, low, low) :- burst(f, low)\n"
            "  Mapping from the long form to the short:\n"
            "    f -> f, low -> low, high -> low\n"
            "    row 1 -> row 1, row 2 -> row 1\n"
            "  Replaced by the dependencies: 1 variable\n",
        )
        asked = "ans(x) :- burst(x, h), burst(x, k)"
        text = self.done("define", FLIGHTS, asked)
        with mock.patch("sys.stdin", io.TextIOWrapper(io.BytesIO(f"{asked}\n".encode()))):
            self.assertEqual(self.done("define", FLIGHTS, "-"), text)
        self.assertTrue(text.startswith("Query\n"))
        self.assertIn("none", self.done("define", FLIGHTS, "ans(x) :- burst(x, h), burst(x, h)"))
        self.assertIn("    ans(x) :- burst(x, _)\n", text)
        self.assertEqual(self.done("define", FLIGHTS, 3, "--form", "short"), "ans(_) :- never\n")
        self.assertEqual(self.done("define", FLIGHTS, 5, "--form", "long"), "ans(f, h) :- flight(f, _, 7, _),\n             burst(f, h)\n")
        self.assertIn("ans(v0, v1, v1) :- R4(v0, v1)", self.done("define", FLIGHTS, 1, "--plain"))

    def test_json(self):
        found = json.loads(self.done("define", FLIGHTS, 0, "--format", "json"))
        self.assertEqual(found["short"]["rule"], "ans(f, h) :- flight(f, s, 7, _), sonde(s, c, _), calibration(c, _, 2), burst(f, h)")
        self.assertEqual(found["mapping"]["p"], 7)
        self.assertEqual((len(found["images"]), len(found["kept"]), found["replaced"], found["place"]), (7, 7, 6, 0))
        self.assertEqual(found["dependencies"], [])
        other = json.loads(self.done("define", FLIGHTS, 2, "--format", "json"))
        self.assertIn({"table": "flight", "left": ["number"], "right": "sonde"}, other["dependencies"])
        self.assertEqual([len(one["left"]) for one in other["dependencies"]], [1, 1, 1])
        short = json.loads(self.done("define", FLIGHTS, 0, "--format", "json", "--form", "short"))
        self.assertEqual(short, found["short"])
        record = Record.open([2])
        query = parse_query("ans(x) :- R0(x, 0), R0(x, 1)", Names.default([2]))
        values = ["Lindenberg", Decimal("1.50")]
        made = publish.definition_json(define_query(record, Names.default([2]), query, decode=values.__getitem__))
        self.assertEqual(made["long"]["rows"][0]["entries"], ["v0", "'Lindenberg'"])
        self.assertEqual(made["long"]["rows"][1]["entries"], ["v0", "1.50"])
        self.assertEqual(made["long"]["rule"], "ans(v0) :- R0(v0, 'Lindenberg'), R0(v0, 1.50)")

    def test_sql_and_latex(self):
        short = self.done("define", FLIGHTS, 5, "--format", "sql")
        self.assertEqual(
            short,
            'SELECT DISTINCT t1."number" AS "f", t2."height" AS "h"\n'
            'FROM "flight" AS t1, "burst" AS t2\n'
            'WHERE t1."site" = 7\n'
            '  AND t2."flight" = t1."number";\n',
        )
        self.assertEqual(self.done("define", FLIGHTS, 0, "--format", "sql", "--form", "long").count(" AS t"), 7)
        self.assertEqual(self.done("define", FLIGHTS, 0, "--format", "sql", "--dialect", "postgresql").count(" AS t"), 4)
        self.assertIn("IS NOT NULL", self.done("define", FLIGHTS, 0, "--format", "sql", "--without-null"))
        whole = self.done("define", FLIGHTS, 0, "--format", "latex")
        part = self.done("define", FLIGHTS, 0, "--format", "latex", "--fragment")
        self.assertTrue(whole.startswith("\\documentclass{article}\n\\begin{document}\n") and part in whole)
        self.assertNotIn("Long form", self.done("define", FLIGHTS, 0, "--format", "latex", "--form", "short"))

    def test_whole_archive(self):
        record = Record.read(FLIGHTS)
        names = read_names((context.SAMPLES / "flights.names").read_text(), "names")
        found = define_all(record, names)
        self.assertEqual(publish.render(found, Shape("sql")).count("-- Place "), 6)
        self.assertEqual(len(json.loads(publish.render(found, Shape("json")))), 6)
        self.assertEqual(publish.render(found, Shape("latex")).count("Short form"), 6)
        self.assertEqual(publish.render(found, Shape("latex", form="short")).count("\\begingroup"), 6)
        self.assertEqual(publish.render(found).count("Place "), 6)
        self.assertEqual(publish.render([]), "Every place is vacant.\n")
        self.assertEqual(publish.render([], Shape("json")), "[]\n")
        for wrong in ({"format": "yaml"}, {"form": "middle"}, {"format": "sql", "form": "middle"}):
            with self.assertRaises(ValueError):
                publish.render(found, Shape(**wrong))

    def test_list(self):
        """`list --format` has the definitions of all places; as text and with --json it is as without."""
        each = [json.loads(self.done("define", FLIGHTS, place, "--format", "json")) for place in (0, 1, 2, 3, 5, 6)]
        self.assertEqual(json.loads(self.done("list", FLIGHTS, "--format", "json")), each)
        found = self.done("list", FLIGHTS, "--format", "sql", "--form", "long", "--dialect", "postgresql")
        self.assertIn("-- Place 2, long form\n" + self.done("define", FLIGHTS, 2, "--format", "sql", "--form", "long"), found)
        whole = self.done("list", FLIGHTS, "--format", "latex")
        self.assertTrue(whole.startswith("\\documentclass") and whole.count("Short form") == 6)
        self.assertNotIn("\\documentclass", self.done("list", FLIGHTS, "--format", "latex", "--fragment"))
        self.assertIn("\n\nans(f, low, low) :- burst(f, low)\n\n", self.done("list", FLIGHTS, "--form", "short"))
        self.assertEqual(self.done("list", FLIGHTS, "--format", "text"), self.done("list", FLIGHTS))
        self.assertEqual([one["place"] for one in json.loads(self.done("list", FLIGHTS, "--json"))], [0, 1, 2, 3, 5, 6])
        self.assertEqual(self.done("list", FLIGHTS, "--plain", "--format", "sql").count('"R4"'), 4)
        for wrong in (["--dialect", "sqlite"], ["--without-null", "--format", "json"]):
            self.failed(f"{wrong[0]} goes with --format sql", "list", FLIGHTS, *wrong)
        self.failed("--fragment goes with --format latex", "define", FLIGHTS, 0, "--format", "sql", "--fragment")
        for wrong in (["--json", "--format", "sql"], ["--json", "--form", "short"]):
            self.assertEqual(run("list", FLIGHTS, *wrong)[:2], (2, ""))

    def test_output(self):
        out = self.folder / "page.html"
        self.assertEqual(self.done("page", FLIGHTS, "-o", out), "")
        text = out.read_text()
        self.assertIn("<h1>flights.file</h1>", text)
        self.assertEqual(self.done("page", FLIGHTS), text)
        self.assertEqual(self.done("page", FLIGHTS, "-o", "-"), text)
        self.assertIn("<h1>A &amp; B</h1>", self.done("page", FLIGHTS, "--title", "A & B"))
        self.assertEqual(out.stat().st_mode & 0o777, 0o666 & ~self.umask())
        os.chmod(out, 0o640)
        self.done("page", FLIGHTS, "--title", "B", "-o", out)
        self.assertEqual(out.stat().st_mode & 0o777, 0o640)
        self.assertIn("<h1>B</h1>", out.read_text())
        # What fails leaves the old file, and nothing else.
        before = out.read_bytes()
        with mock.patch("os.fsync", side_effect=OSError(28, "No space left on device")):
            self.assertNotEqual(run("page", FLIGHTS, "-o", out)[0], 0)
        self.assertEqual(out.read_bytes(), before)
        self.assertEqual(os.listdir(self.folder), ["page.html"])
        self.assertNotEqual(run("page", FLIGHTS, "-o", self.folder / "none" / "x.html")[0], 0)
        link = self.folder / "link.html"
        link.symlink_to(out)
        self.done("page", FLIGHTS, "-o", link)
        self.assertTrue(link.is_symlink() and out.read_text() == text)
        self.assertEqual(self.done("page", FLIGHTS, "-o", "/dev/null"), "")
        self.assertTrue(Path("/dev/null").is_char_device())

    def test_list_to_a_file(self):
        out, vacant = self.folder / "out", self.write("vacant.text", "flight(a)\n")
        for source in (FLIGHTS, vacant):
            for kind in ([], ["--json"], *([f"--format={one}"] for one in publish.FORMATS), ["--form=long"], ["--format=latex", "--form=long"]):
                printed = self.done("list", source, *kind)
                for _ in range(2):
                    self.assertEqual(self.done("list", source, *kind, "-o", out), "")
                    self.assertEqual(out.read_text(), printed)
                out.unlink()

    def test_files_of_others_are_not_replaced(self):
        out = self.folder / "out"
        for kind in ([], ["--format", "latex"], ["--format", "latex", "--fragment"], ["--format", "sql"], ["--format", "json"]):
            for query in (1, "ans(f) :- burst(f, h)", "ans() :- burst(f, h)", "ans(7) :- burst(f, h)", "ans(_) :- never", "ans() :- never"):
                for form in ([], ["--form", "long"]):
                    arguments = ["define", FLIGHTS, query, *kind, *form, "-o", out]
                    self.assertEqual((self.done(*arguments), self.done(*arguments)), ("", ""))
            self.failed(f"{out} is there already, and is ", "page", FLIGHTS, "-o", out)
            out.unlink()
        archive = self.folder / "a.file"
        Record.read(FLIGHTS).write(archive)
        for name, text in (("a.text", "flight(a)\n"), ("a.csv", "a,b\n"), ("a.html", "<!DOCTYPE html>\n<title>Mine</title>\n")):
            (self.folder / name).write_text(text)
        for name in ("a.file", "a.names", "a.text", "a.csv", "a.html"):
            path = self.folder / name
            before = path.read_bytes()
            for arguments in (["define", archive, 0, "-o", path], ["page", archive, "-o", path], ["list", archive, "-o", path]):
                status, printed, err = run(*arguments)
                self.assertEqual((status, printed, err.count("\n")), (2, "", 1))
                self.assertIn(f"{path} is there already, and is no definition or page", err)
            self.assertEqual(path.read_bytes(), before)

    def umask(self):
        mask = os.umask(0)
        os.umask(mask)
        return mask

    def test_messages(self):
        for arguments, message in [
            ((4,), "vacant"),
            ((8,), "7"),
            (("9" * 5000,), "7"),
            (("ans(x) :- kite(x)",), "rule:1:11: there is no table kite"),
            (("ans(x) :- burst(x, y) burst(x, y)",), "rule:1:23: "),
            (("",), "neither a place, 0 to 7, nor a rule"),
            (("foo",), "'foo' is neither a place, 0 to 7, nor a rule"),
        ]:
            status, out, err = run("define", FLIGHTS, *arguments)
            self.assertTrue(status and not out and err.count("\n") == 1 and message in err, err)
        self.assertEqual(run("define", "-", "-"), (2, "", "spernevan: standard input can be the archive or the rule, not both\n"))
        for arguments in (["define", FLIGHTS], ["define", FLIGHTS, 0, "--format", "pdf"], ["define", FLIGHTS, 0, "--dialect", "x"]):
            self.assertEqual(run(*arguments)[0], 2)


if __name__ == "__main__":
    unittest.main()
