"""The page: it is well formed, needs nothing else, and shows the engine's verdicts."""

import random
import re
import unittest
from html.parser import HTMLParser

import context
from spernevan import Names, Query, Record, Refused, Table, parse_query, read_names
from spernevan.definition import define_all
from spernevan.page import page

VOID = {"meta", "wbr"}


class Tree(HTMLParser):
    """Checks that tags nest, and gathers identifiers, links, cells and texts."""

    def __init__(self, text):
        super().__init__(convert_charrefs=True)
        self.open, self.ids, self.links, self.faults, self.tags = [], [], [], [], []
        self.feed(text)
        self.close()

    def handle_starttag(self, tag, attributes):
        held = dict(attributes)
        self.tags.append((tag, held))
        if "id" in held:
            self.ids.append(held["id"])
        if "href" in held:
            self.links.append(held["href"])
        if tag not in VOID:
            self.open.append(tag)

    def handle_startendtag(self, tag, attributes):
        self.tags.append((tag, dict(attributes)))

    def handle_endtag(self, tag):
        if not self.open or self.open.pop() != tag:
            self.faults.append((tag, self.getpos()))


def sections(text):
    """The part of each place."""
    return {int(at): part for at, part in re.findall(r'<section id="place-(\d)"(.*?)</section>', text, re.DOTALL)}


def plain(text):
    """Text without tags."""
    return " ".join(re.sub(r"<[^>]*>", " ", text).split())


@context.with_engine
class Page(unittest.TestCase):
    def check(self, record, names, **options):
        """What holds of every page."""
        text = page(record, names, **options)
        tree = Tree(text)
        self.assertEqual((tree.open, tree.faults), ([], []))
        self.assertEqual(len(tree.ids), len(set(tree.ids)))
        for link in tree.links:
            self.assertIn(link[1:], tree.ids)
            self.assertTrue(link.startswith("#"))
        for tag, held in tree.tags:
            self.assertNotIn(tag, ("script", "link", "img", "iframe", "object", "embed", "base", "form"))
            self.assertFalse([name for name in held if name.startswith("on") or name in ("src", "style", "action")])
        self.assertNotRegex(text, r"(?i)https?:|url\(|@import|@font-face")
        self.assertIn("default-src 'none'", text)

        # The matrix, cell by cell, is the engine's.
        found = define_all(record, names)
        matrix = re.search(r'<table class="plain matrix">.*?</table>', text)
        places = [one.place for one in found]
        cells = re.findall(r'<td class="(\w+)', matrix.group()) if matrix else []
        wanted = []
        for p in places:
            for q in places:
                try:
                    wanted.append("yes" if record.compare(p, q).contained else "no")
                except Refused as refused:
                    self.assertIn(refused.number, (8, 17))
                    wanted.append("none")
        self.assertEqual(cells, wanted)

        parts = sections(text)
        self.assertEqual(sorted(parts), places)
        for one in found:
            part = parts[one.place]
            # In two drawings a line for each row, with the dropped ones dashed; in one a line for the head.
            lines = part.count('<path class="end"')
            self.assertEqual(lines, 0 if one.short.is_never else 1 + 2 * len(one.long.rows))
            dropped = len(one.long.rows) - len(one.short.rows)
            self.assertEqual(part.count('<path class="loose"'), 0 if one.short.is_never else 2 * dropped)
            self.assertEqual(part.count('<tr class="dropped'), dropped)
            self.assertEqual(part.count('<tr class="kept'), 2 * len(one.short.rows))
            goes = [int(n) - 1 for n in re.findall("\u2192\u00a0row\u00a0(\\d+)", part)]
            self.assertEqual(tuple(goes), one.images())
            verdicts = [record.compare(one.place, q) for q in places if wanted[places.index(one.place) * len(places) + places.index(q)] == "no"]
            self.assertEqual("Not contained in" in part, bool(verdicts))
        return text

    def test_sample(self):
        record = Record.read(context.SAMPLES / "flights.file")
        names = read_names((context.SAMPLES / "flights.names").read_text(), "names")
        text = self.check(record, names, title="flights.file")
        part = sections(text)[5]
        self.assertIn("Not contained in place 0", plain(part).replace("  ", " "))
        self.assertIn("ans(f, h)", plain(part))
        example = part[part.index("This database") :]
        cells = re.findall(r'<td class="(\w+)">(.*?)</td>', example)
        self.assertEqual(
            cells, [("var", "f"), ("var", "v2"), ("constant", "7"), ("var", "v3"), ("var", "f"), ("var", "h")]
        )
        self.assertIn("Each of its answers is an answer of place 5 .", plain(sections(text)[0]))
        self.assertIn("never", plain(sections(text)[3]))
        self.assertIn("flight: number \u2192 sonde", plain(sections(text)[2]))

    def test_random_archives(self):
        rng = random.Random(11)
        for _ in range(3 * context.MANY):
            record = context.random_record(rng, most_joins=rng.choice([0, 4]), most_codes=rng.choice([0, 4]))
            self.check(record, Names.default(record.widths))

    def test_few_places(self):
        record = Record.open([1])
        self.assertIn("Every place is vacant.", self.check(record, Names.default([1])))
        never = record.put(2, Query.never(0)).put(7, Query.never(8)).put(3, Query.never(0))
        self.assertIn("No answer on any database.", self.check(never, Names.default([1])))

    def test_escaped(self):
        evil = "<script>alert('x')</script>&amp;\""
        record = Record.open([2]).add(0, [0], 1).put(0, parse_query("ans(x) :- R0(x, 3)", Names.default([2])))
        record = record.put(1, parse_query("ans(x) :- R0(x, 4)", Names.default([2])))
        names = Names((Table(evil, (evil, evil + "2")),), {0: {0: evil}, 1: {0: evil}})
        text = self.check(record, names, title=evil, decode=lambda number: evil)
        self.assertNotIn("<script", text)
        self.assertNotIn("<script", page(record, names, evil, lambda number: evil))
        self.assertIn("&lt;script&gt;", text)


if __name__ == "__main__":
    unittest.main()
