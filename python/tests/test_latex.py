"""LaTeX: everything is escaped, the parts are there, and documents compile where pdflatex is installed."""

import random
import re
import shutil
import subprocess
import tempfile
import unittest
from datetime import date
from decimal import Decimal
from pathlib import Path

import context
from spernevan import Names, Query, Record, Table, latex, parse_query, read_names
from spernevan.definition import define, define_all, define_query

NASTY = "\\{}$&#%_^~<>|\"'`--,, ß ø Ø æ œ ł ı äöü éèêñ çşž ąę đ ð þ α Ω ς ° µ × – — … 中 א \t\n\x07"


def balanced(text):
    """Whether braces are balanced and environments closed in order."""
    depth = 0
    for brace in re.sub(r"\\[\\{}]", "", text):
        depth += (brace == "{") - (brace == "}")
        if depth < 0:
            return False
    opened = []
    for kind, name in re.findall(r"\\(begin|end)\{(\w+)\}", text):
        if kind == "begin":
            opened.append(name)
        elif not opened or opened.pop() != name:
            return False
    return depth == 0 and not opened and text.count("\\begingroup") == text.count("\\endgroup")


class Escapes(unittest.TestCase):
    def test_characters(self):
        for text, shown in [
            ("a_b", r"a\_\allowbreak{}b"),
            ("W/m²", r"W/m\ensuremath{^2}"),
            ("x" * 49, r"\allowbreak{}".join(["x" * 24, "x" * 24, "x"])),
            ("50%", r"50\%"),
            ("\\input{x}", r"\textbackslash{}input\{x\}"),
            ("--", "-{}-{}"),
            ("Höhe", r'H\"{o}he'),
            ("Ho\u0308he", r'H\"{o}he'),
            ("Łódź", r"\L{}\'{o}d\'{z}"),
            ("λ", r"\ensuremath{\lambda}"),
            ("中", r"\texttt{U+4E2D}"),
            ("\n", r"\texttt{U+000A}"),
            ("a  b", r"a\ \ b"),
        ]:
            self.assertEqual(latex.escape(text), shown)
        self.assertTrue(latex.escape(NASTY).isascii())
        self.assertTrue(balanced(latex.escape(NASTY)))

    def test_values(self):
        self.assertEqual(latex.value(7), "7")
        self.assertEqual(latex.value("a&b"), r"\textquoteleft{}a\&b\textquoteright{}")
        self.assertEqual(latex.value(Decimal("-1.5")), "$-$1.5")
        self.assertEqual(latex.value(date(2026, 1, 14)), "2026-{}01-{}14")


@context.with_engine
class Documents(unittest.TestCase):
    def setUp(self):
        self.record = Record.read(context.SAMPLES / "flights.file")
        self.names = read_names((context.SAMPLES / "flights.names").read_text(), "names")

    def test_sample(self):
        text = latex.fragment(define(self.record, self.names, 0))
        self.assertTrue(balanced(text) and text.isascii())
        for part in (
            r"\textsf{flight}(\textit{number}, \textit{sonde}, \textit{site}, \textit{launch})",
            "None is needed.",
            "Long form, 7 rows.",
            "Short form, 4 rows.",
            r"\makebox[1.5em][r]{1}\hspace{1em}\textsf{flight}(\textit{f}, \textit{s}, 7, \_),",
            r"\textit{r}~$\mapsto$~\textit{s}",
            r"rows 1, 3~$\mapsto$~row~1",
            "On every finite database the two forms have the same answers, and every query with these answers has at least 4 rows.",
        ):
            self.assertIn(part, text)
        # Only the tables of the query, and only the dependencies that it needs.
        self.assertNotIn(r"\textsf{layer}", text)
        self.assertNotIn("documentclass", text)
        text = latex.fragment(define(self.record, self.names, 2))
        self.assertIn(r"\textsf{flight}: \textit{number}~$\to$~\textit{sonde}", text)
        self.assertNotIn(r"$\to$~\textit{site}", text)
        self.assertIn("On every finite database that obeys these dependencies the two forms", text)

    def test_never(self):
        text = latex.fragment(define(self.record, self.names, 3))
        self.assertIn(r"\textsf{ans}(\_) never", text)
        self.assertIn("the long form has no answer", text)
        self.assertNotIn("Mapping", text)
        query = Query.never(0)
        text = latex.fragment(define_query(self.record, self.names, query))
        self.assertIn(r"\textsf{ans}() never", text)
        self.assertIn("None is needed.", text)

    def compiled(self, folder, name):
        """Compiles a document; gives the words of the log."""
        done = subprocess.run(
            ["pdflatex", "-halt-on-error", "-interaction=nonstopmode", f"{name}.tex"],
            cwd=folder, stdout=subprocess.PIPE, stderr=subprocess.STDOUT, stdin=subprocess.DEVNULL,
        )
        self.assertEqual(done.returncode, 0, done.stdout[-2000:])
        self.assertTrue(Path(folder, f"{name}.pdf").stat().st_size > 1000)
        return done.stdout.decode("latin-1")

    @unittest.skipIf(shutil.which("pdflatex") is None, "pdflatex is not installed")
    def test_stays_on_the_page(self):
        long = "a_name_that_is_longer_than_a_line_of_the_page_" * 3
        names = Names((Table(long, tuple(f"{long}{letter}" for letter in "abcdefgh")),))
        row = ", ".join(["0", "1", "2", "0", "1", "2", "0"])
        rows = ", ".join(f"R(v{number}, {row})" for number in range(12))
        query = parse_query(f"ans(v0) :- {rows}", Names((Table("R", tuple("abcdefgh")),)))
        values = ["words of a text " * 8, "x" * 150, "under_scores_" * 9]
        one = define_query(Record.open([8]), names, query, {0: long}, values.__getitem__)
        with tempfile.TemporaryDirectory() as folder:
            Path(folder, "all.tex").write_text(latex.document(latex.fragment(one)))
            self.assertNotIn("Overfull", self.compiled(folder, "all"))

    @unittest.skipIf(shutil.which("pdflatex") is None, "pdflatex is not installed")
    def test_compiles(self):
        names = Names((Table(NASTY, (NASTY + "1", NASTY + "2")), Table("x_y", tuple("abcdefgh"))))
        record = Record.open([2, 8]).add(0, [0], 1).add_join(0, [[0], [1]])
        query = parse_query(
            "ans(x, y, z, 0) :- A(x, y), A(x, z), A(x, 0), A(z, 1), B(x, y, z, v5, _, _, 2, 3)",
            Names((Table("A", ("a", "b")), Table("B", tuple("abcdefgh")))),
        )
        values = [NASTY, Decimal("-2.5"), date(2026, 1, 14), 7]
        strange = define_query(record, names, query, {0: NASTY, 1: "y_1"}, values.__getitem__)
        rng = random.Random(5)
        found = [strange, *define_all(self.record, self.names)]
        station = Record.read(context.SAMPLES / "station.text")
        found += define_all(station, station.names)
        self.assertIn(r"$\emptyset$", latex.archive(found))
        for _ in range(6):
            other = context.random_record(rng, most_joins=4, most_codes=4)
            found += define_all(other, Names.default(other.widths))
        with tempfile.TemporaryDirectory() as folder:
            body = latex.archive(found)
            self.assertTrue(balanced(body) and body.isascii())
            Path(folder, "all.tex").write_text(latex.document(body))
            Path(folder, "part.tex").write_text(latex.fragment(strange, "A title_1"))
            Path(folder, "paper.tex").write_text(
                "\\documentclass[twocolumn]{report}\\begin{document}Before \\input{part} after.\\end{document}"
            )
            for name in ("all", "paper"):
                self.compiled(folder, name)


if __name__ == "__main__":
    unittest.main()
