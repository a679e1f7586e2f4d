"""Databases from rows of text, CSV, SQLite and Python objects: what comes in comes out, and what is wrong is said with its place."""

import csv
import importlib.util
import io
import json
import os
import pickle
import random
import shutil
import sqlite3
import subprocess
import sys
import threading
import time
import unittest
import warnings
from datetime import date, datetime
from decimal import Decimal
from pathlib import Path
from unittest import mock

import context
from spernevan import Broken, Constant, DataError, Query, Record, Refused, Row, Table, engine, pack, read_database, sources
from spernevan.data import Cells, Form, Progress, matched, read_row_value
from spernevan.notation import format_datum
from spernevan.values import Values, plain, read_cell, read_cell_with_comma
from test_command import Command, run

TEXT = """
flight(number*, site, launch)
burst(flight*, height)
0: ans(f, h, t) :- flight(f, 'De Bilt', t), burst(f, h)
1: ans(p) :- flight(f, p, t)
2: ans(f) :- flight(f, p, 2026-01-14), burst(f, 31200.5)
"""
FLIGHTS = [("F-1", "De Bilt", "2026-01-14"), ("F-2", "Lindenberg, D", "2026-01-15"), ("F-3", "De Bilt", "2026-01-14")]
BURSTS = [("F-1", 31200.5), ("F-2", 29000), ("F-3", 30000.25)]


def installed(name):
    return importlib.util.find_spec(name) is not None


class Data(Command):
    def setUp(self):
        super().setUp()
        self.text = self.write("a.text", TEXT)
        self.record, self.names = pack(TEXT)

    def folder_of(self, **tables):
        folder = self.folder / f"csv{len(list(self.folder.iterdir()))}"
        folder.mkdir()
        for name, text in tables.items():
            (folder / f"{name}.csv").write_bytes(text if isinstance(text, bytes) else text.encode())
        return folder

    def csv(self, flight="number,site,launch\n", burst="flight,height\n"):
        return self.folder_of(flight=flight, burst=burst)

    def sqlite(self, *statements, flights=FLIGHTS, bursts=BURSTS):
        path = self.folder / f"{len(list(self.folder.iterdir()))}.db"
        connection = sqlite3.connect(path)
        connection.execute("CREATE TABLE flight (number TEXT, operator TEXT, site TEXT, launch TEXT)")
        connection.execute('CREATE TABLE "Burst" (height REAL, flight TEXT)')
        connection.executemany("INSERT INTO flight VALUES (?1, 'x', ?2, ?3)", flights)
        connection.executemany('INSERT INTO "Burst" VALUES (?2, ?1)', bursts)
        for statement in statements:
            connection.execute(statement)
        connection.commit()
        connection.close()
        return path

    def all_sources(self):
        """The same database from every kind of file."""
        rows = "".join(f"flight('{n}', '{s}', {t})\n" for n, s, t in FLIGHTS) + "".join(f"burst('{f}', {h})\n" for f, h in BURSTS)
        cells = "".join(f'{t},{n},"{s}",extra\n' for n, s, t in FLIGHTS)
        heights = "".join(f"{f};{h}\n" for f, h in BURSTS)
        return [
            self.write("a.data", rows),
            self.write("b.data", rows.replace("(", "(\n  ")),
            self.csv("launch,number,site,further\n" + cells, "Flight; HEIGHT \n" + heights),
            self.csv(
                "\ufefflaunch,number,site,further\r\n\r\n" + cells.replace("\n", "\r\n"), "flight\theight\n" + heights.replace(";", "\t")
            ),
            self.sqlite(),
        ]


class Files(Data):
    def test_the_same_answers_from_every_kind_of_file(self):
        for source in self.all_sources():
            with self.subTest(source=str(source)):
                self.assertEqual(self.done("test", self.text, source), "Obeys: 6 rows, 3 dependencies\n")
                self.assertEqual(
                    self.done("evaluate", self.text, 0, source),
                    "ans('F-1', 31200.5, 2026-01-14)\nans('F-3', 30000.25, 2026-01-14)\n# 2 answers\n",
                )
                self.assertEqual(self.done("evaluate", self.text, 1, source, "--format", "csv"), 'p\nDe Bilt\n"Lindenberg, D"\n')
                self.assertEqual(self.done("evaluate", self.text, 2, source), "ans('F-1')\n# 1 answer\n")
                found = json.loads(self.done("evaluate", self.text, 0, source, "--format", "json"), parse_float=Decimal)
                self.assertEqual(found[1], {"f": "F-3", "h": Decimal("30000.25"), "t": "2026-01-14"})

    def test_several_sources_make_one_database(self):
        one = self.folder_of(flight="number,site,launch\nF-1,De Bilt,2026-01-14\n")
        other = self.write("b.data", "burst('F-1', 31200.5)\n")
        self.assertEqual(self.done("evaluate", self.text, 2, one, other), "ans('F-1')\n# 1 answer\n")
        self.assertEqual(self.done("evaluate", self.text, 2, one / "flight.csv", other), "ans('F-1')\n# 1 answer\n")

    def test_rows_in_any_writing(self):
        """Rows that stand in one line are read apart from the others; both ways give the same."""
        rng = random.Random(13)
        cells = ["7", "0", "-3", "12.50", "'a, b'", "'it''s'", '"x\\ny"', "2026-01-14", "4294967295", "1e3", "2147483647"]
        for _ in range(30 * context.MANY):
            lines = []
            for _ in range(rng.randint(1, 12)):
                table, width = rng.choice([("flight", 3), ("burst", 2)])
                lines.append(f"{table}({', '.join(rng.choice(cells) for _ in range(width))})" + rng.choice(["", " # c", "  ", "\n"]))
            text = "\n".join(lines)
            plain, broken = (read_database([self.write("x.data", form)], self.names) for form in (text, text.replace("(", "(\n")))
            rows = [sorted(str(held.stands(n)[1:]) for n in range(len(held))) for held in (plain, broken)]
            self.assertEqual(rows[0], rows[1])
            self.assertEqual(len(plain), len(lines))
            for position in range(len(plain)):
                where, relation, values = plain.stands(position)
                self.assertTrue(text.splitlines()[int(where.rsplit(":", 1)[1]) - 1].startswith(self.names.tables[relation].name))

    def test_names_that_match(self):
        for held, wanted in (("Launch time", 0), (" LAUNCH-TIME ", 0), ("launch", None), ("launch time 2", None)):
            self.assertEqual(matched("launch_time", [held], "the tables"), wanted)
        self.assertEqual(matched("launch_time", ["Launch time", "launch_time"], "the tables"), 1)
        with self.assertRaisesRegex(DataError, "launch_time is there 2 times"):
            matched("launch_time", ["Launch time", "Launch-time"], "the tables")

    def test_standard_input(self):
        program = context.PROGRAM
        done = subprocess.run(
            [*program, "evaluate", self.text, "2", "-"],
            input=b"burst('F-1', 31200.5)\nflight('F-1', 'x', 2026-01-14)\n",
            capture_output=True,
        )
        self.assertEqual((done.returncode, done.stdout, done.stderr), (0, b"ans('F-1')\n# 1 answer\n", b""))
        done = subprocess.run([*program, "unpack", "-"], input=Path(self.text).read_bytes(), capture_output=True)
        self.assertEqual(pack(done.stdout.decode())[0], self.record)
        done = subprocess.run([*program, "test", "-", "-"], input=Path(self.text).read_bytes(), capture_output=True)
        self.assertEqual((done.returncode, done.stderr), (2, b"spernevan: standard input can be the archive or the data, not both\n"))

    def test_the_samples(self):
        text, folder = context.SAMPLES / "soundings.text", context.SAMPLES / "soundings"
        self.assertEqual(self.done("test", text, folder), "Obeys: 9 rows, 6 dependencies\n")
        self.assertEqual(
            self.done("evaluate", text, 0, folder), "ans('F-101', 31200.5, 'Graw')\nans('F-103', 30410.25, 'Vaisala')\n# 2 answers\n"
        )

    def test_nulls(self):
        cells = self.csv("number,site,launch\nF-1,De Bilt,2026-01-14\n\nF-2,,2026-01-14\n")
        self.failed(
            f"{cells}/flight.csv:4: column site: the cell is empty (NULL); say what it stands for with --null VALUE",
            "test",
            self.text,
            cells,
        )
        base = self.sqlite(flights=[*FLIGHTS, ("F-4", None, "2026-01-16")])
        self.failed(
            f"{base}: row 4 of flight, column site: NULL in flight('F-4', NULL, '2026-01-16'); say what it stands for with --null VALUE",
            "evaluate",
            self.text,
            1,
            base,
        )
        for null, shown in [("unknown", "'unknown'"), ("''", "''"), ("0", "0"), ("-1.5", "-1.5"), ("2026-01-01", "2026-01-01")]:
            self.assertIn(f"ans({shown})\n", self.done("evaluate", self.text, 1, cells, f"--null={null}"))
            self.assertIn(f"ans({shown})\n", self.done("evaluate", self.text, 1, base, f"--null={null}"))

    def test_a_broken_dependency_is_said_before_the_answers(self):
        cells = self.csv(burst="flight,height\nF-1,1\nF-1,2\n", flight='number,site,launch\n"F\n1",De Bilt,1\nF-1,De Bilt,2\n')
        status, out, err = run("evaluate", self.text, 0, cells)
        self.assertEqual((status, out), (0, "ans('F-1', 1, 2)\nans('F-1', 2, 2)\n# 2 answers\n"))
        self.assertEqual(
            err,
            f"Breaks burst: flight -> height (dependency 2):\n  {cells}/burst.csv:2: burst('F-1', 1)\n  {cells}/burst.csv:3: burst('F-1', 2)\n"
            "On such a database the long and the short form of a query may have different answers.\n",
        )
        self.assertEqual(self.done("test", self.text, cells, status=1).splitlines()[0], "Breaks burst: flight -> height (dependency 2):")
        status, out, err = run("evaluate", self.text, 1, cells)
        self.assertTrue(err.startswith("Breaks burst: flight -> height"))
        self.assertTrue(err.endswith("\nThe query does not ask for burst, and its long and short form have the same answers here.\n"), err)
        # A table that is asked for comes first.
        cells = self.csv("number,site,launch\nF-1,x,1\nF-1,y,1\n", "flight,height\nF-1,1\nF-1,2\n")
        for rule, broken in (("ans(h) :- burst(f, h)", "burst: flight -> height"), ("ans(p) :- flight(f, p, t)", "flight: number -> site")):
            err = run("evaluate", self.text, rule, cells)[2]
            self.assertTrue(err.startswith(f"Breaks {broken} (dep") and err.endswith("of a query may have different answers.\n"), err)
        base = self.sqlite(bursts=[*BURSTS, ("F-2", 1)])
        self.assertIn(
            f"  {base}: row 2 of Burst: burst('F-2', 29000.0)\n  {base}: row 4 of Burst: burst('F-2', 1.0)\n",
            self.done("test", self.text, base, status=1),
        )

    def test_lines_of_rows_with_line_breaks(self):
        cells = self.csv(flight='number,site,launch\n"a\nb",x,1\n\n\nc,x,1\nc,x,2\n')
        self.assertIn(
            f"  {cells}/flight.csv:6: flight('c', 'x', 1)\n  {cells}/flight.csv:7: flight('c', 'x', 2)\n",
            self.done("test", self.text, cells, status=1),
        )

    def test_what_cannot_be_read(self):
        header = "number,site,launch\n"
        for flight, message in [
            ("", "flight.csv:1: a header line with the names of the columns was expected, not an empty line"),
            ("number,site\n", "flight.csv:1: there is no column launch; there is number, site"),
            ("# a logger\nnumber,site,launch\n", "flight.csv:1: no column of flight(number, site, launch) is here; the first line has their names, with"),
            (
                "number|site|launch\n",
                "flight.csv:1: no column of flight(number, site, launch) is here; the first line has their names, "
                "with , or ; or a tabulator between them; for another sign say --separator SIGN\n",
            ),
            ("number,site,launch,site\n", "flight.csv:1: site is there 2 times"),
            ("Number,number ,site,launch\n", "flight.csv:1: number is there 2 times"),
            (header + "1,2\n", "flight.csv:2: the row has 2 cells, the header 3\n"),
            (header + "1,2,3\n\n1,2,3,4\n", "flight.csv:4: the row has 4 cells, the header 3; a cell with a comma in it stands between quotes\n"),
            (header.encode() + b"1,2,3\n1,\xff,3\n", "flight.csv:3:3: this byte is not UTF-8 text"),
            (header + '1,2,"' + "x" * 200000 + '"\n', 'flight.csv:2: a cell has more than 131072 characters; a quote " may be missing'),
            (header + '1,"2\n0",3\n\n1,"2,3\n1,2,3\n', 'flight.csv:5: a quote " that begins in this row does not end'),
            (header + '1,2,"3" x\n', 'flight.csv:2: a cell goes on after the quote " that ends it; a quote inside a quoted cell is written twice'),
            (header + '1,2,3\n1,"4"5",3\n', 'flight.csv:3: a cell goes on after the quote " that ends it'),
            ('number,site,"launch\n1,2,3\n', 'flight.csv:1: a quote " that begins in this row does not end'),
        ]:
            cells = self.csv(flight)
            self.failed(f"{cells}/{message}", "test", self.text, cells)
        empty = self.folder_of()
        self.failed(
            f"{empty}: there is no CSV file of a table of the archive here; it may have flight.csv, burst.csv", "test", self.text, empty
        )
        self.failed("the data has no table burst, which a dependency speaks of; ", "test", self.text, self.folder_of(flight=header))
        self.failed("the data has no table burst, which the query asks for; ", "evaluate", self.text, 0, self.folder_of(flight=header))
        self.assertEqual(self.done("evaluate", self.text, 1, self.folder_of(flight=header)), "# 0 answers\n")
        self.failed(
            f"{self.folder}/kite.csv: the archive has no table of that name; a CSV file is called flight.csv, burst.csv",
            "test",
            self.text,
            self.folder / "kite.csv",
        )
        both = self.csv()
        (both / "FLIGHT.csv").write_text(header)
        self.failed(f"{both}: FLIGHT.csv and flight.csv are both for the table flight", "test", self.text, both)
        self.failed("--text sonde.version: sonde.version is no TABLE.COLUMN of the archive", "test", self.text, self.csv(), "--text", "sonde.version")
        self.failed(f"{self.folder}/none: No such file", "test", self.text, self.folder / "none")
        picture = self.write("a.png", b"\x89PNG\r\n\x1a\n\0\0\0\rIHDR")
        self.failed(f"{picture}: these are neither rows of text, nor CSV, nor an SQLite file", "test", self.text, picture)

    def test_a_quote_inside_a_cell(self):
        cells = self.csv('number,site,launch\n1,4" pipe,x\n2,"4"" pipe",x\n')
        self.assertEqual(self.done("evaluate", self.text, 1, cells), "ans('4\" pipe')\n# 1 answer\n")

    def test_a_text_that_a_program_may_have_meant_as_a_number(self):
        for cell, number in [("1e4", "10000"), ("+5", "5"), ("5.", "5"), (".5", "0.5"), ("00.5", "0.5"), ("1E99", "without an exponent")]:
            cells = self.csv(burst=f"flight,height\n1,12\n2,F\n3,{cell}\n4,2e5\n")
            note = (
                f"{cells}/burst.csv:4: {cell} in burst.height is taken as a text; the number is written {number}; "
                "if it is no number, say --text burst.height"
            )
            status, out, err = run("evaluate", self.text, "ans(f) :- burst(f, 1e4)", cells)
            self.assertEqual((status, out, err), (0, "# 0 answers\n", f"spernevan: {note}\n"))
            self.assertEqual(run("test", self.text, cells)[2], f"spernevan: {note}\n")
            self.assertEqual(run("test", self.text, cells, "--text", "burst.height")[2], "")
        for cell in ("1E+04", "1.0e4", "10000", "10000.0"):
            cells = self.csv(burst=f"flight,height\n1,{cell}\n")
            self.assertEqual(run("evaluate", self.text, "ans(f) :- burst(f, 1e4)", cells), (0, "ans(1)\n# 1 answer\n", ""))
        self.assertEqual(run("test", self.text, self.csv(burst="flight,height\n06610,1\n7,-0\n"))[2], "")
        for cell, number in [("31200,5", "with a point, 31200.5"), ("1,234", "with a point and without commas")]:
            err = run("test", self.text, self.csv(burst=f"flight;height\n1;{cell}\n"))[2]
            self.assertIn(f"burst.csv:2: {cell} in burst.height is taken as a text; the number is written {number}; ", err)
        for cell in ("NaN", "NULL", "n/a", "#N/A", "None"):
            status, _, err = run("test", self.text, self.csv(burst=f"flight,height\n1,2\n2,{cell}\n"))
            said = f"burst.csv:3: {cell} in burst.height is taken as a text; an absent value is an empty cell; if it is a text, say --text burst.height\n"
            self.assertTrue(status == 0 and err.endswith(said), err)
        for kinds in (["NaN", "3", "1e4", "NA", "2e5"], ["F", "1e4", "x", "NaN", "2e5"]):
            err = run("test", self.text, self.csv(burst="flight,height\n" + "".join(f"{row},{cell}\n" for row, cell in enumerate(kinds))))[2]
            self.assertEqual(err.count("is taken as a text"), 2)
            for cell in ("NaN", "1e4"):
                self.assertIn(f"burst.csv:{kinds.index(cell) + 2}: {cell} in burst.height is taken as a text; ", err)
        for others in ("x", "1", "F", "n", "2026-01-14T12:00"):
            cells = self.csv(burst=f"flight,height\n{others},1\nT1 ,2\nT2 ,3\n")
            said = "the space at its end is kept, and without it the text is another; if it is meant, say --text burst.flight"
            self.assertEqual(run("test", self.text, cells)[2], f"spernevan: {cells}/burst.csv:3: T1 in burst.flight is taken as a text; {said}\n")
            self.assertEqual(run("test", self.text, cells, "--text", "burst.flight")[2], "")
        cells = self.csv(burst="flight,height\n1e4 ,2\n")
        self.assertIn("1e4 in burst.flight is taken as a text; the number is written 10000;", run("test", self.text, cells)[2])
        self.assertEqual(run("test", self.text, self.csv(burst="flight,height\n 1 , 2 \n 2026-01-14 , 3.0 \n"))[2], "")
        for cell in ("1,2,3", "a,5", "2026,x"):
            self.assertEqual(run("test", self.text, self.csv(burst=f"flight;height\n1;{cell}\n"))[2], "")

    def test_null_in_rows_of_text(self):
        path = self.write("n.data", "flight(1, 'x', 2)\nflight(2, NULL, 3)\n")
        self.failed(f"{path}:2:11: there is no value here (NULL); say what it stands for with --null VALUE", "test", self.text, path)
        self.assertEqual(self.done("evaluate", self.text, 1, path, "--null", "none"), "ans('none')\nans('x')\n# 2 answers\n")

    def test_csv_under_another_name(self):
        for text in ("flight,height\nF-1,3\n", "# burst\n\n flight;height\n", "flight\theight\n", "1,2"):
            path = self.write("burst.txt", text)
            said = f"{path}: this looks like CSV and not like rows of text; a CSV file is called flight.csv, burst.csv"
            self.failed(said, "test", self.text, path)
        for text in ("burst(1,\n2)\n", "# a, b\nburst(1, 2)\n", "\tburst(1, 2)"):
            self.done("test", self.text, self.write("burst.txt", text))

    def test_rows_with_zeros_in_front(self):
        path = self.write("z.data", "burst(1, 2)\nburst(007, 2)\n")
        self.failed(f"{path}:2:7: 007 begins with 0: write '007' for the text, 7 for the number", "test", self.text, path)

    def test_an_empty_file_is_no_database(self):
        for name in ("b.db", "b.data"):
            empty = self.write(name, "")
            self.failed(f"{empty}: the file is empty; for no rows at all give a line such as # no rows", "test", self.text, empty)
            self.failed(f"{empty}: the file is empty; ", "evaluate", self.text, 1, empty)
        self.assertEqual(self.done("evaluate", self.text, 1, self.write("c.data", "# no rows\n")), "# 0 answers\n")
        program = context.PROGRAM
        done = subprocess.run([*program, "evaluate", self.text, "1", "-"], input=b"", capture_output=True)
        self.assertEqual((done.returncode, done.stdout), (0, b"# 0 answers\n"))

    def test_sqlite_that_cannot_be_read(self):
        self.failed("", "test", self.text, self.write("x.db", b"SQLite format 3\0 and no more"))
        other = self.folder / "other.db"
        connection = sqlite3.connect(other)
        connection.execute("CREATE TABLE kite (a)")
        connection.commit()
        self.failed(f"{other}: no table of the archive is here; there is kite", "test", self.text, other)
        connection.execute("CREATE TABLE flight (number, site)")
        connection.commit()
        connection.close()
        self.failed(f"{other}: table flight: there is no column launch; there is number, site", "test", self.text, other)
        blob = self.sqlite("UPDATE flight SET site = x'00ff' WHERE number = 'F-2'")
        self.failed(
            f"{blob}: row 2 of flight, column site: a value must be a number, a text or a date, not b'\\x00\\xff'", "test", self.text, blob
        )
        wrong = self.sqlite("UPDATE flight SET site = CAST(x'ff' AS TEXT) WHERE number = 'F-2'")
        self.failed(f"{wrong}: row 2 of flight, column site: the text b'\\xff' is not UTF-8", "test", self.text, wrong)

    def test_sqlite_that_must_be_written_first(self):
        base = self.sqlite()
        for words, beside, cure in [
            ("database is locked", "", "another program is writing it: try again when that is done"),
            ("attempt to write a readonly database", "-journal", "a program that wrote it was interrupted: open it once with a program that may write it"),
            ("attempt to write a readonly database", "-wal", "if it is in WAL mode, SQLite makes files beside it to read it: copy it to a folder"),
        ]:
            with mock.patch.object(sources, "_read_connection", side_effect=sqlite3.OperationalError(words)):
                held = self.write(f"{base.name}{beside}", base.read_bytes())
                self.failed(f"{base}: SQLite says: {words}; {cure}", "test", self.text, base)
            if beside:
                os.unlink(held)

    def test_names_of_sqlite_files(self):
        base = self.sqlite()
        for name in ("a b#?%41;c&d=e.db", b"l\xe9.db", "日.db"):
            other = os.path.join(os.fsencode(self.folder), os.fsencode(name))
            shutil.copyfile(base, other)
            self.assertEqual(self.done("test", self.text, os.fsdecode(other)), self.done("test", self.text, base))
        self.assertEqual(self.done("test", self.text, f"/{base.resolve()}"), self.done("test", self.text, base))

    @unittest.skipIf(sqlite3.sqlite_version_info < (3, 31), "this SQLite computes no columns")
    def test_computed_columns_and_views_of_sqlite(self):
        base = self.sqlite('DROP TABLE "Burst"', "CREATE TABLE burst (flight, feet, height AS (feet * 0.5))", "INSERT INTO burst VALUES ('F-1', 3)")
        self.assertEqual(self.done("evaluate", self.text, "ans(f, h) :- burst(f, h)", base), "ans('F-1', 1.5)\n# 1 answer\n")
        base = self.sqlite('ALTER TABLE "Burst" RENAME TO kite', "CREATE VIEW burst AS SELECT 'F-1' AS flight, 2.5 AS height")
        self.assertEqual(self.done("evaluate", self.text, "ans(f, h) :- burst(f, h)", base), "ans('F-1', 2.5)\n# 1 answer\n")

    def test_nothing_is_written_to_sqlite(self):
        base = self.sqlite()
        before = base.read_bytes()
        base.chmod(0o444)
        self.done("test", self.text, base)
        self.assertEqual(base.read_bytes(), before)
        self.assertEqual([path.name for path in self.folder.iterdir() if path.name.startswith(base.name)], [base.name])

    def test_a_file_that_changes_while_it_is_read(self):
        base = self.sqlite("CREATE INDEX i ON flight (number)")
        writer = sqlite3.connect(base)
        self.addCleanup(writer.close)
        writer.execute("PRAGMA journal_mode = WAL")
        real = sources._read_sqlite_table

        def between(connection, path, name, *others):
            real(connection, path, name, *others)
            writer.execute('DELETE FROM "Burst"')
            writer.commit()

        with mock.patch.object(sources, "_read_sqlite_table", between):
            self.assertEqual(self.done("test", self.text, base), "Obeys: 6 rows, 3 dependencies\n")
        self.assertEqual(self.done("test", self.text, base), "Obeys: 3 rows, 3 dependencies\n")
        cells = self.csv(burst="flight,height\n1,2\n1,3\n")
        database = read_database(cells, self.names)
        (cells / "burst.csv").write_text("flight,height\n")
        self.assertEqual(database.say(1), f"{cells}/burst.csv: row 2, of a file that has changed since: burst(1, 3)")
        (cells / "burst.csv").unlink()
        self.assertEqual(database.say(1), f"{cells}/burst.csv: row 2, of a file that has changed since: burst(1, 3)")

    def test_text_that_looks_like_a_number(self):
        base = self.sqlite(flights=[("101", "De Bilt", "x")], bursts=[("101", 7)])
        status, out, err = run("evaluate", self.text, "ans(h) :- burst(101, h)", base)
        self.assertEqual((status, out), (0, "# 0 answers\n"))
        self.assertIn("the text '101' and the number 101 are different values, and both are here; a query has the text between quotes\n", err)
        self.assertEqual(self.done("evaluate", self.text, "ans(h) :- burst('101', h)", base), "ans(7.0)\n# 1 answer\n")
        more = self.folder_of(burst="flight,height\n101,8\n")
        status, out, err = run("evaluate", self.text, "ans(h) :- flight(f, p, t), burst(f, h)", base, more)
        self.assertIn("the text '101' and the number 101 are different values", err)
        self.assertIn("between quotes, and --text TABLE.COLUMN takes a column of CSV as text\n", err)
        found = run("evaluate", self.text, "ans(h) :- flight(f, p, t), burst(f, h)", base, more, "--text", "burst.flight")
        self.assertEqual((found[1], "different values" in found[2]), ("ans(7.0)\nans(8)\n# 2 answers\n", False))

    def test_numbers_that_may_be_versions(self):
        cells = self.csv(flight="number,site,launch\n1,1.1,x\n2,1.10,x\n3,007,x\n")
        status, out, err = run("evaluate", self.text, 1, cells)
        self.assertEqual((status, out), (0, "ans(1.1)\nans('007')\n# 2 answers\n"))
        self.assertIn("flight.csv: 1.1 and 1.10 are one number in flight.site; if they are no numbers, say --text flight.site", err)
        self.assertEqual(
            self.done("evaluate", self.text, 1, cells, "--text", "flight.site"), "ans('007')\nans('1.1')\nans('1.10')\n# 3 answers\n"
        )

    def test_formats(self):
        data = self.write("x.data", "flight(1, 'a\"b,c', 2026-01-14)\nflight(2, '', 3)\n")
        rule = "ans(p, p, 'k', f, v9) :- flight(f, p, v9)"
        self.assertEqual(
            self.done("evaluate", self.text, rule, data, "--format", "csv"),
            'p,p_2,constant2,f,launch\n"","",k,2,3\n"a""b,c","a""b,c",k,1,2026-01-14\n',
        )
        found = json.loads(self.done("evaluate", self.text, rule, data, "--format", "json"))
        self.assertEqual(found[1], {"p": 'a"b,c', "p_2": 'a"b,c', "constant2": "k", "f": 1, "launch": "2026-01-14"})
        for kind, yes, no in [
            ("csv", "answer\nyes\n", "answer\n"),
            ("json", "[\n  {}\n]\n", "[]\n"),
            ("rows", "ans()\n# 1 answer\n", "# 0 answers\n"),
        ]:
            self.assertEqual(self.done("evaluate", self.text, "ans() :- flight(1, p, t)", data, "--format", kind), yes)
            self.assertEqual(self.done("evaluate", self.text, "ans() :- flight(9, p, t)", data, "--format", kind), no)
        self.assertEqual(self.done("evaluate", self.text, "ans(_, _) :- never", data, "--format", "csv"), "column0,column1\n")

    def test_answers_come_out_as_they_went_in(self):
        rule, kinds = "ans(f, h) :- burst(f, h)", ("rows", "csv", "json")
        rows = self.write("w.data", "burst(1, 13.0)\nburst(2, 12.50)\nburst(3, 7)\nburst(4, -0.25)\n")
        cells = self.csv(burst="flight,height\n1,13.0\n2,12.50\n3,7\n4,-0.25\n")
        for source in (rows, cells):
            found = self.done("evaluate", self.text, rule, source)
            self.assertEqual(found, "ans(1, 13.0)\nans(2, 12.50)\nans(3, 7)\nans(4, -0.25)\n# 4 answers\n")
        base = self.sqlite(bursts=[("001", 13), ("12.5", 1e-7), ("x", 2.5)])
        self.assertEqual(
            [self.done("evaluate", self.text, rule, base, "--format", kind) for kind in kinds],
            [
                "ans('001', 13.0)\nans('12.5', 1e-07)\nans('x', 2.5)\n# 3 answers\n",
                'f,h\n"001",13.0\n"12.5",1e-07\nx,2.5\n',
                '[\n  {"f": "001", "h": 13.0},\n  {"f": "12.5", "h": 1e-07},\n  {"f": "x", "h": 2.5}\n]\n',
            ],
        )
        base = self.sqlite(
            'DROP TABLE "Burst"', 'CREATE TABLE "Burst" (flight, height)', "INSERT INTO burst VALUES ('a', 13.0), ('b', 12), ('c', 2.5)"
        )
        self.assertEqual(self.done("evaluate", self.text, rule, base), "ans('a', 13.0)\nans('b', 12)\nans('c', 2.5)\n# 3 answers\n")
        # What is written as rows or as CSV is read as the same values.
        base = self.sqlite(bursts=[("001", 13), ("12.5", 0.25), ("x", 2.5)])
        again = self.write("x.data", self.done("evaluate", self.text, rule, base).replace("ans(", "burst("))
        self.assertEqual(self.done("evaluate", self.text, rule, again), self.done("evaluate", self.text, rule, base))
        cells = self.csv(burst=self.done("evaluate", self.text, rule, base, "--format", "csv").replace("f,h", "flight,height"))
        found = self.done("evaluate", self.text, rule, cells, "--text", "burst.flight")
        self.assertEqual(found, self.done("evaluate", self.text, rule, base))

    def test_notes_are_on_tables_that_are_asked_for(self):
        cells = self.csv("number,site,launch\nF-1,1e4,1\nF-2,a,1.10\nF-3,b,1.1\n", "flight,height\nF-1,1e4\n")
        status, out, err = run("evaluate", self.text, "ans(h) :- burst(f, h)", cells)
        self.assertEqual((status, out), (0, "ans('1e4')\n# 1 answer\n"))
        self.assertEqual(err.count("\n"), 1)
        self.assertIn("burst.csv:2: 1e4 in burst.height is taken as a text; the number is written 10000; if it is no number, say --text", err)
        self.assertEqual(run("test", self.text, cells)[2].count("\n"), 3)
        with warnings.catch_warnings(record=True) as seen:
            warnings.simplefilter("always")
            database = read_database(cells, self.names)
        self.assertEqual([str(one.message) for one in seen], [note.text for note in database.notes])
        self.assertEqual([one.filename for one in seen], [__file__] * 3)
        self.assertIn("if they are no numbers, give text=['flight.launch']", str(seen[1].message))
        with warnings.catch_warnings():
            warnings.simplefilter("error")
            read_database(cells, self.names, text=["flight.launch", "flight.site", "burst.height"])

    def test_part_of_the_tables(self):
        """A break in what is there is said; without one, a table that is missing is."""
        cells = self.folder_of(burst="flight,height\n1,2\n1,3\n")
        self.assertIn("Breaks burst: flight -> height", self.done("test", self.text, cells, status=1))
        cells = self.folder_of(burst="flight,height\n1,2\n")
        self.failed(
            "the data has no table flight, which a dependency speaks of; an empty table is a CSV file with its header line alone",
            "test", self.text, cells,
        )


class WhatIsAskedFor(Data):
    """What cannot change the answers does not stop an evaluation."""

    RULE = "ans(p) :- flight(f, p, t)"

    def left_out(self, source, why, rule=RULE):
        status, out, err = run("evaluate", self.text, rule, source)
        self.assertEqual((status, out), (0, "ans('De Bilt')\n# 1 answer\n"), err)
        self.assertTrue(err.startswith(f"spernevan: the table burst, which the query does not ask for, is left out: {why}"), err)
        self.assertEqual(err.count("\n"), 1)

    def test_another_table(self):
        header, row = "number,site,launch\n", ("F-1", "De Bilt", "2026-01-14")
        flight = header + ",".join(row) + "\n"
        for burst, why in (
            (
                "flight,height\nF-1,\n",
                "burst.csv:2: column height: the cell is empty (NULL); say what it stands for with --null VALUE, or --null TABLE.COLUMN=VALUE ",
            ),
            ("flight\n", "burst.csv:1: there is no column height"),
            ("flight,height\n1\n", "burst.csv:2: the row has 1 cell, the header 2"),
            (b"flight,height\n\xff,1\n", "burst.csv:2:1: this byte is not UTF-8 text"),
            ("flight,height\n" + "F-1,3\n" * 3 + "F-1,\n", "burst.csv:5: column height: the cell is empty"),
        ):
            cells = self.csv(flight, burst)
            with mock.patch.object(sources, "CHUNK", 2):
                self.left_out(cells, f"{cells}/{why}")
            self.failed(f"{cells}/burst.csv", "evaluate", self.text, 0, cells)
            self.failed(f"{cells}/burst.csv", "test", self.text, cells)
        base = self.sqlite(flights=[row], bursts=[("F-1", None)])
        self.left_out(base, f"{base}: row 1 of Burst, column height: NULL in Burst('F-1', NULL); say")
        self.left_out(self.sqlite('DROP TABLE "Burst"', 'CREATE VIEW "Burst" AS SELECT * FROM kite', flights=[row]), str(self.folder))
        for rows in ("flight('F-1', 'De Bilt', 1)\nburst(1, 2)\nburst(2, NULL)\n", "flight('F-1',\n'De Bilt', 1)\nburst(2, NULL)\n"):
            path = self.write("n.data", rows)
            self.left_out(path, f"{path}:3: column height: there is no value here (NULL); say")
            self.failed(f"{path}:3:10: there is no value here (NULL)", "test", self.text, path)
        data = {"flight": [row], "burst": [("F-1", None), ("F-1", 2)]}
        with self.assertWarnsRegex(UserWarning, "the table burst, which the query does not ask for, is left out: burst: column height, row 0") as seen:
            self.assertEqual(self.record.evaluate(self.RULE, data), [("De Bilt",)])
        self.assertEqual(seen.filename, __file__)
        self.assertRaises(DataError, self.record.test, data)
        self.assertRaises(DataError, read_database, base, self.record)
        with self.assertWarnsRegex(UserWarning, "the table burst, which the query does not ask for, is left out"):
            found = read_database(base, self.record, query=self.RULE)
        self.assertEqual(self.record.evaluate(self.RULE, found), [("De Bilt",)])
        for call in (lambda: self.record.evaluate(0, found), lambda: self.record.test(found)):
            self.assertRaisesRegex(ValueError, "the database was read for another query; without query=.. it is read for all", call)
        with self.assertRaisesRegex(ValueError, "a query goes with a record"):
            read_database(base, self.names, query=self.RULE)

    def test_another_column(self):
        """A column in which the query has a variable that stands once, and of which no dependency speaks."""
        text = self.write("b.text", "flight(number, site, remark)\nflight: number -> site\n")
        cells = self.folder_of(flight="number,site,remark\nF-1,De Bilt,\nF-1,x,late\n")
        status, out, err = run("evaluate", text, "ans(f) :- flight(f, 'De Bilt', r)", cells)
        self.assertEqual((status, out), (0, "ans('F-1')\n# 1 answer\n"))
        self.assertIn("flight.csv:2: flight('F-1', 'De Bilt', '')\n", err)
        for rule in ("ans(r) :- flight(f, p, r)", "ans(f) :- flight(f, p, r), flight(g, q, r)", "ans(f) :- flight(f, p, 'late')"):
            self.failed(f"{cells}/flight.csv:2: column remark: the cell is empty (NULL)", "evaluate", text, rule, cells)
        self.failed(f"{cells}/flight.csv:2: column remark: the cell is empty (NULL)", "test", text, cells)

    def test_null_by_columns(self):
        cells = self.csv("number,site,launch\nF-1,,\n", "flight,height\nF-1,\n")
        rule = "ans(f, p, t, h) :- flight(f, p, t), burst(f, h)"
        each = ["--null", "flight.site=none", "--null", "Burst.Height=-1.5", "--null=flight.launch='a = b'"]
        self.assertEqual(self.done("evaluate", self.text, rule, cells, *each), "ans('F-1', 'none', 'a = b', -1.5)\n# 1 answer\n")
        rest = ["--null", "0", "--null", "flight.site="]
        self.assertEqual(self.done("evaluate", self.text, rule, cells, *rest), "ans('F-1', '', 0, 0)\n# 1 answer\n")
        self.assertEqual(self.done("evaluate", self.text, rule, cells, "--null='a=b'"), "ans('F-1', 'a=b', 'a=b', 'a=b')\n# 1 answer\n")
        self.failed(f"{cells}/burst.csv:2: column height: the cell is empty (NULL); ", "test", self.text, cells, *each[:2], "--null=flight.launch=1")
        unknown = "--null kite.site=1: kite.site is no TABLE.COLUMN of the archive; a text with = in it stands"
        self.failed(unknown, "test", self.text, cells, "--null", "kite.site=1")
        self.failed("--null says twice what NULL stands for\n", "test", self.text, cells, "--null", "1", "--null", "2")
        self.failed("--null says twice what NULL stands for in flight.site\n", "test", self.text, cells, *["--null=flight.site=2"] * 2)
        path = self.write("n.data", "flight(1, NULL, 2)\nburst(\n1, NULL)\n")
        self.failed(f"{path}:3:4: there is no value here (NULL)", "evaluate", self.text, rule, path, "--null=flight.site=x")
        self.assertEqual(self.done("evaluate", self.text, rule, path, "--null=flight.site=x", "--null=burst.height=3"), "ans(1, 'x', 2, 3)\n# 1 answer\n")
        data = {"flight": [(1, None, None)], "burst": [(1, float("nan"))]}
        found = self.record.database(data, null={"flight.site": "x", None: 7})
        self.assertEqual(self.record.evaluate(rule, found), [(1, "x", 7, 7)])
        with self.assertRaisesRegex(DataError, "column launch, row 0: there is no value"):
            self.record.database(data, null={"flight.site": "x"})


class Decimals(Data):
    RULE = "ans(f, h) :- burst(f, h)"

    def test_a_decimal_comma(self):
        rows = "1;31200,50\n2;-0,25\n3;7\n4;13,0\n5;2026-01-14\n6;De Bilt, NL\n"
        cells = self.csv(burst="flight;height\n" + rows)
        found = "ans(1, 31200.50)\nans(2, -0.25)\nans(3, 7)\nans(4, 13.0)\nans(5, 2026-01-14)\nans(6, 'De Bilt, NL')\n# 6 answers\n"
        self.assertEqual(self.done("evaluate", self.text, self.RULE, cells, "--decimal", ","), found)
        self.assertEqual(self.done("evaluate", self.text, "ans(f) :- burst(f, 31200.5)", cells, "--decimal=,"), "ans(1)\n# 1 answer\n")
        status, _, err = run("evaluate", self.text, self.RULE, cells)
        self.assertIn("31200,50 in burst.height is taken as a text; the number is written with a point, 31200.50; ", err)
        self.assertTrue(err.endswith("say --text burst.height; if the comma is that of a decimal, say --decimal ,\n"), err)
        self.assertEqual((status, err.count("\n")), (0, 1))
        quoted = self.csv(burst='flight,height\n1,"12,5"\n')
        self.assertEqual(self.done("evaluate", self.text, self.RULE, quoted, "--decimal=,"), "ans(1, 12.5)\n# 1 answer\n")
        for cell, number in (("12.5", "with a comma, 12,5"), ("1.234,5", "with a comma and without points"), ("1e-1", "0,1")):
            cells = self.csv(burst=f"flight;height\n1;{cell}\n")
            status, out, err = run("evaluate", self.text, self.RULE, cells, "--decimal", ",")
            self.assertEqual(out, f"ans(1, '{cell}')\n# 1 answer\n")
            self.assertIn(f"{cell} in burst.height is taken as a text; the number is written {number}; if it is no number, say --text burst.height\n", err)
        self.assertEqual(self.record.evaluate(self.RULE, read_database(quoted, self.record, decimal=",")), [(1, Decimal("12.5"))])
        for wrong in ({"decimal": ";"}, {"separator": "ab"}, {"separator": '"'}):
            self.assertRaises(ValueError, read_database, quoted, self.record, **wrong)

    def test_a_separator(self):
        for sign, name in (("|", "|"), (":", ":"), ("\t", "tab"), ("\t", "\\t"), (";", ";")):
            cells = self.csv(burst=f"flight{sign}height\n1{sign}a,b\n", flight=f"number{sign}site{sign}launch\n")
            self.assertEqual(self.done("evaluate", self.text, self.RULE, cells, "--separator", name), "ans(1, 'a,b')\n# 1 answer\n")
            self.assertEqual(self.record.evaluate(self.RULE, read_database(cells, self.record, separator=sign)), [(1, "a,b")])
        burst = cells / "burst.csv"
        self.failed(f"{burst}:1: no column of burst(flight, height) is here; ", "evaluate", self.text, self.RULE, burst, "--separator=|")
        for wrong in ("", "ab", '"'):
            status, out, err = run("test", self.text, cells, "--separator", wrong)
            self.assertEqual((status, out, err.count("\n")), (2, "", 1))
            self.assertIn("the separator must be one sign, such as ; or a tabulator", err)


class FromPython(Data):
    def setUp(self):
        super().setUp()
        self.data = {
            "flight": [("F-1", "De Bilt", date(2026, 1, 14)), ("F-2", "x", None)],
            "burst": [{"height": Decimal("31200.5"), "flight": "F-1"}],
        }

    def test_rows(self):
        with self.assertRaisesRegex(DataError, "flight: column launch, row 1: there is no value here"):
            self.record.test(self.data)
        data = self.record.database(self.data, null="none")
        self.assertIsNone(self.record.test(data))
        self.assertEqual(self.record.evaluate(0, data), [("F-1", Decimal("31200.5"), date(2026, 1, 14))])
        self.assertEqual(self.record.evaluate("ans(t) :- flight(f, p, t)", data), [(date(2026, 1, 14),), ("none",)])
        self.assertEqual(self.record.test({"burst": [(1, 2), (1, 3)]}), Broken(2, 0, 1))
        self.assertEqual(self.record.evaluate(1, {"flight": []}), [])
        self.assertEqual(
            self.record.evaluate(1, {"flight": [(1, 3.0, 1), (2, 2.5, 1), (3, -4, 1), (4, "a", 1), (5, 2**40, 1)]}),
            [(-4,), (2.5,), (3,), (2**40,), ("a",)],
        )
        self.assertEqual(len(self.record.names.values), len(pack(TEXT)[1].values))

    def test_types(self):
        """A column of one type comes out in that type."""
        rule = "ans(f, h) :- burst(f, h)"
        for rows in (
            [(1, 13.0), (2, 2.5), (3, -1e300)],
            [(1, Decimal("13")), (2, Decimal("2.50"))],
            [(True, "2026-01-14"), (False, "x")],
            [("2026-01-14", 1), ("a", 2.5), ("b", "c")],
            [(1, 13.0), (2, 12), (3, 2.5), (4, "x"), (5, -0.5)],
            [(1, True), (2, 12), (3, Decimal("2.50")), (4, 2.25), (5, Decimal("14.0"))],
            [(1, 1), (2, 2), (3, 3.0), (4, 4)],
            [(date(2026, 1, 14), datetime(2026, 1, 14, 12)), (date(2026, 1, 15), datetime(2026, 1, 15))],
        ):
            with mock.patch("spernevan.data.CHUNK", 2):
                found = self.record.evaluate(rule, {"burst": rows})
            self.assertEqual(sorted(map(repr, found)), sorted(map(repr, rows)))
        # Each column by its own type, also where the values are the same.
        data = {"flight": [(1, 1.0, Decimal("1.5"))], "burst": [(1.0, 1.5)]}
        self.assertEqual(repr(self.record.evaluate("ans(f, p, t) :- flight(f, p, t)", data)), "[(1, 1.0, Decimal('1.5'))]")
        self.assertEqual(repr(self.record.evaluate("ans(f, t) :- burst(f, t), flight(f, p, t)", data)), "[(1.0, 1.5)]")
        self.assertEqual(repr(self.record.evaluate("ans(f, t) :- flight(f, p, t), burst(f, t)", data)), "[(1, Decimal('1.5'))]")
        # What an absent value stands for is taken as a value of the column.
        null = self.record.database({"burst": [(1, 2.5), (2, float("nan")), (3, None)]}, null=-9)
        self.assertEqual(repr(self.record.evaluate(rule, null)), "[(1, 2.5), (2, -9.0), (3, -9.0)]")

    def test_columns(self):
        self.assertEqual(self.record.columns(0), ("f", "h", "t"))
        self.assertEqual(self.record.columns("ans(p, p, 3, v7) :- flight(f, p, v7)"), ("p", "p_2", "constant2", "launch"))
        self.assertEqual(self.record.columns(Query.never(2)), ("column0", "column1"))
        with self.assertRaisesRegex(Refused, "place 7 is vacant"):
            self.record.columns(7)

    def test_part_of_the_tables(self):
        with self.assertRaisesRegex(DataError, "the data has no table flight, which a dependency speaks of; an empty table is {'flight': "):
            self.record.test({"burst": [(1, 2)]})
        self.assertIsNone(self.record.test({"burst": [(1, 2)], "flight": []}))
        with self.assertWarnsRegex(UserWarning, "the text '7' and the number 7 are different values"):
            self.record.evaluate("ans(h) :- burst(7, h)", {"burst": [("7", 2)]})

    def test_a_table_that_is_not_there(self):
        for place, data, missing in [(0, {}, "flight, burst"), (1, {"burst": [(1, 2)]}, "flight")]:
            message = f"the data has no table {missing}, which the query asks for; an empty table is {{'flight': \\[\\]}}"
            with self.assertRaisesRegex(DataError, message):
                self.record.evaluate(place, data)
        with self.assertRaisesRegex(DataError, "the table burst is there twice, the second time as 'Burst'"):
            self.record.evaluate(1, {"flight": [], "burst": [(1, 2)], "Burst": [(3, 4)]})

    def test_a_text_without_its_quotes(self):
        """It is a variable: what the data has under its name, in a column where it stands and that is not shown, is named."""
        data = {"flight": [("F-1", "Payerne", 3), ("F-2", "x", 4)], "burst": [("F-1", 2), ("F-2", 7)]}
        said = "Payerne is a variable of the query, which any value goes with, and flight.site has the text 'Payerne'; a text stands between quotes"
        with self.assertWarnsRegex(UserWarning, said) as seen:
            self.assertEqual(self.record.evaluate("ans(f) :- flight(f, Payerne, _)", data), [("F-1",), ("F-2",)])
        self.assertEqual(seen.filename, __file__)
        with warnings.catch_warnings():
            warnings.simplefilter("error")
            for quiet in ("ans(f) :- flight(f, 'Payerne', _)", "ans(Payerne) :- flight(f, Payerne, _)", "ans(f) :- flight(f, _, Payerne)", "ans(f) :- burst(f, x)"):
                self.record.evaluate(quiet, data)
        cells = self.csv("number,site,launch\nF-1,Payerne,3\n")
        self.assertEqual(run("evaluate", self.text, "ans(f) :- flight(f, Payerne, _)", cells), (0, "ans('F-1')\n# 1 answer\n", f"spernevan: {said}\n"))
        self.failed("--text flight: flight is no TABLE.COLUMN of the archive", "evaluate", self.text, 1, cells, "--text", "flight")

    def test_a_broken_dependency_is_a_warning(self):
        data = {"flight": [], "burst": [("F-1", 2), ("F-1", 3)]}
        message = r"the database breaks burst: flight -> height \(row 0 of burst: burst\('F-1', 2\); row 1 of burst: "
        with self.assertWarnsRegex(UserWarning, message) as seen:
            self.assertEqual(self.record.evaluate("ans(h) :- burst(f, h)", data), [(2,), (3,)])
        with self.assertWarnsRegex(UserWarning, "the query does not ask for burst, and its long and short form have the same answers here"):
            self.record.evaluate(1, data)
        self.assertEqual(seen.filename, __file__)
        with warnings.catch_warnings():
            warnings.simplefilter("error")
            self.record.evaluate(1, data, tested=True)
            self.record.evaluate(1, {"flight": [], "burst": [("F-1", 2), ("F-2", 3)]})

    def test_what_is_no_place_and_no_database(self):
        mapping = {0: Constant(0)}
        for place in (1.5, True, None):
            for call in (
                lambda: self.record.put(place, "ans() :- never"),
                lambda: self.record.drop(place),
                lambda: self.record.reduce(place, 4),
                lambda: self.record.reduce(0, place),
                lambda: self.record.reduce("ans(x) :- burst(x, y)", place),
                lambda: self.record.shorten(place),
                lambda: self.record.compare(0, place),
                lambda: self.record.equivalent(place, 0),
                lambda: self.record.check(place, 0, mapping),
                lambda: self.record.check(0, place, mapping),
            ):
                with self.assertRaisesRegex(ValueError, f"a place must be a whole number, not {place}"):
                    call()
            with self.assertRaisesRegex(ValueError, f"a place must be a whole number, not {place}"):
                self.record.evaluate(place, {"flight": []})
            with self.assertRaisesRegex(ValueError, f"a place must be a whole number, not {place}"):
                self.record.query(place)
        cells = self.csv("number,site,launch\n1,x,2\n")
        for path in (cells, str(cells)):
            with self.assertRaisesRegex(ValueError, r"a database is no name of a file: read_database\(.*, record\) reads files"):
                self.record.evaluate(1, path)
            self.assertEqual(self.record.evaluate(1, read_database(path, self.names)), [("x",)])
            self.assertEqual(repr(read_database(path, self.record)), "<Database of 1 row: flight 1, burst 0>")
        with self.assertRaisesRegex(DataError, r"there is no value here \(NULL\); say what it stands for, as in record.database\(data, null=0\)"):
            self.record.test(self.data)
        self.assertEqual((Record.read(self.text), Record.read(self.text).names), (self.record, self.names))
        self.assertEqual(Record.read(self.text, names=False).names.tables[0].name, "R0")
        with self.assertRaisesRegex(ValueError, "a.text is a text, which has its names in it"):
            Record.read(self.text, names=self.text)

    def test_a_single_table(self):
        record = Record.open([Table("burst", ("flight", "height"))])
        with self.assertRaisesRegex(DataError, "say which table these rows are of, as in {'flight': rows}"):
            self.record.database([(1, 2)])
        self.assertEqual(record.evaluate("ans(h) :- burst('x', h)", record.database([("x", 2)])), [(2,)])

    def test_a_dictionary_that_grew_apart(self):
        """A database stays good for queries with values that it was not read with."""
        data = self.record.database({"flight": [("a", "b", "c"), ("d", "e", "f")]})
        after = self.record.put(3, "ans(f, 'g') :- flight(f, 'e', t)")
        self.assertEqual(after.evaluate(3, data), [("d", "g")])
        self.assertEqual(after.evaluate("ans(f, 'h') :- flight(f, 'b', t)", data), [("a", "h")])
        again = pack(TEXT)[0].put(4, "ans(f) :- flight(f, p, 'f')")
        self.assertEqual(again.evaluate(4, data), [("d",)])
        self.assertEqual(Record(again.file, again.own_names()).evaluate(4, data), [("d",)])
        with self.assertRaisesRegex(ValueError, r"the database is of other tables: flight\(number, site, launch\), burst"):
            Record.open([3, 2]).test(data)

    def test_wrong_rows(self):
        for data, message in [
            ({"kite": []}, "there is no table 'kite'; there is flight, burst"),
            ({1: []}, "there is no table 1"),
            ({"burst": 5}, "burst: rows must be a list, not 5"),
            ({"burst": [5]}, "burst, row 0: a row must be a list or a tuple, not 5"),
            ({"burst": ["ab"]}, "burst, row 0: a row must be"),
            ({"burst": [(1, 2), (1,)]}, r"burst, row 1: burst\(flight, height\) has 2 columns, not 1"),
            ({"burst": [{"flight": 1}]}, "burst, row 0: there is no column height; there is flight"),
            ({"burst": [(1, b"x")]}, "column height, row 0: a value must be"),
            ({"burst": [(1, [2])]}, "column height, row 0: a value must be"),
            ({"burst": [(1, float("nan"))]}, "column height, row 0: there is no value"),
        ]:
            with self.subTest(data=repr(data)), self.assertRaisesRegex(DataError, message):
                self.record.test(data)

    @unittest.skipUnless(installed("numpy"), "numpy is not installed")
    def test_numpy(self):
        import numpy

        self.assertEqual(self.record.evaluate("ans(f, h) :- burst(f, h)", {"burst": numpy.array([[1, 2], [3, 4]])}), [(1, 2), (3, 4)])
        self.assertEqual(
            self.record.evaluate("ans(h) :- burst(f, h)", {"burst": numpy.array([[1, -2], [3, 2**40]])}), [(-2,), (2**40,)]
        )
        self.assertEqual(self.record.evaluate("ans(h) :- burst(f, h)", {"burst": numpy.array([[1, 2.5], [3, 4]])}), [(2.5,), (4,)])
        named = numpy.array([(1.5, "x")], dtype=[("height", "f4"), ("flight", "U5")])
        self.assertEqual(self.record.evaluate("ans(f, h) :- burst(f, h)", {"burst": named}), [("x", 1.5)])
        with self.assertRaisesRegex(DataError, r"the array has the shape \(3,\)"):
            self.record.test({"burst": numpy.array([1, 2, 3])})
        self.assertEqual(self.record.test({"burst": numpy.array([[1, 2], [1, 4]], dtype="uint8")}), Broken(2, 0, 1))

    def test_not_even_unequal(self):
        """pandas.NA is unequal to nothing, itself included: the comparison gives NA, which is no truth value."""

        class Absent:
            def __ne__(self, other):
                return self

            def __bool__(self):
                raise TypeError("boolean value of NA is ambiguous")

        with self.assertRaisesRegex(DataError, "burst: column height, row 1: there is no value"):
            self.record.database({"burst": [(1, 2), (3, Absent())]})

    @unittest.skipUnless(installed("pandas"), "pandas is not installed")
    def test_pandas(self):
        import pandas

        frame = pandas.DataFrame(
            {"launch": pandas.to_datetime(["2026-01-14", "2026-01-15"]), "number": ["F-1", "F-2"], "Site": ["De Bilt", "x"], "n": [1, 2]}
        )
        burst = pandas.DataFrame({"flight": ["F-1", "F-2"], "height": [31200.5, 7]})
        self.assertEqual(self.record.evaluate(0, {"flight": frame, "burst": burst}), [("F-1", Decimal("31200.5"), date(2026, 1, 14))])
        times = frame.assign(launch=pandas.to_datetime(["2026-01-14 11:45", None]))
        with self.assertRaisesRegex(DataError, "flight: column launch, row 1: there is no value"):
            self.record.test({"flight": times})
        data = self.record.database({"flight": times}, null=0)
        self.assertEqual(self.record.evaluate("ans(t) :- flight(f, p, t)", data), [(0,), (datetime(2026, 1, 14, 11, 45),)])
        for kind, cells in (("string", ["a", None]), ("Int64", [1, None]), ("boolean", [True, None])):
            absent = burst.assign(height=pandas.array(cells, dtype=kind))
            with self.assertRaisesRegex(DataError, "burst: column height, row 1: there is no value"):
                self.record.database({"burst": absent})
            data = self.record.database({"burst": absent}, null="?")
            self.assertEqual(self.record.evaluate("ans(h) :- burst('F-2', h)", data), [("?",)])
        many = pandas.DataFrame({"flight": range(70_000), "height": range(70_000)})
        self.assertEqual(len(self.record.evaluate("ans(f) :- burst(f, f)", {"burst": many})), 70_000)


class Random(Data):
    def test_values_instead_of_numbers(self):
        """Under other names for its values a database has the same answers and the same broken dependency, from every source."""
        rng = random.Random(14)
        pool = ["Lindenberg", 'it\'s, "so"', Decimal("12.5"), date(2026, 1, 14), 7, -1, 2**31, "007", 2_000_000_000, "a\nb"]
        seen = set()
        for number in range(20 * context.MANY):
            plain = context.random_record(rng, 3, 2, 2, rng.choice([0, 2]), most_rows=3, most_head=3, constants=len(pool))
            rows = context.random_data(rng, plain.widths, values=len(pool), most_rows=25)
            named = Record.open(plain.widths).add_all(plain.all_dependencies)
            for place in plain.filled():
                named = named.put(place, self.renamed(plain.queries[place], pool, named.names.values))
            tables = {
                f"R{relation}": [[pool[value] for value in values] for r, values in rows if r == relation]
                for relation in range(len(plain.widths))
            }
            grouped = [(r, values) for relation in range(len(plain.widths)) for r, values in rows if r == relation]
            from_sqlite = self.from_sqlite(number, tables, named)
            for data in (named.database(tables), self.from_csv(number, tables, named), self.from_rows(tables, named), from_sqlite):
                self.assertEqual(named.test(data), plain.test(grouped))
                seen.add(named.test(data) is None)
                for place in plain.filled():
                    wanted = {tuple(pool[value] for value in answer) for answer in plain.evaluate(place, rows)}
                    answers = named.evaluate(place, data, tested=True)
                    # SQLite has no dates: one in a column of texts comes out as the text that went in.
                    if data is from_sqlite:
                        wanted, answers = ([tuple(map(self.undated, one)) for one in some] for some in (wanted, answers))
                    self.assertEqual((set(answers), len(answers)), (set(wanted), len(wanted)))
        self.assertEqual(seen, {True, False})

    @staticmethod
    def undated(value):
        return str(value) if isinstance(value, date) else value

    @staticmethod
    def renamed(query, pool, values):
        def entry(held):
            return Constant(values.encode(pool[held.number])) if isinstance(held, Constant) else held

        rows = tuple(Row(row.relation, tuple(map(entry, row.entries))) for row in query.rows)
        return Query(tuple(map(entry, query.head)), rows, query.head_length)

    def test_a_column_is_read_as_its_cells(self):
        """Many at once or one by one, cells are the same values, under one code each."""
        rng = random.Random(15)
        words = "Graw|nan|N-1|12.5|12.50|13.0|-0.25|7|0|007|2026-01-14|1e4|x, y|3000000000|2000000003|9.5.1|12,5".split("|")
        pools = {
            read_cell: words,
            read_cell_with_comma: words,
            str: words,
            read_row_value: ["'a'", "'it''s'", "''", '"x\\ny"', "12.5", "-3", "2026-01-14", "2000000001", "0.10"],
            plain: ["a", "12.5", 12.5, 13.0, 7, True, Decimal("12.50"), -1, 2**40, 2_000_000_002, date(2026, 1, 14), "2026-01-14", 0.1],
        }
        for read, pool in pools.items():
            for _ in range(60 * context.MANY):
                values = Values([(2_000_000_001, "given"), (2_000_000_004, Decimal("9.75"))])
                cells = Cells(values, None, read, Form())
                some = rng.sample(pool, rng.randint(1, len(pool)))
                for column in ([rng.choice(some) for _ in range(rng.randint(0, 9))] for _ in range(3)):
                    found = list(map(values.decode, cells.column(column)))
                    self.assertEqual(list(map(self.undated, found)), list(map(self.undated, map(read, column))))
                entries = dict(values)
                self.assertEqual((len(entries), pickle.loads(pickle.dumps(values)), values.copy()), (len(values), values, values))
                self.assertTrue(all(values.encode(value) == code for code, value in entries.items()))

    def from_csv(self, number, tables, record):
        folder = self.folder / f"random{number}"
        folder.mkdir()
        for name, rows in tables.items():
            with open(folder / f"{name}.csv", "w", newline="", encoding="utf-8") as file:
                writer = csv.writer(file)
                writer.writerow(record.names.tables[int(name[1:])].columns)
                writer.writerows(rows)
        return read_database([folder], record.names)

    def from_rows(self, tables, record):
        lines = [f"{format_datum(name, row)}\n" for name, rows in tables.items() for row in rows]
        return read_database([self.write("r.data", "# rows\n" + "".join(lines))], record.names)

    def from_sqlite(self, number, tables, record):
        path = self.folder / f"random{number}.db"
        connection = sqlite3.connect(path)
        for name, rows in tables.items():
            columns = record.names.tables[int(name[1:])].columns
            connection.execute(f"CREATE TABLE {name} ({', '.join(columns)})")
            kept = [
                [float(value) if isinstance(value, Decimal) else str(value) if isinstance(value, date) else value for value in row]
                for row in rows
            ]
            connection.executemany(f"INSERT INTO {name} VALUES ({', '.join('?' * len(columns))})", kept)
        connection.commit()
        connection.close()
        found = read_database([path], record.names)
        found.values.encode(date(2026, 1, 14))
        return found


class Large(Data):
    def test_many_rows(self):
        """Well under a second on an idle machine: a tenth of a million rows, with texts."""
        n = 100_000
        cells = self.csv(
            "number,site,launch\n" + "".join(f"{k},site {k % 50},2026-01-{k % 28 + 1:02d}\n" for k in range(n)),
            "flight,height\n" + "".join(f"{k},{k % 977}.5\n" for k in range(n)),
        )
        start = time.process_time()
        database = read_database([cells], self.names)
        self.assertLess(time.process_time() - start, 5)
        self.assertEqual((len(database), len(database.words)), (2 * n, 7 * n))
        first = 0 if database.stands(0).relation == 1 else n
        self.assertEqual(
            database.stands(first + 70_001),
            (f"{cells}/burst.csv:70003", 1, (70_001, Decimal(f"{70_001 % 977}.5"))),
        )
        self.assertIsNone(self.record.test(database))

    @unittest.skipUnless(context.LONG, "takes a minute; SPERNEVAN_TEST_LONG=1 runs it")
    def test_a_million_rows(self):
        """A million rows in seconds, from each kind of file, with texts, dates and as many different keys as rows; and with all cells different."""
        n = 500_000
        for flights, bursts in (
            ([(f"F-{k}", f"site {k % 50}", f"2026-01-{k % 28 + 1:02d}") for k in range(n)], [(f"F-{k}", k % 977 + 0.5) for k in range(n)]),
            ([(f"F-{k}", f"site {k}", f"day {k}") for k in range(n)], [(f"B-{k}", k + 0.25) for k in range(n)]),
        ):
            self.read_from_each_kind(n, flights, bursts)

    def read_from_each_kind(self, n, flights, bursts):
        sources = {
            "CSV": self.csv(
                "number,site,launch\n" + "".join(f"{a},{b},{c}\n" for a, b, c in flights),
                "flight,height\n" + "".join(f"{a},{b}\n" for a, b in bursts),
            ),
            "SQLite": self.sqlite(flights=flights, bursts=bursts),
            "rows of text": self.write(
                "l.data",
                "".join(f"flight('{a}', '{b}', '{c}')\n" for a, b, c in flights) + "".join(f"burst('{a}', {b})\n" for a, b in bursts),
            ),
        }
        for kind, source in sources.items():
            start = time.process_time()
            database = read_database([source], self.names)
            took = time.process_time() - start
            print(f"\n{kind}: {len(database)} rows in {took:.1f} s", file=sys.stderr)
            self.assertEqual(len(database), 2 * n)
            self.assertLess(took, 30)

    def test_rows_that_are_not_asked_for(self):
        """The engine gets only the tables of the query: the others change no answer."""
        data = self.record.database({"burst": [(1, 2), (3, 4)], "flight": [(n, 5, 6) for n in range(3)]})
        self.assertEqual(len(data.words_of({0, 1})), len(data.words))
        with mock.patch("spernevan.record.engine.evaluate", wraps=engine.evaluate) as evaluate:
            self.assertEqual(self.record.evaluate("ans(h) :- burst(1, h)", data), [(2,)])
            self.assertEqual(self.record.evaluate("ans(f, h) :- flight(f, _, _), burst(f, h)", data), [(1, 2)])
            self.assertEqual(self.record.evaluate("ans() :- never", data), [])
        self.assertEqual([len(call.args[2]) for call in evaluate.call_args_list], [6, 18, 0])
        self.assertEqual([call.args[3] for call in evaluate.call_args_list], [(1, 1), (2, 2), (0, 0)])

    def test_a_count(self):
        """As many as there are answers, with the warnings of `evaluate`."""
        data = {"burst": [("a", 2), ("a", 3), ("b", 2)]}
        for asked, number in (("ans(f) :- burst(f, _)", 2), ("ans(f, h) :- burst(f, h)", 3), ("ans() :- burst('c', _)", 0), ("ans() :- burst('a', _)", 1)):
            with self.assertWarnsRegex(UserWarning, "the database breaks burst: flight -> height") as caught:
                self.assertEqual(self.record.count(asked, data), number)
            self.assertEqual(caught.filename, __file__)
            self.assertEqual(self.record.count(asked, self.record.database(data), tested=True), number)
            self.assertEqual(len(self.record.evaluate(asked, self.record.database(data), tested=True)), number)
        self.assertEqual(self.record.count("ans() :- never", {}), 0)
        with self.assertRaisesRegex(DataError, "the data has no table flight"):
            self.record.count("ans(f) :- flight(f, _, _)", data)

    def test_progress(self):
        class Terminal(io.StringIO):
            def isatty(self):
                return True

        for stream, shown in ((Terminal(), True), (io.StringIO(), False)):
            progress = Progress(stream)
            progress.at("flight", 10)
            self.assertEqual(stream.getvalue(), "")
            progress._next = 0
            progress.at("flight", 1_200_000)
            self.assertEqual("flight: 1,200,000 rows" in stream.getvalue(), shown)
            progress.done()
            self.assertEqual(stream.getvalue().endswith("\r\033[K"), shown)

    def test_progress_of_a_call(self):
        """A call that does not tell how far it is shows how long it takes, and its line is taken away, also when it fails."""

        class Terminal(io.StringIO):
            said = threading.Event()

            def isatty(self):
                return True

            def write(self, text):
                super().write(text)
                self.said.set()

        stream = Terminal()
        with self.assertRaises(KeyError), Progress(stream).during("testing", 0.01):
            self.assertTrue(stream.said.wait(60))
            raise KeyError
        self.assertTrue(stream.getvalue().startswith("\rtesting: 0 s\033[K"))
        self.assertTrue(stream.getvalue().endswith("\r\033[K"))
        with Progress(Terminal()).during("testing"):
            pass


if __name__ == "__main__":
    unittest.main()
