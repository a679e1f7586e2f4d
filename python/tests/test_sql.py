"""SQL statements: run by SQLite and PostgreSQL on random archives, they give the engine's answers."""

import csv
import glob
import io
import os
import pwd
import random
import shutil
import sqlite3
import subprocess
import tempfile
import unittest
from datetime import date, datetime, timedelta
from decimal import Decimal
from pathlib import Path
from unittest import mock

import context
from context import MANY
from spernevan import Constant, Names, Query, Record, Row, Table, Variable, engine, parse_query, read_names, sql
from spernevan.definition import define, itself

TEXTS = ["Lindenberg", "O'Brien \\ \"q\" \\'", "", "two\nlines", "höhe — ☃", "7", "-- ;", "%s :x $1 {}"]

# A way to read the numbers of an archive: what they stand for, and the column's type in SQLite and in PostgreSQL.
KINDS = {
    "int": (itself, "INTEGER", "bigint"),
    "text": (lambda number: TEXTS[number], "TEXT", "text"),
    "decimal": (lambda number: Decimal("-2.25") + number, "REAL", "numeric"),
    "date": (lambda number: date(1999, 12, 31) + timedelta(days=number), "TEXT", "date"),
}

STRANGE = ["select", "Order", 'q"uote', "a b", "höhe", "t1", "x'y", "null"]


def strange_names(widths):
    """Names that must be quoted."""
    return Names(tuple(Table(f"{STRANGE[n]} {n}", tuple(STRANGE[n:] + STRANGE[:n])[:w]) for n, w in enumerate(widths)))


def short_of(record, place):
    """The record with the place's short form in its stead."""
    return Record.open(record.widths).put(0, record.shorten(place).result)


def cases(seed, number, most_rows):
    """Records with names, a kind of values, a database, and for each place both forms with the engine's answers."""
    rng = random.Random(seed)
    for turn in range(number):
        shape = {"constants": 3, "most_rows": most_rows, "numbers": 12}
        record = context.random_record(rng, most_width=rng.choice([2, 3, 8]), most_relations=3, most_dependencies=5, **shape)
        names = strange_names(record.widths) if turn % 2 else Names.default(record.widths)
        kind = sorted(KINDS)[turn % len(KINDS)]
        rows = context.random_data(rng, record.widths, values=rng.choice([2, 3]), most_rows=14)
        obeys = record.test(rows) is None
        asked = []
        for place, query in enumerate(record.queries):
            if query is not None:
                definition = define(record, names, place, KINDS[kind][0])
                long, short = record.evaluate(place, rows), short_of(record, place).evaluate(0, rows)
                assert not obeys or long == short
                asked += [(definition, "long", long), (definition, "short", short)]
        yield record, names, kind, rows, asked


def wanted(definition, answers):
    """The engine's answers as values, and the row that stands for the empty answer."""
    return {tuple(map(definition.decode, answer)) or (1,) for answer in answers}


class Parts(unittest.TestCase):
    def test_identifiers(self):
        self.assertEqual(sql.identifier('a"b c'), '"a""b c"')
        for bad in ("", "a\0b"):
            with self.assertRaisesRegex(ValueError, "cannot be a name"):
                sql.identifier(bad)

    def test_literals(self):
        moment = datetime(2026, 1, 14, 12, 30)
        for value, sqlite, postgresql in [
            (7, "7", "7"),
            (-7, "-7", "-7"),
            ("O'B", "'O''B'", "'O''B'"),
            ("a\\'b", "'a\\''b'", "E'a\\\\''b'"),
            (Decimal("12.50"), "12.50", "12.50"),
            (Decimal("1E+3"), "1000", "1000"),
            (date(2026, 1, 14), "'2026-01-14'", "'2026-01-14'"),
            (moment, "'2026-01-14 12:30:00'", "'2026-01-14 12:30:00'"),
        ]:
            self.assertEqual(sql.literal(value, "sqlite"), sqlite)
            self.assertEqual(sql.literal(value, "postgresql"), postgresql)
        for bad in (None, True, 1.5, "a\0b", Decimal("NaN"), Decimal("Infinity"), b"x"):
            with self.assertRaisesRegex(ValueError, "cannot be written"):
                sql.literal(bad, "sqlite")
        with self.assertRaisesRegex(ValueError, "dialect must be sqlite or postgresql"):
            sql.literal(1, "mysql")

    def test_labels(self):
        names = Names((Table("burst", ("flight", "height")),))
        query = parse_query("ans(v0, 5, v0, v1, v2, v3) :- burst(v0, v1), burst(v2, v3)", names)
        self.assertEqual(
            sql.labels(query, names, {0: "f", 1: "Height", 2: "F"}), ("f", "constant1", "f_2", "Height", "F_3", "height_2")
        )
        self.assertEqual(sql.labels(query, names)[:4], ("flight", "constant1", "flight_2", "height"))
        self.assertEqual(sql.labels(Query.never(2), names), ("column0", "column1"))
        self.assertEqual(sql.labels(Query.never(0), names), ())

    def test_statement(self):
        names = Names((Table("flight", ("number", "site")), Table("burst", ("flight", "height"))))
        query = parse_query("ans(v0, v1, 7) :- flight(v0, 7), burst(v0, v1)", names)
        text = sql.statement(query, names, {0: "f"}, decode=lambda number: f"site {number}")
        self.assertEqual(
            text,
            'SELECT DISTINCT t1."number" AS "f", t2."height" AS "height", \'site 7\' AS "constant2"\n'
            'FROM "flight" AS t1, "burst" AS t2\n'
            "WHERE t1.\"site\" = 'site 7'\n"
            '  AND t2."flight" = t1."number"',
        )
        self.assertEqual(sql.statement(Query.never(2), names), 'SELECT NULL AS "column0", NULL AS "column1"\nWHERE 1 = 0')
        with self.assertRaisesRegex(ValueError, "1 names for 3 columns"):
            sql.statement(query, names, columns=["a"])
        with self.assertRaisesRegex(ValueError, "dialect"):
            sql.statement(Query.never(2), names, dialect="oracle")


@context.with_engine
class SQLite(unittest.TestCase):
    def run_on(self, base, definition, form, answers, **options):
        found = base.execute(sql.definition_sql(definition, form, "sqlite", **options))
        columns = [column[0] for column in found.description]
        rows = found.fetchall()
        self.assertEqual(len(rows), len(set(rows)))
        self.assertEqual(columns, list(sql.labels(definition.long, definition.names)) or ["ans"])
        if isinstance(definition.decode(0), Decimal) and definition.long.head_length:
            rows = [tuple(map(Decimal, row)) for row in rows]
        if isinstance(definition.decode(0), date) and definition.long.head_length:
            rows = [tuple(map(date.fromisoformat, row)) for row in rows]
        self.assertEqual(set(rows), wanted(definition, answers))

    def test_random_archives(self):
        answered = 0
        for record, names, kind, rows, asked in cases(1, 24 * MANY, 6):
            decode, word, _ = KINDS[kind]
            base = sqlite3.connect(":memory:")
            for table in names.tables:
                columns = ", ".join(f"{sql.identifier(column)} {word} NOT NULL" for column in table.columns)
                base.execute(f"CREATE TABLE {sql.identifier(table.name)} ({columns})")
            for relation, values in rows:
                marks = ", ".join("?" * len(values))
                shown = [str(v) if isinstance(v, date) else float(v) if isinstance(v, Decimal) else v for v in map(decode, values)]
                base.execute(f"INSERT INTO {sql.identifier(names.tables[relation].name)} VALUES ({marks})", shown)
            for definition, form, answers in asked:
                self.run_on(base, definition, form, answers)
                self.run_on(base, definition, form, answers, without_null=True)
                answered += bool(answers)
            base.close()
        self.assertGreater(answered, 20)

    def test_larger_databases(self):
        """Thousands of rows, repeats among them, and queries whose rows are tied together; with all memory, and with little."""
        rng, answered = random.Random(14), 0
        for _ in range(12 * MANY):
            widths = [rng.randint(1, 4) for _ in range(rng.randint(1, 3))]
            names, n = Names.default(widths), rng.choice([300, 1000, 3000])
            rows = [(r, tuple(rng.randrange(n // rng.randint(1, 3)) for _ in range(widths[r]))) for r in rng.choices(range(len(widths)), k=n)]
            rows += rng.choices(rows, k=n // 4)
            base = sqlite3.connect(":memory:")
            for table in names.tables:
                base.execute(f"CREATE TABLE {table.name} ({', '.join(table.columns)})")
            for r, values in rows:
                base.execute(f"INSERT INTO R{r} VALUES ({', '.join('?' * len(values))})", values)
            for query in [self.tied(rng, widths, n) for _ in range(4)]:
                record = Record.open(widths).put(0, query)
                found = sorted(base.execute(sql.statement(query, names)))
                found = [()] * len(found) if not query.head else found
                answered += bool(found)
                self.assertEqual(record.evaluate(0, rows), found)
                self.assertEqual(record.count(0, rows), len(found))
                with mock.patch.object(engine, "AMPLE_WORDS", rng.choice([0, 100, 1000])):
                    self.assertEqual(record.evaluate(0, rows), found)
            base.close()
        self.assertGreater(answered, 24)

    def tied(self, rng, widths, values):
        """A query of a few rows, each of which has a variable of an earlier one."""
        rows, used = [], []
        for number in range(rng.randint(1, 4)):
            relation = rng.randrange(len(widths))
            entries = [Variable(8 * number + column) for column in range(widths[relation])]
            for column in range(len(entries)):
                if rng.random() < 0.1:
                    entries[column] = Constant(rng.randrange(values))
                elif used and rng.random() < 0.1:
                    entries[column] = rng.choice(used)
            if used:
                entries[rng.randrange(len(entries))] = rng.choice(used)
            rows.append(Row(relation, tuple(entries)))
            used += [entry for entry in entries if isinstance(entry, Variable)]
        used = used or [Constant(3)]
        return Query(tuple(rng.choice(used) for _ in range(rng.randint(0, 3))), tuple(rows))

    def test_sample(self):
        record = Record.read(context.SAMPLES / "flights.file")
        names = read_names((context.SAMPLES / "flights.names").read_text(), "names")
        base = sqlite3.connect(":memory:")
        self.addCleanup(base.close)
        for table in names.tables:
            base.execute(f"CREATE TABLE {table.name} ({', '.join(table.columns)})")
        base.execute("INSERT INTO flight VALUES (101, 9001, 7, 20260114)")
        base.execute("INSERT INTO sonde VALUES (9001, 31, 4)")
        base.execute("INSERT INTO calibration VALUES (31, 2, 2)")
        base.execute("INSERT INTO burst VALUES (101, 31200)")
        for place, answers in [(0, [(101, 31200)]), (1, [(101, 31200, 31200)]), (2, [(101, 2, 2)]), (3, []), (6, [])]:
            for form in sql.FORMS:
                found = base.execute(sql.definition_sql(define(record, names, place), form))
                self.assertEqual(found.fetchall(), answers)
            if place == 1:
                self.assertEqual([column[0] for column in found.description], ["f", "low", "high"])

    def test_null(self):
        """With NULLs in the tables the plain statements part; without_null brings them together."""
        record = Record.open([2]).put(0, parse_query("ans(x) :- R0(x, y), R0(x, z)", Names.default([2])))
        names = Names.default([2])
        base = sqlite3.connect(":memory:")
        self.addCleanup(base.close)
        base.execute("CREATE TABLE R0 (a, b)")
        base.executemany("INSERT INTO R0 VALUES (?, ?)", [(1, 2), (None, 3), (4, None)])
        found = {}
        for form in sql.FORMS:
            for flag in (False, True):
                text = sql.definition_sql(define(record, names, 0), form, without_null=flag)
                found[form, flag] = set(base.execute(text))
        self.assertNotEqual(found["long", False], found["short", False])
        self.assertEqual(found["long", True], {(1,)})
        self.assertEqual(found["short", True], {(1,)})

    def test_missing_column(self):
        """SQLite reads a quoted name that it does not know as text; a column of a table it never does."""
        names = Names((Table("flight", ("number", "nowhere")),))
        query = parse_query("ans(y) :- flight(x, y)", names)
        base = sqlite3.connect(":memory:")
        self.addCleanup(base.close)
        base.execute("CREATE TABLE flight (number, site)")
        with self.assertRaisesRegex(sqlite3.OperationalError, "no such column"):
            base.execute(sql.statement(query, names))


def program(name):
    """Where a program of PostgreSQL is."""
    found = shutil.which(name) or next(iter(sorted(glob.glob(f"/usr/lib/postgresql/*/bin/{name}"), reverse=True)), None)
    return found


def server_user():
    """PostgreSQL does not run as root: another user to run it as; None for oneself."""
    if os.geteuid() != 0:
        return None
    users = {entry.pw_name for entry in pwd.getpwall()}
    return next((name for name in ("postgres", "nobody") if name in users), "")


PROGRAMS = {name: program(name) for name in ("initdb", "pg_ctl", "psql")}
WHY = "PostgreSQL is not installed: " + ", ".join(name for name, path in PROGRAMS.items() if path is None)


@context.with_engine
@unittest.skipIf(None in PROGRAMS.values(), WHY)
@unittest.skipIf(server_user() == "", "PostgreSQL does not run as root, and there is no user postgres or nobody")
class PostgreSQL(unittest.TestCase):
    @classmethod
    def setUpClass(cls):
        # In /tmp, which every user can reach; the path of a socket is short.
        folder = tempfile.TemporaryDirectory(prefix="pg", dir="/tmp")
        cls.addClassCleanup(folder.cleanup)
        cls.folder = folder.name
        cls.user = server_user()
        if cls.user:
            os.chmod(folder.name, 0o755)
            os.chown(folder.name, pwd.getpwnam(cls.user).pw_uid, -1)
        data = str(Path(folder.name) / "data")
        cls.call(PROGRAMS["initdb"], "-D", data, "-U", "tester", "-A", "trust", "-N", "-E", "UTF8", "--locale=C")
        settings = f"-k {folder.name} -c listen_addresses='' -c fsync=off -c jit=off -c statement_timeout=20s -c max_connections=4"
        server = [PROGRAMS["pg_ctl"], "-D", data, "-s", "-w", "-l", f"{folder.name}/log"]
        cls.call(*server, "-o", settings, "start")
        cls.addClassCleanup(cls.call, *server, "-m", "immediate", "stop")

    @classmethod
    def call(cls, *command, text=None):
        options = {"user": cls.user} if cls.user else {}
        done = subprocess.run(
            command, input=text, stdout=subprocess.PIPE, stderr=subprocess.STDOUT, encoding="utf-8", cwd=cls.folder,
            env={"PATH": os.environ.get("PATH", ""), "PGCLIENTENCODING": "UTF8", "PGTZ": "UTC"}, **options,
        )
        if done.returncode:
            raise AssertionError(f"{command[0]}: {done.stdout}")
        return done.stdout

    def results(self, script):
        """The columns and rows of each statement that `\\echo @@name` stands above."""
        flags = ["-h", self.folder, "-U", "tester", "-d", "postgres", "-X", "-q", "--csv", "-v", "ON_ERROR_STOP=1", "-f", "-"]
        out = self.call(PROGRAMS["psql"], *flags, text=script)
        found = {}
        for row in csv.reader(io.StringIO(out, newline="")):
            if row and row[0].startswith("@@"):
                found[row[0]] = rows = []
            else:
                rows.append(tuple(row) if row else ("",))
        return {name: (rows[0], rows[1:]) for name, rows in found.items()}

    def test_random_archives(self):
        script, expected = [], {}
        for turn, (record, names, kind, rows, asked) in enumerate(cases(2, 12 * MANY, 5)):
            decode, _, word = KINDS[kind]
            script.append(f"CREATE SCHEMA s{turn}; SET search_path = s{turn};")
            for table in names.tables:
                columns = ", ".join(f"{sql.identifier(column)} {word} NOT NULL" for column in table.columns)
                script.append(f"CREATE TABLE {sql.identifier(table.name)} ({columns});")
            for relation, values in rows:
                shown = ", ".join(sql.literal(decode(value), "postgresql") for value in values)
                script.append(f"INSERT INTO {sql.identifier(names.tables[relation].name)} VALUES ({shown});")
            for number, (definition, form, answers) in enumerate(asked):
                name = f"@@{turn}.{number}"
                text = sql.definition_sql(definition, form, "postgresql")
                script.append(f"\\echo {name}\n{text};")
                expected[name] = definition, answers, text
        found = self.results("\n".join(script) + "\n")
        self.assertEqual(set(found), set(expected))
        for name, (definition, answers, text) in expected.items():
            columns, rows = found[name]
            labels = sql.labels(definition.long, definition.names) or ("ans",)
            self.assertEqual(columns, labels)
            self.assertEqual(len(rows), len(set(rows)))
            shown = {tuple(map(str, row)) for row in wanted(definition, answers)}
            self.assertEqual(set(rows), shown, text)
        self.assertGreater(sum(bool(answers) for _, answers, _ in expected.values()), 12)

    def test_largest_query(self):
        """12 rows of 8 columns, with a backslash in a text whatever the server takes it for."""
        names = Names((Table("wide", tuple("abcdefgh")),))
        rows = ", ".join(f"wide({', '.join(f'x{8 * i + j}' if j else f'y{i}' for j in range(8))})" for i in range(11))
        query = parse_query(f"ans({', '.join(f'y{i}' for i in range(7))}, 1) :- {rows}, wide(1, y0, y1, y2, y3, y4, y5, y6)", names)
        text = sql.statement(query, names, decode=lambda number: "a\\'b", dialect="postgresql")
        values = "'p','q','r','s','t','u','v','w'"
        others = ", ".join(f"('{one}', '', '', '', '', '', '', '')" for one in "qrstuvw")
        script = f"""
            SET geqo_threshold = 6;
            CREATE TABLE wide (a text, b text, c text, d text, e text, f text, g text, h text);
            INSERT INTO wide VALUES (E'a\\\\''b', 'q', 'r', 's', 't', 'u', 'v', 'w'), ({values}), {others};
            \\echo @@on
            {text};
            SET standard_conforming_strings = off; SET escape_string_warning = off;
            \\echo @@off
            {text};
        """
        answer = ("q", "r", "s", "t", "u", "v", "w", "a\\'b")
        for columns, found in self.results(script).values():
            self.assertEqual(found, [answer])


if __name__ == "__main__":
    unittest.main()
