"""Databases from files: rows of text, CSV files, SQLite.

The tables and columns of a CSV folder or an SQLite file are matched by name: as it is written, or else
without regard to case and to signs that cannot stand in a name. Further tables and columns are left
aside.
"""

from __future__ import annotations

import csv
import os
import re
import sqlite3
import warnings
from array import array
from contextlib import contextmanager
from dataclasses import dataclass
from functools import partial
from itertools import islice
from typing import Any, Callable, Dict, Iterable, Iterator, List, NoReturn, Optional, Pattern, Sequence, TextIO, Tuple, Union
from urllib.parse import quote

from .data import CHUNK, Absent, Cells, Cures, Database, DataError, Note, Progress, Where, column_of, matched, positions, read_row_value, uncollected
from .files import Path, is_utf8, kind_of, read_bytes, read_while, shown, text_of
from .model import Words
from .notation import Names, Reader, Table, Token, count, format_row
from .record import Asked, Record
from .values import Null, Value, format_value, plain, read_cell, read_cell_with_comma


@dataclass(frozen=True)
class Csv:
    """How CSV files are read: the columns whose cells stay texts, the sign of decimals, and the one between cells if it is said."""

    text: Iterable[str] = ()
    decimal: str = "."
    separator: Optional[str] = None

    def __post_init__(self) -> None:
        if self.decimal not in (".", ","):
            raise ValueError(f"the decimal sign must be . or ,, not {self.decimal!r:.40}")
        if self.separator is not None and (len(self.separator) != 1 or self.separator in '"\r\n\0 '):
            raise ValueError(f"the separator must be one sign, such as ; or a tabulator, not {self.separator!r:.40}")

    def reader(self, names: Names, relation: int, column: int) -> Callable[[str], Value]:
        """How the cells of a column are read."""
        if (relation, column) in [column_of(kept, names) for kept in self.text]:
            return str
        return read_cell if self.decimal == "." else read_cell_with_comma


def read_database(
    paths: Union[Path, Sequence[Path]],
    names: Union[Record, Names],
    null: Absent = None,
    text: Iterable[str] = (),
    progress: Optional[TextIO] = None,
    decimal: str = ".",
    separator: Optional[str] = None,
    query: Optional[Asked] = None,
) -> Database:
    """The database of a file or some files, for a record or its names: rows of text, CSV files or folders of them, SQLite files.

    `null` is what an absent value stands for, or a dict of that by columns, as `{'flight.site': 'x'}`, with None
    for the others; without it, one is refused. `text` has columns of CSV files, as `sonde.version`, whose cells stay
    texts also where they look like numbers; `decimal` may be a comma; `separator` is the sign between cells, if the
    header does not tell. For a `query` of a record, what cannot change its answers need not be sound. `progress` is a
    stream for a line that says how far it is, if it is a terminal. A cell that may be meant otherwise than it is
    taken is a warning, and one of the database's `notes`.
    """
    if query is not None and not isinstance(names, Record):
        raise ValueError("a query goes with a record, not with names alone")
    needed = names.needed(query) if isinstance(names, Record) and query is not None else None
    database = Database(names if isinstance(names, Names) else names.names, None, null, Progress(progress), needed)
    database.cures = Cures("say what it stands for with null=VALUE")
    fill(database, paths, Csv(tuple(text), decimal, separator))
    for note in database.notes:
        warnings.warn(note.text, stacklevel=2)
    return database


def read_for_command(
    paths: Sequence[Path], record: Record, null: Absent, csv_form: Csv, progress: Optional[TextIO], query: Optional[Asked] = None
) -> Database:
    """The same for the command, whose messages name its options, and which says the notes itself."""
    database = Database(record.names, None, null, Progress(progress), None if query is None else record.needed(query))
    null_cure = "say what it stands for with --null VALUE, or --null TABLE.COLUMN=VALUE for one column"
    database.cures = Cures(null_cure, "say --text {}", "say --decimal ,", "say --separator SIGN")
    fill(database, paths, csv_form)
    return database


def fill(database: Database, paths: Union[Path, Sequence[Path]], csv_form: Csv = Csv()) -> None:
    """Reads files into a database."""
    database.from_files = True
    for name in csv_form.text:
        column_of(name, database.names)
    try:
        with uncollected():
            for path in [paths] if isinstance(paths, (str, os.PathLike)) else paths:
                _read(path, database, csv_form)
    finally:
        database.progress.done()


def _read(path: Path, database: Database, csv_form: Csv) -> None:
    name = os.fspath(path)
    if name != "-" and os.path.isdir(name):
        _read_folder(name, database, csv_form)
        return
    if name.lower().endswith(".csv"):
        relation = _relation(name, database.names)
        if relation is None:
            known = ", ".join(f"{table.name}.csv" for table in database.names.tables)
            raise DataError(f"{name}: the archive has no table of that name; a CSV file is called {known}")
        database.read(relation, partial(read_csv, name, relation, database, csv_form))
        return
    data, other = read_while(path, 16, lambda start: start != b"SQLite format 3\0")
    if not other:
        if name == "-":
            raise DataError("an SQLite file cannot be read from standard input; give its name")
        read_sqlite(name, database)
        return
    if not data and name != "-":
        raise DataError(f"{name}: the file is empty; for no rows at all give a line such as # no rows, or a CSV file with its header line alone")
    kind = kind_of(data)
    if kind is not None:
        raise DataError(f"{shown(path)}: this is {kind}; a database is rows of text, a CSV file or a folder of those, or an SQLite file")
    if b"\0" in data[:1024]:
        raise DataError(f"{shown(path)}: these are neither rows of text, nor CSV, nor an SQLite file")
    text = text_of(data, path)
    if _like_csv(text):
        known = ", ".join(f"{table.name}.csv" for table in database.names.tables)
        raise DataError(f"{shown(path)}: this looks like CSV and not like rows of text; a CSV file is called {known}")
    read_rows(text, shown(path), database)


# ---- rows of text

_ITEM = r"""('(?:[^'\n]|'')*'|"(?:[^"\\\n]|\\[^\n])*"|-?[0-9][0-9.eE+-]*|[nN][uU][lL][lL])"""
_NAME = re.compile(r"[ \t]*([^\W\d]\w*)")
_ENDS = r"[ \t]*(?:\#[^\n]*)?(?:\n|\Z)"
_NO_ROW = re.compile(_ENDS)


def _row_pattern(table: Table) -> Pattern[str]:
    """A row of a table that stands in one line."""
    items = r"[ \t]*,[ \t]*".join([_ITEM] * len(table.columns))
    return re.compile(rf"[ \t]*{table.name}[ \t]*\([ \t]*{items}[ \t]*\){_ENDS}")


def _like_csv(text: str) -> bool:
    """Whether the first line that is not empty has cells and no parenthesis, as every row of text has."""
    at = 0
    while at < len(text):
        end = text.find("\n", at)
        end = len(text) if end < 0 else end
        line = text[at:end].partition("#")[0].strip()
        if line:
            return "(" not in line and any(sign in line for sign in ",;\t")
        at = end + 1
    return False


class _Rows:
    """Rows of text, coded a chunk of a table at a time; `end` adds them to the database, if all are sound."""

    def __init__(self, source: str, database: Database) -> None:
        self._source, self._database = source, database
        self._tables = [_Chunk(relation, database) for relation in range(len(database.names.tables))]
        self._read: List[Tuple[int, List[Words], Where]] = []
        # Why a table that is not needed is left out.
        self._left_out: Dict[int, str] = {}

    def add(self, relation: int, rows: Sequence[Tuple[str, ...]], lines: Iterable[int]) -> None:
        """More rows of a table. ValueError if a value of a full chunk is none."""
        chunk = self._tables[relation]
        chunk.rows.extend(rows)
        chunk.lines.extend(lines)
        if len(chunk.rows) >= CHUNK:
            self._code(relation)

    def _code(self, relation: int) -> None:
        chunk = self._tables[relation]
        rows, lines = chunk.rows, chunk.lines
        chunk.rows, chunk.lines = [], array("I")
        if relation in self._left_out:
            return
        words = []
        for column, (reader, cells) in enumerate(zip(chunk.readers, zip(*rows))):
            try:
                words.append(reader.column(cells))
            except ValueError:
                if self._database.needs(relation):
                    raise
                position, error = reader.fault(cells)
                label = self._database.names.tables[relation].columns[column]
                self._left_out[relation] = f"{self._source}:{lines[position]}: column {label}: {error}; {self._database.cures.null}"
                return
        self._read.append((relation, words, _line_of(self._source, lines)))
        chunk.count += len(rows)
        self._database.progress.at(self._database.names.tables[relation].name, chunk.count)

    def end(self) -> None:
        """There are no more rows."""
        for relation, chunk in enumerate(self._tables):
            if chunk.rows:
                self._code(relation)
        for relation, words, where in self._read:
            if relation not in self._left_out:
                self._database.add(relation, words, where)
        for relation, why in self._left_out.items():
            self._database.leave_out(relation, why)


class _Chunk:
    """Rows of one table with their lines, and the readers of its columns."""

    def __init__(self, relation: int, database: Database) -> None:
        width = len(database.names.tables[relation].columns)
        self.readers = [database.cells(relation, column, read_row_value) for column in range(width)]
        self.rows: List[Tuple[str, ...]] = []
        self.lines: Words = array("I")
        self.count = 0


def read_rows(text: str, source: str, database: Database) -> None:
    """Rows, one a line: `flight(101, 'Lindenberg', 2026-01-14)`."""
    for relation in range(len(database.names.tables)):
        database.has(relation)
    if not _read_simple_rows(text, source, database):
        _read_any_rows(text, source, database)


def _read_simple_rows(text: str, source: str, database: Database) -> bool:
    """The rows of a text in which each stands in one line; False, and none is added, if it is another text."""
    tables = database.names.tables
    numbers = {table.name: relation for relation, table in enumerate(tables)}
    patterns: List[Any] = list(map(_row_pattern, tables))  # whose scanner has no declared type
    rows = _Rows(source, database)
    at, line = 0, 1
    try:
        while at < len(text):
            name = _NAME.match(text, at)
            if name is None:
                empty = _NO_ROW.match(text, at)
                if empty is None:
                    return False
                at, line = empty.end(), line + 1
                continue
            relation = numbers[name.group(1)]
            # Rows of one table that follow one another.
            found: List[Any] = list(islice(iter(patterns[relation].scanner(text, at).match, None), CHUNK))
            if not found:
                return False
            rows.add(relation, [one.groups() for one in found], range(line, line + len(found)))
            at, line = found[-1].end(), line + len(found)
        rows.end()
    except (KeyError, ValueError):
        return False
    return True


def _line_of(source: str, lines: Words) -> Where:
    return lambda row: f"{source}:{lines[row]}"


def _read_any_rows(text: str, source: str, database: Database) -> None:
    """The rows of any text, one after another, with an error that says where."""
    reader = Reader(text, source)
    names = database.names
    rows = _Rows(source, database)

    def literal() -> Token:
        """The next value as it is written, or NULL."""
        token = reader.next
        if token.kind == "name" and token.text.upper() == "NULL":
            return reader.take("name")
        reader.value("a value")
        return token

    while not reader.at_end():
        token = reader.next
        relation = names.relation(reader)
        literals = reader.listed(literal)
        table = names.tables[relation]
        if len(literals) != len(table.columns):
            raise reader.error(token, f"{table} has {count(len(table.columns), 'column')}, not {len(literals)}")
        for column, held in enumerate(literals):
            if held.kind == "name" and database.needs(relation) and database.null(relation, column) is None:
                raise reader.error(held, f"there is no value here (NULL); {database.cures.null}")
        reader.line_ends()
        rows.add(relation, [tuple(held.text for held in literals)], [token.line])
    rows.end()


# ---- CSV


def _relation(path: str, names: Names) -> Optional[int]:
    """The table that a CSV file is called after."""
    stem = os.path.splitext(os.path.basename(path))[0]
    return matched(stem, [table.name for table in names.tables], path)


def _read_folder(folder: str, database: Database, csv_form: Csv) -> None:
    """The CSV files of a folder, a table each."""
    found: Dict[int, str] = {}
    for name in sorted(os.listdir(folder)):
        if not name.lower().endswith(".csv"):
            continue
        relation = _relation(name, database.names)
        if relation is None:
            continue
        if relation in found:
            raise DataError(f"{folder}: {found[relation]} and {name} are both for the table {database.names.tables[relation].name}")
        found[relation] = name
    if not found:
        known = ", ".join(f"{table.name}.csv" for table in database.names.tables)
        raise DataError(f"{folder}: there is no CSV file of a table of the archive here; it may have {known}")
    for relation, name in sorted(found.items()):
        database.read(relation, partial(read_csv, os.path.join(folder, name), relation, database, csv_form))


def read_csv(path: str, relation: int, database: Database, csv_form: Csv = Csv()) -> None:
    """A CSV file with a header line, as rows of a table. Cells go by , or ; or a tabulator, as the header does, unless it is said."""
    table = database.names.tables[relation]
    database.has(relation)
    sign = ","
    readers = [database.cells(relation, column, csv_form.reader(database.names, relation, column)) for column in range(len(table.columns))]
    try:
        with open(path, encoding="utf-8-sig", newline="") as file:
            first = file.readline()
            sign = csv_form.separator or _delimiter(first, table, path)
            header: List[str] = next(_csv_rows([first], sign), [])
            if not header:
                raise DataError(f"{path}:1: a header line with the names of the columns was expected, not an empty line")
            if all(matched(column, header, f"{path}:1") is None for column in table.columns):
                signs = ", or ; or a tabulator" if csv_form.separator is None else repr(sign)
                raise DataError(
                    f"{path}:1: no column of {table} is here; the first line has their names, with {signs} between them; "
                    f"for another sign {database.cures.separator}"
                )
            at = positions(table.columns, header, f"{path}:1")
            reader = _csv_rows(file, sign)
            start = 0
            while True:
                rows = list(islice(reader, CHUNK))
                if not rows:
                    break
                if set(map(len, rows)) != {len(header)}:
                    rows = _sound_rows(rows, len(header), path, sign, start)
                columns = list(zip(*rows)) if rows else [()] * len(header)
                words = []
                for column, (number, cells) in enumerate(zip(at, readers)):
                    known = set(cells.doubts)
                    try:
                        words.append(cells.column(columns[number]))
                    except ValueError:
                        position, error = cells.fault(columns[number])
                        where = _csv_place(path, sign, start + position)
                        _refuse(f"{where}: column {table.columns[column]}", error, f"the cell is empty (NULL); {database.cures.null}")
                    for cell, said in [cells.doubts[kind] for kind in cells.doubts if kind not in known]:
                        where = _csv_place(path, sign, start + columns[number].index(cell))
                        taken = f"{where}: {cell.strip()} in {table.name}.{table.columns[column]} is taken as a text; {said}"
                        comma = "," in cell and csv_form.decimal == "."
                        _note(database, relation, column, taken, f"; if the comma is that of a decimal, {database.cures.comma}" if comma else "")
                if rows:
                    database.add(relation, words, _csv_where(path, sign, start))
                start += len(rows)
    except UnicodeDecodeError:
        text_of(read_bytes(path), path)
        raise
    except csv.Error as error:
        raise DataError(f"{path}:{_csv_error_line(path, sign)}: {_csv_error(str(error))}") from None
    for column, cells in enumerate(readers):
        if cells.same is not None:
            one, other = cells.same
            same = f"{one} and {other} are one number in {table.name}.{table.columns[column]}"
            _note(database, relation, column, f"{path}: {same}; if they are no numbers")


def _note(database: Database, relation: int, column: int, text: str, further: str = "") -> None:
    """Notes what may be meant otherwise in a column of CSV, with the cure."""
    table = database.names.tables[relation]
    cure = database.cures.text.format(f"{table.name}.{table.columns[column]}")
    database.notes.append(Note(relation, f"{text}, {cure}{further}"))


def _delimiter(header: str, table: Table, path: str) -> str:
    """The sign between cells: the one by which the header has the table's columns, else a comma."""
    for sign in ",;\t":
        labels: List[str] = next(csv.reader([header], delimiter=sign, skipinitialspace=True), [])
        if all(matched(column, labels, f"{path}:1") is not None for column in table.columns):
            return sign
    return ";" if ";" in header and "," not in header else ","


def _csv_rows(lines: Iterable[str], sign: str) -> Iterator[List[str]]:
    """The rows of CSV; a quote that does not end, or that a cell goes on after, is an error."""
    return csv.reader(lines, delimiter=sign, skipinitialspace=True, strict=True)


def _csv_error(words: str) -> str:
    """What to say of an error of the csv module."""
    if "unexpected end" in words:
        return 'a quote " that begins in this row does not end'
    if "expected after" in words:
        return 'a cell goes on after the quote " that ends it; a quote inside a quoted cell is written twice'
    if "field limit" in words:
        return f'a cell has more than {csv.field_size_limit()} characters; a quote " may be missing'
    return words


def _rows_of(path: str, sign: str) -> Iterable[Tuple[int, List[str]]]:
    """The rows of a CSV file after its header that are not empty, each with the line on which it begins."""
    with open(path, encoding="utf-8-sig", newline="") as file:
        file.readline()
        reader = csv.reader(file, delimiter=sign, skipinitialspace=True)
        line = 2
        for row in reader:
            if row:
                yield line, row
            line = reader.line_num + 2


def _csv_place(path: str, sign: str, row: int) -> str:
    """Where row n begins: the file and the line, unless the file has changed since."""
    try:
        line, _ = next(islice(_rows_of(path, sign), row, None))
    except (OSError, StopIteration, csv.Error, UnicodeDecodeError):
        return f"{path}: row {row + 1}, of a file that has changed since"
    return f"{path}:{line}"


def _csv_where(path: str, sign: str, start: int) -> Where:
    return lambda row: _csv_place(path, sign, start + row)


def _csv_error_line(path: str, sign: str) -> int:
    """The line on which the first row begins that is no CSV."""
    line = 1
    with open(path, encoding="utf-8-sig", newline="") as file:
        try:
            next(_csv_rows([file.readline()], sign), [])
            line = 2
            reader = csv.reader(file, delimiter=sign, skipinitialspace=True, strict=True)
            for _ in reader:
                line = reader.line_num + 2
        except csv.Error:
            pass
    return line


def _sound_rows(rows: List[List[str]], width: int, path: str, sign: str, start: int) -> List[List[str]]:
    """The rows that are not empty; an error if one has another number of cells than the header."""
    held = [row for row in rows if row]
    for position, row in enumerate(held):
        if len(row) != width:
            cure = "; a cell with a comma in it stands between quotes" if sign == "," and len(row) > width else ""
            raise DataError(f"{_csv_place(path, sign, start + position)}: the row has {count(len(row), 'cell')}, the header {width}{cure}")
    return held


def _refuse(where: str, error: ValueError, absent: str) -> NoReturn:
    """Raises the error of a value, with its place; `absent` says that there is none, and the cure."""
    if isinstance(error, Null):
        raise DataError(f"{where}: {absent}") from None
    raise DataError(f"{where}: {error}") from None


# ---- SQLite


def _quoted(name: str) -> str:
    return '"' + name.replace('"', '""') + '"'


@contextmanager
def _sqlite_errors(path: str) -> Iterator[None]:
    """Errors of SQLite as errors of the data."""
    try:
        yield
    except sqlite3.Error as error:
        raise DataError(f"{path}: SQLite says: {error}{_sqlite_cure(path, str(error))}") from None


def _sqlite_cure(path: str, words: str) -> str:
    """What to do about an error of SQLite, where that is known."""
    if "locked" in words:
        return "; another program is writing it: try again when that is done"
    if "readonly" in words and os.path.exists(f"{path}-journal"):
        return "; a program that wrote it was interrupted: open it once with a program that may write it, as sqlite3, which undoes what is half written"
    if "readonly" in words or "unable to open" in words:
        return "; if it is in WAL mode, SQLite makes files beside it to read it: copy it to a folder that can be written"
    return ""


def read_sqlite(path: str, database: Database) -> None:
    """The tables of an SQLite file that the archive has. Nothing is written to it."""
    with _sqlite_errors(path):
        connection = sqlite3.connect(f"file://{quote(os.path.abspath(os.fsencode(path)))}?mode=ro", uri=True)
        try:
            # One transaction, so that every table is as it was at one moment.
            connection.isolation_level = None
            connection.execute("BEGIN")
            _read_connection(connection, path, database)
        finally:
            connection.close()


def _read_connection(connection: sqlite3.Connection, path: str, database: Database) -> None:
    there = [row[0] for row in connection.execute("SELECT name FROM sqlite_master WHERE type IN ('table', 'view') ORDER BY name")]
    found = [(relation, matched(table.name, there, path)) for relation, table in enumerate(database.names.tables)]
    if all(number is None for _, number in found):
        raise DataError(f"{path}: no table of the archive is here; there is {', '.join(there) or 'none'}")
    for relation, number in found:
        if number is not None:
            database.read(relation, partial(_read_sqlite_table, connection, path, there[number], relation, database))


def _read_sqlite_table(connection: sqlite3.Connection, path: str, name: str, relation: int, database: Database) -> None:
    with _sqlite_errors(path):
        table = database.names.tables[relation]
        # Computed columns are among these, and not in what PRAGMA table_info gives.
        labels = [column[0] for column in connection.execute(f"SELECT * FROM {_quoted(name)} LIMIT 0").description]
        wanted = [labels[number] for number in positions(table.columns, labels, f"{path}: table {name}")]
        database.has(relation)
        readers: List[Cells] = [database.cells(relation, column, plain) for column in range(len(wanted))]
        select = f"SELECT {', '.join(map(_quoted, wanted))} FROM {_quoted(name)}"
        cursor = connection.execute(select)
        start = 0
        while True:
            try:
                rows = cursor.fetchmany(CHUNK)
            except sqlite3.OperationalError:
                _refuse_bytes(connection, select, path, name, wanted)
                raise
            if not rows:
                return
            words = []
            for column, (cells, reader) in enumerate(zip(zip(*rows), readers)):
                try:
                    words.append(reader.column(cells))
                except ValueError:
                    position, error = reader.fault(cells)
                    row = format_row(name, [_said(value) for value in rows[position]])
                    _refuse(f"{path}: row {start + position + 1} of {name}, column {wanted[column]}", error, f"NULL in {row}; {database.cures.null}")
            database.add(relation, words, _sqlite_where(path, name, start))
            start += len(rows)


def _refuse_bytes(connection: sqlite3.Connection, select: str, path: str, name: str, wanted: Sequence[str]) -> None:
    """Raises an error for the first text that is not UTF-8, which SQLite keeps as it is given; if there is none, does nothing."""
    connection.text_factory = lambda text: "" if is_utf8(text) else bytearray(text)  # bytes are a BLOB
    for number, row in enumerate(connection.execute(select)):
        for label, cell in zip(wanted, row):
            if isinstance(cell, bytearray):
                raise DataError(f"{path}: row {number + 1} of {name}, column {label}: the text {bytes(cell)!r:.40} is not UTF-8")


def _sqlite_where(path: str, name: str, start: int) -> Where:
    return lambda row: f"{path}: row {start + row + 1} of {name}"


def _said(value: object) -> str:
    """A value of SQLite in a message."""
    if value is None:
        return "NULL"
    return format_value(value) if isinstance(value, (int, str)) else f"{value!r:.20}"
