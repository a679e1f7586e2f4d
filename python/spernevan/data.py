"""Databases: rows of values, coded to the words that the engine takes.

A Database is filled a chunk of columns at a time, so that a cell costs no Python object where that can
be had, and remembers where each row came from. `of_python` makes one from lists, pandas or numpy;
sources.py reads files.
"""

from __future__ import annotations

import gc
import re
import threading
import time
from array import array
from bisect import bisect_right
from contextlib import contextmanager
from datetime import date
from decimal import Decimal
from functools import partial
from math import isfinite
from operator import itemgetter
from types import MappingProxyType
from typing import AbstractSet, Any, Callable, Dict, Iterable, Iterator, List, Mapping, NamedTuple, Optional, Sequence, Set, TextIO, Tuple, Union

from .files import Failure
from .model import Constant, Query, Words
from .notation import Names, Table, count, format_datum
from .values import FIRST_CODE, Doubt, Null, Value, Values, bare, doubt, kind_of_doubt, plain, read_cell, read_cell_with_comma, read_literal

CHUNK = 50_000

# What an absent value stands for: one value, or one for each column, as {'flight.site': 'x'}; under None, for the other columns.
Absent = Union[Value, Mapping[Optional[str], Value], None]

# The columns that can change what a query answers, by the tables that it asks for.
Needed = Mapping[int, AbstractSet[int]]

# Where row n of a block stands, for a message.
Where = Callable[[int], str]


class DataError(ValueError):
    """A database that cannot be read; the message says where."""


class Block(NamedTuple):
    """Rows of one table from one place: the position of the first row, its first word, and where each stands."""

    first: int
    word: int
    relation: int
    where: Where


class Stands(NamedTuple):
    """A row of a database, and where it stands."""

    where: str
    relation: int
    values: Tuple[Value, ...]


class Note(NamedTuple):
    """What a person should know of how a table was read; without a table, whatever is asked for."""

    relation: Optional[int]
    text: str


class Cures(NamedTuple):
    """What a message says to do about an absent value, numbers meant as texts, a decimal comma, and another sign between cells."""

    null: str = "say what it stands for, as in record.database(data, null=0)"
    text: str = "give text=['{}']"
    comma: str = "give decimal=','"
    separator: str = "give separator='..'"


class Form:
    """How the values of a column were given, so that answers come out as they went in."""

    def __init__(self) -> None:
        # The types of the cells; object for cells that have no type.
        self.types: Set[type] = set()
        # The numbers of cells without types, by their words, as they were first written, with a point.
        self.written: Dict[int, str] = {}
        # The numbers that were given as Decimal, and whole ones that were given as float or bool.
        self.given: Dict[int, Value] = {}

    def kind(self) -> Optional[type]:
        """The type of every cell, if they have one; what an absent one stands for is taken as that."""
        held = self.types - {type(None)}
        return next((kind for kind in (float, Decimal, bool, str) if held and all(issubclass(one, kind) for one in held)), None)


class Shown(Dict[int, Value]):
    """What the words of a column stand for, in the form in which they were given there; without a form, as the dictionary has them."""

    def __init__(self, values: Values, form: Optional[Form]) -> None:
        super().__init__()
        self._values, self._form = values, form or Form()
        self._kind = self._form.kind()

    def __missing__(self, word: int) -> Value:
        found = self[word] = self._as_given(word, self._values.decode(word))
        return found

    def learn(self, words: AbstractSet[int]) -> None:
        """Takes up what words stand for, many at once: a text is shown as it is in every column."""
        self.update((word, value) for word, value in zip(words, map(self._values.decode, words)) if type(value) is str)

    def _as_given(self, word: int, value: Value) -> Value:
        if isinstance(value, (int, Decimal)):
            written = self._form.written.get(word)
            if written is not None:
                return value if written.lstrip("-").isdigit() else Decimal(written)
            if word in self._form.given:
                return self._form.given[word]
            if self._kind is float or float in self._form.types and isinstance(value, Decimal):
                return float(value)
            if self._kind is Decimal:
                return Decimal(value)
            return bool(value) if self._kind is bool and value in (0, 1) else value
        return bare(value) if isinstance(value, date) and self._kind is str else value


class Database:
    """Rows of the tables of `names`, as words; `values` is the dictionary of their codes, which grows with them.

    `null` is what an absent value stands for. `needed` has what a query can be changed by: an absent value elsewhere in
    its tables is taken as the text '', and another table that cannot be read is left out. Without it all is needed.
    """

    def __init__(
        self,
        names: Names,
        values: Optional[Values] = None,
        null: Absent = None,
        progress: Optional[Progress] = None,
        needed: Optional[Needed] = None,
    ) -> None:
        self.names = names
        self.values = names.values.copy() if values is None else values
        self.words: Words = array("I")
        self.tables: Dict[int, int] = {}
        self.progress = progress or Progress(None)
        self.notes: List[Note] = []
        self.has_cells = False
        self.from_files = False
        self.cures = Cures()
        nulls: Mapping[Optional[str], Value] = null if isinstance(null, Mapping) else {} if null is None else {None: null}
        self._nulls = {None if name is None else column_of(name, names): self.values.encode(value) for name, value in nulls.items()}
        self._needed = needed
        self._blocks: List[Block] = []
        self._firsts: List[int] = []
        self._rows = 0
        self._forms: Dict[Tuple[int, int], Form] = {}

    def __len__(self) -> int:
        """How many rows there are."""
        return self._rows

    def __repr__(self) -> str:
        held = ", ".join(f"{self.names.tables[relation].name} {rows}" for relation, rows in sorted(self.tables.items()))
        return f"<Database of {count(self._rows, 'row')}: {held or 'no table'}>"

    def null(self, relation: int, column: int) -> Optional[int]:
        """The word of what an absent value of a column stands for; None if that is not said and matters."""
        found = self._nulls.get((relation, column), self._nulls.get(None))
        if found is None and self._needed is not None and column not in self._needed.get(relation, (column,)):
            return self.values.encode("")
        return found

    def needs(self, relation: int) -> bool:
        """Whether a table can change what is asked for."""
        return self._needed is None or relation in self._needed

    def covers(self, needed: Needed) -> bool:
        """Whether what is needed has been read as such."""
        return self._needed is None or all(columns <= self._needed.get(relation, frozenset()) for relation, columns in needed.items())

    def leave_out(self, relation: int, why: object) -> None:
        """Notes that a table which is not needed has not been read."""
        self.notes.append(Note(None, f"the table {self.names.tables[relation].name}, which the query does not ask for, is left out: {why}"))

    def read(self, relation: int, fill: Callable[[], None]) -> None:
        """Reads a table by `fill`. If that fails, one that is not needed is left out."""
        before = len(self.words), len(self._blocks), self._rows, dict(self.tables), list(self.notes)
        try:
            fill()
        except (ValueError, Failure, OSError) as error:
            if self.needs(relation):
                raise
            words, blocks, self._rows, self.tables, self.notes = before
            del self.words[words:], self._blocks[blocks:], self._firsts[blocks:]
            self.leave_out(relation, f"{error.filename}: {error.strerror}" if isinstance(error, OSError) else error)

    def has(self, relation: int) -> None:
        """Notes that a table has been read, also one without rows."""
        self.tables.setdefault(relation, 0)

    def add(self, relation: int, columns: Sequence[Words], where: Where) -> None:
        """Adds rows of a table, given as its columns in words. `where` says where row n of these stands."""
        rows = len(columns[0])
        width = len(columns) + 1
        chunk = array("I", bytes(4 * rows * width))
        chunk[0::width] = array("I", [relation]) * rows
        for number, column in enumerate(columns):
            chunk[number + 1 :: width] = column
        self._blocks.append(Block(self._rows, len(self.words), relation, where))
        self._firsts.append(self._rows)
        self.words.extend(chunk)
        self._rows += rows
        self.tables[relation] = self.tables.get(relation, 0) + rows
        self.progress.at(self.names.tables[relation].name, self.tables[relation])

    def form(self, relation: int, column: int) -> Form:
        """How the values of a column were given."""
        return self._forms.setdefault((relation, column), Form())

    def shown(self, relation: int, column: int) -> Shown:
        """What the words of a column stand for, as they were given."""
        return Shown(self.values, self.form(relation, column))

    def cells(self, relation: int, column: int, read: Callable[[Any], Value]) -> Cells:
        """A reader of one column's cells: `plain` for values that have a type, else how a cell without one is read."""
        self.has_cells = self.has_cells or read in (str, read_cell, read_cell_with_comma)
        return Cells(self.values, self.null(relation, column), read, self.form(relation, column))

    def _block(self, position: int) -> Block:
        return self._blocks[bisect_right(self._firsts, position) - 1]

    def words_at(self, position: int) -> Words:
        """The words of the values of the row at a position, from 0 over all rows."""
        block = self._block(position)
        width = len(self.names.tables[block.relation].columns) + 1
        at = block.word + (position - block.first) * width
        return self.words[at + 1 : at + width]

    def stands(self, position: int) -> Stands:
        """The row at a position."""
        block = self._block(position)
        values = tuple(self.shown(block.relation, column)[word] for column, word in enumerate(self.words_at(position)))
        return Stands(block.where(position - block.first), block.relation, values)

    def say(self, position: int) -> str:
        """A row and where it stands, for a message."""
        found = self.stands(position)
        return f"{found.where}: {format_datum(self.names.tables[found.relation].name, found.values)}"

    def text_and_number(self, relations: Iterable[int], others: Iterable[int] = (), current: Mapping[int, int] = MappingProxyType({})) -> Optional[str]:
        """A text that looks like a number which is there too, in the rows of some tables or among `others`; such a pair is never equal,
        unless the codes that are `current` make it one."""
        numbers = self.values.numbers_as_text()
        if current:
            codes = {number: self.values.encode(text) for number, text in numbers.items()}
            numbers = {number: numbers[number] for number, code in codes.items() if current.get(number, number) != current.get(code, code)}
        found = {number for number in numbers if self.values.known(number)}.union(set(numbers).intersection(others))
        if not numbers:
            return None
        asked = set(relations)
        for start, end, relation in self._spans():
            if relation not in asked:
                continue
            width = len(self.names.tables[relation].columns) + 1
            for column in range(1, width):
                found |= set(numbers).intersection(self.words[start + column : end : width])
        return numbers[min(found)] if found else None

    def text_as_variable(self, query: Query, variables: Mapping[int, str]) -> Optional[str]:
        """A note on a variable that the head does not show and whose name is a text in a column where it stands: the text may be meant."""
        for row in query.rows:
            table = self.names.tables[row.relation]
            for column, entry in enumerate(row.entries):
                name = None if entry in query.head or isinstance(entry, Constant) else variables.get(entry.number)
                if name is not None and self.values.known(name) and self._has(row.relation, column, self.values.encode(name)):
                    return f"{name} is a variable of the query, which any value goes with, and {table.name}.{table.columns[column]} has the text '{name}'"
        return None

    def _has(self, relation: int, column: int, word: int) -> bool:
        """Whether a column has a word."""
        width = len(self.names.tables[relation].columns) + 1
        return any(word in self.words[start + 1 + column : end : width] for start, end, held in self._spans() if held == relation)

    def _spans(self) -> Iterator[Tuple[int, int, int]]:
        """The words of each block, from one to before the other, and its relation."""
        ends = [block.word for block in self._blocks[1:]] + [len(self.words)]
        for block, end in zip(self._blocks, ends):
            yield block.word, end, block.relation

    def words_of(self, relations: AbstractSet[int]) -> Words:
        """The rows of some tables, in words."""
        if all(block.relation in relations for block in self._blocks):
            return self.words
        found: Words = array("I")
        for start, end, relation in self._spans():
            if relation in relations:
                found.extend(self.words[start:end])
        return found

    def decoded(self, answers: Words, number: int, shown: Sequence[Shown]) -> List[Tuple[Value, ...]]:
        """Answers of the engine as values, by how each column of theirs is shown: numbers ascending, then dates, then texts."""
        if not shown or not number:
            return [()] * number
        with uncollected():
            return self._decoded(answers, number, shown)

    def _decoded(self, answers: Words, number: int, shown: Sequence[Shown]) -> List[Tuple[Value, ...]]:
        length = len(shown)
        columns = [answers[at : number * length : length] for at in range(length)]
        if not len(self.values) or max(answers) < FIRST_CODE:
            return list(zip(*(map(one.__getitem__, column) for one, column in zip(shown, columns))))
        there = [set(column) for column in columns]
        ordered = in_order(self.values, set().union(*there))
        rank = {word: place for place, word in enumerate(ordered)}
        rows = sorted(zip(*(map(rank.__getitem__, column) for column in columns)))
        for one, words in zip(shown, there):
            one.learn(words)
        tables = [[one[word] if word in words else None for word in ordered] for one, words in zip(shown, there)]
        return list(zip(*(map(table.__getitem__, map(itemgetter(at), rows)) for at, table in enumerate(tables))))


@contextmanager
def uncollected() -> Iterator[None]:
    """Keeps Python from looking for cycles: rows make none, and looking for them doubles the time."""
    collecting = gc.isenabled()
    gc.disable()
    try:
        yield
    finally:
        if collecting:
            gc.enable()


def in_order(values: Values, words: Iterable[int]) -> List[int]:
    """Words in the order of what they stand for: numbers, then dates, then texts."""
    held = list(words)
    decoded: List[Tuple[Any, int]] = list(zip(map(values.decode, held), held))
    numbers = [one for one in decoded if isinstance(one[0], (int, Decimal))]
    dates = [(bare(value), word) for value, word in decoded if isinstance(value, date)]
    texts = [one for one in decoded if isinstance(one[0], str)]
    return [word for kind in (numbers, dates, texts) for _, word in sorted(kind, key=itemgetter(0))]


def read_row_value(word: str) -> Value:
    """The value of a literal in a row of text, where NULL may stand."""
    if word[0] in "nN":
        raise Null()
    return read_literal(word)


# A number that is not whole, with a point and with a comma.
_FRACTION = re.compile(r"-?(?:0|[1-9][0-9]{0,40})\.[0-9]{0,40}[1-9]0{0,40}")
_FRACTION_WITH_COMMA = re.compile(_FRACTION.pattern.replace(r"\.", ","))
# A line that may be meant as no value.
_MAY_BE_ABSENT = re.compile(r"^\s*n(?:an?|/a|ull|one)\s*$", re.IGNORECASE | re.MULTILINE)


class Cells(Dict[Any, int]):
    """The words of a column's cells, by the cells that have been met; `form` learns how they are given."""

    def __init__(self, values: Values, null: Optional[int], read: Callable[[Any], Value], form: Form) -> None:
        super().__init__()
        self._values, self._null, self._read = values, null, read
        self.form = form
        self.same: Optional[Tuple[str, str]] = None
        # In a column without types, the first cell of each kind that is taken as a text and may be meant otherwise, and what to say of it.
        self.doubts: Dict[Doubt, Tuple[str, str]] = {}

    def column(self, cells: Sequence[Any]) -> Words:
        """Cells in words. A cell that is no value raises ValueError, or Null; `fault` then says which."""
        found = self._all_whole(cells)
        if found is not None:
            return found
        texts = self._all_texts(cells)
        if texts is not None:
            return self._values.codes(texts)
        try:
            self._learn_fractions([cell for cell in dict.fromkeys(cells) if cell not in self])
            return array("I", map(self.__getitem__, cells))
        except TypeError:
            return array("I", map(self.__missing__, cells))

    def _all_whole(self, cells: Sequence[Any]) -> Optional[Words]:
        """The words of cells that are all whole numbers which stand for themselves; else None."""
        if self._read is str:
            return None
        if self._read is not plain:
            self.form.types.add(object)
            return _whole_numbers(cells)
        types = set(map(type, cells))
        self.form.types |= types
        try:
            words = array("I", cells if types == {int} else ())
        except OverflowError:
            return None
        return words if len(words) == len(cells) and max(words, default=0) < FIRST_CODE else None

    def _all_texts(self, cells: Sequence[Any]) -> Optional[Sequence[str]]:
        """The texts that cells are, if it is seen at once that all are texts; else None."""
        if self._read is plain:
            return cells if set(map(type, cells)) == {str} else None
        first = min(cells, default="")
        if self._read is str:
            return cells if first else None
        if self._read is read_row_value:
            return [cell[1:-1].replace("''", "'") for cell in cells] if first >= "'" and max(cells) < "(" else None
        return cells if first >= ":" and not self._may_be_doubtful("\n".join(cells)) else None

    def _may_be_doubtful(self, lines: str) -> bool:
        """Whether among cells, none of which begins as a number does, there may be the first of a kind that may be meant otherwise."""
        if Doubt.SPACE not in self.doubts and (" \n" in lines or lines[-1:] == " "):
            return True
        return Doubt.ABSENT not in self.doubts and _MAY_BE_ABSENT.search(lines) is not None

    def _learn_fractions(self, new: Sequence[Any]) -> None:
        """Takes up numbers that are not whole, many at once; `__missing__` takes up the other cells."""
        if self._read is plain:
            numbers = [cell for cell in new if type(cell) is float and not cell.is_integer() and isfinite(cell)]
            self.update(zip(numbers, self._values.codes(list(map(Decimal, map(repr, numbers))))))
        elif self._read is not str:
            cells = list(filter((_FRACTION_WITH_COMMA if self._read is read_cell_with_comma else _FRACTION).fullmatch, new))
            spelled = [cell.replace(",", ".") for cell in cells]
            words = self._values.codes(list(map(Decimal, spelled)))
            self.update(zip(cells, words))
            for word, one in zip(words, spelled):
                self._write_down(word, one)

    def _write_down(self, word: int, spelled: str) -> None:
        """Notes how a number is written."""
        written = self.form.written.setdefault(word, spelled)
        if written != spelled and word and self.same is None:
            self.same = written, spelled

    def _doubt(self, cell: str) -> None:
        """Notes a cell that is taken as a text, if it is the first of its kind that may be meant otherwise."""
        kind = kind_of_doubt(cell)
        if kind not in self.doubts:
            said = doubt(cell, "," if self._read is read_cell_with_comma else ".")
            if said is not None:
                self.doubts[kind] = cell, said

    def fault(self, cells: Sequence[Any]) -> Tuple[int, ValueError]:
        """The position of the first cell that `column` did not take, and why."""
        for position, cell in enumerate(cells):
            try:
                self.__missing__(cell)
            except ValueError as error:
                return position, error
        raise AssertionError("every cell is sound")

    def __missing__(self, cell: Any) -> int:
        try:
            if self._read is not plain and cell == "":
                raise Null()
            value = self._read(cell)
            word = self._values.code(value)
        except Null:
            if self._null is None:
                raise
            return self._null
        if self._read is plain:
            given = _given(cell, value)
            if given is not None:
                self.form.given.setdefault(word, given)
        elif isinstance(value, (int, Decimal)):
            self._write_down(word, cell.strip().replace(",", "."))
        elif isinstance(value, str) and self._read is not str and self._read is not read_row_value:
            if cell[:1] <= "9" or cell[:1] in "nN" or cell[-1:] == " ":
                self._doubt(cell)
        try:
            self[cell] = word
        except TypeError:
            pass
        return word


def _given(cell: object, value: Value) -> Optional[Value]:
    """A number in the type in which it was given, if its value alone does not tell that."""
    if isinstance(cell, Decimal):
        return Decimal(cell)
    if isinstance(cell, bool):
        return bool(cell)
    return float(cell) if isinstance(cell, float) and isinstance(value, int) else None


def _whole_numbers(cells: Sequence[str]) -> Optional[Words]:
    """A column of cells that are all plain whole numbers, in words; else None."""
    digits = "".join(cells)
    if not (digits.isascii() and digits.isdigit()):
        return None
    if "\n0" in "\n" + "\n".join(cells) and any(cell[:1] == "0" and cell != "0" for cell in cells):
        return None
    try:
        words = array("I", map(int, cells))
    except (OverflowError, ValueError):
        return None
    return words if not words or max(words) < FIRST_CODE else None


class Progress:
    """A line on a terminal that says how far a work is, once it takes longer than a second."""

    def __init__(self, stream: Optional[TextIO]) -> None:
        self._stream = stream if stream is not None and stream.isatty() else None
        self._next = time.monotonic() + 1
        self._shown = False

    def at(self, what: str, rows: int) -> None:
        """Says how many rows of a table there are so far."""
        if self._stream is not None and time.monotonic() > self._next:
            self.say(f"{what}: {rows:,} rows")
            self._next = time.monotonic() + 0.2

    @contextmanager
    def during(self, what: str, every: float = 1) -> Iterator[None]:
        """Says how long a work takes that does not tell how far it is."""
        if self._stream is None:
            yield
            return
        over = threading.Event()
        begun = time.monotonic()

        def tell() -> None:
            while not over.wait(every):
                self.say(f"{what}: {time.monotonic() - begun:.0f} s")

        teller = threading.Thread(target=tell, daemon=True)
        teller.start()
        try:
            yield
        finally:
            over.set()
            teller.join()
            self.done()

    def say(self, text: str) -> None:
        if self._stream is not None:
            self._stream.write(f"\r{text}\033[K")
            self._stream.flush()
            self._shown = True

    def done(self) -> None:
        """Takes the line away."""
        if self._stream is not None and self._shown:
            self._stream.write("\r\033[K")
            self._stream.flush()
            self._shown = False


# ---- from Python


def fold(name: str) -> str:
    """A name without the differences that do not count: case, and what cannot stand in a name."""
    return re.sub(r"\W+", "_", name.strip()).casefold()


def matched(name: str, among: Sequence[str], where: str) -> Optional[int]:
    """The position of a name, as it is written or else as `fold` has it; None if it is not there."""
    for folded in (False, True):
        found = [position for position, other in enumerate(among) if other == name or folded and fold(other) == fold(name)]
        if len(found) > 1:
            raise DataError(f"{where}: {name} is there {count(len(found), 'time')}")
        if found:
            return found[0]
    return None


def column_of(name: str, names: Names) -> Tuple[int, int]:
    """The table and the column of `sonde.version`."""
    table, _, column = name.partition(".")
    relation = matched(table, [held.name for held in names.tables], name)
    found = None if relation is None else matched(column, names.tables[relation].columns, name)
    if relation is None or found is None:
        raise DataError(f"{name} is no TABLE.COLUMN of the archive")
    return relation, found


def relation_of(table: object, names: Names) -> int:
    """The number of a table that is named."""
    found = matched(table, [held.name for held in names.tables], "the tables") if isinstance(table, str) else None
    if found is None:
        raise DataError(f"there is no table {table!r:.40}; there is {', '.join(held.name for held in names.tables)}")
    return found


def of_python(data: object, names: Names, null: Absent = None, needed: Optional[Needed] = None) -> Database:
    """A database from `{'burst': rows}`: rows as lists, tuples or dicts, a pandas DataFrame, or a numpy array.

    A DataFrame, dicts and a structured array are matched by the names of columns, the others by position.
    A single DataFrame or array is the one table of a record that has only one.
    """
    database = Database(names, None, null, None, needed)
    if not isinstance(data, Mapping):
        if len(names.tables) != 1:
            raise DataError(f"say which table these rows are of, as in {{{names.tables[0].name!r}: rows}}")
        data = {names.tables[0].name: data}
    for table, rows in data.items():
        relation = relation_of(table, names)
        if relation in database.tables:
            raise DataError(f"the table {names.tables[relation].name} is there twice, the second time as {table!r:.40}")
        database.read(relation, partial(_read_python, database, relation, rows))
    return database


def _read_python(database: Database, relation: int, rows: object) -> None:
    """The rows of a table from Python."""
    table = database.names.tables[relation]
    database.has(relation)
    columns = _columns_of(rows, table)
    readers = [database.cells(relation, number, plain) for number in range(len(columns))]
    for start in range(0, len(columns[0]), CHUNK):
        words = [
            _python_column(reader, column[start : start + CHUNK], start, f"{table.name}: column {label}", database.cures.null)
            for reader, column, label in zip(readers, columns, table.columns)
        ]
        database.add(relation, words, _row_of(table.name, start))


def _row_of(name: str, start: int) -> Where:
    return lambda row: f"row {row + start} of {name}"


def _python_column(reader: Cells, cells: Any, start: int, where: str, cure: str) -> Words:
    """A stretch of a column in words; `cure` is what to do about an absent value."""
    kind = getattr(getattr(cells, "dtype", None), "kind", "")
    if kind and kind in "iub" and len(cells) and cells.min() >= 0 and cells.max() < FIRST_CODE:
        reader.form.types.add(bool if kind == "b" else int)
        words: Words = array("I")
        words.frombytes(cells.astype("uint32").tobytes())
        return words
    held = cells.tolist() if hasattr(cells, "tolist") else cells
    try:
        return reader.column(held)
    except ValueError:
        position, error = reader.fault(held)
        raise DataError(f"{where}, row {start + position}: {error}{f'; {cure}' if isinstance(error, Null) else ''}") from None


def _columns_of(rows: Any, table: Table) -> List[Any]:
    """The columns of a table, in its order and of one length: numpy arrays, or lists."""
    width = len(table.columns)
    if hasattr(rows, "iloc") and hasattr(rows, "columns"):
        labels = [str(label) for label in rows.columns]
        return [_frame_column(rows.iloc[:, number]) for number in positions(table.columns, labels, table.name)]
    if hasattr(rows, "dtype") and hasattr(rows, "shape"):
        if rows.dtype.names:
            labels = list(rows.dtype.names)
            return [rows[labels[number]] for number in positions(table.columns, labels, table.name)]
        if len(rows.shape) == 1 and width == 1:
            return [rows]
        if len(rows.shape) != 2 or rows.shape[1] != width:
            raise DataError(f"{table} has {count(width, 'column')}; the array has the shape {tuple(rows.shape)}")
        return [rows[:, number] for number in range(width)]
    try:
        held = list(rows)
    except TypeError:
        raise DataError(f"{table.name}: rows must be a list, not {rows!r:.40}") from None
    shaped = [_shaped(row, table, position) for position, row in enumerate(held)]
    return [list(column) for column in zip(*shaped)] if shaped else [[] for _ in range(width)]


def _shaped(row: Any, table: Table, position: int) -> Sequence[object]:
    """A row of a table in the order of its columns."""
    if isinstance(row, Mapping):
        labels = list(row)
        return [row[labels[number]] for number in positions(table.columns, list(map(str, labels)), f"{table.name}, row {position}")]
    if isinstance(row, (str, bytes)) or not isinstance(row, (tuple, list)) and not (hasattr(row, "__len__") and hasattr(row, "__getitem__")):
        raise DataError(f"{table.name}, row {position}: a row must be a list or a tuple, not {row!r:.40}")
    if len(row) != len(table.columns):
        raise DataError(f"{table.name}, row {position}: {table} has {count(len(table.columns), 'column')}, not {len(row)}")
    found: Sequence[object] = row
    return found


def _frame_column(series: Any) -> Any:
    """A column of a DataFrame: its numpy array; dates, where every time of day is midnight."""
    found = series.to_numpy()
    if getattr(found.dtype, "kind", "") == "M":
        times = series.dt.tz_localize(None) if series.dt.tz is not None else series
        midnight = series.dt.tz is None and bool((times.isna() | (times == times.dt.normalize())).all())
        return [None if one != one else one.date() if midnight else one.to_pydatetime() for one in series]
    if found.dtype.kind == "O":
        return list(series)
    return found


def positions(wanted: Sequence[str], labels: Sequence[str], where: str) -> List[int]:
    """Where each wanted column is among the labels of the data."""
    found = []
    for column in wanted:
        position = matched(column, labels, where)
        if position is None:
            raise DataError(f"{where}: there is no column {column}; there is {', '.join(labels) or 'none'}")
        found.append(position)
    return found
