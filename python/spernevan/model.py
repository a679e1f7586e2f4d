"""Entries, rows, queries, dependencies and pairs of codes, and the bytes of a query in an archive file.

Nothing here judges a query: the engine does. A value is turned away only when the file has no
bytes for it, or when its bytes would be read as something else.
"""

from __future__ import annotations

import operator
import struct
from array import array
from collections import Counter
from dataclasses import dataclass
from typing import TYPE_CHECKING, Dict, FrozenSet, Iterable, List, Optional, Sequence, Tuple, TypeVar, Union

if TYPE_CHECKING:
    Words = array[int]
else:
    Words = array

T = TypeVar("T")

BYTE = 2**8 - 1
WORD = 2**32 - 1

PLACES = 8
MOST_RELATIONS = 8
MOST_COLUMNS = 8
MOST_DEPENDENCIES = 32
MOST_JOIN_DEPENDENCIES = 4
MOST_CODE_PAIRS = 16
LEAST_SETS = 2
MOST_SETS = 4
MOST_HEAD = 8
MOST_ROWS = 12
# A query that a comparison has chased with join dependencies.
MOST_CHASED_ROWS = 24
VARIABLES = 96
LARGEST_CONSTANT = 2**31 - 1

# What a variable is worth when a query is read as a database: this number plus its own.
FROZEN = 2**31

_ENTRY = struct.Struct("<BI")
_PAIR = struct.Struct("<II")


def whole(what: str, value: object, top: Optional[int] = None) -> int:
    """`value` as a whole number from 0 up, to `top` if that is given; ValueError if `what` is not one, as True is none."""
    try:
        if isinstance(value, bool):
            raise TypeError
        number = operator.index(value)  # type: ignore[arg-type]
    except TypeError:
        raise ValueError(f"{what} must be a whole number, not {value!r:.40}") from None
    if number >= 0 and (top is None or number <= top):
        return number
    shown = str(number) if number.bit_length() <= 128 else f"a number of {number.bit_length()} bits"
    span = "0 or more" if top is None else f"from 0 to {top}"
    raise ValueError(f"{what} must be {span}, not {shown}")


def items(what: str, value: Iterable[T]) -> Tuple[T, ...]:
    """What `value` holds; ValueError if it holds nothing one after another."""
    try:
        return tuple(value)
    except TypeError:
        raise ValueError(f"{what} must be a list, not {value!r:.40}") from None


@dataclass(frozen=True)
class Constant:
    """A constant; the engine accepts 0 to 2,147,483,647."""

    number: int

    def __post_init__(self) -> None:
        whole("a constant", self.number, WORD)

    def __str__(self) -> str:
        return str(self.number)


@dataclass(frozen=True)
class Variable:
    """A variable; the engine accepts numbers 0 to 95."""

    number: int

    def __post_init__(self) -> None:
        whole("a variable's number", self.number, WORD)

    def __str__(self) -> str:
        return f"v{self.number}"


Entry = Union[Constant, Variable]

# Where a mapping takes each variable, by the variable's number.
Mapping = Dict[int, Entry]


def _entries(what: str, entries: Iterable[Entry]) -> Tuple[Entry, ...]:
    """`entries` as a tuple, each a Constant or a Variable."""
    held = items(what, entries)
    for entry in held:
        if not isinstance(entry, (Constant, Variable)):
            raise ValueError(f"{what} must hold Constant or Variable, not {entry!r:.40}")
    return held


@dataclass(frozen=True)
class Row:
    """A row of a query: the number of its relation, and an entry for each column."""

    relation: int
    entries: Tuple[Entry, ...]

    def __post_init__(self) -> None:
        whole("a row's relation", self.relation, BYTE)
        object.__setattr__(self, "entries", _entries("a row", self.entries))


@dataclass(frozen=True)
class Query:
    """A head and rows, or never: no rows, and a head that has a length and no entries."""

    head: Tuple[Entry, ...]
    rows: Tuple[Row, ...]
    head_length: int = -1

    def __post_init__(self) -> None:
        object.__setattr__(self, "head", _entries("a head", self.head))
        object.__setattr__(self, "rows", items("a query's rows", self.rows))
        for row in self.rows:
            if not isinstance(row, Row):
                raise ValueError(f"a query's rows must be Row, not {row!r:.40}")
        if self.head_length == -1:
            object.__setattr__(self, "head_length", len(self.head))
        whole("a head's length", self.head_length, BYTE)
        whole("the number of rows", len(self.rows), BYTE)
        if self.rows and self.head_length != len(self.head):
            raise ValueError(f"a head of {len(self.head)} entries cannot have the length {self.head_length}")
        if not self.rows and self.head:
            raise ValueError("a query without rows is never and has no head entries: use Query.never")

    @classmethod
    def never(cls, head_length: int) -> Query:
        """The query that has no answer anywhere."""
        return cls((), (), whole("a head's length", head_length, BYTE))

    @property
    def is_never(self) -> bool:
        return not self.rows

    def entries(self) -> List[Entry]:
        """The entries of the head and of the rows, in the order in which a rule has them."""
        return [*self.head, *(entry for row in self.rows for entry in row.entries)]

    def variables(self) -> List[int]:
        """The numbers of the variables that occur, ascending."""
        return sorted({entry.number for entry in self.entries() if isinstance(entry, Variable)})

    def lone(self) -> FrozenSet[int]:
        """The variables that stand once, which are written `_`."""
        counted = Counter(entry.number for entry in self.entries() if isinstance(entry, Variable))
        return frozenset(number for number, times in counted.items() if times == 1)

    def read(self, pairs: Sequence[CodePair]) -> Query:
        """The query with each old code of some pairs as its current one, as every call reads it."""
        current = readings(pairs)

        def entry(held: Entry) -> Entry:
            return Constant(current[held.number]) if isinstance(held, Constant) and held.number in current else held

        rows = tuple(Row(row.relation, tuple(map(entry, row.entries))) for row in self.rows)
        return Query(tuple(map(entry, self.head)), rows, self.head_length)


@dataclass(frozen=True)
class Dependency:
    """A functional dependency: rows of the relation that agree on every left column agree on the right one.

    With no left column all rows of the relation agree on the right one: it never varies.
    """

    relation: int
    left: FrozenSet[int]
    right: int

    def __post_init__(self) -> None:
        whole("a dependency's relation", self.relation, BYTE)
        object.__setattr__(self, "left", columns_of(mask_of(self.left)))
        whole("a dependency's right column", self.right, BYTE)

    def columns(self) -> FrozenSet[int]:
        """The columns of which it speaks."""
        return self.left | {self.right}


@dataclass(frozen=True)
class JoinDependency:
    """The relation is the join of its parts: rows, one for each set of columns, that agree where sets overlap yield a row that is there."""

    relation: int
    sets: Tuple[FrozenSet[int], ...]

    def __post_init__(self) -> None:
        whole("a join dependency's relation", self.relation, BYTE)
        object.__setattr__(self, "sets", tuple(columns_of(mask_of(one)) for one in items("the sets of a join dependency", self.sets)))

    def columns(self) -> FrozenSet[int]:
        """The columns of which it speaks."""
        return frozenset(column for one in self.sets for column in one)

    def joined(self, rows: Sequence[Sequence[T]]) -> Tuple[T, ...]:
        """The row that rows yield, one for each set, in the order of the sets: from each row the columns of its set."""
        found = {column: row[column] for one, row in zip(self.sets, rows) for column in one}
        return tuple(found[column] for column in sorted(found))


AnyDependency = Union[Dependency, JoinDependency]


@dataclass(frozen=True)
class CodePair:
    """A code that was renumbered: in every query and database the old code is read as the current one.

    The engine accepts numbers 0 to 2,147,483,647.
    """

    old: int
    current: int

    def __post_init__(self) -> None:
        whole("an old code", self.old, WORD)
        whole("a current code", self.current, WORD)


# What a record can be given more of.
Added = Union[Dependency, JoinDependency, CodePair]


def readings(pairs: Iterable[CodePair]) -> Dict[int, int]:
    """The current codes of some pairs, by the old ones."""
    return {pair.old: pair.current for pair in pairs}


def mask_of(columns: Iterable[int]) -> int:
    """The byte that stands for a set of columns, bit c for column c."""
    mask = 0
    for column in items("a set of columns", columns):
        mask |= 1 << whole("a column", column, MOST_COLUMNS - 1)
    return mask


def columns_of(mask: int) -> FrozenSet[int]:
    """The set of columns that a byte stands for."""
    return frozenset(column for column in range(MOST_COLUMNS) if mask >> column & 1)


def _entry_bytes(entry: Entry) -> bytes:
    return _ENTRY.pack(isinstance(entry, Variable), entry.number)


def encode_query(query: Query, widths: Sequence[int]) -> bytes:
    """A query as a part of the file.

    A row of a known relation must have that relation's width, since the file does not say where a
    row ends. All else that may be wrong with a query is left to the engine.
    """
    if not isinstance(query, Query):
        raise ValueError(f"a Query is needed, not {query!r:.40}")
    out = bytearray([query.head_length, len(query.rows)])
    for entry in query.head:
        out += _entry_bytes(entry)
    for position, row in enumerate(query.rows):
        if row.relation < len(widths) and len(row.entries) != widths[row.relation]:
            raise ValueError(
                f"row {position} has {len(row.entries)} entries, "
                f"relation {row.relation} has {widths[row.relation]} columns"
            )
        out.append(row.relation)
        for entry in row.entries:
            out += _entry_bytes(entry)
    return bytes(out)


def decode_query(part: bytes, widths: Sequence[int]) -> Query:
    """The query of a part that the engine has accepted or written."""
    head_length, count = part[0], part[1]
    at = 2

    def entries(number: int) -> Tuple[Entry, ...]:
        nonlocal at
        found = _ENTRY.iter_unpack(part[at : at + 5 * number])
        at += 5 * number
        return tuple(Variable(word) if tag else Constant(word) for tag, word in found)

    if count == 0:
        return Query.never(head_length)
    head = entries(head_length)
    rows = []
    for _ in range(count):
        relation = part[at]
        at += 1
        rows.append(Row(relation, entries(widths[relation])))
    return Query(head, tuple(rows))


@dataclass(frozen=True)
class Contents:
    """What an accepted file holds: widths, pairs of codes, functional and join dependencies in held order, and the eight places."""

    widths: Tuple[int, ...]
    code_pairs: Tuple[CodePair, ...]
    dependencies: Tuple[Dependency, ...]
    join_dependencies: Tuple[JoinDependency, ...]
    queries: Tuple[Optional[Query], ...]


def decode_file(file: bytes) -> Contents:
    """The contents of a file that the engine has accepted or written."""
    (count,) = struct.unpack_from("<H", file)
    pairs = struct.iter_unpack("<HH", file[2 : 2 + 4 * count])
    parts = [file[offset : offset + length] for offset, length in pairs]
    widths = tuple(parts[0][1 : 1 + parts[0][0]])
    code_pairs = tuple(CodePair(old, current) for old, current in _PAIR.iter_unpack(parts[0][2 + len(widths) :]))
    joins_at = 1 + 3 * parts[1][0]
    dependencies = tuple(
        Dependency(relation, columns_of(left), right)
        for relation, left, right in struct.iter_unpack("BBB", parts[1][1:joins_at])
    )
    queries = [None if part == b"\xff" else decode_query(part, widths) for part in parts[2:]]
    queries += [None] * (PLACES - len(queries))
    return Contents(widths, code_pairs, dependencies, _decode_joins(parts[1][joins_at:]), tuple(queries))


def _decode_joins(rest: bytes) -> Tuple[JoinDependency, ...]:
    """The join dependencies of what stands after the functional ones in part 1; nothing where there is none."""
    found: List[JoinDependency] = []
    at = 1
    while at < len(rest):
        relation, number = rest[at], rest[at + 1]
        at += 2 + number
        found.append(JoinDependency(relation, tuple(columns_of(mask) for mask in rest[at - number : at])))
    return tuple(found)
