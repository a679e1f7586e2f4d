"""A record of tables, dependencies, renumbered codes and saved queries, and the calls of the engine on it."""

from __future__ import annotations

import html
import os
import warnings
from array import array
from dataclasses import dataclass
from datetime import date
from decimal import Decimal
from functools import cached_property
from typing import Any, Dict, FrozenSet, Iterable, List, NamedTuple, Optional, Sequence, Set, Tuple, Type, Union

from . import engine
from .data import Absent, Database, DataError, Needed, Shown, of_python
from .engine import Refused
from .files import (
    FILE_BYTES,
    Failure,
    Path,
    checksum,
    is_text,
    may_be_archive,
    names_path,
    read_bytes,
    read_names_beside,
    read_text,
    read_while,
    settled,
    shown,
    text_of,
    write_files,
)
from .model import (
    BYTE,
    FROZEN,
    MOST_CODE_PAIRS,
    MOST_DEPENDENCIES,
    MOST_JOIN_DEPENDENCIES,
    PLACES,
    VARIABLES,
    WORD,
    Words,
    Added,
    AnyDependency,
    CodePair,
    Constant,
    Contents,
    Dependency,
    Entry,
    JoinDependency,
    Mapping,
    Query,
    Row,
    Variable,
    columns_of,
    decode_file,
    decode_query,
    encode_query,
    items,
    mask_of,
    readings,
    whole,
)
from .notation import (
    Names,
    NotationError,
    Table,
    code_fault,
    constants,
    count,
    format_datum,
    format_dependency,
    format_names,
    is_read,
    never_varies,
    parse_added,
    parse_rule,
    read_names_file,
)
from .values import FIRST_CODE, Value

# A row of a database: the number of its relation, and its values.
DataRow = Tuple[int, Tuple[int, ...]]

# A query: the number of its place, or the query itself, as a rule or not.
Asked = Union[int, str, Query]


@dataclass(frozen=True)
class Reduction:
    """The record with the result in its target place, the result, the count and the mapping.

    `mapping` takes each variable of the source query to an entry of the result; it is None if the
    result is never.
    """

    record: Record
    result: Query
    replaced: int
    mapping: Optional[Mapping]


@dataclass(frozen=True)
class Comparison:
    """Whether each answer of the first query is one of the second on every obeying database.

    `mapping` takes the second query to the first one's chased form; it is None if not contained,
    and if the first query chases to never. `chased` is that form if not contained, else None.
    """

    contained: bool
    mapping: Optional[Mapping]
    chased: Optional[Query]

    def counterexample(self) -> Optional[Tuple[List[DataRow], Tuple[int, ...]]]:
        """If not contained: an obeying database, and an answer of the first query there that the second lacks."""
        if self.chased is None:
            return None

        def value(entry: Entry) -> int:
            return entry.number if isinstance(entry, Constant) else FROZEN + entry.number

        rows = [(row.relation, tuple(map(value, row.entries))) for row in self.chased.rows]
        return list(dict.fromkeys(rows)), tuple(map(value, self.chased.head))


@dataclass(frozen=True)
class Broken:
    """The first functional dependency that a database breaks, and the first two rows that break it, by position."""

    dependency: int
    first: int
    second: int


@dataclass(frozen=True)
class BrokenJoin:
    """The first join dependency that a database breaks, and the first rows that break it, one for each of its sets, by position.

    The row that they yield (JoinDependency.joined) is missing.
    """

    dependency: int
    rows: Tuple[int, ...]


AnyBroken = Union[Broken, BrokenJoin]


def rows_of(broken: AnyBroken) -> Tuple[int, ...]:
    """The positions of the rows that break a dependency."""
    return broken.rows if isinstance(broken, BrokenJoin) else (broken.first, broken.second)


def _is_archive(file: bytes) -> bool:
    """Whether bytes are an archive file."""
    try:
        engine.read(file)
    except Refused:
        return False
    return True


def _may_be_replaced(names: str, path: Path, before: Optional[bytes]) -> None:
    """ValueError unless a names file is the one of the archive file at a path, which had these bytes; None if there was none."""
    cure = "write elsewhere, or remove it first"
    try:
        found = read_names_file(read_text(names), names)
    except (Failure, NotationError):
        raise ValueError(f"{names} is no names file, or is cut short, and the names of {path} would replace it: {cure}") from None
    if not before or found.checksum not in (None, checksum(before)):
        raise ValueError(f"{names} has the names of another archive file, which those of {path} would replace: {cure}")


class Record:
    """A record, held as the bytes of its file, and the names of its tables, variables and constants.

    A call that changes it gives a new one. A call that the engine turns down raises Refused; an argument
    that the engine could not even be given (a negative place, a row of another width than its table)
    raises ValueError. Where a place is read, a rule or a Query may be given in its stead. Two records
    are equal when their files are.
    """

    def __init__(self, file: bytes, names: Optional[Names] = None) -> None:
        engine.read(file)
        self.file = bytes(file)
        if names is not None:
            names.fit(self.widths)
        self._names = names
        self._named = names is not None

    @classmethod
    def _of(cls, file: bytes, names: Optional[Names], named: bool) -> Record:
        """The record of a file that the engine wrote. Names that were not given are held for their dictionary alone."""
        record = cls.__new__(cls)
        record.file = file
        record._names = names
        record._named = named
        return record

    @classmethod
    def open(cls, tables: Iterable[Union[int, Table]]) -> Record:
        """A record of tables, given by their widths or as Table, with no dependency and every place vacant."""
        held = items("widths", tables)
        named = [table for table in held if isinstance(table, Table)]
        widths = bytes(len(one.columns) if isinstance(one, Table) else whole("a width", one, BYTE) for one in held)
        names = Names(tuple(named)) if named and len(named) == len(held) else None
        return cls._of(engine.open_record(widths), names, names is not None)

    @classmethod
    def read(cls, path: Path, names: Union[bool, Path] = True) -> Record:
        """The record of an archive file, with the names file beside it, or the one given, or with False none; or that of a text.

        Of an archive file longer than 65,536 bytes, only those are read.
        """
        return settled(path, lambda: cls._read(path, names))

    @classmethod
    def _read(cls, path: Path, names: Union[bool, Path]) -> Record:
        data, text = read_while(path, FILE_BYTES, is_text)
        may_be_archive(path, data)
        if text:
            from .text import pack

            if not isinstance(names, bool):
                raise ValueError(f"{shown(path)} is a text, which has its names in it; names are given for archive files")
            found, _ = pack(text_of(data, path), shown(path))
            return found if names else cls(found.file)
        record = cls(data)
        if names is False:
            return record
        beside = read_names_beside(path, data, None if names is True else names, record.codes())
        return record if beside is None else record.named(beside.names)

    def named(self, names: Names) -> Record:
        """The record under other names."""
        names.fit(self.widths)
        return self._of(self.file, names, True)

    def write(self, path: Path) -> None:
        """Writes the archive file, and the names file beside it if there are names: both, or neither.

        Those that are there already are replaced. ValueError if the file to be replaced is no archive file, if
        there is a names file that belongs to another archive, and if there is one and this record has no names
        of its own.
        """
        beside = names_path(path)
        if os.path.realpath(beside) == os.path.realpath(path):
            raise ValueError(f"{path} is a name for a names file; an archive file has another ending, such as .file")
        before = read_bytes(path, FILE_BYTES) if os.path.isfile(path) else None
        if before and is_text(before):
            raise ValueError(f"{path} is a text, which an archive file does not replace: write elsewhere, or remove it first")
        if before and not _is_archive(before):
            raise ValueError(f"{path} is no archive file, and an archive file does not replace it: write elsewhere, or remove it first")
        files = [(path, engine.write(self.file))]
        names = self.own_names()
        if self._named or not names.is_default():
            if os.path.isfile(beside):
                _may_be_replaced(beside, path, before)
            files.append((beside, format_names(names, checksum(self.file)).encode()))
        elif os.path.lexists(beside):
            raise ValueError(
                f"{beside} has the names of an archive, and this record has none: read it with Record.read, "
                f"give it names with Record.named, or write it elsewhere"
            )
        write_files(files)

    def __eq__(self, other: object) -> bool:
        return isinstance(other, Record) and self.file == other.file

    def __hash__(self) -> int:
        return hash(self.file)

    def __repr__(self) -> str:
        tables = ", ".join(table.name for table in self.names.tables)
        held = count(len(self.all_dependencies), "dependency") + (f", {count(len(self.code_pairs), 'renumbered code')}" if self.code_pairs else "")
        return f"<Record of {tables}; {held}; filled places: {_listed(self.filled()) or 'none'}>"

    def __str__(self) -> str:
        from .text import unpack

        return unpack(self, self.names).rstrip("\n")

    def _repr_html_(self) -> str:
        from .text import unpack_parts

        tables, dependencies, codes, rules = unpack_parts(self, self.names)

        def table(heads: Sequence[str], rows: Iterable[Sequence[object]]) -> str:
            top = "".join(f"<th style='text-align:left'>{head}</th>" for head in heads)
            cells = [[f"<td style='text-align:left;white-space:pre'>{html.escape(str(cell))}</td>" for cell in row] for row in rows]
            body = "".join(f"<tr>{''.join(row)}</tr>" for row in cells)
            return f"<table><thead><tr>{top}</tr></thead><tbody>{body}</tbody></table>"

        parts = [table(["Table", "Columns"], [(held.name, ", ".join(held.columns)) for held in tables])]
        if dependencies:
            parts.append(table(["Dependencies"], [(line,) for line in dependencies]))
        if codes:
            parts.append(table(["Renumbered codes"], [(line,) for line in codes]))
        if rules:
            parts.append(table(["Place", "Query"], rules))
        return "".join(parts)

    @cached_property
    def _contents(self) -> Contents:
        return decode_file(self.file)

    @property
    def names(self) -> Names:
        """The names of the tables, variables and constants; R0, R1, .. where there are none."""
        if self._names is None:
            self._names = Names.default(self.widths)
        self._names.values.reserve(self._constants())
        return self._names

    def _constants(self) -> List[int]:
        """The numbers of the pairs of codes, then those of the saved queries' constants."""
        return self.renumbered() + [number for query in self.queries if query is not None for number in constants(query)]

    def codes(self) -> List[int]:
        """The constants of the saved queries, and the renumbered codes, that may stand for a text, a date or another value."""
        return [number for number in self._constants() if number >= FIRST_CODE]

    def own_names(self) -> Names:
        """The names with the values that the saved queries and the renumbered codes have, and no others."""
        return Names(self.names.tables, self.names.variables, self.names.values.only(self._constants()))

    @property
    def widths(self) -> Tuple[int, ...]:
        """The number of columns of each relation."""
        return self._contents.widths

    @property
    def dependencies(self) -> Tuple[Dependency, ...]:
        """The functional dependencies, in the order added."""
        return self._contents.dependencies

    @property
    def join_dependencies(self) -> Tuple[JoinDependency, ...]:
        """The join dependencies, in the order added."""
        return self._contents.join_dependencies

    @property
    def all_dependencies(self) -> Tuple[AnyDependency, ...]:
        """The functional dependencies, then the join dependencies."""
        return (*self.dependencies, *self.join_dependencies)

    @property
    def code_pairs(self) -> Tuple[CodePair, ...]:
        """The codes that were renumbered, each with its current one, in the order added."""
        return self._contents.code_pairs

    def renumbered(self) -> List[int]:
        """The numbers of the renumbered codes, old and current ones."""
        return [number for pair in self.code_pairs for number in (pair.old, pair.current)]

    @property
    def queries(self) -> Tuple[Optional[Query], ...]:
        """The eight places, None where vacant; queries have the codes that they were put in with."""
        return self._contents.queries

    def filled(self) -> List[int]:
        """The places that hold a query."""
        return [place for place, query in enumerate(self.queries) if query is not None]

    def vacant(self) -> List[int]:
        """The places that hold none."""
        return [place for place, query in enumerate(self.queries) if query is None]

    def _explained(self, refused: Refused, read: Sequence[int] = (), fill: Optional[int] = None) -> Refused:
        """A refusal in words that name the place and the cure."""
        filled, vacant = _listed(self.filled()), _listed(self.vacant())
        meaning = refused.meaning
        if refused.number == 7:
            above = [place for place in [*read, *([] if fill is None else [fill])] if place >= PLACES]
            shown_place = str(above[0]) if above and above[0] < 10**20 else "of that number"
            meaning = f"there is no place {shown_place}: places go from 0 to {PLACES - 1}"
        elif refused.number == 11:
            missing = [place for place in read if self.queries[place] is None]
            meaning = f"place {missing[0]} is vacant; " + (f"filled: {filled}" if filled else "every place is")
        elif refused.number == 12:
            meaning = f"place {fill} is filled; " + (f"vacant: {vacant}" if vacant else "every place is: drop one first")
        elif refused.number == 13:
            meaning = f"{refused.meaning}; each column on the right counts one"
        elif refused.number == 8:
            lengths = [query.head_length for query in (self.queries[place] for place in read) if query is not None]
            shows = f"the first query shows {count(lengths[0], 'column')} and the second {lengths[-1]}"
            meaning = f"{shows}: only heads of one length can be compared"
        return Refused(refused.number, meaning)

    def add(self, relation: Union[int, str], left: Optional[Iterable[int]] = None, right: Optional[int] = None) -> Record:
        """The record with one more functional dependency: the left columns determine the right one. With no left column, `()`,
        all rows of the relation agree on the right one: it never varies.

        A text such as `layer: flight, level -> height, temperature` adds one for each column on its right, `flight: -> site`
        one without a left column, `layer: join (flight, level, height) (flight, level, temperature)` a join dependency,
        as `add_join` does, and `code 5 -> 9` a renumbered code, as `add_code` does.
        """
        if isinstance(relation, str):
            if left is not None or right is not None:
                raise ValueError("a dependency in words stands alone; where columns are given the table is given by its number")
            return self.add_all(parse_added(relation, self.names))
        if left is None or right is None:
            raise ValueError("a functional dependency has left columns, () for none, and a right column")
        try:
            return self._of(engine.add(self.file, relation, mask_of(left), right), self._names, self._named)
        except Refused as refused:
            raise self._explained(refused) from None

    def add_join(self, relation: int, sets: Iterable[Iterable[int]]) -> Record:
        """The record with one more join dependency: the relation is the join of its parts that have these sets of columns."""
        masks = [mask_of(one) for one in items("the sets of a join dependency", sets)]
        return self._of(engine.add_join(self.file, relation, bytes(masks)), self._names, self._named)

    def add_code(self, old: Value, current: Value) -> Record:
        """The record with one more renumbered code: in every query and database the old one is read as the current one.

        Saved queries keep the codes that they were put in with; what is made of them has current ones. A whole number is
        a code itself, as in Constant; a text, or another value that has a number of its own, stands for that number.
        """
        pair = CodePair(self._code("an old code", old), self._code("a current code", current))
        try:
            return self._of(engine.add_code(self.file, pair.old, pair.current), self._names, self._named)
        except Refused as refused:
            meaning = code_fault(pair, self.code_pairs, self.names) if refused.number == 18 else ""
            raise Refused(refused.number, meaning or refused.meaning) from None

    def _code(self, what: str, value: Value) -> int:
        """The number of a code."""
        if isinstance(value, (str, Decimal, date, float)):
            return self.names.values.encode(value)
        return whole(what, value, WORD)

    def _add(self, one: Added) -> Record:
        if isinstance(one, CodePair):
            return self.add_code(one.old, one.current)
        return self.add_join(one.relation, one.sets) if isinstance(one, JoinDependency) else self.add(one.relation, one.left, one.right)

    def add_all(self, more: Iterable[Added]) -> Record:
        """The record with more dependencies of either kind and more renumbered codes, all or none."""
        held = list(more)
        record = self
        try:
            for one in held:
                record = record._add(one)
        except Refused as refused:
            raise self._too_many(refused, held) from None
        return record

    def _too_many(self, refused: Refused, more: Sequence[Added]) -> Refused:
        """A refusal of more dependencies or renumbered codes in words that count them, unless as many as there may be are held already."""
        kinds: Dict[int, Tuple[Type[Added], int, int, str]] = {
            13: (Dependency, len(self.dependencies), MOST_DEPENDENCIES, "functional dependency"),
            16: (JoinDependency, len(self.join_dependencies), MOST_JOIN_DEPENDENCIES, "join dependency"),
            19: (CodePair, len(self.code_pairs), MOST_CODE_PAIRS, "renumbered code"),
        }
        if refused.number not in kinds:
            return refused
        kind, held, most, name = kinds[refused.number]
        if held == most:
            return refused
        new = sum(isinstance(one, kind) for one in more)
        each = ", and each column on the right counts one" if kind is Dependency else ""
        are = "is" if held == 1 else "are"
        return Refused(refused.number, f"{count(held, name)} {are} held, and {new} more would make {held + new}; there may be {most}{each}")

    def put(self, place: int, query: Union[str, Query], variables: Optional[Dict[int, str]] = None) -> Record:
        """The record with a query, or the query of a rule, in a vacant place. A rule brings the names of its variables."""
        if isinstance(query, str):
            query, found = parse_rule(query, self.names)
            variables = found if variables is None else variables
        try:
            file = engine.put(self.file, place, encode_query(query, self.widths))
        except Refused as refused:
            raise self._explained(refused, (), place) from None
        names = self.names if variables else self._names
        return self._of(file, None if names is None else names.with_variables(place, variables or {}), self._named)

    def drop(self, place: int) -> Record:
        """The record with a filled place made vacant."""
        try:
            file = engine.drop(self.file, place)
        except Refused as refused:
            raise self._explained(refused, [place]) from None
        return self._of(file, None if self._names is None else self._names.with_variables(place, None), self._named)

    def determined(self, relation: int, left: Iterable[int]) -> FrozenSet[int]:
        """The columns that the left columns determine by the functional dependencies; of no left column, `()`, those that never vary."""
        columns, _ = engine.determined(self.file, relation, mask_of(left))
        return columns_of(columns)

    def placed(self, *asked: Asked) -> Tuple[Record, List[int]]:
        """A record in which each of one or two queries has a place, and the places: itself, if they are its own places."""
        places = [whole("a place", one) for one in asked if not isinstance(one, (str, Query))]
        if len(places) == len(asked):
            return self, places
        record = self
        for place in self.filled():
            record = record.drop(place)
        for position, one in enumerate(asked):
            if isinstance(one, (str, Query)):
                record = record.put(position, one)
                continue
            query = self.query(one)
            record = record.put(position, query, self.names.variables.get(one))
        return record, list(range(len(asked)))

    def query(self, place: int) -> Query:
        """The query of a place; Refused if there is none."""
        if whole("a place", place) >= PLACES:
            raise self._explained(Refused(7), [place])
        query = self.queries[place]
        if query is None:
            raise self._explained(Refused(11), [place])
        return query

    def reduce(self, source: Asked, target: int) -> Reduction:
        """Puts the short form of the source place into the vacant target place: the shortest under the functional dependencies. The reduction has the new record."""
        if isinstance(source, (str, Query)):
            short = self.shorten(source)
            return Reduction(self.put(target, short.result, short.record.names.variables.get(1)), short.result, short.replaced, short.mapping)
        try:
            file, number, words = engine.reduce(self.file, source, target)
        except Refused as refused:
            raise self._explained(refused, [source], target) from None
        after = self._of(file, self._names, self._named)
        long, result = self.queries[source], after.queries[target]
        assert long is not None and result is not None
        if self._names is not None:
            held = self._names.variables.get(source, {})
            named = {variable: held[variable] for variable in result.variables() if variable in held}
            after = self._of(file, self._names.with_variables(target, named), self._named)
        return Reduction(after, result, number, None if result.is_never else _mapping(words, long))

    def alone(self, place: int) -> Record:
        """The record from which every other place is dropped."""
        record = self
        for other in self.filled():
            if other != place:
                record = record.drop(other)
        return record

    def shorten(self, place: Asked) -> Reduction:
        """The short form of a place or a rule, with its mapping and count, made in a copy of the record; this record stays."""
        if isinstance(place, (str, Query)):
            record, _ = self.placed(place)
            return record.reduce(0, 1)
        self.query(place)
        return self.alone(place).reduce(place, 1 if place == 0 else 0)

    def compare(self, p: Asked, q: Asked) -> Comparison:
        """Whether the query at p is contained in the one at q under the dependencies of both kinds."""
        record, (first, second) = self.placed(p, q)
        try:
            verdict, words, part = engine.compare(record.file, first, second)
        except Refused as refused:
            raise record._explained(refused, [first, second]) from None
        if verdict == 0:
            return Comparison(False, None, decode_query(part, self.widths))
        query = record.queries[second]
        assert query is not None
        return Comparison(True, _mapping(words, query) if verdict == 1 else None, None)

    def equivalent(self, p: Asked, q: Asked) -> bool:
        """Whether the two queries have the same answers on every database that obeys the dependencies.

        Where a comparison one way is given up (17) the other may still say no.
        """
        record, (first, second) = self.placed(p, q)
        given_up: Optional[Refused] = None
        for one, other in ((first, second), (second, first)):
            try:
                if not record.compare(one, other).contained:
                    return False
            except Refused as refused:
                if refused.number != 17:
                    raise
                given_up = given_up or (refused if one == first else Refused(17, refused.meaning.replace("the first query", "the second query")))
        if given_up is not None:
            raise given_up
        return True

    def check(self, p: int, q: int, mapping: Mapping) -> bool:
        """Whether `mapping` is one from the query at q to the query at p, neither of them chased. Old codes in it too are read as current ones.

        A variable that `mapping` leaves out goes to constant 0, as one that is not in q must.
        """
        try:
            return engine.check(self.file, p, q, _mapping_words(mapping))
        except Refused as refused:
            raise self._explained(refused, [p, q]) from None

    def test(self, database: Any) -> Optional[AnyBroken]:
        """None if the database obeys every dependency, else the first that it breaks, functional ones first. See `database`.

        A database of named tables that breaks none must have those of which a dependency speaks.
        """
        spoken: Dict[int, Set[int]] = {}
        for one in self.all_dependencies:
            spoken.setdefault(one.relation, set()).update(one.columns())
        held = self._data(database, None, spoken)
        found = self.broken(held)
        if found is None and isinstance(held, Database):
            self.has_tables(held, spoken, "a dependency speaks of")
        return found

    def broken(self, database: Union[Database, Words], first: Iterable[int] = ()) -> Optional[AnyBroken]:
        """The first dependency that the rows of a database break, whatever tables it has; if there is one, one of the relations `first`."""
        words = database.words if isinstance(database, Database) else database
        pairs = self.pairs_for(database) if isinstance(database, Database) else self.code_pairs
        file = self.file if pairs == self.code_pairs else self._bare([*self.all_dependencies, *pairs]).file
        found = engine.test(file, words, bool(self.join_dependencies))
        if found is None:
            return None
        wanted = set(first)
        functional = [number for number, dependency in enumerate(self.dependencies) if dependency.relation in wanted]
        joins = [number for number, dependency in enumerate(self.join_dependencies) if dependency.relation in wanted]
        if functional + joins and found.dependency not in (joins if found.is_join else functional):
            some: List[AnyDependency] = [*(self.dependencies[number] for number in functional), *(self.join_dependencies[number] for number in joins)]
            again = engine.test(self._bare([*some, *pairs]).file, words, bool(joins))
            if again is not None:
                found = again._replace(dependency=(joins if again.is_join else functional)[again.dependency])
        if not found.is_join:
            return Broken(found.dependency, *found.rows)
        return BrokenJoin(found.dependency, found.rows[: len(self.join_dependencies[found.dependency].sets)])

    def _bare(self, held: Iterable[Added]) -> Record:
        """A record of the same tables that holds this, without queries."""
        return Record.open(self.widths).add_all(held)

    def pairs_for(self, database: Database) -> Tuple[CodePair, ...]:
        """The pairs of codes with the numbers by a database's dictionary, which may have grown apart from this one."""

        def number(held: int) -> int:
            return database.values.encode(self.names.values.decode(held))

        return tuple(CodePair(number(pair.old), number(pair.current)) for pair in self.code_pairs)

    def read_in(self, broken: AnyBroken, database: Database) -> List[str]:
        """For a message, how the old codes are read that the rows which break a dependency have in its columns."""
        columns = self.dependency_of(broken).columns()
        there = {words[column] for words in map(database.words_at, rows_of(broken)) for column in columns}
        return [is_read(held, self.names) for held, pair in zip(self.code_pairs, self.pairs_for(database)) if pair.old in there]

    def dependency_of(self, broken: AnyBroken) -> AnyDependency:
        """The dependency that a database breaks."""
        return self.join_dependencies[broken.dependency] if isinstance(broken, BrokenJoin) else self.dependencies[broken.dependency]

    def missing(self, broken: BrokenJoin, database: Database) -> str:
        """The row that a database lacks to obey a join dependency, for a message."""
        join = self.join_dependencies[broken.dependency]
        current = readings(self.pairs_for(database))
        rows = [[current.get(word, word) for word in database.words_at(position)] for position in broken.rows]
        values = [database.shown(join.relation, column)[word] for column, word in enumerate(join.joined(rows))]
        return format_datum(self.names.tables[join.relation].name, values)

    def consequence(self, broken: AnyBroken, query: Query) -> str:
        """What a broken dependency, which `broken` finds for the relations of a query, means for its answers."""
        relation = self.dependency_of(broken).relation
        if not any(row.relation == relation for row in query.rows):
            return f"the query does not ask for {self.names.tables[relation].name}, and its long and short form have the same answers here"
        if isinstance(broken, BrokenJoin):
            return "the long and the short form of a query have the same answers here, but what compare says of two queries may not hold"
        return "on such a database the long and the short form of a query may have different answers"

    def evaluate(self, place: Asked, database: Any, room: Optional[int] = None, tested: bool = False) -> List[Tuple[Any, ...]]:
        """The answers of the query at a place, ascending, each once. See `database`.

        `room` is how many words the answers may take; without it there is room for all of them. A database
        of named tables must have those of the query; it is tested first, unless it is `tested` already,
        and a dependency that it breaks is a warning.
        """
        asked = self._asking(place, database, tested)
        try:
            number, answers = engine.evaluate(asked.record.file, asked.place, asked.words, asked.size, room)
        except Refused as refused:
            raise asked.record._explained(refused, [asked.place]) from None
        query = asked.record.query(asked.place)
        if asked.database is not None:
            return asked.database.decoded(answers, number, _shown(query, asked.database))
        length = query.head_length
        return [tuple(answers[start * length : (start + 1) * length]) for start in range(number)]

    def count(self, place: Asked, database: Any, tested: bool = False) -> int:
        """How many answers the query at a place has. They are not written; all else is as in `evaluate`."""
        asked = self._asking(place, database, tested)
        try:
            return engine.count(asked.record.file, asked.place, asked.words, asked.size)
        except Refused as refused:
            raise asked.record._explained(refused, [asked.place]) from None

    def _asking(self, place: Asked, database: Any, tested: bool) -> _Asking:
        """What the engine is given for `evaluate` and `count`; who called them is warned."""
        record, (at,) = self.placed(place)
        query = record.query(at)
        size = engine.Size(len(query.rows), query.head_length)
        needed = record.needed(at)
        held = record._data(database, needed, needed)
        if not isinstance(held, Database):
            return _Asking(record, at, size, held, None)
        if held is not database:
            for note in held.notes:
                warnings.warn(note.text, stacklevel=3)
        relations = {row.relation for row in query.rows}
        self.has_tables(held, relations, "the query asks for")
        if not tested:
            self._warn(held, query, record.names.variables.get(at, {}))
        record, at = record._translated(at, held)
        # Other tables change no answer.
        return _Asking(record, at, size, held.words_of(relations), held)

    def needed(self, place: Asked) -> Needed:
        """What can change the answers of a query: by its tables, the columns in which it has a constant or a variable
        that stands more than once, and those of which a dependency speaks."""
        record, (at,) = self.placed(place)
        query = record.query(at)
        lone = query.lone()
        found: Dict[int, Set[int]] = {row.relation: set() for row in query.rows}
        for row in query.rows:
            found[row.relation].update(
                column for column, entry in enumerate(row.entries) if isinstance(entry, Constant) or entry.number not in lone
            )
        for dependency in self.all_dependencies:
            if dependency.relation in found:
                found[dependency.relation] |= dependency.columns()
        return found

    def columns(self, place: Asked) -> Tuple[str, ...]:
        """A name for each column of a query's answers, no two alike, as CSV, JSON and SQL have them."""
        from .sql import labels

        record, (at,) = self.placed(place)
        return labels(record.query(at), record.names, record.names.variables.get(at))

    def has_tables(self, database: Database, relations: Iterable[int], why: str) -> None:
        """DataError if one of some tables is in none of the data; `why` says what it is needed for."""
        missing = [self.names.tables[relation].name for relation in sorted(set(relations)) if relation not in database.tables]
        if missing:
            empty = "a CSV file with its header line alone" if database.from_files else f"{{{missing[0]!r}: []}}"
            raise DataError(f"the data has no table {', '.join(missing)}, which {why}; an empty table is {empty}")

    def _warn(self, database: Database, query: Query, variables: Dict[int, str]) -> None:
        """Warnings, for who called `evaluate` or `count`, of what may be meant otherwise, and of a dependency that the database breaks."""
        meant = database.text_as_variable(query, variables)
        if meant is not None:
            warnings.warn(f"{meant}; a text stands between quotes", stacklevel=4)
        there = [*constants(query), *self.renumbered()]
        double = database.text_and_number([row.relation for row in query.rows], there, readings(self.pairs_for(database)))
        if double is not None:
            warnings.warn(f"the text {double!r} and the number {double} are different values, and both are here", stacklevel=4)
        found = self.broken(database, [row.relation for row in query.rows])
        if found is not None:
            shown = [database.say(position) for position in rows_of(found)]
            shown += [f"missing: {self.missing(found, database)}"] if isinstance(found, BrokenJoin) else []
            shown += self.read_in(found, database)
            dependency = self.dependency_of(found)
            says = never_varies(dependency, self.names)
            shown = [says, *shown] if says else shown
            warnings.warn(
                f"the database breaks {format_dependency(dependency, self.names)} ({'; '.join(shown)}): {self.consequence(found, query)}",
                stacklevel=4,
            )

    def _translated(self, place: int, database: Database) -> Tuple[Record, int]:
        """A record whose query at a place, and whose pairs of codes, have the numbers by the database's dictionary, which may have grown
        apart from this one."""
        query, pairs = self.query(place), self.pairs_for(database)

        def entry(held: Entry) -> Entry:
            return Constant(database.values.encode(self.names.values.decode(held.number))) if isinstance(held, Constant) else held

        rows = [Row(row.relation, tuple(map(entry, row.entries))) for row in query.rows]
        same = Query(tuple(map(entry, query.head)), tuple(rows), query.head_length)
        return (self, place) if (same, pairs) == (query, self.code_pairs) else (self._bare(pairs).put(0, same), 0)

    def database(self, data: Any, null: Absent = None) -> Database:
        """A database for `test` and `evaluate`.

        `data` is `{'burst': rows}`, rows being lists, tuples or dicts, a pandas DataFrame or a numpy
        array, with numbers, texts, decimals and dates; answers then come out as such. `null` is what
        None and NaN stand for, or a dict of that by columns, as `{'burst.height': -1}`, with None for the
        others; without it they are refused. `read_database` reads files.

        `test` and `evaluate` take the same without `null`, and also rows as pairs of a relation's number
        and whole numbers, or an array of words as the engine has them.
        """
        return of_python(data, self.names, null)

    def _data(self, data: Any, needed: Optional[Needed] = None, read: Optional[Needed] = None) -> Union[Database, Words]:
        """A database as the engine takes it. A row of a known relation must have its width.

        Rows from Python are read for what is `needed`, a Database must have been read for `read`.
        """
        if isinstance(data, array):
            return data
        if isinstance(data, (str, bytes, os.PathLike)):
            raise ValueError(f"a database is no name of a file: read_database({data!r:.40}, record) reads files")
        if isinstance(data, Database):
            if data.names.tables != self.names.tables:
                raise ValueError(f"the database is of other tables: {', '.join(map(str, data.names.tables))}")
            if read is not None and not data.covers(read):
                raise ValueError("the database was read for another query; without query=.. it is read for all")
            return data
        if isinstance(data, dict) or hasattr(data, "dtype") or hasattr(data, "iloc"):
            return of_python(data, self.names, None, needed)
        words = array("I")
        for position, row in enumerate(items("a database", data)):
            pair: Tuple[Any, ...] = items(f"row {position}", row)
            if len(pair) != 2:
                raise ValueError(f"row {position} must be a relation and its values, not {row!r:.40}")
            relation, values = pair[0], items(f"the values of row {position}", pair[1])
            try:
                if not {int}.issuperset(map(type, (relation, *values))):
                    raise TypeError
                words.fromlist([relation, *values])
            except (TypeError, OverflowError):
                words.fromlist([whole(f"each number of row {position}", value, WORD) for value in (relation, *values)])
            if relation < len(self.widths) and len(values) != self.widths[relation]:
                raise ValueError(
                    f"row {position} has {len(values)} values, "
                    f"relation {relation} has {self.widths[relation]} columns"
                )
        return words


class _Asking(NamedTuple):
    """A query and a database as the engine takes them: a record, a place and the query's size, and words; also the database, if it has names."""

    record: Record
    place: int
    size: engine.Size
    words: Words
    database: Optional[Database]


def _shown(query: Query, database: Database) -> List[Shown]:
    """How each column of a query's answers is shown: as the first column in which its variable stands."""
    first: Dict[int, Tuple[int, int]] = {}
    for row in query.rows:
        for column, entry in enumerate(row.entries):
            if isinstance(entry, Variable):
                first.setdefault(entry.number, (row.relation, column))
    plain = Shown(database.values, None)
    return [database.shown(*first[entry.number]) if isinstance(entry, Variable) else plain for entry in query.head]


def _listed(places: Sequence[int]) -> str:
    return ", ".join(map(str, places))


def _mapping(words: Sequence[int], query: Query) -> Mapping:
    """The images of a query's variables, from the words of a mapping."""
    return {v: Variable(words[2 * v + 1]) if words[2 * v] else Constant(words[2 * v + 1]) for v in query.variables()}


def _mapping_words(mapping: Mapping) -> Words:
    """The words of a mapping."""
    words: Words = array("I", [0]) * (2 * VARIABLES)
    if not isinstance(mapping, dict):
        raise ValueError(f"a mapping must be a dict from variables to entries, not {mapping!r:.40}")
    for variable, entry in mapping.items():
        at = 2 * whole("a mapping's variable", variable, VARIABLES - 1)
        if not isinstance(entry, (Constant, Variable)):
            raise ValueError(f"a mapping must lead to Constant or Variable, not {entry!r:.40}")
        words[at : at + 2] = array("I", [isinstance(entry, Variable), entry.number])
    return words
