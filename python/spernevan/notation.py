"""Queries as rules, and the names of tables, columns and variables, as text.

A rule is `ans(x, 7, z) :- R0(x, 7, z), R0(x, y, 'Lindenberg')`: the head, then the rows. A name is a
variable; a number, a date or a text between quotes is a constant; `_` in a row is a variable that occurs
nowhere else. `ans()` is a head of length 0, and `ans(_, _) :- never` is never with a head of length 2.

`v0` to `v95` are the variables of those numbers. Every other name takes the lowest number that the
rule does not use, in order of first occurrence. So a rule printed with v0, v1, .. is read back as the
very same query, and one printed with other names as the same query up to the names of its variables.

`code 5 -> 9` says that the code 5 was renumbered and is read as 9.

Tables without names are R0, R1, .. and their columns a, b, c, .. h. `#` begins a comment. A line may
end after `,` `(` `:` `:-` `->` and go on in the next.
"""

from __future__ import annotations

import re
from dataclasses import dataclass, field
from typing import Dict, Iterable, List, NamedTuple, Optional, Sequence, Tuple, Union

from .model import (
    LEAST_SETS,
    MOST_COLUMNS,
    MOST_HEAD,
    MOST_RELATIONS,
    MOST_ROWS,
    MOST_SETS,
    PLACES,
    VARIABLES,
    LARGEST_CONSTANT,
    Added,
    AnyDependency,
    CodePair,
    Constant,
    Dependency,
    Entry,
    JoinDependency,
    Mapping,
    Query,
    Row,
    Variable,
)
from .scan import NotationError, Reader, Token, count
from .values import Value, Values, format_value, is_date

_NUMBERED = re.compile(r"v[0-9]+")
_VARIABLES = frozenset(f"v{number}" for number in range(VARIABLES))


# ---- names


@dataclass(frozen=True)
class Table:
    """The name of a table and of its columns."""

    name: str
    columns: Tuple[str, ...]

    def __str__(self) -> str:
        return f"{self.name}({', '.join(self.columns)})"


@dataclass(frozen=True)
class Names:
    """The names of a record's tables, of the variables of its places, and of its constants, where they are known."""

    tables: Tuple[Table, ...]
    variables: Dict[int, Dict[int, str]] = field(default_factory=dict)
    values: Values = field(default_factory=Values)

    @classmethod
    def default(cls, widths: Sequence[int]) -> Names:
        """R0, R1, .. with columns a, b, c, .. h."""
        return cls(tuple(Table(f"R{number}", tuple("abcdefgh"[:width])) for number, width in enumerate(widths)))

    @property
    def widths(self) -> Tuple[int, ...]:
        return tuple(len(table.columns) for table in self.tables)

    def is_default(self) -> bool:
        """Whether these names say nothing that `default` does not."""
        named = any(self.variables.values()) or any(code != value for code, value in self.values)
        return not named and self.tables == Names.default(self.widths).tables

    def with_variables(self, place: int, named: Optional[Dict[int, str]]) -> Names:
        """The names with others for the variables of a place, or with none."""
        variables = {other: held for other, held in self.variables.items() if other != place}
        if named is not None:
            variables[place] = named
        return Names(self.tables, variables, self.values)

    def lacking(self, codes: Iterable[int]) -> List[int]:
        """Those of the codes that have no entry."""
        held = dict(self.values)
        return [code for code in codes if code not in held]

    def fit(self, widths: Sequence[int]) -> None:
        """ValueError unless these are names for tables of these widths."""
        if len(self.tables) != len(widths):
            raise ValueError(f"there are names for {count(len(self.tables), 'table')}, the record has {len(widths)}")
        for table, width in zip(self.tables, widths):
            if len(table.columns) != width:
                raise ValueError(f"{table} has names for {count(len(table.columns), 'column')}, the table has {width}")

    def relation(self, reader: Reader) -> int:
        """The number of the table that the next token names."""
        token = reader.take("name", "the name of a table")
        for number, table in enumerate(self.tables):
            if table.name == token.text:
                return number
        known = f"there is {', '.join(table.name for table in self.tables)}" if self.tables else "the lines of the tables come first"
        raise reader.error(token, f"there is no table {token.text}; {known}")

    def column(self, relation: int, reader: Reader, what: str = "the name of a column") -> int:
        """The number of the column that the next token names; `what` says in an error what is expected."""
        token = reader.take("name", what)
        table = self.tables[relation]
        if token.text not in table.columns:
            raise reader.error(token, f"{table} has no column {token.text}")
        return table.columns.index(token.text)


def read_keyed_table(reader: Reader, tables: Sequence[Table]) -> Tuple[Table, List[int]]:
    """`layer(flight*, level*, height)`: a table beside those that are there, and its marked columns, which are a key."""
    token = reader.take("name", "the name of a table")
    if token.text in ("ans", "never"):
        raise reader.error(token, f"{token.text} cannot be the name of a table")
    if any(table.name == token.text for table in tables):
        raise reader.error(
            token, f"there is a table {token.text} already; where a rule goes on, the line before it ends with a comma"
        )
    if len(tables) == MOST_RELATIONS:
        raise reader.error(token, f"there are {MOST_RELATIONS} tables at most")
    columns: List[str] = []
    key: List[int] = []

    def column() -> None:
        found = reader.take("name", "the name of a column")
        if found.text in columns:
            raise reader.error(found, f"{token.text} has a column {found.text} already")
        if len(columns) == MOST_COLUMNS:
            raise reader.error(found, f"a table has {MOST_COLUMNS} columns at most")
        if reader.try_take("*"):
            key.append(len(columns))
        if reader.next.kind == "name":
            raise reader.error(reader.next, f"a comma is missing before {reader.next.text:.40}; a column has a name and no type")
        columns.append(found.text)

    if not reader.listed(column):
        raise reader.error(token, "a table has at least one column")
    return Table(token.text, tuple(columns)), key


def read_table(reader: Reader, tables: Sequence[Table]) -> Table:
    """`flight(number, sonde, launch)`: a table beside those that are there, without a mark for a key."""
    start = reader.next
    table, key = read_keyed_table(reader, tables)
    if key:
        raise reader.error(start, f"{table.columns[key[0]]}* marks a key, which belongs in the text of an archive and not here")
    return table


def read_place(reader: Reader) -> int:
    """The number of a place and the colon after it."""
    place = reader.number("a place", PLACES - 1)
    reader.take(":")
    return place


def read_entry(reader: Reader, values: Values) -> None:
    """`2000000000 = 'Lindenberg'`: a constant of the record and the value that it stands for."""
    token = reader.next
    code = reader.number("a code", 2**31 - 1)
    reader.take("=")
    value = reader.value("a value")
    try:
        values.define(code, value)
    except ValueError as error:
        raise reader.error(token, str(error)) from None


def format_entries(values: Values) -> List[str]:
    """The lines that `read_entry` reads."""
    return [f"{code} = {format_value(value)}" for code, value in values]


class NamesFile(NamedTuple):
    """What a names file holds: the names, and the checksum of the archive file that it was written for, if any."""

    names: Names
    checksum: Optional[str]


_CUT_SHORT = "this names file is cut short: put back the whole one, or remove it and pack the text of the archive again"


def read_names_file(text: str, source: str) -> NamesFile:
    """A names file. One that ends before the lines that its first line counts, or in its first line, is cut short."""
    try:
        return _read_names_file(text, source)
    except NotationError as error:
        first = re.match("archive '[^'\n]*', ([0-9]{1,9}) lines?\n", text)
        whole = text.count("\n") > int(first[1]) if first else "\n" in text or not text.startswith("archive '"[: len(text)])
        if whole:
            raise
        raise NotationError(source, error.line, error.column, _CUT_SHORT) from None


def _read_names_file(text: str, source: str) -> NamesFile:
    """A names file: the tables in their order, then for a place the names of its variables 0, 1, ..

        archive '0f3a..', 3 lines
        flight(number, sonde, launch)
        0: f, s, v2, t
        2000000000 = 'Lindenberg'

    A variable that has no name is listed as v and its number. The first line is the checksum of the
    archive file, and how many lines follow; the last says what a constant stands for.
    """
    reader = Reader(text, source)
    tables: List[Table] = []
    variables: Dict[int, Dict[int, str]] = {}
    values = Values()
    checksum: Optional[str] = None
    lines = written = 0
    if reader.at_end():
        raise reader.error(reader.next, _CUT_SHORT)
    while not reader.at_end():
        start = reader.next
        lines += 1
        if start.kind == "number" and reader.then.kind == "=":
            read_entry(reader, values)
        elif start.kind == "number":
            place = read_place(reader)
            if place in variables:
                raise reader.error(start, f"the variables of place {place} have their names already")
            variables[place] = read_variable_names(reader)
        elif start.text == "archive" and reader.then.kind == "text":
            if checksum is not None:
                raise reader.error(start, "there is a line archive already")
            reader.take("name")
            checksum = str(reader.value("a checksum"))
            if reader.try_take(","):
                written = reader.number("a count of lines", 10**9) + 1
                reader.take("name", "'lines'")
        else:
            tables.append(read_table(reader, tables))
        reader.line_ends()
    if lines < written or (checksum is not None and not text.endswith("\n")):
        raise reader.error(reader.next, _CUT_SHORT)
    return NamesFile(Names(tuple(tables), variables, values), checksum)


def read_names(text: str, source: str) -> Names:
    """The names of a names file."""
    return read_names_file(text, source).names


def read_variable_names(reader: Reader) -> Dict[int, str]:
    """`f, s, v2, t`: names of variables 0, 1, .., where v2 is no name. NULL, which a rule cannot have, is none either."""
    names: Dict[int, str] = {}
    number = 0
    while True:
        token = reader.take("name", "the name of a variable")
        if number == VARIABLES:
            raise reader.error(token, f"there are {VARIABLES} variables at most")
        if token.text != f"v{number}" and token.text.upper() != "NULL":
            if token.text == "_" or _NUMBERED.fullmatch(token.text):
                raise reader.error(token, f"{token.text} cannot be the name of v{number}")
            if token.text in names.values():
                raise reader.error(token, f"{token.text} is the name of another variable")
            names[number] = token.text
        number += 1
        if not reader.try_take(","):
            return names


def format_names(names: Names, checksum: Optional[str] = None) -> str:
    """A names file."""
    lines = [str(table) for table in names.tables]
    lines += [f"{place}: {format_variable_names(named)}" for place, named in sorted(names.variables.items()) if named]
    lines += format_entries(names.values)
    first = [] if checksum is None else [f"archive '{checksum}', {count(len(lines), 'line')}"]
    return "".join(f"{line}\n" for line in first + lines)


def format_variable_names(named: Dict[int, str]) -> str:
    """What `read_variable_names` reads."""
    return ", ".join(named.get(number, f"v{number}") for number in range(max(named) + 1))


# ---- rules


# A term of a rule before its variables are numbered: a constant, or the token of a variable.
_Term = Union[Constant, Token]


def read_rule(reader: Reader, names: Names, given: Optional[Dict[int, str]] = None) -> Tuple[Query, Dict[int, str]]:
    """A rule: the query, and the names of its variables that have one. Its values are entered in `names.values`.

    `given` has names whose variables are known beforehand.
    """
    start = reader.take("name", "'ans'")
    if start.text != "ans":
        raise reader.error(start, f"a rule begins with ans, not {start.text}")
    begins: List[Token] = []

    def term() -> _Term:
        token = reader.next
        begins.append(token)
        if token.kind != "name":
            return Constant(names.values.encode(reader.value("a variable or a value")))
        reader.take("name")
        if token.text.upper() == "NULL":
            raise reader.error(token, f"{token.text} is no value and no variable: a query asks for values that are there")
        if _NUMBERED.fullmatch(token.text) and token.text not in _VARIABLES:
            raise reader.error(token, f"variables with numbers go from v0 to v{VARIABLES - 1}")
        return token

    head = reader.listed(term)
    head_at = tuple(begins)
    if len(head) > MOST_HEAD:
        raise reader.error(head_at[MOST_HEAD], f"a head has {MOST_HEAD} entries at most")
    reader.take(":-")
    if reader.next.kind == "name" and reader.next.text == "never":
        reader.take("name")
        for token in head_at:
            if token.text != "_":
                raise reader.error(token, "the head of never has only _")
        return Query.never(len(head)), {}

    rows: List[Tuple[int, List[_Term]]] = []
    while True:
        token = reader.next
        if reader.then.kind == "=":
            raise reader.error(token, f"a rule has no =: write the value, or another variable, in the place of {token.text:.40} in its row")
        if token.text.lower() == "not" and reader.then.kind == "name":
            raise reader.error(token, f"a rule has no {token.text}: it asks for rows that are there")
        relation = names.relation(reader)
        row = reader.listed(term)
        if len(row) != len(names.tables[relation].columns):
            table = names.tables[relation]
            raise reader.error(token, f"{table} has {count(len(table.columns), 'column')}, not {len(row)}")
        if len(rows) == MOST_ROWS:
            raise reader.error(token, f"a query has {MOST_ROWS} rows at most")
        rows.append((relation, row))
        if not reader.try_take(","):
            break
    if reader.next.kind == "name" and reader.then.kind == "(":
        raise reader.error(reader.next, f"a comma is missing before {reader.next.text:.40}; ',' goes between the rows of a rule")

    in_rows = {held.text for _, row in rows for held in row if isinstance(held, Token)}
    for token in head_at:
        if token.text == "_":
            raise reader.error(token, "_ is for rows, and for the head of never")
        if token.kind == "name" and token.text not in in_rows:
            raise reader.error(token, f"{token.text} is in no row")

    named = {number: name for number, name in (given or {}).items() if name in in_rows}
    numbers = {name: number for number, name in named.items()}
    # A row has at most 8 entries, so at most 96 variables occur, and there is a number for each.
    free = iter([n for n in range(VARIABLES) if f"v{n}" not in in_rows and n not in named])

    def entry(held: _Term) -> Entry:
        if isinstance(held, Constant):
            return held
        if held.text == "_":
            return Variable(next(free))
        if _NUMBERED.fullmatch(held.text):
            return Variable(int(held.text[1:]))
        if held.text not in numbers:
            numbers[held.text] = next(free)
            named[numbers[held.text]] = held.text
        return Variable(numbers[held.text])

    shown = tuple(entry(held) for held in head)
    return Query(shown, tuple(Row(relation, tuple(map(entry, row))) for relation, row in rows)), named


def parse_rule(text: str, names: Names, source: str = "rule", given: Optional[Dict[int, str]] = None) -> Tuple[Query, Dict[int, str]]:
    """The query of a rule, and the names of its variables that have one. `given` has names whose variables are known beforehand."""
    reader = Reader(text, source)
    reader.at_end()
    found = read_rule(reader, names, given)
    if not reader.at_end():
        raise reader.error(reader.next, "the rule ends here; ',' goes between its rows")
    return found


def parse_query(text: str, names: Names, source: str = "rule") -> Query:
    """The query of a rule. Its values are entered in `names.values`."""
    return parse_rule(text, names, source)[0]


def format_entry(entry: Entry, variables: Optional[Dict[int, str]] = None, values: Optional[Values] = None) -> str:
    """A constant's value, or its number without a dictionary; a variable's name if it has one, else v and its number."""
    if isinstance(entry, Constant):
        return str(entry.number) if values is None else format_value(values.decode(entry.number))
    return (variables or {}).get(entry.number, str(entry))


def format_row(name: str, entries: Sequence[object]) -> str:
    """`name(entry, entry)`."""
    return f"{name}({', '.join(map(str, entries))})"


def format_datum(name: str, values: Iterable[Value]) -> str:
    """A row of a database or an answer: `flight(101, 'Lindenberg')`. A text that is a date, which is the same value, is written as one."""
    return format_row(name, [value if isinstance(value, str) and is_date(value) else format_value(value) for value in values])


def format_parts(query: Query, names: Names, variables: Optional[Dict[int, str]] = None) -> Tuple[str, List[str]]:
    """The head of a rule, and what stands after `:-`: its rows, or `never`."""
    if query.is_never:
        return format_row("ans", ["_"] * query.head_length), ["never"]

    def texts(entries: Sequence[Entry]) -> List[str]:
        return [format_entry(entry, variables, names.values) for entry in entries]

    rows = [format_row(names.tables[row.relation].name, texts(row.entries)) for row in query.rows]
    return format_row("ans", texts(query.head)), rows


def format_query(query: Query, names: Names, variables: Optional[Dict[int, str]] = None, between: str = " ") -> str:
    """A query as a rule. `between` stands after the comma between two rows."""
    head, rows = format_parts(query, names, variables)
    return f"{head} :- {f',{between}'.join(rows)}"


def blanked(query: Query, variables: Dict[int, str]) -> Dict[int, str]:
    """The names of variables, and `_` for those without one that stand once."""
    return {**dict.fromkeys(query.lone(), "_"), **variables}


def format_mapping(
    mapping: Mapping,
    source: Optional[Dict[int, str]] = None,
    target: Optional[Dict[int, str]] = None,
    values: Optional[Values] = None,
) -> str:
    """`f -> f, s -> 7`, by ascending variables, under the names of the two queries."""
    return ", ".join(
        f"{format_entry(Variable(number), source)} -> {format_entry(entry, target, values)}"
        for number, entry in sorted(mapping.items())
    )


def constants(query: Query) -> List[int]:
    """The numbers of the constants of a query, in the order in which its rule has them."""
    return [entry.number for entry in query.entries() if isinstance(entry, Constant)]


# ---- dependencies


def read_dependencies(reader: Reader, names: Names) -> Sequence[AnyDependency]:
    """`layer: flight, level -> height, temperature`, a functional dependency for each column on the right; or `flight: -> site`, which has
    none on the left and says that the column never varies; or a join dependency, `layer: join (flight, level, height) (flight, level, temperature)`."""
    relation = names.relation(reader)
    reader.take(":")
    if reader.next.text == "join" and (reader.then.kind == "(" or "join" not in names.tables[relation].columns):
        return [_read_join(reader, names, relation)]
    left = [] if reader.next.kind == "->" else _read_columns(reader, names, relation, "the name of a column or '->'")
    arrow = reader.take("->", "',' or '->'")
    if reader.next.line > arrow.line and (reader.next.kind == "number" or reader.then.kind in (":", "(")):
        raise reader.error(arrow, "the name of a column was expected after '->'")
    right = _read_columns(reader, names, relation, "the name of a column")
    return [Dependency(relation, frozenset(left), column) for column in right]


def _read_columns(reader: Reader, names: Names, relation: int, first: str) -> List[int]:
    """`flight, level`: one or more columns with commas between them. `first` says what may stand where the first of them does."""
    found = [names.column(relation, reader, first)]
    while reader.try_take(","):
        found.append(names.column(relation, reader))
    if reader.next.kind == "name":
        raise reader.error(reader.next, f"a comma is missing before {reader.next.text:.40}")
    return found


def _read_join(reader: Reader, names: Names, relation: int) -> JoinDependency:
    """`join (flight, level, height) (flight, level, temperature)`: sets of columns, each between parentheses."""
    start = reader.take("name")
    if reader.next.kind != "(":
        raise reader.expected("a set of columns between parentheses")
    sets: List[List[int]] = []
    while reader.next.kind == "(":
        if len(sets) == MOST_SETS:
            raise reader.error(reader.next, f"a join has {MOST_SETS} sets of columns at most")
        sets.append(reader.listed(lambda: names.column(relation, reader)))
        if not sets[-1]:
            raise reader.error(reader.last, "a set of a join has at least one column")
    if reader.next.kind == ",":
        raise reader.error(reader.next, "no comma goes between the sets of a join")
    if len(sets) < LEAST_SETS:
        raise reader.error(start, f"a join has {LEAST_SETS} to {MOST_SETS} sets of columns, each between parentheses")
    table = names.tables[relation]
    missing = [name for column, name in enumerate(table.columns) if not any(column in one for one in sets)]
    if missing:
        are = "is" if len(missing) == 1 else "are"
        raise reader.error(start, f"the sets of a join have every column of {table} among them; {', '.join(missing)} {are} in none")
    return JoinDependency(relation, tuple(frozenset(one) for one in sets))


def parse_added(text: str, names: Names) -> Sequence[Added]:
    """What a line says that a record is given: dependencies, as `parse_dependencies` has them, or a pair of codes, `code 5 -> 9`.

    The values of a pair are entered in `names.values`.
    """
    reader = Reader(text, "dependency")
    reader.at_end()
    if not begins_code(reader, names.tables):
        return parse_dependencies(text, names)
    reader.source = "code"
    found = read_code(reader, names.values)
    if not reader.at_end():
        raise reader.expected("the end")
    return [found]


def parse_dependencies(text: str, names: Names, source: str = "dependency") -> Sequence[AnyDependency]:
    """The dependencies of a line such as `layer: flight, level -> height`, or `flight: -> site` for a column that never varies,
    or `layer(flight*, level*, height)` for a key of a table, or `layer: join (flight, level) (level, height)`."""
    reader = Reader(text, source)
    reader.at_end()
    found: Sequence[AnyDependency] = read_key(reader, names) if reader.then.kind == "(" else read_dependencies(reader, names)
    if not reader.at_end():
        raise reader.expected("the end")
    return found


def read_key(reader: Reader, names: Names) -> List[Dependency]:
    """`layer(flight*, level*, height)`: a table that is there, with marks at the columns of a key."""
    start = reader.next
    others = [table for table in names.tables if table.name != start.text]
    if len(others) == len(names.tables):
        names.relation(reader)
    table, key = read_keyed_table(reader, others)
    if table not in names.tables:
        there = next(held for held in names.tables if held.name == table.name)
        raise reader.error(start, f"the table is {there}; a key is a mark * at some of these columns")
    if not key or len(key) == len(table.columns):
        raise reader.error(start, "a key is a mark * at some of the columns, which determine the others")
    return key_dependencies(names.tables.index(table), key, len(table.columns))


def key_dependencies(relation: int, key: Sequence[int], width: int) -> List[Dependency]:
    """The dependencies that say that the columns of `key` determine every other one."""
    return [Dependency(relation, frozenset(key), column) for column in range(width) if key and column not in key]


def format_columns(relation: int, columns: Sequence[int], names: Names) -> str:
    """The names of some columns, in the table's order."""
    return ", ".join(names.tables[relation].columns[column] for column in sorted(columns))


def format_dependency(dependency: AnyDependency, names: Names) -> str:
    """A dependency under the names of its table and columns."""
    return format_dependencies([dependency], names)[0]


def format_dependencies(dependencies: Sequence[AnyDependency], names: Names) -> List[str]:
    """Dependencies in their order, functional ones that follow one another with the same left side in one line."""
    lines: List[str] = []
    before: Optional[Tuple[int, frozenset[int]]] = None
    for dependency in dependencies:
        table = names.tables[dependency.relation]
        if isinstance(dependency, JoinDependency):
            sets = [f"({format_columns(dependency.relation, sorted(one), names)})" for one in dependency.sets]
            lines.append(f"{table.name}: join {' '.join(sets)}")
            before = None
            continue
        right = table.columns[dependency.right]
        if before == (dependency.relation, dependency.left):
            lines[-1] += f", {right}"
        else:
            left = format_columns(dependency.relation, sorted(dependency.left), names)
            lines.append(f"{table.name}: {left} -> {right}" if left else f"{table.name}: -> {right}")
        before = dependency.relation, dependency.left
    return lines


def never_varies(dependency: AnyDependency, names: Names) -> str:
    """`site never varies`, which a dependency without a left column says; nothing for another one."""
    if isinstance(dependency, JoinDependency) or dependency.left:
        return ""
    return f"{names.tables[dependency.relation].columns[dependency.right]} never varies"


# ---- codes that were renumbered


def begins_code(reader: Reader, tables: Sequence[Table]) -> bool:
    """Whether a line begins as `code 5 -> 9` does, and not as one of a table that is called code."""
    if reader.next.kind != "name" or reader.next.text != "code" or reader.then.kind in ("(", ":"):
        return False
    return reader.then.kind != "->" or all(table.name != "code" for table in tables)


def read_code(reader: Reader, values: Values) -> CodePair:
    """`code 5 -> 9`: an old code and its current one, as numbers or other values, which are entered in `values`."""
    reader.take("name")
    old = values.encode(reader.value("an old code"))
    if reader.next.kind == ",":
        raise reader.error(reader.next, "each old code has a line of its own")
    arrow = reader.take("->")
    if reader.next.line > arrow.line and reader.then.kind in (":", "="):
        raise reader.error(arrow, "a current code was expected after '->'")
    return CodePair(old, values.encode(reader.value("a current code")))


def format_codes(pairs: Iterable[CodePair], names: Names) -> List[str]:
    """The lines that `read_code` reads."""
    return [f"code {format_code(pair.old, names)} -> {format_code(pair.current, names)}" for pair in pairs]


def format_code(number: int, names: Names) -> str:
    """A code as a rule has it: the value that it stands for."""
    return format_value(names.values.decode(number))


def is_read(pair: CodePair, names: Names) -> str:
    """`5 is read as 9`, which a pair of codes says."""
    return f"{format_code(pair.old, names)} is read as {format_code(pair.current, names)}"


def code_fault(pair: CodePair, held: Sequence[CodePair], names: Names) -> str:
    """Why a pair of codes cannot be held beside others, in words; nothing if it can."""
    (line,) = format_codes([pair], names)
    old, current = format_code(pair.old, names), format_code(pair.current, names)
    if pair.old == pair.current:
        return f"{line}: the old and the current code are equal"
    for number in (pair.old, pair.current):
        if number > LARGEST_CONSTANT:
            return f"{line}: a code is at most {LARGEST_CONSTANT}"
    for other in held:
        (there,) = format_codes([other], names)
        if pair.old == other.old:
            return f"{line}: {old} is an old code already, in {there}"
        if pair.old == other.current:
            return f"{line}: {old} is the current code in {there}, which then has to be {format_codes([CodePair(other.old, pair.current)], names)[0]}"
        if pair.current == other.old:
            return f"{line}: {current} is an old code itself, in {there}; the current one is {format_code(other.current, names)}"
    return ""


__all__ = [
    "Names",
    "NamesFile",
    "NotationError",
    "Reader",
    "Table",
    "Token",
    "begins_code",
    "blanked",
    "code_fault",
    "constants",
    "count",
    "format_code",
    "format_codes",
    "format_columns",
    "format_datum",
    "format_dependencies",
    "format_dependency",
    "format_entries",
    "format_entry",
    "format_mapping",
    "format_names",
    "format_parts",
    "format_query",
    "format_row",
    "format_variable_names",
    "is_read",
    "key_dependencies",
    "never_varies",
    "parse_added",
    "parse_dependencies",
    "parse_query",
    "parse_rule",
    "read_code",
    "read_dependencies",
    "read_entry",
    "read_key",
    "read_keyed_table",
    "read_names",
    "read_names_file",
    "read_place",
    "read_rule",
    "read_table",
    "read_variable_names",
]
