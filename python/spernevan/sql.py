"""A query as one SQL statement, for SQLite and PostgreSQL.

    SELECT DISTINCT t1."number" AS "f", t2."height" AS "h"
    FROM "flight" AS t1, "burst" AS t2
    WHERE t1."site" = 'Lindenberg'
      AND t2."flight" = t1."number"

The statement has the answers of the query on the tables of that name, if no column that it uses has a NULL, the
columns that a variable stands in have one type, and no column has an old code where codes were renumbered; its
constants are current ones. A head of length 0 gives one row if there is an answer and none
otherwise; never gives no row, under the columns of its head. Every name is quoted, so it is the table's or column's
own, capitals included.
"""

from __future__ import annotations

from datetime import date, datetime
from decimal import Decimal
from typing import Dict, List, Optional, Sequence, Set, Tuple

from .definition import Decode, Definition, itself
from .model import Constant, Entry, Query, Variable
from .notation import Names, is_read

DIALECTS = ("sqlite", "postgresql")
FORMS = ("short", "long")


def identifier(name: str) -> str:
    """A name between double quotes."""
    if not name or "\0" in name:
        raise ValueError(f"{name!r:.40} cannot be a name in SQL")
    return '"' + name.replace('"', '""') + '"'


def literal(value: object, dialect: str) -> str:
    """A value as the dialect writes it."""
    _known(dialect)
    if isinstance(value, int) and not isinstance(value, bool):
        return str(value)
    if isinstance(value, Decimal) and value.is_finite():
        return format(value, "f")
    if isinstance(value, date):
        # Between quotes alone, so that it goes with a column of dates and with one of text.
        return f"'{value.isoformat(' ') if isinstance(value, datetime) else value.isoformat()}'"
    if isinstance(value, str) and "\0" not in value:
        text = value.replace("'", "''")
        if dialect == "postgresql" and "\\" in text:
            # Read the same whatever standard_conforming_strings is.
            return "E'" + text.replace("\\", "\\\\") + "'"
        return f"'{text}'"
    raise ValueError(f"{value!r:.40} cannot be written as a constant in SQL")


def _known(dialect: str) -> None:
    if dialect not in DIALECTS:
        raise ValueError(f"the dialect must be {' or '.join(DIALECTS)}, not {dialect!r:.40}")


def labels(query: Query, names: Names, variables: Optional[Dict[int, str]] = None) -> Tuple[str, ...]:
    """A name for each column of the answers, no two alike, capitals aside.

    It is the variable's, or that of the first column in which the variable stands; `constant0` for a constant and
    `column0` for never, by position.
    """
    first: Dict[int, str] = {}
    for row in query.rows:
        for entry, column in zip(row.entries, names.tables[row.relation].columns):
            if isinstance(entry, Variable):
                first.setdefault(entry.number, column)
    found: List[str] = []
    taken: Set[str] = set()
    for position in range(query.head_length):
        wanted = f"column{position}"
        if query.head:
            entry = query.head[position]
            wanted = f"constant{position}"
            if isinstance(entry, Variable):
                wanted = (variables or {}).get(entry.number) or first[entry.number]
        label, times = wanted, 1
        while label.lower() in taken:
            times += 1
            label = f"{wanted}_{times}"
        taken.add(label.lower())
        found.append(label)
    return tuple(found)


def statement(
    query: Query,
    names: Names,
    variables: Optional[Dict[int, str]] = None,
    dialect: str = "sqlite",
    decode: Decode = itself,
    columns: Optional[Sequence[str]] = None,
    without_null: bool = False,
) -> str:
    """The statement of a query, without a semicolon.

    `columns` are the names of the columns of the answers; without it they are those of `labels`. `without_null`
    leaves out each row of a table that has a NULL in some column, so that long and short form agree on such tables.
    """
    _known(dialect)
    shown = labels(query, names, variables) if columns is None else tuple(columns)
    if len(shown) != query.head_length:
        raise ValueError(f"there are {len(shown)} names for {query.head_length} columns")
    if query.is_never:
        nothing = [f"NULL AS {identifier(label)}" for label in shown] or ['1 AS "ans"']
        return f"SELECT {', '.join(nothing)}\nWHERE 1 = 0"

    tables: List[str] = []
    conditions: List[str] = []
    first: Dict[int, str] = {}
    for position, row in enumerate(query.rows):
        alias = f"t{position + 1}"
        table = names.tables[row.relation]
        tables.append(f"{identifier(table.name)} AS {alias}")
        for name, entry in zip(table.columns, row.entries):
            column = f"{alias}.{identifier(name)}"
            if isinstance(entry, Constant):
                conditions.append(f"{column} = {literal(decode(entry.number), dialect)}")
            elif entry.number in first:
                conditions.append(f"{column} = {first[entry.number]}")
            else:
                first[entry.number] = column
                if without_null:
                    conditions.append(f"{column} IS NOT NULL")
    # A constant may have several lines, so lines are indented before they are joined.
    indent = "" if shown else "  "
    source = f"{indent}FROM {', '.join(tables)}"
    if conditions:
        source += f"\n{indent}WHERE " + f"\n{indent}  AND ".join(conditions)
    if not shown:
        return f'SELECT 1 AS "ans"\nWHERE EXISTS (\n  SELECT 1\n{source}\n)'

    def value(entry: Entry) -> str:
        return literal(decode(entry.number), dialect) if isinstance(entry, Constant) else first[entry.number]

    columns_shown = [f"{value(entry)} AS {identifier(label)}" for entry, label in zip(query.head, shown)]
    return f"SELECT DISTINCT {', '.join(columns_shown)}\n{source}"


def definition_sql(
    definition: Definition, form: str = "short", dialect: str = "sqlite", without_null: bool = False
) -> str:
    """The statement of a definition's short or long form; both have the same columns."""
    if form not in FORMS:
        raise ValueError(f"the form must be {' or '.join(FORMS)}, not {form!r:.40}")
    columns = labels(definition.long, definition.names, definition.variables)
    query = (definition.short if form == "short" else definition.long).read(definition.code_pairs)
    return statement(
        query, definition.names, definition.variables, dialect, definition.decode, columns, without_null
    )


def code_note(definition: Definition) -> str:
    """A comment that says which codes the tables of a statement must not have; nothing where none was renumbered."""
    if not definition.code_pairs:
        return ""
    read = "; ".join(is_read(pair, definition.names) for pair in definition.code_pairs)
    return f"-- Current codes only, in the tables too: {read}\n"


def archive_sql(
    definitions: Sequence[Definition], form: str = "short", dialect: str = "sqlite", without_null: bool = False
) -> str:
    """The statements of several definitions, each under a line that says which it is."""
    return "\n".join(
        f"-- {definition.title}, {form} form\n{code_note(definition)}{definition_sql(definition, form, dialect, without_null)};\n"
        for definition in definitions
    )
