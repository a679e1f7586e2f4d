"""What the commands print: rules, mappings, databases and answers, for people and for programs."""

from __future__ import annotations

import json
import re
from decimal import Decimal
from typing import Any, Dict, List, Optional, Sequence, TextIO, Tuple

from .model import FROZEN, Entry, Mapping, Query, Variable
from .notation import Names, count, format_datum, format_entry, format_mapping, format_query
from .record import Comparison, Reduction
from .values import Value, Values, bare, format_value, number_meant, read_cell

Json = Dict[str, Any]
Variables = Dict[int, str]


# ---- for programs


def value_json(value: Value) -> Any:
    """A value as JSON has it: a whole number as a number, all else as its characters."""
    return value if isinstance(value, int) else bare(value)


def entry_json(entry: Entry, variables: Variables, values: Values) -> Any:
    """A variable as its name; a constant as a number, or between quotes as a rule has it."""
    if isinstance(entry, Variable):
        return format_entry(entry, variables)
    value = values.decode(entry.number)
    return value if isinstance(value, int) else format_value(value)


def query_json(query: Query, names: Names, variables: Variables) -> Json:
    """A query for programs: the rule in one line, and its parts."""
    return {
        "rule": format_query(query, names, variables),
        "never": query.is_never,
        "head_length": query.head_length,
        "head": [entry_json(entry, variables, names.values) for entry in query.head],
        "rows": [
            {"table": names.tables[row.relation].name, "entries": [entry_json(entry, variables, names.values) for entry in row.entries]}
            for row in query.rows
        ],
    }


def mapping_json(mapping: Optional[Mapping], source: Variables, target: Variables, values: Values) -> Optional[Json]:
    if mapping is None:
        return None
    return {format_entry(Variable(v), source): entry_json(entry, target, values) for v, entry in sorted(mapping.items())}


def reduction_json(query: Query, short: Reduction, names: Names, variables: Variables) -> Json:
    """A query and its reduction."""
    return {
        "long": query_json(query, names, variables),
        "short": query_json(short.result, names, variables),
        "mapping": mapping_json(short.mapping, variables, variables, names.values),
        "replaced": short.replaced,
    }


def comparison_json(compared: Comparison, names: Names, of_p: Variables, of_q: Variables) -> Json:
    """A comparison. In a counterexample a number from 2147483648 on stands for a variable, which is named beside it."""
    example = compared.counterexample()
    frozen = sorted({value for _, values in example[0] for value in values if value >= FROZEN}) if example else []
    return {
        "contained": compared.contained,
        "mapping": mapping_json(compared.mapping, of_q, of_p, names.values),
        "counterexample": example
        and {
            "rows": [
                {"table": names.tables[relation].name, "values": [value_json(names.values.decode(value)) for value in values]}
                for relation, values in example[0]
            ],
            "answer": [value_json(names.values.decode(value)) for value in example[1]],
            "variables": {frozen_text(value, names, of_p): value for value in frozen},
        },
    }


# ---- for people


def set_mapping(mapping: Mapping, source: Variables, target: Variables, values: Values) -> str:
    """A mapping in lines that fit a page."""
    pieces = [format_mapping({number: entry}, source, target, values) + "," for number, entry in sorted(mapping.items())] or ["no variables,"]
    lines = ["   "]
    for piece in pieces:
        if len(lines[-1]) > 3 and len(f"{lines[-1]} {piece}") > 76:
            lines.append("   ")
        lines[-1] += f" {piece}"
    return "\n".join(lines)[:-1]


def frozen_text(value: int, names: Names, variables: Variables) -> str:
    """A value of a counterexample: a variable's name, or what a constant stands for."""
    if value >= FROZEN:
        return format_entry(Variable(value - FROZEN), variables)
    return format_value(names.values.decode(value))


def set_tables(rows: Sequence[Tuple[int, Tuple[int, ...]]], names: Names, variables: Variables) -> List[str]:
    """The rows of a counterexample as a small table for each relation that has some."""
    lines: List[str] = []
    for relation, table in enumerate(names.tables):
        held = [tuple(frozen_text(value, names, variables) for value in values) for number, values in rows if number == relation]
        if not held:
            continue
        widths = [max(map(len, column)) for column in zip(table.columns, *held)]
        lines.append(f"  {table.name}")
        for line in [table.columns, *held]:
            lines.append("    " + "  ".join(word.rjust(width) for word, width in zip(line, widths)))
    return lines


# ---- answers


def write_answers(answers: Sequence[Tuple[Value, ...]], columns: Sequence[str], kind: str, out: TextIO) -> None:
    """Writes answers as rows of text, CSV or JSON. In CSV an empty head gives one column, `answer`, with yes or no row."""
    if kind == "csv":
        cell = _Cells().__getitem__
        out.write(",".join(map(cell, columns or ["answer"])) + "\n")
        out.writelines(",".join(map(cell, answer)) + "\n" if columns else "yes\n" for answer in answers)
    elif kind == "json":
        out.write("[")
        for position, answer in enumerate(answers):
            cells = ", ".join(f"{json.dumps(name)}: {_json_text(value)}" for name, value in zip(columns, answer))
            out.write(f"{',' if position else ''}\n  {{{cells}}}")
        out.write("\n]\n" if answers else "]\n")
    else:
        out.writelines(f"{format_datum('ans', answer)}\n" for answer in answers)
        out.write(f"# {count(len(answers), 'answer')}\n")


_SIGNS = re.compile(r'[,;"\t\r\n]')


class _Cells(Dict[Value, str]):
    """Cells of CSV by their values. A text that looks like a number stands between quotes, which a number never does."""

    def __getitem__(self, value: Value) -> str:
        if not isinstance(value, str):
            return bare(value)
        return super().__getitem__(value)

    def __missing__(self, value: str) -> str:
        quoted = not value or value != value.strip() or _SIGNS.search(value) or _like_number(value)
        found = self[value] = '"' + value.replace('"', '""') + '"' if quoted else value
        return found


def _like_number(text: str) -> bool:
    """Whether a program could take a text for a number."""
    if text[:1] > "9" and not text.isdigit():
        return False
    return isinstance(read_cell(text), (int, Decimal)) or text.isdigit() or number_meant(text) is not None


def _json_text(value: Value) -> str:
    """A value in JSON: numbers with all their digits, dates and texts as strings."""
    return bare(value) if isinstance(value, (int, Decimal, float)) else json.dumps(bare(value))
