"""A whole record as text that a person writes by hand.

    # tables, in their order, with their columns; those marked are a key, which determines the others
    flight(number*, sonde, site)
    sonde(number, calibration, maker)

    # further dependencies, in their order; the second says that all flights have one site, the last that the table is the join of two parts of it
    sonde: number -> calibration, maker
    flight: -> site
    sonde: join (number, calibration) (number, maker)

    # codes that were renumbered: the old one is read as the current one, in every query and database
    code 'S0451' -> '4170451'

    # saved queries, by place; the other places are vacant
    0: ans(f, c) :- flight(f, s, 'Lindenberg'), sonde(s, c, m)

A table stands above what names it; otherwise lines come in any order. See notation.py for the rules.
A line such as `2000000000 = 'Lindenberg'` gives a value its number beforehand, and `0: f, v1, c` above the
rule of place 0 gives f and c the numbers 0 and 2.
"""

from __future__ import annotations

from typing import Dict, List, NamedTuple, Sequence, Tuple

from .engine import Refused
from .model import MOST_CODE_PAIRS, MOST_DEPENDENCIES, MOST_JOIN_DEPENDENCIES, AnyDependency, CodePair, JoinDependency, Query
from .notation import (
    Names,
    Reader,
    Table,
    Token,
    begins_code,
    blanked,
    code_fault,
    format_codes,
    format_dependencies,
    format_entries,
    format_parts,
    format_query,
    format_variable_names,
    key_dependencies,
    parse_rule,
    read_code,
    read_dependencies,
    read_entry,
    read_keyed_table,
    read_place,
    read_rule,
    read_variable_names,
)
from .record import Record
from .values import Values


def pack(text: str, source: str = "text") -> Tuple[Record, Names]:
    """The record that a text describes, and the names that it uses, which the record has too."""
    reader = Reader(text, source)
    tables: List[Table] = []
    dependencies: List[AnyDependency] = []
    pairs: List[CodePair] = []
    queries: Dict[int, Tuple[Token, Query]] = {}
    variables: Dict[int, Dict[int, str]] = {}
    given: Dict[int, Tuple[Token, Dict[int, str]]] = {}
    values = Values()

    def add(token: Token, found: Sequence[AnyDependency]) -> None:
        dependencies.extend(found)
        joins = sum(isinstance(one, JoinDependency) for one in dependencies)
        if joins > MOST_JOIN_DEPENDENCIES:
            raise reader.error(token, f"an archive has {MOST_JOIN_DEPENDENCIES} join dependencies at most")
        if len(dependencies) - joins > MOST_DEPENDENCIES:
            raise reader.error(
                token,
                f"an archive has {MOST_DEPENDENCIES} functional dependencies at most, and these make {len(dependencies) - joins}; "
                f"each column on the right counts one, and so does each column beside a key",
            )

    while not reader.at_end():
        start = reader.next
        names = Names(tuple(tables), {}, values)
        if start.kind == "number" and reader.then.kind == "=":
            read_entry(reader, values)
        elif start.kind == "number":
            place = read_place(reader)
            if place in queries:
                raise reader.error(start, f"place {place} is filled on line {queries[place][0].line}")
            if reader.next.kind == "name" and reader.then.kind in (",", "newline", "end"):
                if place in given:
                    raise reader.error(start, f"the variables of place {place} have their names on line {given[place][0].line}")
                given[place] = start, read_variable_names(reader)
            else:
                query, variables[place] = read_rule(reader, names, given[place][1] if place in given else None)
                queries[place] = start, query
        elif begins_code(reader, tables):
            pair = read_code(reader, values)
            fault = code_fault(pair, pairs, names)
            if fault:
                raise reader.error(start, fault)
            if len(pairs) == MOST_CODE_PAIRS:
                raise reader.error(start, f"an archive has {MOST_CODE_PAIRS} renumbered codes at most")
            pairs.append(pair)
        elif start.text == "ans":
            raise reader.error(start, "a saved query has its place before it, as in 0: ans(..")
        elif start.kind == "name" and reader.then.kind == ":":
            add(start, read_dependencies(reader, names))
        elif start.kind == "name" and reader.then.kind == "(":
            table, key = read_keyed_table(reader, tables)
            tables.append(table)
            add(start, key_dependencies(len(tables) - 1, key, len(table.columns)))
        elif start.kind == "name" and reader.then.kind == "->":
            raise reader.error(reader.then, "':' was expected, not '->'")
        else:
            raise reader.expected("a line such as flight(number, sonde), flight: number -> sonde or 0: ans(f) :- ..")
        reader.line_ends()
    if not tables:
        raise reader.error(reader.next, "a text has at least one table, as in flight(number, sonde)")
    for place, (token, _) in given.items():
        if place not in queries:
            raise reader.error(token, f"these are names for the variables of place {place}, whose rule, {place}: ans(.., is missing below")

    names = Names(tuple(tables), variables, values)
    at = reader.next
    try:
        record = Record.open(names.tables).add_all([*dependencies, *pairs])
        for place in sorted(queries):
            at, query = queries[place]
            record = record.put(place, query)
    except Refused as refused:
        raise reader.error(at, refused.meaning) from refused
    return record.named(names), names


class Parts(NamedTuple):
    """A record for people: its tables, its dependencies and renumbered codes as lines, and its queries as rules with their places."""

    tables: Tuple[Table, ...]
    dependencies: List[str]
    codes: List[str]
    rules: List[Tuple[int, str]]


def unpack_parts(record: Record, names: Names) -> Parts:
    """The parts of a record's text."""
    names.fit(record.widths)
    rules = [(place, _set_rule(record, place, names, _shown(record, place, names)[0])) for place in record.filled()]
    return Parts(names.tables, format_dependencies(record.all_dependencies, names), format_codes(record.code_pairs, names), rules)


def unpack(record: Record, names: Names) -> str:
    """The text of a record; pack gives the record back, to the byte."""
    names.fit(record.widths)
    groups: List[Sequence[str]] = [[str(table) for table in names.tables], format_dependencies(record.all_dependencies, names), _entries(record, names)]
    groups.append(format_codes(record.code_pairs, names))
    rules: List[str] = []
    for place in record.filled():
        shown, given = _shown(record, place, names)
        rules += [f"{place}: {format_variable_names(given)}"] if given else []
        rules.append(f"{place}: {_set_rule(record, place, names, shown)}")
    groups.append(rules)
    return "\n".join("".join(f"{line}\n" for line in group) for group in groups if group)


def _entries(record: Record, names: Names) -> List[str]:
    """The lines that give values their numbers; none if pack gives the same numbers without them."""
    used = record.codes()
    again = Values()
    if all(again.encode(names.values.decode(number)) == number for number in used):
        return []
    return format_entries(names.values.only(used))


def _shown(record: Record, place: int, names: Names) -> Tuple[Dict[int, str], Dict[int, str]]:
    """How the variables of a saved query are written so that they are read back with the same numbers; and the names that must be given
    their numbers beforehand for that, if any."""
    query = record.query(place)
    occurring = query.variables()
    named = {number: name for number, name in names.variables.get(place, {}).items() if number in occurring}
    shown = blanked(query, named)
    given: Dict[int, str] = {}
    while True:
        again, _ = parse_rule(format_query(query, names, shown), names, given=given)
        wrong = [old.number for old, new in zip(query.entries(), again.entries()) if old != new and old.number in shown]
        if not wrong:
            return shown, given
        if not given and any(shown[number] != "_" for number in wrong):
            shown, given = blanked(query, named), named
        else:
            del shown[wrong[0]]


def _set_rule(record: Record, place: int, names: Names, variables: Dict[int, str]) -> str:
    """A saved query as a rule, in several lines if it is long."""
    query = record.query(place)
    rule = format_query(query, names, variables)
    if len(rule) <= 96:
        return rule
    head, rows = format_parts(query, names, variables)
    return f"{head} :-\n    " + ",\n    ".join(rows)
