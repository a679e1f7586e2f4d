"""A query's definition: its long and its short form, what links their rows, and the dependencies that it needs.

Every verdict is the engine's. What is computed here is how to show it: which row a mapping takes a row to, which
variables stand once, and which dependencies are left when all that the engine finds needless are taken away.
"""

from __future__ import annotations

from dataclasses import dataclass, field
from functools import cached_property
from typing import Callable, Dict, List, Optional, Sequence, Tuple

from .model import Added, CodePair, Constant, Dependency, Entry, JoinDependency, Mapping, Query, Row, Variable
from .notation import Names
from .record import Record
from .values import Value, format_value

# What the number of a constant stands for.
Decode = Callable[[int], Value]


def itself(number: int) -> Value:
    """The number, for an archive whose constants are plain numbers."""
    return number


@dataclass(frozen=True)
class Definition:
    """A query of a record and its reduction, as a paper prints them. The reduction is by the functional dependencies alone.

    The long form has the codes that it was given with, the short form current ones.
    """

    names: Names
    record: Record
    long: Query
    short: Query
    mapping: Optional[Mapping]
    replaced: int
    variables: Dict[int, str] = field(default_factory=dict)
    place: Optional[int] = None
    decode: Decode = itself

    @property
    def dependencies(self) -> Tuple[Dependency, ...]:
        return self.record.dependencies

    @property
    def join_dependencies(self) -> List[JoinDependency]:
        """The join dependencies of the long form's relations, which make no form shorter."""
        return [one for one in self.record.join_dependencies if one.relation in self.relations]

    @property
    def code_pairs(self) -> Tuple[CodePair, ...]:
        """The codes that were renumbered, each with its current one."""
        return self.record.code_pairs

    def old_codes(self) -> List[CodePair]:
        """Those whose old codes the long form has."""
        there = {entry.number for entry in self.long.entries() if isinstance(entry, Constant)}
        return [pair for pair in self.code_pairs if pair.old in there]

    @cached_property
    def chased(self) -> Query:
        """The long form after the chase with the functional dependencies, row by row: what the engine shows when it is compared with never."""
        never = Query.never(self.long.head_length)
        compared = _under(self.record, range(len(self.dependencies))).put(0, self.long).put(1, never).compare(0, 1)
        return never if compared.chased is None else compared.chased

    @cached_property
    def used(self) -> Tuple[int, ...]:
        """The positions of functional dependencies under which alone the two forms have the same answers; without any one of them they have not."""
        return used_dependencies(self.record, self.long, self.short)

    @property
    def title(self) -> str:
        """What the definition is of."""
        return "Query" if self.place is None else f"Place {self.place}"

    @property
    def relations(self) -> List[int]:
        """The relations of the long form's rows, ascending."""
        return sorted({row.relation for row in self.long.rows})

    def images(self) -> Tuple[int, ...]:
        """For each row of the long form, the row of the short form that the mapping takes it to; none for never."""
        if self.mapping is None:
            return ()
        return tuple(self.short.rows.index(_moved(row, self.mapping)) for row in self.long.read(self.code_pairs).rows)

    def kept(self) -> Tuple[Optional[int], ...]:
        """For each row of the long form, the row of the short form that it has become; None if it was dropped.

        Of rows that the chase makes equal, the first is the one that is kept.
        """
        at: Dict[Row, int] = {row: position for position, row in enumerate(self.short.rows)}
        return tuple(at.pop(row, None) for row in self.chased.rows) or (None,) * len(self.long.rows)

    def named(self) -> Dict[int, Entry]:
        """The mapping's images where neither side is written `_`; the images of the rows tell the others."""
        before, after = self.long.lone(), self.short.lone()
        return {
            number: entry
            for number, entry in sorted((self.mapping or {}).items())
            if number not in before and (isinstance(entry, Constant) or entry.number not in after)
        }


def _moved(row: Row, mapping: Mapping) -> Row:
    """A row under a mapping."""
    return Row(row.relation, tuple(mapping[e.number] if isinstance(e, Variable) else e for e in row.entries))


def define(record: Record, names: Names, place: int, decode: Decode = itself) -> Definition:
    """The definition of a saved query."""
    short = record.shorten(place)
    variables = names.variables.get(place, {})
    return Definition(names, record, record.query(place), short.result, short.mapping, short.replaced, variables, place, decode)


def define_query(
    record: Record, names: Names, query: Query, variables: Optional[Dict[int, str]] = None, decode: Decode = itself
) -> Definition:
    """The definition of a query that is saved nowhere."""
    short = record.shorten(query)
    return Definition(names, record, query, short.result, short.mapping, short.replaced, variables or {}, None, decode)


def define_all(record: Record, names: Names, decode: Decode = itself) -> List[Definition]:
    """The definitions of every saved query, by ascending place."""
    return [define(record, names, place, decode) for place, query in enumerate(record.queries) if query is not None]


def _under(record: Record, held: Sequence[int]) -> Record:
    """A record of the same tables with some of the functional dependencies, the same renumbered codes and every place vacant."""
    more: List[Added] = [record.dependencies[number] for number in held]
    return Record.open(record.widths).add_all([*more, *record.code_pairs])


def used_dependencies(record: Record, long: Query, short: Query) -> Tuple[int, ...]:
    """Positions of functional dependencies under which alone the engine finds each query contained in the other.

    From the last to the first, each is left out if the others that are left do without it. More dependencies never
    end a containment, so in the end none can be left out.
    """

    def enough(held: Sequence[int]) -> bool:
        trial = _under(record, held).put(0, long).put(1, short)
        return trial.compare(0, 1).contained and trial.compare(1, 0).contained

    relations = {row.relation for row in long.rows}
    held = [n for n, dependency in enumerate(record.dependencies) if dependency.relation in relations]
    if enough([]):
        return ()
    for number in reversed(held):
        fewer = [other for other in held if other != number]
        if enough(fewer):
            held = fewer
    assert enough(held)
    return tuple(held)


# ---- how entries are shown


def variable_text(number: int, variables: Dict[int, str]) -> str:
    """A variable's name if it has one, else v and its number."""
    return variables.get(number, f"v{number}")


@dataclass(frozen=True)
class Writer:
    """Entries of one query as text."""

    query: Query
    variables: Dict[int, str]
    decode: Decode = itself

    def entry(self, entry: Entry) -> str:
        """A constant's value; `_` for a variable that stands once, else its name."""
        if isinstance(entry, Constant):
            return format_value(self.decode(entry.number))
        return "_" if entry.number in self.query.lone() else variable_text(entry.number, self.variables)

    def atom(self, name: str, entries: Sequence[Entry]) -> str:
        """`name(entry, entry)`."""
        return f"{name}({', '.join(map(self.entry, entries))})"

    def rule(self, names: Names, between: str = " ") -> str:
        """The query as a rule. `between` stands after the comma between two rows."""
        if self.query.is_never:
            return f"ans({', '.join('_' * self.query.head_length)}) :- never"
        rows = [self.atom(names.tables[row.relation].name, row.entries) for row in self.query.rows]
        return f"{self.atom('ans', self.query.head)} :- {f',{between}'.join(rows)}"
