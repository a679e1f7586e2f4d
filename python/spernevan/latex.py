r"""A definition in LaTeX: tables, dependencies that are needed, long form, short form, mapping.

A fragment uses nothing but LaTeX's kernel and plain ASCII, so that it may be \input into any document, and a
document is that fragment between \begin{document} and \end{document}. Every name and value is escaped; a character
that LaTeX cannot set without further fonts is shown by its number, as U+4E2D.
"""

from __future__ import annotations

import unicodedata
from typing import Dict, Iterable, List, Optional, Sequence, Tuple

from .definition import Definition
from .model import AnyDependency, CodePair, Constant, Entry, JoinDependency, Query
from .notation import Names
from .scan import count
from .values import Value, bare

_SIGNS = {
    "\\": r"\textbackslash{}",
    "{": r"\{",
    "}": r"\}",
    "$": r"\$",
    "&": r"\&",
    "#": r"\#",
    "%": r"\%",
    "_": r"\_\allowbreak{}",
    "^": r"\textasciicircum{}",
    "~": r"\textasciitilde{}",
    "<": r"\textless{}",
    ">": r"\textgreater{}",
    "|": r"\textbar{}",
    '"': r"\textquotedblright{}",
    "'": r"\textquoteright{}",
    "`": r"\`{}",
    "-": "-{}",
    ",": ",{}",
    " ": r"\ ",
    "ß": r"\ss{}",
    "ø": r"\o{}",
    "Ø": r"\O{}",
    "æ": r"\ae{}",
    "Æ": r"\AE{}",
    "œ": r"\oe{}",
    "Œ": r"\OE{}",
    "ł": r"\l{}",
    "Ł": r"\L{}",
    "ı": r"\i{}",
    "°": r"\ensuremath{^\circ}",
    "µ": r"\ensuremath{\mu}",
    "×": r"\ensuremath{\times}",
    "±": r"\ensuremath{\pm}",
    "·": r"\ensuremath{\cdot}",
    "²": r"\ensuremath{^2}",
    "³": r"\ensuremath{^3}",
    "–": r"\textendash{}",
    "—": r"\textemdash{}",
    "‘": r"\textquoteleft{}",
    "’": r"\textquoteright{}",
    "“": r"\textquotedblleft{}",
    "”": r"\textquotedblright{}",
    "…": r"\ldots{}",
}

_ACCENTS = {
    "\u0300": r"\`",
    "\u0301": r"\'",
    "\u0302": r"\^",
    "\u0303": r"\~",
    "\u0304": r"\=",
    "\u0306": r"\u",
    "\u0307": r"\.",
    "\u0308": r'\"',
    "\u030a": r"\r",
    "\u030b": r"\H",
    "\u030c": r"\v",
    "\u0323": r"\d",
    "\u0327": r"\c",
    "\u0331": r"\b",
}

# Letters that only the kernel's second encoding has.
_T1 = {"đ": r"\dj{}", "Đ": r"\DJ{}", "ð": r"\dh{}", "Ð": r"\DH{}", "þ": r"\th{}", "Þ": r"\TH{}"}
_OGONEK = "\u0328"

_SMALL = (
    "alpha beta gamma delta epsilon zeta eta theta iota kappa lambda mu nu xi omicron pi rho varsigma sigma tau "
    "upsilon phi chi psi omega"
)
_GREEK = {chr(0x3B1 + at): name for at, name in enumerate(_SMALL.split()) if name != "omicron"}
_GREEK.update(
    (chr(ord(small) - 32), name.capitalize())
    for small, name in list(_GREEK.items())
    if name in "gamma delta theta lambda xi pi sigma upsilon phi psi omega".split()
)


# More signs than this without a place to break would run off the page.
_LONG = 24


def escape(text: str) -> str:
    """Text as LaTeX sets it, in ASCII. A line may end at a space, after an underscore, and within a long word, without a hyphen."""
    found: List[str] = []
    since = 0
    for one in unicodedata.normalize("NFC", text):
        since = 0 if one in " _" else since + 1
        if since > _LONG:
            found.append(r"\allowbreak{}")
            since = 1
        found.append(_character(one))
    return "".join(found)


def _character(one: str) -> str:
    if one in _SIGNS:
        return _SIGNS[one]
    if " " < one <= "~":
        return one
    if one in _GREEK:
        return rf"\ensuremath{{\{_GREEK[one]}}}"
    if one in _T1:
        return rf"{{\fontencoding{{T1}}\selectfont{_T1[one]}}}"
    parts = unicodedata.normalize("NFD", one)
    if len(parts) == 2 and parts[0].isascii() and parts[0].isalpha():
        if parts[1] in _ACCENTS:
            return f"{_ACCENTS[parts[1]]}{{{parts[0]}}}"
        if parts[1] == _OGONEK:
            return rf"{{\fontencoding{{T1}}\selectfont\k{{{parts[0]}}}}}"
    return rf"\texttt{{U+{ord(one):04X}}}"


# ---- parts of a definition


def table_name(name: str) -> str:
    """The name of a table."""
    return rf"\textsf{{{escape(name)}}}"


def column_name(name: str) -> str:
    """The name of a column."""
    return rf"\textit{{{escape(name)}}}"


def variable_name(number: int, variables: Dict[int, str]) -> str:
    """A variable's name, or v with its number as an index."""
    return rf"\textit{{{escape(variables[number])}}}" if number in variables else f"$v_{{{number}}}$"


def value(shown: Value) -> str:
    """A number or a date as it is, text between quotes."""
    if isinstance(shown, str):
        return rf"\textquoteleft{{}}{escape(shown)}\textquoteright{{}}"
    text = bare(shown)
    return f"$-${escape(text[1:])}" if text.startswith("-") else escape(text)


class _Form:
    """Entries of one query in LaTeX."""

    def __init__(self, query: Query, definition: Definition) -> None:
        self.alone = query.lone()
        self.definition = definition

    def entry(self, entry: Entry) -> str:
        if isinstance(entry, Constant):
            return value(self.definition.decode(entry.number))
        if entry.number in self.alone:
            return r"\_"
        return variable_name(entry.number, self.definition.variables)

    def atom(self, name: str, entries: Sequence[Entry]) -> str:
        return f"{name}({', '.join(map(self.entry, entries))})"


def tables(relations: Sequence[int], names: Names) -> str:
    """Some tables with their columns, one a line."""
    shown = [names.tables[relation] for relation in relations]
    return _lines(f"{table_name(table.name)}({', '.join(map(column_name, table.columns))})" for table in shown)


def dependency(one: AnyDependency, names: Names) -> str:
    """A dependency under the names of its table and columns."""
    table = names.tables[one.relation]

    def listed(columns: Iterable[int]) -> str:
        return ", ".join(column_name(table.columns[column]) for column in sorted(columns))

    if isinstance(one, JoinDependency):
        return rf"{table_name(table.name)}:~$\bowtie$~{' '.join(f'({listed(columns)})' for columns in one.sets)}"
    right = column_name(table.columns[one.right])
    if not one.left:
        return rf"{table_name(table.name)}: $\emptyset$~$\to$~{right} (never varies)"
    return rf"{table_name(table.name)}: {listed(one.left)}~$\to$~{right}"


def code(pair: CodePair, definition: Definition) -> str:
    """A renumbered code and its current one."""
    return rf"{value(definition.decode(pair.old))}~is read as~{value(definition.decode(pair.current))}"


def form(query: Query, definition: Definition) -> str:
    """A query: its head, then its rows, numbered from 1."""
    written = _Form(query, definition)
    if query.is_never:
        head = ", ".join([r"\_"] * query.head_length)
        return _rows([("", rf"\textsf{{ans}}({head}) never")])
    rows = [("", written.atom(r"\textsf{ans}", query.head) + " if")]
    for position, row in enumerate(query.rows, 1):
        end = "." if position == len(query.rows) else ","
        name = table_name(definition.names.tables[row.relation].name)
        rows.append((str(position), written.atom(name, row.entries) + end))
    return _rows(rows)


def mapping(definition: Definition) -> str:
    """Where the mapping takes each row, and each variable unless it or its image is written `_`."""
    to: Dict[int, List[str]] = {}
    for source, target in enumerate(definition.images(), 1):
        to.setdefault(target + 1, []).append(str(source))
    rows = "; ".join(
        rf"{'row' if len(sources) == 1 else 'rows'} {', '.join(sources)}~$\mapsto$~row~{target}"
        for target, sources in sorted(to.items())
    )
    short = _Form(definition.short, definition)
    images = ", ".join(
        rf"{variable_name(number, definition.variables)}~$\mapsto$~{short.entry(entry)}"
        for number, entry in definition.named().items()
    )
    return f"{images}; {rows}." if images else f"{rows}."


def _lines(lines: Iterable[str], indent: str = "2em") -> str:
    """Lines below each other, each wrapped with an indent where it is too long; a page may end between them."""
    return "\\par\\nobreak\n" + "\n".join(rf"\par\noindent\hangindent={indent} {line}" for line in lines)


def _rows(rows: Sequence[Tuple[str, str]]) -> str:
    """Numbered lines."""
    return _lines((rf"\makebox[1.5em][r]{{{number}}}\hspace{{1em}}{text}" for number, text in rows), "2.5em")


def ragged(body: str) -> str:
    """Lines of uneven length, none of which ends in a hyphen: it would be read as one of the name or the value."""
    return f"\\begingroup\\raggedright\n\\hyphenpenalty=10000\n{body}\n\\par\\endgroup\n"


def _titled(title: str, body: str) -> str:
    return f"\\par\\medskip\\noindent\\textbf{{{title}}} {body}".replace(" \n", "\n", 1).rstrip()


def claim(definition: Definition) -> str:
    """What the engine has proved of the two forms, in a sentence."""
    kind = "functional dependencies" if definition.join_dependencies else "dependencies"
    where = f"every finite database that obeys these {kind}" if definition.used else "every finite database"
    where += ", with old codes read as current ones," if definition.code_pairs else ""
    if definition.short.is_never:
        return f"On {where} the long form has no answer."
    rows = count(len(definition.short.rows), "row")
    least = f"and every query with these answers has at least {rows}"
    return f"On {where} the two forms have the same answers, {least}."


def fragment(definition: Definition, title: Optional[str] = None) -> str:
    r"""The definition, to be \input into a document. A `title` goes above it."""
    names = definition.names
    used = [dependency(definition.dependencies[number], names) for number in definition.used]
    parts = [_titled(f"{escape(title)}.", "")] if title else []
    if definition.relations:
        parts.append(_titled("Tables.", "\n" + tables(definition.relations, names)))
    parts.append(_titled("Dependencies.", "\n" + _lines(used) if used else "None is needed."))
    if definition.join_dependencies:
        joins = _lines(dependency(one, names) for one in definition.join_dependencies)
        parts.append(_titled("Join dependencies, which the short form does not use.", "\n" + joins))
    if definition.code_pairs:
        codes = _lines(code(pair, definition) for pair in definition.code_pairs)
        parts.append(_titled("Renumbered codes, in queries and databases.", "\n" + codes))
    parts.append(_titled(f"Long form, {count(len(definition.long.rows), 'row')}.", "\n" + form(definition.long, definition)))
    parts.append(
        _titled(f"Short form, {count(len(definition.short.rows), 'row')}.", "\n" + form(definition.short, definition))
    )
    if definition.mapping is not None:
        parts.append(_titled("Mapping from the long form to the short.", mapping(definition)))
    parts.append(rf"\par\medskip\noindent {claim(definition)}")
    if definition.long.lone() or definition.short.lone():
        parts.append(r"A variable that stands once is written \_.")
    return ragged("\n".join(parts))


def document(body: str) -> str:
    """A fragment, or several, as a document that compiles as it stands."""
    return f"\\documentclass{{article}}\n\\begin{{document}}\n{body}\\end{{document}}\n"


def archive(definitions: Sequence[Definition]) -> str:
    """The fragments of several definitions, each under its place."""
    if not definitions:
        return "Every place is vacant.\n"
    return "\\par\\bigskip\n".join(fragment(definition, definition.title) for definition in definitions)
