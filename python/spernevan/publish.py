"""Definitions (definition.py), one or those of a whole archive, as text, LaTeX, SQL or JSON, and the files that they are written to."""

from __future__ import annotations

import json
import os
import re
import sys
import textwrap
from dataclasses import dataclass
from typing import Dict, List, Optional, Sequence

from . import latex, sql
from .definition import Definition, Writer, variable_text
from .files import FILE_BYTES, Failure, read_bytes, write_files
from .model import CodePair, Constant, Dependency, Entry, JoinDependency, Query
from .notation import Names, format_codes, format_dependencies, format_dependency, is_read
from .scan import count
from .values import format_value

FORMATS = ("text", "latex", "sql", "json")


# ---- a definition as text


def rule_text(definition: Definition, query: Query) -> str:
    """A form as a rule, with a row to a line, the rows below each other."""
    writer = Writer(query, definition.variables, definition.decode)
    head = writer.rule(definition.names).index(" :- ") + 4
    return writer.rule(definition.names, "\n" + " " * head)


def definition_text(definition: Definition) -> str:
    """A definition for people."""
    names = definition.names
    lines = [definition.title]
    if definition.relations:
        lines.append("  Tables:")
        lines += [f"    {names.tables[relation]}" for relation in definition.relations]
    lines.append("  Dependencies needed:")
    lines += [f"    {format_dependency(definition.dependencies[number], names)}" for number in definition.used] or ["    none"]
    if definition.join_dependencies:
        lines.append("  Join dependencies, which the short form does not use:")
        lines += [f"    {line}" for line in format_dependencies(definition.join_dependencies, names)]
    if definition.code_pairs:
        lines.append("  Renumbered codes, each read as its current one:")
        lines += [f"    {line}" for line in format_codes(definition.code_pairs, names)]
    return "\n".join(lines) + "\n" + _reduction(definition, [])


def reduction_text(definition: Definition) -> str:
    """The two forms for people, how old codes of the long one are read, the mapping and the count."""
    return _reduction(definition, definition.old_codes())


def _reduction(definition: Definition, old: Sequence[CodePair]) -> str:
    lines: List[str] = []
    for title, query in (("Long", definition.long), ("Short", definition.short)):
        lines.append(f"  {title} form, {count(len(query.rows), 'row')}:")
        lines.append(textwrap.indent(rule_text(definition, query), "    "))
    if old:
        lines.append("  Old codes of the long form:")
        lines += [f"    {line}" for line in _filled([is_read(pair, definition.names) for pair in old], 72)]
    if definition.mapping is not None:
        lines.append("  Mapping from the long form to the short:")
        lines += _mapping_text(definition)
    lines.append(f"  Replaced by the dependencies: {count(definition.replaced, 'variable')}")
    return "\n".join(lines) + "\n"


def _mapping_text(definition: Definition) -> List[str]:
    """The images of the variables that are written by a name, and those of the rows."""
    short = Writer(definition.short, definition.variables, definition.decode)
    images = [
        f"{variable_text(number, definition.variables)} -> {short.entry(entry)}"
        for number, entry in definition.named().items()
    ]
    rows = [f"row {source} -> row {target + 1}" for source, target in enumerate(definition.images(), 1)]
    return [f"    {line}" for one in (images, rows) for line in _filled(one, 72)]


def _filled(items: Sequence[str], width: int) -> List[str]:
    """Items with commas between them, in lines of about this width; none is broken."""
    lines: List[str] = []
    for position, item in enumerate(items):
        text = item if position + 1 == len(items) else f"{item},"
        if lines and len(lines[-1]) + 1 + len(text) <= width:
            lines[-1] += f" {text}"
        else:
            lines.append(text)
    return lines


# ---- a definition for programs


def entry_json(entry: Entry, definition: Definition) -> object:
    """A variable's name; a constant as a number, or as a rule has it, which no name is."""
    if isinstance(entry, Constant):
        value = definition.decode(entry.number)
        return value if isinstance(value, int) else format_value(value)
    return variable_text(entry.number, definition.variables)


def query_json(query: Query, definition: Definition) -> Dict[str, object]:
    """A form: the rule in one line, and its head and rows with every variable by name."""
    return {
        "rule": Writer(query, definition.variables, definition.decode).rule(definition.names),
        "never": query.is_never,
        "head_length": query.head_length,
        "head": [entry_json(entry, definition) for entry in query.head],
        "rows": [
            {
                "table": definition.names.tables[row.relation].name,
                "entries": [entry_json(entry, definition) for entry in row.entries],
            }
            for row in query.rows
        ],
    }


def dependency_json(dependency: Dependency, names: Names) -> Dict[str, object]:
    """A dependency under the names of its table and columns."""
    table = names.tables[dependency.relation]
    return {
        "table": table.name,
        "left": [table.columns[column] for column in sorted(dependency.left)],
        "right": table.columns[dependency.right],
    }


def join_dependency_json(dependency: JoinDependency, names: Names) -> Dict[str, object]:
    """A join dependency under the names of its table and columns."""
    table = names.tables[dependency.relation]
    return {"table": table.name, "sets": [[table.columns[column] for column in sorted(one)] for one in dependency.sets]}


def code_json(pair: CodePair, definition: Definition) -> Dict[str, object]:
    """A renumbered code: the old one and its current one."""
    return {"old": entry_json(Constant(pair.old), definition), "current": entry_json(Constant(pair.current), definition)}


def definition_json(definition: Definition) -> Dict[str, object]:
    """A definition; `kept` and `images` count rows from 0, and have null and nothing where the short form is never."""
    mapping: Optional[Dict[str, object]] = None
    if definition.mapping is not None:
        mapping = {
            variable_text(number, definition.variables): entry_json(entry, definition)
            for number, entry in sorted(definition.mapping.items())
        }
    tables = [definition.names.tables[relation] for relation in definition.relations]
    return {
        "place": definition.place,
        "tables": [{"table": table.name, "columns": list(table.columns)} for table in tables],
        "dependencies": [dependency_json(definition.dependencies[number], definition.names) for number in definition.used],
        "join_dependencies": [join_dependency_json(one, definition.names) for one in definition.join_dependencies],
        "renumbered_codes": [code_json(pair, definition) for pair in definition.code_pairs],
        "long": query_json(definition.long, definition),
        "short": query_json(definition.short, definition),
        "mapping": mapping,
        "images": list(definition.images()),
        "kept": list(definition.kept()),
        "replaced": definition.replaced,
    }


# ---- in any format


@dataclass(frozen=True)
class Shape:
    """What is printed of a definition: the format, one form alone or all, and what belongs to SQL and LaTeX."""

    format: str = "text"
    form: Optional[str] = None
    dialect: str = "sqlite"
    fragment: bool = False
    without_null: bool = False

    def __post_init__(self) -> None:
        if self.format not in FORMATS:
            raise ValueError(f"the format must be {', '.join(FORMATS)}, not {self.format!r:.40}")
        if self.form is not None and self.form not in sql.FORMS:
            raise ValueError(f"the form must be {' or '.join(sql.FORMS)}, not {self.form!r:.40}")


def render(definitions: Sequence[Definition], shape: Shape = Shape()) -> str:
    """Definitions of a whole archive."""
    if shape.format == "sql":
        return sql.archive_sql(definitions, shape.form or "short", shape.dialect, shape.without_null)
    if shape.format == "json":
        return _json([_json_of(definition, shape.form) for definition in definitions])
    if shape.format == "latex":
        forms = [_latex_of(definition, shape.form) for definition in definitions]
        return _document("\\par\\bigskip\n".join(forms) if shape.form and forms else latex.archive(definitions), shape)
    if not definitions:
        return "Every place is vacant.\n"
    return "\n".join(_text_of(definition, shape.form) for definition in definitions)


def render_one(definition: Definition, shape: Shape = Shape()) -> str:
    """One definition."""
    if shape.format == "sql":
        return sql.code_note(definition) + sql.definition_sql(definition, shape.form or "short", shape.dialect, shape.without_null) + ";\n"
    if shape.format == "json":
        return _json(_json_of(definition, shape.form))
    if shape.format == "latex":
        return _document(_latex_of(definition, shape.form), shape)
    return _text_of(definition, shape.form)


def _document(body: str, shape: Shape) -> str:
    return body if shape.fragment else latex.document(body)


def _json(value: object) -> str:
    return json.dumps(value, indent=2, ensure_ascii=False) + "\n"


def _query_of(definition: Definition, form: str) -> Query:
    """The short or the long form."""
    return definition.short if form == "short" else definition.long


def _text_of(definition: Definition, form: Optional[str]) -> str:
    return definition_text(definition) if form is None else rule_text(definition, _query_of(definition, form)) + "\n"


def _json_of(definition: Definition, form: Optional[str]) -> Dict[str, object]:
    return definition_json(definition) if form is None else query_json(_query_of(definition, form), definition)


def _latex_of(definition: Definition, form: Optional[str]) -> str:
    if form is None:
        return latex.fragment(definition)
    return latex.ragged(latex.form(_query_of(definition, form), definition))


# ---- files of definitions


# How what `define`, `list` and `page` write begins, by kinds; what says that there is no query is of any kind.
_WRITTEN = {
    kind: re.compile(rf"{pattern}|Every\ place|\[\]\n\Z", re.DOTALL | re.VERBOSE)
    for kind, pattern in (
        ("a definition in text", r"(?:Place\ [0-7]|Query)\n\ \ (?:Tables|Dependencies\ needed|Long\ form)|ans\("),
        ("LaTeX", r"(?:\\documentclass\{article\}\n\\begin\{document\}\n)?(?:\\(?:begingroup\\raggedright\n|par\\nobreak\\noindent)|Every\ place)"),
        ("SQL", r"SELECT\ (?:DISTINCT|1\ AS|NULL\ AS)\ |--\ Place\ [0-7],\ |--\ Current\ codes"),
        ("JSON", r"(?:\[\n\ \ )?\{\n\ +\"(?:place|rule)\":\ "),
        ("a page", r"<!DOCTYPE\ html>\n.*:\ saved\ queries\ and\ their\ short\ forms</title>"),
    )
}


def write_definition(text: str, path: Optional[str]) -> None:
    """Prints the text; to a file if a path other than `-` is given, which is replaced only by the whole text.

    Failure if the file is there and does not begin as one of the same kind does.
    """
    if path is None or path == "-":
        sys.stdout.write(text)
        return
    before = read_bytes(path, FILE_BYTES).decode("utf-8", "replace") if os.path.isfile(path) else ""
    if before and not any(pattern.match(before) and pattern.match(text) for pattern in _WRITTEN.values()):
        held = next((kind for kind, pattern in _WRITTEN.items() if pattern.match(before)), "no definition or page that could be replaced")
        raise Failure(f"{path} is there already, and is {held}: write elsewhere, or remove it first")
    write_files([(path, text.encode())])
