"""An archive as one HTML page that needs nothing else: no script, no font, no network.

It has the matrix of which places are contained in which, and for each place the long and the short form beside each
other with the mapping drawn between their rows, and a counterexample where it is not contained in another place.
Where the page is too narrow for both forms, and on such paper, they stand below each other; what the lines show is
always written in words as well.
"""

from __future__ import annotations

import unicodedata
from html import escape
from typing import Callable, Dict, Iterable, List, Optional, Sequence, Tuple, Union

from .definition import Decode, Definition, Writer, define_all, itself, variable_text
from .engine import Refused
from .model import FROZEN, MOST_CHASED_ROWS, Entry, Query, Variable
from .notation import Names, format_code, format_dependencies, format_dependency, is_read
from .record import Comparison, DataRow, Record
from .scan import count
from .style import BESIDE, STYLE
from .values import format_value

# Sizes in rem: a row of a form, its caption and header together, and the lines between two forms.
ROW = 3.0
ABOVE = 4.0
BETWEEN = 5.5
COLOURS = 6


def page(record: Record, names: Names, title: str = "Archive", decode: Decode = itself) -> str:
    """The page of an archive, as text."""
    definitions = define_all(record, names, decode)
    verdicts = _compared(record, [one.place for one in definitions if one.place is not None])
    style = STYLE + "".join(_beside(one) for one in definitions)
    tables, held = len(record.widths), len(record.all_dependencies)
    counts = f"{count(tables, 'table')}, {_counted(held, 'dependency', 'dependencies')}"
    counts += f", {count(len(record.code_pairs), 'renumbered code')}" if record.code_pairs else ""
    saved = _counted(len(definitions), "saved query", "saved queries")
    body = [f"<header><h1>{escape(title)}</h1>", f"<p>{counts}, {saved}.</p></header>", "<main>"]
    if definitions:
        body += [_overview(record, definitions), _matrix(definitions, verdicts)]
        body += [_place(one, definitions, verdicts) for one in definitions]
    else:
        body.append("<p>Every place is vacant.</p>")
    body += [_schema(record, names), "</main>"]
    policy = "default-src 'none'; style-src 'unsafe-inline'"
    return "\n".join(
        [
            "<!DOCTYPE html>",
            '<html lang="en">',
            "<head>",
            '<meta charset="utf-8">',
            '<meta name="viewport" content="width=device-width, initial-scale=1">',
            f'<meta http-equiv="Content-Security-Policy" content="{policy}">',
            f"<title>{escape(title)}: saved queries and their short forms</title>",
            f"<style>{style}</style>",
            "</head>",
            "<body>",
            *body,
            "</body>",
            "</html>",
            "",
        ]
    )


# The comparison of two places, or the number of its refusal: 8 where their heads differ in length, 17 where it was given up.
Verdicts = Dict[Tuple[int, int], Union[Comparison, int]]


def _compared(record: Record, places: Sequence[int]) -> Verdicts:
    """Every place compared with every one."""
    found: Verdicts = {}
    for p in places:
        for q in places:
            try:
                found[p, q] = record.compare(p, q)
            except Refused as refused:
                if refused.number not in (8, 17):
                    raise
                found[p, q] = refused.number
    return found


def _counted(number: int, one: str, many: str) -> str:
    return f"{number} {one if number == 1 else many}"


# ---- the whole archive


def _overview(record: Record, definitions: Sequence[Definition]) -> str:
    """A line for each place."""
    rows = []
    for one in definitions:
        head = escape(Writer(one.long, one.variables, one.decode).rule(one.names).split(" :- ")[0])
        cells = [str(len(one.long.rows)), "never" if one.short.is_never else str(len(one.short.rows)), str(one.replaced)]
        numbers = "".join(f'<td class="number">{cell}</td>' for cell in cells)
        rows.append(f'<tr><th scope="row">{_link(one)}</th><td><code>{head}</code></td>{numbers}</tr>')
    titles = ["Query", "Head", "Rows of the long form", "Rows of the short form", "Variables replaced"]
    header = "".join(f'<th scope="col">{title}</th>' for title in titles)
    table = f'<table class="plain"><thead><tr>{header}</tr></thead><tbody>{"".join(rows)}</tbody></table>'
    kind = "functional dependencies" if record.join_dependencies else "dependencies"
    more = " Join dependencies make no form shorter." if record.join_dependencies else ""
    more += " Old codes are read as current ones; a long form has those that it was saved with." if record.code_pairs else ""
    return (
        '<h2 id="queries">Saved queries</h2>'
        f"<p>On every database that obeys the {kind} the short form has the answers of the long one, and no query "
        f'with those answers has fewer rows.{more}</p><div class="scroll">{table}</div>'
    )


def _matrix(definitions: Sequence[Definition], verdicts: Verdicts) -> str:
    """Which places are contained in which."""
    places = [one.place for one in definitions if one.place is not None]
    header = "".join(f'<th scope="col">in {q}</th>' for q in places)
    rows = []
    for p in places:
        cells = "".join(_verdict(p, q, verdicts) for q in places)
        rows.append(f'<tr><th scope="row"><a href="#place-{p}">Place {p}</a></th>{cells}</tr>')
    table = (
        '<table class="plain matrix"><caption class="dim">Is each answer of the place on the left an answer of the place '
        f'above?</caption><thead><tr><td></td>{header}</tr></thead><tbody>{"".join(rows)}</tbody></table>'
    )
    given_up = (
        " A question mark stands where the comparison was given up, since the join dependencies make the place on the left "
        f"longer than {MOST_CHASED_ROWS} rows."
    )
    return (
        '<h2 id="containment">Which is contained in which</h2>'
        "<p>A yes holds on every database that obeys the dependencies. A no leads to such a database with an answer that "
        f"is missing. A dash stands where the heads differ in length.{given_up if 17 in verdicts.values() else ''}</p>"
        f'<div class="scroll">{table}</div>'
    )


def _verdict(p: int, q: int, verdicts: Verdicts) -> str:
    """A cell of the matrix."""
    found = verdicts[p, q]
    same = " same" if p == q else ""
    if isinstance(found, int):
        sign = "?" if found == 17 else "\u2013"
        return f'<td class="none{same}">{sign}</td>'
    if found.contained:
        return f'<td class="yes{same}">\u2713 yes</td>'
    return f'<td class="no{same}"><a href="#place-{p}-not" title="Place {p} is not contained in place {q}">\u2717 no</a></td>'


def _schema(record: Record, names: Names) -> str:
    """The tables and what they obey."""
    tables = "".join(f"<li><code>{escape(str(table))}</code></li>" for table in names.tables)
    held = [f"<li><code>{escape(_arrow(format_dependency(one, names)))}</code></li>" for one in record.all_dependencies]
    dependencies = f"<ul>{''.join(held)}</ul>" if held else "<p>None.</p>"
    return f'<h2 id="tables">Tables</h2><ul>{tables}</ul><h2 id="dependencies">Dependencies</h2>{dependencies}{_renumbered(record, names)}'


def _renumbered(record: Record, names: Names) -> str:
    """The codes that were renumbered; nothing where none was."""
    if not record.code_pairs:
        return ""
    pairs = [f"{format_code(pair.old, names)} \u2192 {format_code(pair.current, names)}" for pair in record.code_pairs]
    return (
        '<h2 id="codes">Renumbered codes</h2><p>In every query and database the code on the left is read as the one on the right.</p>'
        f"<ul>{''.join(f'<li><code>{escape(pair)}</code></li>' for pair in pairs)}</ul>"
    )


def _arrow(text: str) -> str:
    """A dependency with an arrow; where no column stands before it, with the sign of the empty set and what that says."""
    if ": -> " in text:
        text = text.replace(": -> ", ": \u2205 -> ") + " (never varies)"
    return text.replace(" -> ", " \u2192 ")


def _link(one: Definition) -> str:
    return f'<a href="#{_at(one)}">{one.title}</a>'


def _at(one: Definition) -> str:
    return f"place-{one.place}"


# ---- one place


def _place(one: Definition, definitions: Sequence[Definition], verdicts: Verdicts) -> str:
    """A saved query: its two forms, what links them, and how it compares with the others."""
    long = _form(one, one.long, "Long form", _long_row(one))
    short = _form(one, one.short, "Short form", _short_row(one))
    rules = "\n".join(
        escape(f"{what}: {Writer(query, one.variables, one.decode).rule(one.names)}")
        for what, query in (("long", one.long), ("short", one.short))
    )
    return (
        f'<section id="{_at(one)}" aria-labelledby="{_at(one)}-title"><h2 id="{_at(one)}-title">{one.title}</h2>'
        f'<div class="scroll"><div class="forms">{long}{_lines(one)}{short}</div></div>'
        f"{_facts(one)}<details><summary>Both forms as rules</summary><pre>{rules}</pre></details>"
        f"{_others(one, definitions, verdicts)}</section>"
    )


# The class of a row, what stands in its first cell, and what stands in its last.
RowMarks = Callable[[int], Tuple[str, str, str]]


def _long_row(one: Definition) -> RowMarks:
    """A row of the long form: kept or dropped, and where the mapping takes it."""
    images, kept = one.images(), one.kept()

    def marks(position: int) -> Tuple[str, str, str]:
        state = "dropped" if kept[position] is None else "kept"
        if not images:
            return state, str(position + 1), f'<span class="name">{state}</span>\u00a0'
        target = images[position]
        colour = _colour(target)
        goes = f'<span class="name">{state}</span><span class="{colour}">\u2192\u00a0row\u00a0{target + 1}</span>'
        return f"{state} {'' if kept[position] is None else colour}".strip(), str(position + 1), goes

    return marks


def _short_row(one: Definition) -> RowMarks:
    """A row of the short form, and the row of the long form that it was."""
    origin = {target: position for position, target in enumerate(one.kept()) if target is not None}

    def marks(position: int) -> Tuple[str, str, str]:
        came = f'<span class="name">was {origin[position] + 1}</span>' if position in origin else ""
        return f"kept {_colour(position)}", f'{came}<span class="{_colour(position)}">{position + 1}</span>', ""

    return marks


def _colour(target: int) -> str:
    return f"k{target % COLOURS}"


def _form(one: Definition, query: Query, title: str, marks: RowMarks) -> str:
    """A form as a table: the head, then a line for each row, with the columns' names above the entries."""
    writer = Writer(query, one.variables, one.decode)
    rows = count(len(query.rows), "row")
    if query.is_never:
        caption = f"{title}: never"
        dashes = "".join('<td class="entry"><span class="any">_</span></td>' for _ in range(query.head_length))
        empty = "" if dashes else "<td></td>"
        body = f'<tr class="head"><td></td><th scope="row">ans</th>{dashes}{empty}</tr>'
        wide = max(query.head_length, 1)
        body += f'<tr><td></td><td colspan="{wide + 1}">No answer on any database{_why(one)}.</td></tr>'
        return _table(caption, wide, body, False)
    wide = max(len(query.head), *(len(row.entries) for row in query.rows))
    last = marks(0)[2] != ""
    head = "".join(_entry(writer, entry, "") for entry in query.head) + _blank(wide - len(query.head))
    end = "<td></td>" if last else ""
    body = f'<tr class="head"><td></td><th scope="row">ans</th>{head}{end}</tr>'
    for position, row in enumerate(query.rows):
        state, first, goes = marks(position)
        table = one.names.tables[row.relation]
        cells = "".join(_entry(writer, entry, name) for entry, name in zip(row.entries, table.columns))
        cells += _blank(wide - len(row.entries)) + (f'<td class="goes">{goes}</td>' if last else "")
        body += (
            f'<tr class="{state}"><th scope="row">{first}</th>'
            f'<th scope="row" class="table">{_breakable(table.name)}</th>{cells}</tr>'
        )
    return _table(f"{title}, {rows}", wide, body, last)


def _why(one: Definition) -> str:
    return "" if one.long.is_never else " that obeys the dependencies"


def _blank(cells: int) -> str:
    return f'<td colspan="{cells}"></td>' if cells > 0 else ""


def _table(caption: str, wide: int, body: str, last: bool) -> str:
    goes = '<th scope="col">Mapped to</th>' if last else ""
    header = f'<th scope="col">Row</th><th scope="col">Table</th><th scope="colgroup" colspan="{wide}">Entries</th>{goes}'
    return (
        f'<table class="form"><caption>{caption}</caption><thead><tr>{header}</tr></thead>'
        f"<tbody>{body}</tbody></table>"
    )


def _entry(writer: Writer, entry: Entry, column: str) -> str:
    """An entry under the name of its column."""
    text = writer.entry(entry)
    kind = "constant"
    if isinstance(entry, Variable):
        kind = "any" if text == "_" else "var"
    name = f'<span class="name">{_breakable(column)}</span>' if column else ""
    return f'<td class="entry">{name}<span class="{kind}">{escape(text)}</span></td>'


def _breakable(name: str) -> str:
    """A name that may be broken after an underscore."""
    return escape(name).replace("_", "_<wbr>")


def _lines(one: Definition) -> str:
    """The mapping drawn twice: from table to table where they stand beside each other, else from name to name."""
    if not one.images():
        return '<span class="lines"></span>'
    words = "; ".join(f"row {source + 1} to row {target + 1}" for source, target in enumerate(one.images()))
    label = f'role="img" aria-label="The mapping takes {words} of the short form."'
    unit = 16.0
    width, high, step = BETWEEN * unit, _height(one) * unit, ROW * unit
    drawn = [_line(0, width, step / 2, step / 2, "dim", False), *_drawn(one, 0, width, step, 1.5 * step)]
    wide = f'<svg class="lines" viewBox="0 0 {width:g} {high:g}" {label}>{"".join(drawn)}</svg>'

    side, step = 190.0, 24.0
    names = [_name(one, one.long, row, side - 8, step, "end") for row in range(len(one.long.rows))]
    names += [_name(one, one.short, row, side + width + 8, step, "start") for row in range(len(one.short.rows))]
    width, high = 2 * side + width, step * len(one.long.rows)
    drawn = [*names, *_drawn(one, side, width - side, step, step / 2)]
    return (
        f'{wide}<svg class="short-lines" width="{width / unit:g}rem" height="{high / unit:g}rem" viewBox="0 0 {width:g} {high:g}" {label}>'
        f'{"".join(drawn)}</svg>'
    )


def _drawn(one: Definition, left: float, right: float, step: float, first: float) -> List[str]:
    """A line for each row of the long form; those of dropped rows are dashed."""
    kept = one.kept()
    return [
        _line(left, right, first + source * step, first + target * step, _colour(target), kept[source] is None)
        for source, target in enumerate(one.images())
    ]


def _name(one: Definition, query: Query, row: int, at: float, step: float, anchor: str) -> str:
    """The number and the table of a row, as a label of a drawing."""
    name = one.names.tables[query.rows[row].relation].name
    while _ems(name) > 12.5:
        name = name.rstrip("\u2026")[:-1] + "\u2026"
    text = f"{name} {row + 1}" if anchor == "end" else f"{row + 1} {name}"
    return f'<text x="{at:g}" y="{(row + 0.5) * step + 4.5:g}" text-anchor="{anchor}">{escape(text)}</text>'


def _line(left: float, right: float, start: float, end: float, colour: str, loose: bool) -> str:
    """A line with an arrow's head."""
    tip, bend = right - 9, (left + right) / 2
    dashes = ' class="loose"' if loose else ""
    return (
        f'<g class="{colour}"><path{dashes} d="M {left + 3:g} {start:g} C {bend:g} {start:g} {bend:g} {end:g} {tip:g} {end:g}"/>'
        f'<path class="end" d="M {tip:g} {end - 4.5:g} L {right - 1:g} {end:g} L {tip:g} {end + 4.5:g} Z"/></g>'
    )


def _height(one: Definition) -> float:
    """How high the rows of the higher form are, the head among them."""
    return ROW * (1 + max(len(one.long.rows), len(one.short.rows)))


def _beside(one: Definition) -> str:
    """The style that sets the two forms beside each other where there is room."""
    width = _width(one, one.long, True) + BETWEEN + _width(one, one.short, False)
    return BESIDE.format(width=width, at=_at(one), between=f"{BETWEEN:g}", height=f"{_height(one):g}", above=f"{ABOVE:g}")


def _width(one: Definition, query: Query, last: bool) -> float:
    """About how wide a form is without breaks in its lines, in rem; rather too much than too little."""
    if query.is_never:
        return max(19.0 if one.long.is_never else 34.0, 8.0 + 2.0 * query.head_length)
    writer = Writer(query, one.variables, one.decode)
    columns = [0.0] * 8
    for position, entry in enumerate(query.head):
        columns[position] = _ems(writer.entry(entry))
    for row in query.rows:
        names = one.names.tables[row.relation].columns
        for position, entry in enumerate(row.entries):
            columns[position] = max(columns[position], _ems(writer.entry(entry)), _ems(names[position]) * 0.7)
    table = max(_ems(one.names.tables[row.relation].name) for row in query.rows) * 1.13
    return 3.5 + max(table, 2.3) + 1.2 + sum(wide + 1.2 for wide in columns if wide) + (5.1 if last else 0.0)


def _ems(text: str) -> float:
    """About how wide a text is in a wide font, in em."""
    found = 0.0
    for one in text:
        if unicodedata.east_asian_width(one) in "WF":
            found += 1.05
        elif one in "mwMW%@&":
            found += 0.95
        else:
            found += 0.38 if one in "fijlrt.,:;'|!()[] " else 0.63
    return found


def _facts(one: Definition) -> str:
    """The mapping of the variables, the dependencies that are needed, and the count."""
    facts: List[Tuple[str, str]] = []
    if one.mapping is not None:
        short = Writer(one.short, one.variables, one.decode)

        def image(entry: Entry) -> str:
            text = escape(short.entry(entry))
            return f"<var>{text}</var>" if isinstance(entry, Variable) else text

        images = [
            f"<var>{escape(variable_text(number, one.variables))}</var>\u00a0\u21a6\u00a0{image(entry)}"
            for number, entry in one.named().items()
        ]
        note = ' <span class="dim">(a variable that stands once is written _)</span>'
        facts.append(("Mapping of the variables", ", ".join(images) + note if images else "as its rows"))
    needed = [_arrow(format_dependency(one.dependencies[number], one.names)) for number in one.used]
    without = "none: the two forms have the same answers on every database"
    facts.append(("Dependencies needed", _codes(needed) or without))
    if one.join_dependencies:
        facts.append(("Join dependencies, which the short form does not use", _codes(format_dependencies(one.join_dependencies, one.names))))
    if one.old_codes():
        facts.append(("Old codes of the long form", _codes(is_read(pair, one.names) for pair in one.old_codes())))
    facts.append(("Replaced by the dependencies", count(one.replaced, "variable")))
    return "<dl>" + "".join(f"<dt>{name}</dt><dd>{text}</dd>" for name, text in facts) + "</dl>"


def _codes(texts: Iterable[str]) -> str:
    return "; ".join(f"<code>{escape(text)}</code>" for text in texts)


def _others(one: Definition, definitions: Sequence[Definition], verdicts: Verdicts) -> str:
    """How the place compares with the others, with a counterexample where it is not contained."""
    assert one.place is not None
    p = one.place
    others = [other.place for other in definitions if other.place is not None and other.place != p]
    inside = [q for q in others if _holds(verdicts[p, q])]
    same = [q for q in inside if _holds(verdicts[q, p])]
    lines = []
    if same:
        lines.append(f"<p>It has the same answers as {_places(same)}.</p>")
    larger = [q for q in inside if q not in same]
    if larger:
        lines.append(f"<p>Each of its answers is an answer of {_places(larger)}.</p>")
    # The engine shows the same database for every place that an answer is missing from.
    examples: Dict[Tuple[Tuple[DataRow, ...], Tuple[int, ...]], List[int]] = {}
    for q in others:
        found = verdicts[p, q]
        example = None if isinstance(found, int) else found.counterexample()
        if example is not None:
            examples.setdefault((tuple(example[0]), example[1]), []).append(q)
    for number, ((rows, answer), missing) in enumerate(examples.items()):
        at = f' id="{_at(one)}-not"' if number == 0 else ""
        shown = escape(f"ans({', '.join(text for text, _ in map(_value(one), answer))})")
        lines.append(
            f'<div class="example">'
            f"<h3{at}>Not contained in {_places(missing)}</h3>"
            f"<p>This database obeys the dependencies. There <code>{shown}</code> is an answer of place {p} "
            f"and not of {_places(missing)}. A name stands for a value of its own, "
            "unlike every other value here and in the archive.</p>"
            f"{_database(one, rows)}</div>"
        )
    return "".join(lines)


def _holds(found: Union[Comparison, int]) -> bool:
    return not isinstance(found, int) and found.contained


def _places(places: Sequence[int]) -> str:
    """`place 1`, `places 1 and 2`, `places 1, 2 and 3`."""
    texts = [f'<a href="#place-{place}">{place}</a>' for place in places]
    if len(texts) == 1:
        return f"place {texts[0]}"
    return f"places {', '.join(texts[:-1])} and {texts[-1]}"


def _value(one: Definition) -> Callable[[int], Tuple[str, str]]:
    """A value of a counterexample and its kind: a variable's name, or what a constant stands for."""

    def text(number: int) -> Tuple[str, str]:
        if number >= FROZEN:
            return variable_text(number - FROZEN, one.variables), "var"
        return format_value(one.decode(number)), "constant"

    return text


def _database(one: Definition, rows: Iterable[DataRow]) -> str:
    """The rows of a database, a table for each relation that has some."""
    held = list(rows)
    tables = []
    for relation, table in enumerate(one.names.tables):
        body = "".join(
            "<tr>" + "".join(f'<td class="{kind}">{escape(text)}</td>' for text, kind in map(_value(one), values)) + "</tr>"
            for number, values in held
            if number == relation
        )
        if body:
            header = "".join(f'<th scope="col">{escape(column)}</th>' for column in table.columns)
            tables.append(
                f"<table><caption>{escape(table.name)}</caption>"
                f"<thead><tr>{header}</tr></thead><tbody>{body}</tbody></table>"
            )
    return f'<div class="scroll"><div class="tables">{"".join(tables)}</div></div>'
