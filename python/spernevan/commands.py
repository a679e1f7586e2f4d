"""What each command does. A command takes its options and gives its status; command.py has the usage."""

from __future__ import annotations

import argparse
import json
import os
import sys
from contextlib import nullcontext
from typing import Callable, Dict, Iterable, List, Optional, Sequence, Tuple, Union

from .data import Database, DataError, column_of
from .definition import Definition, define, define_all, define_query
from .engine import Refused
from .files import (
    FILE_BYTES,
    Failure,
    is_text,
    is_utf8,
    kind_of,
    locked,
    may_be_archive,
    may_be_encoded,
    names_path,
    read_bytes,
    read_names_beside,
    read_while,
    settled,
    shown,
    standard_input,
    text_of,
    write_files,
)
from .layout import comparison_json, frozen_text, reduction_json, set_mapping, set_tables, write_answers
from .model import FROZEN, PLACES, AnyDependency, CodePair, readings
from .notation import (
    Names,
    NotationError,
    Reader,
    blanked,
    constants,
    count,
    format_codes,
    format_columns,
    format_dependencies,
    format_dependency,
    format_query,
    format_row,
    never_varies,
    parse_added,
    parse_rule,
)
from .page import page
from .publish import Shape, reduction_text, render, render_one, write_definition
from .record import AnyBroken, Asked, BrokenJoin, Comparison, Record
from .sources import Csv, read_for_command
from .sql import labels
from .text import pack, unpack
from .values import Value, read_cell, read_literal

YES, NO, TROUBLE = 0, 1, 2

Options = argparse.Namespace


# ---- files


def load_record(file: str, names: Optional[str] = None, plain: bool = False) -> Tuple[Record, bool]:
    """The record of an archive file or of a text, and whether it was a text."""
    data, text = read_while(file, FILE_BYTES, is_text)
    may_be_archive(file, data)
    if text:
        if names is not None:
            raise Failure(f"{shown(file)} is a text, which has its names in it; --names is for archive files")
        record, _ = pack(text_of(data, file), shown(file))
        return (Record(record.file) if plain else record), True
    if not data:
        raise Failure(f"{shown(file)} is empty: neither an archive file nor the text of one")
    try:
        record = Record(data)
    except Refused as refused:
        raise Failure(f"{shown(file)} is no archive file, and no text: {refused.meaning}") from None
    if plain:
        return record, False
    codes = record.codes()
    found = None if names is None and file == "-" else read_names_beside(file, data, names, codes)
    lacking = codes if found is None else found.names.lacking(codes)
    if lacking:
        path = names or names_path(file)
        no_file = "comes without its names" if file == "-" else f"no names file, {path}, beside it"
        say(
            f"spernevan: {shown(file)} has the constant {lacking[0]} and {no_file if found is None else f'{path} has no line for it'}: "
            f"if it is a code for a text or a date, what it stands for is lost; --plain takes it for a number"
        )
    if found is not None:
        try:
            record = record.named(found.names)
            record.names
        except ValueError as error:
            raise Failure(f"{names or names_path(file)}: {error} ({shown(file)}); --names NAMES takes others, and --plain goes without names") from None
    return record, False


def load(options: Options) -> Tuple[Record, Names]:
    """The record that FILE has, and its names."""
    record, _ = settled(options.file, lambda: load_record(options.file, options.names, options.plain))
    return record, record.names


def _changing(change: Callable[[Options], int]) -> Callable[[Options], int]:
    """A command that changes an archive file: from reading to writing no other may change it. A rule on standard input is read before."""

    def command(options: Options) -> int:
        for name in ("query", "rule"):
            if str(getattr(options, name, "")).strip() == "-":
                setattr(options, name, rule_of("-"))
        out = options.output or options.file
        if out == "-":
            return change(options)
        with locked(out):
            return change(options)

    return command


def save(options: Options, record: Record, was_text: bool, said: str) -> None:
    """Writes a changed record: to --output, else in place; to standard output in the form in which it came."""
    out = options.output or options.file
    if out == "-":
        write_out(unpack(record, record.names).encode() if was_text else record.file)
        return
    if was_text and os.path.realpath(out) == os.path.realpath(options.file):
        raise Failure(f"{out} is a text: pack it first, or say with --output where the new text or archive file goes; a text is changed in an editor")
    if _names_a_text(out):
        write_text(out, unpack(record, record.names))
    else:
        record.write(out)
    print(f"{out}: {said}")


def _names_a_text(path: str) -> bool:
    """Whether a file is called as a text is."""
    return path.lower().endswith((".text", ".txt"))


def write_text(path: str, text: str) -> None:
    """Writes the text of an archive to a new file."""
    if os.path.isfile(path):
        raise Failure(f"{path} is there already, and may have comments that would be lost: write elsewhere, or remove it first")
    write_files([(path, text.encode())])


def write_out(data: bytes) -> None:
    """Bytes on standard output."""
    sys.stdout.flush()
    sys.stdout.buffer.write(data)
    sys.stdout.buffer.flush()


def say(text: str) -> None:
    """A line on standard error, if it is open."""
    if sys.stderr is not None:
        print(text, file=sys.stderr, flush=True)


# ---- places and rules


def place_or_rule(text: str) -> Union[int, str]:
    """A place or a rule on the command line; `-` is a rule on standard input. The engine turns away places above 7."""
    word = text.strip()
    if word.isascii() and word.isdigit():
        return int(word.lstrip("0")[:20] or "0")
    if word == "-" or word.startswith("ans"):
        return word
    raise argparse.ArgumentTypeError(f"{text!r} is neither a place, 0 to {PLACES - 1}, nor a rule, ans(..) :- ..")


def place(text: str) -> int:
    """A place on the command line."""
    word = text.strip()
    found = place_or_rule(word) if word.isascii() and word.isdigit() else None
    if not isinstance(found, int):
        raise argparse.ArgumentTypeError(f"{text!r} is not a place; places go from 0 to {PLACES - 1}")
    return found


def output(text: str) -> str:
    """The name of a file to write. An empty one, as of a variable of the shell that is not set, stands for none."""
    if not text:
        raise argparse.ArgumentTypeError("the name of the file is empty")
    return text


def separator(text: str) -> str:
    """The sign between cells on the command line."""
    sign = {"tab": "\t", "\\t": "\t"}.get(text, text)
    try:
        Csv(separator=sign)
    except ValueError as error:
        raise argparse.ArgumentTypeError(str(error)) from None
    return sign


def rule_of(asked: str) -> str:
    """The text of a rule: the argument, or standard input for `-`."""
    if asked.strip() != "-":
        return asked
    return text_of(standard_input().read(), "-")


_READ = {
    "file": "the archive",
    "names": "the names",
    "p": "the first rule",
    "q": "the second rule",
    "query": "the rule",
    "rule": "the rule",
    "data": "the data",
}


def read_once(options: Options) -> None:
    """Failure if standard input is named for two things."""
    named: List[str] = []
    for name, what in _READ.items():
        if name == "file" and options.run is pack_command:
            continue
        value = getattr(options, name, None)
        named += [what for word in (value if isinstance(value, list) else [value]) if isinstance(word, str) and word.strip() == "-"]
    if len(named) > 1:
        both = f"can be {named[0]} or {named[1]}, not both" if named[0] != named[1] else f"is named twice for {named[0]}, and can be read once"
        raise Failure(f"standard input {both}")


class Subject:
    """A query that a command is about: what to call it, its query, and the names of its variables."""

    def __init__(self, record: Record, asked: Union[int, str], title: str) -> None:
        self.variables: Dict[int, str]
        self.asked: Asked
        if isinstance(asked, int):
            self.title, self.asked, self.query = f"place {asked}", asked, record.query(asked)
            self.variables = record.names.variables.get(asked, {})
            self.shown: Union[int, str] = asked
        else:
            self.query, self.variables = parse_rule(rule_of(asked), record.names)
            self.title, self.asked = title, self.query
            self.shown = format_query(self.query, record.names, blanked(self.query, self.variables))


# ---- the commands


def list_command(options: Options) -> int:
    shape = shape_of(options)
    record, names = load(options)
    found = [Subject(record, place, "") for place in record.filled()]
    if options.format != "text" or options.form is not None:
        if options.json:
            raise Failure("--form does not go with --json; it goes with --format json")
        text = render(define_all(record, names, names.values.decode), shape)
    elif options.json:
        shapes = [{"place": one.asked, **reduction_json(one.query, record.shorten(one.asked), names, one.variables)} for one in found]
        text = json.dumps(shapes, indent=2) + "\n"
    else:
        text = "\n".join(_reduced(record, one) for one in found) or "Every place is vacant.\n"
    write_definition(text, options.output)
    return YES


def shape_of(options: Options) -> Shape:
    """What the options say of how definitions are printed. Failure if one does not go with the format."""
    for name, given, goes in (
        ("--dialect", options.dialect, "sql"),
        ("--without-null", options.without_null, "sql"),
        ("--fragment", options.fragment, "latex"),
    ):
        if given and options.format != goes:
            raise Failure(f"{name} goes with --format {goes}")
    return Shape(options.format, options.form, options.dialect or "sqlite", options.fragment, options.without_null)


def define_command(options: Options) -> int:
    shape = shape_of(options)
    record, names = load(options)
    write_definition(render_one(_defined(Subject(record, options.query, "the rule"), record, names), shape), options.output)
    return YES


def _defined(one: Subject, record: Record, names: Names) -> Definition:
    """The definition of a place or of a rule."""
    if isinstance(one.asked, int):
        return define(record, names, one.asked, names.values.decode)
    return define_query(record, names, one.query, one.variables, names.values.decode)


def page_command(options: Options) -> int:
    record, names = load(options)
    title = options.title or ("Archive" if options.file == "-" else os.path.basename(options.file))
    write_definition(page(record, names, title, names.values.decode), options.output)
    return YES


def _reduced(record: Record, one: Subject) -> str:
    return f"{one.title[:1].upper()}{one.title[1:]}\n{reduction_text(_defined(one, record, record.names))}"


def show_command(options: Options) -> int:
    record, names = load(options)
    if not options.query:
        print(unpack(record, names), end="")
        return YES
    found = [Subject(record, asked, "the rule") for asked in options.query]
    if options.json:
        shapes = [{"query": one.shown, **reduction_json(one.query, record.shorten(one.asked), names, one.variables)} for one in found]
        print(json.dumps(shapes, indent=2))
    else:
        print("\n".join(_reduced(record, one) for one in found), end="")
    return YES


def _compared(record: Record, p: Subject, q: Subject, compared: Comparison, verdict: str = "Not contained.") -> List[str]:
    """A comparison for people; `verdict` begins a no."""
    names = record.names
    example = compared.counterexample()
    if example is None:
        lines = ["Contained: on every database that obeys the dependencies,", f"each answer of {p.title} is an answer of {q.title}."]
        if compared.mapping is None:
            return [*lines, f"The dependencies leave {p.title} without an answer."]
        lines.append(f"Mapping from {q.title} to {p.title} with the dependencies applied:")
        return [*lines, set_mapping(compared.mapping, q.variables, p.variables, names.values)]
    answer = format_row("ans", [frozen_text(value, names, p.variables) for value in example[1]])
    lines = [f"{verdict} This database obeys the dependencies:", *set_tables(example[0], names, p.variables)]
    lines.append(f"There {answer} is an answer of {p.title} and not of {q.title}.")
    if any(value >= FROZEN for _, values in example[0] for value in values):
        lines.append("A name stands for a value of its own, unlike every other value here and in the archive.")
    return lines


def _two(options: Options) -> Tuple[Record, Subject, Subject]:
    record, _ = load(options)
    rules = isinstance(options.p, str) and isinstance(options.q, str)
    p = Subject(record, options.p, "the first rule" if rules else "the rule")
    return record, p, Subject(record, options.q, "the second rule" if rules else "the rule")


def _compare(record: Record, p: Subject, q: Subject) -> Union[Comparison, Refused]:
    """A comparison; if it is given up, the refusal, which says what is too long."""
    try:
        return record.compare(p.asked, q.asked)
    except Refused as refused:
        if refused.number != 17:
            raise
        return Refused(17, refused.meaning.replace("the first query", p.title))


def compare_command(options: Options) -> int:
    record, p, q = _two(options)
    compared = _compare(record, p, q)
    if isinstance(compared, Refused):
        raise compared
    if options.json:
        print(json.dumps({"p": p.shown, "q": q.shown, **comparison_json(compared, record.names, p.variables, q.variables)}, indent=2))
    else:
        print("\n".join(_compared(record, p, q, compared)))
    return YES if compared.contained else NO


def equivalent_command(options: Options) -> int:
    record, p, q = _two(options)
    ways = [(one, other, _compare(record, one, other)) for one, other in ((p, q), (q, p))]
    no = [(one, other, compared) for one, other, compared in ways if isinstance(compared, Comparison) and not compared.contained]
    for _, _, compared in ways:
        if isinstance(compared, Refused) and not no:
            raise compared
    if options.json:
        there, back = (
            comparison_json(compared, record.names, one.variables, other.variables) if isinstance(compared, Comparison) else None
            for one, other, compared in ways
        )
        print(json.dumps({"p": p.shown, "q": q.shown, "equivalent": not no, "p_in_q": there, "q_in_p": back}, indent=2))
    elif no:
        one, other, found = no[0]
        verdict = f"Not equivalent: {one.title} is not contained in {other.title}."
        print("\n".join(_compared(record, one, other, found, verdict)))
    else:
        print(f"Equivalent: {p.title} and {q.title} have the same answers on every database that obeys the dependencies.")
    return NO if no else YES


def _data(options: Options, record: Record, query: Optional[Asked] = None) -> Database:
    """The database of DATA; for a query, what cannot change its answers need not be sound."""
    for column in options.text:
        try:
            column_of(column, record.names)
        except DataError as error:
            raise Failure(f"--text {column}: {error}") from None
    form = Csv(tuple(options.text), options.decimal, options.separator)
    return read_for_command(options.data, record, _nulls(options.null, record.names), form, sys.stderr, query)


def _nulls(given: Sequence[str], names: Names) -> Dict[Optional[str], Value]:
    """What NULL stands for, by columns: `flight.site=VALUE`, or a value for all others, under None."""
    found: Dict[Optional[str], Value] = {}
    for text in given:
        column: Optional[str] = None
        value = text
        if "=" in text and text[:1] not in ("'", '"'):
            column, _, value = text.partition("=")
            try:
                column_of(column, names)
            except DataError as error:
                raise Failure(f"--null {text}: {error}; a text with = in it stands between quotes") from None
        if column in found:
            raise Failure(f"--null says twice what NULL stands for{'' if column is None else f' in {column}'}")
        found[column] = _null(value)
    return found


def _null(text: str) -> Value:
    """What NULL stands for: a literal, or the text as it is."""
    try:
        return read_literal(text) if text[:1] in ("'", '"') and text[-1:] == text[:1] and len(text) > 1 else read_cell(text)
    except ValueError:
        return text


def _say_notes(database: Database, relations: Iterable[int]) -> None:
    """Says what is to be known of how some tables were read."""
    asked = set(relations)
    for note in database.notes:
        if note.relation is None or note.relation in asked:
            say(f"spernevan: {note.text}")


def _broken(record: Record, database: Database, broken: AnyBroken) -> List[str]:
    """A broken dependency for people."""
    dependency = format_dependency(record.dependency_of(broken), record.names)
    read = [f"  {line}" for line in record.read_in(broken, database)]
    if not isinstance(broken, BrokenJoin):
        rows = [f"  {database.say(position)}" for position in (broken.first, broken.second)] + read
        says = never_varies(record.dependency_of(broken), record.names)
        meaning = f", by which {says}" if says else ""
        return [f"Breaks {dependency} (dependency {broken.dependency}){meaning}:", *rows]
    join = record.join_dependencies[broken.dependency]
    rows = [
        f"  {database.say(position)} gives {format_columns(join.relation, sorted(columns), record.names)}" for position, columns in zip(broken.rows, join.sets)
    ]
    return [f"Breaks {dependency} (join dependency {broken.dependency}):", *rows, f"  missing: {record.missing(broken, database)}", *read]


def evaluate_command(options: Options) -> int:
    record, names = load(options)
    asked = Subject(record, options.query, "the rule")
    database = _data(options, record, asked.asked)
    relations = [row.relation for row in asked.query.rows]
    record.has_tables(database, relations, "the query asks for")
    _say_notes(database, relations)
    double = database.text_and_number(relations, [*constants(asked.query), *record.renumbered()], readings(record.pairs_for(database)))
    if double is not None:
        say(
            f"spernevan: the text '{double}' and the number {double} are different values, and both are here; "
            f"a query{' or a renumbered code' if record.code_pairs else ''} has the text between quotes" + (", and --text TABLE.COLUMN takes a column of CSV as text" if database.has_cells else "")
        )
    meant = database.text_as_variable(asked.query, asked.variables)
    if meant is not None:
        say(f"spernevan: {meant}; a text stands between quotes")
    with database.progress.during("testing the dependencies"):
        broken = record.broken(database, relations)
    if broken is not None:
        for line in _broken(record, database, broken):
            say(line)
        said = record.consequence(broken, asked.query)
        say(f"{said[:1].upper()}{said[1:]}.")
    if options.count:
        with database.progress.during("counting the answers"):
            number = record.count(asked.asked, database, tested=True)
        print(number)
        return YES
    with database.progress.during("looking for answers"):
        answers = record.evaluate(asked.asked, database, tested=True)
    with nullcontext() if sys.stdout.isatty() else database.progress.during("writing the answers"):
        write_answers(answers, labels(asked.query, names, asked.variables), options.format, sys.stdout)
    return YES


def test_command(options: Options) -> int:
    record, _ = load(options)
    database = _data(options, record)
    _say_notes(database, [dependency.relation for dependency in record.all_dependencies])
    with database.progress.during("testing the dependencies"):
        broken = record.test(database)
    if broken is None:
        print(f"Obeys: {count(len(database), 'row')}, {count(len(record.all_dependencies), 'dependency')}")
        return YES
    print("\n".join(_broken(record, database, broken)))
    return NO


def determined_command(options: Options) -> int:
    record, names = load(options)

    def one(text: str, take: Callable[[Reader], int]) -> int:
        try:
            reader = Reader(text, "arguments")
            found = take(reader)
            reader.take("end", "one name")
            return found
        except NotationError as error:
            raise Failure(error.message) from None

    relation = one(options.table, names.relation)
    left = [one(column, lambda reader: names.column(relation, reader)) for column in options.column]
    columns = sorted(record.determined(relation, left))
    shown = format_columns(relation, columns, names)
    if left:
        said = f"{format_columns(relation, sorted(set(left)), names)} determines {shown}"
    elif columns:
        said = f"{shown} never {'varies' if len(columns) == 1 else 'vary'}"
    else:
        said = "no column has to be the same in all rows"
    print(f"{names.tables[relation].name}: {said} ({len(columns)} of {count(record.widths[relation], 'column')})")
    return YES


def pack_command(options: Options) -> int:
    data = read_bytes(options.text)
    if data[1:2] == b"\0":
        raise Failure(f"{shown(options.text)} is no text; if it is an archive file, unpack makes a text of it")
    kind = kind_of(data)
    if kind is not None or not may_be_encoded(data) and not is_utf8(data):
        raise Failure(f"{shown(options.text)} is {kind or 'no text'}, where the text of an archive was expected, as samples/flights.text is one")
    record, _ = pack(text_of(data, options.text), shown(options.text))
    if options.file == "-":
        write_out(record.file)
        say("spernevan: standard output has the archive without the names")
        return YES
    path = names_path(options.file)
    if os.path.realpath(path) == os.path.realpath(options.text):
        raise Failure(f"{options.text} is where the names of {options.file} go: give the archive file another name")
    if _names_a_text(options.file) and not os.path.exists(options.file):
        raise Failure(f"{options.file} is a name for a text; an archive file has another ending, such as .file")
    with locked(options.file):
        record.write(options.file)
    print(f"{options.file}: {len(record.file)} bytes; names in {path}")
    return YES


def unpack_command(options: Options) -> int:
    record, names = load(options)
    text = unpack(record, names)
    if options.text == "-":
        print(text, end="")
        return YES
    write_text(options.text, text)
    print(f"{options.text}: {count(len(text.splitlines()), 'line')}")
    return YES


@_changing
def put_command(options: Options) -> int:
    record, was_text = load_record(options.file)
    query, variables = parse_rule(rule_of(options.rule), record.names)
    record = record.put(options.place, query, variables)
    save(options, record, was_text, f"place {options.place} holds {format_query(query, record.names, blanked(query, variables))}")
    return YES


@_changing
def drop_command(options: Options) -> int:
    twice = [place for position, place in enumerate(options.place) if place in options.place[:position]]
    if twice:
        raise Failure(f"place {twice[0]} is named twice")
    record, was_text = load_record(options.file)
    for place in options.place:
        record.drop(place)
    for place in options.place:
        record = record.drop(place)
    save(options, record, was_text, f"vacant now: {', '.join(map(str, options.place))}")
    return YES


@_changing
def add_command(options: Options) -> int:
    record, was_text = load_record(options.file)
    given = dict.fromkeys(one for text in options.added for one in parse_added(text, record.names))
    dependencies: List[AnyDependency] = [one for one in given if not isinstance(one, CodePair)]
    pairs = [one for one in given if isinstance(one, CodePair)]
    new = [one for one in dependencies if one not in record.all_dependencies]
    new_pairs = [one for one in pairs if one not in record.code_pairs]
    after = record.add_all([*new, *new_pairs])
    said = []
    if dependencies:
        said.append(f"{count(len(new), 'dependency')} added, {len(after.all_dependencies)} in all")
    if pairs:
        said.append(f"{count(len(new_pairs), 'renumbered code')} added, {len(after.code_pairs)} in all")
    again = format_dependencies([one for one in dependencies if one in record.all_dependencies], record.names)
    again += format_codes([one for one in pairs if one in record.code_pairs], record.names)
    if again:
        said.append(f"held already: {'; '.join(again)}")
    save(options, after, was_text, "; ".join(said))
    return YES


@_changing
def reduce_command(options: Options) -> int:
    record, was_text = load_record(options.file)
    asked = Subject(record, options.query, "the rule")
    vacant = record.vacant()
    if options.target is None and not vacant:
        raise Failure(f"{shown(options.file)}: every place is filled: drop one first")
    target = vacant[0] if options.target is None else options.target
    if isinstance(asked.asked, int):
        short = record.reduce(asked.asked, target)
        record = short.record
    else:
        short = record.shorten(asked.asked)
        held = {number: asked.variables[number] for number in short.result.variables() if number in asked.variables}
        record = record.put(target, short.result, held)
    rule = format_query(short.result, record.names, blanked(short.result, asked.variables))
    save(options, record, was_text, f"place {target} holds the short form of {asked.title}, {count(len(short.result.rows), 'row')}: {rule}")
    return YES
