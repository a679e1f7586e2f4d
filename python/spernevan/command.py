"""The command: `spernevan COMMAND ..`, or `python3 -m spernevan COMMAND ..`.

FILE is an archive file, with the names file beside it (flights.names for flights.file) if there is one;
or the text of an archive; or `-` for standard input. The status is 0 for done or yes, 1 for no (a broken
dependency, not contained, not equivalent), and 2 for what cannot be read, is refused, or is bad usage.
"""

from __future__ import annotations

import argparse
import os
import signal
import subprocess
import sys
from pathlib import Path
from typing import Any, Callable, NoReturn, Optional, Sequence

from . import __version__, engine, sql
from .commands import (
    TROUBLE,
    Options,
    add_command,
    compare_command,
    define_command,
    determined_command,
    drop_command,
    equivalent_command,
    evaluate_command,
    list_command,
    output,
    pack_command,
    page_command,
    place,
    place_or_rule,
    put_command,
    read_once,
    reduce_command,
    say,
    separator,
    show_command,
    test_command,
    unpack_command,
)
from .engine import EngineMissing, Refused
from .files import Failure, shown
from .publish import FORMATS

__all__ = ["main", "run", "usage"]


class Parser(argparse.ArgumentParser):
    """A parser whose error is one line, and whose help does not pass over an output that is full."""

    def error(self, message: str) -> NoReturn:
        self.exit(TROUBLE, f"{self.prog}: {message}; {self.prog} --help says more\n")

    def _print_message(self, message: str, file: Any = None) -> None:
        if file is sys.stdout:
            sys.stdout.write(message)
            sys.stdout.flush()
        else:
            super()._print_message(message, file)


def usage() -> Parser:
    parser = Parser(
        prog="spernevan",
        description="Shortens, compares and runs the saved queries of an archive file.",
        epilog="FILE is an archive file, the text of one, or - for standard input. "
        "Status: 0 done or yes, 1 no, 2 bad input or usage. COMMAND --help says more.",
    )
    parser.add_argument("--version", action="version", version=f"spernevan {__version__}")
    commands = parser.add_subparsers(metavar="COMMAND", required=True)

    def command(name: str, run: Callable[[Options], int], text: str, more: str = "") -> argparse.ArgumentParser:
        made = commands.add_parser(name, help=text, description=text[:1].upper() + text[1:] + "." + more)
        made.set_defaults(run=run)
        return made

    def on_file(name: str, run: Callable[[Options], int], text: str, more: str = "") -> argparse.ArgumentParser:
        made = command(name, run, text, more)
        made.add_argument("file", metavar="FILE", help="an archive file, the text of one, or - for standard input")
        made.add_argument("--names", metavar="NAMES", help="a names file other than the one beside FILE")
        made.add_argument("--plain", action="store_true", help="no names: tables R0, R1, .., variables v0, v1, .., constants as numbers")
        return made

    def changing(name: str, run: Callable[[Options], int], text: str, more: str = "") -> argparse.ArgumentParser:
        made = command(name, run, text, more)
        made.add_argument("file", metavar="FILE", help="an archive file, which is changed; or a text, with --output; or - for standard input")
        made.add_argument(
            "-o",
            "--output",
            metavar="OUT",
            type=output,
            help="a file to write instead of FILE: a text if its name ends in .text or .txt, else an archive file; "
            "or - for standard output, in the form of FILE",
        )
        return made

    def with_data(made: argparse.ArgumentParser) -> None:
        made.add_argument(
            "data",
            metavar="DATA",
            nargs="+",
            help="rows of text such as flight(1, 'Lindenberg') (- for standard input), a folder of CSV files or one such file, or an SQLite file",
        )
        made.add_argument(
            "--null",
            metavar="[TABLE.COLUMN=]VALUE",
            action="append",
            default=[],
            help="what NULL, or an empty cell of CSV, stands for, in one column or in all others; without this it is refused",
        )
        made.add_argument(
            "--text",
            metavar="TABLE.COLUMN",
            action="append",
            default=[],
            help="a column of CSV files whose cells are texts, also where they look like numbers",
        )
        made.add_argument("--decimal", metavar="SIGN", choices=(".", ","), default=".", help="the sign of decimals in CSV files, . or , (. if not given)")
        made.add_argument(
            "--separator", metavar="SIGN", type=separator, help="the sign between the cells of CSV files, or tab (if not given, the header tells)"
        )

    functional = " The short form is judged under the functional dependencies only: join dependencies do not make it shorter."
    query = "a place, 0 to 7, or a rule, 'ans(x) :- ..', or - for a rule on standard input"
    for_programs = "print JSON, for programs"

    def written(made: argparse.ArgumentParser) -> None:
        made.add_argument("-o", "--output", metavar="OUT", type=output, help="a file to write; without it, or with -, it is printed")

    def shaped(made: argparse.ArgumentParser, json_too: bool = False) -> None:
        group = made.add_mutually_exclusive_group()
        if json_too:
            group.add_argument("--json", action="store_true", help=for_programs)
        group.add_argument("--format", choices=FORMATS, default="text", help="what to print (text if not given)")
        made.add_argument("--form", choices=sql.FORMS, help="only this form; SQL is of the short form if not given")
        made.add_argument("--dialect", choices=sql.DIALECTS, help="of SQL (sqlite if not given)")
        made.add_argument("--without-null", action="store_true", help="SQL that passes over rows with a NULL")
        made.add_argument("--fragment", action="store_true", help="LaTeX to be \\input, not a document")
        written(made)

    made = on_file("list", list_command, "print each saved query, its short form, the mapping and the count, or definitions in LaTeX, SQL or JSON", functional)
    shaped(made, json_too=True)
    made = on_file("show", show_command, "print an archive as text, or some of its queries, or rules, with their short forms", functional)
    made.add_argument("query", metavar="QUERY", nargs="*", default=[], type=place_or_rule, help=query)
    made.add_argument("--json", action="store_true", help=for_programs)
    for name, run, text in (
        ("compare", compare_command, "say whether each answer of P is an answer of Q on every database that obeys the dependencies"),
        ("equivalent", equivalent_command, "say whether P and Q have the same answers on every database that obeys the dependencies"),
    ):
        made = on_file(name, run, text)
        made.add_argument("p", metavar="P", type=place_or_rule, help=query)
        made.add_argument("q", metavar="Q", type=place_or_rule, help=query)
        made.add_argument("--json", action="store_true", help=for_programs)
    made = on_file("evaluate", evaluate_command, "print the answers of a query on a database")
    made.add_argument("query", metavar="QUERY", type=place_or_rule, help=query)
    with_data(made)
    group = made.add_mutually_exclusive_group()
    group.add_argument(
        "--format", choices=("rows", "csv", "json"), default="rows", help="rows such as ans(101, 31200), or CSV or JSON with the names of the columns"
    )
    group.add_argument("--count", action="store_true", help="print how many answers there are, and nothing else")
    with_data(on_file("test", test_command, "say whether a database obeys the dependencies, functional and join dependencies"))
    made = on_file("determined", determined_command, "print the columns that some columns determine by the functional dependencies, or those that never vary")
    made.add_argument("table", metavar="TABLE", help="the name of a table")
    made.add_argument("column", metavar="COLUMN", nargs="*", default=[], help="the name of a column of it; without any, the columns that never vary are printed")
    made = changing("reduce", reduce_command, "put the short form of a query into a vacant place", functional)
    made.add_argument("query", metavar="QUERY", type=place_or_rule, help=query)
    made.add_argument("target", metavar="PLACE", nargs="?", type=place, help="the vacant place, 0 to 7; without it, the first")
    made = changing("put", put_command, "put a rule into a vacant place")
    made.add_argument("place", metavar="PLACE", type=place, help="the vacant place, 0 to 7")
    made.add_argument("rule", metavar="RULE", help="a rule, 'ans(x) :- ..', or - for one on standard input")
    made = changing("drop", drop_command, "make places vacant")
    made.add_argument("place", metavar="PLACE", nargs="+", type=place, help="a filled place, 0 to 7")
    made = changing("add", add_command, "add dependencies, or codes that were renumbered, after those held")
    made.add_argument(
        "added",
        metavar="DEPENDENCY",
        nargs="+",
        help="as in 'layer: flight, level -> height, temperature', or a column that never varies, 'flight: -> site', "
        "or a key, 'layer(flight*, level*, height, temperature)', or a join dependency, 'layer: join (flight, level, height) (flight, level, temperature)'; "
        "or a code that was renumbered and the one that it has now, 'code 4103 -> 8103'",
    )
    made = command("pack", pack_command, "make an archive file, and its names file, from a text")
    made.add_argument("text", metavar="TEXT", help="the text of an archive, or - for standard input")
    made.add_argument("file", metavar="FILE", type=output, help="the archive file to write, or - for standard output, which has no names then")
    made = on_file("unpack", unpack_command, "print an archive file as a text; packed again it is the same file, to the byte")
    made.add_argument("text", metavar="TEXT", nargs="?", default="-", type=output, help="a file to write the text to; without it, or with -, it is printed")
    made = on_file("define", define_command, "print a query's definition: tables, dependencies, both forms, mapping", functional)
    made.add_argument("query", metavar="QUERY", type=place_or_rule, help=query)
    shaped(made)
    made = on_file("page", page_command, "make an HTML page of all saved queries, their short forms and containments")
    written(made)
    made.add_argument("--title", metavar="TITLE", help="the page's title (the name of FILE if not given)")
    return parser


def main(arguments: Optional[Sequence[str]] = None, build: Optional[Path] = None) -> int:
    """Runs the command; returns its status. `build` is a program that makes the engine where it is not there yet."""
    for stream in (sys.stdout, sys.stderr):
        if hasattr(stream, "reconfigure"):
            stream.reconfigure(errors="backslashreplace")
    options = Options()
    try:
        if sys.stdout is None:
            raise Failure("standard output is closed")
        options = usage().parse_args(arguments)
        if build is not None and build.is_file() and not engine.is_there() and subprocess.run([str(build)], stdout=sys.stderr).returncode != 0:
            raise Failure(f"{build} failed")
        read_once(options)
        status: int = options.run(options)
        sys.stdout.flush()
        return status
    except BrokenPipeError:
        _close_output()
        return 128 + signal.SIGPIPE
    except Refused as refused:
        say(f"spernevan: {shown(getattr(options, 'file', 'the record'))}: {refused.meaning}")
    except (Failure, EngineMissing, ValueError) as error:
        say(f"spernevan: {error}")
    except OSError as error:
        _close_output()
        where = "output" if error.filename is None else error.filename or "''"
        say(f"spernevan: {where}: {error.strerror}")
    except MemoryError as error:
        say(f"spernevan: {str(error) or 'there is not enough memory'}")
    except Exception as error:
        if os.environ.get("SPERNEVAN_TRACE"):
            raise
        say(f"spernevan: a mistake in the command itself, {type(error).__name__}: {error}; SPERNEVAN_TRACE=1 shows where")
    return TROUBLE


def _close_output() -> None:
    """Lets what is still in the buffer of standard output go nowhere, so that leaving does not fail again."""
    try:
        nowhere = os.open(os.devnull, os.O_WRONLY)
        os.dup2(nowhere, sys.stdout.fileno())
        os.close(nowhere)
    except (OSError, ValueError, AttributeError):
        pass


def run() -> NoReturn:
    """The command as a program. An interrupt ends it at once, as it does a program in C."""
    if signal.getsignal(signal.SIGINT) is signal.default_int_handler:
        signal.signal(signal.SIGINT, signal.SIG_DFL)
    sys.exit(main(build=Path(__file__).resolve().parents[1] / "build"))
