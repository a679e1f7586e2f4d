"""The words of a text, and errors that say where: source, line and column."""

from __future__ import annotations

import re
from typing import Callable, Iterator, List, NamedTuple, Optional, Tuple, Type, TypeVar

from .values import Value, read_literal

T = TypeVar("T")


def count(number: int, what: str) -> str:
    """`1 row`, `2 rows`, `2 dependencies`."""
    if number == 1:
        return f"1 {what}"
    return f"{number} {what[:-1]}ies" if what.endswith("y") else f"{number} {what}s"


class Token(NamedTuple):
    """A word of the text: a "name", a value ("number", "decimal", "date", "text"), a sign, "newline" or "end"."""

    kind: str
    text: str
    line: int
    column: int


class NotationError(ValueError):
    """Text that cannot be read. It says where: source, line and column, which count from 1."""

    def __init__(self, source: str, line: int, column: int, message: str) -> None:
        self.source, self.line, self.column, self.message = source, line, column, message
        super().__init__(f"{source}:{line}:{column}: {message}")

    def __reduce__(self) -> Tuple[Type[NotationError], Tuple[str, int, int, str]]:
        return type(self), (self.source, self.line, self.column, self.message)


_PATTERN = re.compile(
    r"(?P<space>[^\S\n]+|\#[^\n]*)|(?P<newline>\n)"
    r"|(?P<date>[0-9]{4}-[0-9]{2}-[0-9]{2}(?![0-9]))"
    r"|(?P<decimal>-[0-9]+(?:\.[0-9]+)?(?:[eE][+-]?[0-9]+)?|[0-9]+(?:\.[0-9]+(?:[eE][+-]?[0-9]+)?|[eE][+-]?[0-9]+))"
    r"|(?P<number>[0-9]+)"
    r"""|(?P<text>'(?:[^'\n]|'')*'|"(?:[^"\\\n]|\\[^\n])*")"""
    r"|(?P<sign>:-(?!>)|->|[(),:*=])|(?P<name>[^\W\d]\w*)"
)
_GOES_ON = {"newline", ",", "(", ":", ":-", "->"}
_VALUES = {"number", "decimal", "date", "text"}


class Reader:
    """The tokens of a text, taken one after another; `next` and `then` are the two that come, `last` the one taken last."""

    def __init__(self, text: str, source: str) -> None:
        self.source = source
        self._tokens = self._scan(text)
        self.next = next(self._tokens)
        self.then = next(self._tokens, self.next)
        self.last = self.next

    def _scan(self, text: str) -> Iterator[Token]:
        """The tokens; a newline is one only where a statement may end, and "end" is the last."""
        position, line, start, last = 0, 1, 0, "newline"
        while position < len(text):
            found = _PATTERN.match(text, position)
            column = position - start + 1
            if found is None:
                raise NotationError(self.source, line, column, _strange(text, position))
            kind, word = str(found.lastgroup), found.group()
            position = found.end()
            if kind == "sign":
                kind = word
            if kind != "space" and (kind != "newline" or last not in _GOES_ON):
                yield Token(kind, word, line, column)
                last = kind
            if kind == "newline":
                line, start = line + 1, position
        yield Token("end", "", line, position - start + 1)

    def error(self, token: Token, message: str) -> NotationError:
        return NotationError(self.source, token.line, token.column, message)

    def expected(self, what: str) -> NotationError:
        """The error that something else comes next than `what`."""
        token = self.next
        shown = token.text if len(token.text) <= 40 else token.text[:40] + ".."
        found = {"newline": "the end of the line", "end": "the end"}.get(token.kind, f"{shown!r}")
        if token.kind == "text":
            found = f"the text {shown}; quotes are for values in a head or a row"
        elif token.kind in ("decimal", "date"):
            found = f"the {'number' if token.kind == 'decimal' else 'date'} {shown}"
        return self.error(token, f"{what} was expected, not {found}")

    def take(self, kind: str, what: Optional[str] = None) -> Token:
        """The next token, which must be of this kind."""
        token = self.next
        if token.kind != kind:
            raise self.expected(what or repr(kind))
        self.last, self.next, self.then = token, self.then, next(self._tokens, self.then)
        return token

    def try_take(self, kind: str) -> Optional[Token]:
        """The next token if it is of this kind."""
        return self.take(kind) if self.next.kind == kind else None

    def number(self, what: str, top: int) -> int:
        """A decimal number up to `top`."""
        token = self.take("number", what)
        digits = token.text.lstrip("0") or "0"
        if len(digits) > len(str(top)) or int(digits) > top:
            raise self.error(token, f"{what} must be from 0 to {top}, not {digits:.24}")
        return int(digits)

    def value(self, what: str) -> Value:
        """A number, a date, or a text between quotes."""
        if self.next.kind not in _VALUES:
            if self.next.kind == "name":
                raise self.error(self.next, f"{what} was expected, not {self.next.text!r:.40}; a text stands between quotes")
            raise self.expected(what)
        token = self.take(self.next.kind)
        try:
            return read_literal(token.text)
        except ValueError as error:
            raise self.error(token, str(error)) from None

    def listed(self, item: Callable[[], T]) -> List[T]:
        """Items between parentheses, with commas between them."""
        self.take("(")
        if self.try_take(")"):
            return []
        found = [item()]
        while self.try_take(","):
            found.append(item())
        if self.next.kind in _VALUES or self.next.kind == "name":
            raise self._joined() or self.error(self.next, f"a comma is missing before {self.next.text:.40}")
        self.take(")", "',' or ')'")
        return found

    def _joined(self) -> Optional[NotationError]:
        """The error of a word that begins as a name, a number or a date and goes on otherwise, as F-101, 2026-1-14 or 5a; None if there is a space."""
        last, token = self.last, self.next
        if last.kind == "date" and token.kind == "number" and self.then.kind == ":":
            return self.error(last, f"{last.text} goes on with a time; a date with a time is a text between quotes")
        if last.kind not in ("name", "number", "decimal", "date") or (token.line, token.column) != (last.line, last.column + len(last.text)):
            return None
        word = f"{last.text}{token.text}"[:40]
        if last.kind == "name":
            return self.error(last, f"{word} is no variable; a text stands between quotes")
        if last.kind == "number" and token.text.startswith("-"):
            word += self.then.text if self.then.kind == "decimal" else ""
            return self.error(last, f"{word:.40} is no date; a date is written 2026-01-14, with two digits for the month and the day")
        if last.kind == "date":
            return self.error(last, f"{last.text} goes on; a date is written 2026-01-14, and one with a time is a text between quotes")
        return self.error(last, f"{word} is no number; a text stands between quotes")

    def line_ends(self) -> None:
        """The statement must end with its line."""
        if self.next.kind == ",":
            raise self.error(self.next, "the end of the line was expected, not ','; what follows goes on a line of its own")
        if self.next.kind != "end":
            self.take("newline", "the end of the line")

    def at_end(self) -> bool:
        """Whether there is no further statement."""
        while self.try_take("newline"):
            pass
        return self.next.kind == "end"


# What goes with signs that begin no word, by how the text goes on from there.
_CURES = [
    (re.compile(pattern), cure)
    for pattern, cure in (
        (r"\.[^\S\n]*(?:#|\n|\Z)", "a line ends without one"),
        (r"\.", "a decimal has digits before and after its point"),
        (r"(?<==)>|[\u2192\u27f6]", "'->' goes between the columns of a dependency, or between two codes"),
        (r"\u2205", "a column that never varies has nothing before its '->', as in flight: -> site"),
        (r"\u22c8", "a join dependency is written with the word, as in layer: join (flight, level) (level, height)"),
        (r"<-", "':-' goes between the head of a rule and its rows"),
        (r"[<>!\u2260\u2264\u2265]", "a rule has rows alone, joined by equal values, and no comparisons; a dependency has ->"),
        (r";", "',' goes between the rows of a rule, and each row of a database has its own line"),
        (r"(?<=\w)-(?=\w)", "a text, such as 'F-101', stands between quotes, and a name has _ for -"),
        (r"[%/]", "'#' begins a comment"),
        (r"\0", "is this a text at all?"),
    )
]


def _strange(text: str, position: int) -> str:
    """What to say of the character at a position, which begins no word."""
    character = text[position]
    if character in "'\"":
        return f"the quote {character} that begins here does not end on this line"
    if character in "\u2018\u2019\u201a\u201b\u201c\u201d\u201e\u201f\u00ab\u00bb\u2039\u203a\u0060\u00b4":
        return f"{character!r} is no quote of a rule; a text stands between straight quotes, as in 'De Bilt'"
    cure = next((f"; {cure}" for pattern, cure in _CURES if pattern.match(text, position)), "")
    return f"{character!r} has no meaning here{cure}"
