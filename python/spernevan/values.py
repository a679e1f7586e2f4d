"""The numbers that stand for the values of a database: text, decimals, dates and numbers that do not fit.

The engine knows whole numbers, and a constant of a query goes from 0 to 2,147,483,647. A whole number
below 2,000,000,000 stands for itself. Every other value has a code from there on, and each code stands
for one value only, which is written down when it is given out. So no code is ever a plain number too:
the plain numbers end where the codes begin, and a number that lies among the codes is entered like a
text (as itself, where it is still free).

Numbers are one value when they are equal, however they are written (13, 13.0; 12.5, 12.50). A date and
the text of the same characters are one value. The text '13' is not the number 13.
"""

from __future__ import annotations

import json
import operator
import re
from array import array
from collections import defaultdict
from datetime import date, datetime
from decimal import Decimal, InvalidOperation
from enum import Enum
from itertools import count, filterfalse, islice
from operator import itemgetter
from typing import DefaultDict, Dict, Iterable, Iterator, List, Optional, Sequence, Tuple, Type, Union

from .model import LARGEST_CONSTANT, Words

FIRST_CODE = 2_000_000_000

# What a value of a database may be. A float has the code of the decimal that it is written as.
Value = Union[int, str, Decimal, date, float]

# The most digits of a number: far more than any measurement has, and few enough to compute with.
MOST_DIGITS = 1000


class Null(ValueError):
    """A value that is not there: None, NaN, NaT, or an empty cell."""

    def __init__(self, message: str = "there is no value here (NULL)") -> None:
        super().__init__(message)


def _number(value: Decimal) -> Union[int, Decimal]:
    """A decimal, as a whole number where it is one."""
    if not value.is_finite():
        raise Null() if value.is_nan() else ValueError("an infinite number is no value")
    if value and not -MOST_DIGITS <= value.adjusted() <= MOST_DIGITS:
        raise ValueError(f"a number has at most {MOST_DIGITS} digits")
    whole = int(value)
    return whole if whole == value else value


def plain(value: object) -> Value:
    """A value as a whole number, a decimal, a text or a date: numbers of other types, such as float or numpy's, are converted."""
    if isinstance(value, str):
        return str(value)
    if isinstance(value, int):
        if value.bit_length() > 3 * MOST_DIGITS:
            raise ValueError(f"a number has at most {MOST_DIGITS} digits")
        return int(value)
    if value is None:
        raise Null()
    if isinstance(value, datetime):
        if value != value:
            raise Null()
        if getattr(value, "nanosecond", 0):
            return str(value)
        return datetime.combine(value.date(), value.timetz())
    if isinstance(value, date):
        return value
    if isinstance(value, Decimal):
        return _number(value)
    if isinstance(value, float):
        if value.is_integer():
            return int(value)
        number = Decimal(repr(float(value)))
        return number if number.is_finite() else _number(number)
    item = getattr(value, "item", None)
    if callable(item):
        inner = item()
        if type(inner) is not type(value):
            return plain(inner)
    try:
        return operator.index(value)  # type: ignore[arg-type]
    except TypeError:
        pass
    unequal: object = value != value  # of pandas.NA that is NA again, and neither true nor false
    if unequal is value or unequal:
        raise Null()
    raise ValueError(f"a value must be a number, a text or a date, not {value!r:.40}")


def _key(value: Value) -> _Key:
    """What two equal values share."""
    if isinstance(value, date):
        return value.isoformat(" ") if isinstance(value, datetime) else value.isoformat()
    return value


_Key = Union[int, Decimal, str, float]


class Values:
    """A dictionary of codes; it only grows. `encode` gives a value's number, `decode` the value of a number."""

    def __init__(self, entries: Iterable[Tuple[int, Value]] = ()) -> None:
        # The values whose codes are given, and the others in the order of their codes, with None where a code is given.
        self._given: Dict[int, Value] = {}
        self._counted: List[Optional[Value]] = []
        # The codes. A key that is not there gets the next number that is free, so `get` and `in` are for those that only ask.
        self._codes: DefaultDict[_Key, int] = defaultdict(filterfalse(self._given.__contains__, count(FIRST_CODE)).__next__)
        for code, value in entries:
            self.define(code, value)

    def __len__(self) -> int:
        return len(self._codes)

    def __iter__(self) -> Iterator[Tuple[int, Value]]:
        """The codes and their values, ascending."""
        counted = ((code, value) for code, value in enumerate(self._counted, FIRST_CODE) if value is not None)
        return iter(sorted((*self._given.items(), *counted), key=itemgetter(0)))

    def __eq__(self, other: object) -> bool:
        return isinstance(other, Values) and self._codes == other._codes

    __hash__ = None  # type: ignore[assignment]

    def __reduce__(self) -> Tuple[Type[Values], Tuple[List[Tuple[int, Value]]]]:
        return type(self), (list(self),)

    def __repr__(self) -> str:
        return f"Values({list(self)!r})"

    def copy(self) -> Values:
        """A dictionary with the same entries, to be added to without changing this one."""
        return Values(self)

    def only(self, codes: Iterable[int]) -> Values:
        """The entries of some codes."""
        return Values((code, self.decode(code)) for code in sorted(set(codes)) if self._taken(code))

    def encode(self, value: object) -> int:
        """The number that stands for a value; it gets a code if it needs one and has none. Null and ValueError if it is no value."""
        if type(value) is int and 0 <= value < FIRST_CODE:
            return value
        return self.code(value if type(value) is str else plain(value))

    def code(self, held: Value) -> int:
        """The number that stands for a value that `plain` gives."""
        if isinstance(held, int) and 0 <= held < FIRST_CODE:
            return held
        key = held if isinstance(held, (str, Decimal)) else _key(held)
        code = self._codes.get(key)
        if code is None and isinstance(held, int) and self._free(held):
            self._given[held] = self._codes[key] = code = held
        elif code is None:
            code = self._codes[key]
            self._count([held], [key])
        elif isinstance(held, date) and isinstance(self.decode(code), str):
            self._replace(code, held)
        return code

    def codes(self, keys: Sequence[Union[str, Decimal]]) -> Words:
        """The numbers that stand for texts, or for decimals that are not whole, many at once."""
        before = len(self._codes)
        words = array("I", map(self._codes.__getitem__, keys))
        new = list(islice(reversed(self._codes), len(self._codes) - before))
        if new:
            new.reverse()
            self._count(new, new)
        return words

    def _count(self, new: Sequence[Value], keys: Sequence[_Key]) -> None:
        """Enters values whose keys have just got their codes, ascending."""
        last = self._codes[keys[-1]]
        if last > LARGEST_CONSTANT:
            raise ValueError(f"there are more than {LARGEST_CONSTANT - FIRST_CODE + 1} different values")
        if last - FIRST_CODE == len(self._counted) + len(new) - 1:
            self._counted.extend(new)
            return
        for value, code in zip(new, map(self._codes.__getitem__, keys)):
            self._counted.extend([None] * (code - FIRST_CODE - len(self._counted)))
            self._counted.append(value)

    def _replace(self, code: int, value: Value) -> None:
        if code in self._given:
            self._given[code] = value
        else:
            self._counted[code - FIRST_CODE] = value

    def _taken(self, code: int) -> bool:
        """Whether a code stands for a value."""
        return code in self._given or 0 <= code - FIRST_CODE < len(self._counted) and self._counted[code - FIRST_CODE] is not None

    def decode(self, code: int) -> Value:
        """The value that a number stands for: itself, if it is no code of this dictionary."""
        if 0 <= code - FIRST_CODE < len(self._counted):
            found = self._counted[code - FIRST_CODE]
            if found is not None:
                return found
        return self._given.get(code, code)

    def known(self, value: Value) -> bool:
        """Whether a value has a code."""
        return _key(value) in self._codes

    def define(self, code: int, value: Value) -> None:
        """Enters a code that is given. ValueError if the code or the value is in the dictionary, or no code goes with it."""
        held = plain(value)
        key = _key(held)
        if not FIRST_CODE <= code <= LARGEST_CONSTANT:
            raise ValueError(f"a code must be from {FIRST_CODE} to {LARGEST_CONSTANT}, not {code}")
        if isinstance(held, int) and 0 <= held < FIRST_CODE:
            raise ValueError(f"{held} stands for itself and has no code")
        if self._taken(code):
            raise ValueError(f"{code} stands for {format_value(self.decode(code))} already")
        if key in self._codes:
            raise ValueError(f"{format_value(held)} has the code {self._codes[key]} already")
        self._codes[key] = code
        self._given[code] = held

    def reserve(self, numbers: Iterable[int]) -> None:
        """Enters numbers that a record holds: one among the codes that has no entry stands for itself."""
        for number in numbers:
            if self._free(number):
                self.define(number, number)

    def numbers_as_text(self) -> Dict[int, str]:
        """The texts that look like whole numbers, by those numbers."""
        texts = (key for key in self._codes if isinstance(key, str) and key <= ":" and len(key) < 20)
        return {int(text): text for text in texts if _WHOLE.fullmatch(text)}

    def _free(self, number: int) -> bool:
        return FIRST_CODE <= number <= LARGEST_CONSTANT and not self._taken(number)


# ---- values as they are written

_WHOLE = re.compile(r"-?(?:0|[1-9][0-9]*)")
_DECIMAL = re.compile(r"-?(?:0|[1-9][0-9]*)(?:\.[0-9]+(?:[eE][+-]?[0-9]+)?|[eE][+-][0-9]{2,})")
_PLAIN_DECIMAL = re.compile(r"-?(?:0|[1-9][0-9]*)\.[0-9]+")
_LITERAL = re.compile(r"-?[0-9]+(?:\.[0-9]+)?(?:[eE][+-]?[0-9]+)?")
# What a program may have written for a number.
_LIKE_NUMBER = re.compile(r"[+-]?(?:[0-9]+\.?[0-9]*|\.[0-9]+)(?:[eE][+-]?[0-9]+)?")
_WITH_COMMAS = re.compile(r"[+-]?(?:[0-9]+,[0-9]+|[0-9]{1,3}(?:,[0-9]{3})+(?:\.[0-9]*)?)")
_THOUSANDS = re.compile(r"[+-]?[0-9]{1,3}(?:,[0-9]{3})+(?:\.[0-9]*)?")
_DATE = re.compile(r"[0-9]{4}-[0-9]{2}-[0-9]{2}")


def read_cell(cell: str) -> Value:
    """The value of a cell that has no type, as in CSV: a number or a date if it is written like one, else the text itself.

    A number with zeros before it, as 007, is a text.
    """
    if cell[:1] > "9":
        return cell
    word = cell.strip()
    if _PLAIN_DECIMAL.fullmatch(word) and len(word) <= MOST_DIGITS:
        return Decimal(word) if word.rstrip("0")[-1] != "." else int(word[: word.index(".")])
    if _WHOLE.fullmatch(word) and len(word) <= MOST_DIGITS:
        return int(word)
    if _DECIMAL.fullmatch(word):
        try:
            return _number(Decimal(word))
        except (InvalidOperation, ValueError):
            return cell
    if _DATE.fullmatch(word):
        found = read_date(word)
        return cell if found is None else found
    return cell


def read_cell_with_comma(cell: str) -> Value:
    """The same where decimals have a comma: 12,5 is a number, and 12.5 a text."""
    found = cell if "." in cell else read_cell(cell.replace(",", "."))
    return cell if isinstance(found, str) else found


_SWAPPED = str.maketrans(".,", ",.")


def number_meant(cell: str, decimal: str = ".") -> Optional[str]:
    """How `read_cell` wants the number of a cell that it takes as a text, as 1e4, +5, 5., .5 or 12,5; None if it looks like none.

    Digits alone, as 007, are meant as they are. `decimal` is the sign of a decimal, a point or a comma.
    """
    word = cell.strip() if decimal == "." else cell.strip().translate(_SWAPPED)
    sign, others = ("point", "commas") if decimal == "." else ("comma", "points")
    if "," in word and _WITH_COMMAS.fullmatch(word):
        return f"with a {sign} and without {others}" if _THOUSANDS.fullmatch(word) else f"with a {sign}, {word.replace(',', decimal):.40}"
    if word.isdigit() or len(word) > MOST_DIGITS or not _LIKE_NUMBER.fullmatch(word):
        return None
    try:
        found = bare(_number(Decimal(word)))
    except (InvalidOperation, ValueError):
        return None
    return found.replace(".", decimal) if len(found) <= 40 else "without an exponent"


_ABSENT = frozenset(["nan", "na", "n/a", "#n/a", "null", "none"])


class Doubt(Enum):
    """As what a cell that is taken as a text may be meant: as no value, as the text without the space at its end, as a number."""

    ABSENT = 0
    SPACE = 1
    NUMBER = 2


def kind_of_doubt(cell: str) -> Doubt:
    """As what a cell that is taken as a text would be meant, if it is meant otherwise."""
    if cell.strip().casefold() in _ABSENT:
        return Doubt.ABSENT
    return Doubt.SPACE if cell[-1:] == " " else Doubt.NUMBER


def doubt(cell: str, decimal: str = ".") -> Optional[str]:
    """What to say of a cell that `read_cell` takes as a text and that a program may have meant otherwise; None if there is no doubt."""
    kind = kind_of_doubt(cell)
    if kind is Doubt.ABSENT:
        return "an absent value is an empty cell; if it is a text"
    number = number_meant(cell, decimal)
    if number is not None:
        return f"the number is written {number}; if it is no number"
    return "the space at its end is kept, and without it the text is another; if it is meant" if kind is Doubt.SPACE else None


def read_date(word: str) -> Optional[date]:
    """The date of a text such as 2026-01-14, if the calendar has it."""
    try:
        return date(*map(int, word.split("-")))
    except ValueError:
        return None


def is_date(text: str) -> bool:
    """Whether a text is a date."""
    return _DATE.fullmatch(text) is not None and read_date(text) is not None


def format_value(value: Value) -> str:
    """A value as a rule or a row of a database has it: text between quotes."""
    if isinstance(value, datetime) or isinstance(value, str):
        text = value if isinstance(value, str) else value.isoformat(" ")
        return "'" + text.replace("'", "''") + "'" if text.isprintable() else json.dumps(text)
    return bare(value)


def bare(value: Value) -> str:
    """A value as its characters, without quotes."""
    if isinstance(value, datetime):
        return value.isoformat(" ")
    if isinstance(value, date):
        return value.isoformat()
    if isinstance(value, Decimal):
        text = format(value, "f")
        return text if len(text) <= 40 else str(value)
    return repr(float(value)) if isinstance(value, float) else str(value)


def read_literal(word: str) -> Value:
    """The value of a literal, as a rule or a row of text has it: a number, a date, '..' with '' for a quote, or ".." as in JSON.

    ValueError, with a sentence, if it is none.
    """
    if word.startswith("'"):
        return word[1:-1].replace("''", "'")
    if word.startswith('"'):
        try:
            return str(json.loads(word))
        except ValueError:
            raise ValueError('what follows \\ in a text between " is as in JSON') from None
    if _DATE.fullmatch(word):
        found = read_date(word)
        if found is None:
            raise ValueError(f"there is no day {word}")
        return found
    if len(word) <= MOST_DIGITS and _PLAIN_DECIMAL.fullmatch(word):
        return read_cell(word)
    if re.match("-?0[0-9]", word):
        number = re.sub("^(-?)0+(?=[0-9])", r"\1", word)
        raise ValueError(f"{word:.24} begins with 0: write '{word:.24}' for the text, {number:.24} for the number")
    try:
        if not _LITERAL.fullmatch(word):
            raise ValueError
        return plain(Decimal(word))
    except (ValueError, ArithmeticError):
        raise ValueError(f"{word:.24} is no number, or one of more than {MOST_DIGITS} digits") from None
