"""The engine's C functions, called on bytes (include/spernevan.h).

Each function here lends its own buffers, raises Refused for a number other than 0, and gives back
what the call wrote. Numbers are checked before they are passed, since ctypes would cut them. The calls
are made on threads with a stack of their own, whatever stack the caller has; those on a database are
lent working memory too, as much as makes them fast.
"""

from __future__ import annotations

import ctypes
import mmap
import os
import signal
import threading
from array import array
from functools import lru_cache
from pathlib import Path
from queue import SimpleQueue
from typing import Any, Callable, List, NamedTuple, Optional, Sequence, Tuple, Type, Union

from .model import BYTE, VARIABLES, WORD, Words, whole

LONGEST_FILE = 4574
LONGEST_QUERY = 534
LONGEST_CHASED = 1026
MAPPING_WORDS = 2 * VARIABLES
SIZE = ctypes.c_size_t(-1).value

MEANINGS = {
    1: "the file does not begin as an archive file does; it is cut short, or of another kind",
    2: "the parts of the file do not follow one another to its end; it is cut short, or something was added to it",
    3: "there must be 1 to 8 tables of 1 to 8 columns each",
    4: "a functional dependency, or a set of columns, is wrong: its table and columns must exist, and in a file there are at most 32",
    5: "a query is wrong: at most 8 entries in the head, 12 rows, variables to v95, constants to 2147483647, "
    "rows of tables that exist, and in a file nothing else in its part and no vacant place at the end",
    6: "a variable of the head is in no row",
    7: "the place is above 7",
    8: "the heads of the two queries have different lengths",
    9: "a row of the database has an unknown table or is cut short",
    10: "the answers, or the file, are longer than the buffer lent for them",
    11: "the place is vacant",
    12: "the place to be filled is filled",
    13: "32 functional dependencies are held, which is as many as there may be",
    14: "the record breaks the rules of a record",
    15: "a join dependency is wrong: its table must exist, and it has 2 to 4 sets of columns, none of them empty and together all columns of the table; "
    "in a file there are at most 4, and nothing else after the functional ones in their part",
    16: "4 join dependencies are held, which is as many as there may be",
    17: "the comparison was given up: the join dependencies make the first query longer than 24 rows",
    18: "a renumbered code is wrong: the old and the current code differ, both go up to 2147483647, the old one is in no other pair and the current one is "
    "old in none; in a file there are at most 16 pairs, and nothing else after the tables in their part",
    19: "16 renumbered codes are held, which is as many as there may be",
}


class Refused(Exception):
    """The engine turned a call down: `number` is the one that include/spernevan.h explains, `meaning` says it in words."""

    def __init__(self, number: int, meaning: Optional[str] = None) -> None:
        self.number = number
        self.meaning: str = MEANINGS.get(number, "this package does not know the number") if meaning is None else meaning
        super().__init__(number)

    def __str__(self) -> str:
        return f"refused {self.number}: {self.meaning}"

    def __reduce__(self) -> Tuple[Type[Refused], Tuple[int, str]]:
        return type(self), (self.number, self.meaning)


class EngineMissing(Exception):
    """The shared object is not there, or is not the one that this package was written for."""


_BYTES = [ctypes.c_char_p, ctypes.c_size_t]
_OUT = [ctypes.POINTER(ctypes.c_uint8), ctypes.c_size_t, ctypes.POINTER(ctypes.c_size_t)]
_WORDS = [ctypes.POINTER(ctypes.c_uint32), ctypes.c_size_t]
_BYTE = [ctypes.c_uint8]
_WORD = [ctypes.c_uint32]
_PLACE = [ctypes.c_size_t]
_BYTE_OUT = [ctypes.POINTER(ctypes.c_uint8)]
_SIZE_OUT = [ctypes.POINTER(ctypes.c_size_t)]

# The parameters of each C function, a slice being a pointer and a length.
_CALLS = {
    "read": _BYTES,
    "write": _BYTES + _OUT,
    "open": _BYTES + _OUT,
    "add": _BYTES + _BYTE * 3 + _OUT,
    "add_join": _BYTES + _BYTE + _BYTES + _OUT,
    "add_code": _BYTES + _WORD * 2 + _OUT,
    "put": _BYTES + _PLACE + _BYTES + _OUT,
    "drop": _BYTES + _PLACE + _OUT,
    "determined": _BYTES + _BYTE * 2 + _BYTE_OUT * 2,
    "reduce": _BYTES + _PLACE * 2 + _OUT + _BYTE_OUT + _WORDS,
    "compare": _BYTES + _PLACE * 2 + _BYTE_OUT + _WORDS + _OUT,
    "check": _BYTES + _PLACE * 2 + _WORDS + _BYTE_OUT,
    "test": _BYTES + _WORDS + _BYTE_OUT + _SIZE_OUT * 5,
    "evaluate": _BYTES + _PLACE + _WORDS * 2 + _SIZE_OUT,
    "test_lent": _BYTES + _WORDS * 3 + _BYTE_OUT + _SIZE_OUT * 5,
    "evaluate_lent": _BYTES + _PLACE + _WORDS * 6 + _SIZE_OUT,
    "count": _BYTES + _PLACE + _WORDS + _SIZE_OUT,
    "count_lent": _BYTES + _PLACE + _WORDS * 5 + _SIZE_OUT,
}

_LIBRARY = Path(__file__).with_name("libspernevan.so")


def is_there() -> bool:
    """Whether the engine is built."""
    return _LIBRARY.exists()


@lru_cache(maxsize=None)
def _library() -> ctypes.CDLL:
    """The shared object beside this file, with the types of its functions set."""
    if not is_there():
        raise EngineMissing(f"the engine {_LIBRARY} is not there; the command python/build makes it")
    try:
        library = ctypes.CDLL(str(_LIBRARY))
        for name, types in _CALLS.items():
            function = getattr(library, f"spernevan_{name}")
            function.argtypes = types
            function.restype = ctypes.c_uint8
    except (OSError, AttributeError) as error:
        raise EngineMissing(f"the engine {_LIBRARY} cannot be used ({error}); the command python/build makes it anew") from None
    return library


# The stack of a thread that calls the engine, which takes less than 1 MB of it.
STACK_BYTES = 16 * 2**20

_starting = threading.Lock()


class _Worker:
    """A thread that makes calls with a stack of STACK_BYTES."""

    def __init__(self) -> None:
        self._calls: SimpleQueue[Optional[Callable[[], int]]] = SimpleQueue()
        self._numbers: SimpleQueue[Union[int, Exception]] = SimpleQueue()
        with _starting:
            before = threading.stack_size(STACK_BYTES)
            try:
                threading.Thread(target=self._run, name="spernevan", daemon=True).start()
            except RuntimeError as error:
                raise EngineMissing(f"there is no room for the engine's stack of {STACK_BYTES >> 20} MB ({error})") from None
            finally:
                threading.stack_size(before)

    def _run(self) -> None:
        signal.pthread_sigmask(signal.SIG_BLOCK, signal.valid_signals())  # Signals are for the thread that waits.
        while True:
            call = self._calls.get()
            if call is None:
                return
            try:
                self._numbers.put(call())
            except Exception as error:
                self._numbers.put(error)
            del call  # What was lent is not kept while the thread waits.

    def number(self, call: Callable[[], int]) -> int:
        """What the call returns. An interrupt ends the waiting at once, and the thread when its call is done."""
        self._calls.put(call)
        try:
            found = self._numbers.get()
        except BaseException:
            self._calls.put(None)
            raise
        if isinstance(found, Exception):
            raise found
        return found


_idle: List[_Worker] = []


def _after_fork() -> None:
    """A forked process has none of the threads."""
    global _starting
    _starting = threading.Lock()
    _idle.clear()


os.register_at_fork(after_in_child=_after_fork)


def _number(name: str, *arguments: Any) -> int:
    """Calls a C function; gives the number that it returns."""
    function = getattr(_library(), f"spernevan_{name}")
    try:
        worker = _idle.pop()
    except IndexError:
        worker = _Worker()
    number = worker.number(lambda: int(function(*arguments)))
    _idle.append(worker)
    return number


def _call(name: str, *arguments: Any) -> None:
    """Calls a C function; raises Refused for a number other than 0."""
    number = _number(name, *arguments)
    if number != 0:
        raise Refused(number)


def _slice(data: bytes) -> Tuple[bytes, int]:
    if not isinstance(data, (bytes, bytearray, memoryview)):
        raise ValueError(f"bytes are needed, not {data!r:.40}")
    held = bytes(data)
    return held, len(held)


def _byte(what: str, value: int) -> int:
    return whole(what, value, BYTE)


def _place(value: int) -> int:
    """A place as the engine takes it. One too large for C is above 7 all the same."""
    return min(whole("a place", value), SIZE)


def _words(words: Words) -> Tuple[ctypes.Array[ctypes.c_uint32], int]:
    """A lent array of 32-bit words, without a copy. No words have an address too: C may not be given null."""
    if not isinstance(words, array) or words.typecode != "I" or words.itemsize != 4:
        raise ValueError('words must be an array("I") of 32-bit numbers')
    if not words:
        return (ctypes.c_uint32 * 1)(), 0
    return (ctypes.c_uint32 * len(words)).from_buffer(words), len(words)


class _Room:
    """A lent buffer of bytes and the length that is written."""

    def __init__(self, size: int) -> None:
        self.buffer = (ctypes.c_uint8 * size)()
        self.length = ctypes.c_size_t()

    def lent(self) -> Tuple[ctypes.Array[ctypes.c_uint8], int, object]:
        return self.buffer, len(self.buffer), ctypes.byref(self.length)

    def bytes(self) -> bytes:
        return bytes(self.buffer[: self.length.value])


def read(file: bytes) -> None:
    """Raises Refused unless `file` is a record's file."""
    _call("read", *_slice(file))


def write(file: bytes) -> bytes:
    """The file of the record that `file` holds: the same bytes."""
    room = _Room(LONGEST_FILE)
    _call("write", *_slice(file), *room.lent())
    return room.bytes()


def open_record(widths: bytes) -> bytes:
    """The file of a record of relations of these widths, with no dependency and every place vacant."""
    room = _Room(LONGEST_FILE)
    _call("open", *_slice(widths), *room.lent())
    return room.bytes()


def add(file: bytes, relation: int, left: int, right: int) -> bytes:
    """The file after a functional dependency is added; `left` is a set of columns as a byte, 0 if there is none."""
    room = _Room(LONGEST_FILE)
    numbers = _byte("a relation", relation), _byte("a left set", left), _byte("a right column", right)
    _call("add", *_slice(file), *numbers, *room.lent())
    return room.bytes()


def add_join(file: bytes, relation: int, sets: bytes) -> bytes:
    """The file after a join dependency is added; each of its sets of columns is a byte."""
    room = _Room(LONGEST_FILE)
    _call("add_join", *_slice(file), _byte("a relation", relation), *_slice(sets), *room.lent())
    return room.bytes()


def add_code(file: bytes, old: int, current: int) -> bytes:
    """The file after a pair of codes is added: the old one is read as the current one."""
    room = _Room(LONGEST_FILE)
    numbers = whole("an old code", old, WORD), whole("a current code", current, WORD)
    _call("add_code", *_slice(file), *numbers, *room.lent())
    return room.bytes()


def put(file: bytes, place: int, query: bytes) -> bytes:
    """The file after a query, as a part of the file, is put into a vacant place."""
    room = _Room(LONGEST_FILE)
    _call("put", *_slice(file), _place(place), *_slice(query), *room.lent())
    return room.bytes()


def drop(file: bytes, place: int) -> bytes:
    """The file after a filled place is made vacant."""
    room = _Room(LONGEST_FILE)
    _call("drop", *_slice(file), _place(place), *room.lent())
    return room.bytes()


def determined(file: bytes, relation: int, left: int) -> Tuple[int, int]:
    """The columns that a left set determines, as a byte, and how many they are; of the empty set, those that never vary."""
    columns, count = ctypes.c_uint8(), ctypes.c_uint8()
    numbers = _byte("a relation", relation), _byte("a left set", left)
    _call("determined", *_slice(file), *numbers, ctypes.byref(columns), ctypes.byref(count))
    return columns.value, count.value


def reduce(file: bytes, source: int, target: int) -> Tuple[bytes, int, List[int]]:
    """The file after the reduction, the chase's count, and the mapping as 192 words."""
    room, count, mapping = _Room(LONGEST_FILE), ctypes.c_uint8(), (ctypes.c_uint32 * MAPPING_WORDS)()
    places = _place(source), _place(target)
    _call("reduce", *_slice(file), *places, *room.lent(), ctypes.byref(count), mapping, MAPPING_WORDS)
    return room.bytes(), count.value, list(mapping)


def compare(file: bytes, p: int, q: int) -> Tuple[int, List[int], bytes]:
    """The verdict, the mapping as 192 words, and the chased query of p as a part of the file."""
    room, verdict, mapping = _Room(LONGEST_CHASED), ctypes.c_uint8(), (ctypes.c_uint32 * MAPPING_WORDS)()
    places = _place(p), _place(q)
    _call("compare", *_slice(file), *places, ctypes.byref(verdict), mapping, MAPPING_WORDS, *room.lent())
    return verdict.value, list(mapping), room.bytes()


def check(file: bytes, p: int, q: int, mapping: Words) -> bool:
    """Whether 192 words are a mapping from q's query to p's."""
    verdict = ctypes.c_uint8()
    if len(mapping) != MAPPING_WORDS:
        raise ValueError(f"a mapping must be {MAPPING_WORDS} words, not {len(mapping)}")
    _call("check", *_slice(file), _place(p), _place(q), *_words(mapping), ctypes.byref(verdict))
    return verdict.value == 1


# ---- calls on a database, with working memory


class Size(NamedTuple):
    """How many rows a query has, and how many entries its head."""

    rows: int
    head: int


def _memory() -> int:
    """The bytes of memory that there are, for the machine or for the group of processes that this one is in."""
    found = os.sysconf("SC_PHYS_PAGES") * os.sysconf("SC_PAGE_SIZE")
    try:
        return min(found, int(Path("/sys/fs/cgroup/memory.max").read_text()))
    except (OSError, ValueError):
        return found


# As many words at most are lent for answers, and for each of the two parts in which they are gathered and sorted, before their number is known.
# What is not touched of them costs nothing, and all three are less than a fifth of the memory.
AMPLE_WORDS = min(2**27, _memory() // 64)
# A database of as many words and more is worked on in huge pages. A smaller one touches little of what is lent, and to clear a huge page takes longer.
HUGE_WORDS = 2**18
# The engine uses no more words of an index.
MOST_INDEX_WORDS = 2**32 - 2

_Part = Tuple["ctypes.Array[ctypes.c_uint32]", int]


def _map(size: int, huge: bool) -> mmap.mmap:
    """So many bytes of memory, in huge pages if the machine has them. OSError or ValueError if there are not as many.

    Pages that are not touched cost nothing.
    """
    held = mmap.mmap(-1, size, mmap.MAP_PRIVATE | mmap.MAP_ANONYMOUS)
    if huge and hasattr(mmap, "MADV_HUGEPAGE"):
        try:
            held.madvise(mmap.MADV_HUGEPAGE)
        except OSError:
            pass
    return held


def _lent(database: Words, words: Sequence[int]) -> List[_Part]:
    """Memory for parts of so many words, to work on a database in.

    Where the machine does not give it the largest of them have half as many, and so on: the engine is then slower.
    """
    sizes = list(words)
    while True:
        try:
            held = _map(4 * max(1, sum(sizes)), len(database) >= HUGE_WORDS)
            break
        except (OSError, ValueError, OverflowError):
            largest = max(sizes)
            if largest < 16:
                raise MemoryError("there is no memory for the engine to work in") from None
            sizes = [size // 2 if size > largest // 2 else size for size in sizes]
    starts = [sum(sizes[:number]) for number in range(len(sizes))]
    return [((ctypes.c_uint32 * size).from_buffer(held, 4 * start), size) for size, start in zip(sizes, starts)]


def _flat(parts: Sequence[_Part]) -> List[Any]:
    """Parts as C takes them, each a pointer and a length."""
    return [one for part in parts for one in part]


def _most_answers(words: int, size: Size) -> int:
    """As many words as the answers of a query can take on a database of so many: a row of it has two at least."""
    ways: int = (words // 2) ** size.rows
    return size.head * ways


def _for_answers(words: int, size: Size, answers: int) -> List[int]:
    """The words of index, states, batch and scratch for answers of so many words at most, as include/spernevan.h has them.

    Of three rows the search has fewer states than rows of the database: there no more are lent, since lent ones are cleared.
    """
    index = min(2 * words * max(0, size.rows - 1) + 112, MOST_INDEX_WORDS)
    states = 0 if size.rows < 3 else words if size.rows == 3 else words + 65536
    return [index, states, 2 * answers + 64, 2 * answers + 64]


def _for_test(words: int, joins: bool) -> List[int]:
    """The words of heads and nodes for a test, with join dependencies or without, as include/spernevan.h has them."""
    return [5 * (words // 2 + 1), 6 * words] if joins else [words // 2, 2 * words]


class Break(NamedTuple):
    """A broken dependency, which may be a join dependency; its position among those of its kind, and its first rows, by position."""

    is_join: bool
    dependency: int
    rows: Tuple[int, ...]


def test(file: bytes, words: Words, joins: bool) -> Optional[Break]:
    """None if the database obeys; else the first broken dependency. `joins` says whether join dependencies are held.

    The rows of a functional one are two, and of a join dependency four, of which it has one for each of its sets.
    """
    verdict = ctypes.c_uint8()
    found = [ctypes.c_size_t() for _ in range(5)]
    outs = [ctypes.byref(verdict), *(ctypes.byref(place) for place in found)]
    number = _number("test_lent", *_slice(file), *_words(words), *_flat(_lent(words, _for_test(len(words), joins))), *outs)
    if number != 0:
        raise Refused(number)
    if verdict.value == 1:
        return None
    dependency, *rows = (place.value for place in found)
    return Break(True, dependency, tuple(rows)) if verdict.value == 2 else Break(False, dependency, tuple(rows[:2]))


def _evaluated(file: bytes, place: int, words: Words, size: Size, room: int, most: int) -> Tuple[int, int, Words, int]:
    """An evaluation with room for so many words of answers, of which there may be `most`.

    Its number, how many answers there are, their words, and for how many there was room: the machine may not give as much.
    """
    found = ctypes.c_size_t()
    ((buffer, held),) = _lent(words, [room])
    working = _flat(_lent(words, _for_answers(len(words), size, most)))
    number = _number("evaluate_lent", *_slice(file), _place(place), *_words(words), buffer, held, *working, ctypes.byref(found))
    answers = array("I")
    if number == 0 and found.value * size.head > 0:  # Before Python 3.10 an array takes no bytes from an empty part.
        answers.frombytes((ctypes.c_uint8 * (4 * found.value * size.head)).from_buffer(buffer))
    return number, found.value, answers, held


def evaluate(file: bytes, place: int, words: Words, size: Size, room: Optional[int] = None) -> Tuple[int, Words]:
    """How many answers there are, and their words, of which there may be `room`. MemoryError if there is not enough memory for them."""
    most = _most_answers(len(words), size)
    asked = most if room is None else min(most, whole("the room for answers", room, 2**40))
    number, found, answers, held = _evaluated(file, place, words, size, min(asked, AMPLE_WORDS), min(most, AMPLE_WORDS // 2))
    if number == 10 and held < asked:
        there = count(file, place, words, size)
        needed = there * size.head
        if needed <= asked:
            scarce = 8 * needed > _memory()
            if not scarce:
                number, found, answers, held = _evaluated(file, place, words, size, needed, min(needed, _memory() // 64))
            if scarce or held < needed:
                raise MemoryError(f"there are {there:,} answers, for which there is not enough memory")
    if number != 0:
        raise Refused(number)
    return found, answers


def count(file: bytes, place: int, words: Words, size: Size) -> int:
    """How many answers there are."""
    found = ctypes.c_size_t()
    most = min(_most_answers(len(words), size), AMPLE_WORDS // 2)
    working = _flat(_lent(words, _for_answers(len(words), size, most)))
    number = _number("count_lent", *_slice(file), _place(place), *_words(words), *working, ctypes.byref(found))
    del working
    if number != 0:
        raise Refused(number)
    return found.value
