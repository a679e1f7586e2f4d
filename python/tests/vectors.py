"""vectors: holds the exported calls to vectors of the reference, read on standard input, a vector a line (reference/README.md has the format).

Writes for each call how many vectors were tried and how many were wrong, with the numbers of the first lines that were. Ends with 1 if one was.
The mapping of a reduction or a comparison is judged by what it has to meet; all else to the byte, lent buffers included.
"""

import ctypes
import sys

from context import engine

CALLS = "read write open add put drop reduce compare check determined test evaluate chase add_join add_code".split()
READ, WRITE, OPEN, ADD, PUT, DROP, REDUCE, COMPARE, CHECK, DETERMINED, TEST, EVALUATE, CHASE, ADD_JOIN, ADD_CODE = range(15)

# What a lent byte, word or number holds before a call.
BYTE, WORD, SIZE = 0xA5, 0xA5A5A5A5, 0xA5A5A5
ROOM = 8192
NO_MAPPING = [0] * engine.MAPPING_WORDS
BAD_RECORD, PLACE_VACANT, SHORT = 14, 11, 10


class Malformed(Exception):
    """A line that is no vector."""


class Line:
    """The numbers of a line, taken one or a list at a time."""

    def __init__(self, text):
        if not text.endswith("\n"):
            raise Malformed("it has no newline")
        try:
            self.numbers = [int(word) for word in text[:-1].split(" ")]
        except ValueError:
            raise Malformed("it holds something other than numbers") from None
        self.at = 0

    def number(self):
        self.at += 1
        if self.at > len(self.numbers):
            raise Malformed("it ends too early")
        return self.numbers[self.at - 1]

    def words(self):
        count = self.number()
        self.at += count
        if self.at > len(self.numbers):
            raise Malformed("it ends too early")
        return self.numbers[self.at - count : self.at]

    def bytes(self):
        return bytes(self.words())

    def end(self):
        if self.at != len(self.numbers):
            raise Malformed("it goes on after its end")


def call(name, *given):
    """What an exported function returns. Bytes and words are given as a pointer and a length."""
    arguments = []
    for thing in given:
        if isinstance(thing, bytes):
            arguments += [thing, len(thing)]
        elif isinstance(thing, ctypes.Array):
            arguments += [thing, len(thing)]
        else:
            arguments.append(thing)
    return getattr(engine._library(), f"spernevan_{name}")(*arguments)


def lent_bytes(size=ROOM):
    return (ctypes.c_uint8 * size).from_buffer(bytearray([BYTE]) * size)


def lent_words(size=ROOM):
    return (ctypes.c_uint32 * size).from_buffer(bytearray(WORD.to_bytes(4, "little")) * size)


def words_of(numbers):
    return (ctypes.c_uint32 * len(numbers))(*numbers)


def untouched(buffer, start=0):
    """Whether a lent buffer is from an element on as it was."""
    rest = bytes(buffer)[start * ctypes.sizeof(buffer._type_) :]
    return rest.count(BYTE) == len(rest)


def left(name, *given, room=ROOM):
    """A call that leaves a file or a query part in a buffer: its number, what it left, and whether the rest of the buffer is as it was."""
    out, size = lent_bytes(room), ctypes.c_size_t(SIZE)
    number = call(name, *given, out, ctypes.byref(size))
    if number:
        return number, b"", size.value == SIZE and untouched(out)
    return 0, bytes(out[: size.value]), size.value <= room and untouched(out, size.value)


def file_with(file, place, part):
    """A file with a query part at a place, in place of what is there."""
    number, vacated, _ = left("drop", file, place)
    number, filled, _ = left("put", file if number == PLACE_VACANT else vacated, place, part)
    return filled if number == 0 else None


def other_place(p, q):
    """A place that is neither p nor q."""
    return next(place for place in range(8) if place not in (p, q))


def parts_of(file):
    """The parts of a file."""
    count = int.from_bytes(file[:2], "little")
    pairs = [(int.from_bytes(file[4 * k + 2 : 4 * k + 4], "little"), int.from_bytes(file[4 * k + 4 : 4 * k + 6], "little")) for k in range(count)]
    return [file[offset : offset + length] for offset, length in pairs]


def file_of(parts):
    """The file of some parts."""
    at, pairs = 2 + 4 * len(parts), b""
    for part in parts:
        pairs += at.to_bytes(2, "little") + len(part).to_bytes(2, "little")
        at += len(part)
    return len(parts).to_bytes(2, "little") + pairs + b"".join(parts)


def without_joins(file):
    """A file without its join dependencies, which stand in part 1 after the functional ones."""
    widths, dependencies, *places = parts_of(file)
    return file_of([widths, dependencies[: 1 + 3 * dependencies[0]], *places])


def part_at(file, place):
    """The query part of a place, None where it is vacant."""
    parts = parts_of(file)[2:]
    return None if place >= len(parts) or parts[place] == b"\xff" else parts[place]


def rows_at(file, place):
    """How many rows the query of a place has, 0 where there is none."""
    try:
        part = part_at(file, place)
    except (IndexError, ValueError):
        return 0
    return part[1] if part and len(part) > 1 else 0


def rows_of(widths, part):
    """The head of a query part, and its rows."""
    arity, size = part[0], part[1]
    if size == 0:
        return None, []
    at, rows = 2 + 5 * arity, []
    for _ in range(size):
        length = 1 + 5 * widths[part[at]]
        rows.append(part[at : at + length])
        at += length
    return part[2 : 2 + 5 * arity], rows


def compared(file, p, q):
    """A comparison: its number, verdict, mapping, query part, and whether what it leaves alone is as it was."""
    verdict, mapping, part, size = ctypes.c_uint8(BYTE), lent_words(), lent_bytes(), ctypes.c_size_t(SIZE)
    number = call("compare", file, p, q, ctypes.byref(verdict), mapping, part, ctypes.byref(size))
    if number:
        alone = verdict.value == BYTE and size.value == SIZE and untouched(mapping) and untouched(part)
        return number, None, None, b"", alone
    alone = untouched(mapping, engine.MAPPING_WORDS) and untouched(part, size.value)
    return 0, verdict.value, list(mapping[: engine.MAPPING_WORDS]), bytes(part[: size.value]), alone


def chased(file, p):
    """The chased query of a filled place, with the dependencies of the file, as a comparison with never gives it: no query but one that chases to never is
    contained in never."""
    arity = part_at(file, p)[0]
    place = other_place(p, p)
    copy = file_with(file, place, bytes([arity, 0]))
    _, verdict, _, part, _ = compared(copy, p, place)
    return bytes([arity, 0]) if verdict == 2 else part


def is_mapping(file, p, q, mapping):
    """Whether words are a mapping from the query of place q to the query of place p."""
    verdict = ctypes.c_uint8(BYTE)
    return call("check", file, p, q, words_of(mapping), ctypes.byref(verdict)) == 0 and verdict.value == 1


def as_read(file, part):
    """A query part with each old code of the file as its current one."""
    widths = parts_of(file)[0]
    pairs = widths[2 + widths[0] :]
    current = {b"\0" + pairs[at : at + 4]: b"\0" + pairs[at + 4 : at + 8] for at in range(0, len(pairs), 8)}
    head, rows = rows_of(widths[1:], part)

    def read(entries):
        found = [entries[at : at + 5] for at in range(0, len(entries), 5)]
        return b"".join(current.get(entry, entry) for entry in found)

    return part[:2] + read(head) + b"".join(row[:1] + read(row[1:]) for row in rows) if rows else part


def maps(widths, source, target, mapping):
    """Whether words are a mapping from one query part to another, which may have more rows than a place has room for."""
    (head, rows), (due, there) = rows_of(widths, source), rows_of(widths, target)
    if not rows or not there:
        return False
    seen = set()

    def image(entries):
        found = b""
        for at in range(0, len(entries), 5):
            entry = entries[at : at + 5]
            if entry[0]:
                variable = entry[1]
                seen.add(variable)
                entry = bytes([mapping[2 * variable]]) + mapping[2 * variable + 1].to_bytes(4, "little")
            found += entry
        return found

    onto = image(head) == due and {row[:1] + image(row[1:]) for row in rows} <= set(there)
    return onto and all(mapping[2 * v : 2 * v + 2] == [0, 0] for v in range(len(mapping) // 2) if v not in seen)


def reduced(file, source, target):
    """A reduction: its number, the file, the count, the mapping, and whether what it leaves alone is as it was."""
    out, size, count, mapping = lent_bytes(), ctypes.c_size_t(SIZE), ctypes.c_uint8(BYTE), lent_words()
    number = call("reduce", file, source, target, out, ctypes.byref(size), ctypes.byref(count), mapping)
    if number:
        alone = size.value == SIZE and count.value == BYTE and untouched(out) and untouched(mapping)
        return number, b"", None, None, alone
    alone = untouched(out, size.value) and untouched(mapping, engine.MAPPING_WORDS)
    return 0, bytes(out[: size.value]), count.value, list(mapping[: engine.MAPPING_WORDS]), alone


def result_right(file, source, target, result, mapping, query):
    """Whether a reduction's file and mapping are as they may be: the target holds the query that is told, and the mapping is one to it."""
    if left("drop", result, target) != (0, file, True) or part_at(result, target) != query:
        return False
    if rows_at(result, target) == 0:
        return mapping == NO_MAPPING
    return is_mapping(result, target, source, mapping)


# ---- a vector of each call: whether the engine answers as it tells


def read(line, file):
    told = line.number()
    line.end()
    return call("read", file) == told and left("write", file) == (told, b"" if told else file, True)


def write(line, file):
    room, told = line.number(), line.number()
    length = None if told else line.number()
    line.end()
    number, out, alone = left("write", file, room=room)
    return number == told and alone and (told != 0 or (out == file and len(out) == length))


def leaves_file(name, line, *given):
    told = line.number()
    file = b"" if told else line.bytes()
    line.end()
    return left(name, *given) == (told, file, True)


def reduce(line, file):
    source, target, told = line.number(), line.number(), line.number()
    count, query = (None, None) if told else (line.number(), line.bytes())
    line.end()
    number, result, counted, mapping, alone = reduced(file, source, target)
    if number != told or not alone:
        return False
    return told != 0 or (counted == count and result_right(file, source, target, result, mapping, query))


def compare(line, file):
    p, q, told = line.number(), line.number(), line.number()
    verdict, query = (None, b"") if told else (line.number(), line.bytes())
    line.end()
    number, said, mapping, part, alone = compared(file, p, q)
    if number != told or not alone or said != verdict or part != query:
        return False
    if said != 1:
        return told != 0 or mapping == NO_MAPPING
    return maps(parts_of(file)[0][1:], as_read(file, part_at(file, q)), chased(file, p), mapping)


def check(line, file):
    p, q, mapping, told = line.number(), line.number(), line.words(), line.number()
    verdict = BYTE if told else line.number()
    line.end()
    said = ctypes.c_uint8(BYTE)
    return call("check", file, p, q, words_of(mapping), ctypes.byref(said)) == told and said.value == verdict


def determined(line, file):
    relation, columns, told = line.number(), line.number(), line.number()
    due = (BYTE, BYTE) if told else (line.number(), line.number())
    line.end()
    found, count = ctypes.c_uint8(BYTE), ctypes.c_uint8(BYTE)
    number = call("determined", file, relation, columns, ctypes.byref(found), ctypes.byref(count))
    return number == told and (found.value, count.value) == due


def test(line, file):
    words, told = line.words(), line.number()
    due = told, [BYTE, *[SIZE] * 5] if told else [line.number() for _ in range(6)]
    line.end()
    return all(tested(name, file, words, memory) == due for name, memory in with_memory("test", [5 * (len(words) // 2 + 1), 6 * len(words)]))


def tested(name, file, words, memory):
    """A test: its number, and what it says."""
    verdict, places = ctypes.c_uint8(BYTE), [ctypes.c_size_t(SIZE) for _ in range(5)]
    number = call(name, file, words_of(words), *memory, ctypes.byref(verdict), *map(ctypes.byref, places))
    return number, [verdict.value, *(place.value for place in places)]


def evaluate(line, file):
    place, words, room, told = line.number(), line.words(), line.number(), line.number()
    count, due = (SIZE, []) if told else (line.number(), line.words())
    line.end()
    enough = [22 * len(words) + 112, len(words) + 65536, 64, 64]
    least = 0 if rows_at(file, place) <= 3 else 2  # a query of more rows may take very long in little memory
    for name, memory in with_memory("evaluate", enough, least):
        answers, counted = lent_words(room), ctypes.c_size_t(SIZE)
        number = call(name, file, place, words_of(words), answers, *memory, ctypes.byref(counted))
        if number != told or counted.value != count or list(answers[: len(due)]) != due or not untouched(answers, len(due)):
            return False
    for name, memory in with_memory("count", enough, least):
        counted = ctypes.c_size_t(SIZE)
        number = call(name, file, place, words_of(words), *memory, ctypes.byref(counted))
        if told == SHORT:
            right = number == 0 and counted.value * part_at(file, place)[0] > room
        else:
            right = (number, counted.value) == (told, count)
        if not right:
            return False
    return True


def with_memory(name, enough, least=0):
    """The name of a call, and of the one that is lent working memory, with parts of several lengths: `least` halves of enough, and more."""
    yield name, []
    for part in range(least, 3):
        yield f"{name}_lent", [lent_words(size * part // 2) for size in enough]


def chase(line, file):
    """The chase with the functional dependencies is no call of its own: its count is that of a reduction, its query what a comparison with never gives
    where no join dependency is held."""
    p, told = line.number(), line.number()
    count, query = (None, b"") if told else (line.number(), line.bytes())
    line.end()
    place = other_place(p, p)
    vacant = left("drop", file, place)
    number, _, counted, _, _ = reduced(file if vacant[0] == PLACE_VACANT else vacant[1], p, place)
    return number == told and (told != 0 or (counted == count and chased(without_joins(file), p) == query))


def agrees(line):
    """The number of a line's call, and whether the engine agrees with the line."""
    number = line.number()
    if number >= len(CALLS):
        raise Malformed("it is of no call")
    file = line.bytes()
    if not file and number not in (READ, OPEN):
        # No file stands for the blank record. The program `examples` makes the calls on it.
        return number, line.numbers[-1] == BAD_RECORD
    if number in (ADD, PUT, DROP, ADD_JOIN, ADD_CODE):
        with_bytes = [line.number, line.bytes]
        given = {ADD: [line.number] * 3, PUT: with_bytes, DROP: [line.number], ADD_JOIN: with_bytes, ADD_CODE: [line.number] * 2}
        return number, leaves_file(CALLS[number], line, file, *[take() for take in given[number]])
    if number == OPEN:
        return number, leaves_file("open", line, file)
    judges = {READ: read, WRITE: write, REDUCE: reduce, COMPARE: compare, CHECK: check, DETERMINED: determined, TEST: test, EVALUATE: evaluate, CHASE: chase}
    return number, judges[number](line, file)


def judge(lines):
    """How many vectors there were of each call, and the lines that were wrong or could not be read, with their calls or the reason."""
    tried, wrong, unread = [0] * len(CALLS), [], []
    for at, text in enumerate(lines, 1):
        try:
            number, right = agrees(Line(text))
        except Malformed as fault:
            unread.append((at, str(fault)))
            continue
        tried[number] += 1
        if not right:
            wrong.append((at, number))
    return tried, wrong, unread


def main():
    tried, wrong, unread = judge(sys.stdin)
    for number, name in enumerate(CALLS):
        lines = [str(at) for at, call_number in wrong if call_number == number]
        print(f"{name}: {tried[number]} vectors, {len(lines)} wrong{', first on lines ' + ' '.join(lines[:4]) if lines else ''}")
    for at, fault in unread:
        print(f"line {at} is no vector: {fault}")
    print(f"{sum(tried)} vectors, {len(wrong)} wrong")
    sys.exit(1 if wrong or unread else 0)


if __name__ == "__main__":
    main()
