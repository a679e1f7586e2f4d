"""Files: texts in UTF-8, archive files with the names beside them, and writing that leaves the old file when it fails."""

from __future__ import annotations

import codecs
import fcntl
import hashlib
import os
import secrets
import shutil
import signal
import stat
import sys
from contextlib import contextmanager, nullcontext
from typing import BinaryIO, Callable, ContextManager, Iterable, Iterator, List, Mapping, Optional, Sequence, Tuple, TypeVar, Union

from .notation import NamesFile, read_names_file

# As many bytes as the listing program reads; no record's file is as long.
FILE_BYTES = 65536

Path = Union[str, "os.PathLike[str]"]
T = TypeVar("T")


class Failure(Exception):
    """A message for the person at the terminal."""


def names_path(file: Path) -> str:
    """The names file that belongs to an archive file. That of a symbolic link is beside the file itself, unless only the link has one."""
    beside = os.path.splitext(os.fspath(file))[0] + ".names"
    if os.path.islink(file):
        real = os.path.splitext(os.path.realpath(file))[0] + ".names"
        if os.path.exists(real) or not os.path.exists(beside):
            return real
    return beside


def checksum(file: bytes) -> str:
    """What a names file keeps of its archive file."""
    return hashlib.sha256(file).hexdigest()


def standard_input() -> BinaryIO:
    """Standard input, in bytes."""
    if sys.stdin is None:
        raise Failure("standard input is closed")
    return sys.stdin.buffer


def _opened(path: Path) -> ContextManager[BinaryIO]:
    """A file to read, or standard input for `-`, which stays open."""
    if path == "-":
        return nullcontext(standard_input())
    return open(path, "rb")


def read_bytes(path: Path, most: int = -1) -> bytes:
    """The bytes of a file, or of standard input for `-`."""
    with _opened(path) as file:
        return file.read(most)


def read_while(path: Path, size: int, wanted: Callable[[bytes], bool]) -> Tuple[bytes, bool]:
    """The first bytes of a file, and whether they are wanted; if so, the whole file. It is read once, so that a pipe will do."""
    with _opened(path) as file:
        data = file.read(size)
        good = wanted(data)
        return (data + file.read() if good else data), good


def text_of(data: bytes, path: Path) -> str:
    """Bytes in UTF-8 as text."""
    try:
        return data.decode("utf-8-sig").replace("\r\n", "\n")
    except UnicodeDecodeError as error:
        line = data.count(b"\n", 0, error.start) + 1
        column = error.start - (data.rfind(b"\n", 0, error.start) + 1) + 1
        raise Failure(f"{shown(path)}:{line}:{column}: this byte is not UTF-8 text; save the file in UTF-8") from None


def read_text(path: Path) -> str:
    """A text file, in UTF-8."""
    return text_of(read_bytes(path), path)


def shown(path: Path) -> str:
    """A path in a message."""
    return "standard input" if path == "-" else os.fspath(path)


def is_utf8(data: bytes) -> bool:
    """Whether bytes can be read as text."""
    try:
        data.decode("utf-8-sig")
    except UnicodeDecodeError:
        return False
    return True


def is_text(data: bytes) -> bool:
    """Whether bytes are a text. An archive file has the byte 0 in second place, as no text has."""
    if not data or b"\0" in data[:64]:
        return False
    try:
        data.decode("utf-8-sig")
    except UnicodeDecodeError as error:
        return error.start > FILE_BYTES - 4
    return True


def may_be_encoded(data: bytes) -> bool:
    """Whether bytes may be a text, in UTF-8 or in another encoding."""
    return b"\0" not in data[:1024] or data.startswith((codecs.BOM_UTF16_LE, codecs.BOM_UTF16_BE))


def kind_of(data: bytes) -> Optional[str]:
    """What a file is that begins with these bytes, if it is of a kind that is given for another."""
    if data.startswith(b"SQLite format 3\0"):
        return "an SQLite file"
    if data.startswith(b"\x7fELF"):
        return "a program"
    if data.startswith(b"PK\x03\x04"):
        return "a ZIP file, as those of Excel are"
    if data.startswith(b"archive '"):
        return "a names file"
    if data[:15].lower().startswith((b"<!doctype html", b"<html")):
        return "an HTML page"
    if data.startswith((b"\\documentclass", b"\\begingroup")):
        return "LaTeX"
    # The count of the parts, the first of which begins behind the directory.
    if len(data) > 3 and data[1] == 0 and 2 <= data[0] <= 10 and data[2] == 2 + 4 * data[0]:
        return "an archive file"
    return None


_DATA = "test and evaluate take it as data, after the archive"
_PACK = "pack makes an archive file from a text"

# What is given where an archive should be, and what to do about it.
_NO_ARCHIVES: Mapping[Optional[str], str] = {
    "a CSV file": _DATA,
    "an SQLite file": _DATA,
    "a names file": "give the archive file beside it, whose names these are",
    "a program": _PACK,
    "an HTML page": _PACK,
    "LaTeX": _PACK,
    "a ZIP file, as those of Excel are": f"{_PACK}, and data is saved as CSV",
}


def may_be_archive(path: Path, data: bytes) -> None:
    """Failure if a file that begins with these bytes is of a kind that is given for an archive by mistake, or a text in another encoding."""
    kind = "a CSV file" if os.fspath(path).lower().endswith(".csv") else kind_of(data)
    if kind in _NO_ARCHIVES:
        raise Failure(f"{shown(path)} is {kind}, where an archive file or the text of one was expected; {_NO_ARCHIVES[kind]}")
    if may_be_encoded(data) and not is_text(data):
        text_of(data, path)


def read_names_beside(file: Path, data: bytes, given: Optional[Path] = None, codes: Iterable[int] = ()) -> Optional[NamesFile]:
    """The names file beside an archive file, or the one that is given; None if there is none.

    Failure if it was written for an archive file of other bytes, or lacks one of the codes that the archive has.
    """
    path = names_path(file) if given is None else os.fspath(given)
    if given is None and not os.path.exists(path):
        return None
    text = read_bytes(path)
    kind = kind_of(text)
    if kind not in (None, "a names file"):
        raise Failure(f"{path} is {kind}, where a names file was expected; --names NAMES takes another, and --plain goes without names")
    found = read_names_file(text_of(text, path), path)
    if found.checksum is not None and found.checksum != checksum(data):
        raise Failure(
            f"{path}: these names were written for another state of {shown(file)}: its checksum is not the one in the line archive. "
            f"Put back the file that goes with them, or remove them and pack its text again; --plain goes without names"
        )
    if found.checksum is not None:
        for code in found.names.lacking(codes):
            raise Failure(
                f"{path}: these names are cut short: {shown(file)} has the constant {code}, and what it stands for is not here. "
                f"Put back the whole names file, or remove it and pack the text of the archive again; --plain goes without names"
            )
    return found


def _beside(path: str) -> str:
    """A name in the folder of a file that no file has."""
    return f"{path}.{secrets.token_hex(4)}.new"


def _keep(path: str) -> Optional[str]:
    """Another name for the file of a path, if there is one, under which it can be put back."""
    if not os.path.exists(path):
        return None
    old = f"{path}.{secrets.token_hex(4)}.old"
    try:
        os.link(path, old)
    except OSError:
        shutil.copy2(path, old)
    return old


def _is_plain(path: str) -> bool:
    """Whether a path is a plain file or nothing yet; a device or a pipe is written to as it is."""
    try:
        return stat.S_ISREG(os.stat(path).st_mode)
    except FileNotFoundError:
        return True


@contextmanager
def _uninterrupted() -> Iterator[None]:
    """Keeps an interrupt back until the work is done."""
    before = signal.pthread_sigmask(signal.SIG_BLOCK, {signal.SIGINT, signal.SIGTERM, signal.SIGHUP})
    try:
        yield
    finally:
        signal.pthread_sigmask(signal.SIG_SETMASK, before)


@contextmanager
def locked(path: Path, kind: int = fcntl.LOCK_EX) -> Iterator[None]:
    """Keeps other commands from changing an archive file until the work is done: the folder that it is in is locked.

    A folder that cannot be locked is left to the one that writes.
    """
    try:
        descriptor = os.open(os.path.dirname(os.path.realpath(path)), os.O_RDONLY)
    except OSError:
        yield
        return
    try:
        try:
            fcntl.flock(descriptor, kind)
        except OSError:
            pass
        yield
    finally:
        os.close(descriptor)


def settled(path: Path, read: Callable[[], T]) -> T:
    """What reading an archive file gives; where that fails, what it gives when no command is changing the file."""
    try:
        return read()
    except Failure:
        if path == "-" or not os.path.isfile(path):
            raise
    with locked(path, fcntl.LOCK_SH):
        return read()


def write_files(files: Sequence[Tuple[Path, bytes]]) -> None:
    """Writes files: all of them are new afterwards, or, on a failure, all as they were.

    Each is written beside its place, to the disk, and then renamed. A symbolic link stays one.
    """
    with _uninterrupted():
        _write_files(files)


def _write_files(files: Sequence[Tuple[Path, bytes]]) -> None:
    made: List[Tuple[str, str, str]] = []
    done: List[Tuple[str, Optional[str]]] = []
    try:
        for given, data in files:
            if not _is_plain(os.fspath(given)):
                if os.path.isdir(given):
                    raise IsADirectoryError(21, os.strerror(21), os.fspath(given))
                _write_device(os.fspath(given), data)
                continue
            path = os.path.realpath(given)
            if os.path.exists(path) and not os.access(path, os.W_OK):
                raise PermissionError(13, os.strerror(13), os.fspath(given))
            new = _beside(path)
            made.append((new, path, os.fspath(given)))
            _write_through(new, path, data, os.fspath(given))
        for new, path, _ in made:
            done.append((path, _keep(path)))
            os.replace(new, path)
    except BaseException:
        for path, old in done:
            if old is not None:
                os.replace(old, path)
            elif not any(new for new, made_path, _ in made if made_path == path and os.path.exists(new)):
                os.unlink(path)
        raise
    finally:
        for new, _, _ in made:
            _remove(new)
        for _, old in done:
            if old is not None:
                _remove(old)
    for folder in {os.path.dirname(path) for _, path, _ in made}:
        _sync_folder(folder)


def _write_device(given: str, data: bytes) -> None:
    """Writes to a device or a pipe."""
    try:
        with open(given, "wb") as device:
            device.write(data)
    except OSError as error:
        raise OSError(error.errno, error.strerror, given) from None


def _write_through(new: str, path: str, data: bytes, given: str) -> None:
    """Writes a new file to the disk, with the rights of the one that it will replace."""
    try:
        descriptor = os.open(new, os.O_WRONLY | os.O_CREAT | os.O_EXCL, 0o666)
    except OSError as error:
        raise OSError(error.errno, error.strerror, given) from None
    try:
        with open(descriptor, "wb") as file:
            if os.path.exists(path):
                os.fchmod(descriptor, stat.S_IMODE(os.stat(path).st_mode))
            file.write(data)
            file.flush()
            os.fsync(descriptor)
    except OSError as error:
        raise OSError(error.errno, error.strerror, given) from None


def _remove(path: str) -> None:
    try:
        os.unlink(path)
    except OSError:
        pass


def _sync_folder(folder: str) -> None:
    """Makes renames last; a folder that cannot be opened is left to the system."""
    try:
        descriptor = os.open(folder, os.O_RDONLY)
    except OSError:
        return
    try:
        os.fsync(descriptor)
    except OSError:
        pass
    finally:
        os.close(descriptor)
