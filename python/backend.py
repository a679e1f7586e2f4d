"""Builds the package (PEP 517), with the standard library alone: a wheel for 64-bit Linux with the engine in it.

`python3 backend.py FOLDER` makes the wheel in FOLDER. Where the engine is not there yet, python/build
makes it, which wants the Rattle toolchain.
"""

from __future__ import annotations

import base64
import hashlib
import io
import re
import subprocess
import sys
import tarfile
import zipfile
from pathlib import Path
from typing import Any, Dict, List, Optional, Tuple

HERE = Path(__file__).resolve().parent
PACKAGE = HERE / "spernevan"
ENGINE = PACKAGE / "libspernevan.so"
TAG = "py3-none-linux_x86_64"
WHEN = (1980, 1, 1, 0, 0, 0)

Settings = Optional[Dict[str, Any]]


def version() -> str:
    """The version that the package says it has."""
    found = re.search(r'^__version__ = "(.*)"$', (PACKAGE / "__init__.py").read_text(encoding="utf-8"), re.MULTILINE)
    assert found is not None
    return found.group(1)


def stem() -> str:
    return f"spernevan-{version()}"


def metadata() -> str:
    """The core metadata, whose long description is the README."""
    head = [
        "Metadata-Version: 2.1",
        "Name: spernevan",
        f"Version: {version()}",
        "Summary: Shortens saved conjunctive queries with the dependencies that their tables obey",
        "Requires-Python: >=3.9",
        "Provides-Extra: frames",
        'Requires-Dist: pandas; extra == "frames"',
        "Provides-Extra: arrays",
        'Requires-Dist: numpy; extra == "arrays"',
        "Description-Content-Type: text/markdown",
    ]
    return "\n".join(head) + "\n\n" + (HERE / "README.md").read_text(encoding="utf-8")


def wheel_info() -> str:
    return f"Wheel-Version: 1.0\nGenerator: spernevan backend\nRoot-Is-Purelib: false\nTag: {TAG}\n"


def engine() -> bytes:
    """The engine, which is built if it is not there."""
    if not ENGINE.exists():
        build = HERE / "build"
        if not build.exists() or subprocess.run([str(build)], stdout=sys.stderr).returncode != 0 or not ENGINE.exists():
            raise SystemExit(f"{ENGINE} is not there, and {build} did not make it; it wants the Rattle toolchain (rt) and gcc")
    return ENGINE.read_bytes()


def _write_wheel(folder: str, files: List[Tuple[str, bytes, int]]) -> str:
    """A wheel of files, each with its rights, and of what every wheel has."""
    info = f"{stem()}.dist-info"
    files = files + [(f"{info}/METADATA", metadata().encode(), 0o644), (f"{info}/WHEEL", wheel_info().encode(), 0o644)]
    record = io.StringIO()
    name = f"{stem()}-{TAG}.whl"
    with zipfile.ZipFile(Path(folder, name), "w", zipfile.ZIP_DEFLATED) as wheel:

        def write(path: str, data: bytes, mode: int) -> None:
            entry = zipfile.ZipInfo(path, WHEN)
            entry.compress_type = zipfile.ZIP_DEFLATED
            entry.external_attr = (0o100000 | mode) << 16
            wheel.writestr(entry, data)

        for path, data, mode in files:
            write(path, data, mode)
            digest = base64.urlsafe_b64encode(hashlib.sha256(data).digest()).rstrip(b"=").decode()
            record.write(f"{path},sha256={digest},{len(data)}\n")
        record.write(f"{info}/RECORD,,\n")
        write(f"{info}/RECORD", record.getvalue().encode(), 0o644)
    return name


LAUNCHER = """#!/bin/sh
# Starts spernevan-program beside it. An interrupt is held back while Python starts, which would show where it was.
self=$0
[ ! -h "$self" ] || self=$(PATH=$PATH:/usr/bin:/bin readlink -f -- "$self")
case $self in */*) ;; *) self=./$self ;; esac
if /usr/bin/env --block-signal=INT --version >/dev/null 2>&1; then
    exec /usr/bin/env --block-signal=INT "${self%/*}/spernevan-program" "$@"
fi
exec "${self%/*}/spernevan-program" "$@"
"""


def _scripts() -> List[Tuple[str, bytes, int]]:
    """The command, and the program that it starts; whoever installs the wheel puts the right Python in the first line of that."""
    lines = (HERE / "program").read_bytes().split(b"\n")
    program = b"\n".join([b"#!python", *lines[1:]])
    held = [("spernevan", LAUNCHER.encode()), ("spernevan-program", program)]
    return [(f"{stem()}.data/scripts/{name}", data, 0o755) for name, data in held]


def prepare_metadata_for_build_wheel(metadata_directory: str, config_settings: Settings = None) -> str:
    """The hook of PEP 517: the metadata alone, for which no engine is built."""
    info = Path(metadata_directory, f"{stem()}.dist-info")
    info.mkdir(parents=True, exist_ok=True)
    (info / "METADATA").write_text(metadata(), encoding="utf-8")
    (info / "WHEEL").write_text(wheel_info(), encoding="utf-8")
    return info.name


def build_wheel(wheel_directory: str, config_settings: Settings = None, metadata_directory: Optional[str] = None) -> str:
    """The hook of PEP 517: a wheel with the package and the engine."""
    held = engine()
    names = sorted(path.name for path in PACKAGE.iterdir() if path.suffix == ".py" or path.name == "py.typed")
    files = [(f"spernevan/{name}", (PACKAGE / name).read_bytes(), 0o644) for name in names]
    return _write_wheel(wheel_directory, [*files, ("spernevan/libspernevan.so", held, 0o755), *_scripts()])


def build_editable(wheel_directory: str, config_settings: Settings = None, metadata_directory: Optional[str] = None) -> str:
    """The hook of PEP 660: a wheel that points at this folder."""
    engine()
    return _write_wheel(wheel_directory, [("spernevan.pth", f"{HERE}\n".encode(), 0o644), *_scripts()])


def build_sdist(sdist_directory: str, config_settings: Settings = None) -> str:
    """The hook of PEP 517: the sources of the package, with the engine as it is compiled."""
    engine()
    name = f"{stem()}.tar.gz"
    with tarfile.open(Path(sdist_directory, name), "w:gz", format=tarfile.PAX_FORMAT) as sources:
        info = tarfile.TarInfo(f"{stem()}/PKG-INFO")
        data = metadata().encode()
        info.size = len(data)
        sources.addfile(info, io.BytesIO(data))
        for path in [HERE / "pyproject.toml", HERE / "backend.py", HERE / "program", HERE / "README.md", *sorted(PACKAGE.iterdir())]:
            if path.is_file():
                sources.add(path, f"{stem()}/{path.relative_to(HERE)}")
    return name


if __name__ == "__main__":
    target = sys.argv[1] if len(sys.argv) == 2 else sys.exit("usage: backend.py FOLDER")
    Path(target).mkdir(parents=True, exist_ok=True)
    print(Path(target, build_wheel(target)))
