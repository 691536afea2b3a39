#!/usr/bin/env python3
"""Writes the package as a wheel, the same bytes each time from the same files.

    wheel.py LIBRARY FOLDER

LIBRARY is libkamurjesh.so.1; the wheel, named after the file VERSION, is written into FOLDER and its path is printed. Exit status 2: bad
usage or a file that cannot be read."""

import base64
import hashlib
import sys
import zipfile
from pathlib import Path

ROOT = Path(__file__).resolve().parents[2]
TAG = "py3-none-manylinux_2_17_x86_64"
WHEN = (1980, 1, 1, 0, 0, 0)

METADATA = """Metadata-Version: 2.1
Name: kamurjesh
Version: {version}
Summary: The rehearsal market for those who test order routers
Requires-Python: >=3.9
Description-Content-Type: text/plain

{description}
"""

WHEEL = f"Wheel-Version: 1.0\nGenerator: kamurjesh\nRoot-Is-Purelib: false\nTag: {TAG}\n"


def contents(library: Path, version: str) -> dict:
    """The files of the wheel but for its record: name to bytes."""
    package = ROOT / "python" / "kamurjesh"
    files = {f"kamurjesh/{path.name}": path.read_bytes() for path in package.iterdir() if path.suffix == ".py" or path.name == "py.typed"}
    files["kamurjesh/words.def"] = (ROOT / "tools" / "rehearse" / "words.def").read_bytes()
    files["kamurjesh/libkamurjesh.so.1"] = library.read_bytes()
    info = f"kamurjesh-{version}.dist-info"
    description = (ROOT / "python" / "README.md").read_text(encoding="utf-8")
    files[f"{info}/METADATA"] = METADATA.format(version=version, description=description).encode()
    files[f"{info}/WHEEL"] = WHEEL.encode()
    return files


def record(files: dict, name: str) -> bytes:
    def row(path: str) -> str:
        digest = base64.urlsafe_b64encode(hashlib.sha256(files[path]).digest()).rstrip(b"=").decode()
        return f"{path},sha256={digest},{len(files[path])}\n"

    return "".join([*map(row, sorted(files)), f"{name},,\n"]).encode()


def write(files: dict, path: Path) -> None:
    with zipfile.ZipFile(path, "w", zipfile.ZIP_DEFLATED) as wheel:
        for name in sorted(files):
            entry = zipfile.ZipInfo(name, WHEN)
            entry.external_attr = 0o644 << 16
            entry.compress_type = zipfile.ZIP_DEFLATED
            wheel.writestr(entry, files[name])


def main(words: list) -> None:
    if len(words) != 2:
        sys.exit(print("usage: wheel.py LIBRARY FOLDER", file=sys.stderr) or 2)
    library, folder = Path(words[0]), Path(words[1])
    version = (ROOT / "VERSION").read_text(encoding="ascii").strip()
    try:
        files = contents(library, version)
    except OSError as error:
        sys.exit(print(f"wheel.py: cannot read {error.filename}: {error.strerror}", file=sys.stderr) or 2)
    name = f"kamurjesh-{version}.dist-info/RECORD"
    files[name] = record(files, name)
    path = folder / f"kamurjesh-{version}-{TAG}.whl"
    write(files, path)
    print(path)


if __name__ == "__main__":
    main(sys.argv[1:])
