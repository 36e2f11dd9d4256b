"""Writes the files of docs/SURPRISES.md, and prints what the library says of each.

    python3 surprises.py FOLDER      writes a file for each row of the page, named by its number, and prints its line
    python3 surprises.py --check     fails if the page has another row than surprises.tsv, or the library says something else

The library is that of the package for Python, which `examples/run build` builds.
"""

from __future__ import annotations

import pathlib
import re
import sys
import tempfile
from typing import Iterator, Tuple

HERE = pathlib.Path(__file__).resolve().parent
PAGE = HERE.parent / "docs" / "SURPRISES.md"
sys.path.insert(0, str(HERE.parent / "bindings" / "python"))

import imagesize_proved  # noqa: E402


def rows() -> Iterator[Tuple[str, bytes, str]]:
    """What each input is, its bytes, and the line about it."""
    for row in (HERE / "surprises.tsv").read_text().splitlines():
        if not row.startswith("#"):
            name, data, line = row.split("\t")
            yield name, bytes.fromhex(data), line


def of_page() -> Iterator[Tuple[str, str]]:
    """What each row of the page is, and the line about it."""
    for row in re.findall(r"^\| \d+ \| (.*) \|$", PAGE.read_text(), re.MULTILINE):
        cells = row.split(" | ")
        yield cells[0], cells[1].strip("`")


def said(path: pathlib.Path) -> str:
    """What the library says of a file."""
    try:
        image_type, size = imagesize_proved.probe(path)
    except imagesize_proved.ImageError as error:
        return f"{error.image_type}: {error.text}" if error.image_type else error.text
    return f"{image_type} {size.width}x{size.height}"


def write(folder: str) -> Iterator[Tuple[pathlib.Path, str, str, str]]:
    """Writes each input to a folder. Its path, what it is, what the library says, and what it should."""
    for number, (name, data, line) in enumerate(rows(), 1):
        path = pathlib.Path(folder) / str(number)
        path.write_bytes(data)
        yield path, name, said(path), line


def check() -> None:
    """Compares the page, the table and the library."""
    listed, page = [(name, line) for name, _, line in rows()], list(of_page())
    for index in range(max(len(listed), len(page))):
        ours, theirs = (some[index] if index < len(some) else None for some in (listed, page))
        assert ours == theirs, f"row {index + 1} of the table is {ours}, and of the page {theirs}"
    with tempfile.TemporaryDirectory() as folder:
        for path, name, got, wanted in write(folder):
            assert got == wanted, f"{name}: {got}, and not {wanted}"
    print(f"{len(listed)} surprises: the page has each, and the library says so")


def main(arguments: list[str]) -> None:
    if arguments == ["--check"]:
        check()
    elif len(arguments) == 1:
        pathlib.Path(arguments[0]).mkdir(parents=True, exist_ok=True)
        for path, name, got, _ in write(arguments[0]):
            print(f"{path}: {got}    {name}")
    else:
        sys.exit(__doc__)


if __name__ == "__main__":
    main(sys.argv[1:])
