"""Gives a program the test vectors as files, and compares the line that it prints of each.

    python3 lines.py WORKED [--named|--package|--numbers] COMMAND..

WORKED is what examples/expand.py writes. With --named the command prints as imagesize_probe does: each line begins with the name of
its file, an error has no type, and its text may have numbers. With --package it takes PNG, as the packages do. With --numbers it
does too, its numbers are those of JavaScript, and a side of 2^53 pixels or more is an error.
"""

import pathlib
import re
import subprocess
import sys
import tempfile

sys.path.insert(0, str(pathlib.Path(__file__).resolve().parent.parent / "examples"))
sys.dont_write_bytecode = True

import expand  # noqa: E402


def rows(worked):
    """The bytes and the line of each test vector, and of those that may surprise."""
    for row in pathlib.Path(worked).read_text().splitlines():
        data, line, _ = row.split("\t")
        yield bytes.fromhex(data.replace("-", "")), line
    for row in (pathlib.Path(expand.__file__).parent / "surprises.tsv").read_text().splitlines()[1:]:
        _, data, line = row.split("\t")
        yield bytes.fromhex(data), line


def by_package(data, line):
    """The line of a package, which takes PNG: the table has the result of the calls that leave PNG out."""
    return "Png: failed to fill whole buffer" if data.startswith(b"\x89PNG\r\n\x1a\n") else line


def by_numbers(line):
    """The line where numbers are those of JavaScript."""
    sides = re.fullmatch(r"(\S+) (\d+)x(\d+)", line)
    too_large = sides and max(int(sides[2]), int(sides[3])) >= 1 << 53
    return f"{sides[1]}: A side has 2^53 pixels or more" if too_large else line


def is_named(said, name, wanted):
    """Whether a line is what imagesize_probe prints of a file."""
    if re.fullmatch(r"\S+ \d+x\d+", wanted):
        return said == f"{name}: {wanted}"
    for text, plain in expand.PLAIN:
        said = re.sub(text, plain, said)
    return said == f"{name}: error: {wanted.split(': ', 1)[-1]}"


def printed(command, inputs):
    """The name and the line of each input."""
    with tempfile.TemporaryDirectory() as folder:
        names = [f"{folder}/{index}.bin" for index in range(len(inputs))]
        for name, (data, _) in zip(names, inputs):
            pathlib.Path(name).write_bytes(data)
        said = subprocess.run([*command, *names], stdout=subprocess.PIPE, text=True).stdout.splitlines()
    assert len(said) == len(inputs), f"{len(said)} lines of {len(inputs)} files"
    return zip(names, said)


def main(worked, *command):
    option, command = (command[0], command[1:]) if command[0].startswith("--") else ("", command)
    inputs = list(rows(worked))
    for (name, said), (data, wanted) in zip(printed(command, inputs), inputs):
        wanted = by_package(data, wanted) if option in ("--package", "--numbers") else wanted
        wanted = by_numbers(wanted) if option == "--numbers" else wanted
        assert is_named(said, name, wanted) if option == "--named" else said == wanted, f"{said!r}, and not {wanted!r}"
    print(f"{len(inputs)} inputs")


if __name__ == "__main__":
    main(*sys.argv[1:])
