#!/usr/bin/env python3
"""What `imagesize::size` costs on each file of a folder: its system calls, the bytes that it reads, and its instructions.

    count.py FOLDER [TABLE]

A second row has the cost of `imagesize::stream_size`, which cannot seek.

System calls want strace, and are those from the opening of the file to its closing. Instructions want valgrind; a column of a tool
that is not there is `-`. TABLE has lines of three words, split by tabs: a file's name, and the reads and seeks that another program
makes. With its opening and closing these are its calls; the script then ends with 1 where ours are more by two on any file.
"""

import json
import pathlib
import re
import shutil
import subprocess
import sys

HERE = pathlib.Path(__file__).resolve().parent
CALLS = 200


def program():
    """The program that calls `size`, built for release."""
    command = ["cargo", "build", "--offline", "--release", "--bench", "size", "--message-format=json"]
    built = subprocess.run(command, cwd=HERE, check=True, capture_output=True, text=True)
    messages = map(json.loads, built.stdout.splitlines())
    return next(m["executable"] for m in messages if m.get("executable"))


def system_calls(size, file, *how):
    """How many calls one `size` makes, and how many bytes they give it."""
    traced = subprocess.run(["strace", size, "1", file, *how], check=True, capture_output=True, text=True).stderr.splitlines()
    first = next(i for i, line in enumerate(traced) if line.startswith("openat(") and f'"{file}"' in line)
    last = next(i for i, line in enumerate(traced) if i > first and line.startswith("close("))
    lines = [line for line in traced[first : last + 1] if not line.startswith(("brk(", "mmap(", "munmap(", "mremap("))]
    given = [int(m[1]) for line in lines if (m := re.match(r"p?read.*= (\d+)$", line))]
    return len(lines), sum(given)


def instructions(size, calls, file, *how):
    """How many instructions the program needs for so many calls."""
    command = ["valgrind", "--tool=callgrind", "--callgrind-out-file=/dev/null", size, str(calls), file, *how]
    counted = subprocess.run(command, check=True, capture_output=True, text=True).stderr
    return int(re.search(r"refs:\s*([\d,]+)", counted)[1].replace(",", ""))


def row(name, beside, size, *command):
    """Prints the row of a file, and returns its system calls."""
    calls, given = system_calls(size, *command) if shutil.which("strace") else ("-", "-")
    cost = "-"
    if shutil.which("valgrind"):
        cost = (instructions(size, 2 * CALLS, *command) - instructions(size, CALLS, *command)) // CALLS
    print(f"{name:<24}{calls:>7}{beside:>8}{given:>10}{cost:>14}", flush=True)
    return calls


def main(folder, table=None):
    size = program()
    lines = pathlib.Path(table).read_text().splitlines() if table else []
    others = {name: int(reads) + int(seeks) + 2 for name, reads, seeks in (line.split("\t") for line in lines)}
    more = 0
    print(f"{'file':<24}{'calls':>7}{'beside':>8}{'bytes':>10}{'instructions':>14}")
    for file in sorted(path for path in pathlib.Path(folder).iterdir() if path.is_file()):
        beside = others.get(file.name, "-")
        calls = row(file.name, beside, size, str(file))
        row("  as a stream", "-", size, str(file), "stream")
        more += calls != "-" and beside != "-" and calls > beside + 1
    return more > 0


sys.exit(main(*sys.argv[1:]))
