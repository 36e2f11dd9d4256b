"""Counts the instructions of each call of the library on many inputs, by callgrind, and compares them with counts.tsv.

    python3 count.py FOLDER            prints the counts, and fails if one differs
    python3 count.py FOLDER --write    writes them to counts.tsv: its diff says what got faster and what slower

FOLDER has libimagesize.a. The inputs are those of bench/inputs: ordinary files, and images of 1,000 records. Only the calls of the library
are counted, and what they call, but not the program that makes them.

The status is 1 if a call takes over a twentieth more than counts.tsv has. It is 1 too if a call takes less than nine tenths: the table is
then to be written anew. memcpy, memmove and memset are of the machine's C library, so on another machine than the table's a quarter more is
allowed. On an ordinary file imagesize_size may take at most 10 instructions more than the crate's blob_size.
"""

import concurrent.futures
import os
import pathlib
import re
import subprocess
import sys
import tempfile

HERE = pathlib.Path(__file__).resolve().parent
TABLE = HERE / "counts.tsv"
STREAM = ("imagesize_stream_new", "imagesize_stream_push")
# What `repeat` can do, and the functions of the library that it calls for that.
CALLS = {
    "size": ("imagesize_size",),
    "probe": ("imagesize_probe",),
    "spans": ("imagesize_spans",),
    "parts": ("imagesize_parts_probe",),
    "many": ("imagesize_parts_probe",),
    "stream": STREAM,
    "chunks": STREAM,
    "bytes": STREAM,
    "again": ("passed_again",),
}
MOST, MOST_ELSEWHERE, LEAST = 1.05, 1.25, 0.9
MOST_OVER_THE_CRATE = 10


def rows():
    """The name, the crate's instructions and the bytes of each ordinary file."""
    for row in (HERE / "counted.tsv").read_text().splitlines():
        if not row.startswith("#"):
            name, length, crate, parts = row.split("\t")
            data = bytearray(int(length))
            for place, text in (part.split(":") for part in parts.split()):
                known = bytes.fromhex(text)
                data[int(place) : int(place) + len(known)] = known
            yield name, int(crate), bytes(data)


def machine():
    """What the counts of memcpy and memset depend on."""
    version = subprocess.run(["valgrind", "--version"], check=True, capture_output=True, text=True).stdout.strip()
    has_avx2 = "avx2" in pathlib.Path("/proc/cpuinfo").read_text()
    return f"{os.confstr('CS_GNU_LIBC_VERSION')}, {version}, {'avx2' if has_avx2 else 'no avx2'}"


def compiled(library, folder):
    """The program `repeat` over a library. Its symbols are bound at the start: no count has a search of the loader."""
    program = f"{folder}/repeat"
    sources = [f"-I{HERE.parent}/include", f"{HERE}/repeat.c", f"{library}/libimagesize.a"]
    subprocess.run([os.environ.get("CC", "cc"), "-std=c11", "-O2", "-Wl,-z,now", "-o", program, *sources], check=True)
    return program


def instructions(program, call, file):
    """The instructions of the functions of one call."""
    toggles = [f"--toggle-collect={function}" for function in CALLS[call]]
    command = ["valgrind", "--tool=callgrind", "--callgrind-out-file=/dev/null", *toggles, program, call, "1", file]
    run = subprocess.run(command, check=True, capture_output=True, text=True)
    return int(re.search(r"Collected : (\d+)", run.stderr)[1])


def counted(library):
    """The counts of a library by their file and their call, in the order of the table."""
    with tempfile.TemporaryDirectory() as folder, concurrent.futures.ThreadPoolExecutor(os.cpu_count()) as pool:
        program = compiled(library, folder)
        subprocess.run([HERE.parent / "bench" / "inputs", f"{folder}/inputs"], check=True)
        pairs = [(file, call) for file in sorted(pathlib.Path(folder, "inputs").iterdir()) for call in CALLS]
        counts = pool.map(lambda pair: instructions(program, pair[1], pair[0]), pairs)
        return {(file.name, call): count for (file, call), count in zip(pairs, counts)}


def table(found):
    """The counts as lines."""
    names = dict.fromkeys(name for name, _ in found)
    lines = ["\t".join([name, *(str(found[name, call]) for call in CALLS)]) for name in names]
    return "\n".join(["\t".join(["file", *CALLS]), *lines]) + "\n"


def written():
    """The machine and the counts of counts.tsv, by their file and their call."""
    head, *lines = TABLE.read_text().splitlines()
    calls, *lines = [line.split("\t") for line in lines]
    return head[len("# "):], {(name, call): int(number) for name, *numbers in lines for call, number in zip(calls[1:], numbers)}


def beyond(found, before, is_here):
    """A line for each count that is too high for a table, and for each one that shows that the table is old."""
    for (name, call), count in found.items():
        known = before.get((name, call))
        said = f"{call} of {name}: {count} instructions, and {known} in the table"
        if known is None:
            yield f"{call} of {name}: not in the table; write it again"
        elif count > known * (MOST if is_here else MOST_ELSEWHERE):
            yield said
        elif is_here and count < LEAST * known:
            yield f"{said}; write it again"


def wrong(found):
    """A line for each count that is too high beside the crate's or the table's, and for each one that shows that the table is old."""
    where, before = written()
    for name, crate, _ in rows():
        if found[name, "size"] > crate + MOST_OVER_THE_CRATE:
            yield f"size of {name}: {found[name, 'size']}, and the crate's {crate}"
    yield from beyond(found, before, where == machine())


def main(library, *options):
    """Prints the counts, and compares or writes them."""
    found = counted(library)
    print(table(found), end="")
    if options == ("--write",):
        TABLE.write_text(f"# {machine()}\n{table(found)}")
    lines = list(wrong(found))
    print(*lines, f"{len(found)} counts, {len(lines)} wrong", sep="\n")
    return 1 if lines else 0


if __name__ == "__main__":
    sys.exit(main(*sys.argv[1:]))
