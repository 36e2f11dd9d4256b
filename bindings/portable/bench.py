"""Measures the calls of the portable library beside those of the native one, on this machine, over the 36 files of examples/counted.tsv.

    python3 bench.py [CALL]

It prints the nanoseconds of one call by each library, on each file, and their sums. CALL is one that tests/speed.c knows; `size`, which
is imagesize_size, if it is left out; or `all`, for one line of sums for each call. The status is 1 if the sums differ by more than a factor
of 2.5, or if a call of the portable library takes more than 2,000 nanoseconds.
"""

import os
import pathlib
import subprocess
import sys
import tempfile

HERE = pathlib.Path(__file__).resolve().parent
TOP = HERE.parent.parent
sys.path.insert(0, str(TOP / "examples"))
from count import rows  # noqa: E402

SOURCE = HERE / "out" / "imagesize-portable"
CALLS = ("size", "probe", "spans", "parts", "rounds", "stream")
MOST_TIMES, MOST_NANOSECONDS = 2.5, 2000
ROUNDS = 3


def built(folder, name, library):
    """The program with a library."""
    program = str(folder / name)
    command = [os.environ.get("CC", "cc"), "-std=c11", "-O2", "-w", f"-I{TOP / 'include'}", "-o", program, str(HERE / "tests" / "speed.c")]
    subprocess.run([*command, str(library)], check=True)
    return program


def measured(program, call, files):
    """The nanoseconds of a call on each file, without those of a call that does nothing."""
    def once(call, files):
        lines = subprocess.run([program, call, *files], check=True, capture_output=True, text=True).stdout
        return [float(line) for line in lines.split()]
    nothing = min(once("none", files[:1] * 5))
    return [each - nothing for each in once(call, files)]


def least(programs, call, files):
    """The least of some rounds of each program. They run by turns, so that other work slows both."""
    rounds = [[measured(program, call, files) for program in programs] for _ in range(ROUNDS)]
    return [[min(each) for each in zip(*turns)] for turns in zip(*rounds)]


def main(call):
    with tempfile.TemporaryDirectory() as name:
        folder = pathlib.Path(name)
        files, names = [], []
        for file, _, data in rows():
            (folder / file).write_bytes(data)
            files.append(str(folder / file))
            names.append(file)
        native = built(folder, "native", TOP / "examples" / "out" / "libimagesize.a")
        portable = built(folder, "portable", SOURCE / "imagesize_portable.c")
        well = True
        for each in CALLS if call == "all" else [call]:
            ours, theirs = least((portable, native), each, files)
            times = sum(ours) / sum(theirs)
            well &= times <= MOST_TIMES and max(ours) <= MOST_NANOSECONDS
            if call != "all":
                for file, a, b in zip(names, ours, theirs):
                    print(f"{file:<24}{a:>8.0f}{b:>8.0f}{a / b:>8.2f}")
            print(f"{each}: {len(files)} files, portable {sum(ours):.0f} ns, native {sum(theirs):.0f} ns, {times:.2f} times; "
                  f"the longest {max(ours):.0f} ns")
    return 0 if well else 1


if __name__ == "__main__":
    sys.exit(main(sys.argv[1] if len(sys.argv) > 1 else "size"))
