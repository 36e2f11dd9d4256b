"""Runs the examples over the test vectors.

    python3 check.py FOLDER

FOLDER has the programs `image` and `blocks`, the shared library, and the test vectors that expand.py writes, as `run` builds
them. It adds the inputs of surprises.tsv, which the READMEs list as "What you may not expect".
"""

import os
import pathlib
import subprocess
import sys
import tempfile

HERE = pathlib.Path(__file__).resolve().parent
# A PNG that ends before its size. The table has the result of the calls that leave PNG out; the calls over files and the Python package
# read PNG too.
PNG = b"\x89PNG\r\n\x1a\n\0\0\0\r"
CUT_PNG = "Png: failed to fill whole buffer", "0+8"


def rows(out):
    """The bytes, the line and the spans of each test vector."""
    for row in pathlib.Path(out, "worked.tsv").read_text().splitlines():
        data, line, spans = row.split("\t")
        yield bytes.fromhex("" if data == "-" else data), line, spans
    for row in (HERE / "surprises.tsv").read_text().splitlines()[1:]:
        _, data, line = row.split("\t")
        yield bytes.fromhex(data), line, "?"


def printed(command, names, spans):
    """The output of an example for some files."""
    asked = ["--spans"] if spans else []
    return subprocess.run([*command, *asked, *names], check=True, capture_output=True, text=True).stdout


def with_png(data, line):
    """The line where PNG is tried first."""
    return CUT_PNG[0] if data == PNG else line


def wanted(line, spans):
    """The expected output for one file."""
    below = [] if spans in "-?" else [f"  {span}" for span in spans.split()]
    return "".join(text + "\n" for text in [line, *below])


def check_examples(out):
    """Both examples print the results of the test vectors."""
    count = 0
    with tempfile.TemporaryDirectory() as folder:
        for with_spans in (True, False):
            names, by_c, by_python = [], "", ""
            for index, (data, line, spans) in enumerate(rows(out)):
                if (spans != "?") == with_spans:
                    name = pathlib.Path(folder) / f"{index}.bin"
                    name.write_bytes(data)
                    names.append(str(name))
                    by_c += wanted(line, spans)
                    by_python += wanted(*(CUT_PNG if data == PNG else (line, spans)))
            count += len(names)
            for command, want in ([f"{out}/image"], by_c), ([sys.executable, str(HERE / "image.py")], by_python):
                got = printed(command, names, with_spans)
                assert got == want, differs(got, want)
    print(f"{count} test vectors: both examples print their results")


def check_blocks(out):
    """The example that reads blocks alone prints the results of the test vectors too."""
    with tempfile.TemporaryDirectory() as folder:
        names, want = [], ""
        for index, (data, line, _) in enumerate(rows(out)):
            name = pathlib.Path(folder) / f"{index}.bin"
            name.write_bytes(data)
            names.append(str(name))
            want += with_png(data, line) + "\n"
        for option in ([], ["--stdio"]):
            got = printed([f"{out}/blocks", *option], names, False)
            assert got == want, differs(got, want)
    print(f"{len(names)} test vectors by blocks: the example prints their results")


def check_pipe(out):
    """A pipe is read forward, once. One without a writer has no bytes, and is not waited for."""
    empty = "failed to fill whole buffer\n"
    with tempfile.TemporaryDirectory() as folder:
        pipe = f"{folder}/pipe"
        os.mkfifo(pipe)
        ended = subprocess.run([f"{out}/blocks", pipe], capture_output=True, text=True, timeout=10)
    assert (ended.returncode, ended.stdout, ended.stderr) == (0, empty, ""), ended
    for data, line, _ in rows(out):
        for option in ([], ["--stdio"]):
            ended = subprocess.run([f"{out}/blocks", *option, "/dev/stdin"], input=data, capture_output=True, timeout=10)
            assert (ended.returncode, ended.stdout.decode()) == (0, with_png(data, line) + "\n"), f"{ended}, and not {line}"
    print("the test vectors by a pipe: the example prints their results")


def differs(got, want):
    """The first line that differs."""
    for a, b in zip(got.splitlines() + [""], want.splitlines() + [""]):
        if a != b:
            return f"got {a!r}, and not {b!r}"
    return "one has more lines"


if __name__ == "__main__":
    check_examples(sys.argv[1])
    check_blocks(sys.argv[1])
    check_pipe(sys.argv[1])
