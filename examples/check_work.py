"""Runs the program and that of `size` as a user does, and counts the work for a result: what neither a proof nor a test shows.

    python3 check_work.py FOLDER PROBE SIZES

FOLDER has the library and gets what is built here, PROBE is the program `imagesize_probe`, and SIZES that of `imagesize_vectors`,
which prints the size of each file that is named. System calls are counted by strace and instructions by valgrind, if they are
installed. The bounds are wide: code that does the work twice, or reads bytes that it does not need, exceeds them.
"""

import os
import pathlib
import re
import resource
import select
import shutil
import socket
import subprocess
import sys
import tempfile

HERE = pathlib.Path(__file__).resolve().parent
USAGE = "usage: imagesize_probe [--spans] FILE...\n"
# How many seconds a program may take for one line.
PATIENCE = 20

GIF = b"GIF89ad\0d\0\0\0"
SEGMENTS = 1000
# A JPEG of 7 by 5 pixels after empty segments, with a megabyte after its frame.
LONG_JPEG = b"\xff\xd8" + b"\xff\xe0\0\x02" * SEGMENTS + b"\xff\xc0\0\x11\x08\0\x05\0\x07" + bytes(1 << 20)
# An HDR and a PNM of 7 by 5 pixels after long lines.
LONG_HDR = b"#?RADIANCE\n" + (b"a" * 249 + b"\n") * 1000 + b"-Y 5 +X 7\n"
LONG_PNM = b"P6\n" + (b"#" + b" c" * 400 + b"\n") * 200 + b"7 5\n255\n"
FILES = {
    "tiny.gif": GIF,
    "cut.gif": GIF[:10],
    "long.gif": GIF + bytes(1 << 20),
    "long.jpeg": LONG_JPEG,
    "long.hdr": LONG_HDR,
    "long.pnm": LONG_PNM,
}


# Hostile inputs of about a million bytes: short records, so that many end where a chunk ends.
HOSTILE = {
    "segments.jpeg": b"\xff\xd8" + b"\xff\xe0\0\x02" * 250_000,
    "chunks.iff": b"FORM\0\x0f\x42\x40ILBM" + b"NAME\0\0\0\0" * 125_000,
    "comments.pnm": b"P5\n" + b"#\n" * 500_000,
    "lines.hdr": b"#?RADIANCE\n" + b"a\n" * 500_000,
    "entries.tif": b"II*\0\x08\0\0\0\xff\xff" + b"\x01\x02\x03\0\x01\0\0\0\x01\0\0\0" * 65_535,
    "attributes.exr": b"\x76\x2f\x31\x01\x02\0\0\0" + b"a\0b\0\0\0\0\0" * 125_000,
    "boxes.heif": b"\0\0\0\x18ftypheic\0\0\0\0heicmif1" + b"\0\0\0\x08free" * 125_000,
    "boxes.jxl": b"\0\0\0\x0cJXL \r\n\x87\n" + b"\0\0\0\x08free" * 125_000,
}


def run(*command, **settings):
    """The standard output, the standard error and the status of a command."""
    told = subprocess.run(command, capture_output="stdout" not in settings, text=True, **settings)
    return told.stdout, told.stderr, told.returncode


def check_program(probe):
    """What the program writes to either output, and its status."""
    sized, refused = "tiny.gif: Gif 100x100\n", "cut.gif: error: failed to fill whole buffer\n"
    folder = ".: error: Is a directory (os error 21)\n"
    for arguments, want in [
        ([], ("", USAGE, 2)),
        (["--spans"], ("", USAGE, 2)),
        (["tiny.gif"], (sized, "", 0)),
        (["cut.gif"], (refused, "", 1)),
        (["."], (folder, "", 1)),
        (["--spans", "."], (folder, "", 1)),
        (["--spans", "tiny.gif"], (sized + "  0+12\n  6+2\n  8+2\n", "", 0)),
        (["tiny.gif"] * 64 + ["cut.gif", "tiny.gif"], (sized * 64 + refused + sized, "", 1)),
        # Names are printed as they are.
        (["a\nb", "tiny.gif"], ("a\nb: error: No such file or directory (os error 2)\n" + sized, "", 1)),
    ]:
        got = run(probe, *arguments)
        assert got == want, f"{arguments[:3]}: {got}, and not {want}"
    assert run(probe, b"\xff")[2] == 1, "an argument that is no UTF-8"
    with open("/dev/full", "w") as full:
        assert run(probe, "tiny.gif", stdout=full, stderr=subprocess.DEVNULL)[2] == 1, "a full disk"
    print("the program: its outputs and its statuses")


def limited(limit, most, *command, **settings):
    """The output of a command under a limit of the system, and its status."""
    return run(*command, preexec_fn=lambda: resource.setrlimit(limit, (most, most)), **settings)


def check_files(probe, sizes):
    """Each file is closed after its size is read, and the buffer is small."""
    sized = "tiny.gif: Gif 100x100\n"
    for command, line in [
        ([sizes], "100x100\n"),
        ([probe], sized),
        ([probe, "--spans"], sized + "  0+12\n  6+2\n  8+2\n"),
    ]:
        for name, limit, most in [("open files", resource.RLIMIT_NOFILE, 16), ("memory", resource.RLIMIT_AS, 32 << 20)]:
            got = limited(limit, most, *command, *["tiny.gif"] * 5000)
            assert got == (line * 5000, "", 0), f"{command}: {name} at most {most}: {got[0][-200:]!r} {got[1:]}"
    print("5000 files by each program: within 16 open files and 32 MiB")


def check_memory(probe):
    """A file of 2 GiB, which is too long for its spans, is not loaded, and the output's buffer is small."""
    with open("sparse.bin", "wb") as sparse:
        sparse.truncate(2 << 30)
    want = "sparse.bin: error: file is longer than 16777216 bytes\n", "", 1
    got = limited(resource.RLIMIT_AS, 128 << 20, probe, "--spans", "sparse.bin")
    assert got == want, f"spans of 2 GiB within 128 MiB: {got}"
    ours, theirs = socket.socketpair(socket.AF_UNIX, socket.SOCK_SEQPACKET)
    with ours, theirs:
        limited(resource.RLIMIT_AS, 32 << 20, probe, *["tiny.gif"] * 5, stdout=theirs)
        theirs.close()
        packets = [packet for packet in iter(lambda: ours.recv(1 << 16), b"")]
    assert packets == [b"tiny.gif: Gif 100x100\n"] * 5, f"a line is not written at once within 32 MiB: {packets[:6]}"
    print("memory: spans of 2 GiB within 128 MiB, and lines go out whole within 32 MiB")


def check_order(probe):
    """A line goes out before the next file is opened, which may block. Without a reader of the lines, no other file is opened."""
    os.mkfifo("later")
    with subprocess.Popen([probe, "tiny.gif", "later"], stdout=subprocess.PIPE) as program:
        ready = select.select([program.stdout], [], [], PATIENCE)[0]
        # The writer that the program waits for.
        later = os.open("later", os.O_RDWR | os.O_NONBLOCK)
        try:
            assert ready, "no line before a file that blocks"
            lines, _ = program.communicate(timeout=PATIENCE)
        finally:
            program.kill()
            os.close(later)
    assert lines == b"tiny.gif: Gif 100x100\nlater: error: Illegal seek (os error 29)\n", f"a file that blocks: {lines}"
    reads, writes = os.pipe()
    os.close(reads)
    with open(writes, "wb") as broken:
        told = subprocess.run([probe, "tiny.gif", "later"], stdout=broken, stderr=subprocess.DEVNULL, timeout=PATIENCE, check=False)
    assert told.returncode == 1, f"a broken pipe: status {told.returncode}"
    print("order: each line goes out before the next file is opened")


def traced(command, name):
    """The system calls of a command, with arguments and results, from the first one that opens a file."""
    calls = "trace=open,openat,read,pread64,readv,lseek,write,writev,fstat,newfstatat,statx"
    with tempfile.NamedTemporaryFile("r") as log:
        subprocess.run(["strace", "-f", "-o", log.name, "-e", calls, *command], stdout=subprocess.DEVNULL, check=False)
        found = re.findall(r"(\w+)\((.*)\) += (-?\d+)", log.read())
    begin = next((i for i, call in enumerate(found) if f'"{name}"' in call[1]), len(found))
    return found[begin:]


def counted(command, name):
    """The numbers of opens, reads, seeks and writes of a command, and of the bytes that it reads."""
    calls = traced(command, name)
    read = [int(answer) for call, _, answer in calls if "read" in call]
    opens, seeks, writes = (sum(word in call for call, _, _ in calls) for word in ("open", "lseek", "write"))
    return {"opens": opens, "reads": len(read), "bytes": sum(read), "seeks": seeks, "writes": writes}


def check_pipe(sizes):
    """`size` of a pipe reads its first bytes, and is an error."""
    os.mkfifo("pipe")
    pipe = os.open("pipe", os.O_RDWR | os.O_NONBLOCK)
    os.write(pipe, GIF)
    lines, _, status = run(sizes, "pipe", timeout=PATIENCE)
    assert (lines, status) == ("Illegal seek (os error 29)\n", 0), f"a pipe: {lines}, status {status}"
    assert not select.select([pipe], [], [], 0)[0], "bytes that are left in a pipe"
    os.close(pipe)
    print("a pipe: size is an error")


def check_calls(probe, sizes):
    """A file is opened once, only its first bytes are read, in blocks, and lines are written in blocks. Where a file is read on, each
    block after the first has 8 KiB. `size` reads a block before it seeks to the end, and back if it reads on."""
    front = {"opens": 1, "reads": 4, "bytes": 16384, "seeks": 0, "writes": 2}
    whole = {"opens": 1, "reads": 100, "bytes": len(LONG_JPEG) * 3 // 2, "seeks": 4, "writes": 20}
    lines = {"opens": 1, "reads": 1 + -(-(len(LONG_HDR) - 4096) // 8192), "bytes": len(LONG_HDR), "seeks": 0, "writes": 2}
    for command, most in [
        ([sizes, "long.jpeg"], front | {"seeks": 1}),
        ([probe, "long.jpeg"], front),
        ([probe, "--spans", "long.jpeg"], whole),
        ([sizes, "long.hdr"], lines | {"seeks": 2}),
        ([probe, "long.hdr"], lines),
    ]:
        got = counted(command, command[-1])
        assert got["opens"] == 1 and all(got[call] <= most[call] for call in most), f"{command}: {got}, and at most {most}"
    calls = [call for call, _, _ in traced([sizes, "tiny.gif"], "tiny.gif")][:4]
    assert calls == ["openat", "read", "lseek", "write"], f"size: {calls}"
    print("system calls: a file is opened once, and read in blocks, as far as its size needs them")


def collected(program, function, *arguments):
    """The instructions of a function and of those that it calls. Without a function, those of the whole program."""
    toggle = [f"--toggle-collect={function}"] if function else []
    told = run("valgrind", "--tool=callgrind", "--callgrind-out-file=/dev/null", *toggle, program, *arguments)[1]
    return int(re.search(r"Collected : (\d+)", told).group(1))


def compiled(folder, name):
    """A C program of this folder, built with the library. Its symbols are bound at the start: no count has a search of the loader."""
    program = f"{folder}/{name}_counted"
    sources = [f"-I{HERE.parent}/include", f"{HERE}/{name}.c", f"{folder}/libimagesize.a"]
    subprocess.run([os.environ.get("CC", "cc"), "-O1", "-Wl,-z,now", "-o", program, *sources], check=True)
    return program


def check_streams(folder):
    """A push parser looks at each record once, in whatever chunks the bytes come. A small input in one chunk is one call's work."""
    program = compiled(folder, "repeat")
    once = collected(program, "imagesize_stream_push", "stream", "1", "tiny.gif")
    assert once <= 1500, f"imagesize_stream_push of a GIF: {once} instructions, and at most 1500"
    for name, data in HOSTILE.items():
        pathlib.Path(name).write_bytes(data)
        whole = collected(program, "imagesize_size", "size", "1", name)
        count = collected(program, "imagesize_stream_push", "chunks", "1", name)
        assert count <= 6 * whole, f"{name} in chunks: {count} instructions, and {whole} for the whole"
    print("instructions: hostile inputs in chunks take at most six times those of the whole")


def check_instructions(folder, probe):
    """The bytes after the size are not read. Each segment and each byte of a text is read once, by a call and by the program.
    Spans are counted before they are written, so these are read twice."""
    program = compiled(folder, "image")
    start = collected(probe, None, "tiny.gif")
    for name, of_probe, of_spans, of_program, of_program_with_spans in [
        ("tiny.gif", 300, 1000, 20_000, 20_000),
        ("long.gif", 300, 1000, 20_000, 8_000_000),
        ("long.jpeg", 45 * SEGMENTS, 300 * SEGMENTS, 450 * SEGMENTS, 2_600 * SEGMENTS),
        ("long.hdr", 11 * len(LONG_HDR), 33 * len(LONG_HDR), 20 * len(LONG_HDR), 21 * len(LONG_HDR)),
        ("long.pnm", 10 * len(LONG_PNM), 31 * len(LONG_PNM), 37 * len(LONG_PNM), 20 * len(LONG_PNM)),
    ]:
        for what, count, most in [
            ("imagesize_probe", collected(program, "imagesize_probe", name), of_probe),
            ("imagesize_spans, twice", collected(program, "imagesize_spans", "--spans", name), of_spans),
            ("the program", collected(probe, None, name) - start, of_program),
            ("the program, with spans", collected(probe, None, "--spans", name) - start, of_program_with_spans),
        ]:
            assert count <= most, f"{what} on {name}: {count} instructions, and at most {most}"
    print("instructions: type and size are found once, and from few bytes")


def main(folder, probe, sizes):
    folder, probe, sizes = (str(pathlib.Path(path).resolve()) for path in (folder, probe, sizes))
    with tempfile.TemporaryDirectory() as place:
        os.chdir(place)
        for name, data in FILES.items():
            pathlib.Path(name).write_bytes(data)
        check_program(probe)
        check_files(probe, sizes)
        check_memory(probe)
        check_order(probe)
        check_pipe(sizes)
        for tool, check in [("strace", lambda: check_calls(probe, sizes)), ("valgrind", lambda: check_instructions(folder, probe)),
                            ("valgrind", lambda: check_streams(folder))]:
            if shutil.which(tool):
                check()
            else:
                print(f"not counted: there is no {tool}")


if __name__ == "__main__":
    main(*sys.argv[1:])
