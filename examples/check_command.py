"""Runs the command imagesize in C and in Python, as a user does: both print the same, and end with the same status.

    python3 check_command.py COMMAND WORKED

COMMAND is the program of bindings/c, and WORKED the test vectors that expand.py writes. The command in Python is that of this
repository.
"""

import json
import os
import pathlib
import pty
import re
import shlex
import signal
import socket
import subprocess
import sys
import tempfile
import time

HERE = pathlib.Path(__file__).resolve().parent
PACKAGE = HERE.parent / "bindings" / "python"
IN_PYTHON = [sys.executable, "-m", "imagesize_proved"]

GIF = b"GIF89a\x80\x02\xe0\x01\0\0"
PNG = b"\x89PNG\r\n\x1a\n\0\0\0\rIHDR\0\0\0\x07\0\0\0\x05\x08\0\0\0\0"
JPEG = b"\xff\xd8" + (b"\xff\xe0\xff\xff" + bytes(65533)) * 3 + b"\xff\xc0\0\x11\x08\0\x05\0\x07" + bytes(8)
DDS = b"DDS \x7c\0\0\0\x07\x10\0\0\5\0\0\0\7\0\0\0" + bytes(64) + b"DXT1" + bytes(40)
AVIF = bytes.fromhex("0000001066747970617669660000000000000039") + b"meta" + bytes(4)
# Names, and whether a line shows them as they are.
NAMES = {
    b"a photo.gif": True,
    "caf\u00e9 \u732b \U0001f408.gif".encode(): True,
    b"two\nlines.gif": False,
    b"\x1b[31mred.gif": False,
    b"no text \xff\xfe.gif": False,
    b"half \xe2\x82.gif": False,
    b"surrogate \xed\xa0\x80.gif": False,
    b"back\\slash.gif": False,
    "turned \u202egif.exe".encode(): False,
    "line \u2028 end.gif".encode(): False,
    b'quote" tab\t del\x7f.gif': False,
    b"-": True,
    b"--json": True,
}
FILES = {
    "a.gif": GIF, "b.png": PNG, "c.jpg": JPEG, "d.dds": DDS, "cut.png": PNG[:20], "cut.gif": GIF[:11], "empty": b"", "e.avif": AVIF,
    "notes.txt": b"no image, but a text", "below/f.gif": GIF, "below/g.png": PNG, "below/deep/h.gif": GIF, "below.gif": GIF,
}


class Ran:
    """What a command printed, and how it ended."""

    def __init__(self, command, arguments, **how):
        environment = {**os.environ, "PYTHONPATH": str(PACKAGE), "PYTHONUNBUFFERED": ""}
        environment.update(how.pop("environment", {}))
        how.setdefault("stdin", subprocess.DEVNULL)
        if "input" in how:
            del how["stdin"]
        ran = subprocess.run([*command, *arguments], env=environment, timeout=60, **{"stdout": subprocess.PIPE, **how}, stderr=subprocess.PIPE)
        self.out, self.err, self.status = ran.stdout, ran.stderr.decode(), ran.returncode


def both(program, *arguments, status=0, err="", **how):
    """What both commands print for these arguments. They end with this status, and say this on the standard error."""
    ours, theirs = (Ran(command, arguments, **how) for command in ([program], IN_PYTHON))
    for ran in (ours, theirs):
        assert (ran.status, ran.err) == (status, err), f"{arguments}: status {ran.status}, {ran.err!r}, {ran.out!r}"[-1000:]
    assert ours.out == theirs.out, f"{arguments}: C printed {ours.out!r}, and Python {theirs.out!r}"[-1000:]
    return (ours.out or b"").decode()


def check_lines(program):
    """A line for each file, whatever befalls the others."""
    said = both(program, "a.gif", "b.png", "none", "d.dds", "cut.png", "notes.txt", "below", "c.jpg", status=1)
    assert said == (
        "Gif                 640x480  a.gif\n"
        "Png                     7x5  b.png\n"
        "-                         -  none: No such file or directory\n"
        "Dds(Bc1)                7x5  d.dds\n"
        "Png                       -  cut.png: the file ends before its size\n"
        "-                         -  notes.txt: the bytes are of no known image type\n"
        "-                         -  below: Is a directory\n"
        "Jpeg                    7x5  c.jpg\n"
    ), said
    assert both(program, "a.gif", "c.jpg").count("\n") == 2
    both(program, *FILES, status=1)
    many = both(program, *["a.gif"] * 5000)
    assert many == "Gif                 640x480  a.gif\n" * 5000
    print("lines: one for each file")


def check_json(program):
    said = both(program, "--json", "--spans", *FILES, status=1)
    rows = {row["path"]: row for row in json.loads(said)}
    assert list(rows) == list(FILES)
    assert rows["b.png"] == {
        "path": "b.png", "type": "Png", "compression": None, "mime_type": "image/png", "width": 7, "height": 5, "status": None,
        "error": None, "spans": [[0, 8], [16, 4], [20, 4]],
    }, rows["b.png"]
    assert (rows["cut.gif"]["status"], rows["cut.gif"]["width"]) == ("END_OF_INPUT", None)
    assert (rows["e.avif"]["mime_type"], rows["e.avif"]["compression"]) == ("image/avif", "Av1")
    assert both(program, "--json", "none", status=1).count("FAULT") == 1
    os.mkdir("nothing")
    assert both(program, "--json", "--recursive", "nothing") == "[]\n"
    assert both(program, "--recursive", "nothing") == ""
    print("JSON: an object for each file")


def check_spans(program):
    assert both(program, "--spans", "a.gif", "b.png") == (
        "Gif                 640x480  a.gif\n  0+12\n  6+2\n  8+2\n"
        "Png                     7x5  b.png\n  0+8\n  16+4\n  20+4\n"
    )
    both(program, "--spans", *FILES, status=1)
    with open("sparse.tif", "wb") as sparse:  # with its directory behind 5 GiB
        sparse.write(b"II+\0\x08\0\0\0" + (5 << 30).to_bytes(8, "little"))
        sparse.seek(5 << 30)
        sparse.write(bytes.fromhex("0200000000000000" "0001030001000000000000000500000000000000" "0101030001000000000000000700000000000000"))
    said = both(program, "--spans", "sparse.tif")
    assert said.startswith("Tiff                    5x7  sparse.tif\n  0+12\n") and "  5368709120+8\n" in said, said
    pathlib.Path("many.jpg").write_bytes(b"\xff\xd8" + b"\xff\xe0\0\x02" * 40000 + b"\xff\xc0\0\x11\x08\0\x05\0\x07" + bytes(8))
    assert both(program, "--spans", "many.jpg") == "Jpeg                    7x5  many.jpg\n"
    assert '"spans": null' in both(program, "--json", "--spans", "many.jpg")
    print("spans: those of both commands")


def check_recursive(program):
    os.symlink("..", "below/loop")
    os.symlink("h.gif", "below/deep/link.gif")
    os.symlink("nowhere", "below/deep/broken.gif")
    os.mkfifo("below/pipe")
    bound = socket.socket(socket.AF_UNIX)
    bound.bind("below/socket")
    said = both(program, "-r", "below", "a.gif", status=1)
    paths = [line.split("  ")[-1] for line in said.splitlines()]
    assert paths == ["below/f.gif", "below/g.png", "below/deep/broken.gif: No such file or directory", "below/deep/h.gif",
                     "below/deep/link.gif", "a.gif"], paths
    assert both(program, "--recursive", "./below/", status=1).splitlines()[0].endswith("./below/f.gif")
    both(program, "--recursive", "--json", ".", status=1)
    os.symlink("itself", "below/itself")
    assert "Too many levels of symbolic links" in both(program, "-r", "below", status=1)
    os.remove("below/itself")
    folders = ["tree" + "/d" * depth for depth in range(1100)]  # deeper than Python calls itself
    for folder in folders:
        os.mkdir(folder)
    pathlib.Path(folders[-1], "a.gif").write_bytes(GIF)
    assert both(program, "-r", "tree").endswith(f"  {folders[-1]}/a.gif\n")
    os.remove(f"{folders[-1]}/a.gif")
    for folder in reversed(folders):
        os.rmdir(folder)
    print("--recursive: the regular files below a folder, in the order of their names")


def check_names(program):
    os.mkdir("names")
    for name in NAMES:
        pathlib.Path(os.fsdecode(b"names/" + name)).write_bytes(GIF)
    said = both(program, "--recursive", "names").splitlines()
    assert len(said) == len(NAMES) and all(line.isprintable() for line in said), said
    for name, shown in NAMES.items():
        line = os.fsdecode(b"Gif                 640x480  names/" + name)
        assert (line in said) == shown, (line, said)
    assert "Gif                 640x480  names/two\\nlines.gif" in said
    assert "Gif                 640x480  names/no text \\xff\\xfe.gif" in said
    assert "Gif                 640x480  names/back\\\\slash.gif" in said
    rows = json.loads(both(program, "--recursive", "--json", "names"))
    assert {os.fsencode(row["path"]) for row in rows} == {b"names/" + name for name in NAMES}
    listed = b"\0".join(b"names/" + name for name in NAMES)
    for end in (b"", b"\0"):
        assert both(program, "--null", input=listed + end).count("\n") == len(NAMES)
    assert both(program, "--null", "a.gif", input=b"b.png\0below\0", status=1).count("\n") == 3
    for length in (65535, 65536, 65537, 200_000):  # names that end near the end of a block, or after it, and one without a zero
        listed = b"b.png\0" + b"x" * length + b"\0a.gif\0" + b"y" * length
        assert [len(line) > 1000 for line in both(program, "--null", input=listed, status=1).splitlines()] == [False, True, False, True]
    both(program, "--null", input=b"\0\0b.png", status=1)
    assert both(program, "-0r", input=b"names\0").splitlines() == said
    os.chdir("names")
    assert both(program, "--null", input=b"-\0") == "Gif                 640x480  -\n"
    assert both(program, "--", "--json", "./-") == "Gif                 640x480  --json\nGif                 640x480  ./-\n"
    os.chdir("..")
    unread = os.open("/proc/self/mem", os.O_RDONLY)  # nothing is at its first bytes
    for command in ([program], IN_PYTHON):
        assert Ran(command, ["--null", "--recursive"], input=b"").status == 2
        ran = Ran(command, ["--null", "a.gif"], stdin=unread)
        assert (ran.status, ran.err) == (1, "imagesize: standard input: Input/output error\n"), ran.err
        assert ran.out == b"Gif                 640x480  a.gif\n", ran.out
    os.close(unread)
    print("names: any bytes, on one line each")


def check_jobs(program):
    """Several processes print what one does, in the same order."""
    long = [f"below/{'x' * 200}{number}.gif" for number in range(1000)]
    for options in ([], ["--json", "--spans"]):
        words = [*options, "-r", "below", *long, "-", *FILES, "-", "many.jpg"]
        one = both(program, *words, status=1)
        for jobs in ("1", "2", "7"):
            assert both(program, *words, "--jobs", jobs, status=1) == one, jobs
    assert both(program, "--jobs", "4", "--null", input=b"a.gif\0" * 5000).count("\n") == 5000
    for jobs in ("0", "-2", "many", "", "9" * 30, "9" * 5000, str(1 << 63), " 2", "2 ", "+2", "1_0", "0x2", "\u0663"):
        ours, theirs = (Ran(command, ["a.gif", "--jobs", jobs]) for command in ([program], IN_PYTHON))
        assert (ours.status, ours.err) == (theirs.status, theirs.err) == (2, theirs.err), (jobs, ours.err, theirs.err)
        assert ours.err.endswith(f"imagesize: no number of processes: {jobs}\n"), ours.err
    with open("/dev/full", "wb") as full:
        for command in ([program], IN_PYTHON):
            ran = Ran(command, ["--jobs", "2", *["a.gif"] * 3000], stdout=full)
            assert (ran.status, ran.err) == (1, "imagesize: standard output: No space left on device\n"), ran.err
    print("--jobs: the same lines in the same order")


def check_killed(program):
    """The run ends when its processes are killed, and they end when it is killed."""
    for command in ([program], IN_PYTHON):
        for is_run in (False, True):
            run = subprocess.Popen([*command, "--null", "--jobs", "2"], stdin=subprocess.PIPE, stdout=subprocess.PIPE, stderr=subprocess.PIPE,
                                   env={**os.environ, "PYTHONPATH": str(PACKAGE)})
            run.stdin.write(b"a.gif\0" * 3000)
            run.stdin.flush()
            workers = waited(lambda: children(run.pid) if len(children(run.pid)) == 2 else None)
            for process in [run.pid] if is_run else workers:
                os.kill(process, signal.SIGKILL)
            if is_run:
                assert waited(lambda: not any(map(goes_on, workers))), (command, workers)
            err = run.communicate(b"a.gif\0" * 3000)[1].decode()
            assert is_run or (run.returncode, err) == (1, "imagesize: a process that reads files has ended\n"), (command, run.returncode, err)
    print("--jobs: no process is left behind, and none is waited for in vain")


def check_early_ends(program):
    """A full disk, a pipe that is closed and an interrupt end a run whose processes have much before them."""
    many = pathlib.Path("many names")
    many.write_bytes((b"./" * 47 + b"/a.gif\0") * 200_000)  # names of 100 bytes, more than the pipes to the processes can have in them
    for command, interrupted in ([program], -signal.SIGINT), (IN_PYTHON, 130):
        for early in ("disk", "pipe", "interrupt") * 5:
            with open(many, "rb") as names, open("/dev/full", "wb") as full:
                run = subprocess.Popen([*command, "--null", "--jobs", "16"], stdin=names, stdout=full if early == "disk" else subprocess.PIPE,
                                       stderr=subprocess.PIPE, env={**os.environ, "PYTHONPATH": str(PACKAGE)}, start_new_session=True)
            if early != "disk":
                assert b"/a.gif" in run.stdout.readline()
            if early == "pipe":
                run.stdout.close()
            if early == "interrupt":
                os.killpg(run.pid, signal.SIGINT)  # while nobody reads what was written
            try:
                status = run.wait(timeout=20)
            except subprocess.TimeoutExpired:
                os.killpg(run.pid, signal.SIGKILL)
                raise AssertionError(f"{command}: {early} does not end it") from None
            error = {"disk": "No space left on device", "pipe": "Broken pipe"}.get(early)
            said = (status, run.stderr.read().decode())
            assert said == ((1, f"imagesize: standard output: {error}\n") if error else (interrupted, "")), (command, early, said)
    many.unlink()
    print("--jobs: an early end is not waited for")


def check_interrupted(program):
    """An interrupt from the terminal ends the run with the status that a shell calls 130, says nothing, and leaves no process behind."""
    writer = os.open("below/pipe", os.O_RDWR)  # a pipe from which nothing comes
    for command, statuses in ([program], (-signal.SIGINT,)), (IN_PYTHON, (130,)):
        for arguments in (["--null"], ["--null", "--jobs", "2"], ["below/pipe"], ["--jobs", "2", "below/pipe", *["a.gif"] * 500],
                          ["--jobs", "2", *["a.gif"] * 500, "below/pipe"]):
            run = subprocess.Popen([*command, *arguments], stdin=subprocess.PIPE, stdout=subprocess.PIPE, stderr=subprocess.PIPE,
                                   env={**os.environ, "PYTHONPATH": str(PACKAGE)}, start_new_session=True)
            if "--null" in arguments:
                run.stdin.write(b"a.gif\0" * 3000)
                run.stdin.flush()
            workers = waited(lambda: children(run.pid) if len(children(run.pid)) == 2 else None) if "--jobs" in arguments else []
            time.sleep(1)
            os.killpg(run.pid, signal.SIGINT)
            try:
                err = run.communicate(timeout=20)[1].decode()
            except subprocess.TimeoutExpired:
                os.killpg(run.pid, signal.SIGKILL)
                raise AssertionError(f"{command} {arguments}: an interrupt does not end it") from None
            assert run.returncode in statuses and err == "", (command, arguments, run.returncode, err)
            assert waited(lambda: not any(map(goes_on, workers))), (command, arguments, workers)
    os.close(writer)
    print("interrupts: the run ends, with its processes")


def children(process):
    """The processes that a process started."""
    return [int(word) for word in pathlib.Path(f"/proc/{process}/task/{process}/children").read_text().split()]


def goes_on(process):
    """Whether a process has not ended."""
    try:
        return pathlib.Path(f"/proc/{process}/stat").read_text().rsplit(")", 1)[1].split()[0] != "Z"
    except OSError:
        return False


def waited(ask):
    """What a function returns, once that is true; at most ten seconds later."""
    for _ in range(200):
        found = ask()
        if found:
            return found
        time.sleep(0.05)
    return found


def check_standard_input(program):
    for data, line, status in ((GIF, "Gif                 640x480  -\n", 0), (PNG, "Png                     7x5  -\n", 0),
                               (JPEG, "Jpeg                    7x5  -\n", 0), (b"", "-                         -  -: the file ends before its size\n", 1),
                               (PNG[:20], "Png                       -  -: the file ends before its size\n", 1)):
        assert both(program, "-", input=data, status=status) == line
        assert '"spans": null' in both(program, "--json", "--spans", "-", input=data, status=status)
        with tempfile.TemporaryFile() as file:
            file.write(data)
            file.flush()
            for arguments in (["-"], ["--spans", "--json", "-"]):
                both(program, *arguments, stdin=file, status=status)
    reader, writer = os.pipe()  # whose other end stays open
    for command in ([program], IN_PYTHON):
        os.write(writer, PNG)
        assert Ran(command, ["-"], stdin=reader).out == b"Png                     7x5  -\n"
    closed = both(program, "-", status=1, preexec_fn=lambda: os.close(0))
    assert closed == "-                         -  -: Bad file descriptor\n"
    print("-: standard input, read once")


def check_input_that_does_not_wait(program):
    """Standard input may be non-blocking, as another program leaves it. It is waited for, and stays as it is."""
    cut = len(PNG) // 2
    for command in ([program], IN_PYTHON):
        for arguments, pieces, out in (
            (["-"], (PNG[:cut], PNG[cut:]), b"Png                     7x5  -\n"),
            (["-", "a.gif"], (b"GIF89a",), b"-                         -  -: the file ends before its size\nGif                 640x480  a.gif\n"),
            (["--null"], (b"a.g", b"if\0b.p", b"ng"), b"Gif                 640x480  a.gif\nPng                     7x5  b.png\n"),
        ):
            reader, writer = os.pipe()
            os.set_blocking(reader, False)
            ran = subprocess.Popen([*command, *arguments], stdin=reader, stdout=subprocess.PIPE, stderr=subprocess.PIPE,
                                   env={**os.environ, "PYTHONPATH": str(PACKAGE)})
            for piece in pieces:
                time.sleep(0.4)
                os.write(writer, piece)
            assert not os.get_blocking(reader)
            os.close(writer)
            said, err = ran.communicate(timeout=60)
            assert (said, err) == (out, b""), (command, arguments, said, err)
            os.close(reader)
    print("-: standard input that does not wait is waited for")


def check_pipes(program):
    """A pipe without a writer has no bytes, and is not waited for. A device is read."""
    assert both(program, "below/pipe", status=1) == "-                         -  below/pipe: the file ends before its size\n"
    for command in ([program], IN_PYTHON):
        writer = os.open("below/pipe", os.O_RDWR)
        os.write(writer, GIF)
        assert Ran(command, ["below/pipe"]).out == b"Gif                 640x480  below/pipe\n"
        os.close(writer)
    both(program, "/dev/null", "/dev/zero", "below/socket", status=1)
    print("pipes: read once, and not waited for")


def check_output(program):
    """An output that fails is said in one line."""
    for arguments in (["a.gif"], ["a.gif"] * 3000, ["--json", "a.gif"], ["--version"], ["--help"]):
        with open("/dev/full", "wb") as full:
            said = Ran([program], arguments, stdout=full), Ran(IN_PYTHON, arguments, stdout=full)
        for ran in said:
            assert (ran.status, ran.err) == (1, "imagesize: standard output: No space left on device\n"), (ran.status, ran.err)
        reader, writer = os.pipe()
        os.close(reader)
        said = Ran([program], arguments, stdout=writer), Ran(IN_PYTHON, arguments, stdout=writer)
        for ran in said:
            assert (ran.status, ran.err) == (1, "imagesize: standard output: Broken pipe\n"), (ran.status, ran.err)
        os.close(writer)
    for word in ("a.gif", "--version", "--help"):
        both(program, word, status=1, err="imagesize: standard output: Bad file descriptor\n", preexec_fn=lambda: os.close(1))
    name = "caf\u00e9.gif"
    pathlib.Path(name).write_bytes(GIF)
    for settings in ({"PYTHONIOENCODING": "ascii"}, {"LC_ALL": "POSIX", "PYTHONCOERCECLOCALE": "0", "PYTHONUTF8": "0"}):
        ran = Ran(IN_PYTHON, [name, "a.gif"], environment=settings)
        assert (ran.status, ran.err, ran.out.count(b"\n")) == (0, "", 2) and ran.out.isascii(), (ran.status, ran.err, ran.out)
    print("output: a full disk and a closed pipe are said in one line")


def check_progress(program):
    """On a terminal a line says how far it is, from the first second on. It is gone at the end, and never among the rows."""
    for command in ([program], IN_PYTHON):
        ours, terminal = pty.openpty()
        environment = {**os.environ, "PYTHONPATH": str(PACKAGE)}
        ran = subprocess.Popen([*command, "a.gif", "-", "none"], env=environment, stdin=subprocess.PIPE, stdout=subprocess.PIPE, stderr=terminal)
        os.close(terminal)
        time.sleep(2)
        out, _ = ran.communicate(GIF)
        said = b""
        try:
            while block := os.read(ours, 1000):
                said += block
        except OSError:  # the end of a terminal
            pass
        os.close(ours)
        assert re.fullmatch(rb"(\r[23] files, \d+ a second, [01] errors\x1b\[K)+\r\x1b\[K", said), said
        assert out.count(b"\n") == 3 and b"files" not in out, out
    print("progress: a line on a terminal")


def check_traps(program):
    """A library each of whose calls is trapped, as none should be: a line says so of each file."""
    command = pathlib.Path(program).with_name("imagesize_trapped").name
    header = (HERE.parent / "include" / "imagesize.h").read_text()
    calls = set(re.findall(r"^(?:uint32_t|void) (imagesize_\w+)\(", header, re.M))
    pathlib.Path("trapped.c").write_text("".join(f"unsigned {call}(void) {{ return 255; }}\n" for call in sorted(calls)))
    compiler = shlex.split(os.environ.get("CC", "cc"))
    subprocess.run([*compiler, "-shared", "-fPIC", "-o", "trapped.so", "trapped.c"], check=True)
    subprocess.run([*compiler, "-std=c11", f"-I{HERE.parent / 'include'}", "-o", command, str(HERE.parent / "bindings/c/imagesize.c"), "trapped.c"],
                   check=True)
    for arguments, said in (["a.gif", "c.jpg", "none"], b"TRAPPED"), (["--json", "--spans", "a.gif"], b'"TRAPPED"'), (["-"], b"trapped"):
        with open("a.gif", "rb") as gif:
            ours = Ran([f"./{command}"], arguments, stdin=gif)
            gif.seek(0)
            theirs = Ran(IN_PYTHON, arguments, stdin=gif, environment={"IMAGESIZE_LIBRARY": os.path.abspath("trapped.so")})
        assert (ours.status, ours.out, ours.err) == (1, theirs.out, "") and theirs.err == "", (arguments, ours.out, theirs.out, theirs.err)
        assert said.lower() in ours.out.lower(), ours.out
    print("traps: a line for each file")


def check_usage(program):
    version = re.search(r"^VERSION = (.*)$", (HERE.parent / "bindings/c/Makefile").read_text(), re.M)[1]
    assert both(program, "--version") == both(program, "a.gif", "--vers", "--json") == f"{version}\n"
    helped = both(program, "--help")
    assert both(program, "-h") == both(program, "a.gif", "-rh") == helped
    for option in ("--null", "--recursive", "--json", "--spans", "--jobs", "--version", "--help", "Options and paths may come in any order"):
        assert option in helped, option
    for arguments, said in ([], "no file is named"), (["--json"], "no file is named"), (["--null"], "no file is named"), \
            (["--json", "--null"], "no file is named"), (["--none", "a.gif"], "none"), (["a.gif", "--none"], "none"), (["-x"], "x"), \
            (["-r x"], " "), (["-1"], "1"), (["--j"], "j"), (["--json=1", "a.gif"], "json"), (["--version", "--none"], "none"), \
            (["a.gif", "--jobs"], "jobs"):
        ours, theirs = (Ran(command, arguments) for command in ([program], IN_PYTHON))
        for ran in (ours, theirs):
            assert (ran.status, "usage: imagesize" in ran.err, said in ran.err, ran.out) == (2, True, True, b""), (arguments, ran.err, ran.out)
    print("usage: --help, --version, and status 2 where no file is named")


def check_order(program):
    """Options may come after paths, up to the word --."""
    rows = both(program, "--json", "--spans", "a.gif", "b.png")
    for arguments in (["a.gif", "--json", "--spans", "b.png"], ["a.gif", "--spans", "b.png", "--json"], ["--json", "a.gif", "--sp", "--", "b.png"]):
        assert both(program, *arguments) == rows, arguments
    os.mkdir("order")
    os.mkdir("order/below")
    pathlib.Path("order/below/a.gif").write_bytes(GIF)
    assert both(program, "order", "-r", "a.gif") == both(program, "-r", "order", "a.gif")
    assert both(program, "a.gif", "--jobs", "2", "b.png", "--jobs=3", "c.jpg", "--jobs", "0" * 5000 + "2").count("\n") == 3
    assert both(program, "b.png", "-0", input=b"a.gif\0").splitlines()[1].endswith("  a.gif")
    assert both(program, "--", "a.gif", "--json", status=1).splitlines()[1] == "-                         -  --json: No such file or directory"
    assert both(program, "a.gif", "--", "--", "-x", status=1).count("No such file") == 2
    assert both(program, "", "a.gif", status=1).count("\n") == 2
    print("options: before, between and after paths")


def check_test_vectors(program, worked):
    """All test vectors as files: both print the same of each."""
    os.mkdir("vectors")
    for index, row in enumerate(pathlib.Path(worked).read_text().splitlines()):
        data = row.split("\t")[0]
        pathlib.Path(f"vectors/{index:04}").write_bytes(bytes.fromhex("" if data == "-" else data))
    said = both(program, "--recursive", "--json", "--spans", "vectors", status=1)
    assert both(program, "--recursive", "--json", "--spans", "--jobs", "3", "vectors", status=1) == said
    both(program, "--recursive", "--spans", "vectors", status=1)
    print(f"{len(json.loads(said))} test vectors: both commands print the same")


def main(program, worked):
    program, worked = (str(pathlib.Path(path).resolve()) for path in (program, worked))
    signal.signal(signal.SIGINT, signal.default_int_handler)  # a background job ignores interrupts, and so would the commands
    with tempfile.TemporaryDirectory() as folder:
        os.chdir(folder)
        os.makedirs("below/deep")
        for name, data in FILES.items():
            pathlib.Path(name).write_bytes(data)
        for check in (check_lines, check_json, check_spans, check_recursive, check_names, check_jobs, check_killed, check_early_ends,
                      check_interrupted, check_standard_input, check_input_that_does_not_wait, check_pipes, check_output,
                      check_progress, check_usage, check_order, check_traps):
            check(program)
        check_test_vectors(program, worked)
        os.chdir("/")


if __name__ == "__main__":
    main(*sys.argv[1:])
