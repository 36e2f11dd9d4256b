"""The program `python -m imagesize_proved`, by what it prints, its status, and its line on a terminal."""

import io
import json
import os
import pathlib
import signal
import subprocess
import sys
import tempfile
import unittest
from typing import Any, List
from unittest import mock

import imagesize_proved
from imagesize_proved import __main__ as program

from . import GIF

PACKAGE = pathlib.Path(imagesize_proved.__file__).resolve().parent.parent
CUT = b"\xff\xd8\xff\xe0\0\x10JFIF\0\1"


def setUpModule() -> None:
    signal.signal(signal.SIGINT, signal.default_int_handler)  # a background job ignores interrupts, and so would the commands


class Terminal(io.StringIO):
    def isatty(self) -> bool:
        return True


class Program(unittest.TestCase):
    def setUp(self) -> None:
        folder = tempfile.TemporaryDirectory()
        self.addCleanup(folder.cleanup)
        self.folder = pathlib.Path(folder.name)
        (self.folder / "b").mkdir()
        for name, data in (("a.gif", GIF), ("c.jpg", CUT), ("b/d.gif", GIF), ("b/e.txt", b"no image, but a text")):
            (self.folder / name).write_bytes(data)

    def run_it(self, *arguments: str, stdin: Any = None, stdout: Any = subprocess.PIPE, **how: Any) -> "subprocess.CompletedProcess[str]":
        command = [sys.executable, "-m", "imagesize_proved", *arguments]
        environment = {**os.environ, "PYTHONPATH": str(PACKAGE), "PYTHONUNBUFFERED": ""}  # with a buffer, as for most users
        return subprocess.run(command, cwd=self.folder, env=environment, stdin=stdin, stdout=stdout, stderr=subprocess.PIPE, text=True, **how)

    def test_table(self) -> None:
        said = self.run_it("a.gif", "c.jpg", "none", "b")
        self.assertEqual(said.stdout.splitlines(), [
            "Gif                 640x480  a.gif",
            "Jpeg                      -  c.jpg: the file ends before its size",
            "-                         -  none: No such file or directory",
            "-                         -  b: Is a directory",
        ])
        self.assertEqual(said.stderr, "")

    def test_compression(self) -> None:
        (self.folder / "a.dds").write_bytes(b"DDS \x7c\0\0\0\x07\x10\0\0\5\0\0\0\7\0\0\0" + bytes(64) + b"DXT1" + bytes(40))
        self.assertEqual(self.run_it("a.dds").stdout, "Dds(Bc1)                7x5  a.dds\n")

    def test_status(self) -> None:
        for arguments, status in (("a.gif",), 0), (("a.gif", "b/d.gif"), 0), (("a.gif", "c.jpg"), 1), (("none",), 1), ((), 2):
            self.assertEqual(self.run_it(*arguments).returncode, status, arguments)
            self.assertEqual(self.run_it("--json", *arguments).returncode, status, arguments)

    def test_json(self) -> None:
        self.assertEqual(json.loads(self.run_it("--json", "--spans", "a.gif", "c.jpg").stdout), [
            {"path": "a.gif", "type": "Gif", "compression": None, "mime_type": "image/gif", "width": 640, "height": 480,
             "status": None, "error": None, "spans": [[0, 12], [6, 2], [8, 2]]},
            {"path": "c.jpg", "type": "Jpeg", "compression": None, "mime_type": "image/jpeg", "width": None, "height": None,
             "status": "END_OF_INPUT", "error": "the file ends before its size", "spans": [[0, 12], [2, 2], [4, 2]]},
        ])
        os.mkdir(self.folder / "empty")
        self.assertEqual(self.run_it("--json", "--recursive", "empty").stdout, "[]\n")

    def test_files_that_cannot_be_read(self) -> None:
        for error, text in (FileNotFoundError(2, "No such file or directory"), "No such file or directory"), (EOFError(), "became shorter"):
            with mock.patch("imagesize_proved.__main__.probe", side_effect=error):
                row = program.row_of(str(self.folder / "a.gif"), False)
            self.assertEqual((row["status"], row["type"], row["width"]), ("FAULT", None, None))
            self.assertIn(text, row["error"])

    def test_recursive(self) -> None:
        rows = json.loads(self.run_it("--json", "--recursive", ".").stdout)
        self.assertEqual([row["path"] for row in rows], ["./a.gif", "./c.jpg", "./b/d.gif", "./b/e.txt"])
        self.assertEqual([row["status"] for row in rows], [None, "END_OF_INPUT", None, "NOT_SUPPORTED"])

    def test_folder_that_cannot_be_read(self) -> None:
        with mock.patch("os.scandir", side_effect=PermissionError(13, "Permission denied")):
            self.assertEqual(list(program.files([str(self.folder)], True)), [str(self.folder)])

    def test_spans(self) -> None:
        self.assertEqual(self.run_it("--spans", "a.gif").stdout.splitlines()[1:], ["  0+12", "  6+2", "  8+2"])

    def test_standard_input(self) -> None:
        """A pipe is read up to the result, while its other end is open. A file can be read by blocks."""
        reader, writer = os.pipe()
        os.write(writer, GIF)
        said = self.run_it("-", "c.jpg", stdin=reader, timeout=60)
        self.assertEqual(said.stdout.splitlines()[0], "Gif                 640x480  -")
        os.write(writer, GIF)
        (row,) = json.loads(self.run_it("--json", "--spans", "-", stdin=reader, timeout=60).stdout)
        self.assertEqual((row["path"], row["width"], row["spans"]), ("-", 640, None))
        os.close(writer)
        self.assertEqual(self.run_it("-", stdin=reader).stdout, "-                         -  -: the file ends before its size\n")
        os.close(reader)
        with open(self.folder / "a.gif") as file:
            (row,) = json.loads(self.run_it("--json", "--spans", "-", stdin=file).stdout)
        self.assertEqual((row["path"], row["width"], row["spans"]), ("-", 640, [[0, 12], [6, 2], [8, 2]]))
        said = self.run_it("-", preexec_fn=lambda: os.close(0))
        self.assertEqual((said.stdout, said.returncode), ("-                         -  -: Bad file descriptor\n", 1))

    def test_names_that_are_a_dash(self) -> None:
        (self.folder / "-").mkdir()
        (self.folder / "-" / "a.gif").write_bytes(GIF)
        self.assertEqual(list(program.files(["-"], True)), ["-"])
        self.assertEqual([row["path"] for row in json.loads(self.run_it("--json", "--recursive", "./-").stdout)], ["./-/a.gif"])

    def test_names_that_are_no_text(self) -> None:
        name = os.fsdecode(b"a\xff\n.gif")
        (self.folder / name).write_bytes(GIF)
        self.assertEqual(self.run_it(name).stdout, "Gif                 640x480  a\\xff\\n.gif\n")
        self.assertEqual(json.loads(self.run_it("--json", name).stdout)[0]["path"], name)

    def test_output_that_is_closed(self) -> None:
        reader, writer = os.pipe()
        os.close(reader)
        for arguments in ("a.gif",), ("a.gif",) * 1000, ("--json", "a.gif"):
            said = self.run_it(*arguments, stdout=writer)
            self.assertEqual((said.returncode, said.stderr), (1, "imagesize: standard output: Broken pipe\n"))
        os.close(writer)

    def test_version(self) -> None:
        self.assertEqual(self.run_it("--version").stdout, f"{imagesize_proved.__version__}\n")

    def test_options_after_paths(self) -> None:
        (row, cut) = json.loads(self.run_it("a.gif", "--json", "c.jpg").stdout)
        self.assertEqual((row["path"], row["width"], cut["path"]), ("a.gif", 640, "c.jpg"))
        self.assertEqual(self.run_it("b", "-r").stdout.count("\n"), 2)
        self.assertIn("--json: No such file", self.run_it("a.gif", "--", "--json").stdout)
        for words in ("a.gif", "--none"), ("a.gif", "--jobs"), ("-r x",), ("--j",):
            said = self.run_it(*words)
            self.assertEqual((said.returncode, said.stdout, "usage: imagesize" in said.stderr), (2, "", True))

    def test_help_and_version_where_nothing_can_be_written(self) -> None:
        with open("/dev/full", "wb") as full:
            for word in "--help", "--version":
                said = self.run_it(word, stdout=full)
                self.assertEqual((said.returncode, said.stderr), (1, "imagesize: standard output: No space left on device\n"))

    def test_standard_input_that_does_not_wait(self) -> None:
        """Its bytes come later than it is read. It stays non-blocking, as another program made it."""
        for words, pieces in (("-",), (GIF[:6], GIF[6:])), (("--null",), (b"a.g", b"if")):
            reader, writer = os.pipe()
            os.set_blocking(reader, False)
            script = "import sys, time, os\nfor piece in sys.argv[1:]: time.sleep(0.4); os.write(1, bytes.fromhex(piece))"
            late = subprocess.Popen([sys.executable, "-c", script, *(piece.hex() for piece in pieces)], stdout=writer)
            os.close(writer)
            said = self.run_it(*words, stdin=reader, timeout=60)
            self.assertEqual((said.returncode, said.stderr, said.stdout.split()[:2]), (0, "", ["Gif", "640x480"]))
            self.assertEqual((late.wait(), os.get_blocking(reader)), (0, False))
            os.close(reader)

    def test_progress(self) -> None:
        def written(seconds: List[float], stream: io.StringIO) -> str:
            clock = iter(seconds)
            with mock.patch("time.monotonic", lambda: next(clock)), mock.patch("sys.stderr", stream):
                list(program.described(iter([str(self.folder / "a.gif"), "none"]), False))
            return stream.getvalue()

        self.assertEqual(written([0, 0.5, 0.9], Terminal()), "")
        self.assertEqual(written([0, 0.5, 2], Terminal()), "\r2 files, 1 a second, 1 errors\x1b[K\r\x1b[K")
        self.assertEqual(written([0, 1.25, 1.3], Terminal()), "\r1 files, 1 a second, 0 errors\x1b[K\r\x1b[K")
        self.assertEqual(written([0, 1.2, 1.5], io.StringIO()), "")
        with mock.patch.dict(os.environ, {"COLUMNS": "6"}):
            self.assertEqual(written([0, 0.5, 1.2], Terminal()), "\r2 fil\x1b[K\r\x1b[K")

    def test_jobs(self) -> None:
        """A pool of processes prints what one process does, in the same order."""
        for number in range(300):
            (self.folder / "b" / f"{number}.gif").write_bytes(GIF[: number % 13])
        forms: List[List[str]] = [[], ["--json", "--spans"]]
        for options in forms:
            wanted = self.run_it(*options, "--recursive", ".", "none", "-", stdin=subprocess.DEVNULL)
            for jobs in ("1", "3"):
                said = self.run_it(*options, "--jobs", jobs, "--recursive", ".", "none", "-", stdin=subprocess.DEVNULL, timeout=60)
                self.assertEqual((said.stdout, said.stderr, said.returncode), (wanted.stdout, "", 1))
        with open(self.folder / "a.gif") as file:
            said = self.run_it("--jobs", "2", "c.jpg", "-", "a.gif", stdin=file, timeout=60)
        self.assertEqual([line.split()[0] for line in said.stdout.splitlines()], ["Jpeg", "Gif", "Gif"])
        for jobs in ("0", "-1", "many", ""):
            self.assertEqual(self.run_it("--jobs", jobs, "a.gif").returncode, 2)

    def test_jobs_that_end_early(self) -> None:
        """The run ends at a full disk, at a pipe that is closed, and at an interrupt, however much the processes have before them."""
        names = self.many_names()
        for _ in range(5):
            with open(names, "rb") as listed, open("/dev/full", "wb") as full:
                said = self.run_it("--null", "--jobs", "16", stdin=listed, stdout=full, timeout=20)
            self.assertEqual((said.returncode, said.stderr), (1, "imagesize: standard output: No space left on device\n"))
            for is_interrupt in (False, True):
                with open(names, "rb") as listed:
                    run = subprocess.Popen([sys.executable, "-m", "imagesize_proved", "--null", "--jobs", "16"], cwd=self.folder, stdin=listed,
                                           stdout=subprocess.PIPE, stderr=subprocess.PIPE, start_new_session=True,
                                           env={**os.environ, "PYTHONPATH": str(PACKAGE), "PYTHONUNBUFFERED": ""})
                with run:
                    assert run.stdout and run.stderr
                    self.assertIn(b"a.gif", run.stdout.readline())
                    if is_interrupt:
                        os.killpg(run.pid, signal.SIGINT)  # while nobody reads what was written
                    else:
                        run.stdout.close()
                    try:
                        status = run.wait(timeout=20)
                    except subprocess.TimeoutExpired:
                        os.killpg(run.pid, signal.SIGKILL)
                        self.fail("the run goes on")
                    error = b"" if is_interrupt else b"imagesize: standard output: Broken pipe\n"
                    self.assertEqual((status, run.stderr.read()), (130 if is_interrupt else 1, error))

    def test_jobs_inside_another_program(self) -> None:
        """The call returns to it, and its own processes stay."""
        script = ("import multiprocessing, sys, time\nfrom imagesize_proved.__main__ import main\n"
                  "own = multiprocessing.Process(target=time.sleep, args=(60,), daemon=True)\nown.start()\n"
                  "status = main(['--null', '--jobs', '16'])\nprint(status, own.is_alive(), file=sys.stderr)\n")
        with open(self.many_names(), "rb") as listed, open("/dev/full", "wb") as full:
            run = subprocess.Popen([sys.executable, "-c", script], cwd=self.folder, stdin=listed, stdout=full, stderr=subprocess.PIPE,
                                   start_new_session=True, env={**os.environ, "PYTHONPATH": str(PACKAGE), "PYTHONUNBUFFERED": ""})
        try:
            error = run.communicate(timeout=20)[1]
        except subprocess.TimeoutExpired:
            os.killpg(run.pid, signal.SIGKILL)
            error = run.communicate()[1] + b"and the program does not end"
        self.assertEqual((run.returncode, error), (0, b"imagesize: standard output: No space left on device\n1 True\n"))

    def many_names(self) -> pathlib.Path:
        """A file with many names of 100 bytes, each of one file: more than the pipes to the processes can have in them."""
        names = self.folder / "names"
        names.write_bytes((b"./" * 47 + b"/a.gif\0") * 200_000)
        return names

    def test_jobs_of_few_file_descriptors(self) -> None:
        """As many processes read as this one can have. The lines are the same."""
        wanted = self.run_it(*["a.gif"] * 5000).stdout
        resource = __import__("resource")
        said = self.run_it("--jobs", "1024", *["a.gif"] * 5000, timeout=60,
                           preexec_fn=lambda: resource.setrlimit(resource.RLIMIT_NOFILE, (40, 40)))
        self.assertEqual((said.stderr, said.stdout == wanted), ("", True))

    def test_interrupt(self) -> None:
        with mock.patch.object(program, "probe", side_effect=KeyboardInterrupt):
            self.assertEqual(program.main([str(self.folder / "a.gif")]), 130)
