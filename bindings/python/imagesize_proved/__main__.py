"""Prints type and size of image files, as the command `imagesize` does: `python -m imagesize_proved [OPTION].. PATH..`

Options may come before, between and after the paths, up to the word `--`.
A line for each file has its type, its size and its path, and after the path the error where there is no size. The path `-` is
standard input, which is read once where it cannot seek. A path with a control character, a backslash or bytes that are no UTF-8 is
printed with escapes, so that each file has one line. The status is 0 if each file has a size, 1 if one has none or if the output
cannot be written, and 2 if no file is named. An interrupt ends the program with status 130, and with no words.
"""

from __future__ import annotations

import collections
import contextlib
import functools
import getopt
import io
import json
import os
import re
import shutil
import stat
import sys
import time
from typing import Any, Callable, Deque, Dict, Generator, Iterable, Iterator, List, NamedTuple, Optional, Sequence, TextIO, Tuple, Union

from . import ImageError, Status, __version__, probe, spans

Row = Dict[str, Any]

# Characters that would fake another line or another path: controls, ends of lines, marks that turn the direction, a backslash, and
# what stands for bytes that are no UTF-8.
UNSAFE = re.compile("[\0-\x1f\x7f-\x9f\\\\\u200e\u200f\u2028-\u202e\u2066-\u2069\ud800-\udfff]")
# How many paths a process gets at once.
BATCH = 64
ESCAPES = {0x5C: "\\\\", 0x0A: "\\n", 0x0D: "\\r", 0x09: "\\t"}


USAGE = "usage: imagesize [-h] [-0] [-r] [--json] [--spans] [--jobs N] [--version] PATH..\n"
HELP = """
Prints type and size in pixels of image files. Options and paths may come in any order.

  PATH             a file, - for standard input, or a folder with --recursive
  -0, --null       read more paths from standard input, each ended by a zero byte; - is then a file
  -r, --recursive  read all regular files below folders
  --json           print a JSON array with an object for each file
  --spans          print the bytes that each result depends on
  --jobs N         read files in N processes; the order of the lines stays
  --version        print the version
  -h, --help       print this
  --               only paths follow

The status is 0 if each file has a size, 1 if one has none, and 2 if no file is named.
"""
MOST_JOBS = 1024


class Asked(NamedTuple):
    """The options and the paths of the command. `shown` is a text to print instead."""

    paths: List[str]
    null: bool
    recursive: bool
    json: bool
    spans: bool
    jobs: int
    shown: str


class Misused(Exception):
    """The command has a wrong option, or no path. The text says which."""


def command() -> None:
    """Runs the program, and ends this process. After an early end it waits for nothing: a process that was killed may not end, as in a read
    from a server that is gone, and nobody may read what is still in a buffer."""
    status, early = 130, True
    with contextlib.suppress(KeyboardInterrupt):  # a second one, which comes during an early end
        status, early = outcome(sys.argv[1:])
    if not early:
        sys.exit(status)
    try:
        import threading

        latest = threading.Timer(1, os._exit, (status,))
        latest.daemon = True
        latest.start()
        for stream in (sys.stdout, sys.stderr):
            with contextlib.suppress(OSError):
                if stream is not None:
                    stream.flush()
    finally:
        os._exit(status)


def main(arguments: Optional[Sequence[str]] = None) -> int:
    """Runs the program inside another one. Returns its status. An early end kills the processes that this call started."""
    return outcome(sys.argv[1:] if arguments is None else arguments)[0]


def outcome(arguments: Sequence[str]) -> Tuple[int, bool]:
    """Runs the program. Returns its status, and whether it ended early."""
    try:
        return run(asked_by(arguments)), False
    except Misused as error:
        print(f"{USAGE}imagesize: {error}", file=sys.stderr)
        return 2, False
    except Ended as error:
        with contextlib.suppress(OSError):
            sys.stdout.flush()
        print(f"imagesize: {error}", file=sys.stderr)
        return 1, True
    except OSError as error:
        print(f"imagesize: standard output: {error.strerror}", file=sys.stderr)
        os.dup2(os.open(os.devnull, os.O_WRONLY), 1)  # what is still in the buffer cannot be written at the end either
        return 1, True
    except KeyboardInterrupt:
        return 130, True


def asked_by(words: Sequence[str]) -> Asked:
    """Reads the words of the command as `getopt_long` of C does: options may be among the paths, and may be shortened."""
    try:
        options, paths = getopt.gnu_getopt(list(words), "0hr", ["help", "jobs=", "json", "null", "recursive", "spans", "version"])
    except getopt.GetoptError as error:
        raise Misused(error.msg) from None
    names = [name for name, _ in options]
    jobs = [whole(text) for name, text in options if name == "--jobs"]
    shown = [f"{__version__}\n" if name == "--version" else USAGE + HELP for name in names if name in ("--version", "--help", "-h")]
    return Asked(
        paths, "--null" in names or "-0" in names, "--recursive" in names or "-r" in names, "--json" in names, "--spans" in names,
        jobs[-1] if jobs else 1, shown[0] if shown else "",
    )


def whole(text: str) -> int:
    """A number of processes, of digits alone."""
    if not re.fullmatch("0*[1-9][0-9]{0,18}", text) or int(text[-19:]) >= 1 << 63:
        raise Misused(f"no number of processes: {text}")
    return min(int(text[-19:]), MOST_JOBS)


def run(asked: Asked) -> int:
    """Prints the rows. Only the output raises `OSError` here."""
    if sys.stdout is None:
        raise OSError(9, "Bad file descriptor")
    if asked.shown:
        print(asked.shown, end="", flush=True)
        return 0
    if isinstance(sys.stdout, io.TextIOWrapper):
        sys.stdout.reconfigure(errors="backslashreplace")  # for an output that is ASCII
    # With --null standard input has the paths, and - is a file of that name.
    names = Counted(named(asked))
    with contextlib.closing(described(files(names, asked.recursive, asked.null), asked.spans, asked.null, asked.jobs)) as rows:
        sized = print_json(rows, names) if asked.json else print_table(rows)
        sys.stdout.flush()
    if not names.count:
        raise Misused("no file is named")
    return 0 if sized else 1


class Ended(Exception):
    """The run cannot go on. The text says why."""


class Counted:
    """Paths, and how many there were."""

    def __init__(self, paths: Iterator[str]) -> None:
        self.paths = paths
        self.count = 0

    def __iter__(self) -> Iterator[str]:
        for path in self.paths:
            self.count += 1
            yield path


def named(asked: Asked) -> Iterator[str]:
    """The paths of the command, and with --null those that standard input has."""
    yield from asked.paths
    if asked.null:
        rest: List[bytes] = []
        for block in iter(names_read, b""):
            first, *more = block.split(b"\0")
            rest.append(first)
            for piece in more:
                yield os.fsdecode(b"".join(rest))
                rest = [piece]
        if any(rest):
            yield os.fsdecode(b"".join(rest))


def names_read() -> bytes:
    """Some bytes of standard input, or none at its end."""
    try:
        return input_read(1 << 16)
    except OSError as error:
        raise Ended(f"standard input: {error.strerror}") from None


def input_read(length: int) -> bytes:
    """Some bytes of standard input, or none at its end. Waits for them too where another program made it non-blocking."""
    while True:
        try:
            return os.read(0, length)
        except BlockingIOError:
            import select

            select.select([0], [], [])


def files(paths: Iterable[str], recursive: bool, null: bool = False) -> Iterator[str]:
    """The paths. Each folder is replaced by all files below it, sorted by name. Links to folders are not followed."""
    for path in paths:
        if recursive and (path != "-" or null) and os.path.isdir(path):
            yield from below(path)
        else:
            yield path


def below(folder: str) -> Iterator[str]:
    """All regular files below a folder: first its own, then those of each folder in it. What cannot be read is among them, so that its
    error is seen."""
    waiting = [folder]
    while waiting:
        folder = waiting.pop()
        try:
            with os.scandir(folder) as listed:
                entries = sorted(listed, key=lambda entry: os.fsencode(entry.name))
        except OSError:
            yield folder
            continue
        yield from (entry.path for entry in entries if not entry.is_dir(follow_symlinks=False) and is_shown(entry.path))
        waiting += [entry.path for entry in reversed(entries) if entry.is_dir(follow_symlinks=False)]


def is_shown(path: str) -> bool:
    """Whether a path is a regular file, or its type is not known. Folders, pipes, sockets and devices are passed over."""
    try:
        return stat.S_ISREG(os.stat(path).st_mode)
    except OSError:
        return True


def described(paths: Iterable[str], with_spans: bool, null: bool = False, jobs: int = 1) -> Generator[Row, None, None]:
    """What is found of each file. On a terminal a line says how far it is."""
    progress = Progress(sys.stderr)
    with contextlib.closing(by_jobs(paths, with_spans, null, jobs) if jobs > 1 else (row_of(path, with_spans, null) for path in paths)) as rows:
        for row in rows:
            progress.show(row)
            if sys.stdout.isatty():
                progress.clear()
            yield row
    progress.clear()


def by_jobs(paths: Iterable[str], with_spans: bool, null: bool, jobs: int) -> Generator[Row, None, None]:
    """What is found of each file, in the order of the paths, by a pool of processes. Standard input is read by this process."""
    waiting: Deque[Callable[[], List[Row]]] = collections.deque()
    with Pool(min(jobs, most_processes()), with_spans, null) as pool:
        for batch in batches(paths, null):
            if batch == ["-"] and not null:
                waiting.append(functools.partial(rows_of, batch, with_spans, null))
            else:
                waiting.append(pool.submit(batch))
            if len(waiting) > 2 * jobs:
                yield from waiting.popleft()()
        while waiting:
            yield from waiting.popleft()()


class Pool:
    """Processes that read files. An early end, such as an interrupt, kills them and waits for none: one may read a pipe from which nothing
    comes. A `ProcessPoolExecutor` would wait then, for a thread that may wait for a killed process.

    A process has one batch at a time, so that it never waits for this one while this one waits for it.
    """

    def __init__(self, jobs: int, with_spans: bool, null: bool) -> None:
        self.jobs = jobs
        self.options = with_spans, null
        self.processes: List[Any] = []
        self.idle: List[Any] = []  # this end of the pipe of each process that has no batch
        self.busy: Dict[Any, int] = {}  # this end of the pipe of each other process, with the number of its batch
        self.found: Dict[int, List[Row]] = {}
        self.count = 0

    def __enter__(self) -> Pool:
        return self

    def __exit__(self, kind: Optional[type], *_: object) -> None:
        with interrupts_held():
            for process in self.processes if kind else ():
                process.kill()
            for pipe in (*self.idle, *self.busy):
                with contextlib.suppress(OSError):
                    if not kind:
                        pipe.send(None)
                pipe.close()
        for process in () if kind else self.processes:
            process.join()

    def submit(self, batch: List[str]) -> Callable[[], List[Row]]:
        """Passes some paths to a process. Returns a function that waits for what it finds."""
        if not self.idle and len(self.processes) < self.jobs:
            self.start()
        while not self.idle:
            self.receive()
        number, pipe = self.count, self.idle.pop()
        self.count, self.busy[pipe] = number + 1, number
        with killed_is_said():
            pipe.send(batch)
        return functools.partial(self.result, number)

    def start(self) -> None:
        """Starts a process. If this machine has no more of them, those that there are go on."""
        import multiprocessing

        sys.stdout.flush()  # as each start of a process does, whose error would not be that of the output
        with interrupts_held():
            try:
                ours, theirs = multiprocessing.Pipe()
                with theirs:
                    process = multiprocessing.Process(target=read_batches, args=(theirs, *self.options), daemon=True)
                    process.start()
            except OSError as error:
                if not self.processes:
                    raise Ended(f"a process that reads files: {error.strerror}") from None
                self.jobs = len(self.processes)
                return
            self.processes.append(process)
            self.idle.append(ours)

    def receive(self) -> None:
        """Waits for what a process finds."""
        from multiprocessing.connection import wait

        ready: List[Any] = wait(list(self.busy))
        for pipe in ready:
            with killed_is_said():
                found = pipe.recv()
            self.found[self.busy.pop(pipe)] = found
            self.idle.append(pipe)

    def result(self, number: int) -> List[Row]:
        """What is found of a batch."""
        while number not in self.found:
            self.receive()
        return self.found.pop(number)


@contextlib.contextmanager
def killed_is_said() -> Iterator[None]:
    """A pipe whose process was killed raises `Ended`."""
    try:
        yield
    except (EOFError, OSError):
        raise Ended("a process that reads files has ended") from None


def read_batches(pipe: Any, with_spans: bool, null: bool) -> None:
    """What each process of a pool does, until there is no further batch."""
    end_with_parent()
    batch: List[str]
    with contextlib.suppress(EOFError, OSError):
        for batch in iter(pipe.recv, None):
            pipe.send(rows_of(batch, with_spans, null))


def most_processes() -> int:
    """How many processes this one can talk to: each takes three of its file descriptors, and Windows waits for no more than 63."""
    try:
        import resource
    except ImportError:  # on Windows
        return 61
    most = resource.getrlimit(resource.RLIMIT_NOFILE)[0]
    return MOST_JOBS if most == resource.RLIM_INFINITY else max(1, most // 4)


@contextlib.contextmanager
def interrupts_held() -> Iterator[None]:
    """Holds an interrupt back meanwhile. A process that is started meanwhile never gets one, so that it says nothing of it."""
    import signal

    if not hasattr(signal, "pthread_sigmask"):  # on Windows
        yield
        return
    before = signal.pthread_sigmask(signal.SIG_BLOCK, {signal.SIGINT})
    try:
        yield
    finally:
        signal.pthread_sigmask(signal.SIG_SETMASK, before)


def end_with_parent() -> None:
    """Ends this process soon after the one that started it, which may be killed. An interrupt is for that one alone."""
    import signal
    import threading

    parent = os.getppid()

    def watch() -> None:
        while os.getppid() == parent:
            time.sleep(0.5)
        os._exit(1)

    signal.signal(signal.SIGINT, signal.SIG_IGN)
    threading.Thread(target=watch, daemon=True).start()


def batches(paths: Iterable[str], null: bool) -> Iterator[List[str]]:
    """Paths in lists for one process. Standard input has a list of its own."""
    batch: List[str] = []
    for path in paths:
        if batch and (len(batch) == BATCH or (path == "-" and not null) or batch == ["-"]):
            yield batch
            batch = []
        batch.append(path)
    if batch:
        yield batch


def rows_of(batch: List[str], with_spans: bool, null: bool) -> List[Row]:
    """What is found of some files."""
    return [row_of(path, with_spans, null) for path in batch]


def row_of(path: str, with_spans: bool, null: bool = False) -> Row:
    """What is found of a file, by names. Where there is no size, `status` and `error` say why."""
    row: Row = dict.fromkeys(("path", "type", "compression", "mime_type", "width", "height", "status", "error"))
    row["path"], found = path, None
    try:
        with input_at(path, null) as image:
            found, (row["width"], row["height"]) = probe(image)
    except ImageError as error:
        found, row["status"], row["error"] = error.image_type, error.status.name, error.message
    except OSError as error:
        row["status"], row["error"] = Status.FAULT.name, error.strerror
    except EOFError:
        row["status"], row["error"] = Status.FAULT.name, "the file became shorter while it was read"
    except ValueError:  # of a path with a zero byte in it, which no file has
        row["status"], row["error"] = Status.FAULT.name, "Invalid argument"
    if found:
        row["type"], row["compression"], row["mime_type"] = found.name, found.compression_name, found.mime_type
    if with_spans:
        row["spans"] = spans_of(path, null)
    return row


@contextlib.contextmanager
def input_at(path: str, null: bool = False) -> Iterator[Union[str, io.FileIO, Iterator[bytes]]]:
    """The path, or what is read once: standard input that is no file, a pipe or a device. A pipe is not waited for until it has a
    writer."""
    if path == "-" and not null:
        file = io.FileIO(0, closefd=False)
        yield file if stat.S_ISREG(os.fstat(0).st_mode) else iter(functools.partial(input_read, 4096), b"")
    elif is_read_once(path):
        with io.FileIO(path, opener=lambda name, flags: os.open(name, flags | getattr(os, "O_NONBLOCK", 0))) as file:
            if hasattr(os, "O_NONBLOCK"):
                os.set_blocking(file.fileno(), True)
            yield iter(functools.partial(file.read, 4096), b"")
    else:
        yield path


def is_read_once(path: str) -> bool:
    """Whether a path is a pipe or a device. It is asked before the path is opened."""
    mode = os.stat(path).st_mode
    return stat.S_ISFIFO(mode) or stat.S_ISCHR(mode) or stat.S_ISSOCK(mode)


def spans_of(path: str, null: bool = False) -> Optional[List[Sequence[int]]]:
    """Start and length of the spans that a result depends on; None where they cannot be had, as for an input that is read once."""
    try:
        with input_at(path, null) as image:
            return list(spans(image)) if isinstance(image, (str, io.FileIO)) else None
    except (ImageError, OSError, EOFError, ValueError):
        return None


def print_json(rows: Iterator[Row], names: Counted) -> bool:
    """Prints an array with an object for each file, each on a line of its own; nothing if no file is named. Returns whether each has a
    size."""
    sized, mark = True, "[\n"
    for row in rows:
        print(mark, json.dumps(row), sep="", end="", flush=True)
        sized, mark = sized and row["error"] is None, ",\n"
    if names.count:
        print("[]" if mark == "[\n" else "\n]")
    return sized


def print_table(rows: Iterator[Row]) -> bool:
    """Prints a line for each file, and a line for each of its spans. Returns whether each has a size."""
    sized = True
    for row in rows:
        name = row["type"] or "-"
        if row["compression"]:
            name += f"({row['compression']})"
        size = "-" if row["error"] else f"{row['width']}x{row['height']}"
        print(f"{name:<14} {size:>12}  {printable(row['path'])}" + (f": {row['error']}" if row["error"] else ""))
        for start, length in row.get("spans") or ():
            print(f"  {start}+{length}")
        sized = sized and row["error"] is None
    return sized


def printable(path: str) -> str:
    """A path of one line: as it is, or with escapes of its bytes if it has an unsafe character."""
    if not UNSAFE.search(path):
        return path
    return "".join(ESCAPES.get(byte) or (chr(byte) if 0x20 <= byte < 0x7F else f"\\x{byte:02x}") for byte in os.fsencode(path))


class Progress:
    """A line on a terminal that says how many files were read, from the first second on."""

    def __init__(self, stream: TextIO) -> None:
        self.stream = stream
        self.begun = time.monotonic()
        self.next = self.begun + 1 if stream.isatty() else float("inf")
        self.files = self.errors = 0
        self.shown = False

    def show(self, row: Row) -> None:
        """Counts a file, and says how many there were, at most ten times a second."""
        self.files += 1
        self.errors += row["error"] is not None
        now = time.monotonic()
        if now < self.next:
            return
        columns = shutil.get_terminal_size().columns - 1
        text = f"{self.files} files, {self.files / (now - self.begun):.0f} a second, {self.errors} errors"
        self.stream.write(f"\r{text[:columns]}\x1b[K")
        self.stream.flush()
        self.next, self.shown = now + 0.1, True

    def clear(self) -> None:
        """Clears the line."""
        if self.shown:
            self.stream.write("\r\x1b[K")
            self.stream.flush()
            self.shown = False


if __name__ == "__main__":
    command()
