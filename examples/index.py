"""Indexes many images by many machines: type, size, error and bytes read of each path or address, as rows of CSV.

    python3 index.py SCHEDULER [--rows FILE] [--partition N] < NAMES

SCHEDULER is the address of a scheduler of Dask, as tcp://10.0.0.1:8786 (Debian's package python3-distributed). NAMES has a path or an
address of HTTP on each line. With --null each ends with a zero byte, as find -print0 writes them. A path is read where its worker
runs; an address is fetched by ranges. The package imagesize_proved is installed on each worker.

Names go out in partitions, and the rows of a partition come back at once. If a worker dies, the scheduler gives its partitions to
another one. Each partition is written once. On a terminal a line says how far it is. The status is 0 if each name has a size, 1 if
one has none, and 2 if no name came.
"""

from __future__ import annotations

import argparse
import csv
import os
import pathlib
import sys
import time
from typing import Any, Dict, Iterable, Iterator, List, TextIO, Tuple

HERE = pathlib.Path(__file__).resolve().parent
COLUMNS = ("name", "type", "width", "height", "error", "bytes_read")
PARTITION = 500
# The partitions that wait in the scheduler for each thread of a worker.
WAITING = 4

Row = Tuple[str, str, Any, Any, str, int]


def rows_of(names: List[str]) -> List[Row]:
    """The rows of a partition, on a worker."""
    return [row_of(name) for name in names]


def row_of(name: str) -> Row:
    """The row of a name. What is wrong with a file or a server is its error, and ends no partition."""
    import imagesize_proved

    source = of_url(name) if name.startswith(("http://", "https://")) else of_path(name)
    try:
        image_type, size = source.probe()
        return name, str(image_type), size.width, size.height, "", source.fetched
    except imagesize_proved.ImageError as error:
        return name, str(error.image_type or ""), None, None, error.message, source.fetched
    except Exception as error:  # of the system, of a server, or of a response
        return name, "", None, None, getattr(error, "strerror", None) or str(error) or type(error).__name__, source.fetched


def of_url(name: str) -> Any:
    """An image at an address, by ranges: the class of remote.py, which the scheduler sends to its workers."""
    import remote

    return remote.Remote(name)


def of_path(name: str) -> Any:
    """An image at a path, which counts the bytes that are read."""
    import imagesize_proved

    class File:
        fetched = 0

        def probe(self) -> Any:
            file = os.open(name, os.O_RDONLY | os.O_NONBLOCK)
            try:
                return imagesize_proved.probe_with(lambda start, length: self.read(file, start, length), os.lseek(file, 0, os.SEEK_END))
            finally:
                os.close(file)

        def read(self, file: int, start: int, length: int) -> bytes:
            data = os.pread(file, length, start)
            self.fetched += len(data)
            return data

    return File()


def partitions(names: Iterable[str], length: int) -> Iterator[List[str]]:
    """Names in lists."""
    some: List[str] = []
    for name in names:
        some.append(name)
        if len(some) == length:
            yield some
            some = []
    if some:
        yield some


def names_of(null: bool) -> Iterator[str]:
    """The names that standard input has."""
    end, rest = b"\0" if null else b"\n", b""
    for block in iter(lambda: os.read(0, 1 << 16), b""):
        *whole, rest = (rest + block).split(end)
        yield from map(os.fsdecode, filter(None, whole))
    if rest:
        yield os.fsdecode(rest)


def indexed(client: Any, names: Iterable[str], length: int) -> Iterator[List[Row]]:
    """The rows of each partition, as they come. Only some partitions wait in the scheduler, so that names without end need no memory."""
    from distributed import as_completed

    left, sent = partitions(names, length), {}  # type: Iterator[List[str]], Dict[Any, List[str]]
    done = as_completed()

    def send() -> None:
        some = next(left, None)
        if some is not None:
            future = client.submit(rows_of, some, pure=False, retries=2)
            sent[future] = some
            done.add(future)

    for _ in range(WAITING * max(1, sum(client.nthreads().values()))):
        send()
    for future in done:
        some = sent.pop(future)
        try:
            yield future.result()
        except Exception as error:  # the workers of a partition died, one after another
            yield [(name, "", None, None, f"the partition failed: {type(error).__name__}", 0) for name in some]
        send()


class Progress:
    """A line on a terminal: files, files a second and errors."""

    def __init__(self, stream: TextIO) -> None:
        self.stream, self.begun = stream, time.monotonic()
        self.files = self.errors = self.read = 0

    def add(self, rows: List[Row]) -> None:
        self.files += len(rows)
        self.errors += sum(row[4] != "" for row in rows)
        self.read += sum(row[5] for row in rows)
        if self.stream.isatty():
            print(f"\r{self.text()}\x1b[K", end="", file=self.stream, flush=True)

    def text(self) -> str:
        seconds = time.monotonic() - self.begun
        return f"{self.files} files, {self.files / seconds:.0f} a second, {self.errors} errors, {self.read} bytes read"


def main() -> int:
    asked = argparse.ArgumentParser(description="Indexes images by the workers of a Dask scheduler.")
    asked.add_argument("scheduler", metavar="SCHEDULER", help="the address of the scheduler, as tcp://10.0.0.1:8786")
    asked.add_argument("--rows", default="-", metavar="FILE", help="where the rows are written (standard output)")
    asked.add_argument("--partition", type=int, default=PARTITION, metavar="N", help=f"names in a partition ({PARTITION})")
    asked.add_argument("--null", action="store_true", help="each name ends with a zero byte")
    options = asked.parse_args()
    from distributed import Client

    progress = Progress(sys.stderr)
    with Client(options.scheduler) as client, open(1 if options.rows == "-" else options.rows, "w", newline="", errors="surrogateescape") as out:
        client.upload_file(str(HERE / "remote.py"))
        writer = csv.writer(out)
        writer.writerow(COLUMNS)
        for rows in indexed(client, names_of(options.null), options.partition):
            writer.writerows(rows)
            progress.add(rows)
    print(("\r" if sys.stderr.isatty() else "") + progress.text(), file=sys.stderr)
    return 2 if not progress.files else int(progress.errors > 0)


if __name__ == "__main__":
    sys.exit(main())
