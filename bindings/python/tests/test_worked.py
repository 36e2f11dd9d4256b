"""Every test vector through every call, equal to the table."""

import array
import asyncio
import io
import mmap
import pathlib
import re
import tempfile
import unittest
from concurrent.futures import ThreadPoolExecutor
from typing import Any, Callable, Iterator, List, Optional, Tuple
from unittest import mock

import imagesize_proved as imagesize
from imagesize_proved._library import Rounds
from imagesize_proved._types import probed

from . import EXAMPLES


PNG = b"\x89PNG\r\n\x1a\n\0\0\0\r"
"""A PNG that ends before its size. The table has it as the calls that leave PNG out tell it."""


def rows() -> Iterator[Tuple[bytes, str, str]]:
    """The bytes, the line and the spans of each test vector."""
    yield PNG, "Png: failed to fill whole buffer", "0+8"
    for row in (EXAMPLES / "out" / "worked.tsv").read_text().splitlines():
        data, line, spans = row.split("\t")
        if bytes.fromhex(data.replace("-", "")) != PNG:
            yield bytes.fromhex(data.replace("-", "")), line, spans


def surprises() -> Iterator[Tuple[bytes, str]]:
    """The bytes and the line of each input that README says may surprise."""
    for row in (EXAMPLES / "surprises.tsv").read_text().splitlines()[1:]:
        _, data, line = row.split("\t")
        yield bytes.fromhex(data), line


def line(call: Callable[..., Optional[imagesize.Probed]], *arguments: Any) -> str:
    """The line about the result of a call."""
    try:
        found = call(*arguments)
    except imagesize.ImageError as error:
        return f"{error.image_type}: {error.text}" if error.image_type else error.text
    return f"{found.image_type} {found.size.width}x{found.size.height}" if found else "no result yet"


def by_coroutine(data: bytes) -> imagesize.Probed:
    async def read(start: int, length: int) -> bytes:
        await asyncio.sleep(0)
        return data[start : start + length]

    return asyncio.run(imagesize.probe_async(read, len(data)))


def by_fetch(data: bytes) -> imagesize.Probed:
    return imagesize.probe_with(lambda start, length: data[start : start + length], len(data))


def by_rounds(data: bytes, most: int) -> imagesize.Probed:
    """By a probe over spans, which gets at most so many bytes of each requested span. Each begins after the last one."""
    rounds, last = Rounds(len(data)), -1
    told = rounds.answer()
    while told[0] == imagesize.Status.BYTES_WANTED:
        start, length = told[1][4:]
        assert last < start and 0 < length <= len(data) - start, (last, start, length)
        last = start
        rounds.supply(start, data[start : start + min(length, most)])
        told = rounds.answer()
    return probed(told)


class Worked(unittest.TestCase):
    def setUp(self) -> None:
        folder = tempfile.TemporaryDirectory()
        self.addCleanup(folder.cleanup)
        self.path = pathlib.Path(folder.name) / "image"

    def test_bytes(self) -> None:
        for data, wanted, _ in rows():
            forms = [data, bytearray(data), memoryview(data), array.array("B", data), memoryview(data * 2)[: len(data)]]
            for form in forms + ([mmap.mmap(-1, len(data))] if data else []):
                if isinstance(form, mmap.mmap):
                    form[:] = data
                with self.subTest(data=data, form=type(form)):
                    self.assertEqual(line(imagesize.probe, form), wanted)

    def test_files(self) -> None:
        for data, wanted, _ in rows():
            self.path.write_bytes(data)
            with open(self.path, "rb") as buffered, open(self.path, "rb", buffering=0) as raw:
                for form in (str(self.path), self.path, buffered, raw, io.BytesIO(data)):
                    with self.subTest(data=data, form=type(form)):
                        self.assertEqual(line(imagesize.probe, form), wanted)

    def test_surprises(self) -> None:
        self.assertEqual(len(list(surprises())), 14)
        for data, wanted in surprises():
            self.path.write_bytes(data)
            with self.subTest(wanted=wanted):
                self.assertEqual((line(imagesize.probe, data), line(imagesize.probe, self.path)), (wanted, wanted))

    def test_parts(self) -> None:
        for data, wanted, _ in rows():
            with self.subTest(data=data):
                self.assertEqual(line(by_coroutine, data), wanted)
                self.assertEqual(line(by_fetch, data), wanted)

    def test_rounds(self) -> None:
        for data, wanted, _ in rows():
            for most in (1, 5, len(data)):
                with self.subTest(data=data, most=most):
                    if not data.startswith(PNG[:8]):  # which has a call of its own
                        self.assertEqual(line(by_rounds, data, most), wanted)

    def test_rounds_of_many_records(self) -> None:
        """A record takes two rounds at most, however far it is from the next one."""
        for count in (10, 100):
            data = b"\xff\xd8" + (b"\xff\xe0\xff\xff" + bytes(65533)) * count + b"\xff\xc0\0\x11\x08\0\x05\0\x07" + bytes(8)
            with mock.patch.object(Rounds, "supply", autospec=True, side_effect=Rounds.supply) as supply:
                self.assertEqual(by_rounds(data, len(data)).size, (7, 5))
            self.assertLessEqual(supply.call_count, 2 * count + 4)
            self.assertLess(sum(len(call[0][2]) for call in supply.call_args_list), 5 * count + 40)

    def test_type_and_size_alone(self) -> None:
        for data, wanted, _ in rows():
            self.path.write_bytes(data)
            sized = re.fullmatch(r"(\S+) (\d+)x(\d+)", wanted)
            refused = re.match(r"(\S+): ", wanted)
            found = sized or refused
            forms: List[Any] = [data, self.path]
            for form in forms:
                with self.subTest(data=data, form=type(form)):
                    if sized:
                        self.assertEqual(imagesize.size(form), (int(sized[2]), int(sized[3])))
                    if found:
                        self.assertEqual(str(imagesize.image_type(form)), found[1])
                    else:
                        with self.assertRaises(imagesize.ImageError) as raised:
                            imagesize.image_type(form)
                        self.assertEqual(raised.exception.text, wanted)

    def test_threads(self) -> None:
        worked = [(data, wanted) for data, wanted, _ in rows()]

        def wrong(thread: int) -> int:
            turned = worked[thread * 10 :] + worked[: thread * 10]
            calls: List[Any] = [imagesize.probe, by_fetch]
            return sum(line(call, data) != wanted for _ in range(20) for data, wanted in turned for call in calls)

        with ThreadPoolExecutor(8) as threads:
            self.assertEqual(sum(threads.map(wrong, range(8))), 0)

    def test_spans(self) -> None:
        for data, _, wanted in rows():
            self.path.write_bytes(data)
            forms: List[Any] = [data, bytearray(data), self.path, io.BytesIO(data)]
            for form in forms:
                with self.subTest(data=data, form=type(form)):
                    found = " ".join(f"{span.start}+{span.len}" for span in imagesize.spans(form)) or "-"
                    self.assertIn(wanted, (found, "?"))
