"""Files and fetches that fail, and how much is read of those that do not."""

import array
import asyncio
import errno
import inspect
import io
import os
import pathlib
import signal
import struct
import sys
import tempfile
import tracemalloc
import unittest
from functools import partial
from typing import Any, List, Tuple
from unittest import mock

import imagesize_proved as imagesize
from imagesize_proved import ImageError, Size, Status

from . import GIF
from .test_worked import rows

FRAME = b"\xff\xc0\0\x11\x08\0\x05\0\x07" + bytes(8)
"""The frame of a JPEG of 7x5."""


def descriptors(path: str) -> int:
    """How many descriptors this process has of a file."""
    count = 0
    for number in os.listdir("/proc/self/fd"):
        try:
            count += os.readlink(f"/proc/self/fd/{number}") == path
        except FileNotFoundError:  # the descriptor of the list itself
            pass
    return count


def jpeg(segments: int, length: int = 65535) -> bytes:
    """A JPEG with segments of this length before its frame."""
    return b"\xff\xd8" + (b"\xff\xe0" + struct.pack(">H", length) + bytes(length - 2)) * segments + FRAME


class Sliced:
    """An input that notes what is fetched of it."""

    def __init__(self, data: bytes, more: int = 0) -> None:
        self.data = data
        self.fetched: List[Tuple[int, int]] = []
        self.more = more

    def fetch(self, start: int, length: int) -> bytes:
        self.fetched.append((start, length))
        return self.data[start : start + length + self.more][: max(0, length + self.more)]

    def probe(self, **options: int) -> Size:
        return imagesize.probe_with(self.fetch, len(self.data), **options).size


class Halting(io.RawIOBase):
    """A file that gives its bytes seven at a time, ends before its length, and refuses to read nothing."""

    def __init__(self, data: bytes, length: int) -> None:
        self.data, self.length, self.place = data, length, 0

    def seekable(self) -> bool:
        return True

    def seek(self, place: int, whence: int = 0) -> int:
        self.place = place + (self.length if whence == os.SEEK_END else 0)
        return self.place

    def tell(self) -> int:
        return self.place

    def read(self, size: int = -1) -> bytes:
        if size < 1:
            raise ValueError(size)
        data = self.data[self.place : self.place + min(size, 7)]
        self.place += len(data)
        return data


class Reading(unittest.TestCase):
    def test_blocks(self) -> None:
        """A block is fetched once, and within the input; the larger the input the more at once."""
        for count in (0, 1, 3, 7, 40, 200):
            image = Sliced(jpeg(count))
            self.assertEqual(image.probe(), (7, 5))
            for start, length in image.fetched:
                self.assertEqual(start % 4096, 0)
                self.assertTrue(length % 4096 == 0 or start + length == len(image.data))
            places = sorted(image.fetched)
            self.assertTrue(all(a + b <= c for (a, b), (c, _) in zip(places, places[1:])))
            self.assertLess(len(places), 40)
            if count < 8:
                self.assertLessEqual(sum(length for _, length in places), 4096 * (count + 1))

    def test_whole_walk_is_few_rounds(self) -> None:
        image = Sliced(jpeg(1 << 18, 2))
        self.assertEqual(image.probe(), (7, 5))
        lengths = [length for _, length in image.fetched]
        self.assertEqual(lengths[:-1], [4096] * 8 + [4096 << number // 2 + 1 for number in range(len(lengths) - 9)])
        self.assertLess(len(lengths), 30)

    def test_length_is_asked_once(self) -> None:
        """However many rounds a file takes, its end is sought once."""

        class Counting(io.BytesIO):
            ends = 0

            def seek(self, place: int, whence: int = 0, /) -> int:
                self.ends += whence == os.SEEK_END
                return super().seek(place, whence)

        image = Counting(jpeg(12))
        self.assertEqual(imagesize.probe(image).size, (7, 5))
        self.assertEqual(image.ends, 1)

    def test_blocks_are_not_stored(self) -> None:
        """A long walk holds the present block and the one before it, and not all of them."""
        image = Sliced(jpeg(1 << 20, 2))
        tracemalloc.start()
        try:
            self.assertEqual(image.probe(), (7, 5))
            _, most = tracemalloc.get_traced_memory()
        finally:
            tracemalloc.stop()
        self.assertLess(most, sum(length for _, length in image.fetched) * 0.6)

    def test_directory_at_the_end(self) -> None:
        entries = b"\x03\0" + b"".join(struct.pack("<HHII", tag, 4, 1, size) for tag, size in ((256, 5), (257, 7), (258, 8)))
        image = Sliced(b"II*\0" + struct.pack("<I", 1 << 21) + bytes((1 << 21) - 8) + entries)
        self.assertEqual(image.probe(), (5, 7))
        self.assertEqual(image.fetched, [(0, 4096), (1 << 21, len(entries))])

    def test_budget(self) -> None:
        with self.assertRaises(ImageError) as raised:
            Sliced(jpeg(40)).probe(budget=20000)
        self.assertIs(raised.exception.status, Status.BUDGET_SPENT)
        self.assertEqual(imagesize.probe(bytearray(jpeg(40)), budget=20000).size, (7, 5))
        with self.assertRaises(ImageError) as raised:
            imagesize.spans(io.BytesIO(jpeg(40)), budget=20000)
        self.assertIs(raised.exception.status, Status.BUDGET_SPENT)

    def test_budget_of_the_first_block(self) -> None:
        """No source gives more bytes than the budget, and eleven tell no type."""
        image = Sliced(GIF + bytes(8000))
        for budget, found in ((1, None), (11, None), (12, (640, 480)), (100, (640, 480))):
            image.fetched.clear()
            with tempfile.NamedTemporaryFile() as file:
                file.write(image.data)
                file.flush()
                calls: List[Any] = [image.probe, *(partial(imagesize.size, form) for form in (file.name, file))]
                for call in calls:
                    if found:
                        self.assertEqual(call(budget=budget), found)
                        continue
                    with self.assertRaises(ImageError) as raised:
                        call(budget=budget)
                    self.assertIs(raised.exception.status, Status.BUDGET_SPENT)
            self.assertEqual(image.fetched, [(0, budget)])

    def test_budget_that_is_just_enough(self) -> None:
        image = Sliced(jpeg(3))
        image.probe()
        read = sum(length for _, length in image.fetched)
        self.assertEqual(image.probe(budget=read), (7, 5))
        with self.assertRaises(ImageError) as raised:
            image.probe(budget=read - 1)
        self.assertIs(raised.exception.status, Status.BUDGET_SPENT)

    def test_file_of_some_blocks(self) -> None:
        """A path is read as any other source, and for the same budget."""

        async def read(start: int, length: int) -> bytes:
            return image.fetch(start, length)

        for count in (1, 3, 12):
            image = Sliced(jpeg(count))
            self.assertEqual(asyncio.run(imagesize.probe_async(read, len(image.data))).size, (7, 5))
            fetched = sum(length for _, length in image.fetched)
            with tempfile.NamedTemporaryFile() as file:
                file.write(image.data)
                file.flush()
                for budget in (1 << 26, fetched):
                    self.assertEqual(imagesize.probe(file.name, budget=budget).size, (7, 5))
                with self.assertRaises(ImageError) as raised:
                    imagesize.probe(file.name, budget=fetched - 1)
            self.assertIs(raised.exception.status, Status.BUDGET_SPENT)

    def test_no_type_is_left_from_the_image_before(self) -> None:
        with tempfile.NamedTemporaryFile() as file:
            file.write(b"\0\0\2" + bytes(13) + b"\x18\5" + bytes(20000))  # a TGA but for its descriptor: its footer is read too
            file.flush()
            forms: List[Any] = [b"no image, but a text", file, file.name]
            for form in forms:
                self.assertEqual(imagesize.probe(GIF).size, (640, 480))
                with self.assertRaises(ImageError) as raised:
                    imagesize.probe(form)
                self.assertEqual((raised.exception.status, raised.exception.image_type), (Status.NOT_SUPPORTED, None))
            with self.assertRaises(ImageError) as raised:
                imagesize.image_type(file.name)
        self.assertEqual((raised.exception.image_type, raised.exception.filename), (None, file.name))

    def test_budget_of_any_length(self) -> None:
        """A budget may be longer than any input. It is 64 MiB where a call names no other, and the spans are 65536."""

        async def read(start: int, length: int) -> bytes:
            return GIF

        with tempfile.NamedTemporaryFile() as file:
            file.write(GIF)
            file.flush()
            forms: List[Any] = [GIF, bytearray(GIF), file.name, file]
            for form in forms:
                self.assertEqual(imagesize.probe(form, budget=1 << 64).size, (640, 480))
        self.assertEqual(Sliced(GIF).probe(budget=1 << 64), (640, 480))
        self.assertEqual(asyncio.run(imagesize.probe_async(read, 12, budget=1 << 64)).size, (640, 480))
        calls: List[Any] = [imagesize.probe, imagesize.size, imagesize.image_type, imagesize.probe_with, imagesize.probe_async, imagesize.spans]
        for call in calls:
            self.assertEqual(inspect.signature(call).parameters["budget"].default, 67108864)
        self.assertEqual(inspect.signature(imagesize.spans).parameters["limit"].default, 65536)

    def test_budget_is_a_whole_number(self) -> None:
        async def read(start: int, length: int) -> bytes:
            return GIF

        image = Sliced(GIF)
        both: List[Any] = [imagesize.probe, imagesize.spans]
        calls: List[Any] = [partial(call, form) for call in both for form in (GIF, io.BytesIO(GIF), "/none")]
        calls += [image.probe, lambda budget: asyncio.run(imagesize.probe_async(read, 12, budget=budget))]
        wrong: Any
        for wrong in (0, -1, 1.5, "64", None, float("nan")):
            for call in calls:
                self.assertRaisesRegex(ValueError, "whole number", call, budget=wrong)
        self.assertEqual(image.fetched, [])

    def test_limit(self) -> None:
        data = jpeg(10, 2)
        self.assertEqual(len(imagesize.spans(data, limit=24)), 24)
        forms: List[Any] = [data, bytearray(data), io.BytesIO(data)]
        for form in forms:
            with self.assertRaises(ImageError) as raised:
                imagesize.spans(form, limit=23)
            self.assertIs(raised.exception.status, Status.BUFFER_TOO_SMALL)
        with tempfile.NamedTemporaryFile() as file:
            file.write(data)
            file.flush()
            with self.assertRaises(ImageError) as raised:
                imagesize.spans(file.name, limit=23)
        self.assertEqual((raised.exception.image_type, raised.exception.filename), (None, file.name))

    def test_spans_of_parts(self) -> None:
        for data in (jpeg(3), jpeg(40), jpeg(200, 4000)):
            self.assertEqual(imagesize.spans(io.BytesIO(data)), imagesize.spans(data))

    def test_array_of_numbers(self) -> None:
        data = jpeg(3)
        for code, size in ("H", 2), ("I", 4):
            self.assertEqual(imagesize.probe(array.array(code, data + bytes(-len(data) % size))).size, (7, 5))

    def test_array_of_rows(self) -> None:
        data = jpeg(3)
        rows = memoryview(data + bytes(-len(data) % 3)).cast("B", (-(-len(data) // 3), 3))
        self.assertEqual(imagesize.probe(rows).size, (7, 5))
        self.assertEqual(imagesize.spans(rows), imagesize.spans(bytes(rows)))

    def test_spans_of_a_large_file(self) -> None:
        with tempfile.NamedTemporaryFile() as file:
            file.write(GIF)
            file.truncate(3 << 30)
            self.assertEqual(imagesize.spans(file.name), [(0, 12), (6, 2), (8, 2)])

    def test_spans_of_a_file_larger_than_memory(self) -> None:
        with tempfile.NamedTemporaryFile() as file:
            file.write(GIF)
            file.truncate(40 << 30)
            self.assertEqual(imagesize.spans(file.name), [(0, 12), (6, 2), (8, 2)])
            with mock.patch("mmap.mmap", side_effect=OSError(errno.ENOMEM, "Cannot allocate memory")):
                with self.assertRaises(ImageError) as raised:
                    imagesize.spans(file.name)
        self.assertIs(raised.exception.status, Status.OUT_OF_MEMORY)

    def test_place_of_an_open_file_stays(self) -> None:
        for data in (GIF, GIF[:3]):
            file = io.BytesIO(data)
            file.seek(5)
            try:
                imagesize.probe(file)
            except ImageError:
                pass
            self.assertEqual(file.tell(), 5)


class Types(unittest.TestCase):
    """The type of a file: only the bytes that tell it are read."""

    def test_type_of_a_hostile_file(self) -> None:
        """A JPEG of segments without end, from one block of it: no budget is spent."""
        hostile = b"\xff\xd8" + b"\xff\xe0\0\x02" * (1 << 18)
        with tempfile.NamedTemporaryFile() as file:
            file.write(hostile)
            file.truncate(1 << 40)
            file.flush()
            images: List[Any] = [file.name, pathlib.Path(file.name), open(file.name, "rb")]
            self.addCleanup(images[-1].close)
            images[-1].seek(5)
            for image in images:
                with mock.patch("os.pread", side_effect=os.pread) as pread:
                    self.assertEqual(imagesize.image_type(image, budget=12).kind, imagesize.Kind.JPEG)
                self.assertLessEqual([call.args[1] for call in pread.mock_calls], [12])
            self.assertEqual(images[-1].tell(), 5)
        for view in (bytearray(hostile), memoryview(hostile)):
            self.assertEqual(imagesize.image_type(view).kind, imagesize.Kind.JPEG)

    def test_types_of_test_vectors(self) -> None:
        """By a path, an open file and a view they are those of all bytes."""
        def outcome(image: Any) -> Any:
            try:
                return imagesize.image_type(image)
            except ImageError as error:
                return error.status

        with tempfile.NamedTemporaryFile() as file:
            for data, _, _ in rows():
                file.seek(0)
                file.truncate()
                file.write(data)
                file.flush()
                wanted = outcome(data)
                for image in (file.name, file, bytearray(data)):
                    self.assertEqual(outcome(image), wanted, data)

    def test_budget_that_is_spent(self) -> None:
        """The type of a TGA depends on its end too."""
        tga = b"\0\0\x02" + bytes(9) + b"\x07\0\x05\0\x18\0" + bytes(10000)
        self.assertEqual(imagesize.image_type(bytearray(tga)), imagesize.image_type(tga))
        with tempfile.NamedTemporaryFile() as file:
            file.write(tga)
            file.flush()
            self.assertEqual(imagesize.image_type(file.name), imagesize.image_type(tga))
            with self.assertRaises(ImageError) as raised:
                imagesize.image_type(file.name, budget=11)
        self.assertEqual(raised.exception.status, Status.BUDGET_SPENT)


class Failing(unittest.TestCase):
    def test_fetch_of_another_length(self) -> None:
        for more, error in ((-1, EOFError), (-4096, EOFError), (1, ValueError)):
            image = Sliced(jpeg(3), more)
            self.assertRaisesRegex(error, "4096 bytes from offset 0 on", image.probe)
            self.assertEqual(len(image.fetched), 1)

    def test_fetch_that_raises(self) -> None:
        def fetch(start: int, length: int) -> bytes:
            raise ConnectionResetError(start)

        self.assertRaises(ConnectionResetError, imagesize.probe_with, fetch, 100)

    def test_fetch_of_no_bytes(self) -> None:
        for thing in (None, "GIF89a", 12):
            give: Any = lambda start, length: thing
            self.assertRaises(TypeError, imagesize.probe_with, give, 12)

    def test_lengths(self) -> None:
        async def read(start: int, length: int) -> bytes:
            return GIF

        wrong: Any
        for wrong, error in ((-1, "from 0 to"), (1 << 63, "from 0 to"), (1 << 64, "from 0 to"), ("12", "str"), (None, "None")):
            image = Sliced(GIF)
            with self.assertRaisesRegex((TypeError, ValueError), error):
                imagesize.probe_with(image.fetch, wrong)
            self.assertEqual(image.fetched, [])
            with self.assertRaisesRegex((TypeError, ValueError), error):
                asyncio.run(imagesize.probe_async(read, wrong))
        self.assertEqual(asyncio.run(imagesize.probe_async(read, 12)).size, (640, 480))
        image = Sliced(b"")
        self.assertRaises(ImageError, image.probe)
        self.assertEqual(image.fetched, [])

    def test_coroutine_that_is_cut(self) -> None:
        async def read(start: int, length: int) -> bytes:
            return jpeg(3)[start : start + length - 1]

        with self.assertRaises(EOFError):
            asyncio.run(imagesize.probe_async(read, len(jpeg(3))))

    def test_file_that_shrinks(self) -> None:
        data = jpeg(3)
        with tempfile.NamedTemporaryFile() as file:
            file.write(data[:70000])
            file.flush()
            with mock.patch("os.lseek", return_value=len(data)):
                self.assertRaisesRegex(EOFError, file.name, imagesize.probe, file.name)
            with mock.patch("os.lseek", return_value=10):
                self.assertRaises(ImageError, imagesize.probe, file.name)
        self.assertEqual(imagesize.probe(Halting(data, len(data))).size, (7, 5))
        self.assertRaises(EOFError, imagesize.probe, Halting(data[:70000], len(data)))

    def test_files_that_cannot_be_read(self) -> None:
        with tempfile.TemporaryDirectory() as folder:
            pipe = os.path.join(folder, "pipe")
            os.mkfifo(pipe)
            nowhere: Any = pathlib.Path(folder) / "none"
            for path, error in ((folder, IsADirectoryError), (nowhere, FileNotFoundError), (pipe, OSError)):
                self.assertRaises(error, imagesize.spans, path)
                with self.assertRaises(error) as raised:
                    imagesize.probe(path)
                self.assertEqual(raised.exception.filename, str(path))

    def test_descriptors_are_closed(self) -> None:
        before = len(os.listdir("/proc/self/fd"))
        for path in ("/", __file__, "/nowhere"):
            for _ in range(20):
                self.assertRaises((OSError, ImageError), imagesize.probe, path)
        self.assertLess(len(os.listdir("/proc/self/fd")), before + 20)

    @unittest.skipIf(sys.version_info < (3, 10), "a handler may run at the beginning of a finally clause")
    def test_descriptors_are_closed_where_a_signal_handler_raises(self) -> None:
        class Interrupted(Exception):
            pass

        armed = False
        calls: List[Any] = [imagesize.probe, imagesize.spans]

        def interrupt(*_: Any) -> None:
            nonlocal armed
            if armed:
                armed = False
                raise Interrupted

        handler = signal.signal(signal.SIGALRM, interrupt)
        with tempfile.NamedTemporaryFile() as file:
            file.write(GIF)
            file.flush()
            interrupted = 0
            try:
                for number in range(20000):
                    try:
                        armed = True
                        signal.setitimer(signal.ITIMER_REAL, 2e-6 + number % 400 * 1e-7)
                        calls[number % 2](file.name)
                        armed = False
                    except Interrupted:
                        interrupted += 1
            finally:
                signal.setitimer(signal.ITIMER_REAL, 0)
                signal.signal(signal.SIGALRM, handler)
            self.assertEqual(descriptors(file.name), 1)
            self.assertGreater(interrupted, 100)
