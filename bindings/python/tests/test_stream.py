"""Images in chunks, and inputs that are read once: their results, and how much of them is read."""

import array
import asyncio
import bz2
import copy
import gzip
import http.client
import http.server
import io
import lzma
import mmap
import os
import pickle
import socket
import struct
import threading
import tracemalloc
import unittest
import zipfile
from concurrent.futures import ThreadPoolExecutor
from functools import partial
from typing import Any, AsyncIterator, Callable, Iterable, Iterator, List, Optional, Tuple

import imagesize_proved as imagesize
from imagesize_proved import ImageError, Kind, Probed, Status, StreamProbe

from . import GIF
from .test_png import IMAGE as PNG
from .test_sources import jpeg
from .test_worked import line, rows

Chunks = Iterable[bytes]

CUT = b"\xff\xd8\xff\xe0\0\x10JFIF\0\1"
"""A JPEG that ends before its size."""


def pieces(data: bytes, length: int) -> List[bytes]:
    """Some bytes in pieces of this length."""
    return [data[start : start + length] for start in range(0, len(data), length)]


def fed(chunks: Chunks, total: Optional[int] = None) -> Probed:
    """The result of chunks that are fed, and of their end if they have none."""
    stream = StreamProbe(total)
    for chunk in chunks:
        found = stream.feed(chunk)
        if found:
            return found
    return stream.close()


def ended(data: bytes) -> Probed:
    """The result after some bytes that are fed, whether or not they have one."""
    stream = StreamProbe()
    try:
        stream.feed(data)
    except ImageError:
        pass
    return stream.close()


async def awaited(chunks: Chunks) -> AsyncIterator[bytes]:
    """Chunks that come one after the other."""
    for chunk in chunks:
        await asyncio.sleep(0)
        yield chunk


class Once(io.RawIOBase):
    """A file that cannot seek. It gives at most so many bytes at a time, and counts them."""

    def __init__(self, data: bytes, most: int = 1 << 20) -> None:
        self.data, self.most, self.read_bytes = data, most, 0

    def readable(self) -> bool:
        return True

    def readinto(self, buffer: Any) -> int:
        more = self.data[self.read_bytes :][: min(len(buffer), self.most)]
        buffer[: len(more)] = more
        self.read_bytes += len(more)
        return len(more)


class OnlyRead:
    """An object that has the method read, and no other."""

    def __init__(self, data: bytes) -> None:
        self.file = io.BytesIO(data)

    def read(self, size: int) -> bytes:
        return self.file.read(size)


class Feeding(unittest.TestCase):
    def test_test_vectors(self) -> None:
        for data, wanted, _ in rows():
            for length in (1, 2, 3, 7, 4096, len(data) or 1):
                with self.subTest(data=data, length=length):
                    self.assertEqual(line(fed, pieces(data, length)), wanted)
                    self.assertEqual(line(fed, pieces(data, length), len(data)), wanted)

    def test_result_with_the_last_byte_that_it_depends_on(self) -> None:
        """If the length is known, the bytes up to the end of the last span have the result."""
        for data, wanted, spans in rows():
            ends = [sum(map(int, span.split("+"))) for span in spans.split() if "+" in span]
            if ends:
                with self.subTest(data=data):
                    self.assertEqual(line(StreamProbe(len(data)).feed, data[: max(ends)]), wanted)

    def test_whole_input_has_a_result(self) -> None:
        for data, wanted, _ in rows():
            if data:
                self.assertEqual(line(StreamProbe(len(data)).feed, data + b"\xff\xd8"), wanted)

    def test_end_after_each_front(self) -> None:
        for data in {data[:300] for data, _, _ in rows()}:
            for length in range(len(data) + 1):
                with self.subTest(data=data, length=length):
                    self.assertEqual(line(ended, data[:length]), line(imagesize.probe, data[:length]))

    def test_results_stay(self) -> None:
        for data, wanted, _ in rows():
            stream = StreamProbe(len(data))
            self.assertEqual(line(stream.feed, data) if data else line(stream.close), wanted)
            for more in (b"", data, GIF, PNG):
                self.assertEqual(line(stream.feed, more), wanted)
                self.assertEqual(line(stream.close), wanted)

    def test_end_stays(self) -> None:
        stream = StreamProbe()
        self.assertIsNone(stream.feed(CUT))
        calls: List[Callable[[], Any]] = [stream.close, partial(stream.feed, jpeg(1)[12:]), stream.close]
        for call in calls:
            with self.assertRaises(ImageError) as raised:
                call()
            self.assertEqual((raised.exception.status, str(raised.exception.image_type)), (Status.END_OF_INPUT, "Jpeg"))

    def test_no_bytes(self) -> None:
        nothing: Any
        stream = StreamProbe()
        for start in range(len(GIF) - 1):
            for nothing in (b"", bytearray(), memoryview(b""), array.array("I")):
                self.assertIsNone(stream.feed(nothing))
            self.assertIsNone(stream.feed(GIF[start : start + 1]))
        self.assertEqual(line(stream.feed, GIF[-1:]), "Gif 640x480")
        for nothing in (b"", bytearray()):
            with self.assertRaises(ImageError) as raised:
                StreamProbe(0).feed(nothing)
            self.assertEqual(raised.exception.status, Status.END_OF_INPUT)
        self.assertEqual(line(StreamProbe().close), line(imagesize.probe, b""))

    def test_png(self) -> None:
        for length in (1, 5, 8, 23, 24, len(PNG)):
            stream = StreamProbe()
            found = [stream.feed(piece) for piece in pieces(PNG[:24], length)]
            self.assertEqual(found[:-1], [None] * (len(found) - 1))
            self.assertEqual(found[-1], imagesize.probe(PNG))
        for length in range(24):
            self.assertEqual(line(ended, PNG[:length]), line(imagesize.probe, PNG[:length]))
            self.assertEqual(line(StreamProbe(length).feed, PNG), line(imagesize.probe, PNG[:length]))
            self.assertEqual(line(fed, pieces(PNG, 10), length), line(imagesize.probe, PNG[:length]))
        with self.assertRaises(ImageError) as raised:
            ended(PNG[:23])
        self.assertIs(getattr(raised.exception.image_type, "kind", None), Kind.PNG)

    def test_forms(self) -> None:
        data = jpeg(3) + b"\0"
        mapped = mmap.mmap(-1, len(data))
        mapped[:] = data
        even = data + bytes(len(data) % 2)
        strided = memoryview(bytes(each for byte in data for each in (byte, 0)))[::2]
        forms: List[Any] = [data, bytearray(data), memoryview(data), memoryview(bytearray(data)), mapped, array.array("H", even),
                            strided, memoryview(even).cast("B", (2, len(even) // 2))]
        for form in forms:
            self.assertEqual(line(StreamProbe().feed, form), "Jpeg 7x5")

    def test_a_buffer_is_free_after_a_call(self) -> None:
        """It may be used again for the next bytes, also if the call raised."""
        buffer, stream = bytearray(3), StreamProbe()
        for piece in pieces(GIF[:-3], 3):
            buffer[:] = piece
            self.assertIsNone(stream.feed(buffer))
        buffer[:] = GIF[-3:] + bytes(100)
        self.assertEqual(line(stream.feed, buffer), "Gif 640x480")
        with self.assertRaises(ImageError):
            try:
                StreamProbe(len(buffer)).feed(buffer)
            finally:
                buffer.extend(bytes(1 << 20))

    def test_other_things(self) -> None:
        stream, wrong = StreamProbe(), [None, "GIF89a", 12, [71], object()]
        thing: Any
        for thing in wrong:
            self.assertRaises(TypeError, stream.feed, thing)
        self.assertEqual(line(stream.feed, GIF), "Gif 640x480")

    def test_totals(self) -> None:
        total: Any
        for total in (-1, 1 << 63, 1 << 64):
            self.assertRaisesRegex(ValueError, "from 0 to", StreamProbe, total)
        for total in ("12", 1.5, b""):
            self.assertRaises(TypeError, StreamProbe, total)
        for total in (12, 13, (1 << 63) - 1, None):
            self.assertEqual(line(StreamProbe(total).feed, GIF), "Gif 640x480")
        for total in range(1, 12):
            self.assertEqual(line(StreamProbe(total).feed, GIF), line(imagesize.probe, GIF[:total]))

    def test_budget(self) -> None:
        data = jpeg(3)
        needed = len(data) - 8
        self.assertEqual(line(StreamProbe(budget=needed).feed, data), "Jpeg 7x5")
        for length in (1, 4096, len(data)):
            stream = StreamProbe(budget=needed - 1)
            with self.assertRaises(ImageError) as raised:
                for piece in pieces(data, length):
                    stream.feed(piece)
            calls: List[Callable[[], Any]] = [partial(stream.feed, data), stream.close]
            for call in calls:
                with self.assertRaises(ImageError) as raised:
                    call()
                self.assertIs(raised.exception.status, Status.BUDGET_SPENT)
        wrong: Any
        for wrong in (0, -1, 1.5, "64", None):
            with self.assertRaisesRegex(ValueError, "whole number"):
                StreamProbe(budget=wrong)

    def test_copies(self) -> None:
        calls: List[Any] = [copy.copy, copy.deepcopy, pickle.dumps]
        for call in calls:
            self.assertRaisesRegex(TypeError, "copied or pickled", call, StreamProbe())

    def test_threads(self) -> None:
        """Probes in several threads, and two in one, have nothing in common. Nor does a probe that two threads feed crash."""
        worked = [(data, wanted) for data, wanted, _ in rows() if len(data) < 3000]

        def wrong(thread: int) -> int:
            turned = worked[thread * 10 :] + worked[: thread * 10]
            return sum(line(fed, pieces(data, 5)) != wanted for data, wanted in turned)

        with ThreadPoolExecutor(4) as threads:
            self.assertEqual(sum(threads.map(wrong, range(4))), 0)
            shared = StreamProbe()
            data = jpeg(20000, 100)
            for done in [threads.submit(shared.feed, piece) for piece in pieces(data, 1000)]:
                self.assertIsInstance(done.exception(), (ImageError, type(None)))
        first, second = StreamProbe(), StreamProbe()
        for a, b in zip(pieces(GIF[:-1], 1), pieces(PNG, 1)):
            self.assertIsNone(first.feed(a) or second.feed(b))
        self.assertEqual((line(first.feed, GIF[-1:]), line(second.feed, PNG[11:])), ("Gif 640x480", "Png 640x480"))

    def test_hostile_input(self) -> None:
        """A JPEG of a million empty segments, and little memory for it."""
        data = jpeg(1 << 20, 2)
        chunks = pieces(data, 1 << 16)
        tracemalloc.start()
        self.assertEqual(line(fed, chunks), "Jpeg 7x5")
        self.assertEqual(line(StreamProbe().feed, bytearray(data)), "Jpeg 7x5")
        _, peak = tracemalloc.get_traced_memory()
        tracemalloc.stop()
        self.assertLess(peak, len(data) + (1 << 18))
        self.assertEqual(line(StreamProbe().feed, data), "Jpeg 7x5")


class Iterables(unittest.TestCase):
    def test_test_vectors(self) -> None:
        for data, wanted, _ in rows():
            for length in (1, 7, 4096):
                with self.subTest(data=data, length=length):
                    chunks = pieces(data, length)
                    self.assertEqual(line(imagesize.probe, chunks), wanted)
                    self.assertEqual(line(imagesize.probe, Once(data, length)), wanted)
                    self.assertEqual(line(lambda: asyncio.run(imagesize.probe_async(awaited(chunks)))), wanted)

    def test_each_call(self) -> None:
        for chunks in ([GIF], (GIF,), {GIF: 1}, [bytearray(GIF[:5]), memoryview(GIF[5:])]):
            self.assertEqual(imagesize.probe(chunks).size, (640, 480))
            self.assertEqual(imagesize.size(iter(chunks)), (640, 480))
            self.assertEqual(str(imagesize.image_type(chunks)), "Gif")
            self.assertRaises(TypeError, imagesize.spans, chunks)
        self.assertEqual(str(imagesize.image_type([CUT])), "Jpeg")
        self.assertRaises(ImageError, imagesize.image_type, [b"no image, but a text"])
        self.assertRaises(ImageError, imagesize.probe, [])

    def test_generator_is_closed(self) -> None:
        for data in (GIF + bytes(100), CUT, b"no image" * 1000):
            events: List[Any] = []

            def chunks() -> Iterator[bytes]:
                try:
                    for piece in pieces(data, 4):
                        events.append(len(piece))
                        yield piece
                finally:
                    events.append("closed")

            generator = chunks()
            line(imagesize.probe, generator)
            self.assertEqual(events.count("closed"), 1)
            self.assertEqual(events[-1], "closed")
            self.assertEqual(list(generator), [])

    def test_only_a_generator_is_closed(self) -> None:
        """An iterator with a method of the same name may be a connection that the caller still needs."""

        class Connection:
            closed = False

            def __iter__(self) -> "Connection":
                return self

            def __next__(self) -> bytes:
                return GIF

            def close(self) -> None:
                self.closed = True

        connection = Connection()
        self.assertEqual(imagesize.probe(connection).size, (640, 480))
        self.assertFalse(connection.closed)

    def test_no_chunk_too_many(self) -> None:
        chunks = iter([GIF[:6], GIF[6:10], GIF[10:], b"rest"])
        self.assertEqual(imagesize.probe(chunks).size, (640, 480))
        self.assertEqual(list(chunks), [b"rest"])

    def test_errors_of_the_iterable(self) -> None:
        def chunks() -> Iterator[bytes]:
            yield GIF[:4]
            raise ConnectionResetError

        self.assertRaises(ConnectionResetError, imagesize.probe, chunks())
        self.assertRaises(ConnectionResetError, asyncio.run, imagesize.probe_async(awaited(chunks())))

    def test_other_things(self) -> None:
        things: List[Any] = [[71, 73], ["GIF89a"], [None], 7, object(), awaited([GIF]), awaited]
        calls: List[Callable[..., Any]] = [imagesize.probe, imagesize.size, imagesize.image_type]
        for thing in things:
            for call in calls:
                self.assertRaises(TypeError, call, thing)
        others: List[Any] = [GIF, [GIF], 7, None, io.BytesIO(GIF), awaited([1])]  # type: ignore[list-item]
        for other in others:
            self.assertRaises(TypeError, asyncio.run, imagesize.probe_async(other))

    def test_budget(self) -> None:
        data = jpeg(3)
        needed = len(data) - 8

        def by_coroutine(chunks: Chunks, budget: int) -> Probed:
            return asyncio.run(imagesize.probe_async(awaited(chunks), budget=budget))

        calls: List[Any] = [imagesize.probe, by_coroutine]
        for call in calls:
            for length in (1000, len(data)):
                self.assertEqual(call(pieces(data, length), budget=needed).size, (7, 5))
                with self.assertRaises(ImageError) as raised:
                    call(pieces(data, length), budget=needed - 1)
                self.assertIs(raised.exception.status, Status.BUDGET_SPENT)


class Awaited(unittest.TestCase):
    def test_generator_is_closed(self) -> None:
        events: List[str] = []

        async def chunks() -> AsyncIterator[bytes]:
            try:
                while True:
                    yield GIF
            finally:
                await asyncio.sleep(0)
                events.append("closed")

        async def probe() -> Probed:
            found = await imagesize.probe_async(chunks())
            self.assertEqual(events, ["closed"])
            return found

        self.assertEqual(asyncio.run(probe()).size, (640, 480))

    def test_cancelled(self) -> None:
        """A task that waits for a chunk is cancelled: the generator ends first, and nothing is left open."""
        events: List[str] = []

        async def chunks() -> AsyncIterator[bytes]:
            try:
                yield GIF[:4]
                await asyncio.sleep(60)
            except asyncio.CancelledError:
                events.append("cancelled")
                raise
            finally:
                events.append("closed")

        async def cancel() -> None:
            task = asyncio.ensure_future(imagesize.probe_async(chunks()))
            await asyncio.sleep(0.01)
            task.cancel()
            with self.assertRaises(asyncio.CancelledError):
                await task
            events.append("done")

        asyncio.run(cancel())
        self.assertEqual(events, ["cancelled", "closed", "done"])
        with self.assertRaises(asyncio.TimeoutError):
            asyncio.run(asyncio.wait_for(imagesize.probe_async(chunks()), 0.01))

    def test_only_a_generator_is_closed(self) -> None:
        class Connection:
            closed = False

            def __aiter__(self) -> "Connection":
                return self

            async def __anext__(self) -> bytes:
                return GIF

            async def aclose(self) -> None:
                self.closed = True

        connection = Connection()
        self.assertEqual(asyncio.run(imagesize.probe_async(connection)).size, (640, 480))
        self.assertFalse(connection.closed)

    def test_length(self) -> None:
        """A length that is known counts, and what comes after it does not."""
        for length in range(1, len(GIF) + 1):
            found = line(lambda: asyncio.run(imagesize.probe_async(awaited([GIF]), length)))
            self.assertEqual(found, line(imagesize.probe, GIF[:length]))
        self.assertRaises(ValueError, asyncio.run, imagesize.probe_async(awaited([GIF]), -1))

    def test_stream_reader(self) -> None:
        """The front of an image is enough, while the other end sends nothing more."""

        async def probe() -> Probed:
            ours, theirs = socket.socketpair()
            theirs.sendall(jpeg(1))
            reader, writer = await asyncio.open_connection(sock=ours)
            with theirs:
                found = await asyncio.wait_for(imagesize.probe_async(reader), 10)
                writer.close()
                await writer.wait_closed()
            return found

        self.assertEqual(asyncio.run(probe()).size, (7, 5))

    def test_read_within_the_budget(self) -> None:
        class Reader:
            sizes: List[int] = []

            async def read(self, size: int) -> bytes:
                self.sizes.append(size)
                return (b"\xff\xd8" + b"\xff\xe0\0\2" * 4000)[:size] if len(self.sizes) == 1 else b"\xff\xe0\0\2" * (size // 4) + b"\xff" * (size % 4)

        with self.assertRaises(ImageError) as raised:
            asyncio.run(imagesize.probe_async(Reader(), budget=10000))
        self.assertIs(raised.exception.status, Status.BUDGET_SPENT)
        self.assertEqual(Reader.sizes, [4096, 4096, 1808])


class Files(unittest.TestCase):
    """Files that cannot seek."""

    def pipe(self, data: bytes, buffering: int = -1) -> Tuple[Any, int]:
        """A pipe with some bytes in it, and its other end, which stays open."""
        reader, writer = os.pipe()
        self.addCleanup(os.close, writer)
        file = open(reader, "rb", buffering=buffering)
        self.addCleanup(file.close)
        os.write(writer, data)
        return file, writer

    def test_pipe(self) -> None:
        """Nobody waits for bytes that are not needed, though the other end is open."""
        calls: List[Callable[..., Any]] = [imagesize.probe, imagesize.size, imagesize.image_type]
        for buffering in (-1, 0):
            for call in calls:
                call(self.pipe(GIF, buffering)[0])
            file, _ = self.pipe(GIF + b"rest" * 2000, buffering)
            self.assertEqual(imagesize.probe(file).size, (640, 480))
            self.assertEqual(file.read(8), (GIF + b"rest" * 2000)[4096 : 4104])

    def test_pipe_that_comes_slowly(self) -> None:
        file, writer = self.pipe(b"")
        feeder = threading.Thread(target=lambda: [os.write(writer, piece) for piece in pieces(jpeg(1), 997)])
        feeder.start()
        self.assertEqual(imagesize.probe(file).size, (7, 5))
        feeder.join()

    def test_pipe_that_is_closed(self) -> None:
        reader, writer = os.pipe()
        os.close(writer)
        with open(reader, "rb") as file:
            with self.assertRaises(ImageError) as raised:
                imagesize.probe(file)
        self.assertIs(raised.exception.status, Status.END_OF_INPUT)
        self.assertRaises(ValueError, imagesize.probe, file)

    def test_spans(self) -> None:
        self.assertRaises(OSError, imagesize.spans, self.pipe(GIF)[0])

    def test_socket(self) -> None:
        for buffering in (-1, 0):
            ours, theirs = socket.socketpair()
            with ours, theirs, ours.makefile("rb", buffering=buffering) as file:
                theirs.sendall(jpeg(1))
                self.assertEqual(imagesize.probe(file).size, (7, 5))
            ours, theirs = socket.socketpair()
            with ours, theirs, ours.makefile("rb", buffering=buffering) as file:
                theirs.sendall(GIF[:8])
                ours.settimeout(0.05)
                self.assertRaises(OSError, imagesize.probe, file)

    def test_how_much_is_read(self) -> None:
        """Blocks of 4096 bytes, up to the one with the last byte that is needed, and never more than the budget."""
        for data, read in ((GIF + bytes(10000), 4096), (jpeg(3) + bytes(10000), 200704), (b"no image" * 10000, 4096)):
            file = Once(data)
            line(imagesize.probe, file)
            self.assertEqual(file.read_bytes, read)
        for budget in (1, 11, 4096, 5000, 196600):
            file = Once(jpeg(3))
            with self.assertRaises(ImageError) as raised:
                imagesize.probe(file, budget=budget)
            self.assertEqual((raised.exception.status, file.read_bytes), (Status.BUDGET_SPENT, budget))
        self.assertEqual(imagesize.probe(Once(GIF), budget=12).size, (640, 480))

    def test_file_that_can_only_read(self) -> None:
        self.assertEqual(imagesize.probe(OnlyRead(jpeg(3))).size, (7, 5))

    def test_files_that_can_seek(self) -> None:
        """They are read by blocks, and stay where they were: also those that have no `seekable`."""

        class Plain:
            def __init__(self) -> None:
                self.file = io.BytesIO(jpeg(3))
                self.count = 0

            def read(self, size: int) -> bytes:
                self.count += size
                return self.file.read(size)

            def seek(self, place: int, whence: int = 0) -> int:
                return self.file.seek(place, whence)

            def tell(self) -> int:
                return self.file.tell()

        plain = Plain()
        plain.seek(5)
        self.assertEqual(imagesize.probe(plain).size, (7, 5))
        self.assertEqual(plain.tell(), 5)
        self.assertLessEqual(plain.count, 16384)

    def test_decompressed(self) -> None:
        """Only the front of what is packed is unpacked, and the source need not seek."""
        bomb = GIF + bytes(1 << 20)
        packed = io.BytesIO()
        with zipfile.ZipFile(packed, "w", zipfile.ZIP_DEFLATED) as archive:
            archive.writestr("a.gif", bomb)
        member = zipfile.ZipFile(packed).open("a.gif")
        opened: List[Any] = [gzip.open(io.BytesIO(gzip.compress(bomb, 1))), bz2.open(io.BytesIO(bz2.compress(bomb, 1))),
                             lzma.open(io.BytesIO(lzma.compress(bomb, preset=1))), member]
        for file in opened:
            self.assertEqual(imagesize.probe(file).size, (640, 480))
            self.assertLessEqual(file.tell(), 4096)
            file.close()
        source: Any = Once(gzip.compress(jpeg(1)))
        self.assertEqual(imagesize.probe(gzip.GzipFile(fileobj=source)).size, (7, 5))
        source = Once(gzip.compress(jpeg(1))[:-12])
        self.assertRaises(EOFError, gzip.GzipFile(fileobj=source).read)

    def test_names(self) -> None:
        file, _ = self.pipe(b"no image, but a text")
        with self.assertRaises(ImageError) as raised:
            imagesize.probe(file)
        self.assertIsNone(raised.exception.filename)
        named = gzip.GzipFile("photo.gz", fileobj=io.BytesIO(gzip.compress(CUT)))
        with self.assertRaisesRegex(ImageError, "^photo.gz: Jpeg: "):
            imagesize.probe(named)

    def test_text(self) -> None:
        file: Any = io.TextIOWrapper(io.BufferedReader(Once(GIF)), encoding="latin-1")
        self.assertRaises(TypeError, imagesize.probe, file)

    def test_response(self) -> None:
        """A response whose server sends the front of an image and then nothing, with and without a length, and one that ends."""
        for head, body, found in (
            (b"Content-Length: 1000000", jpeg(1), "Jpeg 7x5"),
            (b"Transfer-Encoding: chunked", b"7\r\n" + GIF[:7] + b"\r\n5\r\n" + GIF[7:] + b"\r\n", "Gif 640x480"),
            (b"Content-Length: 12", CUT, "Jpeg: failed to fill whole buffer"),
            (b"Transfer-Encoding: chunked", b"c\r\n" + CUT + b"\r\n0\r\n\r\n", "Jpeg: failed to fill whole buffer"),
        ):
            ours, theirs = socket.socketpair()
            with ours, theirs:
                ours.settimeout(10)
                theirs.sendall(b"HTTP/1.1 200 OK\r\n" + head + b"\r\n\r\n" + body)
                with http.client.HTTPResponse(ours) as response:
                    response.begin()
                    self.assertEqual(line(imagesize.probe, response), found)


class Kept(unittest.TestCase):
    """A caller that goes on with an input after its result."""

    IMAGE = jpeg(2, 5000) + bytes(30000)

    def test_chunks(self) -> None:
        chunks = (piece for piece in pieces(self.IMAGE, 1000))
        kept: List[Any] = [b""]
        self.assertEqual(imagesize.probe(chunks, keep=kept).size, imagesize.size(self.IMAGE))
        self.assertEqual(len(kept), 12)
        self.assertEqual(b"".join([*kept, *chunks]), self.IMAGE)

    def test_files(self) -> None:
        packed = gzip.GzipFile(fileobj=io.BytesIO(gzip.compress(self.IMAGE)))
        files: List[Any] = [Once(self.IMAGE, 3000), OnlyRead(self.IMAGE), packed]
        for file in files:
            kept: List[Any] = []
            self.assertEqual(imagesize.probe(file, keep=kept).size, imagesize.size(self.IMAGE))
            self.assertLess(len(b"".join(kept)), 20000)
            self.assertEqual(b"".join([*kept, *iter(partial(file.read, 1000), b"")]), self.IMAGE)

    def test_awaited_chunks(self) -> None:
        async def run() -> bytes:
            chunks, kept = awaited(pieces(self.IMAGE, 1000)), []  # type: Any, List[Any]
            await imagesize.probe_async(chunks, keep=kept)
            return b"".join([*kept, *[chunk async for chunk in chunks]])

        self.assertEqual(asyncio.run(run()), self.IMAGE)

    def test_reader(self) -> None:
        async def run() -> bytes:
            reader, kept = asyncio.StreamReader(), []  # type: Any, List[Any]
            reader.feed_data(self.IMAGE)
            reader.feed_eof()
            await imagesize.probe_async(reader, keep=kept)
            return b"".join([*kept, await reader.read()])

        self.assertEqual(asyncio.run(run()), self.IMAGE)

    def test_errors(self) -> None:
        """What was read of an input without a result is kept too."""
        kept: List[Any] = []
        with self.assertRaises(ImageError):
            imagesize.probe(iter(pieces(CUT, 3)), keep=kept)
        self.assertEqual(b"".join(kept), CUT)
        kept.clear()
        with self.assertRaises(ImageError) as raised:
            imagesize.probe(iter(pieces(self.IMAGE, 1000)), budget=2500, keep=kept)
        self.assertEqual((raised.exception.status, len(kept)), (Status.BUDGET_SPENT, 3))

    def test_images_that_can_be_read_again(self) -> None:
        images: List[Any] = [GIF, bytearray(GIF), "photo.gif", io.BytesIO(GIF)]
        for image in images:
            with self.assertRaisesRegex(TypeError, "keep is for chunks"):
                imagesize.probe(image, keep=[])

        async def read(start: int, length: int) -> bytes:
            return GIF[start : start + length]

        with self.assertRaisesRegex(TypeError, "keep is for chunks"):
            asyncio.run(imagesize.probe_async(read, len(GIF), keep=[]))  # type: ignore[call-overload]
