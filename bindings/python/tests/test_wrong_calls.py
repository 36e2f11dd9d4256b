"""What a caller may do wrong is refused with an error that says what it is, and nothing else is read."""

import copy
import ctypes
import io
import os
import pathlib
import pickle
import re
import shutil
import subprocess
import sys
import tempfile
import typing
import unittest
from concurrent.futures import ProcessPoolExecutor
from typing import Any, Callable, List, Sequence, Tuple
from unittest import mock

import imagesize_proved as imagesize
from imagesize_proved import Compression, ImageError, ImageType, Kind, Status, _library

from . import GIF

PACKAGE = pathlib.Path(imagesize.__file__).parent.parent


class Longer(bytes):
    def __len__(self) -> int:
        return 1 << 20


class Shorter(bytes):
    def __len__(self) -> int:
        return 4


class Disguised:
    _as_parameter_ = GIF


class Values(unittest.TestCase):
    def test_errors_are_copied(self) -> None:
        for error in (ImageError(Status.NOT_SUPPORTED), ImageError(Status.END_OF_INPUT, ImageType(Kind.DDS, Compression.DDS_BC7))):
            for same in (copy.copy(error), copy.deepcopy(error), pickle.loads(pickle.dumps(error))):
                self.assertEqual((same.status, same.image_type, str(same)), (error.status, error.image_type, str(error)))

    def test_error_leaves_a_pool_of_processes(self) -> None:
        with ProcessPoolExecutor(1) as pool:
            refused = pool.submit(imagesize.probe, GIF[:8])
            self.assertRaises(ImageError, refused.result)
            self.assertEqual(pool.submit(imagesize.probe, GIF).result().size, (640, 480))

    def test_numbers_are_whole(self) -> None:
        for numbers in ((2**32 + 10, 0), (10, 2**32), (-1, 0), (0, 0), (max(Kind) + 1, 0), (10, 11), (10, 34), ("Gif", 0)):
            self.assertRaises(ValueError, ImageType, *numbers)
        for status in (2**32, -1, 31):
            self.assertRaises(ValueError, ImageError, status)
            self.assertRaises(ValueError, imagesize.status_text, status)

    def test_errors_name_the_path_and_the_type(self) -> None:
        with tempfile.TemporaryDirectory() as folder:
            path = pathlib.Path(folder) / "photo.jpg"
            path.write_bytes(b"\xff\xd8\xff\xe0\0\x10JFIF\0\1")
            with open(path, "rb") as file:
                forms: Any = (str(path), path, file)
                for form in forms:
                    with self.assertRaises(ImageError) as raised:
                        imagesize.probe(form)
                    self.assertEqual(str(raised.exception), f"{path}: Jpeg: the file ends before its size")
                    self.assertEqual(raised.exception.filename, str(path))
            with self.assertRaises(ImageError) as raised:
                imagesize.probe(path.read_bytes())
        self.assertEqual(str(raised.exception), "Jpeg: the file ends before its size")
        self.assertEqual((raised.exception.text, raised.exception.filename), ("failed to fill whole buffer", None))

    def test_each_error_of_an_image_has_a_message(self) -> None:
        """But those that no call of the package raises, which have the library's text."""
        own = [status for status in Status if ImageError(status).message != imagesize.status_text(status)]
        self.assertEqual(set(Status) - set(own), {Status.ANSWERED, Status.UNKNOWN_TYPE, Status.UNKNOWN_STATUS, Status.BYTES_WANTED})

    def test_type_hints(self) -> None:
        for name in imagesize.__all__:
            thing = getattr(imagesize, name)
            if callable(thing):
                self.assertIsNotNone(typing.get_type_hints(thing))
        self.assertIs(typing.get_type_hints(imagesize.probe)["return"], imagesize.Probed)
        hints = typing.get_type_hints(ImageError.__init__)
        self.assertEqual(hints["image_type"], typing.Optional[ImageType])

    def test_docstrings_name_members(self) -> None:
        for enum in (Status, Kind, Compression, imagesize.Family):
            for name in re.findall("`([A-Z0-9_]+)`", enum.__doc__ or ""):
                self.assertIn(name, enum.__members__)

    def test_media(self) -> None:
        for numbers, mime_type, extension in (
            ((Kind.JPEG, Compression.NO_COMPRESSION), "image/jpeg", ".jpg"),
            ((Kind.HEIF, Compression.HEIF_AV1), "image/avif", ".avif"),
            ((Kind.HEIF, Compression.HEIF_HEVC), "image/heic", ".heic"),
            ((Kind.HEIF, Compression.UNKNOWN_COMPRESSION), "image/heif", ".heif"),
            ((Kind.ETC2, Compression.PKM_ETC1), None, ".pkm"),
        ):
            found = ImageType(*numbers)
            self.assertEqual((found.mime_type, found.extension), (mime_type, extension))

    def test_each_type_has_an_extension(self) -> None:
        for kind in Kind:
            for compression in Compression:
                try:
                    self.assertRegex(ImageType(kind, compression).extension, r"^\.\w+$")
                except ValueError:
                    pass

    def test_each_status_has_a_text(self) -> None:
        self.assertEqual(len({imagesize.status_text(status) for status in Status}), len(Status))

    def test_queries(self) -> None:
        bc7, gif = ImageType(Kind.DDS, Compression.DDS_BC7), imagesize.image_type(GIF)
        self.assertEqual((str(bc7), bc7.name, bc7.compression_name, bc7.container_format), ("Dds(Bc7)", "Dds", "Bc7", "DDS"))
        self.assertEqual(bc7.compression_family, imagesize.Family.BLOCK_COMPRESSION)
        self.assertTrue(bc7.is_block_compressed and bc7.is_multi_compression_container)
        self.assertEqual((str(gif), gif.compression_name, gif.container_format, gif.compression_family), ("Gif", None, None, None))
        self.assertFalse(gif.is_block_compressed or gif.is_multi_compression_container)
        self.assertIs(gif.kind, Kind.GIF)
        self.assertLess(gif, ImageType(Kind.JPEG))
        self.assertEqual({gif, ImageType(Kind(10))}, {gif})


class Arguments(unittest.TestCase):
    def test_false_lengths(self) -> None:
        for data in (Longer(GIF), Shorter(GIF)):
            self.assertEqual(imagesize.probe(data).size, (640, 480))
            self.assertEqual(imagesize.probe_with(lambda start, length: data, 12).size, (640, 480))
            self.assertEqual(imagesize.spans(data), imagesize.spans(GIF))
        self.assertRaises(ImageError, imagesize.probe, Longer(GIF[:10]))

    def test_other_things(self) -> None:
        texts: Any = open(__file__)
        self.addCleanup(texts.close)
        calls: Any = (imagesize.probe, imagesize.size, imagesize.image_type, imagesize.spans)
        for thing in (Disguised(), None, 7, [71, 73, 70], object(), texts):
            for call in calls:
                self.assertRaises(TypeError, call, thing)

    def test_clear_errors(self) -> None:
        """What a caller mixes up is said in the error."""
        calls: List[Callable[..., Any]] = [imagesize.probe, imagesize.size, imagesize.image_type]
        spans: Callable[..., Any] = imagesize.spans
        with open(__file__) as file:
            for text in (file, io.StringIO("GIF89a")):
                for call in (*calls, spans):
                    with self.assertRaisesRegex(TypeError, 'open it with the mode "rb"'):
                        call(text)
        lists: List[Callable[[], Any]] = [lambda: ["a.gif", "b.gif"], lambda: (pathlib.Path("a.gif"),), lambda: iter(["a.gif"])]
        for paths in lists:
            for call in calls:
                with self.assertRaisesRegex(TypeError, "a chunk is bytes, and not .*: for several files, call probe with one path at a time"):
                    call(paths())
        empty: List[Any] = [[], ()]
        for nothing in empty:
            for call in calls:
                with self.assertRaisesRegex(ImageError, "^the (list|tuple) is empty, and has no chunk of an image$") as raised:
                    call(nothing)
                self.assertEqual((raised.exception.status, raised.exception.text), (Status.END_OF_INPUT, "failed to fill whole buffer"))
                self.assertEqual(str(pickle.loads(pickle.dumps(raised.exception))), str(raised.exception))
        limits: List[Any] = [None, -1, 1.5, "many"]
        for limit in limits:
            with self.assertRaisesRegex(ValueError, "a limit is a whole number of spans, at least 0, and not"):
                imagesize.spans(GIF, limit=limit)
        self.assertEqual(len(imagesize.spans(GIF, limit=3)), 3)
        self.assertEqual(imagesize.spans(b"", limit=0), [])

    def test_views(self) -> None:
        words = memoryview(GIF * 3).cast("I")
        self.assertEqual(imagesize.probe(words).size, (640, 480))
        self.assertEqual(imagesize.probe(memoryview(bytes(b for byte in GIF for b in (byte, 0)))[::2]).size, (640, 480))

    def test_empty(self) -> None:
        for nothing in (b"", bytearray(), memoryview(b"").cast("I")):
            with self.assertRaises(ImageError) as raised:
                imagesize.probe(nothing)
            self.assertEqual((raised.exception.status, raised.exception.image_type), (Status.END_OF_INPUT, None))
            self.assertEqual(imagesize.spans(nothing), [])


class Buffers(unittest.TestCase):
    """What the library is passed: its caller vouches for pointers and lengths, and a result need not show that one is wrong."""

    def passed(self, call: str, use: Callable[[], object]) -> List[Tuple[Any, ...]]:
        """The arguments of each call of the library that `use` leads to. They are looked at during the call."""
        found: List[Tuple[Any, ...]] = []
        before = getattr(_library, call)

        def noted(*arguments: Any) -> Any:
            found.append(tuple(each.value if hasattr(each, "value") else each for each in arguments))
            return before(*arguments)

        with mock.patch.object(_library, call, noted):
            use()
        return found

    def results(self, references: Sequence[Any], length: int) -> None:
        """So many references lie in one buffer, each 8 bytes after the one before, and the buffer ends no sooner than the last."""
        room = references[0]._obj
        places = [ctypes.cast(each, ctypes.c_void_p).value or 0 for each in references]
        self.assertEqual([place - ctypes.addressof(room) for place in places], list(range(0, 8 * len(places), 8)))
        self.assertGreaterEqual(ctypes.sizeof(room), 8 * len(places) + 8 * (length == 5))

    def test_bytes(self) -> None:
        calls: List[Tuple[str, Callable[..., Any], int]] = [("_probe", imagesize.probe, 4), ("_type", imagesize.image_type, 2)]
        for call, use, count in calls:
            ((data, length, *references),) = self.passed(call, lambda: use(GIF))
            self.assertEqual((data, length, len(references)), (GIF, len(GIF), count))
            self.results(references, count)

    def test_first_block(self) -> None:
        with tempfile.NamedTemporaryFile() as file:
            file.write(GIF)
            file.flush()
            ((data, length, spans, count, total, *references),) = self.passed("_probe_few", lambda: imagesize.probe(file.name))
        self.assertEqual((data, length, list(spans), count, total), (GIF, 12, [0, 12], 1, 12))
        self.assertEqual(len(references), 5)
        self.results(references, 5)

    def test_rounds(self) -> None:
        """The state of a probe over spans is as long and as aligned as the header says. Each block is passed once."""
        header = (PACKAGE.parent.parent / "include" / "imagesize.h").read_text()
        (size,) = map(int, re.findall(r"^#define IMAGESIZE_ROUNDS_SIZE (\d+)", header, re.MULTILINE))
        image = b"\xff\xd8" + (b"\xff\xe0\xff\xff" + bytes(65533)) * 2 + b"\xff\xc0\0\x11\x08\0\x05\0\x07" + bytes(8)
        with tempfile.NamedTemporaryFile() as file:
            file.write(image)
            file.flush()
            forms: List[Any] = [bytearray(image), file, file.name]
            for form in forms:
                begun, supplied, answered = (
                    self.passed(call, lambda: self.assertEqual(imagesize.probe(form).size, (7, 5)))
                    for call in ("_rounds_new", "_rounds_supply", "_rounds_answer")
                )
                self.assertEqual([total for _, total in begun], [len(image)])
                blocks = [(0, 4096), (65536, 4096), (131072, len(image) - 131072)]
                self.assertEqual([(start, length) for _, start, _, length in supplied], blocks)
                self.assertEqual([data for _, _, data, _ in supplied], [image[start : start + length] for start, length in blocks])
                for state, *_ in (*begun, *supplied, *answered):
                    self.assertEqual((ctypes.sizeof(state), ctypes.alignment(state)), (size, 8))
                self.assertEqual(len(answered), 2)
                for _, *references in answered:
                    self.assertEqual(len(references), 5)
                    self.results(references, 5)

    def test_stream(self) -> None:
        """The state of a push parser is as long and as aligned as the header says. No call changes one that another has."""
        header = (PACKAGE.parent.parent / "include" / "imagesize.h").read_text()
        (size,) = map(int, re.findall(r"^#define IMAGESIZE_STREAM_SIZE (\d+)", header, re.MULTILINE))
        stream = imagesize.StreamProbe(100)
        begun = self.passed("_stream_new", lambda: imagesize.StreamProbe(100))
        pushed = [*self.passed("_stream_push", lambda: stream.feed(GIF[:5])), *self.passed("_stream_push", lambda: stream.feed(b""))]
        ended = self.passed("_stream_finish", lambda: self.assertRaises(ImageError, stream.close))
        self.assertEqual([total for _, total in begun], [100])
        self.assertEqual([tuple(rest[:2]) for _, *rest in pushed], [(GIF[:5], 5), (b"", 0)])
        states = [state for state, *_ in begun + pushed + ended]
        self.assertEqual([(ctypes.sizeof(state), ctypes.alignment(state)) for state in states], [(size, 8)] * 4)
        self.assertEqual(len(set(map(ctypes.addressof, states))), 4)
        for _, *rest in [(None, *rest[2:]) for _, *rest in pushed] + ended:
            self.assertEqual(len(rest), 4)
            self.results(rest, 4)

    def test_spans(self) -> None:
        (asked, told) = self.passed("_spans", lambda: imagesize.spans(GIF))
        self.assertEqual((asked[:2], asked[3]), ((GIF, 12), 0))
        self.assertEqual((told[:2], told[3]), ((GIF, 12), 3))
        self.assertGreaterEqual(ctypes.sizeof(told[2]), 16 * 3)


class Libraries(unittest.TestCase):
    def importing(self, library: str) -> str:
        environment = {**os.environ, "IMAGESIZE_LIBRARY": library, "PYTHONPATH": str(PACKAGE)}
        command = [sys.executable, "-c", "import imagesize_proved"]
        return subprocess.run(command, env=environment, stderr=subprocess.PIPE, text=True).stderr

    def test_missing_library(self) -> None:
        self.assertRegex(self.importing("/nowhere/libimagesize.so"), "ImportError: .*nowhere.*examples/run build")

    def test_without_calls_that_windows_does_not_have(self) -> None:
        """A file is read by a seek and a read, and the rest works too."""
        script = ("import os; del os.pread, os.O_NONBLOCK; import imagesize_proved as i; from imagesize_proved.__main__ import main\n"
                  "print(i.probe('icon').size, i.image_type('icon'), len(i.spans('icon')))\n"
                  "main(['icon'])")
        directory = b"".join(bytes([side, side, 0, 0, 1, 0, 32, 0, 40, 0, 0, 0, 0, 0x10, 0, 0]) for side in range(1, 256))
        with tempfile.TemporaryDirectory() as folder:
            (pathlib.Path(folder) / "icon").write_bytes(b"\0\0\1\0\xff\0" + directory + bytes(1 << 20))
            environment = {**os.environ, "PYTHONPATH": str(PACKAGE)}
            run = subprocess.run([sys.executable, "-c", script], env=environment, stdout=subprocess.PIPE, text=True, check=True, cwd=folder)
        self.assertRegex(run.stdout, r"^Size\(width=255, height=255\) Ico \d+\nIco +255x255  icon\n$")

    def test_wrong_library(self) -> None:
        self.assertRegex(self.importing("libc.so.6"), "ImportError: .*imagesize_type.*examples/run build")

    def test_packed_library_of_another_platform(self) -> None:
        """An installed package says what to do, and not how the repository builds a library."""
        with tempfile.TemporaryDirectory() as folder:
            shutil.copytree(PACKAGE / "imagesize_proved", pathlib.Path(folder) / "imagesize_proved")
            (pathlib.Path(folder) / "imagesize_proved" / "libimagesize.so").write_bytes(b"\xcf\xfa\xed\xfe")
            environment = {**os.environ, "PYTHONPATH": folder}
            environment.pop("IMAGESIZE_LIBRARY", None)
            command = [sys.executable, "-c", "import imagesize_proved"]
            said = subprocess.run(command, env=environment, stderr=subprocess.PIPE, text=True, cwd=folder).stderr
        self.assertRegex(said, r"ImportError: .*libimagesize\.so.*; it is for another platform: install the package again, on this machine\n$")
