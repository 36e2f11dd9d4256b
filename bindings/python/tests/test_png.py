"""PNG: files of encoders, files that are cut, and others that begin like one."""

import asyncio
import io
import os
import pathlib
import pickle
import shutil
import struct
import subprocess
import tempfile
import unittest
import weakref
import zlib
from typing import Any, List

import imagesize_proved as imagesize
from imagesize_proved import Compression, ImageError, ImageType, Kind, Size, Span, Status

SIGNATURE = b"\x89PNG\r\n\x1a\n"
PNG = ImageType(Kind.PNG)


def chunk(name: bytes, data: bytes) -> bytes:
    """A chunk of a PNG, with its length and its checksum."""
    return struct.pack(">I", len(data)) + name + data + struct.pack(">I", zlib.crc32(name + data))


def grey(width: int, height: int) -> bytes:
    """A whole PNG of black pixels, one byte each."""
    header = struct.pack(">IIBBBBB", width, height, 8, 0, 0, 0, 0)
    rows = zlib.compress(bytes((width + 1) * height))
    return SIGNATURE + chunk(b"IHDR", header) + chunk(b"IDAT", rows) + chunk(b"IEND", b"")


IMAGE = grey(640, 480)

OTHERS = [
    b"\x89PNG\r\n\x1a\r" + IMAGE[8:],
    b"\x89PNG" + bytes(100),
    IMAGE.replace(b"\r\n", b"\n", 1),
    b"\x09" + IMAGE[1:],
    b"\x8aMNG" + IMAGE[4:],
    b"\x8bJNG" + IMAGE[4:],
]
"""Inputs that begin much like a PNG, and are none."""


class Pngs(unittest.TestCase):
    def test_each_source(self) -> None:
        async def read(start: int, length: int) -> bytes:
            return IMAGE[start : start + length]

        with tempfile.TemporaryDirectory() as folder:
            path = pathlib.Path(folder, "a.png")
            path.write_bytes(IMAGE)
            sources: List[Any] = [IMAGE, bytearray(IMAGE), memoryview(IMAGE), str(path), path, io.BytesIO(IMAGE)]
            for source in sources:
                self.assertEqual(imagesize.probe(source), (PNG, Size(640, 480)))
                self.assertEqual(imagesize.image_type(source), PNG)
                self.assertEqual(imagesize.spans(source), [Span(0, 8), Span(16, 4), Span(20, 4)])
        fetched = imagesize.probe_with(lambda start, length: IMAGE[start : start + length], len(IMAGE))
        self.assertEqual(fetched, (PNG, Size(640, 480)))
        self.assertEqual(asyncio.run(imagesize.probe_async(read, len(IMAGE))), fetched)

    def test_files_of_encoders(self) -> None:
        tools = {"pnmtopng": ["pnmtopng"], "/usr/bin/convert": ["/usr/bin/convert", "pnm:-", "png:-"]}
        there = {name: line for name, line in tools.items() if shutil.which(name)}
        if not there:
            self.skipTest("neither pnmtopng nor ImageMagick's convert is here")
        for line in there.values():
            for width, height in [(1, 1), (7, 5), (300, 2), (1, 4096)]:
                pixels = b"P6 %d %d 255\n" % (width, height) + os.urandom(3 * width * height)
                made = subprocess.run(line, input=pixels, check=True, capture_output=True).stdout
                self.assertEqual(imagesize.probe(made), (PNG, Size(width, height)))

    def test_cut_files(self) -> None:
        for length in range(24):
            cut, spans = IMAGE[:length], [Span(0, min(8, length))]
            if length > 16:
                spans.append(Span(16, min(4, length - 16)))
            if length > 20:
                spans.append(Span(20, length - 20))
            with self.assertRaises(ImageError) as raised:
                imagesize.probe(cut)
            self.assertEqual(raised.exception.status, Status.END_OF_INPUT)
            self.assertEqual(raised.exception.image_type, PNG if length >= 8 else None)
            self.assertEqual(imagesize.spans(cut), spans if length else [])
            self.assertEqual(imagesize.spans(io.BytesIO(cut)), spans if length else [])
        self.assertEqual(imagesize.size(IMAGE[:24]), (640, 480))
        self.assertEqual(imagesize.image_type(IMAGE[:8]), PNG)
        with self.assertRaises(ImageError) as raised:
            imagesize.spans(IMAGE, limit=2)
        self.assertEqual(len(imagesize.spans(IMAGE, limit=3)), 3)
        self.assertEqual(raised.exception.status, Status.BUFFER_TOO_SMALL)

    def test_others(self) -> None:
        for data in OTHERS:
            sources: List[Any] = [data, bytearray(data), io.BytesIO(data)]
            for source in sources:
                with self.assertRaises(ImageError) as raised:
                    imagesize.probe(source)
                self.assertEqual((raised.exception.status, raised.exception.image_type), (Status.NOT_SUPPORTED, None))

    def test_few_bytes_are_fetched(self) -> None:
        fetched: List[int] = []

        def fetch(start: int, length: int) -> bytes:
            fetched.append(length)
            return IMAGE[start : start + length]

        self.assertEqual(imagesize.probe_with(fetch, 1 << 40, budget=24).size, (640, 480))
        self.assertEqual(fetched, [24])
        for budget in (1, 7, 8, 23):
            with self.assertRaises(ImageError) as raised:
                imagesize.probe_with(fetch, 1 << 40, budget=budget)
            self.assertEqual(raised.exception.status, Status.BUDGET_SPENT)

    def test_the_type(self) -> None:
        self.assertEqual(Kind.PNG, 1000)
        self.assertEqual((str(PNG), PNG.name, PNG.compression_name, PNG.container_format), ("Png", "Png", None, None))
        self.assertEqual((PNG.mime_type, PNG.extension), ("image/png", ".png"))
        self.assertEqual((PNG.compression_family, PNG.is_block_compressed), (None, False))
        self.assertFalse(PNG.is_multi_compression_container)
        self.assertEqual(pickle.loads(pickle.dumps(PNG)), PNG)
        self.assertIs(weakref.ref(PNG)(), PNG)
        self.assertLess(ImageType(Kind.WEBP), PNG)
        with self.assertRaises(ValueError):
            ImageType(Kind.PNG, Compression.DDS_BC7)
        with self.assertRaises(ValueError):
            ImageType(Kind.PNG, Compression.UNKNOWN_COMPRESSION)
