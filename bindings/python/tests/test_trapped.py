"""The status of the portable library that no image has: each call of a library that is trapped raises `TrapError`."""

import os
import pathlib
import pickle
import shlex
import shutil
import subprocess
import sys
import tempfile
import unittest

import build_wheel
import imagesize_proved
from imagesize_proved import ImageError, Status, TrapError, _library

from . import GIF

PACKAGE = pathlib.Path(imagesize_proved.__file__).resolve().parent.parent
COMPILER = shlex.split(os.environ.get("CC", "cc"))
PNG = b"\x89PNG\r\n\x1a\n\0\0\0\rIHDR\0\0\0\x07\0\0\0\x05\x08\0\0\0\0"

# Prints what each call raises, of some images, and of an empty input.
BEGIN = f"""
import asyncio, io, imagesize_proved as i
gif, png = {GIF!r}, {PNG!r}
"""
CALLS = """
async def chunks():
    yield gif
def fed(probe):
    probe.feed(gif)
    probe.close()
for call in (
    lambda: i.probe(gif), lambda: i.probe(path), lambda: i.probe(io.BytesIO(gif)), lambda: i.probe(iter([gif])), lambda: i.size(gif),
    lambda: i.image_type(gif), lambda: i.image_type(path), lambda: i.spans(gif), lambda: i.spans(path), lambda: fed(i.StreamProbe()),
    lambda: i.probe_with(lambda start, length: gif[start:start + length], 12), lambda: asyncio.run(i.probe_async(chunks())),
    lambda: i.probe(png), lambda: i.spans(png),
):
"""
# Calls that may need no stack of the library.
NUMBERS = """
for call in (
    lambda: i.ImageType(i.Kind.GIF), lambda: i.status_text(4),
):
"""
EMPTY = """
for call in (
    lambda: i.spans(b""), lambda: i.spans(bytearray()), lambda: i.spans(memoryview(b"")), lambda: i.spans(io.BytesIO()), lambda: i.spans(empty),
    lambda: i.probe(b""), lambda: i.probe(bytearray()), lambda: i.probe(empty), lambda: i.image_type(empty),
):
"""
END = """
    try:
        print("returned", call())
    except Exception as error:
        print(type(error).__name__, getattr(error, "status", None) is i.Status.TRAPPED, isinstance(error, i.ImageError), str(error))
"""


class Trapped(unittest.TestCase):
    def setUp(self) -> None:
        folder = tempfile.TemporaryDirectory()
        self.addCleanup(folder.cleanup)
        self.folder = pathlib.Path(folder.name)
        self.gif = self.folder / "a.gif"
        self.gif.write_bytes(GIF)
        if not shutil.which(COMPILER[0]):
            self.skipTest(f"no {COMPILER[0]} here")

    def library(self, source: pathlib.Path, *options: str) -> str:
        """The path of a library that is compiled of this source."""
        library = self.folder / "trapped.so"
        subprocess.run([*COMPILER, "-shared", "-fPIC", *options, "-o", str(library), str(source)], check=True)
        return str(library)

    def check(self, library: str, calls: str = CALLS, count: int = 14) -> None:
        (self.folder / "empty").touch()
        script = f"path, empty = {str(self.gif)!r}, {str(self.folder / 'empty')!r}\n{BEGIN}{calls.rstrip()}{END}"
        environment = {**os.environ, "PYTHONPATH": str(PACKAGE), "IMAGESIZE_LIBRARY": library}
        run = subprocess.run([sys.executable, "-c", script], env=environment, stdout=subprocess.PIPE, text=True, check=True)
        lines = run.stdout.splitlines()
        self.assertEqual(len(lines), count)
        for number, line in enumerate(lines):
            self.assertRegex(line, "^TrapError True True .*the portable library was trapped: this is a mistake in it$", number)

    def test_each_call(self) -> None:
        source = self.folder / "trapped.c"
        source.write_text("".join(f"unsigned {call}(void) {{ return 255; }}\n" for call in _library._CALLS))
        library = self.library(source)
        self.check(library)
        self.check(library, NUMBERS, 2)
        self.check(library, EMPTY, 9)

    def test_the_portable_library_with_too_little_stack(self) -> None:
        sources = build_wheel.portable()
        if not sources:
            self.skipTest("no portable library here: bindings/portable/build makes its source")
        for name, data in sources:
            (self.folder / name).write_bytes(data)
        self.check(self.library(self.folder / "imagesize_portable.c", "-DROOM=80"))

    def test_error(self) -> None:
        error = TrapError(filename="a.gif")
        self.assertIsInstance(error, ImageError)
        self.assertEqual((error.status, str(error)), (Status.TRAPPED, "a.gif: the portable library was trapped: this is a mistake in it"))
        same = pickle.loads(pickle.dumps(error))
        self.assertEqual((type(same), same.status, str(same)), (TrapError, Status.TRAPPED, str(error)))
