#!/usr/bin/python3
"""Prints the table of COMPARISON.md: which images other tools of this machine size, and how much they read.

    /usr/bin/python3 docs/compare.py

The images are of one size, by the encoders of tests/encoders that are installed. It needs Debian's packages python3-imagesize,
python3-pil and file, and the library of `examples/run build`.
"""

import ast
import io
import os
import pathlib
import re
import shlex
import subprocess
import sys
import tempfile
import time
import warnings

TOP = pathlib.Path(__file__).resolve().parent.parent
SIZE = (160, 120)


class Counted(io.BytesIO):
    """A file that counts the bytes that are read from it."""

    count = 0

    def read(self, *size):
        data = super().read(*size)
        self.count += len(data)
        return data

    def readinto(self, buffer):
        count = super().readinto(buffer)
        self.count += count
        return count


def by_imagesize(file, path):
    import imagesize
    size = imagesize.get(file)
    return None if size == (-1, -1) else size


def by_pillow(file, path):
    from PIL import Image
    with Image.open(file) as image:
        return image.size


def by_file(file, path):
    text = subprocess.run(["file", "--brief", str(path)], capture_output=True, text=True, check=True).stdout
    sizes = [(int(width), int(height)) for width, height in re.findall(r"(\d+) ?x ?(\d+)", text)]
    return sizes or None


def by_this(file, path):
    sys.path.insert(0, str(TOP / "bindings" / "python"))
    os.environ.setdefault("IMAGESIZE_LIBRARY", str(TOP / "examples" / "out" / "libimagesize.so"))
    import imagesize_proved
    size = imagesize_proved.size(file)
    return size.width, size.height


TOOLS = {"this library": by_this, "python3-imagesize": by_imagesize, "Pillow": by_pillow, "file": by_file}


def files(folder):
    """The name and the path of an image of each encoder of tests/encoders that is here."""
    tree = ast.parse((TOP / "tests" / "encoders").read_text())
    table = next(node.value for node in tree.body if isinstance(node, ast.Assign) and node.targets[0].id == "RIGHT")
    source = folder / "source.ppm"
    width, height = SIZE
    row = bytes(at * 7 % 251 for at in range(3 * width))
    source.write_bytes(b"P6\n%d %d\n255\n" % SIZE + row * height)
    for at, (name, _, _, command) in enumerate(ast.literal_eval(table)):
        path = folder / f"image{at}"
        command = command.replace("IN", str(source)).replace("OUT", str(path))
        if subprocess.run(shlex.split(command), capture_output=True).returncode == 0 and path.exists() and path.stat().st_size:
            yield name, path


def asked(tool, path):
    """What a tool says, the bytes that it read of a file object, and the seconds that it took."""
    file = Counted(path.read_bytes())
    start = time.perf_counter()
    try:
        with warnings.catch_warnings():
            warnings.simplefilter("ignore")
            size = TOOLS[tool](file, path)
    except Exception as error:  # what a tool raises is what is compared
        size = error
    return size, file.count, time.perf_counter() - start


def main():
    with tempfile.TemporaryDirectory() as name:
        folder = pathlib.Path(name)
        images = list(files(folder))
        print(f"{len(images)} images of {SIZE[0]}x{SIZE[1]}, by the encoders of tests/encoders")
        for tool in TOOLS:
            found = {name: asked(tool, path) for name, path in images}
            right = [name for name, (size, _, _) in found.items() if size == SIZE or isinstance(size, list) and SIZE in size]
            other = [name for name, (size, _, _) in found.items() if name not in right and isinstance(size, (tuple, list))]
            print(f"{tool}: {len(right)} have this size, {len(other)} another, {len(images) - len(right) - len(other)} none; "
                  f"{max(found[name][1] for name in right)} bytes read at most")
            print(f"    another: {', '.join(other)}")
            print(f"    none: {', '.join(name for name in found if name not in right and name not in other)}")
        hostile = folder / "segments.jpg"
        hostile.write_bytes(b"\xff\xd8" + b"\xff\xe0\0\2" * (1 << 20))
        for tool in TOOLS:
            size, count, seconds = asked(tool, hostile)
            print(f"{tool}, a JPEG of {1 << 20} empty segments and no frame: {type(size).__name__}, {seconds:.2f} s")
    return 0


if __name__ == "__main__":
    sys.exit(main())
