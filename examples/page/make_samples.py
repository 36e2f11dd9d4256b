#!/usr/bin/env python3
"""Writes the sample images of the page: examples/page/make_samples.py [--check]

Each has the structure of a real file and no real pixels. --check compares the files with what would be written.
"""

import pathlib
import struct
import sys

FOLDER = pathlib.Path(__file__).resolve().parent / "samples"


def filler(length):
    """Bytes instead of pixels."""
    return bytes((at * 7 + at // 251) % 255 for at in range(length))


def segment(marker, content):
    """A JPEG segment with its length."""
    return b"\xff" + bytes([marker]) + struct.pack(">H", len(content) + 2) + content


def jpeg():
    """A JPEG with the segments of a camera before its frame."""
    exif = segment(0xE1, b"Exif\0\0" + filler(9000))
    preview = segment(0xE2, b"MPF\0" + filler(24000))
    frame = segment(0xC0, struct.pack(">BHHB", 8, 1080, 1920, 3) + bytes.fromhex("012200021101031101"))
    tables = segment(0xDB, b"\0" + filler(64)) + segment(0xC4, filler(420))
    scan = segment(0xDA, bytes.fromhex("03010002110311003f00"))
    return b"\xff\xd8" + segment(0xE0, b"JFIF\0\1\1\0\0\1\0\1\0\0") + exif + preview + tables + frame + scan + filler(60000) + b"\xff\xd9"


def box(name, content):
    """A box of ISO 14496-12."""
    return struct.pack(">I", len(content) + 8) + name + content


def avif():
    """An AVIF whose properties come after its list of items."""
    extents = box(b"ispe", struct.pack(">III", 0, 1920, 1080))
    properties = box(b"ipco", box(b"pixi", bytes.fromhex("0000000003080808")) + box(b"av1C", b"\x81\x04\x0c\0") + extents)
    items = box(b"hdlr", b"\0" * 8 + b"pict" + b"\0" * 13) + box(b"pitm", b"\0\0\0\0\0\1") + box(b"iloc", filler(40)) + box(b"iinf", filler(60))
    meta = box(b"meta", b"\0\0\0\0" + items + box(b"iprp", properties + box(b"ipma", filler(20))))
    return box(b"ftyp", b"avif\0\0\0\0avifmif1miaf") + meta + box(b"mdat", filler(40000))


def tiff():
    """A TIFF with its directory after its pixels."""
    pixels = filler(120000)
    entries = [(0x100, 3, 1, 1600), (0x101, 3, 1, 1200), (0x102, 3, 1, 8), (0x103, 3, 1, 1), (0x106, 3, 1, 1), (0x111, 4, 1, 8)]
    directory = struct.pack("<H", len(entries)) + b"".join(struct.pack("<HHII", *entry) for entry in entries) + b"\0\0\0\0"
    return b"II*\0" + struct.pack("<I", 8 + len(pixels)) + pixels + directory


def dds():
    """A texture in BC7."""
    head = struct.pack("<4sIIIIIII", b"DDS ", 124, 0x81007, 512, 1024, 524288, 0, 1).ljust(76, b"\0")
    head += struct.pack("<II4sIIIII", 32, 4, b"DX10", 0, 0, 0, 0, 0) + struct.pack("<IIIII", 0x1000, 0, 0, 0, 0)
    return head + struct.pack("<IIIII", 98, 3, 0, 1, 0) + filler(40000)


def exr():
    """An OpenEXR with the attributes of a renderer."""
    def attribute(name, kind, content):
        return name + b"\0" + kind + b"\0" + struct.pack("<I", len(content)) + content

    window = struct.pack("<iiii", 0, 0, 2047, 857)
    header = attribute(b"channels", b"chlist", filler(73)) + attribute(b"comments", b"string", filler(900)) + attribute(b"compression", b"compression", b"\3")
    header += attribute(b"dataWindow", b"box2i", window) + attribute(b"displayWindow", b"box2i", window) + b"\0"
    return b"\x76\x2f\x31\x01\2\0\0\0" + header + filler(40000)


SAMPLES = {
    "segments.jpg": jpeg,
    "photo.avif": avif,
    "end.tif": tiff,
    "texture.dds": dds,
    "render.exr": exr,
    "cut.jpg": lambda: jpeg()[:20000],
}


def main():
    if sys.argv[1:] == ["--check"]:
        wrong = [name for name, make in SAMPLES.items() if (FOLDER / name).read_bytes() != make()]
        return f"other bytes: {' '.join(wrong)}" if wrong else 0
    FOLDER.mkdir(exist_ok=True)
    for name, make in SAMPLES.items():
        (FOLDER / name).write_bytes(make())
    return 0


if __name__ == "__main__":
    sys.exit(main())
