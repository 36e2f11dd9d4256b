"""JPEG: segments up to a frame of the image itself."""

from reading import Refused

FRAMES = set(range(0xC0, 0xD0)) - {0xC4, 0xC8, 0xCC}


def size(image):
    """Width and height of the first frame at depth 0."""
    offset, depth = 2, 0
    while True:
        first, marker = image.exactly(offset, 2, f"marker at depth {depth}")
        if first != 0xFF:
            raise Refused("CorruptedImage")
        if depth == 0 and marker in FRAMES:
            height = image.big(offset + 5, 2, "number of lines")
            return image.big(offset + 7, 2, "samples of a line"), height
        if depth == 0 and marker == 0xD9:
            raise Refused("CorruptedImage")
        depth += (marker == 0xD8) - (marker == 0xD9)
        offset += 2 + image.big(offset + 2, 2, "length of the segment")
