"""ILBM: chunks up to the bitmap header."""

from reading import Refused


def size(image):
    """Width and height of the first BMHD."""
    offset = 12
    while True:
        head = image.exactly(offset, 8, "name and length of a chunk")
        if head[:4] == b"BMHD":
            width = image.big(offset + 8, 2, "width")
            return width, image.big(offset + 10, 2, "height")
        if head[:4] == b"BODY":
            raise Refused("CorruptedImage")
        length = int.from_bytes(head[4:], "big")
        offset += 8 + length + length % 2
