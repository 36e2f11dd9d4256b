"""PNM: words and comments."""

from reading import Refused
from texts import WHITE_SPACE, number_of, raw_line, word


def size(image):
    """The first word that is no comment, and the word after it."""
    offset = 2
    while True:
        text, end, offset = word(image, offset, "word")
        if text.lstrip(WHITE_SPACE).startswith("#"):
            if end != b"\n":
                offset += len(raw_line(image, offset, 1024, b"\n", "rest of a comment"))
        elif text.strip(WHITE_SPACE):
            break
    height, _, _ = word(image, offset, "height")
    sides = number_of(text), number_of(height.strip(WHITE_SPACE))
    if None in sides:
        raise Refused("PnmDimensionsNotFound")
    return sides
