"""HDR: lines up to the resolution."""

from reading import Refused
from texts import line, number_of, words_of


def size(image):
    """The second and fourth word of the first line that begins with an axis."""
    text, offset = line(image, 0, 11, b"\n", "identifier")
    if not text.startswith(("#?RADIANCE", "#?RGBE")):
        raise Refused("InvalidHdrIdentifier")
    while not text.startswith(("-Y", "+Y", "-X", "+X")):
        text, offset = line(image, offset, 256, b"\n", "line")
    words = words_of(text)
    if len(words) != 4:
        raise Refused("InvalidHdrDimensionsLine")
    sides = number_of(words[3]), number_of(words[1])
    if None in sides:
        raise Refused("HdrDimensionsNotFound")
    return sides
