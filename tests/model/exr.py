"""OpenEXR: attributes up to the data window."""

from reading import Refused
from texts import line


def size(image):
    """The first data window that is not reversed."""
    most = 256 if image.little(4, 4, "version field") >> 10 & 1 else 32
    offset = 8
    while True:
        name, offset = line(image, offset, most, b"\0", "name of an attribute")
        if not name:
            raise Refused("DataWindowNotFound")
        kind, offset = line(image, offset, most, b"\0", "type of an attribute")
        length = image.little(offset, 4, "size of an attribute")
        offset += 4
        if (name, kind) == ("dataWindow", "box2i"):
            window = image.exactly(offset, 16, "xMin, yMin, xMax, yMax")
            x_min, y_min, x_max, y_max = (int.from_bytes(window[at : at + 4], "little", signed=True) for at in (0, 4, 8, 12))
            if x_min <= x_max and y_min <= y_max:
                return x_max - x_min + 1, y_max - y_min + 1
            length = 16
        offset += length
