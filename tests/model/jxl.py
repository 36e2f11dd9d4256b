"""JPEG XL: the first sixteen bytes of the codestream, and their bits."""

from reading import MAX_OFFSET, Refused

SIGNATURE = b"\xff\x0a"
RATIOS = {1: (1, 1), 2: (12, 10), 3: (4, 3), 4: (3, 2), 5: (16, 9), 6: (5, 4), 7: (2, 1)}


def size(image):
    """Width and height from the codestream's fields."""
    front = image.exactly(0, 2, "signature")
    stream = front + image.available(2, 14, "codestream") if front == SIGNATURE else codestream(image)
    if len(stream) < 2:
        raise Refused("CorruptedImage")
    if stream[:2] != SIGNATURE:
        raise Refused("InvalidJxlSignature")
    return sides(Bits(stream[2:]))


def codestream(image):
    """The first sixteen bytes of the codestream, from the boxes."""
    stream, offset = b"", 12
    while True:
        head, length, name = box(image, offset)
        content, room = offset + head, length - head if length else 16
        if name == b"jxlc":
            return image.available(content, min(16, room), "codestream") if room else b""
        if name == b"jxlp":
            if room < 4:
                raise Refused("EndOfInput")
            index = image.exactly(content, 4, "index of the piece")
            wanted = min(16 - len(stream), room - 4)
            if wanted:
                stream += image.available(content + 4, wanted, "piece of the codestream")
            if len(stream) == 16 or index[0] & 0x80:
                return stream
        if length == 0:
            return stream
        offset += length


def box(image, offset):
    """The length of a box's header, the size of the box and its name. A box of size 0 extends to the end."""
    read = image.exactly(offset, 8, "size and name of a box")
    head, length, name = 8, int.from_bytes(read[:4], "big"), read[4:]
    if length == 1:
        head, length = 16, image.big(offset + 8, 8, "longer size of the box")
    if offset + length > MAX_OFFSET:
        raise Refused("CorruptedImage")
    if 0 < length < head:
        raise Refused("InvalidJxlBoxSize", name, length)
    return head, length, name


class Bits:
    """Fields of bits, beginning at the lowest bit of the first byte."""

    def __init__(self, data):
        self.number, self.left = int.from_bytes(data, "little"), 8 * len(data)

    def take(self, count):
        """The next field."""
        if count > self.left:
            raise Refused("CorruptedImage")
        found = self.number & ((1 << count) - 1)
        self.number >>= count
        self.left -= count
        return found


def sides(bits):
    """Width and height, turned by the orientation."""
    small = bits.take(1)
    height = side(bits, small)
    ratio = bits.take(3)
    if ratio:
        times, parts = RATIOS[ratio]
        width = height * times // parts
    else:
        width = side(bits, small)
    all_default = bits.take(1)
    if not all_default and bits.take(1) and bits.take(3) >= 4:
        return height, width
    return width, height


def side(bits, small):
    """One side: in units of eight pixels, or as a number of 9, 13, 18 or 30 bits."""
    if small:
        return 8 * (bits.take(5) + 1)
    return bits.take((9, 13, 18, 30)[bits.take(2)]) + 1
