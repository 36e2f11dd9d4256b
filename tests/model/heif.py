"""HEIF: three searches for boxes, and the properties of items."""

from reading import Refused


def size(image):
    """The size with the greatest area, turned by the last rotation."""
    meta, _ = search(image, b"meta", image.big(0, 4, "size of the first box"))
    image.exactly(meta + 8, 4, "version and flags of meta")
    iprp, _ = search(image, b"iprp", meta + 12)
    ipco, length = search(image, b"ipco", iprp + 8)
    extents, rotation = properties(image, ipco + 8, length)
    if not extents:
        raise Refused("NotEnoughData")
    width, height = max(extents, key=lambda sides: sides[0] * sides[1])
    if width * height == 0:
        width, height = 0, 0
    return (height, width) if rotation in (1, 3) else (width, height)


def search(image, wanted, offset):
    """Offset and size of the first box with this name."""
    while True:
        head = image.exactly(offset, 8, f"size and name of a box, in search of {wanted.decode()}")
        length = int.from_bytes(head[:4], "big")
        if head[4:] == wanted:
            return offset, length
        if length < 8:
            raise Refused("InvalidHeifBoxSize", length)
        offset += length


def properties(image, offset, left):
    """All sizes, and the last rotation, in the list that begins at an offset."""
    extents, rotation = [], None
    while True:
        head = image.available(offset, 8, "size and name of a property")
        if len(head) < 8:
            return extents, rotation
        length, name = int.from_bytes(head[:4], "big"), head[4:]
        if length < 8:
            if name == b"mdat":
                return extents, rotation
            raise Refused("CorruptedImage")
        if name == b"ispe":
            content = image.exactly(offset + 8, 12, "version and flags, width and height")
            extents.append((int.from_bytes(content[4:8], "big"), int.from_bytes(content[8:], "big")))
            offset += 20
        elif name == b"irot":
            rotation = image.big(offset + 8, 1, "quarters of a turn")
            offset += 9
        elif length < left:
            offset += length
            left -= length
        else:
            return extents, rotation
