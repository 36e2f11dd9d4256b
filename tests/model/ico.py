"""ICO: the largest of the entries."""

from reading import Refused


def size(image):
    """The size of the entry with the greatest area. Among equals the last one counts."""
    largest = None
    for entry in range(image.little(4, 2, "count of entries")):
        sides = image.available(6 + 16 * entry, 2, "width and height of an entry")
        if len(sides) < 2:
            break
        width, height = (side or 256 for side in sides)
        if largest is None or width * height >= largest[0] * largest[1]:
            largest = width, height
    if largest is None:
        raise Refused("CorruptedImage")
    return largest
