"""An input whose reads are recorded, and the errors of a layout."""

MAX_OFFSET = 2**64 - 1


class Refused(Exception):
    """The image has no size. `args[0]` is the error's name in docs/LAYOUTS.md, and the rest is what the error carries."""


class Input:
    """The bytes of an image. Each read is one span, and one line of the trace."""

    def __init__(self, data):
        self.data = data
        self.spans = []
        self.trace = []

    def __len__(self):
        return len(self.data)

    def say(self, text):
        """Adds a line to the trace."""
        self.trace.append(text)

    def available(self, offset, length, why):
        """The bytes at an offset, or as many as the input has. The span has exactly these bytes."""
        found = self.data[offset : offset + length]
        if found:
            self.spans.append((offset, len(found)))
        shown = found[:16].hex(" ") + (" .." if len(found) > 16 else "") or "nothing"
        self.say(f"{offset}+{length}: {why}: {shown}")
        return found

    def exactly(self, offset, length, why, refusal="EndOfInput"):
        """All bytes at an offset. If the input ends within them, the image has an error."""
        found = self.available(offset, length, why)
        if len(found) < length:
            raise Refused(refusal)
        return found

    def little(self, offset, length, why):
        """An unsigned number in little endian."""
        return int.from_bytes(self.exactly(offset, length, why), "little")

    def big(self, offset, length, why):
        """An unsigned number in big endian."""
        return int.from_bytes(self.exactly(offset, length, why), "big")
