"""The shared library, and its calls as Python has them.

It is looked for at the path in the environment's IMAGESIZE_LIBRARY, or else in this folder, where the wheel has it, or else where
`examples/run build` puts it, or else where an editable install puts the portable one. In an unpacked sdist it is looked for in this
folder alone, and first by the name that an editable install there gives to the portable one.
"""

from __future__ import annotations

import ctypes
import os
from array import array
from typing import List, Optional, Tuple, Union

Told = Tuple[int, List[int]]
"""A status, and the numbers of type and compression, width and height, and start and length of the requested span."""

_HERE = os.path.dirname(os.path.realpath(__file__))
_PACKED = os.path.join(_HERE, "libimagesize.so")
_TOP = os.path.join(_HERE, "..", "..", "..")
_BUILT = os.path.join(_TOP, "examples", "out", "libimagesize.so")
_COMPILED = os.path.join(_TOP, "bindings", "portable", "out", "libimagesize.so")
_IN_SDIST = os.path.join(_HERE, "libimagesize_portable.so"), _PACKED
_ELSEWHERE = _PACKED, _BUILT, _COMPILED

PNG = 1000
"""PNG among the numbers of types. The library has calls of its own for PNG, and no number."""

TRAPPED = 255
"""The status of a call of the portable library whose code did what WebAssembly does not allow, as in `imagesize_portable.h`."""

_WANTED = 30

_SIGNATURE = b"\x89PNG\r\n\x1a\n"
_PNG_FRONT = 24  # the size of a PNG depends on no byte after these

_State = ctypes.c_uint64 * (1280 // 8)  # imagesize_stream and imagesize_rounds of imagesize.h

_CALLS = (
    "imagesize_type",
    "imagesize_probe",
    "imagesize_parts_probe",
    "imagesize_parts_type",
    "imagesize_spans",
    "imagesize_png_parts_size",
    "imagesize_rounds_new",
    "imagesize_rounds_supply",
    "imagesize_rounds_answer",
    "imagesize_stream_new",
    "imagesize_stream_push",
    "imagesize_stream_finish",
    "imagesize_type_name",
    "imagesize_compression_name",
    "imagesize_container_format",
    "imagesize_status_text",
    "imagesize_compression_family",
    "imagesize_is_block_compressed",
    "imagesize_is_multi_compression_container",
)


def _found() -> str:
    is_sdist = os.path.exists(os.path.join(_HERE, "..", "PKG-INFO"))
    paths = _IN_SDIST if is_sdist else _ELSEWHERE
    return next(filter(os.path.exists, paths), _PACKED if is_sdist else _BUILT)


def _loaded() -> ctypes.CDLL:
    path = os.environ.get("IMAGESIZE_LIBRARY") or _found()
    try:
        library = ctypes.CDLL(path)
        for name in _CALLS:
            getattr(library, name).restype = ctypes.c_uint32
    except (OSError, AttributeError) as error:
        is_installed = path.startswith(_HERE)
        hint = "it is for another platform: install the package again, on this machine" if is_installed else "`examples/run build` builds it"
        raise ImportError(f"no library of imagesize_proved ({error}); {hint}", path=path) from error
    return library


_LIBRARY = _loaded()
_type = _LIBRARY.imagesize_type
_probe = _LIBRARY.imagesize_probe
_parts_type = _LIBRARY.imagesize_parts_type
_spans = _LIBRARY.imagesize_spans
_png = _LIBRARY.imagesize_png_parts_size
_rounds_supply = _LIBRARY.imagesize_rounds_supply
_stream_new = _LIBRARY.imagesize_stream_new
_QUICK = ctypes.PyDLL(_LIBRARY._name)  # for calls over few bytes, which are over before another thread would run
_probe_few = _QUICK.imagesize_parts_probe
_rounds_new = _QUICK.imagesize_rounds_new
_rounds_answer = _QUICK.imagesize_rounds_answer
_stream_push = _QUICK.imagesize_stream_push
_stream_finish = _QUICK.imagesize_stream_finish


def is_portable() -> bool:
    """Whether the portable library is loaded, and not the native one. The answer comes from the library itself."""
    return hasattr(_LIBRARY, "imagesize_is_portable")


class _Buffer:
    """The buffers of a call besides the bytes. They are used again, since making them takes longer than a call."""

    def __init__(self) -> None:
        self.numbers = (ctypes.c_uint64 * 6)()
        self.read = memoryview(self.numbers).cast("B").cast("Q").tolist
        self.told = [ctypes.byref(self.numbers, 8 * index) for index in range(5)]
        self.front = (ctypes.c_uint64 * 2)()
        self.length = ctypes.c_size_t.from_buffer(self.front, 8)  # a span from offset 0 is as long as its bytes
        self.total = ctypes.c_uint64()
        self.spans, self.count = ctypes.c_void_p(), ctypes.c_size_t()
        self.of_front = (self.length, self.front, ctypes.c_size_t(1), self.total, *self.told)
        self.two = (ctypes.c_uint64 * 4)()
        self.of_two = (self.length, self.two, ctypes.c_size_t(2), self.total, *self.told)
        self.of_png = (self.length, self.spans, self.count, self.total, *self.told[2:])


_BUFFERS: List[_Buffer] = []


def _buffer(length: int, total: int) -> _Buffer:
    try:
        buffer = _BUFFERS.pop()
    except IndexError:
        buffer = _Buffer()
    buffer.numbers[0] = 0
    buffer.length.value = length
    buffer.total.value = total
    return buffer


def type_of(data: bytes) -> Told:
    """The type of the image in some bytes."""
    if data.startswith(_SIGNATURE):
        return 0, [PNG, 0, 0, 0, 0, 0]
    buffer = _buffer(len(data), 0)
    told = _type(data, buffer.length, *buffer.told[:2]), buffer.read()
    _BUFFERS.append(buffer)
    return told


def type_of_parts(data: bytes, spans: List[int], total: int) -> Told:
    """The type of the image in an input of `total` bytes, some of whose spans are known, or the span that it needs too."""
    if data.startswith(_SIGNATURE):
        return 0, [PNG, 0, 0, 0, 0, 0]
    buffer, known = _buffer(len(data), total), array("Q", spans)
    start, _ = known.buffer_info()
    of_parts = buffer.length, ctypes.c_void_p(start), ctypes.c_size_t(len(spans) // 2), buffer.total
    told = _parts_type(data, *of_parts, *buffer.told[:2], buffer.told[4]), buffer.read()
    _BUFFERS.append(buffer)
    return told


def probe_whole(data: bytes) -> Told:
    """Type and size of the image in some bytes."""
    if data.startswith(_SIGNATURE):
        return _probe_png(data, array("Q", (0, len(data))), len(data))
    buffer = _buffer(len(data), 0)
    told = _probe(data, buffer.length, *buffer.told[:4]), buffer.read()
    _BUFFERS.append(buffer)
    return told


def probe_front(front: bytes, total: int) -> Told:
    """Type and size of the image in an input of `total` bytes, whose first bytes are known."""
    if front.startswith(_SIGNATURE):
        return _probe_png(front, array("Q", (0, len(front))), total)
    try:
        buffer = _BUFFERS.pop()
    except IndexError:
        buffer = _Buffer()
    buffer.numbers[0] = 0
    buffer.length.value = len(front)
    buffer.total.value = total
    told = _probe_few(front, *buffer.of_front), buffer.read()
    _BUFFERS.append(buffer)
    return told


def probe_two(front: bytes, more: bytes, start: int, total: int) -> Told:
    """Type and size of the image in an input of `total` bytes, of which the first are known, and more from an offset on.

    The input is no PNG.
    """
    buffer = _buffer(len(front) + len(more), total)
    buffer.two[:] = [0, len(front), start, len(more)]
    told = _probe_few(front + more, *buffer.of_two), buffer.read()
    _BUFFERS.append(buffer)
    return told


def _probe_png(known: bytes, spans: "array[int]", total: int) -> Told:
    """The size of a PNG, whose parts are known."""
    buffer = _buffer(len(known), total)
    buffer.spans.value, numbers = spans.buffer_info()
    buffer.count.value = numbers // 2
    status = _png(known, *buffer.of_png)
    told = buffer.read()
    told[:2] = PNG, 0
    _BUFFERS.append(buffer)
    return status, told


def png_spans(front: bytes, total: int) -> List[int]:
    """Start and length of each span that the size of a PNG depends on, from its first 24 bytes: each requested span in turn."""
    known, spans = b"", array("Q")
    status, told = _probe_png(known, spans, total)
    while status == _WANTED:
        start, length = told[4:]
        known += front[start : start + length]
        spans.extend((start, length))
        status, told = _probe_png(known, spans, total)
    _check(status)
    return list(spans)


class Rounds:
    """A probe over spans of an input of `total` bytes, which is passed those that it requests.

    The input is no PNG: its size is in the first block, so no other span is requested.
    """

    __slots__ = ("state",)

    def __init__(self, total: int) -> None:
        self.state = _State()
        _rounds_new(self.state, ctypes.c_uint64(total))

    def supply(self, start: int, data: bytes) -> None:
        """Passes the bytes from an offset on."""
        _rounds_supply(self.state, ctypes.c_uint64(start), data, ctypes.c_size_t(len(data)))

    def answer(self) -> Told:
        """Type and size of the image. The status is `BYTES_WANTED` if another span is needed."""
        buffer = _buffer(0, 0)
        told = _rounds_answer(self.state, *buffer.told), buffer.read()
        _BUFFERS.append(buffer)
        return told


class Stream:
    """A push parser for an input of `total` bytes. It looks for a PNG in the first bytes, which it keeps.

    Each call copies the state and changes the copy, so that calls of two threads share none.
    """

    __slots__ = ("total", "front", "state")

    def __init__(self, total: int) -> None:
        self.total = total
        self.front = b""
        self.state = _State()
        _stream_new(self.state, ctypes.c_uint64(total))

    def push(self, data: bytes) -> Told:
        """Passes the next bytes. The status is `BYTES_WANTED` if more are needed."""
        state, buffer = _State.from_buffer_copy(self.state), _buffer(len(data), 0)
        told = _stream_push(state, data, buffer.length, *buffer.told[:4]), buffer.read()
        self.state = state
        _BUFFERS.append(buffer)
        if len(self.front) < _PNG_FRONT:
            self.front += data[: min(_PNG_FRONT, self.total) - len(self.front)]
            if self.front.startswith(_SIGNATURE):
                return self._png(self.total)
        return told

    def finish(self) -> Told:
        """Type and size of the image in the bytes that were passed. No call before has returned them."""
        if self.front.startswith(_SIGNATURE):
            return self._png(len(self.front))
        state, buffer = _State.from_buffer_copy(self.state), _buffer(0, 0)
        told = _stream_finish(state, *buffer.told[:4]), buffer.read()
        _BUFFERS.append(buffer)
        return told

    def _png(self, total: int) -> Told:
        return _probe_png(self.front, array("Q", (0, len(self.front))), total)


def spans_of(data: Union[bytes, ctypes.c_char], length: int, limit: int) -> Tuple[int, List[int]]:
    """A status, and start and length of each span that a result depends on. More spans than `limit` are an error."""
    pointer = data if isinstance(data, bytes) else ctypes.byref(data)
    size, count = ctypes.c_size_t(length), ctypes.c_size_t()
    status = _spans(pointer, size, (ctypes.c_uint64 * 2)(), ctypes.c_size_t(), ctypes.byref(count))
    if count.value > limit:
        return status, []
    buffer = (ctypes.c_uint64 * (2 * count.value + 2))()
    status = _spans(pointer, size, buffer, count, ctypes.byref(count))
    return status, buffer[: 2 * count.value]


def text(call: str, *numbers: int) -> Optional[str]:
    """The text of a call that tells one; None where no text has these numbers."""
    told, asked, length = getattr(_LIBRARY, call), list(map(ctypes.c_uint32, numbers)), ctypes.c_size_t()
    _check(told(*asked, ctypes.create_string_buffer(1), ctypes.c_size_t(), ctypes.byref(length)))
    buffer = ctypes.create_string_buffer(length.value + 1)
    refused = told(*asked, buffer, length, ctypes.byref(length))
    return None if refused else buffer.raw[: length.value].decode("ascii")


def number(call: str, *numbers: int) -> int:
    """The number of a call that tells one."""
    told = ctypes.c_uint32()
    _check(getattr(_LIBRARY, call)(*map(ctypes.c_uint32, numbers), ctypes.byref(told)))
    return told.value


def _check(status: int) -> None:
    """Raises `TrapError` for the status of a call that was trapped. All other statuses are for the caller."""
    if status == TRAPPED:
        from ._types import TrapError

        raise TrapError
