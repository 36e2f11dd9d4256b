"""Images whose bytes come in chunks, and inputs that are read once."""

from __future__ import annotations

import io
import mmap
import os
import sys
from collections import abc
from typing import AsyncIterable, AsyncIterator, Awaitable, Callable, Iterable, Iterator, List, NoReturn, Optional, Protocol, Union

from ._library import Stream, Told
from ._parts import BLOCK, BUDGET, LONGEST, SPENT, WANTED, BytesLike, bytes_in, checked, checked_total
from ._types import ImageError, Probed, Status, probed


class ReadableFile(Protocol):
    """An open binary file that need not be able to seek."""

    def read(self, size: int, /) -> BytesLike: ...


class AsyncReadableFile(Protocol):
    """An open binary file whose `read` is a coroutine function, such as an `asyncio.StreamReader`."""

    def read(self, size: int, /) -> Awaitable[BytesLike]: ...


Chunks = Union[ReadableFile, Iterable[BytesLike]]
AsyncChunks = Union[AsyncReadableFile, AsyncIterable[BytesLike]]
Keep = Optional[List[BytesLike]]

END_OF_INPUT = Status.END_OF_INPUT

_PIECE = 1 << 16  # the bytes that are passed in one call: other threads run in between, and no more are copied

_DECOMPRESSORS = (("gzip", "GzipFile"), ("bz2", "BZ2File"), ("lzma", "LZMAFile"), ("zipfile", "ZipExtFile"))


class StreamProbe:
    """Type and size in pixels of an image whose bytes come in chunks of any length.

        >>> stream = StreamProbe()
        >>> stream.feed(b"GIF89a\\x80\\x02")
        >>> stream.feed(b"\\xe0\\x01\\0\\0").size
        Size(width=640, height=480)

    `total` is the length of the input, if it is known. Some results come earlier then, and bytes after that length are ignored.
    Raises `ValueError` if `total` is not from 0 to 2^63-1, or if `budget` is not a whole number of at least 1.

    A probe keeps less than 2 KiB of the input, and nothing that has to be closed. It cannot be copied or pickled.
    """

    __slots__ = ("_stream", "_left", "_told")

    def __init__(self, total: Optional[int] = None, *, budget: int = BUDGET) -> None:
        self._left = checked(budget)
        self._stream = Stream(LONGEST if total is None else checked_total(total))
        self._told: Optional[Told] = None

    def feed(self, chunk: BytesLike) -> Optional[Probed]:
        """Passes the next bytes. Returns type and size as soon as they depend on no later byte, and None until then.

        Raises `ImageError` as soon as it is certain that there is no type or no size: its `status` says why. It is `BUDGET_SPENT`
        if `budget` bytes came and more are needed. After a result or an error, each call returns or raises the same.
        """
        told = self._add(chunk)
        return probed(told) if told else None

    def close(self) -> Probed:
        """Ends the input. Returns or raises what `probe` does for the bytes that came, and so does each later call."""
        return probed(self._end())

    def _add(self, chunk: BytesLike) -> Optional[Told]:
        if self._told:
            return self._told
        for piece in _pieces(chunk):
            piece = piece[: self._left]
            self._left -= len(piece)
            told = self._stream.push(piece)
            if told[0] != WANTED:
                self._told = told
                return told
            if not self._left:
                self._told = SPENT
                return SPENT
        return None

    def _end(self) -> Told:
        self._told = self._told or self._stream.finish()
        return self._told

    def __reduce__(self) -> NoReturn:
        raise TypeError("a StreamProbe cannot be copied or pickled")


def _pieces(chunk: BytesLike) -> Iterator[bytes]:
    """The bytes of a chunk. Only a `bytes` object is not copied: all other bytes might change during a call."""
    if type(chunk) is bytes and len(chunk) <= _PIECE:
        yield chunk
        return
    if isinstance(chunk, (str, os.PathLike)):
        raise TypeError(f"a chunk is bytes, and not {type(chunk).__name__}: for several files, call probe with one path at a time")
    with bytes_in(chunk) as view:
        for start in range(0, len(view) or 1, _PIECE):
            yield bytes(view[start : start + _PIECE])


def is_read_once(image: object) -> bool:
    """Whether an input is chunks, a file that cannot seek, or one that seeks by decompressing what comes before.

    Raises `TypeError` for a file of text, and `ImageError` for an empty list, which has neither a path nor a chunk.
    """
    check_binary(image)
    if isinstance(image, (list, tuple)) and not image:
        raise ImageError(END_OF_INPUT, message=f"the {type(image).__name__} is empty, and has no chunk of an image")
    if hasattr(image, "read") and not isinstance(image, mmap.mmap):
        return not _seeks(image)
    try:
        memoryview(image)  # type: ignore[arg-type]
    except TypeError:
        return isinstance(image, abc.Iterable)
    return False


def check_binary(file: object) -> None:
    """Raises `TypeError` for a file of text."""
    if isinstance(file, io.TextIOBase):
        raise TypeError('an image is an open binary file, and not one of text: open it with the mode "rb"')


def _seeks(file: object) -> bool:
    for module, name in _DECOMPRESSORS:
        if isinstance(file, getattr(sys.modules.get(module), name, ())):
            return False
    seekable = getattr(file, "seekable", None)
    return bool(seekable()) if seekable else hasattr(file, "seek")


def read_once(image: Chunks, budget: int, keep: Keep = None) -> Told:
    """Type and size of the image in chunks, or in a file from its offset on. No more is read than is needed, but for its block.

    With a list `keep`, the chunks that were read are appended to it, and a generator stays open.
    """
    stream = StreamProbe(budget=budget)
    chunks = iter(_chunks(image, stream))
    try:
        for chunk in chunks:
            if keep is not None:
                keep.append(chunk)
            if stream._add(chunk):
                break
    finally:
        if keep is None and isinstance(chunks, abc.Generator):
            chunks.close()
    return stream._end()


def _chunks(image: Chunks, stream: StreamProbe) -> Iterable[BytesLike]:
    if isinstance(image, abc.Iterable) and not hasattr(image, "read"):
        return image
    read = getattr(image, "read1", None) or image.read  # read1 does not wait for a whole block
    return iter(lambda: read(min(BLOCK, stream._left)), b"")


async def read_once_async(image: AsyncChunks, total: Optional[int], budget: int, keep: Keep = None) -> Told:
    """The same of chunks that are awaited, in an input of this length if it is known."""
    stream = StreamProbe(total, budget=budget)
    chunks = _awaited_chunks(image, stream)
    try:
        async for chunk in chunks:
            if keep is not None:
                keep.append(chunk)
            if stream._add(chunk):
                break
    finally:
        if keep is None and isinstance(chunks, abc.AsyncGenerator):
            await chunks.aclose()
    return stream._end()


def _awaited_chunks(image: AsyncChunks, stream: StreamProbe) -> AsyncIterator[BytesLike]:
    if hasattr(image, "read"):
        return _blocks(image.read, stream)
    if isinstance(image, abc.AsyncIterable):
        return image.__aiter__()
    raise TypeError(f"an asynchronous image is a function, a file or chunks of bytes, and not {type(image).__name__}")


async def _blocks(read: Callable[[int], Awaitable[BytesLike]], stream: StreamProbe) -> AsyncIterator[BytesLike]:
    while chunk := await read(min(BLOCK, stream._left)):
        yield chunk
