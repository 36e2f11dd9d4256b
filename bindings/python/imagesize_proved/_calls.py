"""The calls, over bytes, paths and open files, and over functions that fetch some bytes of an input."""

from __future__ import annotations

import ctypes
import os
import sys
from functools import partial
from typing import TYPE_CHECKING, Any, Awaitable, Callable, List, Optional, Protocol, Tuple, TypeVar, Union, overload

from ._library import PNG, Told, png_spans, probe_front, probe_two, probe_whole, spans_of, type_of
from ._parts import BLOCK, BUDGET, SPENT, WANTED, BytesLike, Parts, Stored, TypeParts, blocks, bytes_in, checked, checked_limit, first_block
from ._stream import AsyncChunks, Chunks, Keep, check_binary, is_read_once, read_once, read_once_async
from ._types import ImageType, Probed, Size, Span, Status, error_of, filename, known_type, probed

if TYPE_CHECKING:
    _Path = os.PathLike[str]
else:  # which takes no parameter before Python 3.9
    _Path = os.PathLike


class BinaryFile(Protocol):
    """An open binary file that can seek."""

    def read(self, size: int, /) -> bytes: ...

    def seek(self, offset: int, whence: int = 0, /) -> object: ...

    def tell(self) -> int: ...


Image = Union[BytesLike, str, _Path, BinaryFile]
Input = Union[Image, Chunks]

T = TypeVar("T")

LIMIT = 1 << 16
"""How many spans are returned at most, by default."""

# A pipe without a writer does not wait. Windows has no such flag, and reads a file as text unless the other one is set.
_FLAGS = (os.O_RDONLY | getattr(os, "O_NONBLOCK", 0) | getattr(os, "O_BINARY", 0),)


def probe(image: Input, *, budget: int = BUDGET, keep: Keep = None) -> Probed:
    """Type and size in pixels of the image in some bytes, at a path, in an open binary file, or in an iterable of chunks.

        >>> probe("photo.gif").size
        Size(width=640, height=480)

    Of a file the blocks of 4096 bytes are read that the result depends on, and larger ones after the eighth. An open file is read
    from its first byte on, and left at the offset where it was. Bytes have to be those of the whole file.

    Some files are read once, from their offset on, up to the block with the last byte that the result depends on. They are those
    that cannot seek, such as a pipe, and those that decompress, such as a `gzip.GzipFile`. At most 4095 bytes after that byte are
    read, and no byte is given back. Of chunks no more are fetched than are needed, and then a generator is closed. To go on with
    what follows, pass a list as `keep`: the chunks that were read are appended to it, and a generator stays open.

    Raises `ImageError` if there is no type or no size: its `status` says why. It is `BUDGET_SPENT` if more than `budget` bytes of a
    file would be read, or if `budget` bytes of what is read once have no result. Raises `ValueError` if `budget` is not a whole
    number of at least 1. A file that cannot be read raises its `OSError`, and one that becomes shorter meanwhile `EOFError`.
    """
    budget = checked(budget)
    if keep is not None:
        return probed(_kept(image, budget, keep), image)
    if type(image) is str:
        return probed(_at(image, budget, _told_in), image)
    if type(image) is bytes:
        return probed(probe_whole(image))
    return probed(_told(image, budget), image)


def size(image: Input, *, budget: int = BUDGET) -> Size:
    """The size in pixels. Takes and raises what `probe` does."""
    return probe(image, budget=budget).size


def image_type(image: Input, *, budget: int = BUDGET) -> ImageType:
    """The type, also of an image whose size is an error. Takes and raises what `probe` does.

    Only those bytes are looked at that tell the type. For most types they are the first twelve, so that of a file one block is read.
    An input that is read once is read up to its size.
    """
    budget = checked(budget)
    status, told = type_of(image) if type(image) is bytes else _type(image, budget)
    if not told[0]:
        raise error_of(status, None, filename(image))
    return known_type(told[0], told[1])


def probe_with(fetch: Callable[[int, int], BytesLike], total: int, *, budget: int = BUDGET) -> Probed:
    """Type and size of the image in an input of `total` bytes. `fetch(start, length)` returns some of them.

        >>> probe_with(lambda start, length: blob[start : start + length], len(blob))

    The call asks `fetch` for bytes within the input, mostly for blocks of 4096, and for at most `budget` in all. It raises what
    `fetch` raises. If `fetch` returns fewer bytes than requested, it raises `EOFError`; if more, `ValueError`. Other errors are
    those of `probe`.
    """
    budget = checked(budget)
    first = first_block(total, budget)
    parts = Parts(fetch(0, first) if first else b"", total, budget)
    while parts.length:
        parts.add(fetch(parts.start, parts.length))
    return probed(parts.told)


@overload
async def probe_async(read: Callable[[int, int], Awaitable[BytesLike]], length: int, *, budget: int = BUDGET) -> Probed: ...


@overload
async def probe_async(
    read: AsyncChunks, length: Optional[int] = None, *, budget: int = BUDGET, keep: Keep = None
) -> Probed: ...


async def probe_async(read: Any, length: Any = None, *, budget: int = BUDGET, keep: Keep = None) -> Probed:
    """Type and size of the image in an input of `length` bytes. The coroutine function `read(start, length)` returns some of them.

        >>> await probe_async(request.stream())

    Instead of a function it also takes an asynchronous iterable of chunks, or a file whose `read(size)` is a coroutine function,
    such as an `asyncio.StreamReader`. These are read once, as by `probe`, and their `length` may be left out. With a list `keep`
    the chunks that were read are appended to it, and an asynchronous generator stays open, so that a server can go on with the
    body. Other errors and bounds are those of `probe_with`.
    """
    budget = checked(budget)
    if not callable(read):
        return probed(await read_once_async(read, length, budget, keep))
    if keep is not None:
        raise TypeError("keep is for chunks and files: a function fetches any bytes again")
    first = first_block(length, budget)
    parts = Parts(await read(0, first) if first else b"", length, budget)
    while parts.length:
        parts.add(await read(parts.start, parts.length))
    return probed(parts.told)


def spans(image: Image, *, limit: int = LIMIT, budget: int = BUDGET) -> List[Span]:
    """The bytes that type and size depend on, a span for each reading, in their order, repeats kept.

    Every other input of this length that has the same bytes there has the same type and size, or the same error. Takes what
    `probe` does. Raises `ImageError` with `BUFFER_TOO_SMALL` where there are more than `limit` spans, and with `OUT_OF_MEMORY`
    where a file is longer than the addresses that the process may have. Raises `ValueError` if `limit` is not a whole number of at
    least 0. Else raises as `probe`, but not the errors of the image.
    """
    status, told = _spans(image, checked_limit(limit), checked(budget))
    if status:
        raise error_of(status, None, filename(image))
    return list(map(Span, told[::2], told[1::2]))


def _spans(image: Image, limit: int, budget: int) -> Tuple[int, List[int]]:
    if type(image) is bytes:
        if type_of(image)[1][0] == PNG:
            return _within(limit, png_spans(image, len(image)))
        return spans_of(image, len(image), limit)
    parts = _parts(image, budget, [])
    if parts.told[0] in (SPENT[0], Status.TRAPPED):
        return parts.told[0], []
    if not parts.total:
        return 0, []
    if parts.told[1][0] == PNG:
        return _within(limit, png_spans(parts.front, parts.total))
    filled = parts.filled()
    if filled is None:
        return Status.OUT_OF_MEMORY, []
    return spans_of(ctypes.c_char.from_buffer(filled), parts.total, limit)


def _within(limit: int, numbers: List[int]) -> Tuple[int, List[int]]:
    return (0, numbers) if len(numbers) <= 2 * limit else (Status.BUFFER_TOO_SMALL, [])


def _type(image: Input, budget: int) -> Told:
    if isinstance(image, (str, os.PathLike)):
        return _at(image, budget, lambda file, most: _type_of(TypeParts(*_front(file, most), most), partial(_pread, file)))
    if is_read_once(image):
        return read_once(image, budget)  # type: ignore[arg-type]
    try:
        view = bytes_in(image)  # type: ignore[arg-type]
    except TypeError:
        return _type_of_file(image, budget)  # type: ignore[arg-type]
    with view:
        return _type_of(TypeParts(view[:BLOCK], view.nbytes, sys.maxsize), lambda start, length: view[start : start + length])


def _type_of(parts: TypeParts, fetch: Callable[[int, int], BytesLike]) -> Told:
    while parts.length:
        parts.add(fetch(parts.start, parts.length))
    return parts.told


def _type_of_file(file: BinaryFile, budget: int) -> Told:
    def read(total: int) -> Told:
        return _type_of(TypeParts(_read(file, 0, first_block(total, budget)), total, budget), partial(_read, file))

    return _whole(file, read)


def _told(image: Input, budget: int) -> Told:
    if isinstance(image, (str, os.PathLike)):
        return _at(image, budget, _told_in)
    if is_read_once(image):
        return read_once(image, budget)  # type: ignore[arg-type]
    return _parts(image, budget).told  # type: ignore[arg-type]


def _kept(image: Input, budget: int, keep: Keep) -> Told:
    if isinstance(image, (str, os.PathLike)) or not is_read_once(image):
        raise TypeError("keep is for chunks and for files that are read once: this image can be read again")
    return read_once(image, budget, keep)  # type: ignore[arg-type]


def _parts(image: Image, budget: int, stored: Optional[Stored] = None) -> Parts:
    """The blocks of an input up to its result. They are stored where `stored` is a list."""
    if isinstance(image, (str, os.PathLike)):
        return _at(image, budget, lambda file, most: _parts_in(file, most, stored))
    try:
        view = bytes_in(image)  # type: ignore[arg-type]
    except TypeError:
        return _parts_of_file(image, budget, stored)  # type: ignore[arg-type]
    with view:
        return _parts_of_view(view, stored)


def _at(path: Union[str, _Path], budget: int, read: Callable[[int, int], T]) -> T:
    """What `read` returns of the file at a path. Whatever is raised, also by a signal handler, the file is closed."""
    opened: List[int] = []
    try:
        opened.extend(map(os.open, (path,), _FLAGS))  # one step: a signal handler runs before it or after it
        return read(opened[0], budget)
    except OSError as error:
        error.filename = os.fspath(path)
        raise
    except EOFError as error:
        raise EOFError(f"{os.fspath(path)}: {error}") from None
    finally:
        if opened:
            os.close(opened[0])


def _seek_and_read(file: int, length: int, start: int) -> bytes:
    """What `os.pread` returns, which Windows does not have."""
    os.lseek(file, start, os.SEEK_SET)
    return os.read(file, length)


_read_at: Callable[[int, int, int], bytes] = getattr(os, "pread", _seek_and_read)


def _front(file: int, budget: int) -> Tuple[bytes, int]:
    front = _read_at(file, BLOCK if budget > BLOCK else budget, 0)  # refuses a folder and a pipe
    total = os.lseek(file, 0, os.SEEK_END)
    return front if total >= BLOCK else front[:total], total


def _told_in(file: int, budget: int) -> Told:
    front, total = _front(file, budget)
    told = probe_front(front, total)
    if told[0] != WANTED:
        return told
    # Most files of more than one block take a second one, and no third.
    start, end = blocks(told, total)
    if len(front) + end - start > budget:
        return SPENT
    more = _read_at(file, end - start, start)
    second = probe_two(front, more, start, total) if len(more) == end - start else None
    if second and second[0] != WANTED:
        return second
    parts = Parts(front, total, budget, None, told)
    parts.add(more)
    return _followed(file, parts).told


def _parts_in(file: int, budget: int, stored: Optional[Stored] = None) -> Parts:
    return _followed(file, Parts(*_front(file, budget), budget, stored))


def _followed(file: int, parts: Parts) -> Parts:
    while parts.length:
        parts.add(_read_at(file, parts.length, parts.start))
    return parts


def _parts_of_file(file: BinaryFile, budget: int, stored: Optional[Stored] = None) -> Parts:
    def read(total: int) -> Parts:
        parts = Parts(_read(file, 0, first_block(total, budget)), total, budget, stored)
        while parts.length:
            parts.add(_read(file, parts.start, parts.length))
        return parts

    return _whole(file, read)


def _whole(file: BinaryFile, read: Callable[[int], T]) -> T:
    """What `read` returns for an open file of so many bytes, which is left at its offset."""
    check_binary(file)
    if not hasattr(file, "read"):
        raise TypeError(f"an image is bytes, a path or an open binary file, and not {type(file).__name__}")
    offset = file.tell()
    try:
        file.seek(0, os.SEEK_END)
        return read(file.tell())
    finally:
        file.seek(offset)


def _pread(file: int, start: int, length: int) -> bytes:
    return _read_at(file, length, start)


def _read(file: BinaryFile, start: int, length: int) -> bytes:
    file.seek(start)
    data = more = file.read(length)
    while more and len(data) < length:
        more = file.read(length - len(data))
        data += more
    return data


def _parts_of_view(view: memoryview, stored: Optional[Stored] = None) -> Parts:
    parts = Parts(view[:BLOCK], view.nbytes, sys.maxsize, stored)
    while parts.length:
        parts.add(view[parts.start : parts.start + parts.length])
    return parts
