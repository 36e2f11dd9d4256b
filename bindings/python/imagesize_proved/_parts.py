"""The blocks of an input that are fetched, one after another, until the library returns a result."""

from __future__ import annotations

import errno
import mmap
import operator
from array import array
from typing import TYPE_CHECKING, List, Optional, Tuple, Union

from ._library import Rounds, Told, probe_front, type_of_parts
from ._types import Status

if TYPE_CHECKING:
    _Array = array[int]
else:  # which takes no parameter before Python 3.12
    _Array = array

BytesLike = Union[bytes, bytearray, memoryview, mmap.mmap, _Array]

Stored = List[Tuple[int, bytes]]
"""The start and the bytes of each block that is stored."""

BLOCK = 4096
"""The bytes of a block. A requested span is fetched with the blocks around it."""

BUDGET = 64 << 20
"""The bytes that are fetched at most, where a call names no other number."""

LONGEST = (1 << 63) - 1
"""The length of the longest input."""

WANTED = int(Status.BYTES_WANTED)

SPENT: Told = (Status.BUDGET_SPENT, [0] * 6)

_SPARSE = mmap.MAP_PRIVATE | mmap.MAP_ANONYMOUS | 0x4000  # MAP_NORESERVE of Linux, which Python names since 3.13


def checked(budget: int) -> int:
    """A budget. Raises `ValueError` where it is not a whole number of at least 1."""
    if budget is BUDGET:
        return budget
    whole = _whole(budget)
    if whole < 1:
        raise ValueError(f"a budget is a whole number of bytes, at least 1, and not {budget!r}")
    return whole


def checked_limit(limit: int) -> int:
    """A limit of spans. Raises `ValueError` where it is not a whole number of at least 0."""
    whole = _whole(limit)
    if whole < 0:
        raise ValueError(f"a limit is a whole number of spans, at least 0, and not {limit!r}")
    return whole


def _whole(number: int) -> int:
    try:
        return operator.index(number)
    except TypeError:
        return -1


def checked_total(total: int) -> int:
    """The length of an input. Raises `ValueError` where no input is as long."""
    if not 0 <= total <= LONGEST:
        raise ValueError(f"an input has from 0 to 2^63-1 bytes, and not {total}")
    return total


def first_block(total: int, budget: int) -> int:
    """The bytes in the first block of an input of `total` bytes. Raises `ValueError` where no input is as long."""
    return min(checked_total(total), BLOCK, budget)


def bytes_in(data: BytesLike) -> memoryview:
    """A view of an object's bytes, one by one. It is copied where it has rows or longer items. Raises `TypeError` for no bytes."""
    view = memoryview(data)
    return view if view.ndim == 1 and view.itemsize == 1 else memoryview(bytes(view))


def blocks(told: Told, total: int) -> Tuple[int, int]:
    """Start and end of the whole blocks around the requested span."""
    start, length = told[1][4:]
    end = start + length
    end += -end % BLOCK
    return start - start % BLOCK, end if end < total else total


def exactly(data: BytesLike, start: int, length: int) -> bytes:
    """The bytes from an offset on that were requested. Raises `EOFError` if there are fewer, and `ValueError` if there are more."""
    if type(data) is not bytes:
        data = bytes(memoryview(data))
    if len(data) != length:
        error = EOFError if len(data) < length else ValueError
        raise error(f"{length} bytes from offset {start} on were wanted, and {len(data)} came")
    return data


class Parts:
    """An input of `total` bytes, whose blocks are fetched, beginning with the first one.

    The caller fetches `length` bytes from offset `start` and passes them to `add`. If `length` is 0, `told` is the final result:
    the library's, or `SPENT` if more than `budget` bytes are needed. The blocks are stored only where `stored` is a list. `told` may
    be the library's result for the first one.
    """

    __slots__ = ("total", "budget", "stored", "taken", "reads", "start", "length", "front", "rounds", "told")

    def __init__(
        self, front: BytesLike, total: int, budget: int, stored: Optional[Stored] = None, told: Optional[Told] = None
    ) -> None:
        self.total = total
        self.budget = budget
        self.stored = stored
        self.taken = self.reads = self.start = 0
        self.length = first_block(total, budget)
        self.front = self._taken(front)
        self.rounds: Optional[Rounds] = None
        self.told = told or probe_front(self.front, total)
        self._go_on()

    def add(self, data: BytesLike) -> None:
        """Adds the requested bytes. Raises `EOFError` if there are fewer, and `ValueError` if there are more."""
        data = self._taken(data)
        if self.rounds is None:  # most inputs have their result in the first block, which one call finds
            self.rounds = Rounds(self.total)
            self.rounds.supply(0, self.front)
        self.rounds.supply(self.start, data)
        self.told = self.rounds.answer()
        self._go_on()

    def filled(self) -> Optional[mmap.mmap]:
        """An input of this length that has the stored blocks, and zeros elsewhere; None where there is no memory for it.

        Memory is taken for the blocks alone.
        """
        try:
            memory = mmap.mmap(-1, self.total, _SPARSE)
        except OSError as error:
            if error.errno != errno.ENOMEM:
                raise
            return None
        for start, block in self.stored or ():
            memory[start : start + len(block)] = block
        return memory

    def _taken(self, data: BytesLike) -> bytes:
        data = exactly(data, self.start, self.length)
        if self.stored is not None:
            self.stored.append((self.start, data))
        self.taken += self.length
        self.reads += 1
        return data

    def _go_on(self) -> None:
        if self.told[0] != WANTED:
            self.length = 0
            return
        # The more blocks were read, the longer is the next one, so that a long walk takes few of them.
        self.start, end = blocks(self.told, self.total)
        if self.reads >= 8:
            end = min(max(end, self.start + (BLOCK << self.reads // 2 - 3)), self.total)
        self.length = end - self.start
        if self.taken + self.length > self.budget:
            self.told, self.length = SPENT, 0


class TypeParts:
    """The blocks of an input that tell its type, beginning with the first one. They are used as those of `Parts`."""

    __slots__ = ("total", "budget", "data", "spans", "start", "length", "told")

    def __init__(self, front: BytesLike, total: int, budget: int) -> None:
        self.total = total
        self.budget = budget
        self.data = b""
        self.spans: List[int] = []
        self.start = 0
        self.length = first_block(total, budget)
        self.add(front)

    def add(self, data: BytesLike) -> None:
        """Adds the requested bytes. Raises `EOFError` if there are fewer, and `ValueError` if there are more."""
        self.data += exactly(data, self.start, self.length)
        self.spans += self.start, self.length
        self.told = type_of_parts(self.data, self.spans, self.total)
        self.length = 0
        if self.told[0] == WANTED:
            self.start, end = blocks(self.told, self.total)
            self.length = end - self.start
        if len(self.data) + self.length > self.budget:
            self.told, self.length = SPENT, 0
