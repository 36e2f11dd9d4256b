"""What the calls return: types of images, sizes, spans, and errors."""

from __future__ import annotations

import functools
import os
from enum import IntEnum
from typing import Any, Dict, NamedTuple, Optional, Tuple

from ._library import PNG as _PNG, TRAPPED as _TRAPPED, Told, number, text


class Status(IntEnum):
    """What a call of the library returns: `ANSWERED`, or an error. The numbers are the same as in `imagesize.h`.

    `TRAPPED` is of the portable library alone: see `TrapError`.
    """

    # by bindings/lists.py: statuses
    ANSWERED = 0
    NOT_SUPPORTED = 1
    CORRUPTED_IMAGE = 2
    FAULT = 3
    END_OF_INPUT = 4
    NOT_ENOUGH_DATA = 5
    BUDGET_SPENT = 6
    OUT_OF_MEMORY = 7
    NO_DELIMITER = 8
    NOT_UTF8 = 9
    INVALID_HEIF_BOX_SIZE = 10
    INVALID_JXL_BOX_SIZE = 11
    INVALID_JXL_SIGNATURE = 12
    INVALID_TIFF_HEADER = 13
    BIG_TIFF_OFFSET_SIZE = 14
    INVALID_BIG_TIFF_HEADER = 15
    INVALID_IFD_OFFSET = 16
    IFD_TYPE_FOR_STANDARD_TIFF = 17
    INVALID_IFD_TYPE = 18
    INVALID_IFD_VALUE_LENGTH = 19
    NO_DIMENSIONS_IN_IFD = 20
    INVALID_VP8_TAG = 21
    DATA_WINDOW_NOT_FOUND = 22
    INVALID_HDR_IDENTIFIER = 23
    INVALID_HDR_DIMENSIONS_LINE = 24
    HDR_DIMENSIONS_NOT_FOUND = 25
    PNM_DIMENSIONS_NOT_FOUND = 26
    BUFFER_TOO_SMALL = 27
    UNKNOWN_TYPE = 28
    UNKNOWN_STATUS = 29
    BYTES_WANTED = 30
    # end of the list
    TRAPPED = _TRAPPED


_MESSAGES: Dict[Status, str] = {
    # by bindings/lists.py: messages
    Status.NOT_SUPPORTED: "the bytes are of no known image type",
    Status.CORRUPTED_IMAGE: "the records are malformed, or end before the size",
    Status.FAULT: "the bytes cannot be read",
    Status.END_OF_INPUT: "the file ends before its size",
    Status.NOT_ENOUGH_DATA: "a HEIF property list holds no image size",
    Status.BUDGET_SPENT: "the size needs more bytes than the budget",
    Status.OUT_OF_MEMORY: "there is not enough memory",
    Status.NO_DELIMITER: "a word, a line or a name is too long",
    Status.NOT_UTF8: "a text is not UTF-8",
    Status.INVALID_HEIF_BOX_SIZE: "a HEIF box is smaller than its own header",
    Status.INVALID_JXL_BOX_SIZE: "a JPEG XL box is smaller than its own header",
    Status.INVALID_JXL_SIGNATURE: "a JPEG XL codestream does not begin with its signature",
    Status.INVALID_TIFF_HEADER: "a TIFF has no known byte order or version",
    Status.BIG_TIFF_OFFSET_SIZE: "a BigTIFF has offsets of another size than 8 bytes",
    Status.INVALID_BIG_TIFF_HEADER: "the two bytes of a BigTIFF that are always zero are not",
    Status.INVALID_IFD_OFFSET: "a TIFF's directory is at offset 0",
    Status.IFD_TYPE_FOR_STANDARD_TIFF: "a TIFF entry has a field type that only BigTIFF has",
    Status.INVALID_IFD_TYPE: "a TIFF entry has an unknown field type",
    Status.INVALID_IFD_VALUE_LENGTH: "the bytes end within a TIFF entry's value",
    Status.NO_DIMENSIONS_IN_IFD: "a TIFF directory gives no width or no height",
    Status.INVALID_VP8_TAG: "a WebP's first chunk is unknown",
    Status.DATA_WINDOW_NOT_FOUND: "an EXR header ends before a data window",
    Status.INVALID_HDR_IDENTIFIER: "an HDR does not begin with its identifier",
    Status.INVALID_HDR_DIMENSIONS_LINE: "an HDR's line of sizes does not have four words",
    Status.HDR_DIMENSIONS_NOT_FOUND: "one of the sizes in an HDR's line is not a number",
    Status.PNM_DIMENSIONS_NOT_FOUND: "the width or the height of a PNM is not a number",
    Status.BUFFER_TOO_SMALL: "there are more spans than the limit",
    # end of the list
    Status.TRAPPED: "the portable library was trapped: this is a mistake in it",
}


class Kind(IntEnum):
    """The types of images, without their compressions."""

    # by bindings/lists.py: types
    ASEPRITE = 1
    ASTC = 2
    ATC = 3
    BMP = 4
    DDS = 5
    EAC = 6
    ETC2 = 7
    EXR = 8
    FARBFELD = 9
    GIF = 10
    HDR = 11
    HEIF = 12
    ICO = 13
    ILBM = 14
    JPEG = 15
    JXL = 16
    KTX2 = 17
    PNM = 18
    PVRTC = 19
    PSD = 20
    QOI = 21
    TGA = 22
    TIFF = 23
    VTF = 24
    WEBP = 25
    # end of the list
    PNG = _PNG  # which has no number in the library


class Compression(IntEnum):
    """The compressions of textures and of HEIF. A type without one has `NO_COMPRESSION`.

    `UNKNOWN_COMPRESSION` is a compression that is none of the others.
    """

    # by bindings/lists.py: compressions
    NO_COMPRESSION = 0
    UNKNOWN_COMPRESSION = 1
    ATC_RGB = 2
    ATC_RGBA_EXPLICIT = 3
    ATC_RGBA_INTERPOLATED = 4
    DDS_BC1 = 5
    DDS_BC2 = 6
    DDS_BC3 = 7
    DDS_BC4 = 8
    DDS_BC5 = 9
    DDS_BC6H = 10
    DDS_BC7 = 11
    DDS_RGBA32 = 12
    DDS_RGB24 = 13
    HEIF_AV1 = 14
    HEIF_HEVC = 15
    HEIF_JPEG = 16
    PKM_ETC1 = 17
    PKM_ETC2 = 18
    PKM_ETC2A1 = 19
    PKM_ETC2A8 = 20
    PKM_EAC_R = 21
    PKM_EAC_RG = 22
    PKM_EAC_R_SIGNED = 23
    PKM_EAC_RG_SIGNED = 24
    PVRTC_2BPP_RGB = 25
    PVRTC_2BPP_RGBA = 26
    PVRTC_4BPP_RGB = 27
    PVRTC_4BPP_RGBA = 28
    PVR_ETC2_RGB = 29
    PVR_ETC2_RGBA = 30
    PVR_ETC2_RGB_A1 = 31
    PVR_EAC_R11 = 32
    PVR_EAC_RG11 = 33
    # end of the list


class Family(IntEnum):
    """What compressions have in common, across types."""

    # by bindings/lists.py: families
    BLOCK_COMPRESSION = 1
    ETC = 2
    EAC = 3
    PVRTC = 4
    ASTC = 5
    ATC = 6
    UNCOMPRESSED = 7
    # end of the list


_MEDIA: Dict[Kind, Tuple[Optional[str], str]] = {
    # by bindings/lists.py: media
    Kind.ASEPRITE: (None, ".aseprite"),
    Kind.ASTC: ("image/astc", ".astc"),
    Kind.ATC: (None, ".pkm"),
    Kind.BMP: ("image/bmp", ".bmp"),
    Kind.DDS: ("image/x-dds", ".dds"),
    Kind.EAC: (None, ".pkm"),
    Kind.ETC2: (None, ".pkm"),
    Kind.EXR: ("image/x-exr", ".exr"),
    Kind.FARBFELD: (None, ".ff"),
    Kind.GIF: ("image/gif", ".gif"),
    Kind.HDR: ("image/vnd.radiance", ".hdr"),
    Kind.HEIF: ("image/heif", ".heif"),
    Kind.ICO: ("image/vnd.microsoft.icon", ".ico"),
    Kind.ILBM: ("image/x-ilbm", ".iff"),
    Kind.JPEG: ("image/jpeg", ".jpg"),
    Kind.JXL: ("image/jxl", ".jxl"),
    Kind.KTX2: ("image/ktx2", ".ktx2"),
    Kind.PNM: ("image/x-portable-anymap", ".pnm"),
    Kind.PVRTC: (None, ".pvr"),
    Kind.PSD: ("image/vnd.adobe.photoshop", ".psd"),
    Kind.QOI: ("image/qoi", ".qoi"),
    Kind.TGA: ("image/x-tga", ".tga"),
    Kind.TIFF: ("image/tiff", ".tif"),
    Kind.VTF: ("image/vnd.valve.source.texture", ".vtf"),
    Kind.WEBP: ("image/webp", ".webp"),
    # end of the list
    Kind.PNG: ("image/png", ".png"),
}
_HEIF_MEDIA = {
    Compression.HEIF_AV1: ("image/avif", ".avif"),
    Compression.HEIF_HEVC: ("image/heic", ".heic"),
}


class Size(NamedTuple):
    """A width and a height, in pixels."""

    width: int
    height: int


class Span(NamedTuple):
    """A range of bytes: `len` bytes from offset `start`. Offsets count from 0."""

    start: int
    len: int


@functools.total_ordering
class ImageType:
    """A type of image, with its compression if the type has one.

    It prints as its name, with the name of its compression in parentheses, such as "Gif" or "Dds(Bc7)". Raises `ValueError` if no
    type has this compression.
    """

    __slots__ = ("kind", "compression", "__weakref__")
    __match_args__ = ("kind", "compression")

    kind: Kind
    compression: Compression

    def __init__(self, kind: Kind, compression: Compression = Compression.NO_COMPRESSION) -> None:
        object.__setattr__(self, "kind", Kind(kind))
        object.__setattr__(self, "compression", Compression(compression))
        if _name(self.kind, self.compression) is None:
            raise ValueError(f"no type is {self.kind!r} with {self.compression!r}")

    def __setattr__(self, name: str, value: object) -> None:
        raise AttributeError(f"an ImageType does not change, so {name} cannot be set")

    def __delattr__(self, name: str) -> None:
        raise AttributeError(f"an ImageType does not change, so {name} cannot be deleted")

    def __eq__(self, other: object) -> bool:
        if not isinstance(other, ImageType):
            return NotImplemented
        return self._key == other._key

    def __lt__(self, other: ImageType) -> bool:
        if not isinstance(other, ImageType):
            return NotImplemented
        return self._key < other._key

    def __hash__(self) -> int:
        return hash(self._key)

    def __repr__(self) -> str:
        return f"ImageType(kind={self.kind!r}, compression={self.compression!r})"

    def __reduce__(self) -> Tuple[Any, ...]:
        return type(self), self._key

    @property
    def _key(self) -> Tuple[Kind, Compression]:
        return self.kind, self.compression

    @property
    def name(self) -> str:
        """The name of the type."""
        return _name(self.kind, self.compression) or ""

    @property
    def compression_name(self) -> Optional[str]:
        """The name of the compression, or None if the type has none."""
        return self._text("imagesize_compression_name") or None

    @property
    def mime_type(self) -> Optional[str]:
        """The MIME type, such as "image/jpeg", or None. A HEIF with AV1 is "image/avif", and with HEVC "image/heic"."""
        return self._media[0]

    @property
    def extension(self) -> str:
        """The usual extension of a file of this type, with its dot, such as ".jpg"."""
        return self._media[1]

    @property
    def container_format(self) -> Optional[str]:
        """The name of the container, for types whose images are in one; otherwise None."""
        return self._text("imagesize_container_format") or None

    @property
    def compression_family(self) -> Optional[Family]:
        """The family of the compression, across types; None if the compression is unknown, or the type is not a texture."""
        family = self._number("imagesize_compression_family")
        return Family(family) if family else None

    @property
    def is_block_compressed(self) -> bool:
        """Whether the image is a texture in one of the block compressions BC1 to BC7."""
        return self._number("imagesize_is_block_compressed") == 1

    @property
    def is_multi_compression_container(self) -> bool:
        """Whether the container can hold textures of several compression families."""
        return self._number("imagesize_is_multi_compression_container") == 1

    @property
    def _media(self) -> Tuple[Optional[str], str]:
        return _HEIF_MEDIA.get(self.compression, _MEDIA[self.kind])

    def __str__(self) -> str:
        compression = self.compression_name
        return f"{self.name}({compression})" if compression else self.name

    # The library has no number for PNG, and is not asked.
    def _text(self, call: str) -> str:
        return "" if self.kind is Kind.PNG else _text(call, self.kind, self.compression) or ""

    def _number(self, call: str) -> int:
        return 0 if self.kind is Kind.PNG else number(call, self.kind, self.compression)


class Probed(NamedTuple):
    """The type of an image, and its size."""

    image_type: ImageType
    size: Size


class ImageError(Exception):
    """An image has no type or no size. It prints as a message for people, such as "photo.jpg: Jpeg: the file ends
    before its size".

    `status` says why, and `message` says it in words. `text` is the library's own text for the status. `image_type` is the type
    if one was found, and `filename` the path if there is one; both can be None.
    """

    def __init__(
        self, status: int, image_type: Optional[ImageType] = None, filename: Optional[str] = None, *, message: Optional[str] = None
    ) -> None:
        self.status = Status(status)
        self.image_type = image_type
        self.filename = filename
        self._message = message
        super().__init__(self.status)

    @property
    def message(self) -> str:
        """Why there is no size, in words."""
        return self._message or _MESSAGES.get(self.status) or self.text

    @property
    def text(self) -> str:
        """The library's own text for the status, such as "failed to fill whole buffer"."""
        return status_text(self.status)

    def __str__(self) -> str:
        return ": ".join(str(word) for word in (self.filename, self.image_type, self.message) if word is not None)

    def __reduce__(self) -> Tuple[Any, ...]:
        return type(self), (self.status, self.image_type, self.filename), self.__dict__


class TrapError(ImageError):
    """The portable library was trapped: its code did what WebAssembly does not allow, such as a read outside of its memory.

    This is a mistake in the library or in its compiler, and says nothing about the image. None is expected. The native library never
    raises it. The `status` is `Status.TRAPPED`.
    """

    def __init__(
        self, status: int = _TRAPPED, image_type: Optional[ImageType] = None, filename: Optional[str] = None, *, message: Optional[str] = None
    ) -> None:
        super().__init__(status, image_type, filename, message=message)


def error_of(status: int, image_type: Optional[ImageType] = None, filename: Optional[str] = None) -> ImageError:
    """The error for a status that the library returned."""
    if status == _TRAPPED:
        return TrapError(status, image_type, filename)
    return ImageError(status, image_type, filename)


def probed(told: Told, image: object = None) -> Probed:
    """A result of the library. Raises its error, with the name of the image if it has one."""
    status, (number, compression, width, height, _, _) = told
    if status:
        raise error_of(status, known_type(number, compression) if number else None, filename(image))
    return Probed(known_type(number, compression), Size(width, height))


def filename(image: object) -> Optional[str]:
    """The path of an image, or the name of an open file, if it has one."""
    name = os.fspath(image) if isinstance(image, (str, os.PathLike)) else getattr(image, "name", None)
    return name if isinstance(name, str) else None


def status_text(status: int) -> str:
    """The library's text for a status. Raises `ValueError` if no status has this number."""
    if status == _TRAPPED:  # of which the library has none
        return "The portable library was trapped"
    return _text("imagesize_status_text", Status(status)) or ""


def _name(kind: Kind, compression: Compression) -> Optional[str]:
    if kind is Kind.PNG:
        return None if compression else "Png"
    return _text("imagesize_type_name", kind, compression)


_text = functools.lru_cache(maxsize=None)(text)
known_type = functools.lru_cache(maxsize=None)(ImageType)
