"""The type of an image and its width and height in pixels, from a few bytes, with no pixel decoded.

The calls are those of the library that is proved, `include/imagesize.h`, as Python has them:

    >>> import imagesize_proved
    >>> imagesize_proved.probe("photo.gif").size
    Size(width=640, height=480)

An image is bytes, a path, an open binary file, or an iterable of chunks. `probe_with` and `probe_async` take a function that gives
some of its bytes. A `StreamProbe` is fed with chunks as they come.
`python -m imagesize_proved PATH..` prints type and size of files.
"""

from ._calls import image_type, probe, probe_async, probe_with, size, spans
from ._library import is_portable
from ._stream import StreamProbe
from ._types import (
    Compression,
    Family,
    ImageError,
    ImageType,
    Kind,
    Probed,
    Size,
    Span,
    Status,
    TrapError,
    status_text,
)

__version__ = "0.15.0"

__all__ = [
    "Compression",
    "Family",
    "ImageError",
    "ImageType",
    "Kind",
    "Probed",
    "Size",
    "Span",
    "Status",
    "StreamProbe",
    "TrapError",
    "__version__",
    "image_type",
    "is_portable",
    "probe",
    "probe_async",
    "probe_with",
    "size",
    "spans",
    "status_text",
]
