"""Prints the type and the size of each image file that is named, or why it has none.

    python3 image.py [--spans] FILE..

It prints the same lines as image.c: "Gif 100x100", "Jpeg: failed to fill whole buffer" or "Could not decode image". With --spans
the spans that the result depends on follow, such as "  0+12" for twelve bytes from offset 0.
"""

from __future__ import annotations

import pathlib
import sys

sys.path.insert(0, str(pathlib.Path(__file__).resolve().parent.parent / "bindings" / "python"))

import imagesize_proved  # noqa: E402


def line(name: str) -> str:
    """The line about one image."""
    try:
        image_type, size = imagesize_proved.probe(name)
    except imagesize_proved.ImageError as error:
        return f"{error.image_type}: {error.text}" if error.image_type else error.text
    return f"{image_type} {size.width}x{size.height}"


def main(arguments: list[str]) -> None:
    with_spans = arguments[:1] == ["--spans"]
    for name in arguments[with_spans:]:
        print(line(name))
        if with_spans:
            for span in imagesize_proved.spans(name):
                print(f"  {span.start}+{span.len}")


if __name__ == "__main__":
    main(sys.argv[1:])
