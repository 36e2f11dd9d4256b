"""A server for forms with images, as browsers and `curl -F` send them. It refuses an image of too many pixels before it has come.

    python3 form.py [--port PORT] [--pixels PIXELS]

    $ curl -F image=@photo.jpg http://127.0.0.1:8000/
    image: Jpeg 640x480

The body is multipart/form-data. python-multipart separates its parts: `pip install python-multipart`, or Debian's package
python3-multipart. A part with a file name is an image; others are passed over. The statuses are those of upload.py, and 400 is also
for a body that is no form, or has no file.
"""

from __future__ import annotations

import pathlib
import sys
from typing import Dict, List, Optional

HERE = pathlib.Path(__file__).resolve().parent
sys.path[:0] = [str(HERE), str(HERE.parent / "bindings" / "python")]

try:
    from python_multipart.multipart import MultipartParser, parse_options_header
except ImportError:  # before version 0.0.13
    from multipart.multipart import MultipartParser, parse_options_header

from imagesize_proved import ImageError, StreamProbe  # noqa: E402
from upload import CHUNK, Refused, Upload, main  # noqa: E402


class Part:
    """A part of a form: its headers, and the probe of its image if it is a file."""

    def __init__(self) -> None:
        self.headers: Dict[str, str] = {}
        self.field = self.value = b""
        self.stream: Optional[StreamProbe] = None

    def end_header(self) -> None:
        self.headers[self.field.decode("latin-1").lower()] = self.value.decode("latin-1")
        self.field = self.value = b""

    def end_headers(self) -> None:
        if b"filename" in self.disposition():
            self.stream = StreamProbe()

    def disposition(self) -> Dict[bytes, bytes]:
        """The parameters of Content-Disposition: name, and the file name of a file."""
        return dict(parse_options_header(self.headers.get("content-disposition", ""))[1])


class Form:
    """The parser of a form. It keeps no file: each image is probed as it comes, and `check` may refuse it by `Refused`."""

    def __init__(self, upload: Upload) -> None:
        kind, options = parse_options_header(upload.headers.get("Content-Type", ""))
        if kind != b"multipart/form-data" or not options.get(b"boundary"):
            raise Refused(400, "the body is no form of multipart/form-data with a boundary")
        self.upload = upload
        self.part = Part()
        self.ended = False
        self.lines: List[str] = []
        calls = {f"on_{name}": getattr(self, name) for name in ("part_begin", "header_field", "header_value", "header_end")}
        calls.update({f"on_{name}": getattr(self, name) for name in ("headers_finished", "part_data", "part_end", "end")})
        self.parser = MultipartParser(options[b"boundary"], calls)

    def write(self, chunk: bytes) -> None:
        """Passes the next bytes of the body."""
        try:
            self.parser.write(chunk)
        except ValueError as error:  # as the parser's own errors are
            raise Refused(400, f"the form is malformed: {error}") from None

    def finish(self) -> str:
        """Ends the body, and returns a line for each image."""
        if not self.ended:
            raise Refused(400, "the form is cut")
        if not self.lines:
            raise Refused(400, "the form has no file")
        return "\n".join(self.lines)

    def part_begin(self) -> None:
        self.part = Part()

    def header_field(self, data: bytes, start: int, end: int) -> None:
        self.part.field += data[start:end]

    def header_value(self, data: bytes, start: int, end: int) -> None:
        self.part.value += data[start:end]

    def header_end(self) -> None:
        self.part.end_header()

    def headers_finished(self) -> None:
        self.part.end_headers()

    def part_data(self, data: bytes, start: int, end: int) -> None:
        if self.part.stream:
            self.upload.check(self.part.stream.feed(data[start:end]))  # a server that stores the image writes the bytes here

    def part_end(self) -> None:
        if self.part.stream:
            found = self.part.stream.close()
            self.upload.check(found)
            name = self.part.disposition().get(b"name", b"").decode("utf-8", "replace")
            self.lines.append(f"{name}: {found.image_type} {found.size.width}x{found.size.height}")

    def end(self) -> None:
        self.ended = True


class FormUpload(Upload):
    """Takes images in the form of a POST."""

    def image(self) -> str:
        left = self.length()
        form = Form(self)
        try:
            while left:
                chunk = self.rfile.read1(min(CHUNK, left))
                if not chunk:
                    raise Refused(400, "the body is cut")
                left -= len(chunk)
                form.write(chunk)
        except ImageError as error:
            raise Refused(415, str(error)) from None
        return form.finish()


if __name__ == "__main__":
    main(FormUpload)
