"""A server for uploads. It refuses an image of too many pixels before the rest of it has come.

    python3 upload.py [--port PORT] [--pixels PIXELS]

    $ curl --data-binary @photo.jpg http://127.0.0.1:8000/
    Jpeg 640x480

form.py is the same for forms, as browsers and `curl -F` send them. In the installed package, both are in imagesize_proved/examples.

The status of the response is 201 for an image, which is not stored here, and 413 for one of too many pixels or bytes. It is 415 for
what has no size, 411 for a body without a length, and 400 for one that is cut. After an error the connection is closed.
"""

from __future__ import annotations

import argparse
import contextlib
import io
import pathlib
import socket
import sys
import time
from http.server import BaseHTTPRequestHandler, ThreadingHTTPServer
from typing import Any, Optional, Type

sys.path.insert(0, str(pathlib.Path(__file__).resolve().parent.parent / "bindings" / "python"))

from imagesize_proved import ImageError, Probed, StreamProbe  # noqa: E402

PIXELS = 40_000_000
BYTES = 64 << 20
CHUNK = 1 << 16
SECONDS = 10
"""A client may send nothing for at most this many seconds."""


class Refused(Exception):
    """A status of HTTP, and why it is sent."""


class Upload(BaseHTTPRequestHandler):
    """Takes an image in the body of a POST."""

    rfile: io.BufferedReader
    protocol_version = "HTTP/1.1"
    timeout = SECONDS
    pixels = PIXELS

    def do_POST(self) -> None:
        try:
            self.respond(201, self.image())
        except Refused as refused:
            self.close_connection = True
            with contextlib.suppress(OSError):  # the client may be gone
                self.respond(*refused.args)
                self.discard()

    def image(self) -> str:
        """Reads the body, and returns the type and the size of its image. Raises `Refused` as soon as it is certain."""
        left = self.length()
        stream = StreamProbe(left)
        try:
            while left:
                chunk = self.rfile.read1(min(CHUNK, left))
                if not chunk:
                    raise Refused(400, "the body is cut")
                left -= len(chunk)
                self.check(stream.feed(chunk))  # a server that stores the image writes the chunk here
            image_type, size = stream.close()
        except ImageError as error:
            raise Refused(415, str(error)) from None
        return f"{image_type} {size.width}x{size.height}"

    def check(self, found: Optional[Probed]) -> None:
        """Refuses an image of too many pixels. Its size may not be known yet."""
        if found and found.size.width * found.size.height > self.pixels:
            raise Refused(413, f"{found.size.width}x{found.size.height} are more than {self.pixels} pixels")

    def length(self) -> int:
        """The length of the body."""
        length = self.headers.get("Content-Length", "")
        if not length.isdecimal() or "Transfer-Encoding" in self.headers:
            raise Refused(411, "the body has no length")
        if int(length) > BYTES:
            raise Refused(413, f"{length} are more than {BYTES} bytes")
        return int(length)

    def respond(self, status: int, text: str) -> None:
        """Sends a response of one line."""
        body = f"{text}\n".encode()
        self.send_response(status)
        self.send_header("Content-Type", "text/plain; charset=utf-8")
        self.send_header("Content-Length", str(len(body)))
        if self.close_connection:
            self.send_header("Connection", "close")
        self.end_headers()
        self.wfile.write(body)

    def discard(self) -> None:
        """Discards what a client sends within a second. A close before that can take the response from it."""
        self.connection.shutdown(socket.SHUT_WR)
        self.connection.settimeout(1)
        end = time.monotonic() + 1
        while self.rfile.read1(CHUNK) and time.monotonic() < end:
            pass

    def log_message(self, *_: Any) -> None:
        pass


def main(handler: Type[Upload]) -> None:
    """Runs a server until it is interrupted."""
    parser = argparse.ArgumentParser(description="Takes images by POST, and refuses those of too many pixels.")
    parser.add_argument("--port", type=int, default=8000, help="the port on 127.0.0.1 (8000)")
    parser.add_argument("--pixels", type=int, default=PIXELS, help=f"the most pixels of an image ({PIXELS})")
    asked = parser.parse_args()
    handler.pixels = asked.pixels
    with ThreadingHTTPServer(("127.0.0.1", asked.port), handler) as server, contextlib.suppress(KeyboardInterrupt):
        print(f"http://127.0.0.1:{server.server_port}/", flush=True)
        server.serve_forever()


if __name__ == "__main__":
    main(Upload)
