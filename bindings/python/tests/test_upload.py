"""The example that takes uploads, and the one in docs/CHUNKS.md: what they refuse, and when."""

import asyncio
import http.client
import io
import pathlib
import re
import socket
import struct
import threading
import time
import unittest
from http.server import ThreadingHTTPServer
from typing import Any, AsyncIterator, Dict, Iterable, List, Tuple
from unittest import mock

import imagesize_proved

from . import GIF

import upload

LARGE = b"\x89PNG\r\n\x1a\n\0\0\0\rIHDR" + struct.pack(">II", 100000, 90000)
"""The first 24 bytes of a PNG of 9000 million pixels."""


class Uploads(unittest.TestCase):
    server: ThreadingHTTPServer

    @classmethod
    def setUpClass(cls) -> None:
        cls.server = ThreadingHTTPServer(("127.0.0.1", 0), upload.Upload)
        cls.server.daemon_threads = True
        threading.Thread(target=cls.server.serve_forever, daemon=True).start()

    @classmethod
    def tearDownClass(cls) -> None:
        cls.server.shutdown()
        cls.server.server_close()

    def connection(self) -> http.client.HTTPConnection:
        connection = http.client.HTTPConnection("127.0.0.1", self.server.server_port, timeout=10)
        self.addCleanup(connection.close)
        return connection

    def post(self, body: Any, **headers: str) -> Tuple[int, str]:
        connection = self.connection()
        connection.request("POST", "/", body, headers)
        response = connection.getresponse()
        return response.status, response.read().decode()

    def begin(self, length: int, front: bytes) -> socket.socket:
        """Sends the head of a request and the first bytes of its body, and nothing more."""
        client = socket.create_connection(("127.0.0.1", self.server.server_port), timeout=10)
        self.addCleanup(client.close)
        client.sendall(b"POST / HTTP/1.1\r\nHost: a\r\nContent-Length: %d\r\n\r\n" % length + front)
        return client

    def test_images(self) -> None:
        self.assertEqual(self.post(GIF), (201, "Gif 640x480\n"))
        self.assertEqual(self.post(GIF + bytes(1 << 20)), (201, "Gif 640x480\n"))

    def test_two_on_a_connection(self) -> None:
        connection = self.connection()
        for _ in range(2):
            connection.request("POST", "/", GIF + bytes(100000))
            self.assertEqual(connection.getresponse().read(), b"Gif 640x480\n")

    def test_large_image_before_its_rest(self) -> None:
        """The response comes, and the connection is closed, while the client still has nearly all of the body."""
        client = self.begin(50 << 20, LARGE)
        response = http.client.HTTPResponse(client)
        response.begin()
        self.assertEqual((response.status, response.headers["Connection"]), (413, "close"))
        self.assertEqual(response.read(), b"100000x90000 are more than 40000000 pixels\n")
        self.assertEqual(client.recv(1), b"")

    def test_large_image_that_is_sent_whole(self) -> None:
        """A client that reads the response only after it has sent all that it can gets it too."""
        client = self.begin(4 << 20, LARGE)
        client.sendall(bytes((4 << 20) - len(LARGE)))
        response = http.client.HTTPResponse(client)
        response.begin()
        self.assertEqual(response.status, 413)

    def test_bound(self) -> None:
        for pixels, status in ((640 * 480, 201), (640 * 480 - 1, 413)):
            with mock.patch.object(upload.Upload, "pixels", pixels):
                self.assertEqual(self.post(GIF)[0], status)

    def test_others(self) -> None:
        self.assertEqual(self.post(b"no image, but a text of some length"), (415, "the bytes are of no known image type\n"))
        self.assertEqual(self.post(GIF[:8]), (415, "the file ends before its size\n"))
        self.assertEqual(self.post(b""), (415, "the file ends before its size\n"))
        self.assertEqual(self.post(iter([GIF]))[0], 411)
        self.assertEqual(self.post(GIF, **{"Content-Length": "1e3"})[0], 411)
        client = self.begin((64 << 20) + 1, b"")
        self.assertIn(b" 413 ", client.recv(100))
        client = self.begin(100, GIF)
        client.shutdown(socket.SHUT_WR)
        self.assertIn(b" 400 ", client.recv(100))

    def test_client_that_sends_nothing_more(self) -> None:
        with mock.patch.object(upload.Upload, "timeout", 0.2):
            client = self.begin(100, GIF[:4])
            self.assertEqual(client.recv(100), b"")

    def test_client_that_never_ends(self) -> None:
        """What follows a refused image is discarded for a second, and no longer."""
        client = self.begin(50 << 20, LARGE)
        start = time.monotonic()
        with self.assertRaises(OSError):
            while time.monotonic() < start + 8:
                client.sendall(b"x")
                time.sleep(0.01)
        self.assertGreater(time.monotonic(), start + 0.5)


def of_page(name: str) -> Any:
    """A coroutine function in docs/CHUNKS.md."""
    text = (pathlib.Path(__file__).resolve().parents[3] / "docs" / "CHUNKS.md").read_text()
    (code,) = re.findall(rf"^```python\n([^`]*^async def {name}.*?)^```$", text, re.MULTILINE | re.DOTALL)
    names: Dict[str, Any] = {"imagesize_proved": imagesize_proved}
    exec(code, names)
    return names[name]


class Asgi(unittest.TestCase):
    """The application in docs/CHUNKS.md."""

    def respond(self, chunks: Iterable[bytes]) -> Tuple[int, int]:
        """The status that the application sends for a body, and how many chunks of it were received."""
        application = of_page("application")
        body = [*chunks]
        events = iter([{"type": "http.request", "body": chunk, "more_body": chunk is not body[-1]} for chunk in body])
        sent: List[Dict[str, Any]] = []
        received = 0

        async def receive() -> Dict[str, Any]:
            nonlocal received
            received += 1
            return next(events, {"type": "http.disconnect"})

        async def send(event: Dict[str, Any]) -> None:
            sent.append(event)

        asyncio.run(application({"type": "http"}, receive, send))
        self.assertEqual([event["type"] for event in sent], ["http.response.start", "http.response.body"])
        return sent[0]["status"], received

    def test_statuses(self) -> None:
        self.assertEqual(self.respond([GIF]), (201, 1))
        self.assertEqual(self.respond([LARGE[:10], LARGE[10:], bytes(100)]), (413, 2))
        self.assertEqual(self.respond([GIF[:8], b""]), (415, 2))
        self.assertEqual(self.respond([]), (415, 1))

    def test_store(self) -> None:
        """All of a body is stored, that is read and that is not."""
        body, file = [GIF[:7], GIF[7:], b"x" * 1000, b"y"], io.BytesIO()

        class Request:
            async def stream(self) -> AsyncIterator[bytes]:
                for chunk in body:
                    yield chunk

        asyncio.run(of_page("store")(Request(), file))
        self.assertEqual(file.getvalue(), b"".join(body))
