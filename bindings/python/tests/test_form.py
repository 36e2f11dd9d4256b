"""The example that takes forms: what it refuses, and when."""

import http.client
import importlib.util
import socket
import sys
import threading
import unittest
from http.server import ThreadingHTTPServer
from typing import Any, List, Tuple

from . import GIF
from .test_upload import LARGE

if not any(map(importlib.util.find_spec, ("python_multipart", "multipart"))):
    sys.path.append("/usr/lib/python3/dist-packages")  # where Debian's package python3-multipart is

try:
    import form
except ImportError:
    raise unittest.SkipTest("no python-multipart here") from None

JPEG = b"\xff\xd8" + (b"\xff\xe0\xff\xff" + bytes(65533)) * 3 + b"\xff\xc0\0\x11\x08\0\x05\0\x07" + bytes(8)
END = b"--b--\r\n"


def part(data: bytes, name: str = "image", filename: str = '; filename="a.jpg"') -> bytes:
    """A part of a form with the boundary b."""
    head = f'--b\r\nContent-Disposition: form-data; name="{name}"{filename}\r\nContent-Type: image/jpeg\r\n\r\n'
    return head.encode() + data + b"\r\n"


class Forms(unittest.TestCase):
    server: ThreadingHTTPServer

    @classmethod
    def setUpClass(cls) -> None:
        cls.server = ThreadingHTTPServer(("127.0.0.1", 0), form.FormUpload)
        cls.server.daemon_threads = True
        threading.Thread(target=cls.server.serve_forever, daemon=True).start()

    @classmethod
    def tearDownClass(cls) -> None:
        cls.server.shutdown()
        cls.server.server_close()

    def post(self, *parts: bytes, kind: str = "multipart/form-data; boundary=b", end: bytes = END) -> Tuple[int, str]:
        connection = http.client.HTTPConnection("127.0.0.1", self.server.server_port, timeout=10)
        self.addCleanup(connection.close)
        connection.request("POST", "/", b"".join(parts) + end, {"Content-Type": kind})
        response = connection.getresponse()
        return response.status, response.read().decode()

    def test_images(self) -> None:
        self.assertEqual(self.post(part(JPEG)), (201, "image: Jpeg 7x5\n"))
        title = part(b"a holiday", "title", "")
        self.assertEqual(self.post(part(GIF, "one"), title, part(JPEG, "two")), (201, "one: Gif 640x480\ntwo: Jpeg 7x5\n"))

    def test_refused(self) -> None:
        self.assertEqual(self.post(part(GIF), part(LARGE)), (413, "100000x90000 are more than 40000000 pixels\n"))
        self.assertEqual(self.post(part(b"no image, but a text of some length"))[0], 415)
        self.assertEqual(self.post(part(GIF[:8])), (415, "the file ends before its size\n"))
        self.assertEqual(self.post(part(b"a", "title", "")), (400, "the form has no file\n"))
        self.assertEqual(self.post(part(GIF), end=b""), (400, "the form is cut\n"))

    def test_no_form(self) -> None:
        for kind in ("image/gif", "multipart/form-data", "multipart/mixed; boundary=b", ""):
            self.assertEqual(self.post(part(GIF), kind=kind)[0], 400)
        status, text = self.post(b"no form")
        self.assertEqual((status, text.split(":")[0]), (400, "the form is malformed"))

    def test_large_image_before_its_rest(self) -> None:
        client = socket.create_connection(("127.0.0.1", self.server.server_port), timeout=10)
        self.addCleanup(client.close)
        head = b"POST / HTTP/1.1\r\nHost: a\r\nContent-Type: multipart/form-data; boundary=b\r\nContent-Length: 50000000\r\n\r\n"
        client.sendall(head + part(LARGE)[:-2])
        response = http.client.HTTPResponse(client)
        response.begin()
        self.assertEqual((response.status, response.headers["Connection"]), (413, "close"))

    def test_any_chunks(self) -> None:
        """The parser may be passed the bytes one by one."""
        class Unbounded:
            headers: Any = {"Content-Type": "multipart/form-data; boundary=b"}
            seen: List[Any] = []

            def check(self, found: Any) -> None:
                self.seen.append(found)

        of: Any = Unbounded()
        one = form.Form(of)
        for byte in part(GIF) + END:
            one.write(bytes([byte]))
        self.assertEqual(one.finish(), "image: Gif 640x480")
