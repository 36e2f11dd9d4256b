"""The example that fetches ranges over HTTP, from servers that give them and from servers that do not."""

import http.server
import re
import struct
import threading
import time
import unittest
from typing import Any, Tuple
from unittest import mock

from . import GIF

import remote

IMAGE = b"\xff\xd8" + (b"\xff\xe0\xff\xff" + bytes(65533)) * 3 + b"\xff\xc0\0\x11\x08\0\x05\0\x07" + bytes(3000)
"""A JPEG of 7x5 with 196,611 bytes before its frame."""


class Server(http.server.BaseHTTPRequestHandler):
    """The first word of the path says what is wrong with the server, and the second is the file."""

    protocol_version = "HTTP/1.1"
    count = 0

    def do_GET(self) -> None:
        _, fault, name = self.path.split("/")
        data = {"gif": GIF, "empty": b"", "text": b"no image, but a text of some length"}.get(name, IMAGE)
        first, last = map(int, re.findall(r"\d+", self.headers["Range"]))
        part = data[first : last + 1]
        Server.count += 1
        self.send_response({"whole": 200, "missing": 404}.get(fault, 206 if part else 416))
        given = first + (fault == "elsewhere")
        total = len(data) + (Server.count if fault == "grows" else 0)
        if fault != "silent":
            self.send_header("Content-Range", f"bytes {given}-{given + len(part) - 1}/{total}" if part else "bytes */0")
        self.send_header("ETag", f'"{Server.count if fault == "changes" else 1}"')
        self.send_header("Last-Modified", f"{Server.count if fault == 'modified' else 1}")
        if fault == "packed":
            self.send_header("Content-Encoding", "gzip")
        if fault == "long":
            part += bytes(1 << 20)
        self.send_header("Content-Length", str(len(part)))
        self.send_header("Connection", "close")
        self.end_headers()
        self.give(fault, part)

    def give(self, fault: str, part: bytes) -> None:
        try:
            if fault == "stalls":
                time.sleep(2)
            if fault == "drips":
                for place in range(100):
                    self.wfile.write(part[place : place + 1])
                    time.sleep(0.02)
            self.wfile.write(part[: len(part) // 2] if fault == "cut" else part)
        except OSError:
            pass

    def log_message(self, *_: Any) -> None:
        pass


class Remote(unittest.TestCase):
    server: http.server.ThreadingHTTPServer

    @classmethod
    def setUpClass(cls) -> None:
        cls.server = http.server.ThreadingHTTPServer(("127.0.0.1", 0), Server)
        cls.server.daemon_threads = True
        threading.Thread(target=cls.server.serve_forever, daemon=True).start()

    @classmethod
    def tearDownClass(cls) -> None:
        cls.server.shutdown()
        cls.server.server_close()

    def line(self, place: str) -> Tuple[bool, str]:
        url = f"http://127.0.0.1:{self.server.server_port}/{place}"
        with mock.patch("remote.SECONDS", 1 if place.startswith(("stalls", "drips")) else 20):
            sized, said = remote.line(url)
        self.assertTrue(said.startswith(url + ": "))
        return sized, said[len(url) + 2 :]

    def test_ranges(self) -> None:
        self.assertEqual(self.line("good/gif"), (True, "Gif 640x480 (1 request, 12 of 12 bytes)"))
        self.assertEqual(self.line("good/jpeg"), (True, f"Jpeg 7x5 (4 requests, 15302 of {len(IMAGE)} bytes)"))
        self.assertEqual(self.line("long/gif"), (True, "Gif 640x480 (1 request, 12 of 12 bytes)"))
        self.assertEqual(self.line("good/text"), (False, "the bytes are of no known image type (1 request, 35 of 35 bytes)"))
        self.assertEqual(self.line("good/empty"), (False, "the file ends before its size (1 request, 0 of 0 bytes)"))

    def test_faults(self) -> None:
        for fault, error in {
            "whole": "sent status 200 instead of 206",
            "missing": "HTTP Error 404",
            "silent": "does not say which range",
            "packed": "compresses it",
            "elsewhere": "sent bytes 1 to 4096",
            "cut": "cut a range: it sent 2048 of 4096",
            "changes": "changed between two ranges",
            "modified": "changed between two ranges",
            "grows": "changed between two ranges",
            "stalls": "timed out",
            "drips": "more than 1 seconds",
        }.items():
            with self.subTest(fault):
                sized, said = self.line(f"{fault}/jpeg")
                self.assertFalse(sized)
                self.assertIn(error, said)

    def test_other_urls(self) -> None:
        for url in ("file:///etc/passwd", "ftp://127.0.0.1/a", "photo.jpg", "http://127.0.0.1:1/a", "http://["):
            sized, said = remote.line(url)
            self.assertFalse(sized)
            self.assertIn("error: ", said)
