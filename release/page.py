"""Opens a page of the unpacked package ./package in a browser, $CHROMIUM, with the test vectors, and reads what it found.

    python3 page.py WORKED PAGE
"""

import functools
import http.server
import json
import os
import pathlib
import re
import shutil
import subprocess
import sys
import tempfile
import threading

import lines


def main(worked, page):
    inputs = [[list(data), lines.by_numbers(lines.by_package(data, line))] for data, line in lines.rows(worked)]
    pathlib.Path("inputs.json").write_text(json.dumps(inputs))
    shutil.copy(page, "index.html")
    handler = functools.partial(http.server.SimpleHTTPRequestHandler, directory=os.getcwd())
    server = http.server.ThreadingHTTPServer(("127.0.0.1", 0), handler)
    threading.Thread(target=server.serve_forever, daemon=True).start()
    with tempfile.TemporaryDirectory() as profile:
        command = [os.environ["CHROMIUM"], "--headless", "--no-sandbox", "--disable-gpu", "--disable-dev-shm-usage", "--no-proxy-server"]
        command += [f"--user-data-dir={profile}", "--virtual-time-budget=20000", "--dump-dom"]
        seen = subprocess.run([*command, f"http://127.0.0.1:{server.server_port}/"], stdout=subprocess.PIPE, text=True, timeout=120).stdout
    (title,) = re.findall("<title>(.*)</title>", seen)
    assert title == f"{len(inputs)} inputs, 0 wrong", title
    print(f"{len(inputs)} inputs")


if __name__ == "__main__":
    main(*sys.argv[1:])
