"""Prints the results of the layouts for files, read by read.

    python3 tests/model FILE..
"""

import sys

from model import probe

for name in sys.argv[1:]:
    with open(name, "rb") as file:
        found = probe(file.read())
    print(f"{name}: {found.line()}")
    for text in found.trace:
        print(f"    {text}")
