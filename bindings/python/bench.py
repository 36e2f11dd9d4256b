"""Microseconds and bytes read a file: `probe` beside Debian's python3-pil and python3-imagesize, in one run. Of the package and of
PIL there is also a row for a file that is read in chunks of 4096 bytes, as a stream is.

    /usr/bin/python3 bench.py [FOLDER_OF_IMAGES]

It takes the JPEG and TGA files in the archives of Debian's openarena-data where it is installed, and those of the folder. A file
counts for a type where all that read the type find its size. Each tool takes all files of a type in turn, and the fastest
of many such turns counts. The bytes are those that strace sees, where the machine has it.
"""

from __future__ import annotations

import collections
import pathlib
import re
import shutil
import subprocess
import sys
import tempfile
import time
import zipfile
from typing import Any, Callable, Dict, List, Optional, Tuple

HERE = pathlib.Path(__file__).resolve().parent
ARCHIVES = pathlib.Path("/usr/share/games/openarena/baseoa")
TURNS = 30
CHUNK = 4096

Finder = Callable[[str], Tuple[int, int]]


def finders() -> Dict[str, Finder]:
    """The tools, each a call that finds the size of the image at a path. The package's folder comes after Debian's."""
    import imagesize  # type: ignore[import]
    from PIL import Image, ImageFile  # type: ignore[import]

    sys.path.append(str(HERE))
    import imagesize_proved

    def by_pil(path: str) -> Any:
        with Image.open(path) as image:
            return image.size

    def by_parser(path: str) -> Any:
        parser = ImageFile.Parser()
        with open(path, "rb", buffering=0) as file:
            for chunk in iter(lambda: file.read(CHUNK), b""):
                parser.feed(chunk)
                if parser.image:
                    return parser.image.size
        return parser.close().size

    def by_chunks(path: str) -> Any:
        with open(path, "rb", buffering=0) as file:
            return imagesize_proved.probe(iter(lambda: file.read(CHUNK), b"")).size

    Image.init()
    return {"imagesize_proved": lambda path: imagesize_proved.probe(path).size, "imagesize": imagesize.get, "PIL": by_pil,
            "imagesize_proved in chunks": by_chunks, "PIL in chunks": by_parser}


def size_by(find: Finder, path: str) -> Optional[Tuple[int, int]]:
    """The size that a tool finds."""
    try:
        size = tuple(find(path))
    except Exception:  # each tool has errors of its own
        return None
    return None if size == (-1, -1) else size  # type: ignore[return-value]


def unpacked(folder: pathlib.Path) -> List[str]:
    """The JPEG and TGA files of the archives, unpacked, and those of the folder."""
    for archive in sorted(ARCHIVES.glob("*.pk3")):
        with zipfile.ZipFile(archive) as packed:
            for name in packed.namelist():
                if name.lower().endswith((".jpg", ".jpeg", ".tga")):
                    (folder / f"{archive.stem}-{name.replace('/', '-')}").write_bytes(packed.read(name))
    given = [path for name in sys.argv[1:2] for path in pathlib.Path(name).iterdir()]
    return sorted(map(str, [*folder.iterdir(), *given]))


def by_type(paths: List[str]) -> Dict[str, List[str]]:
    """The files of each type."""
    import imagesize_proved

    types = collections.defaultdict(list)
    for path in paths:
        try:
            types[imagesize_proved.image_type(path).name].append(path)
        except imagesize_proved.ImageError:
            pass
    return dict(sorted(types.items()))


def microseconds(find: Finder, paths: List[str]) -> float:
    """The time of a turn over some files, a file."""
    start = time.perf_counter()
    for path in paths:
        find(path)
    return (time.perf_counter() - start) / len(paths) * 1e6


def bytes_read(tool: str, paths: List[str]) -> Optional[int]:
    """The bytes of the files that a tool reads, as strace sees it."""
    if shutil.which("strace") is None:
        return None
    with tempfile.NamedTemporaryFile("r") as log:
        command = ["strace", "-f", "-y", "-e", "trace=read,pread64", "-o", log.name, sys.executable, __file__, "--only", tool]
        subprocess.run(command, input="\n".join(paths), text=True, check=True)
        calls = re.findall(r"p?read(?:64)?\(\d+<([^>]*)>.* = (\d+)$", log.read(), re.MULTILINE)
    return sum(int(count) for path, count in calls if path in set(paths))


def compare(name: str, paths: List[str], tools: Dict[str, Finder]) -> None:
    """Prints a line for a type."""
    readers = {tool: find for tool, find in tools.items() if any(size_by(find, path) for path in paths)}
    common = [path for path in paths if len({size_by(find, path) for find in readers.values()} - {None}) == 1]
    common = [path for path in common if all(size_by(find, path) for find in readers.values())]
    if not common or len(readers) == 1:
        return
    best = dict.fromkeys(readers, float("inf"))
    for _ in range(max(TURNS, 3000 // len(common))):
        for tool, find in readers.items():
            best[tool] = min(best[tool], microseconds(find, common))
    said = [f"{tool} {best[tool]:.1f} us, {(bytes_read(tool, common) or 0) // len(common)} bytes" for tool in readers]
    print(f"{name}: {len(common)} of {len(paths)} files; " + "; ".join(said), flush=True)


def main() -> None:
    tools = finders()
    if sys.argv[1:2] == ["--only"]:
        for path in sys.stdin.read().splitlines():
            size_by(tools[sys.argv[2]], path)
        return
    with tempfile.TemporaryDirectory() as folder:
        for name, paths in by_type(unpacked(pathlib.Path(folder))).items():
            compare(name, paths, tools)


if __name__ == "__main__":
    main()
