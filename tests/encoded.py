"""The images that tests/encoders writes and tests/differential reads. Each run has a folder of its own, so that both may run at once."""

import contextlib
import fcntl
import os
import pathlib
import shutil

OUT = pathlib.Path(__file__).resolve().parent.parent / "examples" / "out"
FOLDER = OUT / "encoded"


@contextlib.contextmanager
def alone():
    """Keeps other runs from replacing or reading the images meanwhile."""
    with open(OUT / "encoded.lock", "w") as lock:
        fcntl.flock(lock, fcntl.LOCK_EX)
        yield


def replace(folder):
    """Replaces the images with those in a folder."""
    with alone():
        shutil.rmtree(FOLDER, ignore_errors=True)
        os.rename(folder, FOLDER)


def links(folder):
    """Links to the images in a folder, sorted by name. The links keep their images if these are replaced."""
    with alone():
        for path in FOLDER.glob("*"):
            os.link(path, folder / path.name)
    return sorted(folder.iterdir())
