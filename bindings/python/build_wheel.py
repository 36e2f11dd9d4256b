"""Builds the wheel, an editable wheel and the sdist, for pip. It uses only the standard library, so that pip needs no network.

On Linux on x86-64 with glibc, the shared library is the native one: that in the package's folder, as in an sdist, or else that of
`examples/run build`, which is run where it has not been. Elsewhere a C compiler builds the portable library: $CC, or the one that Python
was built with, or cc, gcc or clang. With IMAGESIZE_PORTABLE=1 it is built everywhere. An sdist never has a library that was compiled so:
it has the native one, if there is one, and the sources of the portable one. Files carry the time in the environment's SOURCE_DATE_EPOCH, or
else that of 1980, so that a build can be repeated.
"""

from __future__ import annotations

import ast
import base64
import ctypes
import gzip
import hashlib
import io
import os
import pathlib
import platform as machine
import re
import shlex
import shutil
import subprocess
import sys
import sysconfig
import tarfile
import tempfile
import time
import zipfile
from typing import Any, Dict, Iterator, List, Optional, Tuple

HERE = pathlib.Path(__file__).resolve().parent
TOP = HERE.parent.parent
PACKAGE = "imagesize_proved"
LIBRARY = "libimagesize.so"
# The native library in an sdist and in the repository, and the portable one in an editable install of either. _library.py looks for them: in an
# sdist for the portable one first, which is there if an editable install takes it, and in the repository for the native one first.
PACKED = HERE / PACKAGE / LIBRARY
BUILT = TOP / "examples" / "out" / LIBRARY
COMPILED_IN_SDIST = HERE / PACKAGE / "libimagesize_portable.so"
COMPILED = TOP / "bindings" / "portable" / "out" / LIBRARY
RUNS_ON = "Linux on x86-64 processors, with glibc 2.14 or later"
EXAMPLES = ("examples/form.py", "examples/remote.py", "examples/upload.py")
# The sources of the portable library, in the folder `portable` of an sdist, or where bindings/portable/build puts them.
WASM2C = "LICENSE-wasm2c"
PORTABLE = (WASM2C, "imagesize.h", "imagesize_portable.c")
EPOCH = int(os.environ.get("SOURCE_DATE_EPOCH", "315532800"))

Files = List[Tuple[str, bytes]]
Settings = Optional[Dict[str, Any]]


def build_wheel(wheel_directory: str, config_settings: Settings = None, metadata_directory: Optional[str] = None) -> str:
    """
    Writes the wheel to a folder, and returns its name. The setting `platform` names its platform, as manylinux_2_17_x86_64. The setting
    `library` names a portable library that was built for it.
    """
    data, is_portable = fitting(config_settings)
    files = [*package(), (f"{PACKAGE}/{LIBRARY}", data)]
    return write_wheel(wheel_directory, f"py3-none-{platform(config_settings)}", files, is_portable)


def build_editable(wheel_directory: str, config_settings: Settings = None, metadata_directory: Optional[str] = None) -> str:
    """
    Writes a wheel that leads to this folder. In the repository, the native library is loaded if it is there, whatever is asked for. In an
    unpacked sdist, the library is the one that `build_wheel` packs.
    """
    is_portable = not takes_native() and not (is_repository() and native())
    if not is_portable:
        if takes_native():
            library()
        if COMPILED_IN_SDIST.exists():
            COMPILED_IN_SDIST.unlink()  # of an install before this one
    else:
        path = COMPILED if is_repository() else COMPILED_IN_SDIST
        path.parent.mkdir(parents=True, exist_ok=True)
        path.write_bytes(compiled())
    return write_wheel(wheel_directory, f"py3-none-{platform(config_settings)}", [(f"{PACKAGE}.pth", f"{HERE}\n".encode())], is_portable)


def build_sdist(sdist_directory: str, config_settings: Settings = None) -> str:
    """
    Writes the sdist to a folder, and returns its name. It has the native library in it, if this machine has it or can build it, and the
    sources of the portable one if bindings/portable/build made them.
    """
    if takes_native():
        library()
    found = native()
    stem = f"{PACKAGE}-{project()['version']}"
    parts = [("PKG-INFO", metadata(bool(portable())).encode()), ("LICENSE", licence())]
    parts += [(name, (HERE / name).read_bytes()) for name in ("README.md", "build_wheel.py", "pyproject.toml")]
    parts += [(f"portable/{name}", data) for name, data in portable()] + [(name, data) for name, data in portable() if name == WASM2C]
    parts += [(f"{PACKAGE}/{LIBRARY}", found.read_bytes())] if found else []
    packed = io.BytesIO()
    with tarfile.open(fileobj=packed, mode="w", format=tarfile.PAX_FORMAT) as sdist:
        for path, data in sorted(parts + package()):
            member = tarfile.TarInfo(f"{stem}/{path}")
            member.size, member.mtime, member.mode = len(data), EPOCH, 0o644
            sdist.addfile(member, io.BytesIO(data))
    (pathlib.Path(sdist_directory) / f"{stem}.tar.gz").write_bytes(gzip.compress(packed.getvalue(), mtime=EPOCH))
    return f"{stem}.tar.gz"


def platform(settings: Settings) -> str:
    """The platform in the wheel's tag."""
    here = sysconfig.get_platform().replace("-", "_").replace(".", "_")
    return str((settings or {}).get("platform", here))


def write_wheel(folder: str, tag: str, content: Files, is_portable: bool = False) -> str:
    """Writes a wheel with some files and its own records."""
    info = f"{PACKAGE}-{project()['version']}.dist-info"
    others = [(f"{info}/licenses/{WASM2C}", data) for name, data in portable() if name == WASM2C and is_portable]
    content = content + others + [
        (f"{info}/licenses/LICENSE", licence()),
        (f"{info}/METADATA", metadata(is_portable).encode()),
        (f"{info}/WHEEL", wheel_records(tag).encode()),
        (f"{info}/entry_points.txt", entry_points().encode()),
    ]
    lines = [f"{path},sha256={digest(data)},{len(data)}\n" for path, data in content]
    content.append((f"{info}/RECORD", "".join([*lines, f"{info}/RECORD,,\n"]).encode()))
    name = f"{PACKAGE}-{project()['version']}-{tag}.whl"
    with zipfile.ZipFile(pathlib.Path(folder) / name, "w") as wheel:
        for path, data in content:
            member = zipfile.ZipInfo(path, time.gmtime(max(EPOCH, 315532800))[:6])
            member.external_attr, member.compress_type = 0o644 << 16, zipfile.ZIP_DEFLATED
            wheel.writestr(member, data)
    return name


def wheel_records(tag: str) -> str:
    """The file WHEEL. It has a line for each tag; a platform with dots is several tags."""
    python, abi, platforms = tag.split("-")
    tags = "".join(f"Tag: {python}-{abi}-{one}\n" for one in platforms.split("."))
    return f"Wheel-Version: 1.0\nGenerator: {PACKAGE}\nRoot-Is-Purelib: false\n{tags}"


def digest(data: bytes) -> str:
    """The checksum of a file, as a wheel records it."""
    return base64.urlsafe_b64encode(hashlib.sha256(data).digest()).rstrip(b"=").decode()


def package() -> Files:
    """Each file of the package but its library, with its path."""
    sources = sorted((HERE / PACKAGE).glob("*.py")) + [HERE / PACKAGE / "py.typed"]
    files = [(f"{PACKAGE}/{source.name}", source.read_bytes()) for source in sources]
    return files + [(f"{PACKAGE}/{name}", shared(name)) for name in (*EXAMPLES, *pages())]


def pages() -> List[str]:
    """The pages that the README names, so that each name in it is a file of the package."""
    named = re.findall(r"docs/[A-Z]+\.md", (HERE / "README.md").read_text(encoding="utf-8"))
    return sorted({*named, "docs/SURPRISES.md"})


def shared(name: str) -> bytes:
    """An example or a page, which an sdist has in the package, and the repository in a folder of its own."""
    packed = HERE / PACKAGE / name
    return (packed if packed.exists() else TOP / name).read_bytes()


def fitting(settings: Settings = None) -> Tuple[bytes, bool]:
    """The shared library for the wheel's machine, and whether it is the portable one."""
    named = (settings or {}).get("library")
    if named:
        return pathlib.Path(str(named)).read_bytes(), True
    if takes_native():
        return library(), False
    return compiled(), True


def takes_native() -> bool:
    """Whether the native library runs here, and is there or can be built."""
    return is_native() and (native() is not None or is_repository())


def native() -> Optional[pathlib.Path]:
    """The file of the native library, if it is there. Outside the folder of an sdist there is none."""
    return next((path for path in (PACKED, BUILT) if path.exists() and (path == PACKED or is_repository())), None)


def is_repository() -> bool:
    """Whether this folder is that of the repository, where the native library can be built, and not an unpacked sdist."""
    return not (HERE / "PKG-INFO").exists()


def is_native() -> bool:
    """Whether the native library runs here."""
    is_x86_64 = sys.platform == "linux" and machine.machine() in ("x86_64", "AMD64") and sys.maxsize > 2**32
    return is_x86_64 and machine.libc_ver()[0] == "glibc" and os.environ.get("IMAGESIZE_PORTABLE") != "1"


def portable() -> Files:
    """The sources of the portable library, or none if they were not made."""
    packed, built = HERE / "portable", TOP / "bindings" / "portable" / "out" / "imagesize-portable"
    folder = packed if packed.exists() or not is_repository() else built
    return [(name, (folder / name).read_bytes()) for name in PORTABLE] if folder.exists() else []


def compiled() -> bytes:
    """The portable library, by the C compiler of this machine."""
    sources = portable()
    if not sources:
        raise SystemExit("imagesize-proved: no library for this machine, and no source of the portable one: bindings/portable/build makes it")
    with tempfile.TemporaryDirectory() as folder:
        for name, data in sources:
            (pathlib.Path(folder) / name).write_bytes(data)
        code = [] if sys.platform == "win32" else ["-fPIC"]
        command = [*compiler(), "-O2", *code, "-shared", "-o", LIBRARY, "imagesize_portable.c"]
        ended = subprocess.run(command, cwd=folder, stdout=subprocess.PIPE, stderr=subprocess.STDOUT)
        if ended.returncode != 0:
            raise SystemExit(f"imagesize-proved: {shlex.join(command)} failed:\n{ended.stdout.decode(errors='replace')}")
        return (pathlib.Path(folder) / LIBRARY).read_bytes()


def compiler() -> List[str]:
    """The words of the C compiler's command."""
    for command in (os.environ.get("CC"), sysconfig.get_config_var("CC"), "cc", "gcc", "clang"):
        words = shlex.split(command or "")
        if words and shutil.which(words[0]):
            return words
    raise SystemExit("imagesize-proved: no wheel fits this machine, and no C compiler was found to build it: install gcc or clang, or set CC")


def library() -> bytes:
    """The native library, which is built where it is not there. Ends the build if it does not load here."""
    if native() is None:
        subprocess.run([str(TOP / "examples" / "run"), "build"], check=True)
    path = native() or BUILT
    try:
        ctypes.CDLL(str(path))
    except OSError as error:
        here = sysconfig.get_platform()
        raise SystemExit(f"imagesize-proved: its library is for {RUNS_ON}. This machine ({here}) cannot load it: {error}\n"
                         "With IMAGESIZE_PORTABLE=1 a C compiler builds the portable library instead.")
    return path.read_bytes()


def licence() -> bytes:
    """The licence, which an sdist has beside this file."""
    own = HERE / "LICENSE"
    return (own if own.exists() else TOP / "LICENSE").read_bytes()


def table(name: str) -> Iterator[Tuple[str, Any]]:
    """The keys of a table of pyproject.toml, with their values: texts and lists of texts alone, which Python writes alike."""
    text = (HERE / "pyproject.toml").read_text(encoding="utf-8")
    (body,) = re.findall(rf"^\[{re.escape(name)}\]\n(.*?)(?=^\[|\Z)", text, re.MULTILINE | re.DOTALL)
    for key, value in re.findall(r"^([\w-]+) = (.*?)(?=^[\w-]|\Z)", body, re.MULTILINE | re.DOTALL):
        yield key, ast.literal_eval(value.strip())


def project() -> Dict[str, Any]:
    """The metadata in pyproject.toml."""
    return dict(table("project"))


def entry_points() -> str:
    """The commands that an installation makes."""
    return "[console_scripts]\n" + "".join(f"{name} = {target}\n" for name, target in table("project.scripts"))


def metadata(is_portable: bool = False) -> str:
    """What pip shows of the package. Some lines of the portable library are from wasm2c, under a licence of their own."""
    of = project()
    if is_portable:
        of.update({"license": f"{of['license']} AND Apache-2.0", "license-files": [*of["license-files"], WASM2C]})
    lines = ["Metadata-Version: 2.4", f"Name: {of['name']}", f"Version: {of['version']}", f"Summary: {of['description']}"]
    lines += [f"License-Expression: {of['license']}", *(f"License-File: {name}" for name in of["license-files"])]
    lines += [f"Keywords: {','.join(of['keywords'])}", *(f"Classifier: {name}" for name in of["classifiers"])]
    lines += [f"Requires-Python: {of['requires-python']}", "Description-Content-Type: text/markdown", ""]
    return "\n".join([*lines, (HERE / of["readme"]).read_text(encoding="utf-8")])
