"""The package as pip installs it, with no network: from the folder, in place, and from an sdist away from the repository."""

import os
import pathlib
import re
import shlex
import shutil
import subprocess
import sys
import tarfile
import tempfile
import unittest
import unittest.mock
import zipfile

import build_wheel
import imagesize_proved
from imagesize_proved import _library

HERE = pathlib.Path(__file__).resolve().parent
SCRIPT = "import imagesize_proved as i; print(i.__file__, i.__version__, i.probe(b'GIF89a\\x80\\x02\\xe0\\x01\\0\\0').size)"


class Installing(unittest.TestCase):
    """Installs into a folder."""

    def setUp(self) -> None:
        folder = tempfile.TemporaryDirectory()
        self.addCleanup(folder.cleanup)
        self.folder = folder.name

    def pip_install(self, *arguments: str) -> None:
        """Installs into the folder."""
        try:
            import pip  # noqa: F401
        except ImportError:
            self.skipTest("no pip here")
        command = [sys.executable, "-m", "pip", "install", "--quiet", "--no-index", "--target", self.folder, *arguments]
        subprocess.run(command, check=True, stdout=subprocess.PIPE, stderr=subprocess.STDOUT)

    def said(self, command: str) -> str:
        """What a command in Python prints, which has the folder on its path as site-packages are."""
        environment = {**os.environ}
        environment.pop("IMAGESIZE_LIBRARY", None)
        script = f"import site; site.addsitedir({self.folder!r}); {command}"
        run = subprocess.run([sys.executable, "-c", script], check=True, env=environment, cwd=self.folder, stdout=subprocess.PIPE)
        return run.stdout.decode()

    def wanted(self, folder: object) -> str:
        return f"{folder}/imagesize_proved/__init__.py {imagesize_proved.__version__} Size(width=640, height=480)\n"

    def sdist_of_another_machine(self) -> pathlib.Path:
        """The folder of an unpacked sdist, whose library is for another processor."""
        with tarfile.open(pathlib.Path(self.folder) / build_wheel.build_sdist(self.folder)) as sdist:
            sdist.extractall(self.folder)
        unpacked = pathlib.Path(self.folder) / f"imagesize_proved-{imagesize_proved.__version__}"
        library = unpacked / "imagesize_proved" / "libimagesize.so"
        data = bytearray(library.read_bytes())
        data[18] = 183  # the machine of an ELF file: AArch64
        library.write_bytes(data)
        return unpacked

    def check_sdist(self) -> None:
        """The package is installed from an sdist."""
        with tempfile.TemporaryDirectory() as sources:
            name = build_wheel.build_sdist(sources)
            self.assertEqual(name, f"imagesize_proved-{imagesize_proved.__version__}.tar.gz")
            self.pip_install(str(pathlib.Path(sources) / name))
        self.assertEqual(self.said(SCRIPT), self.wanted(self.folder))


class Install(Installing):
    def test_install(self) -> None:
        self.pip_install(str(HERE.parent))
        self.assertEqual(self.said(SCRIPT), self.wanted(self.folder))
        metadata = "import importlib.metadata as m; print(m.version('imagesize-proved'), *m.metadata('imagesize-proved').get_all('Keywords'))"
        self.assertRegex(self.said(metadata), rf"^{re.escape(imagesize_proved.__version__)} image,size")
        run = subprocess.run([f"{self.folder}/bin/imagesize-proved", "/none"], env={**os.environ, "PYTHONPATH": self.folder},
                             stdout=subprocess.PIPE)
        self.assertEqual((run.returncode, run.stdout.decode().split()[-6:]), (1, "/none: No such file or directory".split()[-6:]))

    def test_editable_install(self) -> None:
        with tempfile.TemporaryDirectory() as wheels:
            name = build_wheel.build_editable(wheels)
            self.pip_install(str(pathlib.Path(wheels) / name))
        self.assertEqual(self.said(SCRIPT), self.wanted(HERE.parent))

    def test_sdist(self) -> None:
        self.check_sdist()

    def test_sdist_whose_library_does_not_load(self) -> None:
        """The build fails, and says why: a package that cannot be imported is not installed."""
        command = [sys.executable, "-c", "import build_wheel; build_wheel.build_wheel('.')"]
        run = subprocess.run(command, cwd=self.sdist_of_another_machine(), stdout=subprocess.PIPE, stderr=subprocess.PIPE, text=True)
        self.assertRegex(run.stderr, r"^imagesize-proved: its library is for Linux on x86-64 processors, with glibc 2.14 or later\. This machine "
                                     r".* cannot load it: .*\nWith IMAGESIZE_PORTABLE=1 .*\n$")
        self.assertEqual(run.returncode, 1)

    def test_sdist_on_another_machine(self) -> None:
        """There the portable library is compiled, and the one in the sdist is not used."""
        if not build_wheel.portable():
            self.skipTest("no portable library here: bindings/portable/build makes its source")
        unpacked = self.sdist_of_another_machine()
        compiler = pathlib.Path(self.folder) / "compiler.py"
        compiler.write_text("import sys; open(sys.argv[sys.argv.index('-o') + 1], 'w').write('compiled here')")
        script = "import platform; platform.machine = lambda: 'riscv64'; import build_wheel; print(build_wheel.build_wheel('.'))"
        run = subprocess.run([sys.executable, "-c", script], cwd=unpacked, env={**os.environ, "CC": f"{sys.executable} {compiler}"},
                             stdout=subprocess.PIPE, text=True, check=True)
        with zipfile.ZipFile(unpacked / run.stdout.strip()) as wheel:
            self.assertEqual(wheel.read(f"imagesize_proved/{build_wheel.LIBRARY}"), b"compiled here")
            names = wheel.namelist()
        self.assertIn(f"imagesize_proved-{imagesize_proved.__version__}.dist-info/licenses/LICENSE-wasm2c", names)
        self.assertIn("imagesize_proved/examples/upload.py", names)

    def test_examples(self) -> None:
        """The examples are in the package, and run there."""
        self.pip_install(str(HERE.parent))
        folder = pathlib.Path(self.folder) / "imagesize_proved" / "examples"
        self.assertEqual(sorted(path.name for path in folder.glob("*.py")), ["form.py", "remote.py", "upload.py"])
        environment = {**os.environ, "PYTHONPATH": self.folder}
        for module in ("upload", "remote"):
            command = [sys.executable, str(folder / f"{module}.py"), *(["--help"] if module == "upload" else [])]
            run = subprocess.run(command, env=environment, cwd=self.folder, stdout=subprocess.PIPE, stderr=subprocess.PIPE, text=True)
            self.assertEqual((run.returncode, run.stderr), (0 if module == "upload" else 2, ""))

    def test_import_loads_what_is_needed(self) -> None:
        """These modules take longer than all of the package."""
        script = "import sys; before = set(sys.modules); import imagesize_proved; print(*sorted(set(sys.modules) - before))"
        environment = {**os.environ, "PYTHONPATH": str(HERE.parent)}
        run = subprocess.run([sys.executable, "-S", "-c", script], env=environment, stdout=subprocess.PIPE, text=True, check=True)
        for module in ("argparse", "asyncio", "dataclasses", "inspect", "json", "pathlib", "tempfile", "urllib"):
            self.assertNotIn(module, run.stdout.split())

    def test_tag(self) -> None:
        name = build_wheel.build_wheel(self.folder, {"platform": "manylinux_2_17_x86_64.manylinux2014_x86_64"})
        self.assertTrue(name.endswith("-py3-none-manylinux_2_17_x86_64.manylinux2014_x86_64.whl"))
        with zipfile.ZipFile(pathlib.Path(self.folder) / name) as wheel:
            records = wheel.read(f"imagesize_proved-{imagesize_proved.__version__}.dist-info/WHEEL").decode()
        self.assertIn("Tag: py3-none-manylinux_2_17_x86_64\nTag: py3-none-manylinux2014_x86_64\n", records)

    def test_one_version(self) -> None:
        self.assertEqual(build_wheel.project()["version"], imagesize_proved.__version__)


# A library each of whose calls returns 0. It stands for either one in a build, which does not call it.
SOURCE = "".join(f"unsigned {call}(void) {{ return 0; }}\n" for call in _library._CALLS)
IS_PORTABLE = "unsigned imagesize_is_portable(void) { return 1; }\n"
COMPILER = shlex.split(os.environ.get("CC", "cc"))


class WhichLibrary(Installing):
    """Which library a package has, by what is in it, by its licences, and by what it says when it is imported."""

    def setUp(self) -> None:
        super().setUp()
        if not shutil.which(COMPILER[0]):
            self.skipTest(f"no {COMPILER[0]} here")
        if not build_wheel.is_native():
            self.skipTest("the native library does not run here")
        # The package as the repository has it, with both libraries.
        self.top = pathlib.Path(self.folder) / "repository"
        self.python = self.top / "bindings" / "python"
        shutil.copytree(HERE.parent, self.python, ignore=shutil.ignore_patterns("tests", "__pycache__", "*.so"))
        shutil.copy(build_wheel.TOP / "LICENSE", self.top)
        for name in ("docs", "examples"):
            shutil.copytree(build_wheel.TOP / name, self.top / name, ignore=shutil.ignore_patterns("out", "page"))
        self.sources = self.top / "bindings" / "portable" / "out" / "imagesize-portable"
        self.sources.mkdir(parents=True)
        (self.sources / "imagesize_portable.c").write_text(SOURCE + IS_PORTABLE)
        for name in ("imagesize.h", "LICENSE-wasm2c"):
            (self.sources / name).write_text("")
        self.native = self.top / "examples" / "out" / build_wheel.LIBRARY
        self.native.parent.mkdir()
        (self.top / "native.c").write_text(SOURCE)
        subprocess.run([*COMPILER, "-shared", "-fPIC", "-o", str(self.native), str(self.top / "native.c")], check=True)

    def built(self, what: str, folder: pathlib.Path, portable: bool = False, machine: str = "") -> pathlib.Path:
        """What a call of build_wheel writes, in a folder that has it. The machine may be another one."""
        environment = {**os.environ, "IMAGESIZE_PORTABLE": "1" if portable else "", "IMAGESIZE_LIBRARY": ""}
        other = f"import platform; platform.machine = lambda: {machine!r}; " if machine else ""
        script = f"{other}import build_wheel; print(build_wheel.{what}('.'))"
        run = subprocess.run([sys.executable, "-c", script], cwd=folder, env=environment, stdout=subprocess.PIPE, text=True)
        self.assertEqual(run.returncode, 0, what)
        return folder / run.stdout.splitlines()[-1]

    def unpacked(self, sdist: pathlib.Path) -> pathlib.Path:
        folder = pathlib.Path(tempfile.mkdtemp(dir=self.folder))
        with tarfile.open(sdist) as archive:
            archive.extractall(folder)
        return next(folder.iterdir())

    def check_wheel(self, wheel: pathlib.Path, is_portable: bool) -> None:
        """The library of a wheel, its licences, and what it says of itself."""
        folder = pathlib.Path(tempfile.mkdtemp(dir=self.folder))
        with zipfile.ZipFile(wheel) as packed:
            packed.extractall(folder)
        self.check_metadata(folder, is_portable)
        script = "import imagesize_proved as i; print(i.is_portable())"
        environment = {**os.environ, "PYTHONPATH": str(folder), "IMAGESIZE_LIBRARY": ""}
        run = subprocess.run([sys.executable, "-c", script], env=environment, cwd=folder, stdout=subprocess.PIPE, text=True)
        self.assertEqual(run.stdout, f"{is_portable}\n")

    def check_metadata(self, folder: pathlib.Path, is_portable: bool) -> None:
        (info,) = folder.glob("*.dist-info")
        self.assertEqual("Apache-2.0" in (info / "METADATA").read_text(), is_portable)
        self.assertEqual((info / "licenses" / "LICENSE-wasm2c").exists(), is_portable)

    def test_wheel(self) -> None:
        for portable in (False, True):
            self.check_wheel(self.built("build_wheel", self.python, portable), portable)

    def test_sdist(self) -> None:
        """It has the native library, whatever the one who packs it asks for, and each machine takes the right one of the two."""
        for portable in (False, True):
            sdist = self.unpacked(self.built("build_sdist", self.python, portable))
            self.assertEqual((sdist / "imagesize_proved" / build_wheel.LIBRARY).read_bytes(), self.native.read_bytes())
            self.assertIn("Apache-2.0", (sdist / "PKG-INFO").read_text())
            for asked in (False, True):
                self.check_wheel(self.built("build_wheel", sdist, asked), asked)
            self.check_wheel(self.built("build_wheel", sdist, machine="riscv64"), True)

    def test_sdist_without_the_native_library(self) -> None:
        """As a machine packs it that cannot build the native one. It has no library, and every machine compiles the portable one."""
        self.native.unlink()
        sdist = self.unpacked(self.built("build_sdist", self.python, machine="riscv64"))
        self.assertFalse((sdist / "imagesize_proved" / build_wheel.LIBRARY).exists())
        self.check_wheel(self.built("build_wheel", sdist), True)

    def check_editable(self, where: pathlib.Path, is_portable: bool, asked: bool = False, machine: str = "") -> None:
        """What an editable install of a folder says of its library, and what is loaded there."""
        wheel = self.built("build_editable", where, asked, machine)
        folder = pathlib.Path(tempfile.mkdtemp(dir=self.folder))
        with zipfile.ZipFile(wheel) as packed:
            packed.extractall(folder)
        self.check_metadata(folder, is_portable)
        script = "import imagesize_proved as i; print(i.is_portable())"
        environment = {**os.environ, "PYTHONPATH": str(where), "IMAGESIZE_LIBRARY": ""}
        run = subprocess.run([sys.executable, "-c", script], env=environment, cwd=folder, stdout=subprocess.PIPE, text=True)
        self.assertEqual(run.stdout, f"{is_portable}\n")

    def test_editable(self) -> None:
        """The library that is loaded from the repository: the native one if it is there, and else the portable one, in a folder of its own."""
        self.check_editable(self.python, False)
        self.check_editable(self.python, False, asked=True)
        self.native.unlink()
        self.check_editable(self.python, True, asked=True)
        self.assertFalse(self.native.exists())

    def test_editable_sdist(self) -> None:
        """Each install takes the library that fits, as a wheel of the sdist does, and the one before it leaves none."""
        sdist = self.unpacked(self.built("build_sdist", self.python))
        self.check_editable(sdist, False)
        self.check_editable(sdist, True, asked=True)
        self.check_wheel(self.built("build_wheel", sdist), False)
        self.check_editable(sdist, False)
        self.check_editable(sdist, True, machine="riscv64")

    def test_editable_sdist_without_the_native_library(self) -> None:
        """The portable library is compiled into its own folder, where no build takes it for the native one. Nothing around it is read or written."""
        self.native.unlink()
        sdist = self.unpacked(self.built("build_sdist", self.python, machine="riscv64"))
        self.check_editable(sdist, True)
        self.assertFalse((pathlib.Path(self.folder) / "bindings").exists())
        self.check_wheel(self.built("build_wheel", sdist), True)
        again = self.unpacked(self.built("build_sdist", sdist))
        self.assertEqual([path.name for path in again.rglob("*.so")], [])
        around = pathlib.Path(self.folder) / "examples" / "out"  # where the repository has the native library
        around.mkdir(parents=True)
        subprocess.run([*COMPILER, "-shared", "-fPIC", "-o", str(around / build_wheel.LIBRARY), str(self.top / "native.c")], check=True)
        self.check_editable(again, True)


class Portable(Installing):
    """The sdist where no wheel fits: a C compiler builds the portable library."""

    def setUp(self) -> None:
        super().setUp()
        if not build_wheel.portable():
            self.skipTest("no portable library here: bindings/portable/build makes its source")
        chosen = unittest.mock.patch.dict(os.environ, IMAGESIZE_PORTABLE="1")
        chosen.start()
        self.addCleanup(chosen.stop)

    def test_sdist(self) -> None:
        self.check_sdist()
        library = pathlib.Path(self.folder) / "imagesize_proved" / build_wheel.LIBRARY
        self.assertNotEqual(library.read_bytes(), build_wheel.library())
        licences = [str(path) for path in pathlib.Path(self.folder).glob("*.dist-info/licenses/*")]
        self.assertEqual(sorted(pathlib.Path(path).name for path in licences), ["LICENSE", "LICENSE-wasm2c"])

    def test_no_compiler(self) -> None:
        with tempfile.TemporaryDirectory() as empty:
            environment = {**os.environ, "PATH": empty, "CC": "no-such-compiler"}
            run = subprocess.run([sys.executable, "-c", "import build_wheel; build_wheel.compiled()"], cwd=HERE.parent, env=environment,
                                 stdout=subprocess.PIPE, stderr=subprocess.PIPE)
        self.assertEqual(run.returncode, 1)
        self.assertRegex(run.stderr.decode(), "^imagesize-proved: .* no C compiler was found .*\n$")

    def test_named_library(self) -> None:
        named = pathlib.Path(self.folder) / "other.so"
        named.write_bytes(b"the library of another machine")
        name = build_wheel.build_wheel(self.folder, {"platform": "musllinux_1_2_aarch64", "library": str(named)})
        with zipfile.ZipFile(pathlib.Path(self.folder) / name) as wheel:
            self.assertEqual(wheel.read(f"imagesize_proved/{build_wheel.LIBRARY}"), named.read_bytes())
            records = wheel.read(f"imagesize_proved-{imagesize_proved.__version__}.dist-info/METADATA").decode()
        self.assertIn("\nLicense-Expression: MIT AND Apache-2.0\nLicense-File: LICENSE\nLicense-File: LICENSE-wasm2c\n", records)
