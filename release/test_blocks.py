"""Tests blocks.py on the READMEs of packages that are not there, and that each block of the READMEs of this repository is run or marked."""

import ast
import contextlib
import io
import pathlib
import subprocess
import sys
import tempfile
import unittest

HERE = pathlib.Path(__file__).resolve().parent
sys.path.insert(0, str(HERE))
sys.dont_write_bytecode = True

import blocks  # noqa: E402

TOP = HERE.parent
README = """# A package
```sh
cat a_name.gif > copy; test "$(ls photos | wc -l)" = 3
```
Text.
```text
not run, and no code
```

<!-- not run: it needs a server -->
```sh
exit 9
```

- A list:
  ```python
  import pathlib
  assert pathlib.Path("copy").read_bytes().startswith(b"GIF89a")
  ```

~~~js
import { existsSync } from 'node:fs';
if (!existsSync('icon.png')) throw new Error('no icon.png');
~~~
```c
int main(void) { return 0; } /* photo.jpg */
```
````rust
fn main() {}
````
"""
PYTHON = f'python={sys.executable} "$1"'
OTHERS = ['js=grep -q existsSync "$1"', 'c=grep -q main "$1" && test -s photo.jpg', 'rust=grep -q fn "$1"']


class Blocks(unittest.TestCase):
    def setUp(self):
        folder = tempfile.TemporaryDirectory()
        self.addCleanup(folder.cleanup)
        self.folder = pathlib.Path(folder.name)

    def ran(self, readme, *words):
        """The status and the lines of a run over a README in an unpacked package."""
        (self.folder / "README.md").write_text(readme)
        command = [sys.executable, str(HERE / "blocks.py"), str(self.folder / "README.md"), str(self.folder), *words]
        run = subprocess.run(command, stdout=subprocess.PIPE, stderr=subprocess.DEVNULL, text=True)
        return run.returncode, run.stdout.splitlines()

    def test_each_block_is_run_or_named(self):
        status, lines = self.ran(README, PYTHON, *OTHERS)
        self.assertEqual((status, lines), (0, ["not run: README.md, line 11, sh: it needs a server", "README.md: 5 blocks ran"]))
        self.assertEqual(sorted(path.name for path in self.folder.glob("block*")), ["block1.sh", "block3.py", "block4.mjs", "block5.c", "block6.rs"])

    def test_a_block_that_fails(self):
        for place, wrong in (('test "$(ls', 'exit 7; test "$(ls'), ("assert ", "exit(7); assert "), ("existsSync('icon", "exit(7)")):
            status, lines = self.ran(README.replace(place, wrong), PYTHON, *OTHERS[1:], "js=! grep -q 'exit(7)' \"$1\"")
            self.assertEqual((status, sum(line.startswith("FAILED: README.md, line ") for line in lines)), (1, 1), place)
            self.assertEqual(lines[-1], "README.md: 4 blocks ran, and 1 failed")

    def test_a_language_without_a_command_is_no_block_that_ran(self):
        status, lines = self.ran(README, PYTHON, *OTHERS[:2])
        self.assertEqual((status, lines[1]), (1, "FAILED: README.md, line 28, rust: no command is given for it"))

    def test_a_language_that_is_left_out(self):
        status, lines = self.ran(README, PYTHON, *OTHERS[:2], "rust!no cargo here")
        self.assertEqual((status, lines[1]), (0, "not run: README.md, line 28, rust: no cargo here"))

    def test_no_input_is_waited_for(self):
        self.assertEqual(self.ran("```sh\nread -r line || true\n```\n"), (0, ["README.md: 1 blocks ran"]))

    def test_a_mark_is_for_the_next_line_alone(self):
        status, lines = self.ran("<!-- not run: a reason -->\n\n```sh\nexit 3\n```\n")
        self.assertEqual((status, lines[0]), (1, "FAILED: README.md, line 3, sh: status 3"))

    def test_a_readme_without_a_block(self):
        """A README whose fences have other words is no README that was run. One whose blocks are all left out is."""
        for readme in ("# A package\n", "```text\ntrue\n```\n", "```console\n$ true\n```\n"):
            status, lines = self.ran(readme)
            self.assertEqual((status, lines[-1]), (1, "README.md: 0 blocks ran"), readme)
            self.assertEqual(lines[0], "FAILED: README.md: it has no block in a language that can be run")
        self.assertEqual(self.ran("```sh\nexit 3\n```\n", "sh!no shell here")[0], 0)

    def test_a_block_that_does_not_end(self):
        self.assertEqual(self.ran("```sh\ntrue\n")[0], 1)


class Readmes(unittest.TestCase):
    """The READMEs that the packages have, and the languages for which release/check gives a command."""

    def test_each_language_has_a_command(self):
        check = (HERE / "check").read_text()
        for readme, step in (
            ("bindings/c/README.md", "for_c"), ("bindings/portable/README.md", "from_source"), ("release/program.md", "the_program"),
            ("bindings/python/README.md", "wheel"), ("bindings/rust/README.md", "for_rust"), ("bindings/js/README.md", "for_node"),
        ):
            body = check.split(f"\n{step}() {{\n")[1].split("\n}\n")[0]
            self.assertIn("run_blocks ", body, step)
            found = list(blocks.blocks((TOP / readme).read_text()))
            self.assertTrue(found, readme)
            for block in found:
                if not block.reason and block.language != "sh":
                    self.assertIn(f"{block.language}=", body, f"{readme}, line {block.line}")

    def test_marks_belong_to_blocks(self):
        for readme in (*TOP.glob("bindings/*/README.md"), HERE / "program.md"):
            text = readme.read_text()
            marked = [block for block in blocks.blocks(text) if block.reason]
            self.assertEqual(len(marked), text.count("<!-- not run"), readme)


class Pages(unittest.TestCase):
    def test_pages_that_show_a_call_that_waits_say_so(self):
        """
        The program imagesize_probe and Rattle's `size` wait for a pipe without a writer. No other call over a path waits on Linux, macOS and
        FreeBSD. The Rust package waits where it does not know the number of `O_NONBLOCK`, and Python where it has no such flag.
        """
        for page, shown in (("README.md", "`imagesize_probe`"), ("CALLING.md", "size(&rt"), ("release/program.md", "`imagesize_probe`")):
            text = (TOP / page).read_text()
            self.assertIn(shown, text, page)
            self.assertRegex(text, "(waits for a pipe without a writer|pipe without a writer .* waited for)", page)


class Scripts(unittest.TestCase):
    def test_python_3_8(self):
        """docs/RELEASING.md names Python 3.8 for release/build, which runs examples/run. Both run no script that needs a later one."""
        self.assertIn("Python 3.8,", (TOP / "docs/RELEASING.md").read_text())
        later = {"removeprefix", "removesuffix", "is_relative_to", "to_thread", "unparse", "randbytes", "lcm", "pairwise", "bit_count"}
        scripts = "release/*.py", "examples/*.py", "bindings/*.py", "bindings/p*/**/*.py", "bindings/rust/*.py", "docs/*.py", "docs/build"
        for path in [path for pattern in scripts for path in TOP.glob(pattern)]:
            tree = ast.parse(path.read_text(encoding="utf-8"), feature_version=(3, 8))
            used = {node.attr for node in ast.walk(tree) if isinstance(node, ast.Attribute)}
            self.assertEqual(used & later, set(), path.relative_to(TOP))


class Files(unittest.TestCase):
    def test_images_that_are_named(self):
        with tempfile.TemporaryDirectory() as folder, contextlib.redirect_stdout(io.StringIO()):
            blocks.put_files('probe("photo.gif") # not image/gif .gif, a/other.png, photos', pathlib.Path(folder))
            names = sorted(str(path.relative_to(folder)) for path in pathlib.Path(folder).rglob("*.*"))
        self.assertEqual(names, ["photo.gif", "photos/0.gif", "photos/1.jpg", "photos/2.png"])


if __name__ == "__main__":
    unittest.main()
