"""Runs each block of code of a README, as its reader would.

    python3 blocks.py README FOLDER [LANGUAGE=COMMAND].. [LANGUAGE!REASON]..

The README is that of an unpacked package. Each of its blocks in sh, python, js, c or rust is written to a file in FOLDER and run there:
COMMAND is one of bash, in which "$1" is that file. sh has the command `bash -eu "$1"`, if no other is given. Images and folders of
images that a block names, such as photo.jpg and photos, are put there first.

A block that cannot be run has this comment on the line before it, which no reader sees:

    <!-- not run: REASON -->

LANGUAGE!REASON leaves out the blocks of a language, as where a tool is missing. A line `not run: ..` is printed for each block that is
left out, with its reason, and the last line is the number of those that ran. The status is 1 if a block fails, if no command is given
for its language, or if the README has no block in these languages.
"""

import pathlib
import re
import subprocess
import sys

# The languages that can be run, by the words that begin a block, with the ends of their files.
LANGUAGES = {"sh": "sh", "bash": "sh", "shell": "sh", "python": "py", "py": "py", "js": "mjs", "javascript": "mjs", "c": "c", "rust": "rs"}
# The name of a command for a language that has several words.
ONE = {"sh": "sh", "py": "python", "mjs": "js", "c": "c", "rs": "rust"}
MARK = re.compile(r"<!-- not run: (.*?) -->")
# An image of 640x480 for each extension. A PNG ends after its size, as the images of the tests do.
IMAGES = {
    "gif": b"GIF89a\x80\x02\xe0\x01\0\0",
    "jpg": b"\xff\xd8\xff\xc0\0\x11\x08\x01\xe0\x02\x80" + bytes(10),
    "png": b"\x89PNG\r\n\x1a\n\0\0\0\rIHDR\0\0\x02\x80\0\0\x01\xe0\x08\x02\0\0\0",
}


class Block:
    """A block of code: the line of its first fence, its language, its text, and why it cannot be run."""

    def __init__(self, line, language, text, reason):
        self.line = line
        self.language = language
        self.text = text
        self.reason = reason


def blocks(page):
    """The blocks of a page in languages that can be run, in their order."""
    lines = page.splitlines()
    at = 0
    while at < len(lines):
        begun = re.fullmatch(r"( *)(`{3,}|~{3,}) *(\w*).*", lines[at])
        if not begun:
            at += 1
            continue
        indent, fence, language = begun.groups()
        end = at + 1
        while end < len(lines) and not re.fullmatch(rf" *{fence[0]}{{{len(fence)},}} *", lines[end]):
            end += 1
        assert end < len(lines), f"line {at + 1}: a block does not end"
        if language.lower() in LANGUAGES:
            text = "".join((line[len(indent):] if line.startswith(indent) else line) + "\n" for line in lines[at + 1:end])
            mark = MARK.fullmatch(lines[at - 1].strip()) if at else None
            yield Block(at + 1, ONE[LANGUAGES[language.lower()]], text, mark and mark[1])
        at = end + 1


def put_files(text, folder):
    """Puts the images beside a block that it names, and three in each folder `photos` or `images`."""
    named = re.findall(r"(?<![\w/.])([\w-]+)\.(gif|jpg|png)\b", text)
    named += [(f"{name}/{number}", end) for name in re.findall(r"(?<![\w/.-])(photos|images)\b", text) for number, end in enumerate(IMAGES)]
    for name, end in named:
        path = folder / f"{name}.{end}"
        path.parent.mkdir(exist_ok=True)
        if not path.exists():
            path.write_bytes(IMAGES[end])


def run(block, folder, command, number):
    """Runs a block in a folder. Returns its status."""
    put_files(block.text, folder)
    file = folder / f"block{number}.{LANGUAGES[block.language]}"
    file.write_text(block.text)
    # With no input: a block that waited for some would wait for ever.
    return subprocess.run(["bash", "-euc", command, "block", file.name], cwd=folder, stdin=subprocess.DEVNULL).returncode


def options(words):
    """The commands, and the reasons for which a language is left out."""
    commands, reasons = {"sh": 'bash -eu "$1"'}, {}
    for word in words:
        language, mark, text = re.fullmatch(r"(\w+)([=!])(.*)", word, re.S).groups()
        assert language in ONE.values(), f"no language of blocks: {language}"
        (commands if mark == "=" else reasons)[language] = text
    return commands, reasons


def main(readme, folder, *words):
    page, folder = pathlib.Path(readme), pathlib.Path(folder)
    commands, reasons = options(words)
    ran = failed = number = 0
    for number, block in enumerate(blocks(page.read_text(encoding="utf-8")), 1):
        name = f"{page.name}, line {block.line}, {block.language}"
        reason = block.reason or reasons.get(block.language)
        if reason:
            print(f"not run: {name}: {reason}", flush=True)
            continue
        status = run(block, folder, commands[block.language], number) if block.language in commands else "no command is given for it"
        if status != 0:
            print(f"FAILED: {name}: {status if isinstance(status, str) else f'status {status}'}", flush=True)
            failed += 1
        ran += 1
    if not number:
        print(f"FAILED: {page.name}: it has no block in a language that can be run", flush=True)
    print(f"{page.name}: {ran - failed} blocks ran" + (f", and {failed} failed" if failed else ""))
    return 1 if failed or not number else 0


if __name__ == "__main__":
    sys.exit(main(*sys.argv[1:]))
