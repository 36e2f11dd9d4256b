"""Writes the lists of types and errors of the bindings and of the page, from the constants and comments of include/imagesize.h.

    python3 bindings/lists.py                writes the lists
    python3 bindings/lists.py --check        changes nothing; the status is 1 if a list differs from the header
    python3 bindings/lists.py --self-test    plants a mistake in each list, and fails if one is not found

The comment of a type begins with its usual name. It ends with its MIME type, if it has one, and its extension. A list is the lines between the comments "by bindings/lists.py: NAME" and "end of the list". All other lines are written by hand.
"""

import pathlib
import re
import sys
import textwrap

TOP = pathlib.Path(__file__).resolve().parent.parent
HEADER = TOP / "include/imagesize.h"
WIDTH = 125

# The types that have a compression, and its enum in Rust.
COMPRESSED = {
    "ATC": "AtcCompression",
    "DDS": "DdsCompression",
    "EAC": "PkmCompression",
    "ETC2": "PkmCompression",
    "HEIF": "Compression",
    "PVRTC": "PvrtcCompression",
}
HAS_COMPRESSION = "; it has a compression"
# The end of the comment of a type: its MIME type, if it has one, and its extension.
MEDIA = re.compile(r"; (?:(image/\S+), )?(\.\w+)$")

# The messages of Python for errors that every format can have. For all others the header's comment is the message.
MESSAGES = {
    "NOT_SUPPORTED": "the bytes are of no known image type",
    "CORRUPTED_IMAGE": "the records are malformed, or end before the size",
    "FAULT": "the bytes cannot be read",
    "END_OF_INPUT": "the file ends before its size",
    "BUDGET_SPENT": "the size needs more bytes than the budget",
    "OUT_OF_MEMORY": "there is not enough memory",
    "NO_DELIMITER": "a word, a line or a name is too long",
    "BUFFER_TOO_SMALL": "there are more spans than the limit",
}
# Statuses that are no error of an image, or that only calls over files return.
NO_ERRORS = {"ANSWERED", "UNKNOWN_TYPE", "UNKNOWN_STATUS", "BYTES_WANTED"}
NOT_IN_JAVASCRIPT = NO_ERRORS | {"FAULT", "BUDGET_SPENT", "OUT_OF_MEMORY", "BUFFER_TOO_SMALL"}


def constants(enum):
    """The constants of an enum of the header, without their prefix: their numbers and comments."""
    (body,) = re.findall(rf"enum imagesize_{enum} \{{(.*?)\n\}};", HEADER.read_text(), re.DOTALL)
    found = re.findall(r"^    IMAGESIZE_(?:FAMILY_)?(\w+) = (\d+),?(?: /\* (.*?) \*/)?$", body, re.MULTILINE)
    assert len(found) == body.count(" = "), f"a constant of imagesize_{enum} is not read"
    return {name: (int(number), comment) for name, number, comment in found}


def sentence(comment):
    """A comment of the header as a sentence."""
    return comment[0].upper() + comment[1:] + "."


def python_enum(enum, leave_out=()):
    return [f"    {name} = {number}" for name, (number, _) in constants(enum).items() if name not in leave_out]


def python_messages():
    """The message of each error, for people."""
    return [f"    Status.{name}: \"{MESSAGES.get(name, comment)}\","
            for name, (_, comment) in constants("status").items() if name not in NO_ERRORS]


def python_media():
    """The MIME type and the extension of each type."""
    lines = []
    for name, (_, comment) in constants("type_number").items():
        mime, extension = MEDIA.search(comment).groups()
        lines.append(f"    Kind.{name}: ({'None' if mime is None else chr(34) + mime + chr(34)}, \"{extension}\"),")
    return lines


def c_messages():
    """The message of each error as a C array has it: that of Python."""
    return [f"    [IMAGESIZE_{name}] = \"{MESSAGES.get(name, comment)}\","
            for name, (_, comment) in constants("status").items() if name not in NO_ERRORS]


def c_statuses():
    """The name of each error, as a C array has it."""
    return [f"    [IMAGESIZE_{name}] = \"{name}\"," for name in constants("status") if name not in NO_ERRORS]


def c_media():
    """The MIME types, as a C array has them."""
    mimes = {name: MEDIA.search(comment)[1] for name, (_, comment) in constants("type_number").items()}
    return [f"    [IMAGESIZE_{name}] = \"{mime}\"," for name, mime in mimes.items() if mime]


def usual_names():
    """The usual name of each type, by its constant: `OpenEXR` of EXR."""
    return {constant: re.match("[^:;]+", comment)[0] for constant, (_, comment) in constants("type_number").items()}


def own_name(constant):
    """The library's own name of a type: `Gif` of GIF, `SunRaster` of SUN_RASTER."""
    return "".join(word.capitalize() for word in constant.split("_"))


def names(enum):
    """The library's own names of the types."""
    return [own_name(constant) for constant in constants(enum)]


def union(words):
    """The members of a TypeScript union, as many as fit on each line."""
    lines, line = [], "  |"
    for word in words:
        if len(line) + len(word) + 5 > WIDTH:
            lines.append(line[:-2])
            line = "  |"
        line += f" '{word}' |"
    return [*lines, line[:-2]]


def page_names():
    """The usual names of the types, by the library's own names."""
    pairs = (f"{own_name(constant)}: '{name.split(' (')[0]}'," for constant, name in usual_names().items())
    # A line does not break at a no-break space.
    text = " ".join(pair.replace(" ", "\xa0") for pair in pairs)
    return [line.replace("\xa0", " ") for line in textwrap.wrap(text, WIDTH, initial_indent="  ", subsequent_indent="  ")]


def javascript_codes():
    """The codes of the errors of images, each with what it says."""
    lines = []
    for name, (_, comment) in constants("status").items():
        if name not in NOT_IN_JAVASCRIPT:
            lines += [f"  /** {sentence(comment)} */", f"  | '{name}'"]
    return lines


def javascript_statuses():
    """The names of all statuses, each at its number."""
    found = constants("status")
    assert [number for number, _ in found.values()] == list(range(len(found))), "a status is left out"
    return textwrap.wrap("".join(f"'{name}', " for name in found), WIDTH, initial_indent="  ", subsequent_indent="  ")


# PNG has calls of its own, and no number in the header. The crate lists it before PNM.
RUST_PNG = ["        /// Portable network graphics, with the feature `png`.", '        #[cfg(feature = "png")]', "        Png = 1000,"]


def rust_types():
    """The types, each with its number and what it is."""
    found, lines = {name: (number, MEDIA.sub("", comment)) for name, (number, comment) in constants("type_number").items()}, []
    assert {name for name, (_, comment) in found.items() if comment.endswith(HAS_COMPRESSION)} == set(COMPRESSED)
    for name, (number, comment) in found.items():
        compression = f"({COMPRESSED[name]})" if name in COMPRESSED else ""
        lines += RUST_PNG if name == "PNM" else []
        comment = comment[:-len(HAS_COMPRESSION)] if comment.endswith(HAS_COMPRESSION) else comment
        lines += [f"        /// {sentence(comment)}", f"        {own_name(name)}{compression} = {number},"]
    return lines


# Each list: its file, its name, and its lines.
LISTS = [
    ("bindings/python/imagesize_proved/_types.py", "statuses", lambda: python_enum("status")),
    ("bindings/python/imagesize_proved/_types.py", "messages", python_messages),
    ("bindings/python/imagesize_proved/_types.py", "types", lambda: python_enum("type_number")),
    ("bindings/python/imagesize_proved/_types.py", "media", python_media),
    ("bindings/python/imagesize_proved/_types.py", "compressions", lambda: python_enum("compression_number")),
    ("bindings/python/imagesize_proved/_types.py", "families", lambda: python_enum("family_number", {"NO_FAMILY"})),
    ("bindings/c/imagesize.c", "statuses", c_statuses),
    ("bindings/c/imagesize.c", "messages", c_messages),
    ("bindings/c/imagesize.c", "media", c_media),
    ("bindings/js/imagesize.d.ts", "types", lambda: union(names("type_number"))),
    ("bindings/js/imagesize.d.ts", "errors", javascript_codes),
    ("bindings/js/library.js", "statuses", javascript_statuses),
    ("bindings/rust/src/image_type.rs", "types", rust_types),
    ("examples/page/texts.js", "types", page_names),
]


def parts(text, name):
    """What is before a list, its lines, and what is after it."""
    found = re.search(rf"^ *(?:#|//) by bindings/lists\.py: {name}\n(.*?)^ *(?:#|//) end of the list$", text, re.DOTALL | re.MULTILINE)
    assert found, f"no list of {name}"
    return text[:found.start(1)], found[1].split("\n")[:-1], text[found.end(1):]


def differences(path, name, lines, text):
    """Lines of a list that differ from the header's."""
    before, has, _ = parts(text, name)
    first = before.count("\n") + 1
    for index in range(max(len(has), len(lines))):
        is_, wanted = (some[index] if index < len(some) else None for some in (has, lines))
        if is_ != wanted:
            yield f"{path}:{first + index}: {(is_ or 'nothing').strip()}, where the header has {(wanted or 'nothing').strip()}"
            return


def check():
    """Prints the first difference of each list."""
    wrong = [line for path, name, lines in LISTS for line in differences(path, name, lines(), (TOP / path).read_text())]
    print("\n".join([*wrong, f"lists of types and errors: {len(LISTS)}, and {len(wrong)} differ from the header"]))
    return 1 if wrong else 0


def self_test():
    """Whether a line left out of each list is found."""
    missed = []
    for path, name, lines in LISTS:
        text = (TOP / path).read_text()
        before, has, after = parts(text, name)
        if not list(differences(path, name, lines(), before + "\n".join([*has[1:], ""]) + after)):
            missed.append(f"{path}: {name}")
    print(f"self-test: {len(LISTS)} mistakes planted, {len(missed)} missed {' '.join(missed)}".rstrip())
    return 1 if missed else 0


def write():
    for path, name, lines in LISTS:
        before, _, after = parts((TOP / path).read_text(), name)
        (TOP / path).write_text(before + "\n".join([*lines(), ""]) + after)
    return check()


if __name__ == "__main__":
    options = {"--check": check, "--self-test": self_test}
    sys.exit(options[sys.argv[1]]() if sys.argv[1:] else write())
