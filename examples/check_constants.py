"""Compares the constants of the header and of the bindings with the library's own names, texts and numbers.

    python3 check_constants.py HEADER LIBRARY [MODULE or DECLARATION.d.ts]..

HEADER is imagesize.h and LIBRARY the shared library. Each number of the header must have the text, the name or the family that
its constant says. Each must be there once, and the library must know no other. If a Python module or package has the lists
`Status`, `Kind`, `Compression` and `Family`, they must have the header's names without their prefix, and its numbers. In a
TypeScript declaration the types `Kind` and `Compression` must have the library's own names. The Rust package compares its types
with the library in its own tests. A binding may also have PNG, which has calls of its own, and the status TRAPPED of
imagesize_portable.h.
"""

import ctypes
import importlib.util
import pathlib
import re
import sys
from enum import IntEnum

# The test of the texts of the errors without values. They were written by hand, not taken from the library's output.
REFUSALS = pathlib.Path(__file__).resolve().parent.parent / "crates" / "imagesize_readers" / "src" / "refusals.rt"

# The texts of the other statuses, written by hand too.
OTHERS = {
    "ANSWERED": "No refusal",
    "NOT_SUPPORTED": "Could not decode image",
    "CORRUPTED_IMAGE": "Hit end of file before finding size",
    "FAULT": "A call of the reader failed",
    "BUDGET_SPENT": "Read budget is spent",
    "OUT_OF_MEMORY": "Out of memory",
    "NO_DELIMITER": "Delimiter not found within the bytes that a text may have",
    "INVALID_HEIF_BOX_SIZE": "Invalid heif box size",
    "INVALID_JXL_BOX_SIZE": "Invalid size for a JXL box",
    "BUFFER_TOO_SMALL": "The buffer is too small",
    "UNKNOWN_TYPE": "No type has these numbers",
    "UNKNOWN_STATUS": "No status has this number",
    "BYTES_WANTED": "More bytes are wanted",
}


def texts_of_errors():
    """The text of each error without values, by the header's name of it."""
    found = re.findall(r'Reason::(\w+),\s*"([^"]*)"', REFUSALS.read_text())
    assert found, f"{REFUSALS}: no texts"
    return {re.sub(r"(?<!^)(?=[A-Z])", "_", name).upper(): text for name, text in found if name != "Memory"}


# The text of each status.
TEXTS = OTHERS | texts_of_errors()

# An image type and a compression of each family.
FAMILIES = {
    "NO_FAMILY": ("GIF", "NO_COMPRESSION"),
    "BLOCK_COMPRESSION": ("DDS", "DDS_BC1"),
    "ETC": ("ETC2", "PKM_ETC1"),
    "EAC": ("EAC", "PKM_EAC_R"),
    "PVRTC": ("PVRTC", "PVRTC_2BPP_RGB"),
    "ASTC": ("ASTC", "NO_COMPRESSION"),
    "ATC": ("ATC", "ATC_RGB"),
    "UNCOMPRESSED": ("DDS", "DDS_RGBA32"),
}


def header_constants(path):
    """The lists of the header: the names of each, without their prefix, with their numbers."""
    text = re.sub(r"/\*.*?\*/", "", pathlib.Path(path).read_text(), flags=re.DOTALL)
    lists = {}
    for title, body in re.findall(r"enum imagesize_(\w+) \{(.*?)\};", text, re.DOTALL):
        found = re.findall(r"IMAGESIZE_(?:FAMILY_)?(\w+) = (\d+)", body)
        assert len(dict(found)) == body.count("="), f"{title}: a constant twice, or one that is not read"
        lists[title.replace("_number", "")] = {name: int(number) for name, number in found}
    assert sorted(lists) == ["compression", "family", "status", "type"], f"lists of the header: {sorted(lists)}"
    return lists


def plain(name):
    """A name in lower case, without underscores, so that `END_OF_INPUT`, `EndOfInput` and `endOfInput` are one."""
    return name.replace("_", "").lower()


def compare(title, named, wanted):
    """Asserts that a list has the expected names with the expected numbers, and no others."""
    named, wanted = ({plain(name): number for name, number in names.items()} for names in (named, wanted))
    wrong = sorted(name for name in named.keys() | wanted.keys() if named.get(name) != wanted.get(name))
    assert not wrong, f"{title}: " + ", ".join(f"{name} is {named.get(name)} and not {wanted.get(name)}" for name in wrong)


class Library:
    """The library's calls for names and texts. Each returns None for an unknown number."""

    def __init__(self, path):
        self.library = ctypes.CDLL(str(pathlib.Path(path).resolve()))

    def text(self, call, *numbers):
        room, length = ctypes.create_string_buffer(128), ctypes.c_size_t()
        numbers = map(ctypes.c_uint32, numbers)
        status = getattr(self.library, call)(*numbers, room, ctypes.c_size_t(len(room)), ctypes.byref(length))
        return room.raw[: length.value].decode("ascii") if status == 0 else None

    def family(self, kind, compression):
        found = ctypes.c_uint32()
        status = self.library.imagesize_compression_family(kind, compression, ctypes.byref(found))
        return found.value if status == 0 else None


def check_statuses(library, statuses):
    """Each status has its own text."""
    assert sorted(statuses.values()) == list(range(len(statuses))), "a status twice, or one left out"
    for name, number in statuses.items():
        found = library.text("imagesize_status_text", number)
        assert found == TEXTS.get(name), f"{name}: {found!r}, and not {TEXTS.get(name)!r}"
    assert library.text("imagesize_status_text", len(statuses)) is None, "a status that the header does not name"


def compression_constant(kind, name):
    """The constant for a compression's name. It begins with the container, which the name may include."""
    if name in ("", "Unknown"):
        return plain("NO_COMPRESSION" if name == "" else "UNKNOWN_COMPRESSION")
    container = {"EAC": "PKM", "ETC2": "PKM", "PVRTC": "" if name.startswith("Pvrtc") else "PVR"}.get(kind, kind)
    return plain(container + name)


def check_compressions(library, kind, number, compressions):
    """The compressions of a type have the numbers by which the library names them. Returns their constants."""
    found = {code: library.text("imagesize_compression_name", number, code) for code in range(256)}
    named = {compression_constant(kind, name): code for code, name in found.items() if name is not None}
    for constant, code in named.items():
        assert compressions.get(constant) == code, f"{kind}: {constant} is {compressions.get(constant)} and not {code}"
    return named


def check_types(library, types, compressions):
    """Each type has its own name, and so has each of its compressions."""
    assert sorted(types.values()) == list(range(1, len(types) + 1)), "a type twice, or one left out"
    compressions, all_named = {plain(name): code for name, code in compressions.items()}, set()
    for kind, number in types.items():
        named = check_compressions(library, kind, number, compressions)
        name = library.text("imagesize_type_name", number, min(named.values(), default=0))
        assert name is not None and plain(name) == plain(kind), f"{kind}: {name!r}"
        all_named |= named.keys()
    assert all_named == compressions.keys(), f"compressions of no type: {compressions.keys() - all_named}"
    assert not check_compressions(library, "MORE", len(types) + 1, compressions), "a type that the header does not name"


def check_families(library, lists):
    """Each family is the library's family of a compression in it."""
    found = {
        family: library.family(lists["type"][kind], lists["compression"][compression])
        for family, (kind, compression) in FAMILIES.items()
    }
    compare("families", lists["family"], found)


def lists_of(path):
    """The lists of a module or a package, by their names, each with its names and numbers."""
    path = pathlib.Path(path)
    spec = importlib.util.spec_from_file_location(path.stem, path / "__init__.py" if path.is_dir() else path)
    module = importlib.util.module_from_spec(spec)
    sys.modules[spec.name] = module
    spec.loader.exec_module(module)
    enums = [value for value in vars(module).values() if isinstance(value, type) and issubclass(value, IntEnum)]
    return {enum.__name__: {name: int(member) for name, member in enum.__members__.items()} for enum in enums}


def check_png(path, number, types):
    """The number of PNG, which the header does not list, is the number of no other type."""
    assert number is None or number not in types.values() and number > 999, f"{path}: PNG is {number}"


def check_trapped(path, number, statuses):
    """The status of the portable library alone has the number in its header."""
    header = pathlib.Path(__file__).resolve().parent.parent / "bindings" / "portable" / "imagesize_portable.h"
    wanted = int(re.search(r"^#define IMAGESIZE_TRAPPED (\d+)$", header.read_text(), re.M)[1])
    assert number in (None, wanted) and wanted not in statuses.values(), f"{path}: TRAPPED is {number}, and not {wanted}"


def check_module(path, lists):
    """Each list of a module equals the header's, but NO_FAMILY may be left out. Returns the number of names."""
    found, count = lists_of(path), 0
    for name, title in [("Status", "status"), ("Kind", "type"), ("Compression", "compression"), ("Family", "family")]:
        members, wanted = found.get(name), dict(lists[title])
        if members is not None:
            if title == "type":
                check_png(path, members.pop("PNG", None), wanted)
            if title == "status":
                check_trapped(path, members.pop("TRAPPED", None), wanted)
            if "NO_FAMILY" not in members:
                wanted.pop("NO_FAMILY", None)
            compare(f"{path}: {name}", members, wanted)
            count += len(members)
    assert count, f"{path} has no list of the header's"
    return count


def names_of(library, types):
    """The library's names of all types, and of their compressions."""
    numbers = [(number, code) for number in types.values() for code in range(256)]
    kinds, compressions = (
        {library.text(call, *pair) for pair in numbers} - {None, ""} for call in ("imagesize_type_name", "imagesize_compression_name")
    )
    return {"Kind": kinds, "Compression": compressions}


def check_declaration(path, library, lists):
    """The types of a TypeScript declaration have the library's names. Returns the number of names."""
    text, count = pathlib.Path(path).read_text(), 0
    for title, wanted in names_of(library, lists["type"]).items():
        (body,) = re.findall(rf"^export type {title} =(.*?);$", text, re.DOTALL | re.MULTILINE)
        found = [name for name in re.findall(r"'(\w+)'", body) if name != "Png"]
        assert sorted(found) == sorted(wanted), f"{path}: {title}: {sorted(set(found) ^ wanted) or 'a name twice'}"
        count += len(found)
    return count


def check_binding(path, library, lists):
    """A binding's names are the library's. Returns the number of names."""
    return check_declaration(path, library, lists) if path.endswith(".d.ts") else check_module(path, lists)


def main(header, shared, *bindings):
    lists, library = header_constants(header), Library(shared)
    check_statuses(library, lists["status"])
    check_types(library, lists["type"], lists["compression"])
    check_families(library, lists)
    counts = [sum(map(len, lists.values())), *(check_binding(path, library, lists) for path in bindings)]
    print(f"constants of the header and of each binding: {', '.join(map(str, counts))}, each by the library's own name")


if __name__ == "__main__":
    main(*sys.argv[1:])
