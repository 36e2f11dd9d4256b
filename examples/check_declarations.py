"""Compares the header's declarations with the functions that the library exports, and a binding's declarations with the header.

    python3 check_declarations.py HEADER SOURCES [FILE.rs]..

HEADER is imagesize.h, and SOURCES the folder of the library's source. Each exported function must be declared once, and
nothing else may be. Its result must have the right type, and its parameters must be in their order, with the names and the types
that a caller in C sees. The blocks `extern "C"` of a Rust file may declare fewer functions, each as the header does. The two
numbers of a span are compared too, and the sizes of a push parser and of a probe over spans.
"""

import pathlib
import re
import sys

# The C types for a parameter of the library: a slice is a pointer and a length.
PASSED = {
    "u32": ("uint32_t",),
    "u64": ("uint64_t",),
    "&[u8]": ("const uint8_t *", "size_t length"),
    "&[Span]": ("const imagesize_span *", "size_t count"),
    "&mut [u8]": ("char *", "size_t capacity"),
    "&mut [Span]": ("imagesize_span *", "size_t capacity"),
    "&mut u32": ("uint32_t *",),
    "&mut u64": ("uint64_t *",),
    "&mut usize": ("size_t *",),
    "&mut Span": ("imagesize_span *",),
    "*mut StreamProbe": ("imagesize_stream *",),
    "*mut PartsProbe": ("imagesize_rounds *",),
    "*const PartsProbe": ("const imagesize_rounds *",),
}
# The types of a Rust binding.
BOUND = {
    "u32": "uint32_t",
    "u64": "uint64_t",
    "usize": "size_t",
    "*const u8": "const uint8_t *",
    "*const Span": "const imagesize_span *",
    "*mut u8": "char *",
    "*mut u32": "uint32_t *",
    "*mut u64": "uint64_t *",
    "*mut usize": "size_t *",
    "*mut Span": "imagesize_span *",
    "*mut Stream": "imagesize_stream *",
    "*mut Rounds": "imagesize_rounds *",
    "*const Rounds": "const imagesize_rounds *",
}
# The C type of a result.
RESULTS = {"": "void", " -> u32": "uint32_t"}
# Parameters with another name in the header, by their name and their type in C.
RENAMED = {"number": "type", "kind": "type", ("length", "size_t *"): "written"}


def named(name, kind):
    """A parameter as the header writes it."""
    name = RENAMED.get((name, kind), RENAMED.get(name, name))
    return f"{kind}{name}" if kind.endswith("*") else f"{kind} {name}"


def parameters(text):
    """The pairs of a name and a type in a Rust parameter list."""
    return [tuple(part.strip() for part in each.split(":")) for each in text.split(",") if each.strip()]


def plain(text):
    """A text without comments, and with one space wherever there is white space."""
    text = re.sub(r"/\*.*?\*/", "", text, flags=re.DOTALL)
    return " ".join(re.sub(r"//.*", "", text).split())


def declared(header):
    """The functions that the header declares, with result and parameters."""
    found = re.findall(r"(uint32_t|void) (\w+)\(([^)]*)\);", header)
    functions = {name: [result, *map(str.strip, listed.split(","))] for result, name, listed in found}
    assert len(found) == len(functions) == header.count(");"), "a function is declared twice, or in a form that is not read"
    return functions


def exported(folder):
    """The functions that the library exports, as the header must declare them."""
    functions = {}
    for path in sorted(pathlib.Path(folder).rglob("*.rt")):
        for name, listed, result in re.findall(r'extern "C" fn (\w+)\(([^)]*)\)( -> u32)?', plain(path.read_text())):
            functions[name] = [RESULTS[result], *as_declared(listed)]
    return functions


def as_declared(listed):
    """The parameters of an exported function, as the header must declare them."""
    for name, kind in parameters(listed):
        first, *more = PASSED[kind]
        yield named(name, first)
        yield from more


def bound(path):
    """The functions that a Rust file declares, as the header must declare them."""
    functions = {}
    for block in re.findall(r'extern "C" \{(.*?)\}', plain(pathlib.Path(path).read_text())):
        found = re.findall(r"fn (\w+)\(([^)]*)\)( -> u32)?;", block)
        for name, listed, result in found:
            functions[name] = [RESULTS[result], *(named(each, BOUND[kind]) for each, kind in parameters(listed))]
        assert block.count("fn ") == len(found), f"{path}: a declaration in a form that is not read"
    return functions


def compare(title, functions, header):
    """The header declares each of these functions with the same result and the same parameters."""
    for name, wanted in functions.items():
        got = header.get(name)
        assert got == wanted, f"{title}: {name} has the result and the parameters {wanted}, and the header {got}"


def check_spans(header, folder):
    """The two numbers of a span have the same order and type in the library and the header."""
    (body,) = re.findall(r"typedef struct imagesize_span \{ (.*?) \} imagesize_span;", header)
    low = pathlib.Path(folder).parent.parent / "imagesize_source" / "src"
    (fields,) = [found for path in low.glob("*.rt") for found in re.findall(r"pub struct Span \{ (.*?) \}", plain(path.read_text()))]
    wanted = " ".join(f"{named(re.sub('^pub ', '', name), PASSED[kind][0])};" for name, kind in parameters(fields))
    assert body == wanted, f"a span is `{wanted}`, and not `{body}`"


def check_memory(header, folder, name, file, probe):
    """The memory that a caller gives has the size that is proved to be enough, and its alignment."""
    macro = f"IMAGESIZE_{name.upper()}_SIZE"
    (size,) = re.findall(rf"#define {macro} (\d+)", header)
    assert f"typedef struct imagesize_{name} {{ uint64_t opaque[{macro} / 8]; }} imagesize_{name};" in header
    assert int(size) % 8 == 0, f"{macro} is no multiple of 8"
    source = plain((pathlib.Path(folder) / file).read_text())
    for proved in (f"size_of::<{probe}>() <= {size}", f"align_of::<{probe}>() <= 8"):
        assert f"const _: () = prove!({proved});" in source, f"not proved: {proved}"


def main(header, sources, *bindings):
    header = plain(pathlib.Path(header).read_text())
    calls, exports = declared(header), exported(sources)
    assert exports and calls.keys() == exports.keys(), f"declared and not exported, or the reverse: {calls.keys() ^ exports.keys()}"
    compare("the library", exports, calls)
    check_spans(header, sources)
    check_memory(header, sources, "stream", "streams.rt", "StreamProbe")
    check_memory(header, sources, "rounds", "rounds.rt", "PartsProbe")
    counts = [len(calls)]
    for path in bindings:
        found = bound(path)
        assert found, f"{path} declares nothing"
        compare(path, found, calls)
        counts.append(len(found))
    print(f"declarations of the header and of each binding: {', '.join(map(str, counts))}, each as the library exports it")


if __name__ == "__main__":
    main(*sys.argv[1:])
