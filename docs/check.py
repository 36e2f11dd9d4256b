"""Checks what the pages and the docstrings of the crates say of this repository, and how they say it.

    python3 docs/check.py                prints a line for each mistake; the status is 1 if there is one
    python3 docs/check.py --count        prints the words, the long sentences and the project's old words of each page
    python3 docs/check.py --write        writes the contracts in CALLING.md, the formats in README.md, and in each README what may surprise
    python3 docs/check.py --self-test    plants a mistake for each check, and fails if one is not found

It checks links and their anchors, names of files, lines of files, commands, calls, mutations, definitions, clauses and their owners, the
contracts in CALLING.md, the table of docs/CLAUSES.md, numbers, worked diffs, the length of sentences, and the words in all. No page has
a word in OLD, and neither have the headers and the lines `///` and `//!` in `crates/*/src`. Their sentences are as short as those of the
pages. docs/CLAUSES.md is not read for its words, since --write takes them from the sources. --count also prints the words in all.
"""

import functools
import pathlib
import re
import subprocess
import sys

TOP = pathlib.Path(__file__).resolve().parent.parent
sys.path[:0] = [str(TOP / "bindings"), str(TOP / "docs")]
from lists import usual_names  # noqa: E402

import promises  # noqa: E402

# The most words of all pages together, and of README.md and docs/, without the headers and what a script writes.
LIMIT, LIMIT_OF_DOCS = 25000, 19000

LINK = re.compile(r"\[[^\]]*\]\(([^)#\s]+)(?:#[^)]*)?\)")
CODE = re.compile(r"`([^`\n]+)`")
FENCE = re.compile(r"^( *)```.*?^ *```$", re.M | re.S)
# What a build makes, and placeholders for names.
MADE = re.compile(r"(^|/)out/|NAME|PATH|FUNCTION|MODULE|\.\.|\*|<|PREFIX|FOLDER|FILE")
TENS = "twenty thirty forty fifty sixty seventy eighty ninety".split()
ONES = ("zero one two three four five six seven eight nine ten eleven twelve thirteen fourteen fifteen sixteen seventeen eighteen "
        "nineteen").split()
WORDS = {word: number for number, word in enumerate(ONES)}
WORDS.update({tens: 20 + 10 * n for n, tens in enumerate(TENS)})
WORDS.update({f"{tens}-{one}": 20 + 10 * n + WORDS[one] for n, tens in enumerate(TENS) for one in ONES[1:10]})
LONGEST = 25
# Words of the proofs that no reader knows. Code and headings of tables of code are not read.
OLD = (r"places?|rooms?|lent|lends?|lending|hand(?:s|ed)? over|told|taken|answers?|answered|refusals?|halts?|marks|bytes that follow|"
       r"kinds?|worked inputs?|edits?|the gate|cures?|cured|behind|wants|wanted|stands?|chains?|that of a|those of a|so it is|(?<!each )of which")
# Pages that a script writes from the sources, whose words are not read.
GENERATED = {"docs/CLAUSES.md"}
HEADERS = [TOP / "include/imagesize.h", TOP / "include/imagesize_file.h"]
# Commands of the kit, by `rt`; commands of a shell are not checked.
RT = set("ci must-fail selftest doc version new check verdict lib run test try fmt tidy plant all expand lemma seed names".split())


@functools.lru_cache(None)
def source(suffixes):
    """The text of all sources with these suffixes, by their path."""
    listed = subprocess.run(["git", "ls-files"], cwd=TOP, check=True, capture_output=True, text=True).stdout.split("\n")
    return {name: (TOP / name).read_text() for name in listed if name.endswith(suffixes) and (TOP / name).exists()}


@functools.lru_cache(None)
def count(pattern, *suffixes):
    """How often a pattern occurs in the sources with these suffixes."""
    return sum(len(re.findall(pattern, text, re.M)) for text in source(suffixes).values())


def members(enum):
    """How many constants an enum of the header has."""
    body = re.search(rf"enum {enum} \{{(.*?)\n\}};", (TOP / "include/imagesize.h").read_text(), re.S)[1]
    return len(re.findall(r"^    IMAGESIZE_", body, re.M))


# A number of things, and how many of them there are.
NUMBERS = {
    "mutations": lambda: count(r"\A", ".edit"),
    "crates": lambda: len(list(TOP.glob("crates/*/src"))),
    "tests": lambda: count(r"#\[test\]", ".rt"),
    "types": lambda: members("imagesize_type_number"),
    "functions of the header": lambda: count(r"^(?:uint32_t|void) \w+\(", "include/imagesize.h"),
    "calls of `include/imagesize.h`": lambda: count(r"^(?:uint32_t|void) \w+\(", "include/imagesize.h"),
    "lines of Python": lambda: sum(len(path.read_text().splitlines()) for path in TOP.glob("tests/model/*.py")),
    "statuses": lambda: members("imagesize_status"),
    "test vectors": lambda: sum(
        1 for line in (TOP / "crates/imagesize_vectors/data/worked.tsv").read_text().split("\n") if line and line[0] != "#"),
}
NUMBERS["formats"] = NUMBERS["types"]
# These are rounded to ten.
ROUNDED = {"lines of Python"}


def pages():
    """The pages that git knows."""
    return [TOP / name for name in source((".md",))]


def sources():
    """The files of the crates whose docstrings are read."""
    return [TOP / name for name in source((".rt",)) if re.match(r"crates/\w+/src/", name)]


def links(page, text):
    """Links to files that are not there."""
    for target in LINK.findall(text):
        if "://" not in target and not (page.parent / target).exists():
            yield f"no file at the link {target}"


def slug(heading):
    """The anchor of a heading, as GitHub makes it."""
    return re.sub(r"[^\w\- ]", "", LINK.sub(lambda match: match[0][1:match[0].index("]")], heading).lower()).replace(" ", "-")


def anchors(page, text):
    """Links to headings that are not there."""
    for target, anchor in re.findall(r"\[[^\]]*\]\(([^)#\s]*)#([^)\s]+)\)", text):
        aim = page.parent / target if target else page
        if "://" in target or aim.suffix != ".md" or not aim.exists():
            continue
        headings = re.findall(r"^#+ (.*)", FENCE.sub("", aim.read_text() if target else text), re.M)
        if anchor not in map(slug, headings):
            yield f"no heading {anchor} in {target or page.name}"


@functools.lru_cache(None)
def tracked():
    """The files that git knows, by their names without folders."""
    listed = subprocess.run(["git", "ls-files"], cwd=TOP, check=True, capture_output=True, text=True).stdout.split("\n")
    found = {}
    for name in filter(None, listed):
        found.setdefault(name.split("/")[-1], []).append(name)
    return found


# Names of files that a page invents, that a build makes, or that other projects have.
OTHERS = re.compile(r"photo\w*\.|image\d*\.|a\.|NAME|Cargo\.lock|libimagesize|imagesize\.(?:wasm|pc|mjs)|package(?:-lock)?\.json")


def bare_files(page, text):
    """Names of files without their folders, such as `Way.antt`, that are nowhere in the repository."""
    for code in CODE.findall(text):
        if re.fullmatch(r"[\w-]+\.(?:rt|antt|edit|tsv|py|rs|js|mjs|ts|h|c|md|toml|txt|html)", code) and not OTHERS.match(code):
            if code not in tracked() and not (page.parent / code).exists():
                yield f"no file with the name {code}"


LINE = re.compile(r"([\w./-]+\.(?:py|rs|js|mjs|ts|rt|antt|h|c|tsv|md)):(\d+)\b(?:: (\S+) for (\S+?)[`,])?")


def lines_of_files(page, text):
    """Lines of files that the file does not have, or that have none of the two tokens of a change that is named with them."""
    for name, number, new, old in LINE.findall(text):
        paths = [TOP / path for path in tracked().get(name.split("/")[-1], ()) if path.endswith(name)]
        has = [lines[int(number) - 1] for lines in (path.read_text().split("\n") for path in paths) if int(number) <= len(lines)]
        if not has:
            yield f"no line {number} of {name}"
        elif re.fullmatch(r"[\d<>=!]+", new) and not any(token in line for line in has for token in (new, old)):
            yield f"line {number} of {name} has no {new} and no {old}"


def calls(page, text):
    """Calls in code, such as `size(path)`, and names of C, such as `imagesize_size`, that no source has."""
    if page.name in ("CHANGELOG.md", "DIFFERENCES.md", "COMPARISON.md"):
        return
    for code in CODE.findall(text):
        match = re.match(r"(?:[\w.]+(?:\.|::))?([A-Za-z_]\w*)\((?!\))?", code)
        if match and "(" in match[0] and match[1] not in names() | KNOWN | LANGUAGES:
            yield f"no call {match[1]}"
    for block in BLOCKS.findall(text):
        made = set(re.findall(r"\b(?:def|fn|function|class|let|const) (\w+)", block))
        for name in set(re.findall(r"\b([A-Za-z_]\w*)!?\(", block)) - made - names() - KNOWN - LANGUAGES:
            yield f"no call {name}"
    crates = {path.name for path in TOP.glob("crates/*")} | set(tracked()) | {name.split(".")[0] for name in tracked()}
    for name in set(re.findall(r"(?<![\w/.-])(?:imagesize_\w*\w|IMAGESIZE_\w*\w)(?![\w*/-])", text)):
        if name not in names() | crates:
            yield f"no name {name}"


BLOCKS = re.compile(r"^ *```(?:python|js|rust|c|ts)\n(.*?)^ *```$", re.M | re.S)
# Functions of the languages' own libraries, and of a store of objects.
LANGUAGES = set("find_package print open read write len fetch require import await async with for if while main new head_object get_object".split())


def files(page, text):
    """Names of files and folders, such as `crates/x/src/y.rt`, that are not there."""
    for word in " ".join(CODE.findall(text) + FENCED.findall(text)).split():
        word = word.strip(",;()\"'").split("::")[0]
        if not re.fullmatch(r"(?:crates|docs|include|bindings|examples|tests|bench|release|\.ci)/[\w./-]+", word) or MADE.search(word):
            continue
        if not (TOP / word).exists() and not (page.parent / word).exists():
            yield f"no file {word}"


FENCED = re.compile(r"^```(?:sh|text)\n(.*?)^```$", re.M | re.S)


def commands(page, text):
    """Commands of the kit that there are none of, and options that a script of the repository does not know."""
    lines = CODE.findall(text) + [line for block in FENCED.findall(text) for line in block.split("\n")]
    for line in lines:
        for part in re.split(r"&&|\||;", re.sub(r"^[$] ", "", line)):
            words = part.split()
            if len(words) > 1 and words[0] == "rt" and re.fullmatch(r"[a-z-]+", words[1]) and words[1] not in RT:
                yield f"no command rt {words[1]}"
            words = words[1:] if words[:1] in (["python3"], ["node"]) else words
            script = TOP / words[0] if words else TOP
            if words and re.match(r"(?:docs|examples|tests|bindings|\.ci)/", words[0]) and script.exists():
                script = script / "__main__.py" if script.is_dir() and (script / "__main__.py").exists() else script
                for option in re.findall(r"(?<=\s)--[a-z-]+", part) if script.is_file() else ():
                    if option not in script.read_text():
                        yield f"{words[0]} has no option {option}"


def mutations(page, text):
    """Names of mutations, in the last column of the tables of promises, that are not there."""
    there = {pathlib.Path(name).stem for name in source((".edit",))}
    heads = False
    for line in text.splitlines():
        cells = line.strip().strip("|").split("|")
        if line.startswith("|") and re.match(r"Edits|Mutations", cells[-1].strip()):
            heads = True
        elif not line.startswith("|"):
            heads = False
        elif heads:
            for name in re.findall(r"`([a-z0-9]+(?:_[a-z0-9]+)+)`", cells[-1]):
                if name not in there and not (TOP / "crates" / name).exists():
                    yield f"no mutation {name}"


@functools.lru_cache(None)
def names():
    """Each name that the sources define or use, without their comments."""
    found = set()
    for path, text in source((".rt", ".antt", ".rs", ".py", ".js", ".mjs", ".ts", ".h", ".c", ".toml", ".json", ".tsv")).items():
        if path == "docs/check.py":
            continue
        if path.endswith(".antt"):
            text = re.sub(r"--.*|^(?:pub )?use .*", "", text, flags=re.M)
        elif path.endswith(".rt"):
            text = re.sub(r"//.*|^ *(?:pub )?(?:ghost )?use .*", "", text, flags=re.M)
        found.update(re.findall(r"[A-Za-z_]\w*", text))
        if not path.endswith(".antt"):
            found.update(pathlib.Path(path).parts, [pathlib.Path(path).stem])
    return found | {pathlib.Path(path).stem for path in source((".edit",))}


# Names of std, of other languages and of formats, which the sources need not use.
KNOWN = set("""BufRead std io Cursor BufReader Read Seek FileNotFoundError non_exhaustive fetch ImageType no_std UTF_8 size_t
    If_Range Last_Modified memory64 as_str Vec Box Ok Err""".split())


def definitions(page, text):
    """Names in code, such as `Answers` or `blob_size`, that no source has."""
    if page.name in ("CHANGELOG.md", "DIFFERENCES.md", "COMPARISON.md"):
        return
    for code in CODE.findall(text):
        code = code.strip()
        if not re.fullmatch(r"(?:[A-Za-z]\w*::)*(?:[a-z]+_\w+|[A-Z][a-z]+\w*)(?:\(\))?", code) or MADE.search(code):
            continue
        for name in code.rstrip("()").split("::"):
            if name not in names() and not re.fullmatch("imagesize_.*", name) and name not in KNOWN:
                yield f"no definition {name}"


@functools.lru_cache(None)
def contracts():
    """The clauses of each function of the crates, by its name: their labels and texts."""
    found = {}
    for path, text in source((".rt",)).items():
        if "/src/" not in path:
            continue
        text = re.sub(r"^\s*//.*\n", "", text, flags=re.M)
        for match in re.finditer(r"(?:pub(?:\(\w+\))? )?fn (\w+)", text):
            end = re.search(r"^\s*\{\n|;\n|\{ ?\}|^\s*fn |\n\n\s*(?:pub )?fn ", text[match.end():], re.M)
            head = text[match.start():match.end() + (end.start() if end else 0)]
            found.setdefault(match[1], []).append((path, head))
    return found


def clauses_of(head):
    """The clauses of a head, as label and text, and the signature before them."""
    signature, *rest = re.split(r"\n?\s*ensures\b\*?", head)
    clauses = []
    for clause in rest:
        match = re.match(r"\s*(\w*)\s*\{(.*)\}", clause, re.S)
        if match:
            clauses.append((match[1], " ".join(match[2].split())))
    return " ".join(signature.split()).replace("( ", "(").replace(", )", ")"), clauses


def labels(name):
    """The labels of all functions with a name, and the fields of all records with it."""
    found = {label for _, head in contracts().get(name, ()) for label, _ in clauses_of(head)[1]}
    for text in source((".antt",)).values():
        for match in re.finditer(rf"^(?:pub )?record {re.escape(name)}\b.*?where\n((?:  .*\n|\n)*)", text, re.M):
            found.update(re.findall(r"^  (?:pub )?(\w+) :", match[1], re.M))
    return found


def defined(page, text):
    """Names in the table of definitions of PROMISES.md that no specification defines."""
    tables = re.findall(r"^\| Name \| .*\n\|-.*\n((?:\|.*\n)*)", text, re.M) if page.name == "PROMISES.md" else ()
    for row in "".join(tables).split("\n"):
        for name in re.findall(r"`(\w+)`", row.split("|")[1] if "|" in row else ""):
            if not count(rf"^(?:abbrev |record |data |unfoldable |pub |  pub )*{name}\b", ".antt") \
                    and not count(rf"^pub (?:struct|enum|trait) {name}\b", ".rt"):
                yield f"no definition {name} in a specification"


def declared(page, text):
    """Names in tables of contracts that no code and no specification declares: one word of small letters, or a definition with its
    arguments."""
    heads = re.compile(r"Contract|Definition")
    column = None
    for line in text.splitlines():
        cells = line.split("|")
        if not line.startswith("|"):
            column = None
        elif column is None:
            column = next((n for n, cell in enumerate(cells) if heads.fullmatch(cell.strip())), 0)
        elif column:
            for code in CODE.findall(cells[column]):
                name = code.split()[0]
                if re.fullmatch(r"[a-z]+|[A-Za-z]\w+ [^()]*", code) and name not in declarations() | RT | {"rt"}:
                    yield f"nothing declares {name}"


@functools.lru_cache(None)
def declarations():
    """The names of functions, clauses, types and definitions, and of the fields of records."""
    code = "\n".join(source((".rt",)).values())
    specs = "\n".join(source((".antt",)).values())
    found = {path.name for path in TOP.glob("crates/*")}
    found.update(re.findall(r"\b(?:fn|ensures\*?|struct|enum|trait|mod|const|ghost) (\w+)", code))
    found.update(re.findall(r"^ *(?:(?:abbrev|unfoldable|pub|record|data) )*(\w+)\b[^\n]*?(?: :|:$)", specs, re.M))
    return found


def stale(page, text):
    """Tables of CLAUSES.md that are not those of the sources."""
    if page == promises.PAGE:
        if {made for _, made, _ in promises.BLOCK.findall(text)} != {promises.generated()}:
            yield "the tables are not those of the sources: python3 docs/check.py --write"
        yield from (f"no mutation {mutation.name}" for mutation in promises.mutations() if f"`{mutation.name}`" not in text)


def tested(page, text):
    """Mistakes in the table of clauses of PROMISES.md, and in promises.tsv."""
    if page.name == "PROMISES.md":
        yield from promises.unknown_clauses(text)
    if page.name == "promises.tsv":
        yield from promises.mistakes(text)


LABEL = r"`[a-z]\w*`"
OF = re.compile(rf"({LABEL}(?:(?:,| and|, and) {LABEL})*) of (`\w+(?:::\w+)?`)")


def clauses(page, text):
    """Clauses, as in "`value` of `blob_size`", that the function or the record does not have."""
    for said, owners in OF.findall(text):
        for owner in re.findall(r"`(?:\w+::)*(\w+)`", owners):
            has = labels(owner)
            for label in re.findall(r"`(\w+)`", said) if has else ():
                if label not in has and label not in contracts():
                    yield f"{owner} has no clause {label}"


# The calls that CALLING.md quotes: the file, and the functions in their order. The site of docs/build has the contract of each call.
QUOTED = [
    ("imagesize/src/calls.rt", ["image_type", "blob_size"]),
    ("imagesize/src/trace.rt", ["blob_trace"]),
    ("imagesize/src/calls.rt", ["reader_probe"]),
    ("imagesize/src/file.rt", ["size"]),
    ("imagesize_stream/src/probe.rt", ["StreamProbe::finish"]),
]


def quoted():
    """The text of the contracts, from the sources."""
    lines = []
    for path, calls in QUOTED:
        for call in calls:
            name = call.split("::")[-1]
            heads = [head for where, head in contracts().get(name, ()) if where == f"crates/{path}" and "ensures" in head]
            # Of two functions with one name, a method is the one with `self`.
            heads = [head for head in heads if ("self" in head.split("ensures")[0]) == ("::" in call)] or heads
            if not heads:
                raise LookupError(f"no contract of {call} in crates/{path}")
            signature, found = clauses_of(heads[0])
            lines.append(signature.replace("pub fn ", "fn ").replace(f"fn {name}", f"fn {call}"))
            lines += [f"  ensures {label + ' ' if label else ''}{{ {text} }}" for label, text in found]
    return "\n".join(lines)


LISTED = re.compile(r"^\| \*\*\d+ formats\*\* \|.*\n(?:\|.*\n)+", re.M)
# The types of each row of this table, by their constants in the header; the last row has all others.
ROWS = {
    "pictures": "BMP GIF HEIF ICO JPEG JXL PNM QOI TIFF WEBP".split(),
    "textures": "ASTC ATC DDS EAC ETC2 KTX2 PVRTC VTF".split(),
}


def list_of_formats():
    """The formats as README lists them, from the comments of the header."""
    found = usual_names()
    rows = {**ROWS, "others": [constant for constant in found if constant not in sum(ROWS.values(), [])]}
    lines = [f"| {row} | {', '.join(sorted((found[constant] for constant in has), key=str.casefold))} |" for row, has in rows.items()]
    return "\n".join([f"| **{len(found)} formats** | |", "|---|---|", *lines, ""])


def formats(page, text):
    """The table of formats in README, where the header has others."""
    if page == TOP / "README.md" and list_of_formats() not in text:
        yield "the table of formats is not the header's"


# What may surprise, in short: docs/SURPRISES.md has it, and each README includes it, since a package's README is read alone.
SHARED = re.compile(r"^- \*\*Part of a file\.\*\*.*\n(?:- .*\n)*?- \*\*Several pictures\.\*\*.*\n", re.M)


def shared_lines():
    """The list of docs/SURPRISES.md."""
    return SHARED.search((TOP / "docs/SURPRISES.md").read_text())[0]


def shared(page, text):
    """A README that includes another list of what may surprise."""
    if page.name == "README.md" and SHARED.findall(text) != [shared_lines()]:
        yield "not the list of docs/SURPRISES.md: python3 docs/check.py --write"


BLOCK = re.compile(r"(<!-- by docs/check.py --write -->\n```text\n)(.*?\n?)(```)", re.S)


def calling(page, text):
    """Contracts in CALLING.md that are not those of the sources, but for white space."""
    if page.name == "CALLING.md":
        block = BLOCK.search(text)
        are = quoted().split("\n")
        says = block[2].rstrip().split("\n") if block else []
        for line in [line for line in says if line not in are][:5]:
            yield f"not in the sources: {line.strip()[:100]}"
        for line in [line for line in are if line not in says][:5]:
            yield f"not quoted: {line.strip()[:100]}"


def versions(page, text):
    """Names of files of a release with another version."""
    are = re.search(r"^VERSION = (.*)$", (TOP / "bindings/c/Makefile").read_text(), re.M)[1]
    for name, version in re.findall(r"\b(imagesize(?:_probe|_proved|-[a-z]+)-(\d+(?:\.\d+)+))", text):
        if version != are:
            yield f"{name}, and the version is {are}"


def numbers(page, text):
    """Numbers of things that are others."""
    if page.name == "CHANGELOG.md":
        return
    things = "|".join(sorted(NUMBERS, key=len, reverse=True))
    for number, what in re.findall(rf"\b(\d+|{'|'.join(sorted(WORDS, key=len, reverse=True))}) ({things})(?!\w)", text):
        said, are = WORDS[number] if number in WORDS else int(number), NUMBERS[what]()
        if said != are and not (said < 10 and what != "types") and not (what in ROUNDED and abs(said - are) <= 10):
            yield f"{said} {what}, and there are {are}"


def length(page, text):
    """A README that is too long to be read in a minute or two."""
    most, most_words = (60, 700) if page.parent == TOP else (40, 450)
    if page.name == "README.md" and len(text.splitlines()) > most:
        yield f"{len(text.splitlines())} lines, of at most {most}"
    if page.name == "README.md" and len(text.split()) > most_words:
        yield f"{len(text.split())} words, of at most {most_words}"


DIFF = re.compile(r"^```diff\n(.*?)^```$", re.M | re.S)


def diffs(page, text):
    """Lines of a worked diff that their file does not have."""
    for block in DIFF.findall(text):
        has, name = (), "no file"
        for line in block.split("\n"):
            if line.startswith("+++ "):
                name = line[4:]
                has = (TOP / name).read_text().split("\n") if (TOP / name).exists() else ()
            elif line.startswith("+") and line[1:] not in has:
                yield f"{name} has no line {line[1:].strip()}"


DOCSTRING = re.compile(r"(?:^ *//[/!](?: .*)?\n)+", re.M)


def prose(page, text):
    """The text of a page without code, the comments of the header, or the docstrings of a file."""
    if page.suffix == ".rt":
        docstrings = [re.sub(r"^ *//[/!] ?", "", docstring, flags=re.M) for docstring in DOCSTRING.findall(text + "\n")]
        return FENCE.sub("", "\n\n".join(docstrings))
    if page.suffix == ".h":
        comments = re.findall(r"/\*(.*?)\*/", text, re.S)
        comments = [re.sub(r"^ *\* ?", "", comment, flags=re.M) for comment in comments]
        return "\n\n".join(re.sub(r"^ {4,}.*$", "", comment, flags=re.M) for comment in comments)
    text = re.sub(r"<!--.*?-->", "", text, flags=re.S)
    return re.sub(r"^ {4,}[^ -].*$", "", FENCE.sub("", text), flags=re.M)


def sentences(text):
    """The sentences of some prose: cells, items and headings end one too."""
    text = re.sub(r"^\s*\|?[-:| ]+\|?\s*$", "", text, flags=re.M)
    text = re.sub(r"^\s*(?:[-*]|\d+\.) |^#+ |\|", "\n\n", text, flags=re.M)
    text = LINK.sub(lambda match: match[0][1:match[0].index("]")], text)
    text = CODE.sub(lambda match: "code" if " " in match[1] else match[1].replace(".", "_"), text)
    for paragraph in re.split(r"\n\s*\n", text):
        for sentence in re.split(r"(?<=[.:;?!])\**\s+(?=[A-Z`*0-9a-z(\[])", " ".join(paragraph.split())):
            if sentence:
                yield sentence


def is_read(page):
    """Whether the words and the sentences of a file are checked."""
    return str(page.relative_to(TOP)) not in GENERATED


def long_sentences(page, text):
    """Sentences above the greatest length."""
    if is_read(page):
        for sentence in sentences(prose(page, text)):
            if len(sentence.split()) > LONGEST:
                yield f"a sentence of {len(sentence.split())} words: {sentence[:60]}.."


def old_words(text):
    return re.findall(rf"\b(?:{OLD})\b", re.sub(r"\S+\.md", "", CODE.sub("", LINK.sub(lambda match: match[0][:match[0].index("]")], text))), re.I)


def words(page, text):
    """Words of the proofs, on a page, in a header or in a docstring."""
    if is_read(page):
        for word in sorted(set(word.lower() for word in old_words(prose(page, text)))):
            yield f"the project's own word: {word}"


CHECKS = (links, files, commands, mutations, definitions, defined, declared, clauses, calling, formats, shared, versions, numbers, length,
          diffs, long_sentences, words)
# Mistakes for each check: the page that one is planted on, and the text.
PLANTED = [
    (links, "README.md", "[a page](docs/NOT_THERE.md)"),
    (files, "README.md", "`crates/imagesize/src/not_there.rt`"),
    (commands, "README.md", "`rt provee`, `examples/run --not-there`"),
    (mutations, "docs/PROMISES.md", "| a | Mutations |\n|---|---|\n| b | `no_such_mutation` |"),
    (definitions, "docs/PROVED.md", "`CountsNothingAtAll`"),
    (defined, "docs/PROMISES.md", "| Name | What |\n|---|---|\n| `no_such_name` | nothing |\n"),
    (declared, "docs/PROVED.md", "| Contract | What |\n|---|---|\n| `nothing`, `Covers spans` | nothing |\n"),
    (clauses, "docs/PROVED.md", "`value` and `stopped` of `blob_size`"),
    (calling, "CALLING.md", None),
    (formats, "README.md", None),
    (shared, "bindings/c/README.md", None),
    (versions, "README.md", "`imagesize-rust-0.14.0`"),
    (numbers, "README.md", "1000 formats"),
    (length, "README.md", "\n" * 81),
    (diffs, "CONTRIBUTING.md", "```diff\n+++ docs/check.py\n+no such line\n```"),
    (long_sentences, "README.md", "It is " + "very " * 40 + "long."),
    (words, "README.md", "A refusal at its place."),
    (long_sentences, "crates/imagesize/src/lib.rt", "/// It is " + "very " * 40 + "long."),
    (words, "crates/imagesize/src/lib.rt", "//! A refusal at its place."),
]


BY_SCRIPT = re.compile(r"<!-- (?:by docs/check\.py --write|written by tests/report) -->\n(.*?)<!-- end -->", re.S)


def words_of(page, text):
    """How many words of a page are written by hand, and how many by a script."""
    made = sum(len(prose(page, block).split()) for block in BY_SCRIPT.findall(text) + LISTED.findall(text))
    if page.name == "README.md":
        made += sum(len(prose(page, block).split()) for block in SHARED.findall(text))
    return len(prose(page, text).split()) - made, made


def total(page, text):
    """More words than all pages may have together, or README.md and docs/ alone; README.md stands for all."""
    if page == TOP / "README.md":
        has = {other: words_of(other, text if other == page else other.read_text())[0] for other in pages()}
        of_docs = sum(words for other, words in has.items() if other == page or other.parent == TOP / "docs")
        if sum(has.values()) > LIMIT:
            yield f"{sum(has.values())} words in all pages, of at most {LIMIT}"
        if of_docs > LIMIT_OF_DOCS:
            yield f"{of_docs} words in README.md and docs/, of at most {LIMIT_OF_DOCS}"


# Checks of what the sources say, and of the words in all, with a mistake for each.
CHECKS += (anchors, bare_files, lines_of_files, calls, stale, tested, total)
PLANTED += [
    (anchors, "README.md", "[a page](docs/ARCHITECTURE.md#not-there), [here](#not-there-either)"),
    (bare_files, "README.md", "`NotThere.antt`"),
    (lines_of_files, "docs/TESTED.md", "`kinds.py:99999: 8 for 9`"),
    (lines_of_files, "docs/TESTED.md", "`kinds.py:1: 77 for 78`"),
    (calls, "README.md", "`blob_sizes_of(bytes)`"),
    (calls, "README.md", "```c\nimagesize_not_there(bytes);\n```"),
    (calls, "README.md", "```python\nimagesize_proved.sizes_of_all(paths)\n```"),
    (stale, "docs/CLAUSES.md", "<!-- by docs/check.py --write -->\n| `value` | another |\n<!-- end -->\n"),
    (tested, "docs/PROMISES.md", "| Clause | Of | What it states |\n|---|---|---|\n| `no_such_clause` | | Nothing. |\n"),
    (tested, "docs/promises.tsv", "imagesize\tno_such_mutation\timagesize::blob_size value"),
    (tested, "docs/promises.tsv", "imagesize\tsize_on_its_side\timagesize::blob_size no_such_clause"),
    (tested, "docs/promises.tsv", "imagesize_texts\twindow_without_its_last_column\timagesize_png::blob_size value"),
    (numbers, "README.md", "1000 calls of `include/imagesize.h`"),
    (total, "README.md", "word " * 99999),
    (total, "README.md", "word " * 1500),
]


def self_test():
    """Whether each check finds the planted mistakes that it does not find without them."""
    missed = []
    for check, name, planted in PLANTED:
        page = TOP / name
        text = page.read_text()
        bad = text + "\n\n" + planted if planted else text.replace("length «data».now < 12", "length «data».now < 13").replace("QOI, ", "").replace("by area", "")
        if len(list(check(page, bad))) <= len(list(check(page, text))):
            missed.append(check.__name__)
    print(f"self-test: {len(PLANTED)} mistakes planted, {len(missed)} missed {' '.join(missed)}".rstrip())
    return 1 if missed or {check for check, _, _ in PLANTED} != set(CHECKS) else 0


def show_counts():
    """The counts of each page, and the words of all pages."""
    print(f"{'page':34} {'words':>6} {'by script':>9} {'>25':>4} {'>30':>4} {'old words':>9}")
    counts = {page: words_of(page, page.read_text()) for page in [*pages(), *HEADERS]}
    for page, (by_hand, made) in counts.items():
        text = prose(page, page.read_text())
        lengths = [len(sentence.split()) for sentence in sentences(text)] if is_read(page) else []
        print(f"{str(page.relative_to(TOP)):34} {by_hand:6} {made:9} {sum(n > 25 for n in lengths):4} {sum(n > 30 for n in lengths):4} "
              f"{len(old_words(text)) if is_read(page) else 0:9}")
    pages_of_docs = [page for page in pages() if page == TOP / "README.md" or page.parent == TOP / "docs"]
    for name, some, limit in (("all pages, without the headers", pages(), LIMIT), ("README.md and docs/", pages_of_docs, LIMIT_OF_DOCS)):
        print(f"{name:34} {sum(counts[page][0] for page in some):6} {sum(counts[page][1] for page in some):9}    at most {limit}")


def write():
    """Writes the contracts in CALLING.md, the table of formats in README.md, and in each README what may surprise."""
    page = TOP / "CALLING.md"
    page.write_text(BLOCK.sub(lambda match: match[1] + quoted() + "\n" + match[3], page.read_text()))
    page = TOP / "README.md"
    page.write_text(LISTED.sub(lambda _: list_of_formats(), page.read_text()))
    for page in [page, *TOP.glob("bindings/*/README.md")]:
        page.write_text(SHARED.sub(lambda _: shared_lines(), page.read_text()))


def main():
    wrong = 0
    read = [*pages(), *HEADERS]
    for page in [*read, *sources(), TOP / "docs/promises.tsv"]:
        text = page.read_text()
        for check in CHECKS if page.suffix == ".md" else (tested,) if page.suffix == ".tsv" else (long_sentences, words):
            for mistake in check(page, text):
                print(f"{page.relative_to(TOP)}: {mistake}")
                wrong += 1
    print(f"pages: {len(read)} read, and the docstrings of {len(sources())} files, {wrong} mistakes")
    return 1 if wrong else 0


def write_all():
    """Writes what the pages have from the sources, and the tables of CLAUSES.md."""
    write()
    page = promises.PAGE
    page.write_text(promises.BLOCK.sub(lambda match: match[1] + promises.generated() + match[3], page.read_text()))


if __name__ == "__main__":
    options = {"--count": show_counts, "--write": write_all, "--self-test": self_test}
    sys.exit(options[sys.argv[1]]() if sys.argv[1:] else main())
