"""Writes docs/CLAUSES.md: each public function with its clauses, in plain words, and the mutations that test them.

docs/check.py calls this module. A clause comes from `crates/*/src/*.rt`, a mutation from `crates/*/must-fail/*.edit`. The words are
those of a row of the table of clauses in docs/PROMISES.md, of the comment above the clause, or of the comment above the
definition in `specs/` that the clause names. A clause without any of them is shown as code. The table docs/promises.tsv
says which clauses a mutation tests; a mutation that is not in it is with the function that it changes.
"""

import functools
import pathlib
import re

TOP = pathlib.Path(__file__).resolve().parent.parent
PAGE = TOP / "docs" / "CLAUSES.md"
BLOCK = re.compile(r"(<!-- by docs/check.py --write -->\n)(.*?)(<!-- end -->\n)", re.S)
# The crates in the order of the page; the benchmarks have no promise.
CRATES = ("imagesize imagesize_stream imagesize_png imagesize_c imagesize_probe imagesize_uses imagesize_types imagesize_source "
          "imagesize_io imagesize_pieces imagesize_records imagesize_fixed imagesize_walked imagesize_boxes imagesize_texts "
          "imagesize_readers imagesize_vectors").split()
OWNER = re.compile(r"^(?:unsafe )?(impl|(?:pub(?:\(\w+\))? )?trait)\b(.*)$")
FN = re.compile(r"^( *)((?:pub(?:\(\w+\))? )?(?:const )?(?:unsafe )?(?:extern \"C\" )?)fn (\w+)")
CALL = re.compile(r"(?<!fn )(\.|(?:\w+(?:::<[^>]*>)?::)+)?\b([a-z]\w*)(?:::<[^>]*>)?\(")


class Clause:
    """A clause of a contract."""

    def __init__(self, label, text, comment):
        self.label, self.text, self.comment = label, text, comment


class Function:
    """A function with its clauses and its body; `trait` is the trait whose method it is."""

    def __init__(self, crate, path, trait, owner, name, public, line, docs):
        self.crate, self.path, self.trait, self.owner, self.name = crate, path, trait, owner, name
        self.public, self.line, self.end, self.docs = public, line, line, docs
        self.clauses, self.body, self.members = [], "", []

    @property
    def full(self):
        return f"{self.owner}::{self.name}" if self.owner else self.name

    @property
    def shown(self):
        """The name in the table: that of a format with its module, that of a trait's method with the trait."""
        module = f"{pathlib.Path(self.path).stem}::" if "/formats/" in self.path else ""
        return f"`{module}{self.full}`" + (f" of `{self.trait}`" if self.trait not in (None, "trait") else "")

    @property
    def about(self):
        """What the function does, by its docstring, by the trait whose method it is, or by what the `impl` states."""
        if self.docs and not self.docs.startswith("Inlined"):
            return sentence(self.docs)
        if any(other.trait == "trait" and other.full == f"{self.trait}::{self.name}" for other in functions()):
            return f"As `{self.trait}::{self.name}` promises."
        stated = self.members and not any(clause.label for clause in self.clauses)
        return stated and f"The `impl` states what it gives, as {' and '.join(f'`{name}`' for name in self.members)}." or ""


def bare(name):
    """A type without its path and its arguments."""
    return re.sub(r"[<(:].*", "", name.strip().split("::")[-1] if "<" not in name else name.strip()).lstrip("&'").strip()


def owner_of(kind, text):
    """The trait and the type of the head of an `impl` or a trait."""
    text = re.sub(r"^\s*<(?:[^<>]|<[^<>]*>)*>", "", text)
    text = re.split(r"\bwhere\b|\{", text)[0].strip()
    if kind != "impl":
        return "trait", bare(text)
    trait, _, target = text.rpartition(" for ")
    return (bare(trait) if trait else None), bare(target)


def balanced(text, at):
    """The text between the brace at an offset and the one that closes it."""
    depth = 0
    for end in range(at, len(text)):
        depth += {"{": 1, "}": -1}.get(text[end], 0)
        if depth == 0:
            return text[at + 1:end]
    raise ValueError("a brace without its end")


def first_sentence(lines):
    """The first sentence of a docstring or of a comment."""
    text = " ".join(re.sub(r"^\s*//[/!]? ?", "", line) for line in lines).split("  ")[0].strip()
    ends = re.search(r"[.:?]\s+(?=[A-Z`])", re.sub(r"`[^`]*`", lambda code: "`" + "x" * (len(code[0]) - 2) + "`", text))
    return text[:ends.start() + 1] if ends else text


def clauses_of(lines, start, end):
    """The clauses between two lines, each with the comment above it or above its group."""
    text = "\n".join(lines[start:end + 1])
    comment, group, found = [], "", []
    offset = 0
    for line in text.split("\n"):
        bare_line = line.strip()
        if not bare_line:
            group = ""
        if bare_line.startswith("//"):
            comment.append(bare_line.lstrip("/ "))
            group = ""
        for match in re.finditer(r"(?:^|\s)ensures\*? ?(\w*) ?\{", line):
            words = " ".join(comment)
            if words:
                group = words if words.endswith(":") else ""
            found.append(Clause(match[1], " ".join(balanced(text, offset + match.end() - 1).split()), words or group))
            comment = []
        offset += len(line) + 1
    return found


def functions_of(path):
    """The functions of a file."""
    crate = path.relative_to(TOP).parts[1]
    lines = path.read_text().split("\n")
    trait = owner = current = None
    docs, found, members = [], [], []
    for at, line in enumerate(lines):
        match = OWNER.match(line)
        if match:
            trait, owner = owner_of(match[1], match[2])
            members = []
        match = re.match(r"    ghost (\w+) =", line)
        if match:
            members.append(match[1])
        match = FN.match(line)
        if match:
            inside = bool(match[1]) and owner is not None
            public = match[2].startswith("pub ") or 'extern "C"' in match[2] or inside and trait is not None
            current = Function(crate, str(path.relative_to(TOP)), trait if inside else None, owner if inside else None, match[3],
                               public, at, first_sentence(docs) if docs else "")
            current.members = members if inside else []
            found.append(current)
        if current:
            current.end = at
        if line.startswith("}"):
            trait = owner = current = None
        if line.strip().startswith("//"):
            docs.append(line)
        elif not line.strip().startswith("#["):
            docs = []
    for function in found:
        function.body = "\n".join(lines[function.line:function.end + 1])
        function.clauses = clauses_of(lines, function.line, function.end)
    return found


@functools.lru_cache(None)
def functions():
    """All functions of the crates of the page, without those of tests."""
    return [function for crate in CRATES for path in sorted((TOP / "crates" / crate / "src").glob("**/*.rt"))
            if "test" not in path.stem and "tests" not in path.parts for function in functions_of(path)]


class Mutation:
    """A seeded mistake, and the function that it changes, or none for a constant or a type."""

    def __init__(self, path):
        text = path.read_text()
        self.crate, self.name = path.parts[-3], path.stem
        file = path.parent.parent / re.search(r"^file: *(.*)", text, re.M)[1]
        self.path = str(file.relative_to(TOP))
        old = re.search(r"^old: ?(.*)", text, re.M)[1]
        source = file.read_text()
        self.line = source[:source.index(old)].count("\n")
        inside = [f for f in functions() if f.path == self.path and f.line <= self.line <= f.end]
        self.function = inside[-1] if inside else None


@functools.lru_cache(None)
def mutations():
    """All mutations of the crates of the page."""
    return [Mutation(path) for crate in CRATES for path in sorted((TOP / "crates" / crate / "must-fail").glob("*.edit"))]


@functools.lru_cache(None)
def definitions(crate):
    """The comments above the definitions of a crate's specifications, and what each definition says, by file and name."""
    found = {}
    for path in (TOP / "crates" / crate / "specs").glob("**/*.antt"):
        comment, name = [], None
        for line in path.read_text().split("\n"):
            match = re.match(r"(?:abbrev |record |data |unfoldable |pub )+(\w+)", line)
            if line.startswith("-- "):
                comment.append(line[3:].strip())
            elif match and not line.startswith("pub import"):
                name = match[1]
                found[name] = [" ".join(comment), ""]
                comment = []
            elif line.strip():
                comment = []
            if name and not line.startswith("--"):
                found[name][1] += line + "\n"
    return found


@functools.lru_cache(None)
def imported(path):
    """The crate of each definition that a file imports."""
    found = {}
    for crate, items in re.findall(r"^(?:ghost )?use Rattle\.(\w+)\.specs\.[\w.]+\.\{([^}]*)\}", (TOP / path).read_text(), re.M):
        for item in items.split(","):
            name, _, alias = item.strip().partition(" as ")
            found[alias or name] = (crate, name)
    return found


def words_of_definition(crate, name, seen=()):
    """The comment above a definition, or above the record that it leads to."""
    if crate not in CRATES or (crate, name) in seen or name not in definitions(crate):
        return ""
    comment, text = definitions(crate)[name]
    if comment:
        return comment
    for word in re.findall(r"\b[A-Z]\w+", text):
        words = words_of_definition(crate, word, (*seen, (crate, name)))
        if words and word != name:
            return words
    return ""


def sentence(text):
    """Words as a sentence, with a capital letter and an end."""
    text = text.strip()
    return text and text[0].upper() + text[1:] + ("" if text[-1] in ".:" else ".")


def glossary(text):
    """The rows of the table of clauses in PROMISES.md: labels, functions or crates, and words."""
    tables = re.findall(r"^\| Clause \| Of \| What it states \|\n\|[-| ]+\n((?:\|.*\n)*)", text, re.M)
    for row in "".join(tables).splitlines():
        labels, owners, words = (cell.strip() for cell in row.strip("|").split("|"))
        yield re.findall(r"`(\w+)`", labels), re.findall(r"`([\w:]+)`", owners) or [""], words


@functools.lru_cache(None)
def written():
    """The words of that table, by label and function."""
    return {(label, owner): words for labels, owners, words in glossary((TOP / "docs" / "PROMISES.md").read_text())
            for label in labels for owner in owners}


def words_of(function, clause):
    """What a clause states."""
    table = written()
    for owner in (f"{function.crate}::{function.full}", function.full, f"{function.trait}::{function.name}", function.crate):
        if (clause.label, owner) in table:
            return table[clause.label, owner]
    lead = clause.comment if clause.comment.endswith(":") else ""
    if clause.comment and not lead:
        return sentence(clause.comment)
    words = table.get((clause.label, ""), "")
    if not words:
        names = imported(function.path)
        # What a clause concludes comes after its last arrow.
        for name in re.findall(r"\b[A-Z]\w+", clause.text.split("→")[-1]):
            words = sentence(words_of_definition(*names[name])) if name in names else ""
            if words:
                break
    words = words or f"`{clause.text}`"
    return f"{lead} {words[:1].lower() + words[1:] if words[:1] != '`' else words}".strip() if lead else words


@functools.lru_cache(None)
def dependencies():
    """Each crate with those below it, by crates.txt."""
    below = {}
    for line in (TOP / "crates.txt").read_text().split("\n"):
        name, *uses = line.split("#")[0].replace(":", " ").split() or [""]
        below[name] = {name}.union(*(below.get(other, {other}) for other in uses))
    return below


@functools.lru_cache(None)
def used(path):
    """The crate and the module of each name that a file imports from a crate of this repository."""
    found = {}
    for root, way, items in re.findall(r"^(?:pub )?use (\w+)::((?:\w+::)*)([^;]*);", (TOP / path).read_text(), re.M):
        for name in re.findall(r"\b\w+\b(?!::)", items):
            found[name] = path.split("/")[1] if root in ("crate", "super", "self") else root, way.split("::")[-2:][0]
    return found


@functools.lru_cache(None)
def by_name():
    """The functions with each name."""
    found = {}
    for function in functions():
        found.setdefault(function.name, []).append(function)
    return found


def resolved(function, before, name):
    """The functions that a call in a function may mean: `before` is the point or the path before the name."""
    found = by_name().get(name, [])
    if before == ".":
        return [other for other in found if other.owner]
    if before:
        last = before.strip(":").split("::")[-1]
        last = function.owner if last == "Self" else last
        return [other for other in found if last in (other.owner, other.crate, other.trait, pathlib.Path(other.path).stem)] or found
    here = [other for other in found if other.path == function.path and not other.owner]
    crate, module = used(function.path).get(name, (None, None))
    free = [other for other in found if not other.owner and (crate is None or other.crate == crate)]
    return here or [other for other in free if module == pathlib.Path(other.path).stem] or free


@functools.lru_cache(None)
def callees():
    """The functions that each function may call, by the names in its body."""
    return {function: [other for before, name in set(re.findall(CALL, function.body))
                       for other in resolved(function, before, name)]
            for function in functions()}


@functools.lru_cache(None)
def beside(function):
    """The functions on which the promise of a function depends without a call: those of its type, whose values they change, and the
    implementations of its trait."""
    if function.trait == "trait":
        return [other for other in functions() if (other.trait, other.name) == (function.owner, function.name)]
    same = [other for other in functions() if function.owner and (other.crate, other.owner) == (function.crate, function.owner)]
    return same if any("&mut self" in other.body.split("{")[0] for other in same) else []


@functools.lru_cache(None)
def reached(function):
    """The functions that a call may run: those of its crate and of the crates below it, and methods of readers."""
    left = [function, *beside(function)]
    allowed = set().union(*(dependencies()[one.crate] for one in left))
    found = set(left)
    while left:
        for other in callees()[left.pop()]:
            if other not in found and (other.crate in allowed or other.trait not in (None, "trait")):
                found.add(other)
                left.append(other)
    return found


@functools.lru_cache(None)
def tested():
    """Which clauses a mutation tests, by promises.tsv: a list of functions with labels, by crate and name of the mutation."""
    found = {}
    for line in (TOP / "docs" / "promises.tsv").read_text().split("\n"):
        if line and not line.startswith("#"):
            crate, name, refs = line.split("\t")
            found[crate, name] = [(*ref.partition(" ")[0].partition("::")[::2], ref.partition(" ")[2]) for ref in refs.split("; ")]
    return found


# Crates whose public functions are internal: a clause of theirs that no mutation tests and no words explain is left out.
INTERNAL = set("imagesize_source imagesize_pieces imagesize_records imagesize_fixed imagesize_walked imagesize_boxes imagesize_texts "
               "imagesize_io".split())


def rows_of(function):
    """The rows of a function in the table of its crate: a label, words and mutations."""
    by_label = {}
    labels = {clause.label for clause in function.clauses}
    for mutation in mutations():
        refs = tested().get((mutation.crate, mutation.name), ())
        for crate, full, label in refs:
            if (crate, full) == (function.crate, function.full) and (not label or label in labels):
                by_label.setdefault(label, []).append(mutation)
        if not refs and mutation.function is function:
            by_label.setdefault("", []).append(mutation)
    public = function.public or function.name.endswith("_laws")
    if function.crate == "imagesize_c":  # its other public functions are not exported
        public = function.name.startswith("imagesize_") or function.name.endswith("_laws")
    if not by_label and not (public and function.clauses):
        return []
    said = function.about
    alone = [clause for clause in function.clauses if not clause.label]
    if len(alone) == 1 and not said:
        said = words_of(function, alone[0])
    rows = []
    for clause in function.clauses:
        words, found = words_of(function, clause), by_label.get(clause.label, [])
        plain = words and not words.endswith("`")
        if clause.label and (found or public and (plain or function.crate not in INTERNAL)):
            rows.append((clause.label, words, found))
    return [("", said, by_label.get("", [])), *rows] if said or by_label.get("") or not rows else rows


def cell(text):
    """A text without a bar that would end its cell."""
    return re.sub(r"(?<!\\)\|", r"\\|", text)


def code_of(mutation, crate):
    """The name of a mutation, with its crate if that is another one."""
    return f"`{mutation.name}`" + ("" if mutation.crate == crate else f" in `{mutation.crate}`")


def listed(found, crate):
    """Mutations, by their names."""
    return ", ".join(code_of(mutation, crate) for mutation in found)


def generated():
    """The text of CLAUSES.md: for each crate its functions with named clauses, and then a table of the others."""
    lines = []
    for crate in CRATES:
        root = next(path for path in ((TOP / "crates" / crate / "src" / name) for name in ("lib.rt", "main.rt")) if path.exists())
        about = re.match(r"(?:#!.*\n)*((?://!.*\n)+)", root.read_text())
        lines += [f"## {crate}", "", first_sentence(about[1].strip().split("\n")) if about else "", ""]
        others = []
        for function in functions():
            rows = rows_of(function) if function.crate == crate else []
            if rows and not any(label for label, _, _ in rows):
                others.append(cell_row(function.shown, rows[0][1], listed(rows[0][2], crate)))
            elif rows:
                said, found = next(((words, found) for label, words, found in rows if not label), ("", []))
                found = [mutation for mutation in found if not any(mutation in some for label, _, some in rows if label)]
                lines += [f"### {function.shown}", ""]
                if said or found:
                    lines += [" ".join(filter(None, (said, found and f"Mutations of its code: {listed(found, crate)}."))), ""]
                lines += ["| Clause | What it states | Mutations |", "|---|---|---|"]
                lines += [cell_row(f"`{label}`", words, listed(found, crate)) for label, words, found in rows if label]
                lines.append("")
        loose = [m for m in mutations() if m.crate == crate and not m.function and not tested().get((crate, m.name))]
        others += [cell_row("constants and types", "", listed(loose, crate))] if loose else []
        if others:
            lines += [f"### Other functions of {crate}", "", "| Function | What it states | Mutations |", "|---|---|---|", *others, ""]
    return "\n".join(lines)


def cell_row(*cells):
    """A row of a table."""
    return "| " + " | ".join(cell(text) for text in cells) + " |"


def mistakes(text):
    """What is wrong with promises.tsv: a mutation, a function or a clause that is not there, or code that the function does not run."""
    there = {(mutation.crate, mutation.name): mutation for mutation in mutations()}
    named = {}
    for function in functions():
        named.setdefault((function.crate, function.full), []).append(function)
    for line in text.split("\n"):
        if not line or line.startswith("#"):
            continue
        crate, name, refs = line.split("\t")
        mutation = there.get((crate, name))
        if not mutation:
            yield f"no mutation {name} in {crate}"
            continue
        for ref in refs.split("; "):
            owner, _, label = ref.partition(" ")
            found = [function for function in named.get(tuple(owner.split("::", 1)), ())
                     if not label or label in {clause.label for clause in function.clauses}]
            if len(found) != 1:
                yield f"no clause {ref}" if not found else f"{ref} is a clause of {len(found)} functions"
            # A law of two comparisons has no body; what it is about are derived items and items of its crate.
            elif mutation.function and not any(mutation.function in reached(f) or f.name.endswith("_laws") for f in found):
                yield f"{owner} does not run the code that {name} changes, {mutation.function.full}"


def unknown_clauses(text):
    """Rows of the table of clauses in PROMISES.md with a clause or a function that does not go with the others of the row."""
    for labels, owners, _ in glossary(text):
        has = {(label, owner) for label in labels for owner in owners for function in functions()
               if owner in ("", function.crate, function.full, f"{function.crate}::{function.full}")
               for clause in function.clauses if clause.label == label}
        for label in labels:
            if label not in {one for one, _ in has}:
                yield f"no clause {label} of {', '.join(owners)}"
        for owner in owners:
            if owner not in {one for _, one in has}:
                yield f"{owner} has none of the clauses {', '.join(labels)}"
