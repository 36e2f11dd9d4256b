"""Writes the portable library, from what wasm2c made of the module.

    python3 portable.py MODULE.c OUT.c [--checked]

MODULE.c is the output of wasm2c 1.0.32, and MODULE.h beside it. From it come the functions and the constants; runtime.h and calls.c of
this folder come before and after them. The addresses of reads and writes are taken whole: wasm2c reads no module with 64-bit addresses,
so `wasm-opt --memory64-lowering` cut each of them to 32 bits before, and here each cut is undone.

Most accesses lie in a part of the memory whatever happens, which regions.py finds out, and are not checked when they run. With --checked they
are, which is for tests.

A line of another form than these ends the program. So does a function that calls itself, also by way of others, and a call by a table.
Then the module's stack has a greatest depth, which is added up over all calls, and which OUT.c has room for.
"""

import pathlib
import re
import sys

from regions import Region, functions_of

HERE = pathlib.Path(__file__).resolve().parent
HEADER = HERE.parent.parent / "include" / "imagesize.h"

MEMORY = "&instance->w2c_memory"
LOAD = re.compile(rf"( +w2c_[ij]\d+) = (i(?:32|64)_load\w*)\({MEMORY}, \(u64\)\(w2c_i(\d+)\)( \+ \d+u)?\);")
STORE = re.compile(rf"( +i(?:32|64)_store\w*)\({MEMORY}, \(u64\)\(w2c_i(\d+)\)( \+ \d+)?, (w2c_[ij]\d+)\);")
COPY = re.compile(rf"( +)memory_copy\({MEMORY}, {MEMORY}, w2c_i(\d+), w2c_i(\d+), w2c_i(\d+)\);")
FILL = re.compile(rf"( +)memory_fill\({MEMORY}, w2c_i(\d+), (w2c_i\d+), w2c_i(\d+)\);")
CUT = re.compile(r" +w2c_i(\d+) = \(u32\)\(w2c_j\1\);")
SET = re.compile(r" +w2c_([ij])(\d+) ([-+*&|^]|<<|>>|)= (.*?);?$")
KEPT = re.compile(r" +w2c_([lp]\d+) = (?:w2c_(\w+);)?.*")
JUMP = re.compile(r" +if \(w2c_i\d+\) \{goto \w+;\}")
CALL = re.compile(r"\b(w2c_\w+)\(instance\b")
SPACE = re.compile(r""" +w2c_j0 = instance->w2c_g0;
(?: +w2c_l\d+ = w2c_j0;
)? +w2c_j1 = (\d+)ull;
 +(w2c_j0 -= w2c_j1;|w2c_i0 = \(u64\)\(\(s64\)w2c_j0 [<>] \(s64\)w2c_j1\);)
""")
MOVED = re.compile(r""" +w2c_j0 (?:-|\+)?= \w+;
(?: +w2c_[lp]\d+ = w2c_j0;
)? +instance->w2c_g0 = w2c_j0;
""")

MODULE = """
/* The module, by wasm2c. It sets variables that it does not use, and takes numbers as signed or not. */
#if defined __GNUC__ || defined __clang__
#pragma GCC diagnostic push
#pragma GCC diagnostic ignored "-Wunused-parameter"
#pragma GCC diagnostic ignored "-Wunused-but-set-variable"
#pragma GCC diagnostic ignored "-Wunused-value"
#pragma GCC diagnostic ignored "-Wconversion"
#pragma GCC diagnostic ignored "-Wsign-conversion"
#endif

"""
CHECKED = """
/* For tests: bytes that need no check are found once more, with all checks. */
#define SAME(host, checked) ((host) != (checked) ? trapped(&instance->w2c_memory) : (void)0, (host))
"""
CALLS = """#if defined __GNUC__ || defined __clang__
#pragma GCC diagnostic pop
#endif

/* The module's calls by their exported names. */
"""


def stop(why):
    sys.exit(f"portable.py: {why}")


def parts_of(text):
    """The functions of the module by their names, in order, and the calls that it exports."""
    functions, exports = {}, {}
    pattern = re.compile(r"^(?:/\* export: '(\w+)' \*/\n)?((?:static )?[\w*]+ (\w+)\(Z_\w+_instance_t\*? ?\*?instance[^)]*\)) \{\n(.*?)^\}\n", re.M | re.S)
    for exported, head, name, body in pattern.findall(text):
        inner = CALL.findall(body)
        if exported and inner:
            (exports[exported],) = inner
        elif not exported and not name.startswith("init_") and not name.startswith("Z_"):
            functions[name] = (head, body)
    return functions, exports


# The most bytes of a copy, and of one memset, that compilers write as moves.
MOVES, FILLED = 256, 64


class Slots:
    """What is known of the values on the module's operand stack and of its variables while the lines of a function are read."""

    def __init__(self):
        # A sum is the name of a value, which is a number of its own, and an offset from it.
        self.cut, self.numbers, self.sums, self.names, self.straight = set(), {}, {}, 0, 0

    def read(self, line):
        """Takes note of what a line does."""
        if match := CUT.fullmatch(line):
            # The value that is cut, and the value of 64 bits that it was cut from, have the same slot and are there together.
            self.cut.add(match[1])
        elif match := SET.match(line):
            self.set(*match.groups())
        elif match := KEPT.fullmatch(line):
            self.sums.pop(match[1], None)
            if match[2]:
                self.sums[match[1]] = self.sum_of(match[2])
        elif JUMP.fullmatch(line):
            self.straight += 1
        elif re.search(r"[{}:]|goto", line):
            self.straight += 1
            self.numbers, self.sums = {}, {}

    def sum_of(self, name):
        """The sum that a slot or a variable holds."""
        if name not in self.sums:
            self.names += 1
            self.sums[name] = (self.names, 0)
        return self.sums[name]

    def set(self, kind, slot, operator, value):
        """A slot gets a value: a number, a variable, or what it had and a number."""
        self.cut.discard(slot)
        if kind == "j":
            name = f"j{slot}"
            before = self.sums.pop(name, None)
            self.numbers.pop(slot, None)
            if operator == "" and value.endswith("ull"):
                self.numbers[slot] = int(value[:-3])
            elif operator == "" and re.fullmatch(r"w2c_[lp]\d+", value):
                self.sums[name] = self.sum_of(value[4:])
            elif operator == "+" and before and value[5:] in self.numbers and self.numbers[value[5:]] < 1 << 31:
                self.sums[name] = (before[0], before[1] + self.numbers[value[5:]])


class Access:
    """A read or a write of a number: what it is, its slot, its offset from there, and its width."""

    def __init__(self, name, slot, offset):
        self.name, self.slot, self.offset = name, slot, int(re.sub(r"\D", "", offset or "0"))
        self.width = int((re.search(r"(?:load|store)(\d+)", name) or re.search(r"(\d+)", name))[1]) // 8
        self.region = self.group = self.start = None


def lies(region, start, width, written):
    """Whether some bytes after an address lie in its region, whatever happens."""
    return isinstance(region, Region) and region.low <= start and start + width <= region.high and not (written and "read" in region.parts)


def accesses_of(function):
    """
    The accesses of a function by their lines. One that lies in a region has it. Others in straight code, from one variable and of one kind,
    are a group if there are two or more: all of them happen, or none.
    """
    slots, found, groups = Slots(), {}, {}
    for number, line in enumerate(function.lines):
        if match := LOAD.fullmatch(line):
            access = Access(match[2], match[3], match[4])
        elif match := STORE.fullmatch(line):
            access = Access(match[1].lstrip(), match[2], match[3])
        else:
            access = None
        if access:
            found[number] = access
            if access.slot not in slots.cut:
                stop(f"an address that is not cut: {line}")
            written = "store" in access.name
            region = function.before.get(number, {}).get(f"j{access.slot}")
            if lies(region, access.offset, access.width, written):
                access.region = region
            else:
                name, offset = slots.sum_of(f"j{access.slot}")
                access.start = offset + access.offset
                groups.setdefault((slots.straight, name, written), []).append(access)
        slots.read(line)
    for number, group in enumerate(group for group in groups.values() if len(group) > 1):
        for access in group:
            access.group = (number, group)
    return found


class Known:
    """The host's addresses of bytes that lie in a region. The pointers that they need at the function's start are kept."""

    def __init__(self, checked):
        self.checked, self.pointers = checked, {}

    def address(self, region, address, offset, width, written):
        """The host's address of some bytes. Where all is checked, they are found once more, and both addresses compared."""
        def within(address):
            part = "STACK" if region.parts == {"stack"} else "EITHER" if "stack" in region.parts else "STATE"
            return f"IN_{part}{'_WRITTEN' if part != 'STACK' and 'read' not in region.parts else ''}({address})"

        if region.root and region.parts != {"stack"}:
            self.pointers[region.root] = f"{'const ' if 'read' in region.parts else ''}u8 *near_{region.root} = {within(f'w2c_{region.root}')};"
            found = f"near_{region.root} + {region.offset + offset}"
        else:
            found = within(f"{address} + {offset}u")
        return f"SAME({found}, {'written_at' if written else 'at'}({MEMORY}, {address} + {offset}u, {width}))" if self.checked else found

    def copy(self, to, start, size):
        """A copy between regions, or None where it is to be checked. Both addresses come with what is known of them."""
        if not (isinstance(size, int) and size > 0 and lies(to[0], 0, size, True) and lies(start[0], 0, size, False)):
            return None
        target, source = self.address(*to, 0, size, True), self.address(*start, 0, size, False)
        if not to[0].parts & start[0].parts:
            return f"memcpy({target}, {source}, {size});"
        return f"COPY({target}, {source}, {size});" if size <= MOVES else f"memmove({target}, {source}, {size});"

    def fill(self, to, value, size):
        """The same for bytes that get a value."""
        if not (isinstance(size, int) and lies(to[0], 0, size, True)):
            return None
        target = self.address(*to, 0, size, True)
        if size > MOVES:
            return f"fill({target}, {value}, {size});"
        return " ".join(f"memset({target} + {at}, (u8){value}, {min(FILLED, size - at)});" for at in range(0, size, FILLED))


def with_whole_addresses(name, function, checked=False):
    """A function's body, in which no address is cut, and how many of its accesses are checked, lie in a region, or are in a group."""
    found, known, slots, lines, pointers = accesses_of(function), Known(checked), Slots(), [], []

    def whole(slot):
        if slot not in slots.cut:
            stop(f"{name}: an address that is not cut: {line}")
        return f"w2c_j{slot}"

    def place(access):
        """The name of an access, and its address."""
        address = f"w2c_j{access.slot} + {access.offset}u"
        if access.region:
            return f"known_{access.name}", known.address(access.region, f"w2c_j{access.slot}", access.offset, access.width, "store" in access.name)
        if access.group is None:
            return access.name, f"{MEMORY}, {address}"
        number, group = access.group
        first = min(each.start for each in group)
        if access is group[0]:
            length = max(each.start + each.width for each in group) - first
            kind = "WRITTEN" if "store" in access.name else "READ"
            pointers.append(f"{kind}_NEAR near{number};")
            lines.append(f"  near{number} = {kind}_AT({MEMORY}, w2c_j{access.slot} + {access.offset}u - {access.start - first}u, {length});")
        return f"near_{access.name}", f"{MEMORY}, near{number} + {access.start - first}"

    for number, line in enumerate(function.lines):
        if number in found:
            called, where = place(found[number])
            if match := LOAD.fullmatch(line):
                new = f"{match[1]} = {called}({where});"
            else:
                match = STORE.fullmatch(line)
                new = f"  {called}({where}, {match[4]});"
        elif match := COPY.fullmatch(line):
            indent, *places = match.groups()
            to, start, size = ((function.before.get(number, {}).get(f"j{each}"), whole(each)) for each in places)
            new = indent + (known.copy(to, start, size[0]) or f"memory_copy({MEMORY}, {MEMORY}, {to[1]}, {start[1]}, {size[1]});")
        elif match := FILL.fullmatch(line):
            indent, to, value, count = match.groups()
            to, size = ((function.before.get(number, {}).get(f"j{each}"), whole(each)) for each in (to, count))
            new = indent + (known.fill(to, value, size[0]) or f"memory_fill({MEMORY}, {to[1]}, {value}, {size[1]});")
        elif "w2c_memory" in line or "CALL_INDIRECT" in line or "w2c_T" in line:
            stop(f"{name}: a line of no known form: {line}")
        else:
            new = line
        slots.read(line)
        lines.append(new)
        if number in function.frames:
            lines.append(f"  CHECK_FRAME({line.split()[0]}, {function.frames[number]});")
    kinds = ["region" if each.region else "near" if each.group else None for each in found.values()]
    counts = [kinds.count(None) + len(pointers), kinds.count("region"), kinds.count("near")]
    return "".join(f"  {each}\n" for each in [*pointers, *known.pointers.values()]) + "\n".join(lines), counts


def parameters_of(exports):
    """What is known of the parameters of the module's calls, from calls.c."""
    text, found = (HERE / "calls.c").read_text(), {}
    results = {name: int(offset or 0) for name, offset in re.findall(r"^#define (\w+) \(?FRAME(?: \+ (\d+)\))?$", text, re.M)}
    (frame,) = re.findall(r"^#define FRAME \(TOP - (\d+)\)$", text, re.M)
    (size,) = re.findall(r"^#define IMAGESIZE_STREAM_SIZE (\d+)$", HEADER.read_text(), re.M)
    for match in re.finditer(r"MODULE\((\w+)\)\(&in, ([^;]*)\);", text):
        known = [Region(frozenset({"stack"}), -results[each], int(frame) - results[each]) if each in results
                 else Region(frozenset({"state"}), 0, int(size)) if each == "STATE"
                 else Region(frozenset({"read"}), 0, int(size)) if each == "READ_STATE" else None for each in match[2].split(", ")]
        # A macro defines several calls.
        macros = re.findall(r"^#define (DEFINE_\w+)\(name\)", text[:match.start()], re.M)
        for name in re.findall(rf"^{macros[-1]}\((\w+)\)$", text, re.M) if match[1] == "name" else [match[1]]:
            found[exports[name]] = known
    return found


def depths(functions):
    """The greatest depth of the module's stack below each function."""
    known, open_ones = {}, set()

    def depth(name):
        if name in open_ones:
            stop(f"{name} calls itself")
        if name not in known:
            open_ones.add(name)
            body = functions[name][1]
            spaces = SPACE.findall(body)
            frames = [int(size) for size, what in spaces if what == "w2c_j0 -= w2c_j1;"]
            # Each use of the stack pointer takes a frame, compares, or sets it.
            if len(frames) > 1 or body.count("w2c_g0") != len(spaces) + len(MOVED.findall(body)):
                stop(f"{name}: its frame on the stack has no known form")
            known[name] = sum(frames) + max((depth(called) for called in CALL.findall(body)), default=0)
            open_ones.remove(name)
        return known[name]

    for name in functions:
        depth(name)
    return known


def constants_of(text):
    """The first address of the module's constants, and their bytes."""
    segments = {name: bytes(int(byte, 16) for byte in re.findall(r"0x(\w\w)", body))
                for name, body in re.findall(r"^static const u8 (data_segment_data_\w+)\[\] = \{\n(.*?)^\};", text, re.M | re.S)}
    placed = [(int(start), segments[name], int(size))
              for start, name, size in re.findall(r"LOAD_DATA\(instance->w2c_memory, (\d+)u, (\w+), (\d+)\);", text)]
    if len(placed) != len(segments) or any(len(data) != size for _, data, size in placed):
        stop("constants without an address")
    first = min(start for start, _, _ in placed)
    found = bytearray(max(start + size for start, _, size in placed) - first)
    for start, data, size in placed:
        found[start - first:start - first + size] = data
    return first, bytes(found)


def globals_of(text, header):
    """The module's variables that its functions use, as members of an instance, with their first values."""
    (members,) = re.findall(r"^typedef struct Z_\w+_instance_t \{\n(.*?)^\}", header, re.M | re.S)
    first = dict(re.findall(r"instance->(\w+) = (\d+)u(?:ll)?;", re.search(r"^static void init_globals.*?^\}", text, re.M | re.S)[0]))
    if not set(re.findall(r"^  u(?:32|64) (\w+);$", members, re.M)) == set(first) or "w2c_g0" not in first:
        stop("variables of another form")
    return {name: (kind, int(first[name])) for kind, name in re.findall(r"^  (u32|u64) (\w+);$", members, re.M)}


def main(source, out, *options):
    checked = "--checked" in options
    text, header = pathlib.Path(source).read_text(), pathlib.Path(source).with_suffix(".h").read_text()
    functions, exports = parts_of(text)
    wanted = re.findall(r"^(?:uint32_t|void) (imagesize_\w+)\(", HEADER.read_text(), re.M)
    if missing := [name for name in wanted if name not in exports]:
        stop(f"the module has no {', '.join(missing)}")
    depth = depths(functions)
    deepest = max(depth[exports[name]] for name in wanted)
    first, constants = constants_of(text)
    variables = globals_of(text, header)
    top = variables.pop("w2c_g0")[1]
    if max(top, first + len(constants)) > 1 << 30:
        stop("the module's memory reaches the addresses of the caller's buffers")
    frame = 64  # as calls.c has it
    room = (deepest * 3 // 2 + frame + 15) // 16 * 16
    used, todo = set(), [exports[name] for name in wanted]
    while todo:
        name = todo.pop()
        if name not in used:
            used.add(name)
            todo += CALL.findall(functions[name][1])
    kept = {name: function for name, function in functions.items() if name in used}
    bodies = "".join(body for _, body in kept.values())
    variables = {name: each for name, each in variables.items() if f"->{name}" in bodies}
    read = functions_of({name: body for name, (_, body) in kept.items()}, parameters_of(exports))
    changed = {name: (head, *with_whole_addresses(name, read[name], checked)) for name, (head, _) in kept.items()}
    checks, known, near = (sum(counts[at] for *_, counts in changed.values()) for at in range(3))
    rows = [", ".join(map(str, constants[at:at + 32])) for at in range(0, len(constants), 32)]
    licence = (HERE / "LICENSE-wasm2c").read_text()
    pieces = [
        (HERE / "head.c").read_text(),
        f"/* The module's stack. The deepest call takes {deepest} bytes of it, and there is room for half as much again. */\n",
        f"#define TOP UINT64_C({top})\n#ifndef ROOM\n#define ROOM UINT64_C({room})\n#endif\n\n",
        "/* The module's other variables. */\n",
        f"#define VARIABLES {' '.join(f'{kind} {name};' for name, (kind, _) in variables.items())}\n",
        f"#define SET_VARIABLES(in) {' '.join(f'(in)->{name} = {value};' for name, (_, value) in variables.items())}\n\n",
        "/* The module's constants. */\n",
        f"#define DATA UINT64_C({first})\n",
        "static const unsigned char constants[] = {\n" + "".join(f"    {row},\n" for row in rows) + "};\n\n",
        (HERE / "runtime.h").read_text(), CHECKED if checked else "", MODULE,
        "".join(f"{head};\n" for head, _ in kept.values()), "\n",
        "".join(f"{head}\n{{\n{body}}}\n\n" for head, body, _ in changed.values()),
        CALLS,
        "#define MODULE(name) MODULE_##name\n",
        "".join(f"#define MODULE_{name} {exports[name]}\n" for name in wanted),
        (HERE / "calls.c").read_text(),
        f"\n/*\n{licence}*/\n",
    ]
    pathlib.Path(out).write_text("".join(pieces))
    print(f"{len(kept)} functions, constants of {len(constants)} bytes, stack of {deepest} bytes, room for {room}; {checks} checks, "
          f"{known} accesses that need none, {near} in groups")


if __name__ == "__main__":
    main(*sys.argv[1:])
