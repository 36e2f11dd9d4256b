"""Which addresses of the module's functions lie in a part of its memory whatever happens, and how far that part reaches around them.

`functions_of` follows the values of each function along its jumps, callers first. A value is None if nothing is known of it, a number, STACK
if it is the stack pointer, or a Region. An access within its region needs no check.
"""

import re
from collections import namedtuple

# An address. The bytes from `low` up to `high` after it lie in one of the parts: "stack", the module's own; "state", the caller's push
# parser or probe; "read", such a state that the call does not write. `root` is the parameter that the address was computed from, by adding
# `offset`, or None.
Region = namedtuple("Region", "parts low high root offset", defaults=(None, 0))
STACK = "the stack pointer"
# How often a line is read before what differs there counts as unknown.
PATIENCE = 50

CALL = re.compile(r"\b(w2c_\w+)\(instance((?:, w2c_\w+)*)\)")
LABEL = re.compile(r" *(w2c_[BL]\w+): ?;?")
SET = re.compile(r" *w2c_(\w+) ([-+*/%&|^]|<<|>>|)= (.+);")
BRANCH = re.compile(r" *if \(w2c_i\d+\) \{(.*)goto (w2c_\w+);\}")
IF = re.compile(r" *if \(w2c_i\d+\) \{")
SWITCH = re.compile(r" *switch \(w2c_i\d+\) \{")
CASE = re.compile(r" *(?:case \d+|default): (.*)goto (w2c_\w+);")
GOTO = re.compile(r" *goto (w2c_\w+);")
END = re.compile(r" *(?:UNREACHABLE;|return\b.*;)")
CHOICE = re.compile(r"w2c_i\d+ \? w2c_(\w+) : w2c_(\w+)")
VARIABLES = r"w2c_\w+(?: = 0)?(?:, w2c_\w+(?: = 0)?)*(?:;|, ?)"
OTHER = re.compile(rf" *(?:(?:u(?:32|64) )?{VARIABLES}|FUNC_\w+;|instance->w2c_\w+ = w2c_\w+;|i(?:32|64)_store\w*\(.*;|memory_\w+\(.*;|w2c_\w+\(instance.*;|)")


def stop(line):
    raise SystemExit(f"regions.py: a line of no known form: {line}")


def jumps_of(lines):
    """The lines that may come after each line, each with the assignments on the way there."""
    labels = {match[1]: at for at, line in enumerate(lines) if (match := LABEL.fullmatch(line))}
    nexts, opened = [[(at + 1, "")] for at in range(len(lines) - 1)] + [[]], []

    def to(label):
        return labels[label] if label in labels else stop(label)

    def close(*kinds):
        return opened.pop() if opened and opened[-1][0] in kinds else stop("a block that does not begin")

    for at, line in enumerate(lines):
        if match := BRANCH.fullmatch(line):
            nexts[at].append((to(match[2]), match[1]))
        elif match := CASE.fullmatch(line):
            opened.append(close("switch"))
            nexts[opened[-1][1]].append((at, ""))
            nexts[at] = [(to(match[2]), match[1])]
        elif match := GOTO.fullmatch(line):
            nexts[at] = [(to(match[1]), "")]
        elif IF.fullmatch(line):
            opened.append(("if", at))
        elif SWITCH.fullmatch(line):
            opened.append(("switch", at))
            nexts[at] = []
        elif line.strip() == "} else {":
            _, start = close("if")
            nexts[start].append((at + 1, ""))
            opened.append(("else", at))
        elif line.strip() == "}":
            kind, start = close("if", "else", "switch")
            if kind == "if":
                nexts[start].append((at, ""))
            elif kind == "else":
                nexts[start] = [(at, "")]
        elif END.fullmatch(line):
            nexts[at] = []
        elif not (LABEL.fullmatch(line) or SET.fullmatch(line) or OTHER.fullmatch(line)):
            stop(line)
    if opened:
        stop("a block that does not end")
    return nexts


def moved(value, by):
    """A value plus a number."""
    if isinstance(value, int):
        return (value + by) % 2 ** 64
    if not isinstance(value, Region):
        return None
    by = by - 2 ** 64 if by >= 2 ** 63 else by
    return value._replace(low=value.low - by, high=value.high - by, offset=value.offset + by)


def either(one, other):
    """What is known of a value that is one of two."""
    if one == other:
        return one
    if not (isinstance(one, Region) and isinstance(other, Region)):
        return None
    root = (one.root, one.offset) if (one.root, one.offset) == (other.root, other.offset) else (None, 0)
    both = Region(one.parts | other.parts, max(one.low, other.low), min(one.high, other.high), *root)
    return both if both.low < both.high else None


class Function:
    """The values of a function's variables along its jumps, from those of its parameters on."""

    def __init__(self, body, parameters=()):
        self.lines = body.split("\n")
        self.nexts = jumps_of(self.lines)
        self.frames = {}  # the sizes of frames by the lines that compute their addresses
        self.calls = []  # the functions that are called, and the values of their parameters
        self.before = {}  # the values before each line that may run
        start = {f"p{at}": value._replace(root=f"p{at}" if value.low <= 0 <= value.high else None, offset=0) if isinstance(value, Region) else value
                 for at, value in enumerate(parameters) if value is not None}
        # The lines that have more than one line before them, or one that jumps.
        self.starts, seen = {0}, set()
        for at, nexts in enumerate(self.nexts):
            for each, _ in nexts:
                if each in seen or each != at + 1 or len(nexts) > 1:
                    self.starts.add(each)
                seen.add(each)
        entries = self.entries(start)
        for at, values in entries.items():
            self.run(at, dict(values), True)

    def entries(self, start):
        """The values before each line of `starts` that may run."""
        entries, visits, todo = {0: start}, {}, [0]
        while todo:
            at = todo.pop()
            visits[at] = visits.get(at, 0) + 1
            last, values = self.run(at, dict(entries[at]), False)
            for each, way in self.nexts[last]:
                there = dict(values)
                for assignment in filter(None, way.split("; ")):
                    self.step(f"{assignment.rstrip('; ')};", there)
                old = entries.get(each)
                new = there if old is None else {name: value for name, known in old.items()
                                                 if (value := either(known, there.get(name))) is not None}
                if old is not None and visits.get(each, 0) > PATIENCE:
                    new = {name: value for name, value in new.items() if value == old[name]}
                if new != old:
                    entries[each] = new
                    todo.append(each)
        return entries

    def run(self, at, values, kept):
        """Runs the lines from one of `starts` up to the next, and returns the last of them with the values after it."""
        while True:
            if kept:
                self.before[at] = dict(values)
            self.step(self.lines[at], values, at if kept else None)
            nexts = self.nexts[at]
            if len(nexts) != 1 or nexts[0][1] or nexts[0][0] in self.starts:
                return at, values
            at = nexts[0][0]

    def step(self, line, values, at=None):
        """What a line does to the values. With its number, its call and its frame are kept."""
        if at is not None:
            for name, arguments in CALL.findall(line):
                self.calls.append((name, [values.get(each) for each in re.findall(r"w2c_(\w+)", arguments)]))
        match = SET.fullmatch(line)
        if not match:
            return
        name, operator, text = match.groups()
        mine, value = values.pop(name, None), None
        other = mine if text == f"w2c_{name}" else values.get(text[4:])
        if name[0] == "i":
            return
        if operator == "+":
            value = moved(mine, other) if isinstance(other, int) else moved(other, mine) if isinstance(mine, int) else None
        elif operator == "-" and isinstance(other, int):
            value = Region(frozenset({"stack"}), 0, other) if mine == STACK else moved(mine, -other % 2 ** 64)
            if at is not None and mine == STACK:
                self.frames[at] = other
        elif operator == "" and (number := re.fullmatch(r"(\d+)ull", text)):
            value = int(number[1])
        elif operator == "" and text == "instance->w2c_g0":
            value = STACK
        elif operator == "" and (choice := CHOICE.fullmatch(text)):
            value = either(*(mine if each == name else values.get(each) for each in choice.groups()))
        elif operator == "":
            value = other
        if value is not None:
            values[name] = value


def functions_of(bodies, exported):
    """The functions that are called, callers first. `exported` has the values of the parameters of those that calls.c calls."""
    order, seen = [], set()

    def visit(name):
        if name not in seen:
            seen.add(name)
            for called, _ in CALL.findall(bodies[name]):
                visit(called)
            order.append(name)

    for name in exported:
        visit(name)
    known, read = dict(exported), {}
    for name in reversed(order):
        read[name] = Function(bodies[name], known.get(name, ()))
        for called, values in read[name].calls:
            before = known.get(called, values)
            if len(before) != len(values):
                stop(f"{called}, with another number of parameters")
            known[called] = [either(*both) for both in zip(before, values)]
    return read
