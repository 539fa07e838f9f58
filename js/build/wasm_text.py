"""The text of an LLVM module of x86-64, as rt writes it, made one of WebAssembly of 32 bits.

`usize` stays a number of 64 bits, and a pointer in memory keeps its eight bytes, so the place of no field changes. In
registers a pointer has the 32 bits of the target. So each load and store of a pointer goes through a number of 64 bits.
"""
import re

TRIPLE = "wasm32-unknown-unknown"
NAME = r'(?:@"[^"]*"|@[\w.$-]+)'
LOCAL = r"%[\w.]+"
# What says how x86-64 lays out frames and calls.
FOREIGN = re.compile(r' (?:"(?:probe-stack|stack-probe-size|target-cpu|frame-pointer)"="[^"]*"|sanitize_address\b)')
LOAD = re.compile(rf"  ({LOCAL}) = load ptr, ptr (.+?), align (\d+)")
LOAD_OF_PAIR = re.compile(rf"  ({LOCAL}) = load \{{ (ptr|i\d+), (ptr|i\d+) \}}, ptr ([^,]+), align 8")
STORE = re.compile(rf"  store ptr ({NAME}|{LOCAL}|null), ptr (.+?), align (\d+)")
COPY = re.compile(r"  call void @llvm\.(mem\w+[.p0]*)\.i64\((.*), i64 (%\w+|\d+), i1 false\)")
DECLARED_COPY = re.compile(r"(declare void @llvm\.mem\w+[.p0]*)\.i64\((.*?)i64, i1")
CONSTANT = re.compile(rf"({NAME} = .*?\bconstant )(<\{{.*?\}}>)(.*\bptr\b.*)")
POINTER = re.compile(rf"\bptr (getelementptr (?:inbounds )?\([^)]*\)|{NAME}|null)(?=[,}} ])")
# What a line must not have once it is one of WebAssembly.
LEFT = re.compile(r"\b(?:load|store) (?:ptr\b|\{[^}]*\bptr\b|\[)|\balloca ptr|\bptrtoaddr\b|llvm\.mem[\w.]*\.i64")


def renamed(text, names):
    """The text in which each of these functions has its bare name, and those of them that are not seen from outside."""
    choice = "|".join(names)
    found = re.findall(rf'^define (internal )?[^\n@]*@("(?:\w+::)*({choice})"|({choice}))\(', text, flags=re.M)
    internal = {}
    for is_internal, path, bare, plain in found:
        if is_internal:
            internal[bare or plain] = path
    for name in names:
        if name in {plain for is_internal, _, _, plain in found if not is_internal}:
            internal.pop(name, None)
        elif name not in internal:
            raise ValueError(f"the module has no function {name}")
    for name, path in internal.items():
        text = text.replace(f"@{path}(", f"@{name}(")
    return text, internal


def load(found, _):
    result, pointer, align = found.groups()
    return f"  {result}.number = load i64, ptr {pointer}, align {align}\n  {result} = inttoptr i64 {result}.number to ptr"


def part_of_pair(result, number, kind, pointer):
    """The lines that load one part of a pair."""
    lines, at = [], pointer
    if number == 1:
        at = f"{result}.at"
        lines.append(f"  {at} = getelementptr i8, ptr {pointer}, i64 8")
    if kind != "ptr":
        return [*lines, f"  {result}.part{number} = load {kind}, ptr {at}, align 8"]
    return [
        *lines,
        f"  {result}.number{number} = load i64, ptr {at}, align 8",
        f"  {result}.part{number} = inttoptr i64 {result}.number{number} to ptr",
    ]


def load_of_pair(found, _):
    result, first, second, pointer = found.groups()
    if "ptr" not in (first, second):
        return found.string
    pair = f"{{ {first}, {second} }}"
    lines = part_of_pair(result, 0, first, pointer) + part_of_pair(result, 1, second, pointer)
    lines.append(f"  {result}.half = insertvalue {pair} undef, {first} {result}.part0, 0")
    lines.append(f"  {result} = insertvalue {pair} {result}.half, {second} {result}.part1, 1")
    return "\n".join(lines)


def store(found, number):
    value, pointer, align = found.groups()
    if value == "null":
        return f"  store i64 0, ptr {pointer}, align {align}"
    if value.startswith("@"):
        return f"  store i64 ptrtoint (ptr {value} to i64), ptr {pointer}, align {align}"
    stored = f"%stored{number}"
    return f"  {stored} = ptrtoint ptr {value} to i64\n  store i64 {stored}, ptr {pointer}, align {align}"


def copy(found, number):
    """Lengths of copies and fills have 32 bits."""
    call, places, length = found.groups()
    if length.isdigit():
        return f"  call void @llvm.{call}.i32({places}, i32 {length}, i1 false)"
    short = f"%length{number}"
    return f"  {short} = trunc i64 {length} to i32\n  call void @llvm.{call}.i32({places}, i32 {short}, i1 false)"


def constant(found, _):
    """A pointer in a constant has four bytes of 0 behind it."""
    head, kinds, value = found.groups()
    return head + re.sub(r"\bptr\b", "ptr, i32", kinds) + POINTER.sub(r"ptr \1, i32 0", value)


# What a line has of which one of these makes a line of WebAssembly.
STEPS = [
    ("= load ptr", LOAD, load),
    ("= load {", LOAD_OF_PAIR, load_of_pair),
    ("  store ptr", STORE, store),
    (" @llvm.mem", COPY, copy),
    (" constant <{", CONSTANT, constant),
]


def without_target(line):
    """A line of the module's head or foot, without what names x86-64."""
    if line.startswith("target triple"):
        return f'target triple = "{TRIPLE}"'
    # a group must have something
    return re.sub(r"\{ *\}", "{ nounwind }", FOREIGN.sub("", line))


def line_for_wasm(line, number):
    """The lines of WebAssembly that a line becomes; `number` is its own."""
    for sign, pattern, step in STEPS:
        if sign in line:
            found = pattern.match(line)
            return step(found, number) if found else line
    if line.startswith(("target", "attributes")):
        return without_target(line)
    # LLVM 22 makes a wrong module of ptrtoaddr
    return line.replace("= alloca ptr", "= alloca i64").replace("= ptrtoaddr ptr", "= ptrtoint ptr")


def for_wasm(text, exports):
    """The module as one of WebAssembly, in which `exports` are seen from outside."""
    text, internal = renamed(text, exports)
    heads = tuple(f"@{name}(" for name in internal)
    lines = []
    for number, line in enumerate(text.split("\n")):
        if line.startswith(("target datalayout", "; ModuleID")):
            continue
        if line.startswith("define internal") and heads and any(head in line for head in heads):
            line = line.replace("define internal", "define", 1)
        is_declared = line.startswith("declare")
        lines.append(DECLARED_COPY.sub(r"\1.i32(\2i32, i1", line) if is_declared else line_for_wasm(line, number))
    left = [line for line in lines if LEFT.search(line)]
    if left:
        raise ValueError(f"{len(left)} lines were not made ones of WebAssembly, the first: {left[0]}")
    return "\n".join(lines)
