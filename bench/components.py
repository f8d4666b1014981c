"""Makes components, and tables of what is measured on them.

components.py make FOLDER [DEFINITIONS..], components.py tables PROGRAM FOLDER, which has them in components/.
"""

import glob
import os
import shutil
import subprocess
import sys
import time

from wasm_bytes import COMPONENT_HEADER, CORE_HEADER, name, number, section, vector

COUNTS = [1000 << doubled for doubled in range(8)]
SIZES = [1, 4, 16]
# Of the program on all components of a kind, and of copies and processes
ROUNDS = 12
RUNS = 20

# Ids of sections
CUSTOM, CORE_MODULE, CORE_INSTANCE, ALIAS, TYPE, CANONICAL, IMPORT, EXPORT = 0, 1, 2, 6, 7, 8, 10, 11


def index(n):
    """The value type at this index, in signed LEB128."""
    found = bytearray()
    while n >= 64:
        found.append(n % 128 + 128)
        n //= 128
    found.append(n)
    return bytes(found)


RECORD = b"\x72\2" + name("left") + b"\x79" + name("right") + b"\x73"


def list_of(ty):
    return b"\x70" + index(ty)


def function_type(param, result):
    return b"\x40\1" + name("items") + index(param) + b"\0" + index(result)


def imported(place, ty):
    return b"\0" + name(f"import-{place:06}") + b"\1" + number(ty)


def exported(place, function):
    return b"\0" + name(f"export-{place:06}") + b"\1" + number(function) + b"\0"


def types(count):
    """Records, lists of them, functions of both, imports of these functions, and their exports, a section for each kind."""
    records = count // 8
    functions = 2 * records
    made = [RECORD] * records
    made += [list_of(place) for place in range(records)]
    made += [function_type(records + place % records, place % records) for place in range(functions)]
    imports = [imported(place, 2 * records + place) for place in range(functions)]
    exports = [exported(place, place) for place in range(functions)]
    return vector(TYPE, made) + vector(IMPORT, imports) + vector(EXPORT, exports)


def sections(count):
    """The same in turn, five definitions in three sections."""
    made = []
    for place in range(count // 5):
        first = 3 * place
        made.append(vector(TYPE, [RECORD, list_of(first), function_type(first + 1, first)]))
        made.append(vector(IMPORT, [imported(place, first + 2)]))
        made.append(vector(EXPORT, [exported(place, 2 * place)]))
    return b"".join(made)


def aliases(count):
    """Aliases of core functions of an instance, and as many lifts and lowers in turn, each with two options."""
    lifts = (count - 4) // 3
    core_functions = count - 4 - 2 * lifts
    options = b"\2\0\3\0"
    named = [b"\0\2\1\0" + name("memory")]
    named += [b"\0\0\1\0" + name(f"function-{place:06}") for place in range(core_functions)]
    joined = []
    for place in range(lifts):
        joined.append(b"\0\0" + number(place) + options + b"\0")
        joined.append(b"\1\0" + number(place) + options)
    module = section(CORE_MODULE, CORE_HEADER) + vector(CORE_INSTANCE, [b"\0\0\0"])
    return module + vector(TYPE, [b"\x40\0\1\0"]) + vector(ALIAS, named) + vector(CANONICAL, joined)


def module(mebibytes):
    """One core module, with a custom section of that size."""
    content = name("padding") + bytes(range(256)) * (mebibytes << 12)
    return section(CORE_MODULE, CORE_HEADER + section(CUSTOM, content))


KINDS = {"types": types, "sections": sections, "aliases": aliases}


def make(folder, *counts):
    def keep(kind, amount, content):
        with open(os.path.join(folder, f"{kind}-{amount:07}.wasm"), "wb") as file:
            file.write(COMPONENT_HEADER + content)

    for kind, made in KINDS.items():
        for count in [int(it) for it in counts] or COUNTS:
            keep(kind, count, made(count))
    for size in SIZES:
        keep("module", size, module(size))


def line(words):
    print("| " + " | ".join(words) + " |", flush=True)


def head(words):
    print()
    line(words)
    line(["---"] * len(words))


class Measured:
    """What the program says of a component, in seconds where it is a time."""

    TIMES = ["read", "finish", "whole", "file", "null"]

    def __init__(self, text):
        self.path, size, count, *took, spelling = text.rsplit(None, 8)
        self.bytes, self.count = int(size), int(count)
        for what, nanoseconds in zip(self.TIMES, took):
            setattr(self, what, int(nanoseconds) / 1e9)
        if spelling != "same":
            print(f"what was written of {os.path.basename(self.path)} is not that file", file=sys.stderr)

    def with_less(self, other):
        for what in self.TIMES:
            setattr(self, what, min(getattr(self, what), getattr(other, what)))


def measured(program, folder, kind):
    """The least of some rounds over all components of a kind, so that what else the machine does falls on all of them."""
    paths = sorted(glob.glob(os.path.join(folder, "components", f"{kind}-*.wasm")))
    words = [program, "measure", os.path.join(folder, "out"), *paths]
    least = {}
    for _ in range(ROUNDS):
        for text in subprocess.run(words, check=True, stdout=subprocess.PIPE, text=True).stdout.splitlines():
            row = Measured(text)
            least.setdefault(row.path, row).with_less(row)
    return list(least.values())


def table_of_kind(program, folder, kind):
    columns = ["read", "finish", "file"]
    labels = {"read": "read, s", "finish": "add and finish, s", "file": "write_to, s"}
    words = [f"{kind}, definitions", "bytes"]
    for column in columns:
        words += [labels[column], "MB/s", "ratio"]
    head([*words, "/dev/null, s", "ratio"])
    before = None
    for row in measured(program, folder, kind):
        cells = [f"{row.count:,}", f"{row.bytes:,}"]
        for column in [*columns, "null"]:
            seconds = getattr(row, column)
            rate = [] if column == "null" else [f"{row.bytes / seconds / 1e6:.1f}"]
            ratio = f"{seconds / getattr(before, column):.2f}" if before else ""
            cells += [f"{seconds:.6f}", *rate, ratio]
        line(cells)
        before = row


def seconds_of_copy(path, out):
    """The least of some copies within this process."""
    least = None
    for _ in range(RUNS):
        start = time.perf_counter()
        shutil.copyfile(path, out)
        took = time.perf_counter() - start
        os.remove(out)
        least = min(took, least or took)
    return least


def size_of(row):
    return f"{row.bytes >> 20} MiB"


def times(*numbers):
    return [f"{it:.2f}" for it in numbers]


def table_of_modules(folder, rows):
    """What the calls take, beside a copy without a process of its own."""
    labels = ["read", "add and finish", "that and write", "write_to", "/dev/null", "copy"]
    ratios = ["finish / copy", "and write / copy", "write_to / copy"]
    head(["module", *[f"{it}, s" for it in labels], *ratios])
    for row in rows:
        copy = seconds_of_copy(row.path, os.path.join(folder, "out"))
        cells = [f"{it:.6f}" for it in [row.read, row.finish, row.whole, row.file, row.null, copy]]
        line([size_of(row), *cells, *times(row.finish / copy, row.whole / copy, row.file / copy)])


def run(words):
    """The seconds from the start of a process to its end, and its peak memory in bytes."""
    start = time.perf_counter()
    child = os.posix_spawnp(words[0], words, os.environ)
    _, status, usage = os.wait4(child, 0)
    took = time.perf_counter() - start
    if status != 0:
        sys.exit(f"{' '.join(words)} failed")
    return took, usage.ru_maxrss * (1 if sys.platform == "darwin" else 1024)


def table_of_processes(program, folder, rows):
    """What whole processes take that read a component's file and write the component, in rounds over all of them."""
    out = os.path.join(folder, "out")
    least, peak = {}, {}
    for _ in range(RUNS):
        for row in rows:
            for what in ["read", "finish", "write", "cp"]:
                took, memory = run(["cp", row.path, out] if what == "cp" else [program, what, out, row.path])
                if what != "read":
                    os.remove(out)
                least[row, what] = min(took, least.get((row, what), took))
                peak[row, what] = max(memory, peak.get((row, what), 0))
    head(["module", "read, s", "finish, s", "write_to, s", "cp, s", "finish / cp", "write_to / cp"])
    for row in rows:
        read, finish, write, cp = (least[row, what] for what in ["read", "finish", "write", "cp"])
        line([size_of(row), *[f"{it:.4f}" for it in [read, finish, write, cp]], *times(finish / cp, write / cp)])
    # Of smaller modules this could be the memory of this script, which a child has before it runs the program.
    row = rows[-1]
    print()
    for what in ["finish", "write"]:
        found = peak[row, what]
        print(f"peak memory of {what}, {size_of(row)}: {found / (1 << 20):.1f} MiB, {found / row.bytes:.2f} times the file")


def tables(program, folder):
    for kind in KINDS:
        table_of_kind(program, folder, kind)
    rows = measured(program, folder, "module")
    table_of_modules(folder, rows)
    table_of_processes(program, folder, rows)


if sys.argv[1] == "make":
    make(*sys.argv[2:])
else:
    tables(*sys.argv[2:])
