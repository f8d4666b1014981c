"""Makes packages, and tables of what was measured on them: package.py make FOLDER [COUNTS..], package.py table, and package.py
count PROGRAM TEXT.., which counts instructions with valgrind.
"""

import os
import re
import subprocess
import sys

COUNTS = [1000, 2000, 4000, 8000, 16000]
HEADER = "package sample:bench@1.0.0;\n"


def block(head, parts):
    """What stands in braces behind a head."""
    yield head + " {\n"
    yield from parts
    yield "}\n"


def chain(count):
    """Interfaces, each of which uses a type of the one before it."""
    yield from block("interface i0", ["    type t = u32;\n"])
    for number in range(1, count):
        yield from block(f"interface i{number}", [f"    use i{number - 1}.{{t}};\n"])


def types(count):
    """Records in one interface, each of which has a field of the one before it."""
    first = "    record t0 {\n        first: u32,\n    }\n"
    others = (
        f"    record t{number} {{\n        before: list<t{number - 1}>,\n    }}\n"
        for number in range(1, count)
    )
    yield from block("interface i", [first, *others])


def cases(count):
    """Cases of one enum."""
    names = (f"        case-{number},\n" for number in range(count))
    yield from block("interface i", ["    enum e {\n", *names, "    }\n"])


def uses(count):
    """Functions in one interface that use one type."""
    record = "    record t {\n        x: u32,\n    }\n"
    functions = (f"    call-{number}: func(x: list<t>) -> option<t>;\n" for number in range(count))
    yield from block("interface i", [record, *functions])


def interfaces(count):
    """Interfaces that use one type of another."""
    yield from block("interface i", ["    type t = u32;\n"])
    for number in range(count):
        yield from block(f"interface j{number}", ["    use i.{t};\n"])


def worlds(count):
    """Imports and exports of one world."""
    sides = (
        f"    import call-{number}: func();\n    export run-{number}: func();\n"
        for number in range(count)
    )
    yield from block("world w", sides)


def foreign(count):
    """Types that are used from one interface of another package."""
    names = "".join(f"t{number}, " for number in range(count))
    yield from block("interface i", [f"    use sample:other/j@1.0.0.{{{names}}};\n"])


PATTERNS = [chain, types, cases, uses, interfaces, worlds, foreign]


def make(folder, *counts):
    for place, pattern in enumerate(PATTERNS):
        for count in [int(it) for it in counts] or COUNTS:
            path = os.path.join(folder, f"{place}_{pattern.__name__}_{count:06}.wit")
            with open(path, "w", encoding="utf-8") as file:
                file.write(HEADER + "".join(pattern(count)))


def named(path):
    """What a text is of, as `chain 001000`, from its path."""
    return os.path.basename(path).removesuffix(".wit").split("_", 1)[1].replace("_", " ")


def grown(before, pattern, value):
    """How many times the row before of one pattern a value is, as text."""
    return f"{value / before[1]:.2f}" if before[0] == pattern else ""


def table():
    """The program's lines as a table: how long a text is read, how much longer it takes with resolving, and how that grows."""
    print("| package | bytes | read, s | resolved, s | resolved / read | MB/s, both | times the one before |")
    print("| --- | --- | --- | --- | --- | --- | --- |")
    before = (None, None)
    for line in sys.stdin:
        path, size, *took = line.split()
        name = named(path)
        pattern = name.split()[0]
        if took == ["refused"]:
            print(f"| {name} | {int(size):,} | refused | | | | |")
            continue
        reading, both = [int(it) / 1e9 for it in took]
        resolving = both - reading
        print(
            f"| {name} | {int(size):,} | {reading:.4f} | {resolving:.4f} | {resolving / reading:.1f}"
            f" | {int(size) / both / 1e6:.1f} | {grown(before, pattern, resolving)} |"
        )
        before = (pattern, resolving)


def instructions(program, step, path):
    """How many instructions the program executes that takes a text so far."""
    words = ["valgrind", "--tool=cachegrind", "--cache-sim=no", "--cachegrind-out-file=/dev/null"]
    ran = subprocess.run([*words, program, step, path], stdout=subprocess.PIPE, stderr=subprocess.PIPE, text=True, check=True)
    if ran.stdout:
        sys.exit(ran.stdout)
    return int(re.search(r"I +refs: +([\d,]+)", ran.stderr)[1].replace(",", ""))


def count(program, *paths):
    """A table of instructions: those of reading a text, those that resolving adds, and how they grow."""
    print("| package | read, millions | resolved, millions | resolved / read | read, times the one before | resolved, times the one before |")
    print("| --- | --- | --- | --- | --- | --- |")
    before = (None, None, None)
    for path in paths:
        name = named(path)
        pattern = name.split()[0]
        loaded, read, resolved = [instructions(program, step, path) for step in ("load", "read", "resolve")]
        reading, resolving = read - loaded, resolved - read
        print(
            f"| {name} | {reading / 1e6:.2f} | {resolving / 1e6:.2f} | {resolving / reading:.2f}"
            f" | {grown(before[:2], pattern, reading)} | {grown(before[::2], pattern, resolving)} |",
            flush=True,
        )
        before = (pattern, reading, resolving)


if sys.argv[1] == "make":
    make(*sys.argv[2:])
elif sys.argv[1] == "count":
    count(*sys.argv[2:])
else:
    table()
