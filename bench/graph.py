"""Makes texts of packages, and a table of what was measured on them: graph.py make FOLDER [COUNTS..], graph.py table."""

import os
import sys

COUNTS = [1000, 2000, 4000, 8000, 16000]
PACKAGES = 100
FUNCTIONS = 10
HEADER = "package sample:bench@1.0.0;\n"


def block(head, parts):
    """What stands in braces behind a head."""
    yield head + " {\n"
    yield from parts
    yield "}\n"


def interface(number, used):
    """An interface with a type, its own or that of the one that it uses."""
    part = f"    use {used}.{{t}};\n" if used else "    type t = u32;\n"
    return block(f"interface i{number}", [part])


def chain(count):
    """Interfaces, each of which uses a type of the one before it."""
    for number in range(count):
        yield from interface(number, number and f"i{number - 1}")


def needed(count):
    """The same with two worlds that need all of them: one imports the last, one exports it."""
    yield from chain(count)
    yield from block("world v", [f"    import i{count - 1};\n"])
    yield from block("world w", [f"    export i{count - 1};\n"])


def packages(count):
    """The same chain over nested packages, of which the last has such a world."""
    each = max(count // PACKAGES, 1)
    for first in range(0, count, each):
        parts = []
        for number in range(first, min(first + each, count)):
            before = f"i{number - 1}"
            if number == first:
                before = f"sample:p{first // each - 1}/{before}"
            parts += interface(number, number and before)
        if first + each >= count:
            parts += block("world w", [f"    import i{count - 1};\n"])
        yield from block(f"package sample:p{first // each}", parts)


def shared(count):
    """Interfaces that use one type of another, and a world that imports them."""
    yield from interface("", None)
    for number in range(count):
        yield from interface(number, "i")
    yield from block("world w", [f"    import i{number};\n" for number in range(count)])


def included(count):
    """Worlds with a function on each side, and one that includes them all."""
    for number in range(count):
        sides = [f"    import call-{number}: func();\n", f"    export run-{number}: func();\n"]
        yield from block(f"world v{number}", sides)
    yield from block("world w", [f"    include v{number};\n" for number in range(count)])


def types(count):
    """A world with types, each made of the one before it, that another includes under new names."""
    first = "    record t0 {\n        first: u32,\n    }\n"
    others = [
        f"    record t{number} {{\n        before: list<t{number - 1}>,\n    }}\n"
        for number in range(1, count)
    ]
    yield from block("world v", [first, *others])
    names = "".join(f"t{number} as n{number}, " for number in range(count))
    yield from block("world w", [f"    include v with {{ {names}}}\n"])


def united(count):
    """Worlds that import and export one interface, and one that includes them all."""
    yield from interface("", None)
    for number in range(count):
        yield from block(f"world v{number}", ["    import i;\n    export i;\n"])
    yield from block("world w", [f"    include v{number};\n" for number in range(count)])


def imported(count):
    """A world that imports so many functions: a tenth of them its own, the others by interfaces of ten functions each."""
    interfaces = (count - count // 10) // FUNCTIONS
    for number in range(interfaces):
        yield from block(f"interface i{number}", [f"    call-{place}: func();\n" for place in range(FUNCTIONS)])
    imports = [f"    import i{number};\n" for number in range(interfaces)]
    own = [f"    import own-{number}: func();\n" for number in range(count - interfaces * FUNCTIONS)]
    yield from block("world w", imports + own)


PATTERNS = [chain, needed, packages, shared, included, types, united, imported]


def make(folder, *counts):
    for place, pattern in enumerate(PATTERNS):
        for count in [int(it) for it in counts] or COUNTS:
            path = os.path.join(folder, f"{place}_{pattern.__name__}_{count:06}.wit")
            with open(path, "w", encoding="utf-8") as file:
                file.write(HEADER + "".join(pattern(count)))


def grown(now, before):
    """How many times the one before it is; nothing where there is none."""
    return f"{now / before:.2f}" if before else ""


def table():
    """The program's lines as a table: how long a text is resolved, how long its packages are pushed, how long the names by
    which core modules import functions of its last world are read, and how the latter two grow."""
    print(
        "| graph | bytes | resolved, s | pushed, s | pushed / resolved | microseconds each | times the one before"
        " | names read | names read, s | microseconds a name | times the one before |"
    )
    print("| --- " * 11 + "|")
    before = (None, None, None)
    for line in sys.stdin:
        path, size, *took = line.split()
        name = os.path.basename(path).removesuffix(".wit").split("_", 1)[1].replace("_", " ")
        pattern, count = name.split()
        if took == ["refused"]:
            print(f"| {name} | {int(size):,} | refused |" + " |" * 8)
            continue
        resolving, pushing, reading = [int(it) / 1e9 for it in took[:3]]
        names = int(took[3])
        pushed_before, read_before = before[1:] if before[0] == pattern else (None, None)
        each, ratio = (f"{reading / names * 1e6:.2f}", grown(reading, read_before)) if names else ("", "")
        print(
            f"| {name} | {int(size):,} | {resolving:.4f} | {pushing:.4f} | {pushing / resolving:.1f}"
            f" | {pushing / int(count) * 1e6:.1f} | {grown(pushing, pushed_before)}"
            f" | {names:,} | {reading:.4f} | {each} | {ratio} |"
        )
        before = (pattern, pushing, reading)


if sys.argv[1] == "make":
    make(*sys.argv[2:])
else:
    table()
