"""Makes worlds over interfaces and types, and times the program on them: types.py PROGRAM FOLDER [NUMBER..]."""

import os
import subprocess
import sys
import time

from wasm_bytes import CORE_HEADER, name, number, vector

RUNS = 40
COUNTS = [10, 100, 1000, 2500, 5000, 10000]
MOST_INTERFACES = 5000
# (i32) -> (i32), as a core type
TYPE = b"\x60\1\x7f\1\x7f"


def importer(pairs):
    """A core module that imports a function of one core type under each pair of names."""
    imports = [name(place) + name(item) + b"\0\0" for place, item in pairs]
    return CORE_HEADER + vector(1, [TYPE]) + vector(2, imports)


def functions(count):
    """An interface of so many functions over a type of its own, all of which are linked."""
    items = "".join(f"  call{i}: func(v: t) -> t;\n" for i in range(count))
    text = "package a:b;\ninterface i {\n  type t = u32;\n" + items + "}\nworld w { import i; }\n"
    return text, importer(("a:b/i", f"call{i}") for i in range(count))


def interfaces(count):
    """A world of so many interfaces, each of which uses a type of the one before it; a function of each is linked."""
    parts = ["package a:b;\ninterface i0 { type t0 = u32; f: func(v: t0) -> t0; }\n"]
    for i in range(1, count):
        use = f"use i{i - 1}.{{t{i - 1}}}; type t{i} = t{i - 1};"
        parts.append(f"interface i{i} {{ {use} f: func(v: t{i}) -> t{i}; }}\n")
    imports = "".join(f"import i{i};\n" for i in range(count))
    text = "".join(parts) + "world w {\n" + imports + "}\n"
    return text, importer((f"a:b/i{i}", "f") for i in range(count))


def fields(count):
    """A record of so many fields, of which a function takes a list: it is exported, with a memory and what makes room."""
    items = ", ".join(f"x{i}: u32" for i in range(count))
    text = f"package a:b;\ninterface i {{ record r {{ {items} }} }}\nworld w {{ use i.{{r}}; export g: func(v: list<r>); }}\n"
    types = vector(1, [b"\x60\2\x7f\x7f\0", b"\x60\4\x7f\x7f\x7f\x7f\1\x7f"])
    memory = b"\5\3\1\0\1"
    exports = vector(7, [name("g") + b"\0\0", name("cabi_realloc") + b"\0\1", name("memory") + b"\2\0"])
    bodies = vector(10, [number(2) + b"\0\x0b", number(4) + b"\0\x41\0\x0b"])
    return text, CORE_HEADER + types + vector(3, [b"\0", b"\1"]) + memory + exports + bodies


def seconds(words):
    start = time.perf_counter()
    subprocess.run(words, check=True, stdout=subprocess.DEVNULL)
    return time.perf_counter() - start


def least(program, stem, action):
    inputs = ["--world", "w", f"text={stem}.wit", f"main=={stem}.wasm"]
    more = ["-o", stem + ".component"] if action == "build" else []
    return min(seconds([program, action, *inputs, *more]) for _ in range(RUNS))


def rows(program, folder, title, make, counts):
    print(f"| {title} | bytes of text | links, s | ratio | build, s | ratio |")
    print("| --- | --- | --- | --- | --- | --- |")
    before = None
    for count in counts:
        stem = os.path.join(folder, f"{title}{count}")
        text, module = make(count)
        with open(stem + ".wit", "w") as file:
            file.write(text)
        with open(stem + ".wasm", "wb") as file:
            file.write(module)
        took = [least(program, stem, action) for action in ("links", "build")]
        ratios = [f"{now / then:.2f}" if before else "" for now, then in zip(took, before or took)]
        cells = [cell for now, ratio in zip(took, ratios) for cell in (f"{now:.4f}", ratio)]
        print(f"| {count:,} | {len(text):,} | " + " | ".join(cells) + " |", flush=True)
        before = took
    print()


def main():
    program, folder, *numbers = sys.argv[1:]
    counts = [int(it) for it in numbers] or COUNTS
    print(f"{os.cpu_count()} cores, the least of {RUNS} runs\n")
    rows(program, folder, "functions", functions, counts)
    rows(program, folder, "interfaces", interfaces, [it for it in counts if it <= MOST_INTERFACES])
    rows(program, folder, "fields", fields, counts)


main()
