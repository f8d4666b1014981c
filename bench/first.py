"""Makes worlds and core modules, and times the program on them: first.py PROGRAM FOLDER [NUMBER..]."""

import os
import subprocess
import sys
import time

from wasm_bytes import CORE_HEADER, name, number, section, vector

RUNS = 40
COUNTS = [100, 200, 400, 800, 1600, 3200]
SIZES = [1, 4, 16]
# func(p: u32) -> u32, as a core type
TYPE = b"\x60\1\x7f\1\x7f"


def world(side, count):
    items = (f"{side} n{index}: func(p: u32) -> u32;\n" for index in range(count))
    return "package a:b;\nworld w {\n" + "".join(items) + "}\n"


def importer(count):
    imports = [name("$root") + name(f"n{index}") + b"\0\0" for index in range(count)]
    return CORE_HEADER + vector(1, [TYPE]) + vector(2, imports)


def exporter(count):
    functions = vector(3, [b"\0"] * count)
    exports = [name(f"n{index}") + b"\0" + number(index) for index in range(count)]
    bodies = vector(10, [b"\x04\0\x20\0\x0b"] * count)
    return CORE_HEADER + vector(1, [TYPE]) + functions + vector(7, exports) + bodies


def padded(mebibytes):
    return importer(1) + section(0, name("padding") + bytes(mebibytes << 20))


def seconds(words):
    start = time.perf_counter()
    subprocess.run(words, check=True, stdout=subprocess.DEVNULL)
    return time.perf_counter() - start


class Row:
    """The inputs of a row of a table, and the least seconds of each of its columns."""

    def __init__(self, bench, label, text, module):
        self.label = label
        self.stem = os.path.join(bench.folder, f"{bench.next_number()}")
        self.program = bench.program
        self.least = {}
        with open(self.stem + ".wit", "w") as file:
            file.write(text)
        with open(self.stem + ".wasm", "wb") as file:
            file.write(module)

    def words(self, column):
        module, component = self.stem + ".wasm", self.stem + ".component"
        if column == "cp":
            return ["cp", module, self.stem + ".copy"]
        inputs = ["--world", "w", f"text={self.stem}.wit", f"main=={module}"]
        more = {"build": ["-o", component], "audit": [f"component={component}"]}
        return [self.program, column, *inputs, *more.get(column, [])]

    def run(self, column):
        took = seconds(self.words(column))
        self.least[column] = min(took, self.least.get(column, took))


class Bench:
    """Tables whose rows are run in turn, so that what else the machine does falls on all of them."""

    def __init__(self, program, folder):
        self.program = program
        self.folder = folder
        self.number = 0

    def next_number(self):
        self.number += 1
        return self.number

    def run(self, rows, columns):
        for _ in range(RUNS):
            for row in rows:
                for column in columns:
                    row.run(column)


def cells(row, before, columns):
    for column in columns:
        now = row.least[column]
        yield f"{now:.4f}"
        yield f"{now / before.least[column]:.2f}" if before else ""


def line(words):
    print("| " + " | ".join(words) + " |", flush=True)


def table(title, rows, columns):
    line([title] + [word for it in columns for word in (f"{it}, s", "ratio")])
    line(["---"] * (1 + 2 * len(columns)))
    for row, before in zip(rows, [None, *rows]):
        line([row.label, *cells(row, before, columns)])
    print()


def numbered(bench, side, module, counts):
    return [Row(bench, f"{it:,}", world(side, it), module(it)) for it in counts]


def main():
    program, folder, *numbers = sys.argv[1:]
    bench = Bench(program, folder)
    counts = [int(it) for it in numbers] or COUNTS
    print(f"{os.cpu_count()} cores, the least of {RUNS} runs\n")
    actions = ["links", "build", "audit"]
    for side, module in [("import", importer), ("export", exporter)]:
        rows = numbered(bench, side, module, counts)
        bench.run(rows, actions)
        table(side + "s", rows, actions)
    rows = [Row(bench, f"{it} MiB", world("import", 1), padded(it)) for it in SIZES]
    bench.run(rows, [*actions, "cp"])
    table("module", rows, [*actions, "cp"])
    for row in rows:
        times = row.least["build"] / row.least["cp"]
        print(f"build of {row.label} takes {times:.1f} times what cp of its module takes")


main()
