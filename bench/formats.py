"""Makes core modules, and tables of what was measured on them: formats.py make FOLDER [MEBIBYTES..], formats.py table."""

import os
import sys

from wasm_bytes import CORE_HEADER, name, number, vector

SIZES = [1, 2, 4, 8, 16]
FUNCTION_TYPE = bytes.fromhex("60027f7e017d")


def functions(size):
    """Functions of one type, each with a body of two bytes."""
    count = size // 4
    bodies = vector(10, [b"\2\0\x0b"] * count)
    return vector(1, [b"\x60\0\0"]) + vector(3, [b"\0"] * count) + bodies


def types(size):
    return vector(1, [FUNCTION_TYPE] * (size // len(FUNCTION_TYPE)))


def exports(size):
    """One function under many names."""
    items = [name(f"function-{place:08}") + b"\0\0" for place in range(size // 20)]
    return vector(1, [b"\x60\0\0"]) + vector(3, [b"\0"]) + vector(7, items)


def globals_(size):
    return vector(6, [b"\x7f\0\x41\x2a\x0b"] * (size // 5))


def data(size):
    """One segment, which is framed."""
    return vector(11, [b"\1" + number(size) + b"\0" * size])


KINDS = {"types": types, "functions": functions, "globals": globals_, "exports": exports, "data": data}


def make(folder, *sizes):
    for kind, made in KINDS.items():
        for size in [int(it) for it in sizes] or SIZES:
            with open(os.path.join(folder, f"{kind}-{size:04}.wasm"), "wb") as file:
                file.write(CORE_HEADER + made(size << 20))


def table():
    """The program's lines, by kinds of modules."""
    before, last = None, None
    for line in sys.stdin:
        path, size, file, took = line.split()
        kind = os.path.basename(path).split("-")[0]
        if kind != last:
            print(f"\n| {kind}, bytes | file, s | read, s | MB/s | ratio |\n| --- | --- | --- | --- | --- |")
            before, last = None, kind
        seconds = int(took) / 1e9
        ratio = f"{seconds / before:.2f}" if before else ""
        print(f"| {int(size):,} | {int(file) / 1e9:.4f} | {seconds:.6f} | {int(size) / seconds / 1e6:.1f} | {ratio} |")
        before = seconds


if sys.argv[1] == "make":
    make(*sys.argv[2:])
else:
    table()
