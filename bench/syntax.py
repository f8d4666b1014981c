"""Makes texts, and a table of what was measured on them: syntax.py make PACKAGES FOLDER [MEBIBYTES..], syntax.py table."""

import os
import re
import sys

SIZES = [1, 2, 4, 8]
PACKAGES = ["clocks.wit", "http_types.wit", "streams.wit"]
HEADER = re.compile(r"^package [^{;]*;\n", re.MULTILINE)
NAMED = re.compile(r"^(interface|world|package) ([a-z:-]+)", re.MULTILINE)


def bodies(packages):
    """The packages without their headers."""
    for name in PACKAGES:
        with open(os.path.join(packages, name), encoding="utf-8") as file:
            yield HEADER.sub("", file.read(), count=1)


def text_of(parts, size):
    """The packages again and again, each time with other names, until there are so many bytes."""
    found = ["package sample:bench@1.0.0;\n"]
    length = len(found[0])
    while length < size:
        part = NAMED.sub(rf"\1 \2-{len(found)}", parts[len(found) % len(parts)])
        found.append(part)
        length += len(part)
    return "".join(found)


def make(packages, folder, *sizes):
    parts = list(bodies(packages))
    for size in [int(it) for it in sizes] or SIZES:
        with open(os.path.join(folder, f"{size:04}.wit"), "w", encoding="utf-8") as file:
            file.write(text_of(parts, size << 20))


def table():
    """The program's lines, bytes and nanoseconds, as a table."""
    print("| text, bytes | seconds | MB/s | ratio |\n| --- | --- | --- | --- |")
    before = None
    for line in sys.stdin:
        size, took = line.split()
        seconds = int(took) / 1e9
        ratio = f"{seconds / before:.2f}" if before else ""
        print(f"| {int(size):,} | {seconds:.4f} | {int(size) / seconds / 1e6:.1f} | {ratio} |")
        before = seconds


if sys.argv[1] == "make":
    make(*sys.argv[2:])
else:
    table()
