"""bench/build.py NAME FOLDER CRATE..

Builds bench/NAME/main.rt.txt, which is no crate of this repository, over these crates: in FOLDER, with copies of them and of
all crates below them, and of what their checks have kept in out/ (several GB; without it they are proved from nothing first).
The program is FOLDER/crates/NAME_bench/out/NAME_bench. It needs the kit's command `rt`.
"""

import os
import shutil
import subprocess
import sys


def below(lists, name, found):
    """Adds the crate and all of the repository that stand below it."""
    if name in lists and name not in found:
        for other in lists[name]:
            below(lists, other, found)
        found.append(name)


def main(name, folder, *crates):
    top = os.path.dirname(os.path.dirname(os.path.abspath(__file__)))
    with open(f"{top}/crates.txt", encoding="utf-8") as it:
        lines = [line.split("#")[0].partition(":") for line in it]
    lists = {it[0].strip(): it[2].split() for it in lines if it[1]}
    found = []
    for it in crates:
        below(lists, it, found)
    for it in found:
        shutil.copytree(f"{top}/crates/{it}", f"{folder}/crates/{it}")
    program = f"{folder}/crates/{name}_bench"
    os.makedirs(f"{program}/src")
    shutil.copyfile(f"{top}/bench/{name}/main.rt.txt", f"{program}/src/main.rt")
    with open(f"{folder}/crates.txt", "w", encoding="utf-8") as it:
        it.writelines(f"{name}: {' '.join(lists[name])}\n" for name in found)
        it.write(f"{name}_bench: {' '.join(crates)}\n")
    ran = subprocess.run(["rt", "run"], cwd=program, stdin=subprocess.DEVNULL, stdout=subprocess.PIPE, stderr=subprocess.STDOUT)
    if ran.returncode:
        sys.stderr.buffer.write(ran.stdout)
        sys.exit(1)


main(*sys.argv[1:])
