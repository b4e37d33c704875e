#!/usr/bin/env python3
"""Tries the rows of bench/names_rows.txt on the built program: `SOURCE => ANSWER` on each line.

usage: bench/rows.py [PROGRAM]      (default: crates/swda/out/swda of this checkout)

ANSWER is a rule of names with its place, or `named` where the source breaks no rule up to names, so that it is `not built`.
In a source `\\\\` stands for one backslash. The rows were written from the rules, before the program was run on them. It ends
with status 1 where an answer is another one; with status 2 where the program cannot be run. The gate does not call it.
"""

import os
import sys

from runs import run, script, write


def measured(program, folder):
    faults, right = [], 0
    path = os.path.join(os.path.dirname(os.path.abspath(__file__)), "names_rows.txt")
    with open(path, encoding="utf-8") as rows:
        for row in rows:
            if row.startswith("-- "):
                continue
            source, wanted = row.rstrip("\n").rsplit(" => ", 1)
            write(os.path.join(folder, "source"), source.replace("\\\\", "\\").encode())
            answer = run(program, folder)[4].decode().strip()
            if answer == ("not built" if wanted == "named" else "refused " + wanted):
                right += 1
            else:
                faults.append(f"{source}: {answer}, not {wanted}")
    print(f"{right} rows are answered as they say")
    return faults


if __name__ == "__main__":
    sys.exit(script(sys.argv[1:], __doc__, "rows", measured))
