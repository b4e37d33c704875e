#!/usr/bin/env python3
"""Measures with how little stack `swda run` reads the deepest sources that break no rule, each kind by itself.

usage: bench/stack.py [PROGRAM]      (default: crates/swda/out/swda of this checkout)

A source may open 64 brackets, of which the brace of its func is one, and have 100 operators in one expression; parser,
printer, the walk of names and the drop of a tree go into each other as deep as these stand in each other. Each source breaks no rule of tokens,
of the grammar and of names, and is no thin one, so that it is lexed, parsed, named and dropped, and then `not built`.

The least stack is what `ulimit -s` must allow, in steps of STEP kB: with it each of TRIES runs is answered so, and with a
step less one of them is ended by a signal. It ends with status 1 where a source wants more than ENOUGH kB, or where a run
gives another answer; with status 2 where the program cannot be run. The gate does not call it.
"""

import os
import signal
import subprocess
import sys

from runs import script, write

ENOUGH = 512  # kB; what README says
MOST = 4096  # kB; where the search begins
STEP = 4  # kB
TRIES = 3


# It declares the names of all kinds.
HEAD = "func deep(a: Bool, b: [Int], f: Int, x: Int) async throws {"


def valued(expression):
    """A func with a variable of this value."""
    return f"{HEAD}\n  let x = {expression}\n}}\n"


def nested(before, count, inner, after):
    return before * count + inner + after * count


def blocks(count, inner):
    """Blocks of all kinds in each other."""
    kinds = [("if a { ", " }"), ("for a in b { ", " }"), ("switch a { case _: ", " }"), ("do { ", " }")]
    for number in range(count):
        before, after = kinds[-1 - number % len(kinds)]
        inner = before + inner + after
    return f"{HEAD}\n  {inner}\n}}\n"


PARENS = nested("(", 13, "1", ")")
KINDS = [
    ("50 f(- and 13 (", valued(nested("f(-", 50, PARENS, ")"))),
    ("63 ( and 100 -", valued(nested("(", 63, "-" * 100 + "1", ")"))),
    ("63 -( and 37 -", valued(nested("-(", 63, "-" * 37 + "1", ")"))),
    ("50 f(try await a ? and 13 (", valued(nested("f(try await a ? ", 50, PARENS, " : 1)"))),
    ("8 blocks, 50 f(- and 5 (", blocks(8, "x = " + nested("f(-", 50, nested("(", 5, "1", ")"), ")"))),
    ("63 f(", valued(nested("f(", 63, "1", ")"))),
    ("63 a ? ( and 37 a ?", valued(nested("a ? (", 63, nested("a ? 1 : ", 37, "1", ""), ") : 1"))),
    ("63 f[", valued(nested("f[", 63, "1", "]"))),
    ("63 a * ( and 37 -", valued(nested("a * (", 63, "-" * 37 + "1", ")"))),
    ("63 [", valued(nested("[", 63, "1", "]"))),
    ("63 (", valued(nested("(", 63, "1", ")"))),
    ('63 "\\(', valued(nested('"\\(', 63, "1", ')"'))),
    ("48 blocks, 15 ( and 100 -", blocks(48, "x = " + nested("(", 15, "-" * 100 + "1", ")"))),
    ("63 blocks", blocks(63, "")),
    ("100 else if", blocks(0, "if a { }" + " else if a { }" * 100)),
    ("100 +", valued("1 + " * 100 + "1")),
    ("a type of 63 [ and 37 ?", blocks(0, "let x: " + nested("[", 37, nested("[", 26, "Int", "]"), "]?") + " = 1")),
]


def is_read(program, folder, kilobytes):
    """Whether the source is read with so much stack; it is not where a signal for want of memory ends the run."""
    limited = ["/bin/sh", "-c", 'ulimit -s "$1" && shift && exec "$@"', "sh", str(kilobytes)]
    words = limited + [program, "run", os.path.join(folder, "source"), os.path.join(folder, "plan")]
    ended = subprocess.run(words, env={}, stdin=subprocess.DEVNULL, capture_output=True, check=False)
    if ended.returncode in (-signal.SIGSEGV, -signal.SIGBUS):
        return False
    if ended.returncode != 11 or ended.stdout != b"not built\n" or ended.stderr:
        raise ValueError(f"{kilobytes} kB: status {ended.returncode}, {ended.stdout[:60]!r}, {ended.stderr[:60]!r}")
    return True


def least(program, folder):
    """The least stack, in kB, with which the source is read; none where the most does not do."""
    low, high = 4 * STEP, MOST
    if not is_read(program, folder, high):
        return None
    while high - low > STEP:
        middle = (low + high) // 2 // STEP * STEP
        if all(is_read(program, folder, middle) for _ in range(TRIES)):
            high = middle
        else:
            low = middle
    return high


def measured(program, folder):
    faults, wanted = [], {}
    for name, text in KINDS:
        write(os.path.join(folder, "source"), text.encode())
        try:
            wanted[name] = least(program, folder)
        except ValueError as error:
            faults.append(f"{name}: {error}")
            continue
        found = wanted[name]
        print(f"{name:>28} {'more than ' + str(MOST) if found is None else found:>6} kB")
        if found is None or found > ENOUGH:
            faults.append(f"{name}: wants more than {ENOUGH} kB")
    if wanted and None not in wanted.values():
        print(f"{'the most of all':>28} {max(wanted.values()):>6} kB, of {ENOUGH} kB")
    return faults


if __name__ == "__main__":
    sys.exit(script(sys.argv[1:], __doc__, "stack", measured))
