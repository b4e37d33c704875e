#!/usr/bin/env python3
"""Measures how long `swda run` takes on sources with many names, each kind at three sizes.

usage: bench/names.py [PROGRAM]      (default: crates/swda/out/swda of this checkout)

calls: so many funcs that call one another. structs: so many structs of four members, of which each names the next.
members: so many structs of 255 members. lets: one func with so many `let` lines that read the first. shadows: so many
blocks, one after another, that bind one name again and again. overloads: one struct with so many static funcs of one name
and other labels, each of which calls another. Each source breaks no rule up to names and is no thin one, so that it is
lexed, parsed and named, and then `not built`. The same source with a name at its end that nobody declares is refused
there, by N3.

It ends with status 1 where an answer is another one, where twice the count takes GROWTH times the time or more, or where a
run takes MOST_MEMORY times the bytes of its source or more; with status 2 where the program cannot be run. The gate does
not call it. Times want a machine that does nothing else.
"""

import os
import sys

from runs import measure_unbuilt, run, script, write

RUNS = 9
GROWTH = 2.2
MOST_MEMORY = 60
LAST = b"func last() { nobody() }\n"


def calls(count):
    return b"".join(b"func f%05d() { f%05d() }\n" % (k, (k * 7919 + 1) % count) for k in range(count))


def structs(count):
    line = b"struct S%04d { var a: Int; var b: S%04d; func c() { d(x: a) }; func d(x: Int) { print(x) } }\n"
    return b"".join(line % (k, (k + 1) % count) for k in range(count))


def members(count):
    def one(k):
        lines = b"".join(b"  let m%03d: S%03d\n" % (n, (k + n) % count) for n in range(255))
        return b"struct S%03d {\n%s}\n" % (k, lines)
    return b"".join(one(k) for k in range(count))


def lets(count):
    lines = b"".join(b"  let a%05d = a00000\n" % k for k in range(1, count))
    return b"func f() {\n  let a00000 = 1\n" + lines + b"}\n"


def shadows(count):
    return b"func f(a: Int) {\n" + b"  if a > 0 { let a = a; print(a) }\n" * count + b"}\n"


def overloads(count):
    line = b"  static func f(a%05d: Int) { f(a%05d: 1) }\n"
    return b"struct S {\n" + b"".join(line % (k, (k * 7919 + 1) % count) for k in range(count)) + b"}\n"


KINDS = [
    ("calls", calls, [5_000, 10_000, 20_000]),
    ("structs", structs, [2_000, 4_000, 8_000]),
    ("members", members, [40, 80, 160]),
    ("lets", lets, [10_000, 20_000, 40_000]),
    ("shadows", shadows, [6_000, 12_000, 24_000]),
    ("overloads", overloads, [5_000, 10_000, 20_000]),
]


def refused_at_end(text):
    line = text.count(b"\n") + 1
    return b"refused N3 %d:%d\n" % (line, LAST.index(b"nobody") + 1)


def unknown_at_end(program, folder, name, source):
    """Tries a source with an unknown name at its end, and gives what is wrong."""
    write(os.path.join(folder, "source"), source + LAST)
    _, _, _, status, out, _ = run(program, folder)
    if status == 1 and out == refused_at_end(source):
        return []
    return [f"{name}, with an unknown name: status {status}, {out[:60]!r}"]


def measured(program, folder):
    faults = []
    for name, make, sizes in KINDS:
        made = {size: make(size) for size in sizes}
        faults += measure_unbuilt(program, folder, name, made, RUNS, GROWTH, MOST_MEMORY)
        faults += unknown_at_end(program, folder, name, made[sizes[-1]])
    return faults


if __name__ == "__main__":
    sys.exit(script(sys.argv[1:], __doc__, "names", measured))
