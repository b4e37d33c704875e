#!/usr/bin/env python3
"""Measures how long `swda run` takes to read long sources that are not served, each kind at three sizes.

usage: bench/parses.py [PROGRAM]      (default: crates/swda/out/swda of this checkout)

Three are of ordinary spelling. funcs: small funcs, one on each line. array: one array literal, of the integers from 0 on.
deep: lines with 63 brackets within the braces of a func, and a name and a mark in each. Two have almost a token in each
byte. dense array: one array literal of 7s. dense deep: lines with 63 brackets round a 1. The last size of each is the
greatest that a source may have. Each source breaks no rule of tokens, of the grammar and of names, and is no thin one, so that
it is lexed, parsed and named, and then `not built`.

It ends with status 1 where the answer is another one, where twice the bytes take GROWTH times the time or more, or where a
run takes MOST_MEMORY times the bytes of its source or more; with status 2 where the program cannot be run. The gate does
not call it. Times want a machine that does nothing else.
"""

import sys

from runs import GROWTH, measure_unbuilt, script

RUNS = 9
MOST_MEMORY = 40
SIZES = [262_144, 524_288, 1_048_576]


def padded(text, size):
    assert len(text) <= size, "a source is too long"
    return text + b" " * (size - len(text))


def funcs(size):
    line = b"func f%05d(a: Int, b: Int) -> Int { return a + b }\n"
    count = size // len(line % 0)
    return padded(b"".join(line % number for number in range(count)), size)


def array(size):
    first, last = b"func main(system: NodeSystem) async throws { let xs = [", b"] }"
    numbers, left, number = [], size - len(first) - len(last), 0
    while left >= len(text := b"%d, " % number):
        numbers.append(text)
        left -= len(text)
        number += 1
    return padded(first + b"".join(numbers) + last, size)


def nested(line, size):
    first, last = b"func deep(counter: Int) {\n", b"}\n"
    count = (size - len(first) - len(last)) // len(line)
    return padded(first + line * count + last, size)


def deep(size):
    return nested(b"  _ = " + b"(counter + " * 63 + b"1" + b")" * 63 + b"\n", size)


def dense_array(size):
    first, last = b"func main(system: NodeSystem) async throws { let xs = [", b"] }"
    count = (size - len(first) - len(last)) // 3
    return padded(first + b"7, " * count + last, size)


def dense_deep(size):
    return nested(b"  _ = " + b"(" * 63 + b"1" + b")" * 63 + b"\n", size)


KINDS = [
    ("funcs", funcs), ("array", array), ("deep", deep), ("dense array", dense_array), ("dense deep", dense_deep),
]


def measured(program, folder):
    faults = []
    for name, make in KINDS:
        made = {size: make(size) for size in SIZES}
        faults += measure_unbuilt(program, folder, name, made, RUNS, GROWTH, MOST_MEMORY)
    return faults


if __name__ == "__main__":
    sys.exit(script(sys.argv[1:], __doc__, "parses", measured))
