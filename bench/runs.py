#!/usr/bin/env python3
"""Measures `swda run` on long thin sources, each kind at three sizes, and tries the greatest source that is served.

usage: bench/runs.py [PROGRAM]      (default: crates/swda/out/swda of this checkout)

prints: so many lines that print a text. pairs: so many pairs of a line that declares a variable by a sum, and one that
prints it. The last size of each is near the greatest that a source of 1,048,576 bytes holds.

The time is the processor time of the best of RUNS runs, which other work on the machine hardly changes; the elapsed
time stands beside it. The memory is the greatest of all runs, as the system tells it of each run by itself; it is
never below what this script has at the start of a run, which is about 17 MB.

It ends with status 1 where a report is wrong, where twice the lines take GROWTH times the time or more, where a run
takes MOST_MEMORY or more, or where a source of the greatest size is not served or a longer one is not refused; with status 2
where the program cannot be run. The gate does not call it.
"""

import os
import sys
import tempfile
import time

RUNS = 15
GROWTH = 2.4
MOST_MEMORY = 300.0  # MB

FIRST_LINE = b"func main(system: NodeSystem) async throws {\n"
PRINT = b'  print("a")\n'
LAST_LINE = b"}\n"
PLAN = b"swda-plan 1\nnodes 1\ntask 0 main\n"
MOST_BYTES = 1_048_576


def source(lines):
    text = FIRST_LINE + lines + LAST_LINE
    assert len(text) <= MOST_BYTES + 1, "a source is too long"
    return text


def report(statements, events, logs):
    counts = f"end done\nstatements {statements}\nevents {events}\n"
    zeros = "calls 0\nstarted 0\nwaited 0\nsent 0\nlost 0\ndelivered 0\nnoise 0\nnode 0 restarts 0\n"
    return (counts + zeros).encode() + logs + b"task 0 node 0 epoch 0 returned\n"


def prints(count):
    return source(PRINT * count), report(count, count + 1, b"log 0 a\n" * count)


def pairs(count):
    lines = b"".join(b"  let v%d = 1 + %d\n  print(v%d)\n" % (k, k, k) for k in range(count))
    logs = b"".join(b"log 0 %d\n" % (1 + k) for k in range(count))
    return source(lines), report(2 * count, count + 1, logs)


KINDS = [("prints", prints, [18_000, 36_000, 72_000]), ("pairs", pairs, [6_500, 13_000, 26_000])]


def of_size(size):
    """A source of prints with so many bytes, and its report."""
    room = size - len(FIRST_LINE) - len(LAST_LINE)
    short, rest = divmod(room, len(PRINT))
    last = b"a" * (1 + rest)
    lines = PRINT * (short - 1) + b'  print("' + last + b'")\n'
    return source(lines), report(short, short + 1, b"log 0 a\n" * (short - 1) + b"log 0 " + last + b"\n")


def write(path, content):
    with open(path, "wb") as file:
        file.write(content)


def run(program, folder):
    """One run: its processor time and elapsed time in seconds, its memory in MB, its status, output and errors."""
    paths = {name: os.path.join(folder, name) for name in ("source", "plan", "out", "err")}
    flags = os.O_WRONLY | os.O_CREAT | os.O_TRUNC
    redirections = [
        (os.POSIX_SPAWN_OPEN, 1, paths["out"], flags, 0o600),
        (os.POSIX_SPAWN_OPEN, 2, paths["err"], flags, 0o600),
    ]
    words = [program, "run", paths["source"], paths["plan"]]
    begin = time.monotonic()
    child = os.posix_spawn(program, words, os.environ, file_actions=redirections)
    _, ended, usage = os.wait4(child, 0)
    elapsed = time.monotonic() - begin
    unit = 1 if sys.platform == "darwin" else 1024
    memory = usage.ru_maxrss * unit / 1e6
    with open(paths["out"], "rb") as out, open(paths["err"], "rb") as err:
        return usage.ru_utime + usage.ru_stime, elapsed, memory, os.waitstatus_to_exitcode(ended), out.read(), err.read()


def measure(program, folder, name, make, sizes):
    """Prints a table of one kind, and gives what is wrong."""
    faults = []
    cpus, elapses, memories = ({size: [] for size in sizes} for _ in range(3))
    made = {size: make(size) for size in sizes}
    # The sizes take turns, so that a time in which the machine is slow touches all of them.
    for _ in range(RUNS):
        for size in sizes:
            write(os.path.join(folder, "source"), made[size][0])
            cpu, elapsed, memory, status, out, err = run(program, folder)
            cpus[size].append(cpu)
            elapses[size].append(elapsed)
            memories[size].append(memory)
            if status != 0:
                faults.append(f"{size} {name}: status {status}, not 0")
            if out != made[size][1]:
                faults.append(f"{size} {name}: the report is wrong ({len(out)} bytes)")
            if err:
                faults.append(f"{size} {name}: standard error has {err[:100]!r}")

    print(f"{name:>8} {'cpu':>10} {'elapsed':>10} {'memory':>10} {'growth':>8}   best of {RUNS}")
    before = None
    for size in sizes:
        cpu, elapsed, memory = min(cpus[size]), min(elapses[size]), max(memories[size])
        growth = cpu / before if before else 0.0
        shown = f"{growth:.2f}" if before else ""
        print(f"{size:>8} {cpu * 1000:>7.1f} ms {elapsed * 1000:>7.1f} ms {memory:>7.1f} MB {shown:>8}")
        if growth >= GROWTH:
            faults.append(f"{size} {name}: {growth:.2f} times the time of {size // 2}, not below {GROWTH}")
        if memory >= MOST_MEMORY:
            faults.append(f"{size} {name}: {memory:.1f} MB, not below {MOST_MEMORY:.0f}")
        before = cpu
    return faults


def measure_unbuilt(program, folder, name, made, runs, growth_limit, most_memory):
    """Prints a table of one kind of sources that are `not built`, and gives what is wrong.

    `made` has a source for each size, the least size first. At a size, twice that before it, the time is below
    `growth_limit` times the time before it; at the greatest the memory is below `most_memory` times the bytes of its source.
    """
    faults = []
    cpus, memories = {size: [] for size in made}, {size: [] for size in made}
    # The sizes take turns, so that a time in which the machine is slow touches all of them.
    for _ in range(runs):
        for size, source in made.items():
            write(os.path.join(folder, "source"), source)
            cpu, _, memory, status, out, err = run(program, folder)
            cpus[size].append(cpu)
            memories[size].append(memory)
            if status != 11 or out != b"not built\n" or err:
                faults.append(f"{size} {name}: status {status}, {out[:60]!r}, {err[:60]!r}")
    print(f"{name:>11} {'bytes':>9} {'cpu':>10} {'memory':>10} {'growth':>8}   best of {runs}")
    before = None
    for size, source in made.items():
        cpu, memory = min(cpus[size]), max(memories[size])
        growth = cpu / before if before else 0.0
        shown = f"{growth:.2f}" if before else ""
        print(f"{size:>11} {len(source):>9} {cpu * 1000:>7.1f} ms {memory:>7.1f} MB {shown:>8}")
        before = cpu
        if growth >= growth_limit:
            faults.append(f"{size} {name}: {growth:.2f} times the time of {size // 2}, not below {growth_limit}")
        if size == max(made) and memory * 1e6 >= most_memory * len(source):
            faults.append(f"{size} {name}: {memory:.1f} MB, not below {most_memory} times the source")
    return faults


def limits(program, folder):
    """Tries a source of the greatest size, and one that is a byte longer."""
    faults = []
    text, expected = of_size(MOST_BYTES)
    write(os.path.join(folder, "source"), text)
    status, out = run(program, folder)[3:5]
    if status != 0 or out != expected:
        faults.append(f"{len(text)} bytes: status {status}, and {len(out)} bytes of report")
    text, _ = of_size(MOST_BYTES + 1)
    write(os.path.join(folder, "source"), text)
    status, out = run(program, folder)[3:5]
    if status != 1 or out != b"refused L5 1:1\n":
        faults.append(f"{len(text)} bytes: status {status}, not 1")
    return faults


def script(words, doc, name, measured):
    """A whole bench: finds the program that the words name, prints what `measured` finds wrong, and gives the status."""
    here = os.path.dirname(os.path.abspath(__file__))
    if len(words) > 1 or (words and words[0].startswith("-")):
        print(doc)
        return 2
    program = os.path.abspath(words[0] if words else os.path.join(here, "..", "crates", "swda", "out", "swda"))
    if not (os.path.isfile(program) and os.access(program, os.X_OK)):
        print(f"no program at {program}: build it first, or name it as the one word")
        return 2
    with tempfile.TemporaryDirectory() as folder:
        write(os.path.join(folder, "plan"), PLAN)
        try:
            faults = measured(program, folder)
        except OSError as error:
            print(f"{program} cannot be run: {error}")
            return 2
    for fault in dict.fromkeys(faults):
        print(f"FAULT {fault}")
    print(f"{name}: failed" if faults else f"{name}: ok")
    return 1 if faults else 0


def measured(program, folder):
    faults = []
    for name, make, sizes in KINDS:
        faults += measure(program, folder, name, make, sizes)
    return faults + limits(program, folder)


if __name__ == "__main__":
    sys.exit(script(sys.argv[1:], __doc__, "runs", measured))
