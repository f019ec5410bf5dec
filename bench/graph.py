#!/usr/bin/env python3
"""Measures graphs of changes, and the reading and writing of changes.

Build the program first: `rt run` in crates/graph_bench. Compare the figures of one run with each other.

A history is a chain (each change types behind the one before it), a ladder (each depends on the two before it, so that the
paths from the last to the first are as many as Fibonacci's numbers tell), a fork (two hands that never hear of each other), a
change of so many insertions with one behind it that points into each of them (refs), or one long text.

The first table has microseconds a change: for the adding of all changes (`add`, with a copy of each), for the question
whether the first is an ancestor of the last (`is_ancestor`), and for what the last leads to and the first does not
(`between`). Where the cost grows with the changes and not with the paths, a row is level but for a logarithm and for what the
caches hold. The second is of a fork, where each change costs a walk over both branches: its row grows as the changes. The third
has nanoseconds a byte of the encodings: with linear cost a row is level.

Each figure is processor time without the kernel's: that of some more runs, over the making of the input and one run.
"""

import os
import pathlib
import subprocess
import sys

PROGRAM = pathlib.Path(__file__).resolve().parent.parent / "crates/graph_bench/out/graph_bench"

SIZES = (1_000, 3_000, 10_000)
GRAPH_ROWS = (
    ("add", "chain"),
    ("add", "ladder"),
    ("add", "refs"),
    ("is_ancestor", "chain"),
    ("is_ancestor", "ladder"),
    ("between", "chain"),
    ("between", "ladder"),
)
MORE_CHANGES = 200_000

FORK_SIZES = (300, 1_000, 3_000)

LENGTHS = (1_000, 10_000, 100_000, 1_000_000)
CODEC_ROWS = (("read", "text"), ("write", "text"), ("read", "refs"), ("write", "refs"))
MORE_BYTES = 30_000_000

REPEATS = 5


def run(operation, shape, size, count):
    """The first number that is told, and the seconds of the processor."""
    words = [str(word) for word in (PROGRAM, operation, shape, size, count)]
    program = subprocess.Popen(words, stdout=subprocess.PIPE, stderr=subprocess.PIPE, text=True)
    told, fault = program.stdout.read(), program.stderr.read()
    _, status, used = os.wait4(program.pid, 0)
    if status:
        sys.exit(f"{' '.join(words[1:])}: {fault}")
    return int(told.split()[0]), used.ru_utime


def seconds_of_more(operation, shape, size, more):
    """The seconds of one more run."""
    few = min(run(operation, shape, size, 1)[1] for _ in range(REPEATS))
    many = min(run(operation, shape, size, 1 + more)[1] for _ in range(REPEATS))
    return (many - few) / more


def print_row(operation, shape, figures):
    last = figures[-1] / figures[0] if figures[0] else float("nan")
    print(f"{operation:12} {shape:8}" + "".join(f" {figure:10.2f}" for figure in figures) + f" {last:9.1f}")


def print_graphs(rows, sizes, more_changes):
    print(f"{'µs a change':12} {'':8}" + "".join(f" {size:>10,}" for size in sizes) + f" {'last/first':>9}")
    for operation, shape in rows:
        seconds = [seconds_of_more(operation, shape, size, max(2, more_changes // size)) for size in sizes]
        print_row(operation, shape, [each / size * 1e6 for each, size in zip(seconds, sizes)])


def print_encodings():
    print(f"{'ns a byte':12} {'':8}" + "".join(f" {length:>10,}" for length in LENGTHS) + f" {'last/first':>9}")
    for operation, shape in CODEC_ROWS:
        figures = []
        for length in LENGTHS:
            size = max(2, length // 200) if shape == "refs" else length
            total = run("read", shape, size, 1)[0]
            figures.append(seconds_of_more(operation, shape, size, max(2, MORE_BYTES // total)) / total * 1e9)
        print_row(operation, shape, figures)


def main():
    if not PROGRAM.exists():
        sys.exit(f"there is no {PROGRAM}: run `rt run` in crates/graph_bench")
    print_graphs(GRAPH_ROWS, SIZES, MORE_CHANGES)
    print()
    print_graphs((("add", "fork"),), FORK_SIZES, 0)
    print()
    print_encodings()


if __name__ == "__main__":
    main()
