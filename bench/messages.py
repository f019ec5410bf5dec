#!/usr/bin/env python3
"""Measures reading and writing messages.

Build the program first: `rt run` in crates/text_bench. Compare the figures of one run with each other.

The first table has the edit of one typed character, read (`read_edit`) and written (`write_edit`), in
microseconds by the program's own clock, around the reading or writing alone: the least of many short runs.

The second has long bodies in nanoseconds a byte of the body: edits that put a text of so many characters at one
place, and the opening of a file of so many (`read_open`). Long runs are disturbed on a busy machine, so this is
processor time without the kernel's: that of some more runs, over the making of the input and one run. With
linear cost a row is level.
"""

import os
import pathlib
import subprocess
import sys

PROGRAM = pathlib.Path(__file__).resolve().parent.parent / "crates/text_bench/out/text_bench"

STROKES = 100
STROKE_REPEATS = 60

# the last has a body of nearly as many bytes as a frame may have
SIZES = (1_000, 100_000, 1_000_000, 33_000_000)
MORE_CHARACTERS = 20_000_000
REPEATS = 5


def run(operation, size, count):
    """The bytes of the body, the nanoseconds by the program's clock, and the seconds of the processor."""
    program = subprocess.Popen(
        [PROGRAM, operation, str(size), str(count)],
        stdout=subprocess.PIPE,
        stderr=subprocess.PIPE,
        text=True,
    )
    told, clock = program.stdout.read(), program.stderr.read()
    _, status, used = os.wait4(program.pid, 0)
    if status:
        sys.exit(f"{operation} {size} {count}: {clock}")
    return int(told.split()[0]), int(clock), used.ru_utime


def print_keystrokes():
    print(f"{'a keystroke':12} {'bytes':>7} {'µs':>8}")
    for operation in ("read_edit", "write_edit"):
        runs = [run(operation, 1, STROKES) for _ in range(STROKE_REPEATS)]
        clock = min(clock for _, clock, _ in runs)
        print(f"{operation:12} {runs[0][0]:7} {clock / STROKES / 1000:8.2f}")


def nanoseconds_a_byte(operation, size):
    """The processor time of one more run, by the byte of the body."""
    more = max(2, MORE_CHARACTERS // size)
    few = [run(operation, size, 1) for _ in range(REPEATS)]
    many = [run(operation, size, 1 + more) for _ in range(REPEATS)]
    seconds = min(used for _, _, used in many) - min(used for _, _, used in few)
    return seconds / more / few[0][0] * 1e9


def print_long_ones():
    print(f"{'ns a byte':12}" + "".join(f" {size:>12,}" for size in SIZES))
    for operation in ("read_edit", "write_edit", "read_open"):
        print(f"{operation:12}" + "".join(f" {nanoseconds_a_byte(operation, size):12.2f}" for size in SIZES))


def main():
    if not PROGRAM.exists():
        sys.exit(f"there is no {PROGRAM}: run `rt run` in crates/text_bench")
    print_keystrokes()
    print()
    print_long_ones()


if __name__ == "__main__":
    main()
