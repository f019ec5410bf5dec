#!/usr/bin/env python3
"""Measures typing into the text of a history, over a list of elements.

Build the program first: `rt run` in crates/tree_bench. Compare the figures of one run with each other.

Each row has so many characters typed one by one, each a change of its own, at one place: at the end, in front of all, or
each time behind another character. The first columns are the times of all, the least of some runs, and the growth from one
to the next; the last ones are those of one character. A list of elements searches the parent, and counts what is visible, in
linear time, so a character costs the length of the text: where ten times more are typed the growth of all is 100, and more where
the elements no longer fit the caches of the processor.
"""

import pathlib
import subprocess
import sys

PROGRAM = pathlib.Path(__file__).resolve().parent.parent / "crates/tree_bench/out/tree_bench"

SIZES = (1_000, 10_000, 100_000)
REPEATS = (5, 2, 1)


def seconds(site, count, repeats):
    """The least time of some runs."""
    times = []
    for _ in range(repeats):
        done = subprocess.run([PROGRAM, site, str(count)], check=True, capture_output=True, text=True)
        times.append(int(done.stderr))
    return min(times) / 1e9


def main():
    if not PROGRAM.exists():
        sys.exit(f"there is no {PROGRAM}: run `rt run` in crates/tree_bench")
    sizes = [int(word) for word in sys.argv[1:]] or SIZES
    print(f"{'place':7}" + "".join(f" {size:>11,}" for size in sizes) + "   growth         µs a character")
    for site in ("end", "front", "random"):
        times = [seconds(site, size, repeats) for size, repeats in zip(sizes, REPEATS)]
        growth = " ".join(f"{b / a:6.1f}" for a, b in zip(times, times[1:]))
        each = " ".join(f"{t / size * 1e6:8.2f}" for t, size in zip(times, sizes))
        print(f"{site:7}" + "".join(f" {t:10.3f}s" for t in times) + f"   {growth}  {each}")


if __name__ == "__main__":
    main()
