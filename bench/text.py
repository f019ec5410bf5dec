#!/usr/bin/env python3
"""Measures the operations on texts, deltas, frames and URIs.

Build the program first: `rt run` in crates/text_bench. The program measures by its own clock, around the
operation alone: neither its start nor the making of its input is in the time. Each figure is the least
of some runs. Compare the figures of one run with each other; those of two runs or machines differ.

The first table has what a keystroke does, at sizes of 1,000 to 1,000,000 characters with an LF each 40,
in microseconds: a position of a place (`position_of`), a character typed or deleted (`typed`), and a
whole keystroke (`keystroke`: the positions of a range, the delta of the edit, the text changed in place, and the
position behind it); at the front, in the middle, at the end, and each time at another place. Beside each
stands the same on a plain vector of characters, and how many times longer that takes.

The second table has what passes over the whole text, in nanoseconds a character: a copy, and the text in UTF-8.

The third table has one operation in each row, with so many edits or positions. With linear cost the
growth from one size to the next is about 10; where the number of edits stays the same and no text is
touched, it is about 1.

The fourth table has what a bridge takes for one keystroke of its editor, over 10,000 of them, by the length of the text and by how
many of the daemon's deltas the editor has not shown: in microseconds, and how many times longer than with none.

The fifth table reads the frame of a body of so many bytes, cut into pieces. The sixth reads one URI again
and again, once as a plain one and once as one that needs the parser of URLs.
"""

import pathlib
import subprocess
import sys

PROGRAM = pathlib.Path(__file__).resolve().parent.parent / "crates/text_bench/out/text_bench"
REPEATS = 5

# short runs, and more of them: on a busy machine few long ones are undisturbed
STROKES = 500
STROKE_REPEATS = 15

TEXT_SIZES = (1_000, 10_000, 100_000, 1_000_000)
SITES = ("front", "middle", "end", "random")

SIZES = (10_000, 100_000, 1_000_000)

# the program makes so many in one run
TAKES = 10_000

TAKE_SIZES = (1_000, 10_000, 100_000)
UNCONFIRMED = (0, 1, 100)

LARGE_BODY = 33_554_432
PIECES = (1, 100, 65_536)

PATHS = (20, 1_000)
READS = 200_000


def nanoseconds(operation, size, count, site="random", repeats=REPEATS):
    """The least time of some runs."""
    times = []
    for _ in range(repeats):
        done = subprocess.run(
            [PROGRAM, operation, str(size), str(count), site],
            check=True,
            capture_output=True,
            text=True,
        )
        times.append(int(done.stderr))
    return min(times)


def each_microseconds(operation, size, count, site="random", repeats=REPEATS):
    """The time of one of so many operations."""
    return nanoseconds(operation, size, count, site, repeats) / count / 1000


def print_keystrokes():
    print(f"{'µs':12} {'place':7}" + "".join(f" {f'{size:,}: pages, vector (times)':>30}" for size in TEXT_SIZES))
    for operation, vector in (
        ("position_of", "position_vector"),
        ("typed", "typed_vector"),
        ("keystroke", "keystroke_vector"),
    ):
        for site in SITES:
            row = f"{operation:12} {site:7}"
            for size in TEXT_SIZES:
                pages = each_microseconds(operation, size, STROKES, site, STROKE_REPEATS)
                plain = each_microseconds(vector, size, max(10, STROKES * 1_000 // size), site)
                row += f" {pages:9.2f} {plain:9.2f} {f'({plain / pages:,.1f})':>10}"
            print(row)


def print_passes():
    print(f"{'ns a character':20}" + "".join(f" {f'{size:,}: pages, vector (times)':>30}" for size in TEXT_SIZES))
    for operation, vector in (("copy", "copy_vector"), ("utf8", "utf8_vector")):
        row = f"{operation:20}"
        for size in TEXT_SIZES:
            count = max(3, 2_000_000 // size)
            pages = nanoseconds(operation, size, count) / count / size
            plain = nanoseconds(vector, size, count) / count / size
            row += f" {pages:9.2f} {plain:9.2f} {f'({plain / pages:,.2f})':>10}"
        print(row)


def tenth(size):
    """One edit for each ten characters."""
    return size // 10


def few(_size):
    """A hundred edits or positions, however long the text is."""
    return 100


def one(_size):
    """One edit."""
    return 1


# the operation, and the number of edits or positions for a size
ROWS = [
    ("finish", tenth),
    ("apply", tenth),
    ("compose", tenth),
    ("compose", few),
    ("pass_editor", tenth),
    ("pass_editor", few),
    ("pass_daemon", tenth),
    ("pass_daemon", few),
    ("pass_list", tenth),
    ("pass_list", few),
    ("offset_of", few),
    ("from_edits", one),
    ("from_edits", few),
    ("to_edits", tenth),
    ("to_edits", few),
]


def seconds(operation, sizes, count):
    """The times at some sizes."""
    return [nanoseconds(operation, size, count(size)) / 1e9 for size in sizes]


def growth(times):
    """How many times longer each takes than the one before it."""
    return " ".join(f"{b / a:5.1f}" if a else "    -" for a, b in zip(times, times[1:]))


def columns(times):
    return "".join(f" {t * 1000:10.3f}ms" for t in times)


def print_changes():
    print(f"{'operation':16} {'count':>9}" + "".join(f" {size:>12,}" for size in SIZES) + "   growth")
    for operation, count in ROWS:
        times = seconds(operation, SIZES, count)
        print(f"{operation:16} {count.__name__:>9}{columns(times)}   {growth(times)}")


def print_takes():
    print(f"{'µs a take, unconfirmed':26}" + "".join(f" {f'{size:,} (times)':>20}" for size in TAKE_SIZES))
    none = {}
    for unconfirmed in UNCONFIRMED:
        row = f"{unconfirmed:>26}"
        for size in TAKE_SIZES:
            each = nanoseconds("take", size, unconfirmed, repeats=STROKE_REPEATS) / TAKES / 1000
            none.setdefault(size, each)
            row += f" {each:11.2f} {f'({each / none[size]:,.1f})':>8}"
        print(row)


def print_frames():
    sizes = (*SIZES, LARGE_BODY)
    print(f"{'frames, piece':26}" + "".join(f" {size:>12,}" for size in sizes) + "   growth              ns/byte")
    for piece in PIECES:
        times = seconds("frames", sizes, lambda _size: piece)
        print(f"{piece:>26,}{columns(times)}   {growth(times)}   {times[-1] / LARGE_BODY * 1e9:7.2f}")


def print_uris():
    print(f"{'uris, bytes of the path':26} {'plain':>12} {'by url':>12}   by url / plain")
    for size in PATHS:
        plain = each_microseconds("uris_plain", size, READS)
        by_url = each_microseconds("uris_by_url", size, READS)
        print(f"{size:>26,} {plain:10.2f}us {by_url:10.2f}us   {by_url / plain:.1f}")


def main():
    if not PROGRAM.exists():
        sys.exit(f"there is no {PROGRAM}: run `rt run` in crates/text_bench")
    tables = (print_keystrokes, print_passes, print_changes, print_takes, print_frames, print_uris)
    for i, print_table in enumerate(tables):
        if i:
            print()
        print_table()


if __name__ == "__main__":
    main()
