#!/usr/bin/env python3
"""Measures appending records to a journal.

Build the program first: `rt run` in crates/journal_bench. Compare the figures of one run with each other.

Each row is the time of one record, in microseconds, the least of some runs of so many records each: the bytes of a group alone
(`groups`), appends to a journal on a disk in memory (`journal_in_memory`) and on a real file (`journal_in_file`), and the two
writes and two syncs of such an append alone, on as many bytes of a real file (`calls_in_file`). The file lies in the folder that
is given, or in the present one. The last line is what the journal adds to these calls.
"""

import pathlib
import subprocess
import sys
import tempfile

PROGRAM = pathlib.Path(__file__).resolve().parent.parent / "crates/journal_bench/out/journal_bench"

RECORDS = 10_000
REPEATS = 3
OPERATIONS = ("groups", "journal_in_memory", "calls_in_file", "journal_in_file")


def run(operation, folder):
    """The microseconds and the bytes of one record, in one run."""
    words = [PROGRAM, operation, str(RECORDS)]
    if operation.endswith("file"):
        words.append(str(folder / "journal"))
    done = subprocess.run(words, check=True, capture_output=True, text=True)
    return int(done.stderr) / RECORDS / 1000, int(done.stdout) / RECORDS


def main():
    if not PROGRAM.exists():
        sys.exit(f"there is no {PROGRAM}: run `rt run` in crates/journal_bench")
    with tempfile.TemporaryDirectory(dir=sys.argv[1] if len(sys.argv) > 1 else ".") as name:
        # each in turn, since a disk is now faster and now slower
        rounds = [[run(operation, pathlib.Path(name)) for operation in OPERATIONS] for _ in range(REPEATS)]
    rows = dict(zip(OPERATIONS, map(min, zip(*rounds))))
    print(f"{'µs a record':18} {'µs':>10} {'bytes':>8}")
    for operation, (time, size) in rows.items():
        print(f"{operation:18} {time:10.2f} {size:8.1f}")
    calls = rows["calls_in_file"][0]
    print(f"groups / calls {rows['groups'][0] / calls:.4f}, journal / calls {rows['journal_in_file'][0] / calls:.3f}")


if __name__ == "__main__":
    main()
