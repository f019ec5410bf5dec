#!/usr/bin/env python3
"""Times the built replay on scripts of growing length, on many editors of one text, on a text that grows long, and on
scripts of one long line.

Build the program first: `rt run` in crates/teamreplay.

The first table has seconds, peak memory, and the growth of each. A script has so many `type` lines, each of one
character in front of the text, with a `settle` each hundred lines, and one `show` at the end. With
linear cost the seconds grow about tenfold from one size to the next; the memory grows with the text
and with what is under way, and not with the length of the script.

The second has so many editors of one text of 1,000 characters. A typed character comes to the daemon and from there to all
of them: of one editor that types alone, and of each in turn. It has the microseconds of a keystroke, processor time over that of a
script in which nothing is typed, and how many times those of the row above; where a keystroke costs no more than in
proportion to the editors, this is at most 10.

The third has 100,000 keystrokes of one editor at random places of a text that grows from nothing to 100,000 characters, settled every 20,
as keystrokes a second; and then what one keystroke takes where the text has some 10,000 characters and where it has some 100,000. It is to
grow less than twofold.

The fourth has one line of so many bytes, in nanoseconds a byte: processor time, over that of an empty script. A
comment is passed over, so it costs what any line does. A text that is typed and bytes that are heard are read, and
nothing more, since there is no editor or connection: such a script ends at its first line with status 2. With linear
cost a row is level. Texts that are opened in an editor and shown are read, sent, and written; they may not be as long.
"""

import os
import pathlib
import random
import subprocess
import sys
import tempfile
import time

PROGRAM = pathlib.Path(__file__).resolve().parent.parent / "crates/teamreplay/out/teamreplay"
SIZES = (1_000, 10_000, 100_000)
REPEATS = 3

EDITORS = (2, 20, 200)
ROUNDS = 400

KEYSTROKES = 100_000
TEXTS = (10_000, 100_000)
TYPED = 5_000

LENGTHS = (1_000_000, 4_000_000, 16_000_000)
LINE_REPEATS = 9


def script_of(lines):
    """Each line types one letter in front; the last of each hundred also takes the text back to it alone."""
    yield 'daemon 0\neditor 0 0 f "a"\nsettle 0\n'
    length = 1
    for line in range(lines):
        yield f'type 0 0 {length if line % 100 == 99 else 0} "{chr(97 + line % 26)}"\n'
        length = 1 if line % 100 == 99 else length + 1
        if line % 100 == 99:
            yield "settle 0\n"
    yield "settle 0\nshow 0\n"


def run(path):
    """The seconds and the peak memory in KiB of one run."""
    with open(path, "rb") as script:
        start = time.perf_counter()
        process = subprocess.Popen([PROGRAM], stdin=script, stdout=subprocess.DEVNULL)
        _, status, usage = os.wait4(process.pid, 0)
        if status != 0:
            sys.exit(f"the replay ended with status {os.waitstatus_to_exitcode(status)}")
        return time.perf_counter() - start, usage.ru_maxrss


def print_scripts():
    print(f"{'type lines':>12} {'seconds':>9} {'growth':>7} {'peak KiB':>9} {'growth':>7}")
    before = None
    for size in SIZES:
        with tempfile.NamedTemporaryFile("w", suffix=".script") as script:
            script.writelines(script_of(size))
            script.flush()
            runs = [run(script.name) for _ in range(REPEATS)]
        seconds, peak = min(r[0] for r in runs), max(r[1] for r in runs)
        growth = ("", "") if before is None else (f"{seconds / before[0]:.1f}", f"{peak / before[1]:.2f}")
        print(f"{size:>12,} {seconds:>9.4f} {growth[0]:>7} {peak:>9,} {growth[1]:>7}")
        before = (seconds, peak)


def processor_seconds(script, repeats=LINE_REPEATS):
    """The least processor time of some runs."""
    times = []
    with tempfile.NamedTemporaryFile("w", suffix=".script") as file:
        file.write(script)
        file.flush()
        for _ in range(repeats):
            with open(file.name, "rb") as opened:
                process = subprocess.Popen([PROGRAM], stdin=opened, stdout=subprocess.DEVNULL, stderr=subprocess.DEVNULL)
                _, _, usage = os.wait4(process.pid, 0)
            times.append(usage.ru_utime + usage.ru_stime)
    return min(times)


def settled_editors(editors, text):
    lines = ["daemon 0"]
    lines += [f'editor {editor} 0 f {text}' for editor in range(editors)]
    return lines + [f"settle {editor}" for editor in range(editors)]


def keystroke(editors, hand):
    """The microseconds of a keystroke that comes to all editors; `hand` tells who types at each turn."""
    lines = settled_editors(editors, '"abcde fghi"*100')
    start = processor_seconds("\n".join(lines) + "\n", REPEATS)
    for turn in range(ROUNDS):
        lines += [f'type {hand(turn, editors)} {turn * 7 % 1000} 0 "x"', f"up {hand(turn, editors)}"]
        lines += [f"settle {editor}" for editor in range(editors)]
    return (processor_seconds("\n".join(lines) + "\n", REPEATS) - start) / ROUNDS * 1e6


def print_editors():
    hands = {"one types": lambda turn, editors: 0, "in turn": lambda turn, editors: turn % editors}
    print(f"{'editors':>12}" + "".join(f" {name:>12} {'growth':>7}" for name in hands))
    before = {}
    for editors in EDITORS:
        row = f"{editors:>12,}"
        for name, hand in hands.items():
            taken = keystroke(editors, hand)
            row += f" {taken:>12.1f} {f'{taken / before[name]:.1f}' if name in before else '':>7}"
            before[name] = taken
        print(row)


def typing(length, keystrokes):
    """One editor types single characters at random places of a text of this length, settled every 20."""
    places = random.Random(7)
    lines = settled_editors(1, f'"a"*{length}' if length else '""')
    for typed in range(keystrokes):
        lines.append(f'type 0 {places.randint(0, length + typed)} 0 "{chr(97 + typed % 26)}"')
        if typed % 20 == 19:
            lines.append("settle 0")
    return "\n".join(lines) + "\n"


def print_typing():
    whole = processor_seconds(typing(0, KEYSTROKES), REPEATS)
    print(f"{KEYSTROKES:,} keystrokes to {KEYSTROKES:,} characters: {KEYSTROKES / whole:,.0f} a second")
    before = None
    for length in TEXTS:
        front = length - TYPED // 2
        taken = (processor_seconds(typing(front, TYPED)) - processor_seconds(typing(front, 0))) / TYPED * 1e6
        growth = "" if before is None else f", {taken / before:.2f} times as much"
        print(f"at {length:,} characters {taken:.1f} µs a keystroke{growth}")
        before = taken


# what stands in front of a long text, what the text is made of, and what stands behind it
LINES = {
    "comment": ("#", "abcdefgh", "\n"),
    "type": ('type 0 0 0 "', "abcdefgh", '"\n'),
    "type, escapes": ('type 0 0 0 "', "abcdef\\n", '"\n'),
    "hear": ("hear 0 0 ", "616263ff", "\n"),
    "editor, show": ('daemon 0\neditor 0 0 f "', "abcdefgh", '"\nsettle 0\nshow 0\n'),
}


def print_lines():
    print(f"{'ns a byte':14}" + "".join(f" {length:>12,}" for length in LENGTHS))
    start = processor_seconds("")
    for name, (front, letters, behind) in LINES.items():
        row = f"{name:14}"
        for length in LENGTHS[:2] if name == "editor, show" else LENGTHS:
            script = front + letters * (length // len(letters)) + behind
            row += f" {(processor_seconds(script) - start) / len(script) * 1e9:12.2f}"
        print(row)


def main():
    if not PROGRAM.exists():
        sys.exit("build the program first: rt run in crates/teamreplay")
    print_scripts()
    print()
    print_editors()
    print()
    print_typing()
    print()
    print_lines()


if __name__ == "__main__":
    main()
