"""Runs `rt ci`, and tells the processor time of what it starts, crate by crate.

Use `scripts/gate_times`, which calls this. `rt ci` prints no times. So the processes below it are looked at every half second. A
check names its crate in its words. The time of a process since the last look is lost where it ends.
"""

import os
import subprocess
import sys
import time
from collections import defaultdict
from pathlib import Path

TICKS = os.sysconf("SC_CLK_TCK")
KINDS = ("proof", "tests", "wrong bodies", "other")
BETWEEN_LOOKS = 0.5  # seconds


def process(folder):
    """A process by its number and its start: its parent, its seconds, its words and its folder."""
    fields = (folder / "stat").read_text().rpartition(")")[2].split()
    words = (folder / "cmdline").read_bytes().decode(errors="replace").split("\0")
    seconds = (int(fields[11]) + int(fields[12])) / TICKS
    return (int(folder.name), fields[19]), int(fields[1]), seconds, words, os.readlink(folder / "cwd")


def kind_of(words, folder):
    """The crate whose check this is, and what the check is of."""
    if "--crate-name" not in words:
        return "", "other"
    name = words[words.index("--crate-name") + 1]
    if any("rt-edits-" in word for word in (*words, folder)):
        return name, "wrong bodies"
    return name, "tests" if "--test" in words else "proof"


def look(root, seen):
    """Notes the time of each process below this one."""
    found, parents = {}, {}
    for folder in Path("/proc").iterdir():
        if folder.name.isdigit():
            try:
                key, parent, seconds, words, cwd = process(folder)
            except (OSError, IndexError, ValueError):
                continue
            found[key[0]], parents[key[0]] = (key, seconds, words, cwd), parent
    for number, (key, seconds, words, cwd) in found.items():
        above = number
        while above in parents and above != root:
            above = parents[above]
        if above == root:
            seen[key] = (*kind_of(words, cwd), seconds)


def table(seen):
    times = defaultdict(float)
    for crate, kind, seconds in seen.values():
        times[crate, kind] += seconds
    crates = {crate for crate, _ in times}
    total = {crate: sum(times[crate, kind] for kind in KINDS) for crate in crates}
    print("| Crate | " + " | ".join(KINDS) + " | all |")
    print("|---|" + "---|" * (len(KINDS) + 1))
    for crate in sorted(crates, key=lambda it: -total[it]):
        row = [f"{times[crate, kind]:.0f}" for kind in KINDS]
        print(f"| {f'`{crate}`' if crate else 'beside'} | " + " | ".join(row) + f" | {total[crate]:.0f} |")
    sums = [sum(times[crate, kind] for crate in crates) for kind in KINDS]
    print("| in all, min | " + " | ".join(f"{it / 60:.0f}" for it in (*sums, sum(sums))) + " |")


def main():
    begun, seen = time.monotonic(), {}
    child = subprocess.Popen(["rt", "ci", *sys.argv[1:]])
    while child.poll() is None:
        look(child.pid, seen)
        time.sleep(BETWEEN_LOOKS)
    print(f"processor seconds, in {(time.monotonic() - begun) / 60:.0f} min on {os.cpu_count()} processors:")
    table(seen)
    return child.returncode


sys.exit(main())
