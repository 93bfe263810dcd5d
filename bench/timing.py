"""Runs programs that read nothing and write one line, and takes their processor time: for `polls.py` and `holds.py`."""

import os
import subprocess
import sys

RUNS = 9


def compared(words, line):
    """The program writes this line, and ends with status 0."""
    done = subprocess.run(words, stdin=subprocess.DEVNULL, stdout=subprocess.PIPE, text=True)
    if done.stdout != f"{line}\n" or done.returncode != 0:
        sys.exit(f"bench: {' '.join(words)}: wrote {done.stdout!r}, status {done.returncode}")


def run(words):
    """The seconds of processor time of one run."""
    child = subprocess.Popen(words, stdin=subprocess.DEVNULL, stdout=subprocess.DEVNULL)
    _, status, usage = os.wait4(child.pid, 0)
    child.returncode = os.waitstatus_to_exitcode(status)
    if child.returncode != 0:
        sys.exit(f"bench: {' '.join(words)}: status {child.returncode}")
    return usage.ru_utime + usage.ru_stime


def least_in_turns(commands, runs=RUNS):
    """The least processor time of each command, its words with how often they are run in a row. All commands are run in
    turns, so that a busy machine slows them alike."""
    timings = {name: [] for name in commands}
    for _ in range(runs):
        for name, (words, times) in commands.items():
            timings[name].append(sum(run(words) for _ in range(times)))
    return {name: min(its) for name, its in timings.items()}
