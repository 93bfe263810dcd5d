"""Runs the built program for `scripts/check_ample` and `scripts/check_program`, and tells which cases fail.

A case that fails is one line: its name, what was wanted and what came.
"""

import subprocess
import sys
from pathlib import Path

TOP = Path(__file__).resolve().parent.parent
WRAPPER = TOP / "kproxy"
BUILT = TOP / "crates" / "kproxy" / "out" / "kproxy"
MOST_SHOWN = 100  # bytes of an output


def program(is_wrapped):
    """The program to run: the one that is named, or kproxy, which is built first where need be. Its wrapper takes some
    milliseconds at each run."""
    if len(sys.argv) > 2:
        sys.exit(f"usage: {sys.argv[0]} [PROGRAM]")
    path = sys.argv[1] if len(sys.argv) == 2 else str(WRAPPER)
    try:
        status = subprocess.run([path, "replay"], stdin=subprocess.DEVNULL, stdout=subprocess.DEVNULL).returncode
    except OSError as fault:
        sys.exit(f"{path} does not run: {fault}")
    if status != 0:
        sys.exit(f"{path} does not run: status {status} on the empty script")
    return path if is_wrapped or len(sys.argv) == 2 else str(BUILT)


def shown(data):
    """The front of an output, and how much more of it there is."""
    more = f" and {len(data) - MOST_SHOWN:,} bytes more" if len(data) > MOST_SHOWN else ""
    return repr(data[:MOST_SHOWN])[1:] + more


def status_text(status):
    """A process that a signal ended has a status below 0."""
    return f"signal {-status}" if status < 0 else f"status {status}"


class Cases:
    """Counts the cases, and prints each that fails."""

    def __init__(self, title):
        self.title = title
        self.passed = 0
        self.failed = 0

    def note(self, name, complaint):
        """A case has passed where there is no complaint."""
        if complaint is None:
            self.passed += 1
        else:
            self.failed += 1
            print(f"{self.title}: {name}: {complaint}", flush=True)

    def status(self):
        print(f"{self.title}: {self.passed} passed, {self.failed} failed")
        return 1 if self.failed or not self.passed else 0
