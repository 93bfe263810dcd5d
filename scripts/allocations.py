"""Each allocation of the program fails in turn, in a run of its own. Use `scripts/fail_allocations`, which calls this.

The program takes its memory by `malloc` and `realloc` of the C library. Functions of these names stand before them, count
the calls, and let one fail.
"""

import os
import subprocess
import sys
import tempfile
from pathlib import Path

from running import TOP, Cases, program, shown, status_text

NO_MEMORY = 5
MOST = 100_000  # allocations of a run
SECONDS = 20  # that a run may take
SHIM = r"""
#define _GNU_SOURCE
#include <dlfcn.h>
#include <errno.h>
#include <stddef.h>
#include <stdlib.h>
#include <unistd.h>

static long made;

/* Whether this call is the one to fail. It says so on standard error. */
static int fails(void) {
    const char *number = getenv("FAILING_ALLOCATION");
    if (!number || ++made != atol(number)) return 0;
    if (write(2, "!", 1) < 0) _exit(99);
    errno = ENOMEM;
    return 1;
}

void *malloc(size_t size) {
    static void *(*real)(size_t);
    if (!real) real = (void *(*)(size_t))dlsym(RTLD_NEXT, "malloc");
    return fails() ? NULL : real(size);
}

void *realloc(void *block, size_t size) {
    static void *(*real)(void *, size_t);
    if (!real) real = (void *(*)(void *, size_t))dlsym(RTLD_NEXT, "realloc");
    return fails() ? NULL : real(block, size);
}
"""


def built(folder):
    """The library that stands before the C library."""
    source, library = folder / "failing.c", folder / "failing.so"
    source.write_text(SHIM)
    subprocess.run(["cc", "-O1", "-shared", "-fPIC", "-o", library, source, "-ldl"], check=True)
    return library


def ran(command, script, library, number):
    """What a run writes, its status, and whether its allocation of that number failed. Of number 0 none fails."""
    env = {**os.environ, "LD_PRELOAD": str(library), "FAILING_ALLOCATION": str(number)}
    with open(script, "rb") as stdin:
        done = subprocess.run(command, stdin=stdin, capture_output=True, env=env, timeout=SECONDS)
    return done.stdout, done.returncode, done.stderr == b"!"


def complaint_of(command, script, library):
    """Tries each allocation. What is wrong, and how many there were."""
    text, status, _ = ran(command, script, library, 0)
    for number in range(1, MOST):
        written, found, failed = ran(command, script, library, number)
        if not failed:
            wrong = (written, found) != (text, status)
            return (f"two runs differ: {shown(written)}" if wrong else None), number - 1
        is_whole = (written, found) == (text, status)
        is_front = found == NO_MEMORY and text.startswith(written)
        if not is_whole and not is_front:
            return f"allocation {number}: {status_text(found)} and {shown(written)}", number
        if is_front and written and command[1] != "replay":
            return f"allocation {number}: want of memory behind {shown(written)}", number
    return f"more than {MOST:,} allocations", MOST


def cases(path):
    for file in sorted(TOP.glob("examples/config/*.toml")):
        for word in ("check", "plan"):
            yield f"{word} {file.stem}", [path, word, str(file)], os.devnull
    for file in sorted(TOP.glob("examples/replay/*.script")):
        yield f"replay {file.stem}", [path, "replay"], file
    for file in sorted(TOP.glob("examples/filters/*.script")):
        yield f"replay over {file.stem}", [path, "replay", str(file.with_suffix(".toml")), "lab"], file


def main():
    path = program(is_wrapped=False)
    table = Cases("fail_allocations")
    total = 0
    with tempfile.TemporaryDirectory() as folder:
        library = built(Path(folder))
        for name, command, script in cases(path):
            complaint, count = complaint_of(command, script, library)
            table.note(name, complaint)
            total += count
    print(f"fail_allocations: {total:,} allocations failed, each in a run of its own")
    return table.status()


if __name__ == "__main__":
    sys.exit(main())
