"""Times a program that reads configurations of great size: `bench/config.sh` calls this with the program.

Each file is read once with what is written compared, and then timed in turns with a file of a quarter of its bytes, so that
a busy machine slows both alike. The least processor time of some runs counts, without that of the smallest file.
"""

import os
import subprocess
import sys
import tempfile
from pathlib import Path

from replay import MOST_GROWTH, TIME, verdict

RUNS = 25
LIMIT = 1_048_576
SIZES = LIMIT // 4, LIMIT
DEEPEST = 80  # lists in one another, the most that `toml` takes
HEAD = """version = 1
[[cluster]]
name = "c"
listen = "h"
advertise = "h"
port = 1
first_node = 0
bootstrap = "h:1"
nodes = ["h:1"]
"""


def one_key(size):
    """One unknown key, of nearly all the bytes."""
    key = "k" * (size - len(HEAD) - 5)
    return f"{HEAD}{key} = 1\n", f"refused unknown-key 0 {key}\n"


def unknown_keys(size):
    """As many unknown keys as there is room for, at the limit over 40,000: the first in byte order is told."""
    lines = [f"key-{number:014} = 1\n" for number in range((size - len(HEAD)) // 23)]
    return HEAD + "".join(reversed(lines)), "refused unknown-key 0 key-00000000000000\n"


def nested(size):
    """Lists within lists, as deep as they may be, again and again."""
    lists = "[" * (DEEPEST - 1) + "]" * (DEEPEST - 1) + ","
    many = lists * ((size - len(HEAD) - 20) // len(lists))
    return f"{HEAD}policy_deny = [{many}]\n", "refused wrong-type 0 policy_deny\n"


def one_text(size):
    """A denied name of nearly all the bytes."""
    return f'{HEAD}policy_deny = ["{"n" * (size - len(HEAD) - 19)}"]\n', "refused bad-limit 0 policy_deny\n"


def names(size):
    """A list of names, far more than there may be."""
    many = '"n", ' * ((size - len(HEAD) - 20) // 5)
    return f"{HEAD}policy_deny = [{many}]\n", "refused bad-limit 0 policy_deny\n"


def comment(size):
    """A configuration that holds, and a comment."""
    return (HEAD + "#").ljust(size - 1, "x") + "\n", "ok 1\n"


def no_clusters(size):
    """Empty clusters, far more than there may be."""
    return "version = 1\n" + "[[cluster]]\n" * ((size - 12) // 12), "refused bad-value cluster\n"


CASES = {
    "one unknown key": one_key,
    "unknown keys": unknown_keys,
    "nested lists": nested,
    "one denied name": one_text,
    "denied names": names,
    "a comment": comment,
    "empty clusters": no_clusters,
}


def written_file(folder, name, text):
    path = Path(folder) / name
    path.write_text(text)
    return path


def compared(program, word, path, answer):
    """The program writes this answer, and ends with status 1 where it begins with `refused`."""
    done = subprocess.run([program, word, str(path)], stdin=subprocess.DEVNULL, stdout=subprocess.PIPE)
    if done.stdout != answer.encode() or done.returncode != answer.startswith("refused "):
        sys.exit(f"bench: {path.name}: what was written is not what is wanted, or status {done.returncode}")


def run(program, path):
    """The seconds of processor time of one run."""
    child = subprocess.Popen([program, "check", str(path)], stdin=subprocess.DEVNULL, stdout=subprocess.DEVNULL)
    _, status, usage = os.wait4(child.pid, 0)
    child.returncode = os.waitstatus_to_exitcode(status)
    return usage.ru_utime + usage.ru_stime


def peak_of(program, path):
    """The peak memory of one run in MiB, where GNU time is there."""
    if not os.access(TIME, os.X_OK):
        return ""
    words = [TIME, "-q", "-f", "%M", program, "check", str(path)]
    done = subprocess.run(words, stdin=subprocess.DEVNULL, stdout=subprocess.DEVNULL, stderr=subprocess.PIPE)
    return f"{int(done.stderr) / 1024:.1f}"


def in_turns(program, paths):
    """The least processor time on each file."""
    timings = {path: [] for path in paths}
    for _ in range(RUNS):
        for path in paths:
            timings[path].append(run(program, path))
    return [min(timings[path]) for path in paths]


def growth_of(program, name, make, folder, start):
    paths = [start]
    for size in SIZES:
        text, answer = make(size)
        path = written_file(folder, f"{name} {size}.toml", text)
        compared(program, "check", path, answer)
        paths.append(path)
    least, *found = in_turns(program, paths)
    sizes = [path.stat().st_size for path in paths[1:]]
    for path, size, seconds in zip(paths[1:], sizes, found):
        print(f"{name:<30} {size:>9} {seconds:>9.4f} {peak_of(program, path):>9}", flush=True)
    rates = [max(seconds - least, 1e-4) / size for size, seconds in zip(sizes, found)]
    return rates[1] / rates[0]


def main():
    program = os.path.abspath(sys.argv[1])
    print(f"{'':<30} {'bytes':>9} {'processor':>9} {'peak MiB':>9}")
    with tempfile.TemporaryDirectory() as folder:
        start = written_file(folder, "start.toml", HEAD)
        compared(program, "check", start, "ok 1\n")
        compared(program, "plan", start, "cluster c\nbootstrap 1 h:1\nnode 0 2 h:1\n")
        met = [
            verdict(f"time per byte, larger over smaller: {name}", growth, f"at most {MOST_GROWTH}", growth <= MOST_GROWTH)
            for name, make in CASES.items()
            for growth in [growth_of(program, name, make, folder, start)]
        ]
    return 0 if all(met) else 1


if __name__ == "__main__":
    sys.exit(main())
