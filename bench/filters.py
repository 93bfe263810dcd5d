"""Times a program that replays Heartbeats over a cluster of four filters, against the same without a configuration:
`bench/filters.sh` calls this with the program.

Each script is run once with its output compared, byte by byte, and then timed with the output thrown away. The least
processor time of some runs counts, those of the two in turns, so that a busy machine slows both alike.
"""

import os
import sys
import tempfile
from pathlib import Path

from codec import compared, in_turns
from replay import WHOLE, Script, heartbeat, one_by_one, verdict

EXCHANGES = 100_000
MOST_SLOWER = 1.5  # with four filters, over none
MOST_SLOWER_EMPTY = 1.1  # with a cluster without filters, over none
CLUSTER = """version = 1
[[cluster]]
name = "lab"
listen = "localhost"
advertise = "localhost"
port = 19092
first_node = 0
bootstrap = "localhost:9092"
nodes = ["localhost:9092"]
"""
FOUR = 'filters = ["produce-all", "topic-deny:secret", "api-block:20", "topic-exists"]\n'


def main():
    program = [os.path.abspath(sys.argv[1]), "replay"]
    with tempfile.TemporaryDirectory() as folder:
        script = Script(folder, one_by_one(map(heartbeat, range(EXCHANGES)), WHOLE))
        commands = {}
        for name, keys in (("no configuration", None), ("a cluster without filters", ""), ("four filters", FOUR)):
            words = program
            if keys is not None:
                file = Path(folder) / f"{len(commands)}.toml"
                file.write_text(CLUSTER + keys)
                words = [*program, str(file), "lab"]
            compared(words, name, script)
            commands[name] = words, script.text
        found = in_turns(commands)
    print(f"{EXCHANGES:,} Heartbeats{'':<20} {'processor':>9} {'peak MiB':>9}")
    for name, (seconds, peak) in found.items():
        print(f"{name:<36} {seconds:>9.3f} {peak / 1024:>9.1f}")
    plain = found["no configuration"][0]
    met = []
    for name, most in (("a cluster without filters", MOST_SLOWER_EMPTY), ("four filters", MOST_SLOWER)):
        slower = found[name][0] / plain
        met.append(verdict(f"{name}, over none", slower, f"at most {most}", slower <= most))
    return 0 if all(met) else 1


if __name__ == "__main__":
    sys.exit(main())
