"""Times a program that calls a connection: `bench/holds.sh` calls this with the program.

In the time is all that a request takes of its client's frame, the send, the broker's frame and the response, and where it
is held also of the hold that is picked and its verdict. The program builds the frames and compares what it is given. Each
command is run once with what it writes compared, and then timed in turns with the others: a run of many requests, and ten
of a tenth of them in a row. The least processor time counts, without that of the start of the program.
"""

import os
import sys

from replay import MOST_GROWTH, verdict
from timing import compared, least_in_turns

IN_FLIGHT = 1, 64
MANY = 640_000  # requests: 10,000 rounds of 64
AT_A_TIME = {"at once": (MANY, 1), "in ten connections": (MANY // 10, 10)}  # of each run, and how many runs
STARTS = 100


def plain(in_flight, requests):
    """Each response makes room for the next request."""
    return ["plain", str(in_flight), str(requests)], f"{requests} requests exchanged, {in_flight} in flight"


def held(in_flight, requests):
    """So many requests are held and completed, the oldest last, and then all of them are drained: in rounds."""
    rounds = requests // in_flight
    words = ["held", str(in_flight), str(rounds)]
    return words, f"{rounds} rounds of {in_flight} requests, held, completed and drained"


def times(program):
    """The seconds of each way to take all the requests: by how they go, how many are in flight, and in how many runs."""
    commands = {"start": ([program, "plain", "1", "0"], STARTS)}
    for make in plain, held:
        for in_flight in IN_FLIGHT:
            for way, (requests, runs) in AT_A_TIME.items():
                words, line = make(in_flight, requests)
                compared([program, *words], line)
                commands[make.__name__, in_flight, way] = [program, *words], runs
    found = least_in_turns(commands)
    start = found.pop("start") / STARTS
    return {name: seconds - start * commands[name][1] for name, seconds in found.items()}


def main():
    found = times(os.path.abspath(sys.argv[1]))
    print(f"{f'{MANY:,} requests':<44} {'processor':>9} {'microseconds each':>18}")
    for (name, in_flight, way), seconds in found.items():
        print(f"{f'{name}, {in_flight} in flight, {way}':<44} {seconds:>9.4f} {seconds / MANY * 1e6:>18.2f}")
    growths = {}
    for name in "plain", "held":
        few, full = (found[name, in_flight, "at once"] for in_flight in IN_FLIGHT)
        growth = f"time per request, 64 in flight over 1: {name}"
        if name == "plain":
            growths[growth] = full / few
        else:
            print(f"{growth:<64} {full / few:>8.2f}")
    for name in "plain", "held":
        for in_flight in IN_FLIGHT:
            old, young = (found[name, in_flight, way] for way in AT_A_TIME)
            growths[f"the same, {MANY:,} over {MANY // 10:,}: {name}, {in_flight} in flight"] = old / young
    met = [verdict(name, growth, f"at most {MOST_GROWTH}", growth <= MOST_GROWTH) for name, growth in growths.items()]
    return 0 if all(met) else 1


if __name__ == "__main__":
    sys.exit(main())
