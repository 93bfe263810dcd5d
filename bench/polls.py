"""Times a program that polls requests under chains of probes: `bench/polls.sh` calls this with the program.

In the time is all that a request takes: the program builds a Heartbeat, starts it, which is a turn of each probe on it,
and then polls it until it is done, with a Heartbeat's answer that it builds for each poll. So a request that asks for
nothing aside is one start and one poll. Each command is run once with what it writes compared, and then timed in turns
with the others. The least processor time of some runs counts, with the start of the program in it.
"""

import os
import sys

from replay import MOST_GROWTH, verdict
from timing import compared, least_in_turns

POLLS = 1_000_000  # of each command
DEPTHS = 0, 1, 4, 8  # probes that ask nothing aside
ASKING = 3  # probes that ask
ANSWERS = {1: 8, 3: 64}  # of each request, by how often each of them asks
TURNS = {1: 21, 3: 105}  # that the probes have on it


def command(program, probes, asks, answers):
    """The words for so many probes, and what they write. A request has so many answers."""
    requests = POLLS // answers
    return [program, str(probes), str(asks), str(requests)], f"{requests} requests completed by {POLLS} polls"


def print_table(found):
    print(f"{POLLS:,} polls{'':<28} {'requests':>9} {'processor':>9}")
    for depth in DEPTHS:
        print(f"{f'a chain of {depth}, nothing asked aside':<44} {POLLS:>9} {found['depth', depth]:>9.3f}")
    for asks, answers in ANSWERS.items():
        name = f"a chain of {ASKING}, {answers} answers a request"
        print(f"{name:<44} {POLLS // answers:>9} {found['asks', asks]:>9.3f}")


def growths_of(found):
    """How much more time a longer chain, and a request with more answers, takes."""
    empty, one = found["depth", 0], found["depth", 1]
    for depth in DEPTHS[2:]:
        yield f"time per poll and probe, a chain of {depth} over one", found["depth", depth] / (depth * one)
    for depth in DEPTHS[2:]:
        yield f"the same without that of the empty chain: {depth}", (found["depth", depth] - empty) / (depth * (one - empty))
    eight, many = (found["asks", asks] for asks in ANSWERS)
    yield "time per answer, 64 answers over 8", many / eight
    turns = [POLLS // answers * TURNS[asks] for asks, answers in ANSWERS.items()]
    per_turn = [(time - empty) / count for time, count in ((eight, turns[0]), (many, turns[1]))]
    yield "time per turn, the same, without that of the empty chain", per_turn[1] / per_turn[0]


def main():
    program = os.path.abspath(sys.argv[1])
    commands = {("depth", depth): command(program, depth, 0, 1) for depth in DEPTHS}
    commands |= {("asks", asks): command(program, ASKING, asks, answers) for asks, answers in ANSWERS.items()}
    for words, line in commands.values():
        compared(words, line)
    found = least_in_turns({name: (words, 1) for name, (words, _) in commands.items()})
    print_table(found)
    met = [verdict(name, growth, f"at most {MOST_GROWTH}", growth <= MOST_GROWTH) for name, growth in growths_of(found)]
    return 0 if all(met) else 1


if __name__ == "__main__":
    sys.exit(main())
