"""Times a program that replays scripts of long bodies, against xxd, and against an earlier program where one is named:
`bench/codec.sh` calls this.

Each script is run once with its output compared, byte by byte, and then timed with the output thrown away. The least
processor time of some runs counts, those of the programs in turns, so that a busy machine slows all alike.
"""

import os
import shutil
import sys
import tempfile
from pathlib import Path

from replay import MOST_GROWTH, WHOLE, Script, exchange, heartbeat, is_same, one_by_one, request_lines, run, verdict

RUNS = 9
LEAST_SPEED = 0.2  # of Metadata and OffsetCommit, over the speed of xxd
LEAST_BATCH_SPEED = 0.6  # of record batches
LEAST_PRODUCE_SPEED = 0.5  # of Produce requests of a thousand bytes
LEAST_GREAT_PRODUCE_SPEED = 0.7  # and of a hundred thousand
MOST_SLOWER = 1.1  # Heartbeats, over the program before
MOST_LARGER = 1.1  # peak memory of a great answer, over the program before


def number(value, size):
    return value.to_bytes(size, "big", signed=True)


def text(value):
    return number(len(value), 2) + value.encode()


def array(entries):
    return number(len(entries), 4) + b"".join(entries)


def metadata(index):
    """Metadata, version 1: all topics are asked for, and 1,000 of three partitions are told. The broker is told where the
    proxy puts it, so the answer is written anew and stays the same."""
    broker = number(0, 4) + text("localhost") + number(19093, 4) + number(-1, 2)
    node = array([number(0, 4)])
    partitions = array([number(0, 2) + number(i, 4) + number(0, 4) + node + node for i in range(3)])
    topics = [number(0, 2) + text(f"topic-{i:04}") + b"\0" + partitions for i in range(1000)]
    return exchange(index, bytes.fromhex("0003 0001"), number(-1, 4), array([broker]) + number(0, 4) + array(topics))


def offset_commit(index):
    """OffsetCommit, version 2, of 100 partitions."""
    group = text("group") + number(1, 4) + text("member") + number(-1, 8)
    commits = array([number(i, 4) + number(1000 + i, 8) + text("") for i in range(100)])
    told = array([number(i, 4) + number(0, 2) for i in range(100)])
    return exchange(
        index, bytes.fromhex("0008 0002"), group + array([text("topic") + commits]), array([text("topic") + told])
    )


def fetch(index, batch):
    """Fetch, version 4, of one partition, whose answer has one record batch of so many bytes."""
    asked = array([text("topic") + array([number(0, 4) + number(0, 8) + number(1 << 20, 4)])])
    request = number(-1, 4) + number(500, 4) + number(1, 4) + number(1 << 20, 4) + b"\0" + asked
    partition = number(0, 4) + number(0, 2) + number(9, 8) + number(9, 8) + number(-1, 4)
    answer = number(0, 4) + array([text("topic") + array([partition + number(batch, 4) + bytes(batch)])])
    return exchange(index, bytes.fromhex("0001 0004"), request, answer)


def produce(index, batch, acks):
    """Produce, version 3, of one partition with one record batch of so many bytes."""
    partition = number(0, 4) + number(batch, 4) + bytes(batch)
    request = number(-1, 2) + number(acks, 2) + number(1000, 4) + array([text("topic") + array([partition])])
    told = number(0, 4) + number(0, 2) + number(9, 8) + number(-1, 8)
    return exchange(index, bytes.fromhex("0000 0003"), request, array([text("topic") + array([told])]) + number(0, 4))


def silent(exchanges, piece):
    """Each request is sent and passed before the next one comes, and gets no response."""
    for it in exchanges:
        yield from request_lines(it, piece)
        yield "emit", "later"


def in_turns(commands, runs=RUNS):
    """The least processor time of each command, a list of words with the file that it is given, and its greatest peak."""
    timings = {name: [] for name in commands}
    for _ in range(runs):
        for name, (words, source) in commands.items():
            timings[name].append(run(words, source, os.devnull))
    return {name: (min(it.processor for it in its), max(it.peak for it in its)) for name, its in timings.items()}


def compared(program, name, script):
    written = Path(f"{script.text}.written")
    run(program, script.text, written)
    if not is_same(written, script.wanted):
        sys.exit(f"bench: {name}: what was written is not what is wanted")
    written.unlink()


def timed(programs, name, exchanges, folder, lines=one_by_one):
    """Times each program and xxd on a script of these exchanges: from each name to seconds and peak; the bytes of it."""
    script = Script(folder, lines(exchanges, WHOLE))
    compared(programs["kproxy"], name, script)
    commands = {key: (words, script.text) for key, words in programs.items()}
    commands["xxd"] = ["xxd", "-r", "-p"], script.digits
    found = in_turns(commands)
    for key, (seconds, peak) in found.items():
        print(f"{name:<44} {key:<8} {seconds:>9.3f} {peak / 1024:>9.1f}", flush=True)
    return found, script.digits.stat().st_size


def held_against_xxd(program, folder):
    cases = [
        ("Metadata", metadata, (10, 100), LEAST_SPEED),
        ("OffsetCommit", offset_commit, (300, 3000), LEAST_SPEED),
        ("a record batch", lambda size: fetch(0, size), (1_000_000, 10_000_000), LEAST_BATCH_SPEED),
    ]
    for name, make, counts, wanted in cases:
        rates = []
        for count in counts:
            exchanges = [make(count)] if name == "a record batch" else map(make, range(count))
            found, size = timed({"kproxy": program}, f"{name}: {count:,}", exchanges, folder)
            rates.append(found["kproxy"][0] / size)
        growth, speed = rates[1] / rates[0], found["xxd"][0] / found["kproxy"][0]
        yield verdict(f"time per byte, larger over smaller: {name}", growth, f"at most {MOST_GROWTH}", growth <= MOST_GROWTH)
        yield verdict(f"speed over that of xxd, on the same digits: {name}", speed, f"at least {wanted}", speed >= wanted)


def produced_against_xxd(program, folder):
    cases = [
        (1_000, (10_000, 100_000), LEAST_PRODUCE_SPEED),
        (100_000, (100, 1_000), LEAST_GREAT_PRODUCE_SPEED),
    ]
    for batch, counts, wanted in cases:
        for acks, lines in (0, silent), (1, one_by_one):
            name = f"Produce of {batch:,} bytes, acks {acks}"
            rates = []
            for count in counts:
                exchanges = (produce(index, batch, acks) for index in range(count))
                found, size = timed({"kproxy": program}, f"{name}: {count:,}", exchanges, folder, lines)
                rates.append(found["kproxy"][0] / size)
            growth, speed = rates[1] / rates[0], found["xxd"][0] / found["kproxy"][0]
            yield verdict(f"time per byte, larger over smaller: {name}", growth, f"at most {MOST_GROWTH}", growth <= MOST_GROWTH)
            yield verdict(f"speed over that of xxd, on the same digits: {name}", speed, f"at least {wanted}", speed >= wanted)


def held_against_before(program, before, folder):
    programs = {"kproxy": program, "before": before}
    found, _ = timed(programs, "Heartbeats: 100,000", map(heartbeat, range(100_000)), folder)
    slower = found["kproxy"][0] / found["before"][0]
    yield verdict("Heartbeats, over the program before", slower, f"at most {MOST_SLOWER}", slower <= MOST_SLOWER)
    found, _ = timed(programs, "a record batch: 50,000,000", [fetch(0, 50_000_000)], folder)
    larger = found["kproxy"][1] / found["before"][1]
    yield verdict("peak of a batch of 50 MB, over the program before", larger, f"at most {MOST_LARGER}", larger <= MOST_LARGER)


def main():
    if not shutil.which("xxd"):
        sys.exit("xxd isn't installed (Debian package xxd), so nothing can be held against it")
    program, *before = [[os.path.abspath(it), "replay"] for it in sys.argv[1:]]
    print(f"{'':<44} {'':<8} {'processor':>9} {'peak MiB':>9}")
    with tempfile.TemporaryDirectory() as folder:
        met = list(held_against_xxd(program, folder)) + list(produced_against_xxd(program, folder))
        if before:
            met += held_against_before(program, before[0], folder)
    return 0 if all(met) else 1


if __name__ == "__main__":
    sys.exit(main())
