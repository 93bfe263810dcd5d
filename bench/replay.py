"""Times a program that replays scripts, against xxd: `bench/replay.sh` calls this with the program.

Each script is run once with its output compared with what is wanted, and then timed, with the output thrown away. The
least time of some runs counts. Scripts lie in a temporary folder, which is removed.
"""

import collections
import os
import shutil
import subprocess
import sys
import tempfile
import time
from pathlib import Path
from typing import NamedTuple

RUNS = 15
TIME = "/usr/bin/time"  # GNU time, for the peak memory
MOST_GROWTH = 1.3  # time per byte of the larger script over that of the smaller
LEAST_SPEED = 0.2  # of whole frames, over the speed of xxd

PIECE = 64 * 1024
WHOLE = 1 << 30
MOST_FRAME = 104_857_600  # bytes of a client's frame
LEAST_ASSIGNMENT = 28  # bytes of a SyncGroup with one assignment that is empty


class Exchange(NamedTuple):
    request: bytes
    sent: bytes
    answer: bytes
    response: bytes


def sized(frame):
    return len(frame).to_bytes(4, "big") + frame


def exchange(number, head, body, answer):
    """A request with this head and this body, with what goes to the broker and what comes back."""
    own, upstream = (number + 1).to_bytes(4, "big"), number.to_bytes(4, "big")
    null = bytes.fromhex("ffff")  # client_id
    request = null + body
    return Exchange(
        sized(head + own + request), sized(head + upstream + request), sized(upstream + answer), sized(own + answer)
    )


def heartbeat(number):
    """A Heartbeat of member m of group g, and no error."""
    return exchange(number, bytes.fromhex("000c 0000"), bytes.fromhex("000167 00000001 00016d"), bytes.fromhex("0000"))


def assignment(number, size):
    """A SyncGroup whose frame has so many bytes, nearly all of them one assignment, and an empty answer."""
    length = size - LEAST_ASSIGNMENT
    body = bytes.fromhex("0000 00000001 0000 00000001 0000") + length.to_bytes(4, "big") + bytes(length)
    return exchange(number, bytes.fromhex("000e 0000"), body, bytes.fromhex("0000 00000000"))


def pieces_of(data, size):
    return [data[at : at + size] for at in range(0, len(data), size)]


def request_lines(it, piece):
    yield from ((f"client {part.hex()}", "ok") for part in pieces_of(it.request, piece))
    yield "send", f"to-broker {it.sent.hex()}"


def answer_lines(it, piece):
    yield from ((f"broker {part.hex()}", "ok") for part in pieces_of(it.answer, piece))
    yield "emit", f"to-client {it.response.hex()}"


def one_by_one(exchanges, piece):
    """Each request is answered before the next one comes."""
    for it in exchanges:
        yield from request_lines(it, piece)
        yield from answer_lines(it, piece)


def in_flight(exchanges, piece, count=16):
    """So many requests are in flight: the oldest is answered, and then the next one comes."""
    waiting = collections.deque()
    for it in exchanges:
        if len(waiting) == count:
            yield from answer_lines(waiting.popleft(), piece)
        waiting.append(it)
        yield from request_lines(it, piece)
    for it in waiting:
        yield from answer_lines(it, piece)


def held():
    """Two client frames of the greatest size find room, and a third of any size finds none until one is passed."""
    first, second = (assignment(number, MOST_FRAME) for number in range(2))
    third, fourth = (heartbeat(number) for number in range(2, 4))
    yield f"client {first.request.hex()}", "ok"
    yield f"client {second.request.hex()}", "ok"
    yield f"client {third.request.hex()}", "full"
    yield "client -", "full"
    yield "send", f"to-broker {first.sent.hex()}"
    yield f"broker {first.answer.hex()}", "ok"
    yield "emit", f"to-client {first.response.hex()}"
    yield f"client {fourth.request.hex()}", "ok"
    yield "send", f"to-broker {second.sent.hex()}"
    for it in (third, fourth):
        yield "send", f"to-broker {it.sent.hex()}"
    for it in (second, third, fourth):
        yield from answer_lines(it, MOST_FRAME)


class Script:
    """A script as a file, the file of its hexadecimal digits alone, and the file of what it is to write."""

    def __init__(self, folder, lines):
        self.text, self.digits, self.wanted = (Path(folder, part) for part in ("text", "digits", "wanted"))
        with open(self.text, "w") as text, open(self.digits, "w") as digits, open(self.wanted, "w") as wanted:
            for line, answer in lines:
                text.write(f"{line}\n")
                wanted.write(f"{answer}\n")
                if " " in line:
                    digits.write(f"{line.split()[1]}\n")
            text.write("client-end\nemit\n")
            wanted.write("ok\nover ended\n")


class Timing(NamedTuple):
    seconds: float
    processor: float  # seconds of it, in the program and in the system for it
    peak: int  # KiB


def run(words, source, output):
    """Runs the program once. Its peak memory is that of GNU time, or else that of the system's own count."""
    note = Path(f"{source}.peak")
    timed = os.access(TIME, os.X_OK)
    with open(source, "rb") as given, open(output, "wb") as out:
        start = time.perf_counter()
        child = subprocess.Popen(
            [TIME, "-f", "%M", "-o", str(note), *words] if timed else words, stdin=given, stdout=out
        )
        _, status, usage = os.wait4(child.pid, 0)
        seconds = time.perf_counter() - start
        child.returncode = os.waitstatus_to_exitcode(status)
    if child.returncode != 0:
        sys.exit(f"bench: {words[0]}: status {child.returncode}")
    processor = usage.ru_utime + usage.ru_stime
    return Timing(seconds, processor, int(note.read_text().split()[-1]) if timed else usage.ru_maxrss)


def least(words, source, runs=RUNS):
    timings = [run(words, source, os.devnull) for _ in range(runs)]
    return Timing(
        min(it.seconds for it in timings), min(it.processor for it in timings), max(it.peak for it in timings)
    )


def is_same(a, b):
    with open(a, "rb") as left, open(b, "rb") as right:
        while True:
            one, other = left.read(1 << 20), right.read(1 << 20)
            if one != other:
                return False
            if not one:
                return True


def row(name, size, timing, start_up):
    work = max(timing.seconds - start_up, 1e-6)
    print(f"{name:<44} {size:>11} {timing.seconds:>9.3f} {size / work / 1e6:>9.1f} {timing.peak / 1024:>9.1f}", flush=True)
    return work


def measured(words, folder, name, lines, start_up, runs=RUNS):
    script = Script(folder, lines)
    written = Path(folder, "written")
    run(words, script.text, written)
    if not is_same(written, script.wanted):
        sys.exit(f"bench: {name}: what was written is not what is wanted")
    written.unlink()
    size = script.text.stat().st_size
    return script, size, row(name, size, least(words, script.text, runs), start_up)


def verdict(name, number, wanted, is_met):
    print(f"{name:<66} {number:>6.2f}  ({wanted}) {'ok' if is_met else 'MISSED'}")
    return is_met


def beats(count):
    return map(heartbeat, range(count))


def one_of(size):
    return [assignment(0, size)]


def main():
    program = [os.path.abspath(sys.argv[1]), "replay"]
    print(f"{'':<44} {'bytes in':>11} {'seconds':>9} {'MB/s':>9} {'peak MiB':>9}")
    growths, ratio = [], None
    with tempfile.TemporaryDirectory() as folder:
        nothing = Path(folder, "nothing")
        nothing.touch()
        start = least(program, nothing)
        row("the empty script", 0, start, 0)
        cases = [
            ("whole frames", one_by_one, beats, "exchanges", (10_000, 100_000), WHOLE),
            ("sixteen in flight", in_flight, beats, "exchanges", (10_000, 100_000), WHOLE),
            ("one-byte pieces", one_by_one, beats, "exchanges", (1_000, 10_000), 1),
            ("one frame in 64 KiB", one_by_one, one_of, "bytes", (5_000_000, 50_000_000), PIECE),
        ]
        for name, order, exchanges, unit, counts, piece in cases:
            rates = []
            for count in counts:
                label = f"{name}: {count:,} {unit}"
                script, size, work = measured(program, folder, label, order(exchanges(count), piece), start.seconds)
                rates.append(work / size)
            growths.append((name, rates[1] / rates[0]))
            if name == "whole frames" and shutil.which("xxd"):
                size = script.digits.stat().st_size
                xxd = ["xxd", "-r", "-p"]
                reader = row("xxd -r -p on the digits of the last", size, least(xxd, script.digits), least(xxd, nothing).seconds)
                ratio = (size / work) / (size / reader)
        measured(program, folder, "two frames of 104,857,600 held, a third full", held(), start.seconds, 1)
    print()
    met = [
        verdict(f"time per byte, larger over smaller: {name}", growth, f"at most {MOST_GROWTH}", growth <= MOST_GROWTH)
        for name, growth in growths
    ]
    if ratio is None:
        print("xxd isn't installed (Debian package xxd), so nothing was held against it")
        return 1
    met.append(verdict("speed of whole frames over that of xxd, on the same digits", ratio, f"at least {LEAST_SPEED}", ratio >= LEAST_SPEED))
    return 0 if all(met) else 1


if __name__ == "__main__":
    sys.exit(main())
