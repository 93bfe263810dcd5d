"""Runs `kproxy replay` with ample memory on scripts of odd and great sizes, and compares all that it writes with what
`replay_model.py`, or over a cluster of a configuration `ample_filters.py`, says of them. A body that answers want of
memory past some size is proved, and is caught here.

Use `scripts/check_ample`, which calls this. The limit of a whole script is tried by `bench/limits.sh`.
"""

import os
import random
import subprocess
import sys
import tempfile
from concurrent.futures import ProcessPoolExecutor
from multiprocessing import get_context
from pathlib import Path

from ample_filters import filter_cases, great_filter_cases
from ample_frames import API_VERSIONS_2, API_VERSIONS_3, HEARTBEAT, HEARTBEAT_ANSWER, LEAST_ANSWER, LEAST_HEARTBEAT
from ample_frames import LEAST_SYNC_GROUP, LETTERS, LIST_GROUPS, METADATA_1, answer, ended, exchange, filler, own_id, piece
from ample_frames import pieces, produce, request, served, signed, text, unserved_request, versions
from message_bodies import MOST_ENTRIES
from replay_model import BROKER_SIZES, CLIENT_SIZES, HELD, IN_FLIGHT, LONGEST_LINE, LONGEST_VERDICT, MOST_OUT, replayed, sized
from running import Cases, program, shown, status_text

SECONDS = 60  # that a run may take
GREAT_AT_ONCE = 2  # cases that take some gigabytes each
KIB, MIB = 1 << 10, 1 << 20
CHUNK = 64 * KIB

# Scripts.


def three_megabytes():
    yield from exchange(0, 3_000_000, 3_000_000, MIB)
    yield from ended()


def frames_in_one_piece(count):
    """They are served in rounds of as many as may be in flight."""
    yield piece("client", b"".join(request(index, 24) for index in range(count)))
    for first in range(0, count, IN_FLIGHT):
        yield from [b"send"] * IN_FLIGHT
        yield piece("broker", b"".join(answer(first + i, HEARTBEAT_ANSWER) for i in range(IN_FLIGHT)))
        yield from [b"emit"] * IN_FLIGHT
    yield from ended()


def unknown_versions_in_one_piece(count):
    yield piece("client", b"".join(unserved_request(index, API_VERSIONS_3) for index in range(count)))
    for _ in range(count):
        yield b"emit"
    yield from ended()


def silent_ones(count, size):
    """Produce requests with acks 0 in one piece, passed sixteen at a time, and a Heartbeat behind them."""
    yield piece("client", b"".join(produce(index, 0, size, index % 9) for index in range(count)) + request(count, 24))
    for index in range(count):
        if index % IN_FLIGHT == IN_FLIGHT - 1:
            yield b"emit"
        yield b"send"
    yield from [b"emit", b"send", b"send", b"emit"]
    yield piece("broker", answer(count, HEARTBEAT_ANSWER))
    yield b"emit"
    yield from ended()


def silent_among_others(count):
    """Every third request is a Produce with acks 0, and one with other acks is answered in its turn."""
    for index in range(count):
        acks = (0, 1, -1)[index % 3]
        yield piece("client", produce(index, acks, index % 1000, None if index % 2 else index % 50))
        yield from [b"send", b"emit"]
        if acks:
            told = signed(1) + text(3, index) + signed(1) + signed(index) + signed(0, 2) + signed(index, 8) + signed(-1, 8)
            yield piece("broker", sized(index.to_bytes(4, "big") + told + signed(0)))
            yield b"emit"
    yield from ended()


def narrowed_versions(counts):
    """ApiVersions, version 2, answered with lists of these lengths."""
    for index, count in enumerate(counts):
        yield piece("client", sized(API_VERSIONS_2 + own_id(index) + signed(-1, 2)))
        yield b"send"
        yield piece("broker", versions(count, index))
        yield b"emit"
    yield from ended()


def frames_behind_a_cut(count):
    first = unserved_request(0, signed(32_767, 2) + signed(-32_768, 2))
    yield piece("client", first + b"".join(request(index, 20) for index in range(count)))
    yield from ended()


def answers_in_one_piece(count, request_size, size):
    """The answers to sixteen messages, and behind them `count` frames that answer nothing."""
    yield piece("client", b"".join(request(index, request_size) for index in range(IN_FLIGHT)))
    yield from [b"send"] * IN_FLIGHT
    yield piece("broker", b"".join(answer(index, size) for index in range(IN_FLIGHT + count)))
    yield from [b"emit"] * (IN_FLIGHT + 1)


def lines_of_one_kind(line, count):
    """Sixteen requests are in flight, one waits for room, and one answer has come."""
    yield piece("client", b"".join(request(index, 24) for index in range(IN_FLIGHT + 1)))
    yield from [b"send"] * 3
    yield piece("broker", answer(0, HEARTBEAT_ANSWER))
    yield from [line] * count
    yield from [b"send", b"emit", b"emit"]


def one_line_again(line, count):
    yield from [line] * count


def held():
    """Fifteen requests have the most bytes that are held, and one more waits for room."""
    size = HELD // 15
    for index in range(14):
        yield piece("client", request(index, size))
    yield piece("client", request(14, HELD - 14 * size))
    yield piece("client", request(15, 20))
    yield from served(0, 15, LEAST_ANSWER)
    yield from served(15, 1)
    yield from ended()


def waiting_for_room(size):
    """A request of this size comes while sixteen are in flight, and is taken after the first of them is passed."""
    yield piece("client", b"".join(request(index, 20) for index in range(IN_FLIGHT)))
    yield piece("client", request(IN_FLIGHT, size))
    yield b"client -"
    yield from served(0, IN_FLIGHT)
    yield from served(IN_FLIGHT, 1, LEAST_ANSWER)
    yield from ended()


def least_sizes():
    """From ten bytes on, which are a head alone, up to the first that can have any answer."""
    for index, size in enumerate(range(10, LEAST_SYNC_GROUP)):
        least = LEAST_ANSWER if size < LEAST_HEARTBEAT else HEARTBEAT_ANSWER
        yield from exchange(index, size, least, size + 4)
    yield from ended()


def sizes_around(powers, most):
    """Exchanges of the powers of two, and of one byte less and more."""
    index = 0
    for power in powers:
        for size in (2**power - 1, 2**power, 2**power + 1):
            yield from exchange(index, size, size + 1, most)
            index += 1
    yield from ended()


def piece_sizes(sizes, size):
    """An exchange of this size for each size of pieces."""
    for index, most in enumerate(sizes):
        yield from exchange(index, size, size, most)
    yield from ended()


def greatest_response():
    yield piece("client", request(0, LEAST_SYNC_GROUP))
    yield b"send"
    yield from pieces("broker", answer(0, BROKER_SIZES[-1]), LONGEST_LINE // 4)
    yield b"emit"


def addressed(size, before):
    """An answer to Metadata of this size, behind so many Heartbeats that are answered too. Its one broker has an empty host,
    in whose place "localhost" stands, so the response has nine bytes more."""
    behind_last = signed(0) + signed(-1, 2)  # the port, and no rack
    broker = signed(1) + signed(0) + signed(0, 2) + behind_last
    each = 2 + 2 + 1 + 4  # of a topic, without its name
    count, last = divmod(size - 4 - len(broker) - 4 - 4 - each, each + 32_767)
    lengths = [32_767] * count + [last]
    entries = [signed(0, 2) + text(length, index) + b"\0" + signed(0) for index, length in enumerate(lengths)]
    body = broker + signed(0) + signed(len(entries)) + b"".join(entries)
    metadata = sized(METADATA_1 + own_id(before) + signed(-1, 2) + signed(-1))
    yield piece("client", b"".join(request(index, 20) for index in range(before)) + metadata)
    yield from [b"send"] * (before + 1)
    answers = b"".join(answer(index, HEARTBEAT_ANSWER) for index in range(before))
    yield from pieces("broker", answers + sized(before.to_bytes(4, "big") + body), LONGEST_LINE // 4)
    yield piece("client", request(before + 1, 20))
    yield from [b"emit"] * (before + 2)


def longest_line():
    """A line of 268,435,455 bytes, the most that whole digits give, with the greatest frame and more."""
    most = (LONGEST_LINE - len("client ")) // 2
    tail = most - 4 - CLIENT_SIZES[-1]
    second = request(1, tail + 1)
    yield piece("client", request(0, CLIENT_SIZES[-1]) + second[:tail])
    yield piece("client", second[tail:])
    yield from served(0, 2, LEAST_ANSWER)
    yield from ended()


def longest_verdict(length):
    yield b"done 18446744073709551615 4294967295 " + b"a5" * length
    yield b"done 00000000000000000000 0000000000 -"


def bad_size(side, size, before):
    """A size outside the limits, behind a frame or its answer of `before` bytes."""
    yield piece("client", request(0, before) + (signed(size) if side == "client" else b""))
    yield b"send"
    yield piece("broker", answer(0, before) + (signed(size) if side == "broker" else b""))
    yield from [b"emit"] * 2


def torn(side, rest):
    """The stream ends with `rest` bytes of a frame of the greatest size."""
    sizes = CLIENT_SIZES if side == "client" else BROKER_SIZES
    yield piece(side, (signed(sizes[-1]) + filler(rest, 0))[:rest])
    yield f"{side}-end".encode()
    yield b"emit"


def unserved(key, version):
    yield piece("client", request(0, 20) + unserved_request(1, signed(key, 2) + signed(version, 2)))
    yield from served(0, 1)
    yield b"emit"


def late_request(count, last):
    """A frame that ends the connection, behind so many requests."""
    yield piece("client", b"".join(unserved_request(index, API_VERSIONS_3) for index in range(count)) + last)
    yield from [b"emit"] * (count + 1)


def late_answer(count, found):
    """An answer with a wrong correlation id, to a message behind so many others."""
    yield piece("client", b"".join(request(index, 20) for index in range(count + 1)))
    yield from served(0, count)
    yield b"send"
    yield piece("broker", answer(found, HEARTBEAT_ANSWER))
    yield b"emit"


def wrong_id(found):
    yield piece("client", request(0, 20))
    yield b"send"
    yield piece("broker", sized(signed(found) + b"\0\0"))
    yield b"emit"


def unasked(found):
    yield piece("broker", sized(signed(found)))
    yield b"emit"


def broker_ends(waiting):
    yield piece("client", b"".join(request(index, 20) for index in range(IN_FLIGHT)))
    yield from [b"send"] * waiting
    yield b"broker-end"
    yield b"emit"


def client_id(length, there):
    """A client id that says its length, and so many bytes of it."""
    yield piece("client", sized(LIST_GROUPS + own_id(5) + signed(length, 2) + filler(there, 3, LETTERS)))
    yield from [b"send", b"emit"]


def topics(count, there):
    """A Metadata request that says so many topics, and has so many null names, with an answer that has nothing in it."""
    names = signed(-1, 2) * there
    yield piece("client", sized(METADATA_1 + own_id(0) + signed(-1, 2) + signed(count) + names))
    yield b"send"
    yield piece("broker", sized(bytes(16)))
    yield from [b"emit"] * 2


def short_request(size):
    """A request whose body lacks its last byte, behind one that is whole."""
    yield piece("client", request(0, size) + sized(request(1, size)[4:-1]))
    yield from served(0, 1, LEAST_ANSWER)
    yield b"emit"


def short_answer(size):
    yield piece("client", request(0, LEAST_SYNC_GROUP))
    yield b"send"
    yield piece("broker", sized(answer(0, size)[4:-1]))
    yield b"emit"


def drawn(seed, count):
    """Exchanges of any size up to 2 MiB, all orders of magnitude alike, in a thousand pieces or so at most."""
    draw = random.Random(seed)
    for index in range(count):
        size, answer_size, most = (int(2 ** draw.uniform(5, 21)) for _ in range(3))
        yield from exchange(index, size, answer_size, max(most, size // 1_000, answer_size // 1_000))
    yield from ended()


# The cases: names and scripts.


ONE_KIND = [
    "send", "emit", "pick", "client-end", "broker-end", "client -", "broker -", "client 00", "broker ff",
    "done 0 0 -", "done 18446744073709551615 4294967295 AbCd", "fault client-read", "fault client-write",
    "fault broker-read", "fault broker-write", "fault authority 18446744073709551615",
]  # fmt: skip
GREATEST, LEAST = 2**31 - 1, -(2**31)


def body_cases():
    yield "as many topics as may be read", topics, MOST_ENTRIES, MOST_ENTRIES
    yield "1,000,003 topics, one of them missing", topics, 1_000_003, 1_000_002
    yield "one topic more than may be read", topics, MOST_ENTRIES + 1, 1_000_003
    yield "more topics than any body has", topics, GREATEST, 0
    for size in (LEAST_SYNC_GROUP, 3_000_003, 32 * MIB + 1):
        yield f"a request of {size:,} bytes without its last", short_request, size
        yield f"an answer of {size:,} bytes without its last", short_answer, size


def ordinary_cases():
    yield "an exchange of 3 MB in pieces of 1 MiB", three_megabytes
    yield "200,000 frames in one piece", frames_in_one_piece, 200_000
    yield "200,000 ApiVersions of version 3 in one piece", unknown_versions_in_one_piece, 200_000
    yield "200,000 frames behind a cut in one piece", frames_behind_a_cut, 200_000
    yield "16 answers and 200,000 frames more in one piece", answers_in_one_piece, 200_000, 20, HEARTBEAT_ANSWER
    yield "16 answers of 1 MiB in one piece", answers_in_one_piece, 0, 40, MIB
    for line in ONE_KIND:
        yield f"10,000 lines `{line}` on a new connection", one_line_again, line.encode(), 10_000
        yield f"10,000 lines `{line}` with 16 in flight", lines_of_one_kind, line.encode(), 10_000
    yield "a frame of 16 MiB that waits for room", waiting_for_room, 16 * MIB
    yield "the least sizes", least_sizes
    yield "sizes around powers of 2, whole", sizes_around, range(5, 23), 32 * MIB
    yield "sizes around powers of 2, in 64 KiB", sizes_around, range(5, 22), 64 * KIB
    yield "a frame past 16 MiB", piece_sizes, [32 * MIB], 16 * MIB + 1
    yield "one byte a piece", piece_sizes, [1], 70_001
    yield "pieces of odd sizes", piece_sizes, [251, 4_095, 32_767, 32_769, 65_535, 65_537, 1_000_003], 1_234_567
    yield "the longest verdict", longest_verdict, LONGEST_VERDICT
    yield "a verdict past its limit", longest_verdict, LONGEST_VERDICT + 1
    yield "sizes drawn at random", drawn, 1, 60
    yield "100,000 requests without a response in one piece", silent_ones, 100_000, 20
    yield "3,000 requests, a third of them without a response", silent_among_others, 3_000
    yield "versions that are narrowed", narrowed_versions, [0, 1, 2, 3, 40, 41, 1_000, 100_003]


def end_cases():
    for size in (LEAST, -1, 0, CLIENT_SIZES[0] - 1, CLIENT_SIZES[-1] + 1, GREATEST):
        yield f"a client's size of {size:,} behind 2,000,003 bytes", bad_size, "client", size, 2_000_003
    for size in (LEAST, -1, 0, BROKER_SIZES[0] - 1, BROKER_SIZES[-1] + 1, GREATEST):
        yield f"a broker's size of {size:,} behind 1,000,003 bytes", bad_size, "broker", size, 1_000_003
    for rest in (1, 2, 3, 4, 5, 65_539, MIB + 4, 20_000_003):
        yield f"the client's stream torn at {rest:,} bytes", torn, "client", rest
        yield f"the broker's stream torn at {rest:,} bytes", torn, "broker", rest
    for key, version in ((-32_768, -32_768), (32_767, 32_767), (12, 4), (12, -1), (-1, 0)):
        yield f"key {key} in version {version}", unserved, key, version
    for found in (LEAST, -1, 1, GREATEST):
        yield f"an answer with id {found} for 0", wrong_id, found
        yield f"an answer with id {found} for nothing", unasked, found
    for waiting in (0, 1, IN_FLIGHT):
        yield f"the broker's end with {waiting} waiting", broker_ends, waiting
    for length, there in ((-2, 0), (-1, 0), (0, 0), (1, 0), (32_767, 32_766), (32_767, 32_767), (-32_768, 32_767)):
        yield f"a client id of {length:,} in {there:,} bytes", client_id, length, there
    late = 66_000
    yield "an unserved request number 66,000", late_request, late, unserved_request(late, signed(99, 2) + signed(3, 2))
    yield "a bad head of request number 66,000", late_request, late, sized(HEARTBEAT + own_id(late))
    yield "a bad size behind 66,000 frames", late_request, late, signed(7)
    yield "a mismatch at message number 66,000", late_answer, late, late - 1


def great_cases():
    yield "209,715,200 bytes held", held
    yield "the greatest response", greatest_response
    for size in (MOST_OUT - 9, MOST_OUT - 8, MOST_OUT):
        yield f"a response that grows from {size:,} bytes", addressed, size, 0
    yield "a response that grows by one byte too many, behind two others", addressed, MOST_OUT - 8, 2
    yield "the longest line", longest_line
    yield "160 requests of 1 MiB without a response", silent_ones, 160, MIB


# What is written, held beside what is wanted.


def copied(lines, file):
    """The lines, each of which is written to the file as it goes by."""
    for line in lines:
        file.write(line)
        file.write(b"\n")
        yield line


def first_difference(one, other):
    """The place where two texts differ first."""
    at = 0
    while at < len(one) and one[at : at + CHUNK] == other[at : at + CHUNK]:
        at += CHUNK
    return at + len(os.path.commonprefix([one[at : at + CHUNK], other[at : at + CHUNK]]))


def difference(wanted, file):
    """Where a file differs first from these lines."""
    for number, line in enumerate(wanted, 1):
        got = file.read(len(line))
        if got != line:
            at = first_difference(line, got)
            return f"in line {number} of the output, at byte {at}, wanted {shown(line[at:])}, got {shown(got[at:])}"
        if (end := file.read(1)) != b"\n":
            return f"wanted the end of line {number} of the output, got {shown(end)}"
    more = file.read(CHUNK)
    return f"wanted no more output, got {shown(more)}" if more else None


def file_in_memory(name):
    return os.fdopen(os.memfd_create(name), "w+b")


def complaint_of(command, script, wanted, status):
    """What is wrong with what a command writes for this script."""
    with file_in_memory("written") as written:
        script.seek(0)
        try:
            found = subprocess.run(command, stdin=script, stdout=written, timeout=SECONDS).returncode
        except subprocess.TimeoutExpired:
            return f"it had not ended after {SECONDS} seconds"
        written.seek(0)
        differs = difference(wanted, written)
    if found != status:
        return f"wanted status {status}, got {status_text(found)}" + (f"; {differs}" if differs else "")
    return differs


def replay_complaint(path, make, *words):
    """Of a script, by the model."""
    with file_in_memory("script") as script:
        *wanted, status = replayed(copied(make(*words), script))
        return complaint_of([path, "replay"], script, wanted, status)


def cluster_complaint(path, make, *words):
    """Of a script over a cluster, with the answers that stand beside its lines."""
    cluster, play = make(*words)
    with file_in_memory("script") as script, tempfile.TemporaryDirectory() as folder:
        config = Path(folder, "cluster.toml")
        config.write_text(cluster.config())
        for line in play.lines:
            script.write(line + b"\n")
        return complaint_of([path, "replay", str(config), "lab"], script, play.wanted, 0)


def main():
    """The cases run side by side, and are told in their order."""
    path = program(is_wrapped=False)
    cases = Cases("check_ample")
    context = get_context("spawn")
    others = max(1, len(os.sched_getaffinity(0)) - GREAT_AT_ONCE)
    with ProcessPoolExecutor(others, context) as few, ProcessPoolExecutor(GREAT_AT_ONCE, context) as great:
        groups = [
            (few, replay_complaint, (body_cases, ordinary_cases, end_cases)),
            (few, cluster_complaint, (filter_cases,)),
            (great, replay_complaint, (great_cases,)),
            (great, cluster_complaint, (great_filter_cases,)),
        ]
        futures = [
            (name, pool.submit(complaint, path, *case))
            for pool, complaint, makers in groups
            for make in makers
            for name, *case in make()
        ]
        for name, future in futures:
            cases.note(name, future.result())
    return cases.status()


if __name__ == "__main__":
    sys.exit(main())
