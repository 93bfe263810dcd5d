"""Frames of odd and great sizes, and lines of a script that bring them. Used by `ample.py` and `ample_filters.py`."""

from binascii import hexlify

from replay_model import sized

# Heads without their correlation ids: API key and version.
HEARTBEAT = bytes.fromhex("000c 0000")
SYNC_GROUP = bytes.fromhex("000e 0000")
LIST_GROUPS = bytes.fromhex("0010 0000")
METADATA_1 = bytes.fromhex("0003 0001")
API_VERSIONS_2 = bytes.fromhex("0012 0002")
API_VERSIONS_3 = bytes.fromhex("0012 0003")
PRODUCE_3 = bytes.fromhex("0000 0003")
# The sizes of the least requests of the first two, with a null client id and empty texts, and of their least answers.
LEAST_HEARTBEAT, HEARTBEAT_ANSWER = 18, 6
LEAST_SYNC_GROUP, LEAST_ANSWER = 28, 10

PATTERN = bytes(range(251))
LETTERS = bytes(range(ord("a"), ord("z") + 1))


def signed(value, width=4):
    return value.to_bytes(width, "big", signed=True)


# Frames, as "The Messages" of Kafka's protocol guide spells them. Neighbours differ at each place of a body.


def filler(length, seed, of=PATTERN):
    start = seed % len(of)
    return (of * ((start + length) // len(of) + 1))[start : start + length]


def text(length, seed):
    """A STRING."""
    return signed(length, 2) + filler(length, seed, LETTERS)


def blob(length, seed):
    """BYTES."""
    return signed(length) + filler(length, seed)


def own_id(index):
    return ((index * 40_503 + 77_777) % (1 << 32)).to_bytes(4, "big")


def request(index, size):
    """Request number `index`, with its size in front: SyncGroup, or where it is too short Heartbeat or ListGroups."""
    null, empty = signed(-1, 2), signed(0, 2)
    if size < LEAST_HEARTBEAT:
        return sized(LIST_GROUPS + own_id(index) + text(size - 10, index))
    if size < LEAST_SYNC_GROUP:
        return sized(HEARTBEAT + own_id(index) + null + empty + signed(index) + text(size - LEAST_HEARTBEAT, index))
    group = empty + signed(index) + empty
    assignments = signed(1) + empty + blob(size - LEAST_SYNC_GROUP, index)
    return sized(SYNC_GROUP + own_id(index) + null + group + assignments)


def answer(index, size):
    """The answer to message number `index`, with its size in front: Heartbeat's, or SyncGroup's where it is longer.
    ListGroups is answered as SyncGroup is with no bytes."""
    body = signed(27, 2) + (blob(size - LEAST_ANSWER, index + 100) if size >= LEAST_ANSWER else b"")
    return sized(index.to_bytes(4, "big") + body)


def produce(index, acks, size, name=None):
    """A Produce request with one batch of so many bytes, and a transactional id where it is named."""
    transactional_id = signed(-1, 2) if name is None else text(name, index)
    partition = signed(index) + blob(size, index)
    body = transactional_id + signed(acks, 2) + signed(index) + signed(1) + text(5, index) + signed(1) + partition
    return sized(PRODUCE_3 + own_id(index) + signed(-1, 2) + body)


def versions(count, index):
    """An answer to ApiVersions with so many entries: known and unknown APIs, with ranges that meet ours or don't."""
    entries = b"".join(
        signed(key % 40, 2) + signed(key % 7, 2) + signed((key * 5) % 13, 2) for key in range(index, index + count)
    )
    return sized(index.to_bytes(4, "big") + signed(0, 2) + signed(count) + entries + signed(9))


def unserved_request(index, head, size=20):
    """Bytes whose head names an API and version that isn't served."""
    return sized(head + own_id(index) + filler(size - 8, index))


# Lines, without their byte 10.


def pieces(side, data, most):
    for at in range(0, len(data), most):
        yield side.encode() + b" " + hexlify(data[at : at + most])


def piece(side, data):
    return next(pieces(side, data, len(data)))


def exchange(index, size, answer_size, most):
    """One request and its answer, in pieces of `most` bytes at most."""
    yield from pieces("client", request(index, size), most)
    yield b"send"
    yield from pieces("broker", answer(index, answer_size), most)
    yield b"emit"


def served(first, count, answer_size=HEARTBEAT_ANSWER):
    """Requests that were handed on before: each is sent, answered and emitted."""
    for index in range(first, first + count):
        yield b"send"
        yield piece("broker", answer(index, answer_size))
        yield b"emit"


def ended():
    yield b"client-end"
    yield b"emit"
