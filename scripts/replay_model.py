"""What `kproxy replay` writes for a script: a plain model of docs/SCRIPTS.md, docs/CONNECTION.md and docs/ENDS.md.

It shares no code with the program, and keeps all that it needs in the simplest form. The versions that are served, and
their bodies, are read off docs/MESSAGES.md. The one limit that it leaves out is that of a whole script.

Used by `scripts/check_ample` and `scripts/check_program`.
"""

import re
from binascii import Error as NotHex, hexlify, unhexlify
from collections import deque

from message_bodies import BadBody, read_body, served_versions

CLIENT_SIZES = range(8, 104_857_600 + 1)
BROKER_SIZES = range(4, 134_217_728 + 1)
MOST_OUT = 134_217_728  # of a frame that goes out, without its size
IN_FLIGHT = 16
HELD = 209_715_200
LONGEST_LINE = 268_435_456
LONGEST_VERDICT = 8_388_608

PRODUCE, METADATA, FIND_COORDINATOR, API_VERSIONS = 0, 3, 10, 18
# Where node 0 of the default plan is for the clients: localhost, port 19093.
NODE_0 = bytes.fromhex("0009 6c6f63616c686f7374 00004a95")
# Error 35, and one entry: ApiVersions in versions 0 to 2 (KIP-511).
WHICH_API_VERSIONS = bytes.fromhex("0023 00000001 0012 0000 0002")

FAULTS = (b"client-read", b"client-write", b"broker-read", b"broker-write")


class BadLine(Exception):
    """A line outside the grammar, or one that is too long."""


def number(data):
    return int.from_bytes(data, "big", signed=True)


def sized(frame):
    return len(frame).to_bytes(4, "big") + frame


class Stream:
    """The bytes of one direction, cut at the sizes of their frames."""

    def __init__(self, sizes):
        self.sizes = sizes
        self.bytes = bytearray()
        self.start = 0  # where the first frame that wasn't taken begins in `bytes`
        self.place = 0  # the same in the whole stream
        self.ended = False
        self.is_bad = False  # a size outside the limits was told

    def feed(self, piece):
        if self.start > len(self.bytes) // 2:
            del self.bytes[: self.start]
            self.start = 0
        self.bytes += piece

    def rest(self):
        return len(self.bytes) - self.start

    def size(self):
        """The size of the next frame, where all four bytes of it are there."""
        return number(self.bytes[self.start : self.start + 4]) if self.rest() >= 4 else None

    def frame(self):
        """The next frame, where it is whole."""
        size = self.size()
        if size is None or size not in self.sizes or self.rest() < 4 + size:
            return None
        with memoryview(self.bytes) as view:
            return bytes(view[self.start + 4 : self.start + 4 + size])

    def take(self, frame):
        self.start += 4 + len(frame)
        self.place += 4 + len(frame)

    def bad_size(self):
        """The place and the number of a size outside the limits, once."""
        size = self.size()
        if self.is_bad or size is None or size in self.sizes:
            return None
        self.is_bad = True
        return self.place, size


def body_place(frame):
    """Where the body of a request begins, behind its client id."""
    return 10 + max(number(frame[8:10]), 0)


def wants_no_response(frame):
    """Whether the request is a Produce whose acks, behind the transactional id, are 0."""
    if number(frame[0:2]) != PRODUCE:
        return False
    place = body_place(frame)
    acks = place + 2 + max(number(frame[place : place + 2]), 0)
    return number(frame[acks : acks + 2]) == 0


def narrowed(body, supported):
    """A response to ApiVersions with the versions that both know: the entries that meet, in the broker's order."""
    count = number(body[2:6])
    behind = 6 + 6 * max(count, 0)
    kept = []
    for place in range(6, behind, 6):
        key, least, greatest = (number(body[at : at + 2]) for at in range(place, place + 6, 2))
        if key in supported:
            least, greatest = max(least, supported[key][0]), min(greatest, supported[key][-1])
            if least <= greatest:
                kept.append((key, least, greatest))
    counted = len(kept) if count >= 0 else count
    entries = b"".join(value.to_bytes(2, "big", signed=True) for entry in kept for value in entry)
    return body[:2] + counted.to_bytes(4, "big", signed=True) + entries + body[behind:]


def nodes_of(body, key, version):
    """Where each node of a response to Metadata or FindCoordinator stands: the place, its number, and where its port ends."""

    def behind_text(place):
        return place + 2 + max(number(body[place : place + 2]), 0)

    count, place = 0, 0
    if key == METADATA:
        place = 4 if version >= 3 else 0
        count, place = number(body[place : place + 4]), place + 4
    elif key == FIND_COORDINATOR:
        count, place = 1, behind_text(6) if version >= 1 else 2
    for _ in range(count):
        behind = behind_text(place + 4) + 4
        yield place, number(body[place : place + 4]), behind
        place = behind_text(behind) if key == METADATA else behind


def addressed(body, key, version):
    """The response with the default plan's node 0 at the proxy's address. Or the first other node that isn't negative."""
    parts, start = [], 0
    for place, node, behind in nodes_of(body, key, version):
        if node > 0:
            return None, node
        if node == 0:
            parts += [body[start : place + 4], NODE_0]
            start = behind
    return b"".join(parts) + body[start:], None


class Request:
    def __init__(self, frame):
        self.start = frame[0:4]  # key and version
        self.own_id = frame[4:8]
        self.size = len(frame)
        self.is_silent = False
        self.body = None  # of its response, once it is there


class Connection:
    """The rules of one connection, over the chain of the default plan: what a broker says of its versions is narrowed, and
    its node 0 lives at the proxy's address."""

    def __init__(self):
        self.supported = served_versions()
        self.requests = []
        self.passed = 0
        self.held = 0
        self.messages = deque()  # those that the broker's writer didn't take: number of the request, frame
        self.unanswered = deque()  # those that it took and that have no answer: upstream id, number of the request
        self.next_id = 0
        self.cut = None  # a request's number, and an end
        self.death = None
        self.halt = None
        self.over = None

    def is_dead(self):
        return bool(self.death or self.halt or self.over)

    def is_ending(self):
        return bool(self.cut or self.is_dead())

    def has_room(self, frame):
        in_flight = len(self.requests) - self.passed
        return in_flight < IN_FLIGHT and (self.held == 0 or self.held + len(frame) <= HELD)

    def refusal(self, frame):
        """Why a frame is no request."""
        key, version = number(frame[0:2]), number(frame[2:4])
        which = f"request={len(self.requests)}"
        if version not in self.supported.get(key, ()):
            return f"unsupported {which} key={key} version={version}"
        length = number(frame[8:10]) if len(frame) >= 10 else None
        if length is None or length < -1 or length > len(frame) - 10:
            return f"bad-head {which}"
        try:
            read_body(frame[body_place(frame) :], key, version, "request")
        except BadBody as bad:
            if bad.is_too_many:
                return f"too-many-entries {which} at={bad.place}"
            return f"bad-body {which} key={key} version={version} at={bad.place}"
        return None

    def take(self, frame):
        """A client's frame: `ok`, `full` or `closed`."""
        if self.is_ending():
            return b"closed"
        if not self.has_room(frame):
            return b"full"
        is_unknown = number(frame[0:2]) == API_VERSIONS and number(frame[2:4]) not in self.supported[API_VERSIONS]
        refusal = None if is_unknown else self.refusal(frame)
        if refusal:
            self.cut_behind(refusal)
            return b"ok"
        request = Request(frame)
        if is_unknown:
            request.body = WHICH_API_VERSIONS
        else:
            request.is_silent = wants_no_response(frame)
            self.messages.append((len(self.requests), frame))
        self.requests.append(request)
        self.held += request.size
        return b"ok"

    def answer(self, frame):
        """A broker's frame: `ok` or `closed`."""
        if self.is_dead():
            return b"closed"
        found = number(frame[0:4])
        if not self.unanswered:
            self.death = f"unasked found={found}"
            return b"ok"
        upstream, request = self.unanswered[0]
        if upstream != found:
            self.death = f"mismatch expected={upstream} found={found}"
            return b"ok"
        self.unanswered.popleft()
        if not self.cut or request < self.cut[0]:
            self.give(request, frame[4:])
        return b"ok"

    def give(self, request, body):
        """A request below the cut gets the body of its response."""
        start = self.requests[request].start
        key, version = number(start[0:2]), number(start[2:4])
        try:
            read_body(body, key, version, "response")
        except BadBody:
            self.cut = request, f"broker-bad-body request={request} key={key} version={version}"
        else:
            body, stray = addressed(body, key, version)
            if stray is not None:
                self.cut = request, f"node-out-of-range request={request} node={stray}"
            elif len(body) + 4 > MOST_OUT:
                self.cut = request, f"grown-past request={request} size={len(body) + 4}"
            else:
                self.requests[request].body = narrowed(body, self.supported) if key == API_VERSIONS else body

    def cut_behind(self, why):
        if not self.over and (not self.cut or len(self.requests) < self.cut[0]):
            self.cut = len(self.requests), why

    def die(self, why):
        if not self.over:
            self.death = self.death or why

    def client_end(self, rest):
        if not self.death:
            self.cut_behind(f"client-torn rest={rest}" if rest else "ended")

    def broker_end(self, rest):
        self.die(f"broker-torn rest={rest}" if rest else f"broker-end waiting={len(self.unanswered)}")

    def fault(self, what):
        if what == "client-read":
            self.cut_behind("client-read-fault")
        elif what == "client-write":
            if not self.over:
                self.halt = self.halt or "client-write-fault"
        else:
            self.die(f"{what}-fault")

    def send(self):
        if self.death or self.halt or not self.messages:
            return b"none"
        request, frame = self.messages.popleft()
        if not self.requests[request].is_silent:
            self.unanswered.append((self.next_id, request))
        upstream = self.next_id.to_bytes(4, "big")
        self.next_id = (self.next_id + 1) % (1 << 31)
        return b"to-broker " + hexlify(sized(frame[:4] + upstream + frame[8:]))

    def is_silent_next(self):
        """Whether the oldest request that isn't passed is below the cut and gets no response. It is done by being listed."""
        if self.passed == len(self.requests) or (self.cut and self.passed >= self.cut[0]):
            return False
        return self.requests[self.passed].is_silent

    def emit(self):
        if not self.over:
            self.over = self.halt
        while not self.over and self.is_silent_next():
            self.held -= self.requests[self.passed].size
            self.passed += 1
        if not self.over and self.cut and self.cut[0] == self.passed:
            self.over = self.cut[1]
        if self.over:
            return b"over " + self.over.encode()
        request = self.requests[self.passed] if self.passed < len(self.requests) else None
        if request and request.body is not None:
            self.passed += 1
            self.held -= request.size
            response, request.body = sized(request.own_id + request.body), None
            return b"to-client " + hexlify(response)
        if self.death:
            self.over = self.death
            return b"over " + self.over.encode()
        return b"later"


def hexadecimal(word):
    if word == b"-":
        return b""
    if not word:
        raise BadLine
    try:
        return unhexlify(word)
    except NotHex:
        raise BadLine from None


def only_piece(words):
    if len(words) != 1:
        raise BadLine
    return hexadecimal(words[0])


def numeral(word, end):
    if not re.fullmatch(rb"[0-9]{1,20}", word) or int(word) >= end:
        raise BadLine
    return int(word)


class Replay:
    """One connection and its two streams, as the lines of a script give them."""

    def __init__(self):
        self.connection = Connection()
        self.client = Stream(CLIENT_SIZES)
        self.broker = Stream(BROKER_SIZES)
        self.is_end_told = False  # the client's
        self.alone = {
            b"client-end": self.client_end,
            b"broker-end": self.broker_end,
            b"send": self.connection.send,
            b"emit": self.emit,
            b"pick": lambda: b"none",
        }
        self.with_words = {
            b"client": self.client_piece,
            b"broker": self.broker_piece,
            b"fault": self.fault,
            b"done": self.done,
        }

    def push(self):
        """Hands on the client's whole frames, as far as there is room."""
        told = b"ok"
        while (frame := self.client.frame()) is not None:
            answer = self.connection.take(frame)
            if answer == b"full":
                return b"full"
            if answer == b"closed":
                told = b"closed"
            self.client.take(frame)
        self.tell_tail()
        return told

    def tell_tail(self):
        """What stands behind the client's frames."""
        bad = self.client.bad_size()
        if bad:
            self.connection.cut_behind("bad-size at=%d size=%d" % bad)
        if self.client.ended and not self.is_end_told:
            self.is_end_told = True
            self.connection.client_end(self.client.rest())

    def client_piece(self, words):
        piece = only_piece(words)
        if self.client.ended:
            return b"closed"
        self.client.feed(piece)
        return self.push()

    def client_end(self):
        if self.client.ended:
            return b"closed"
        self.client.ended = True
        if self.client.frame() is None:
            self.tell_tail()
        return b"ok"

    def broker_piece(self, words):
        piece = only_piece(words)
        if self.broker.ended:
            return b"closed"
        told = b"ok"
        self.broker.feed(piece)
        while (frame := self.broker.frame()) is not None:
            if self.connection.answer(frame) == b"closed":
                told = b"closed"
            self.broker.take(frame)
        bad = self.broker.bad_size()
        if bad:
            self.connection.die("broker-bad-size at=%d size=%d" % bad)
        return told

    def broker_end(self):
        if self.broker.ended:
            return b"closed"
        self.broker.ended = True
        self.connection.broker_end(self.broker.rest())
        return b"ok"

    def emit(self):
        answer = self.connection.emit()
        self.push()
        return answer

    def fault(self, words):
        if len(words) == 2 and words[0] == b"authority":
            numeral(words[1], 1 << 64)
        elif len(words) == 1 and words[0] in FAULTS:
            self.connection.fault(words[0].decode())
        else:
            raise BadLine
        return b"ok"

    def done(self, words):
        if len(words) != 3:
            raise BadLine
        numeral(words[0], 1 << 64)
        numeral(words[1], 1 << 32)
        if len(hexadecimal(words[2])) > LONGEST_VERDICT:
            raise BadLine
        return b"not-waiting"

    def answer(self, line):
        """The answer to a line, which is given without its byte 10."""
        if len(line) > LONGEST_LINE:
            raise BadLine
        first, *words = line.split(b" ")
        if first in self.alone and not words:
            return self.alone[first]()
        if first in self.with_words:
            return self.with_words[first](words)
        raise BadLine


def replayed(lines):
    """The lines that are written for these, without their byte 10, and behind them the status."""
    replay = Replay()
    for index, line in enumerate(lines):
        try:
            yield replay.answer(line)
        except BadLine:
            yield b"bad line %d" % (index + 1)
            yield 1
            return
    yield 0
