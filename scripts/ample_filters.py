"""Runs over clusters of configurations, for `ample.py`: filters that get long lists, long keys and long verdicts.

Each exchange is the lines of a script and the answers that are wanted. They follow docs/FILTERS.md, docs/MESSAGES.md,
docs/CONFIG.md and docs/SCRIPTS.md, and share no code with the program.
"""

import json
from binascii import hexlify
from typing import NamedTuple

from ample_frames import API_VERSIONS_3, LETTERS, blob, filler, own_id, piece, signed, text, unserved_request
from replay_model import LONGEST_VERDICT, MOST_OUT, WHICH_API_VERSIONS, sized

LONGEST_CONFIG, MOST_DENIED, MOST_NODES, LAST_NODE, LAST_PORT = 1_048_576, 1_024, 64, 2_147_483_000, 65_535
METADATA, FIND_COORDINATOR, DESCRIBE_GROUPS, LIST_GROUPS, CREATE_TOPICS, DELETE_TOPICS = 3, 10, 15, 16, 19, 20
# Errors: TOPIC_AUTHORIZATION_FAILED, TOPIC_ALREADY_EXISTS and UNKNOWN_TOPIC_OR_PARTITION.
DENIED, EXISTS, UNKNOWN = 29, 36, 3


class Cluster(NamedTuple):
    """What the cluster of a configuration says."""

    filters: list
    nodes: int = 1
    advertise: str = "127.0.0.1"
    port: int = 19_092
    first_node: int = 0
    policy_deny: tuple = ()

    def config(self):
        """The configuration. Texts and lists are written alike in JSON and in TOML."""
        return f"""version = 1
[[cluster]]
name = "lab"
listen = "127.0.0.1"
advertise = "{self.advertise}"
port = {self.port}
first_node = {self.first_node}
bootstrap = "127.0.0.1:9092"
nodes = {json.dumps(["127.0.0.1:9092"] * self.nodes)}
filters = {json.dumps(self.filters)}
policy_deny = {json.dumps(self.policy_deny)}
"""


# Parts of bodies.


def nullable(name):
    """A STRING, or null."""
    return signed(-1, 2) if name is None else signed(len(name), 2) + name


def array(entries):
    return signed(len(entries)) + b"".join(entries)


def names_of(count):
    """Names of many lengths, no two alike: one is null, one is empty, and one has 32,767 bytes."""
    names = [b"%d" % index + filler(index * 37 % 251, index, LETTERS) for index in range(count)]
    return names[:1] + [None, b"", filler(32_767, 0, LETTERS)] + names[4:]


def topic(index, name):
    """A topic of a CreateTopics request."""
    assignments = [signed(part) + array([signed(part + node) for node in range(index % 4)]) for part in range(index % 3)]
    configs = [text(part, index) + nullable(None if part else name) for part in range(index % 5 % 3)]
    lists = (signed(-1) if index % 7 == 3 else array(assignments)) + array(configs)
    return nullable(name) + signed(index) + signed(index % 5, 2) + lists


def creation(version, topics):
    """A CreateTopics request."""
    return array(topics) + signed(30_000) + (b"\1" if version >= 1 else b"")


def created(version, name, error, message=None):
    """A topic of its response."""
    return nullable(name) + signed(error, 2) + (nullable(message) if version >= 1 else b"")


def creation_told(version, wait, entries):
    return (signed(wait) if version >= 2 else b"") + array(entries)


class Play:
    """One connection: the lines of its script, and their answers. One request is in flight at a time."""

    def __init__(self):
        self.lines, self.wanted = [], []
        self.requests = 0  # that were answered
        self.sends = 0
        self.client_id = text(251, 7)

    def line(self, line, answer):
        self.lines.append(line)
        self.wanted.append(answer)

    def asks(self, key, version, body):
        """The client's next request."""
        head = signed(key, 2) + signed(version, 2) + own_id(self.requests) + self.client_id
        self.line(piece("client", sized(head + body)), b"ok")

    def sent(self, key, version, body):
        """The broker gets a message, asked aside or not, under the client's own client id."""
        head = signed(key, 2) + signed(version, 2) + signed(self.sends) + self.client_id
        self.line(b"send", b"to-broker " + hexlify(sized(head + body)))

    def answered(self, body):
        """The broker answers that message."""
        self.line(piece("broker", sized(signed(self.sends) + body)), b"ok")
        self.sends += 1

    def emitted(self, body):
        """The client gets the response."""
        self.line(b"emit", b"to-client " + hexlify(sized(own_id(self.requests) + body)))
        self.requests += 1

    def over(self, cause):
        self.line(b"emit", b"over " + cause.encode())


# The exchanges of the filters.


def creates_topics(play, version, names, verdict=None, is_known=None):
    """A CreateTopics request: an authority gives the verdict on its topics, where there is one, and then the broker is asked
    which of the others it knows, where `is_known` says so of their places."""
    play.asks(CREATE_TOPICS, version, creation(version, [topic(*named) for named in enumerate(names)]))
    left, refused = list(enumerate(names)), []
    if verdict is not None:
        play.line(b"pick", b"ticket %d 0 " % play.requests + hexlify(array([nullable(name) for name in names])))
        play.line(b"done %d 0 " % play.requests + (hexlify(verdict) or b"-"), b"ok")
        left = [(index, name) for index, name in enumerate(names) if verdict[index : index + 1] == b"\0"]
        refused = [created(version, name, DENIED) for index, name in enumerate(names) if verdict[index : index + 1] != b"\0"]
    if is_known is not None and any(name is not None for _, name in left):
        known = [index for index, name in left if name is not None and is_known(index)]
        asks_which_exist(play, left, set(known))
        refused = [created(version, names[index], EXISTS) for index in known] + refused
        left = [(index, name) for index, name in left if index not in set(known)]
    answers_creation(play, version, left, refused)


def asks_which_exist(play, topics, known):
    """Metadata (version 4) is asked about all that have a name."""
    named = [(index, name) for index, name in topics if name is not None]
    play.sent(METADATA, 4, array([nullable(name) for _, name in named]) + b"\0")
    told = []
    for index, name in named:
        parts = [signed(0, 2) + signed(part) + signed(-1) + array([]) * 2 for part in range(index % 3)]
        told.append(signed(0 if index in known else UNKNOWN, 2) + nullable(name) + b"\0" + array(parts))
    nameless = signed(0, 2) + nullable(None) + b"\0" + array([])
    play.answered(signed(5) + array([]) + text(9, 1) + signed(-1) + array([nameless, *told]))


def answers_creation(play, version, topics, refused):
    """The broker answers for the topics that are left. Where none is, the request is answered without it."""
    wait, told = 0, []
    if topics:
        play.sent(CREATE_TOPICS, version, creation(version, [topic(*named) for named in topics]))
        wait = 70_000
        told = [created(version, name, index % 7, name if index % 2 else None) for index, name in topics]
        play.answered(creation_told(version, wait, told))
    play.emitted(creation_told(version, wait, told + refused))


def group(index, name):
    """A group of a response to ListGroups."""
    return nullable(name) + text(index % 19, index)


def described(index, name):
    """A group of a response to DescribeGroups (version 0). Every fifth is dead, and others have a state much like it."""
    state = (b"Stable", b"dead", b"Dead", b"Dead.", b"")[index % 5]
    members = [text(part, index) * 3 + blob(index % 13, index) * 2 for part in range(index % 3)]
    return signed(index % 3, 2) + nullable(name) + nullable(state) + text(index % 9, index) + nullable(None) + array(members)


def lists_groups(play, count):
    """Every eleventh group isn't described."""
    groups = list(enumerate(names_of(count)))
    play.asks(LIST_GROUPS, 2, b"")
    play.sent(LIST_GROUPS, 2, b"")
    play.answered(signed(11) + signed(9, 2) + array([group(*named) for named in groups]))
    asked = [(index, name) for index, name in groups if name is not None]
    play.sent(DESCRIBE_GROUPS, 0, array([nullable(name) for _, name in asked]))
    told = [(index, name) for index, name in asked if index % 11]
    play.answered(array([described(*named) for named in reversed(told)]))
    dead = {index for index, _ in told if index % 5 == 2}
    play.emitted(signed(11) + signed(9, 2) + array([group(*named) for named in groups if named[0] not in dead]))


def produced(acks, size, name=b"orders"):
    """The body of a Produce request."""
    return nullable(None) + signed(acks, 2) + signed(100) + array([nullable(name) + array([signed(7) + blob(size, 3)])])


def produces(play, acks, size):
    """A Produce request (version 3) with one batch, whose acks 1 become -1. With acks 0 there is no response."""
    play.asks(0, 3, produced(acks, size))
    play.sent(0, 3, produced(-1 if acks == 1 else acks, size))
    if acks:
        told = array([text(6, 0) + array([signed(7) + signed(0, 2) + signed(-1, 8) * 2])]) + signed(3)
        play.answered(told)
        play.emitted(told)
    else:
        play.line(b"emit", b"later")
        play.sends += 1
        play.requests += 1


def node(index, host, port):
    """A node of a response, without what Metadata has behind it."""
    return signed(index) + nullable(host) + signed(port)


def asks_nodes(play, cluster):
    """Metadata (version 8) tells all nodes, in another order, and one that isn't a node. FindCoordinator tells the last."""
    first, host = cluster.first_node, cluster.advertise.encode()
    last = first + cluster.nodes - 1
    question = signed(-1) + b"\1\1\1"
    play.asks(METADATA, 8, question)
    play.sent(METADATA, 8, question)
    hosts = [None, b"", filler(32_767, 5, LETTERS)]
    racks = [nullable(filler(index * 5, index, LETTERS) if index % 3 else None) for index in range(cluster.nodes)]
    order = [index * 37 % cluster.nodes for index in range(cluster.nodes)]
    came = [node(first + index, hosts[index % 3], -index) + racks[index] for index in order]
    goes = [node(first + index, host, cluster.port + 1 + index) + racks[index] for index in order]
    stray = node(-1, b"nowhere", 7) + nullable(None)
    behind = text(22, 2) + signed(last) + array([]) + signed(-1)
    play.answered(signed(3) + array([stray, *came]) + behind)
    play.emitted(signed(3) + array([stray, *goes]) + behind)
    play.asks(FIND_COORDINATOR, 2, text(32_767, 4) + b"\0")
    play.sent(FIND_COORDINATOR, 2, text(32_767, 4) + b"\0")
    front = signed(0) + signed(0, 2) + text(32_767, 9)
    play.answered(front + node(last, filler(255, 1), 1))
    play.emitted(front + node(last, host, cluster.port + cluster.nodes))


# The cases: a cluster, the lines of a script, and their answers.


def denied(partitions, length):
    """Produce (version 8) to one topic with a name of this length, which is denied, without records in so many partitions.
    The response has 36 bytes for each partition's eight."""
    name = filler(length, 0, LETTERS)
    indexes = [signed(index) for index in range(partitions)]
    parts = array([index + signed(-1) for index in indexes])
    asked = nullable(None) + signed(1, 2) + signed(100) + array([nullable(name) + parts])
    # base_offset, log_append_time_ms and log_start_offset; no errors of records, no message
    refusal = signed(DENIED, 2) + signed(-1, 8) * 3 + array([]) + nullable(None)
    told = array([nullable(name) + array([index + refusal for index in indexes])]) + signed(0)
    play = Play()
    play.asks(0, 8, asked)
    if (size := 4 + len(told)) <= MOST_OUT:
        play.emitted(told)
    else:
        play.over(f"grown-past request=0 size={size}")
    return Cluster(["topic-deny:" + name.decode()]), play


def screened(filters, count, version, verdict=None, is_known=None):
    play = Play()
    creates_topics(play, version, names_of(count), verdict, is_known)
    return Cluster(filters), play


def policy(count, version, verdict):
    return screened(["topic-policy"], count, version, verdict)


def exists(count, version, third):
    """Every third topic is known, from this one on."""
    return screened(["topic-exists"], count, version, None, lambda index: index % 3 == third)


def live(count):
    play = Play()
    lists_groups(play, count)
    return Cluster(["group-live"]), play


def all_acks(size):
    play = Play()
    for acks in (1, 0, -1, 1):
        produces(play, acks, size)
    return Cluster(["produce-all"]), play


def addresses():
    """The longest host, the most nodes, the last port, and the greatest numbers of nodes."""
    cluster = Cluster([], MOST_NODES, filler(255, 0, LETTERS).decode(), LAST_PORT - MOST_NODES, LAST_NODE)
    play = Play()
    asks_nodes(play, cluster)
    return cluster, play


def blocked(before):
    """DeleteTopics is blocked behind so many requests that are answered without a broker."""
    play = Play()
    play.line(piece("client", b"".join(unserved_request(index, API_VERSIONS_3) for index in range(before))), b"full")
    play.asks(DELETE_TOPICS, 3, array([nullable(name) for name in names_of(before)]) + signed(9))
    play.wanted[-1] = b"full"
    for _ in range(before):
        play.emitted(WHICH_API_VERSIONS)
    play.over(f"filter-shut request={before} filter=1 code={DELETE_TOPICS}")
    return Cluster([f"api-block:{DELETE_TOPICS}"]), play


def eight_filters():
    """The most filters, with as many texts as a configuration has room for. The last name of `topic-deny` is the longest."""
    keys = ",".join(str(key) for key in range(32_767, DELETE_TOPICS, -1))
    names = ",".join(name.decode() for name in names_of(1_000) if name)
    few = ["produce-all", f"topic-deny:{names}", f"api-block:{keys}", "topic-policy", "topic-exists", "group-live"]
    deny = tuple("p" * 249 for _ in range(MOST_DENIED))
    cluster = Cluster([*few, "topic-deny:last,", f"api-block:{keys},{DELETE_TOPICS:05}"], policy_deny=deny)
    cluster.filters[6] += "x" * (LONGEST_CONFIG - len(cluster.config()))
    return cluster, everything(cluster)


def everything(cluster):
    """What each of the eight filters acts on, and at the end what the last of them blocks."""
    play = Play()
    produces(play, 1, 3)
    for name in (names_of(1_000)[-1], b"last"):
        play.asks(0, 3, produced(1, 70_001, name))
        play.emitted(array([nullable(name) + array([signed(7) + signed(DENIED, 2) + signed(-1, 8) * 2])]) + signed(0))
    creates_topics(play, 4, names_of(1_003), bytes(index % 4 // 3 for index in range(1_003)), lambda index: index % 3 == 1)
    lists_groups(play, 1_003)
    asks_nodes(play, cluster)
    play.asks(DELETE_TOPICS, 0, array([text(3, 0)]) + signed(9))
    play.over(f"filter-shut request={play.requests} filter=8 code={DELETE_TOPICS}")
    return play


def filter_cases():
    most = 10_003
    some = bytes(index * (index % 3) % 256 for index in range(most))
    yield "a verdict that allows some of 10,003 topics", policy, most, 4, some
    yield "a verdict that allows all of 10,003 topics", policy, most, 1, bytes(most)
    yield "a verdict on 5,000 of 10,003 topics", policy, most, 2, bytes(5_000)
    yield "no bytes of a verdict on 10,003 topics", policy, most, 3, b""
    yield "the longest verdict on 10,003 topics", policy, most, 0, b"\1" + bytes(LONGEST_VERDICT - 1)
    yield "5,003 topics of which a third is there", exists, 5_003, 0, 0
    yield "503 topics of which a third is there", exists, 503, 4, 2
    yield "503 topics of which none is there", exists, 503, 1, 3
    yield "5,003 groups of which some are dead", live, 5_003
    yield "batches of 3,000,003 bytes to all replicas", all_acks, 3_000_003
    yield "64 nodes at a host of 255 bytes", addresses
    yield "a blocked request number 20,000", blocked, 20_000
    yield "eight filters with the longest lists", eight_filters


def great_filter_cases():
    for length in (26, 27):
        yield f"3,728,269 partitions of a denied topic with {length} bytes in its name", denied, 3_728_269, length
