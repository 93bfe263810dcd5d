"""Runs the built program as a shell or another program does: with faulty words, with inputs, outputs and files that fail,
and over pipes that stay open. What is wanted is said in docs/SCRIPTS.md, and the answers are those of `replay_model.py`.

Use `scripts/check_program`, which calls this.
"""

import os
import resource
import select
import signal
import socket
import struct
import subprocess
import sys
import tempfile
import time
from contextlib import contextmanager

from replay_model import replayed
from running import Cases, program, shown, status_text

SECONDS = 10  # that a case may take
USAGE = (
    b"usage: kproxy replay [CONFIG CLUSTER] | check CONFIG | plan CONFIG | serve CONFIG | broker HOST PORT"
    b" | load SEED N\n"
)
EXCHANGE = [
    b"client 00000014000c000000000007ffff0001670000000100016d",
    b"send",
    b"broker 00000006000000000000",
    b"emit",
    b"pick",
    b"done 0 0 -",
    b"client-end",
    b"emit",
]
DONE, REFUSED, USAGE_STATUS, INPUT_FAULT, OUTPUT_FAULT, NO_MEMORY, FILES_FAULT = range(7)
CONFIG = b"""version = 1
[[cluster]]
name = "alpha"
listen = "127.0.0.1"
advertise = "p"
port = 19092
first_node = 0
bootstrap = "127.0.0.1:9092"
nodes = ["127.0.0.1:9092", "127.0.0.1:9093"]
prefix = "alpha-"
"""
CONFIG_ANSWERS = {
    b"check": b"ok 1\n",
    b"plan": b"""cluster alpha
prefix alpha-
bootstrap 19092 127.0.0.1:9092
node 0 19093 127.0.0.1:9092
node 1 19094 127.0.0.1:9093
""",
}
CONFIG_LIMIT = 1_048_576


class Complaint(Exception):
    """What was wanted, and what came."""


def text_of(lines):
    return b"".join(line + b"\n" for line in lines)


def answers_to(lines):
    """The text that is written for these lines."""
    *answers, _ = replayed(lines)
    return text_of(answers)


def compare(what, wanted, got):
    if wanted != got:
        show = shown if isinstance(wanted, bytes) else str
        raise Complaint(f"wanted {what} {show(wanted)}, got {show(got)}")


# One run. The words are bytes, since a word may be anything.


def started(path, words, **streams):
    return subprocess.Popen([os.fsencode(path), *words], **streams)


def ended(child):
    """The status of a run, which is to end in time."""
    try:
        return child.wait(SECONDS)
    except subprocess.TimeoutExpired:
        raise Complaint(f"it had not ended after {SECONDS} seconds") from None
    finally:
        child.kill()
        child.wait()


def outcome(path, words, stdin, before=None):
    """What a run writes, and its status. `before` is done in the new process, before the program begins there."""
    with tempfile.TemporaryFile() as out:
        status = ended(started(path, words, stdin=stdin, stdout=out, preexec_fn=before))
        out.seek(0)
        return out.read(), status


def expect(path, words, stdin, output, status, before=None):
    written, found = outcome(path, words, stdin, before)
    if found != status:
        raise Complaint(f"wanted status {status}, got {status_text(found)} and {shown(written)}")
    compare("the output", output, written)


@contextmanager
def file_of(data):
    with tempfile.TemporaryFile() as file:
        file.write(data)
        file.seek(0)
        yield file


# The words.


FAULTY_WORDS = {
    "no words": [],
    "one word too many": [b"replay", b"x"],
    "the word twice": [b"replay", b"replay"],
    "an empty word": [b""],
    "an empty word behind": [b"replay", b""],
    "an empty word before": [b"", b"replay"],
    "another word": [b"reply"],
    "the front of the word": [b"repla"],
    "a longer word": [b"replayed"],
    "a capital": [b"Replay"],
    "a space behind": [b"replay "],
    "a word that isn't UTF-8": [b"\xff"],
    "a word behind that isn't UTF-8": [b"replay", b"\xff"],
    "a byte behind that isn't UTF-8": [b"replay\x80"],
    "--help": [b"--help"],
    "--version": [b"--version"],
    "-h": [b"-h"],
    "-": [b"-"],
    "-- before": [b"--", b"replay"],
    "a word of 100,000 bytes": [b"r" * 100_000],
    "1,000 words": [b"replay"] * 1_000,
    "check without a file": [b"check"],
    "plan without a file": [b"plan"],
    "check with two files": [b"check", b"/dev/null", b"/dev/null"],
    "plan with an empty word behind": [b"plan", b"/dev/null", b""],
    "check of -": [b"check", b"-"],
    "plan of a word that begins with -": [b"plan", b"--help"],
    "a file before check": [b"/dev/null", b"check"],
    "check of a word that isn't UTF-8": [b"check", b"/dev/null\xff"],
    "replay with a file": [b"replay", b"/dev/null"],
    "replay of a cluster that begins with -": [b"replay", b"/dev/null", b"-lab"],
    "replay of a file that begins with -": [b"replay", b"-f", b"lab"],
    "replay of two clusters": [b"replay", b"/dev/null", b"lab", b"lab"],
    "a cluster before replay": [b"lab", b"replay", b"/dev/null"],
    "replay of a cluster that isn't UTF-8": [b"replay", b"/dev/null", b"\xff"],
}


def refuses_words(path, words):
    """The usage line is written, and nothing is read."""
    with file_of(text_of(EXCHANGE)) as script:
        expect(path, words, script, USAGE, USAGE_STATUS)
        compare("bytes read", 0, os.lseek(script.fileno(), 0, os.SEEK_CUR))


def refuses_words_over_a_pipe(path):
    """The pipe stays open, so that a read of it would wait."""
    with pipe() as (reader, _):
        expect(path, [b"other"], reader, USAGE, USAGE_STATUS)


def usage_has_no_room(path):
    with open("/dev/full", "wb") as full:
        child = started(path, [b"--help"], stdin=subprocess.DEVNULL, stdout=full)
        compare("status", OUTPUT_FAULT, ended(child))


# Inputs.


def plays_a_file(path):
    with file_of(text_of(EXCHANGE)) as script:
        expect(path, [b"replay"], script, answers_to(EXCHANGE), DONE)


def plays_nothing(path):
    expect(path, [b"replay"], subprocess.DEVNULL, b"", DONE)


def reads_a_directory(path):
    folder = os.open("/", os.O_RDONLY)
    try:
        expect(path, [b"replay"], folder, b"", INPUT_FAULT)
    finally:
        os.close(folder)


def reads_closed_input(path):
    expect(path, [b"replay"], subprocess.DEVNULL, b"", INPUT_FAULT, before=lambda: os.close(0))


def reads_what_is_open_for_writing(path):
    with open(os.devnull, "wb") as file:
        expect(path, [b"replay"], file, b"", INPUT_FAULT)


def input_fails_behind_lines(path):
    """A socket whose peer resets it gives its bytes, and then a failed read."""
    with socket.create_server(("127.0.0.1", 0)) as server:
        peer = socket.create_connection(server.getsockname())
        accepted, _ = server.accept()
    with accepted, Conversation(path, accepted.fileno()) as talk:
        for line in EXCHANGE[:3]:
            peer.sendall(line + b"\n")
        talk.expect(answers_to(EXCHANGE[:3]))
        peer.setsockopt(socket.SOL_SOCKET, socket.SO_LINGER, struct.pack("ii", 1, 0))
        peer.close()
        talk.expect_end(INPUT_FAULT)


# Outputs.


def output_to(path, file, status):
    with file_of(text_of(EXCHANGE)) as script:
        compare("status", status, ended(started(path, [b"replay"], stdin=script, stdout=file)))


def writes_to_a_full_device(path):
    with open("/dev/full", "wb") as full:
        output_to(path, full, OUTPUT_FAULT)


def writes_nothing_to_a_full_device(path):
    with open("/dev/full", "wb") as full:
        child = started(path, [b"replay"], stdin=subprocess.DEVNULL, stdout=full)
        compare("status", DONE, ended(child))


def writes_to_what_is_open_for_reading(path):
    with open(os.devnull, "rb") as file:
        output_to(path, file, OUTPUT_FAULT)


def writes_to_closed_output(path):
    with file_of(text_of(EXCHANGE)) as script:
        expect(path, [b"replay"], script, b"", OUTPUT_FAULT, before=lambda: os.close(1))


def writes_up_to_a_limit(path, lines, limit):
    """The file may have so many bytes. A write past them fails, where the signal that it brings is ignored."""

    def limited():
        signal.signal(signal.SIGXFSZ, signal.SIG_IGN)
        resource.setrlimit(resource.RLIMIT_FSIZE, (limit, limit))

    with file_of(text_of(lines)) as script:
        expect(path, [b"replay"], script, answers_to(lines)[:limit], OUTPUT_FAULT, before=limited)


def reader_goes_away(path):
    """The input stays open: the program ends by the write that fails."""
    with pipe() as (reader, writer), Conversation(path, reader) as talk:
        os.write(writer, b"emit\n")
        talk.expect(b"later\n")
        talk.stop_reading()
        os.write(writer, b"emit\n")
        talk.expect_end(OUTPUT_FAULT)


def slow_reader(path):
    """The output is many times what a pipe holds, and nothing is read of it for a while."""
    lines = EXCHANGE[:1] + [b"emit"] * 200_000 + EXCHANGE[1:]
    with file_of(text_of(lines)) as script, Conversation(path, script.fileno()) as talk:
        time.sleep(0.5)
        for piece in pieces_of(answers_to(lines), 10_007):
            talk.expect(piece)
        talk.expect_end(DONE)


def pieces_of(data, size):
    return (data[at : at + size] for at in range(0, len(data), size))


# Files.


@contextmanager
def path_of(data):
    """The path of a file with these bytes."""
    with tempfile.NamedTemporaryFile() as file:
        file.write(data)
        file.flush()
        yield os.fsencode(file.name)


def answers_a_file(path, data, answers):
    """What each command on a configuration writes of these bytes. The input is a pipe that stays open."""
    with path_of(data) as name, pipe() as (reader, _):
        for word, answer in answers.items():
            refused = answer.startswith(b"refused ")
            expect(path, [word, name], reader, answer, REFUSED if refused else DONE)


def answers_a_path(path, name, output, status):
    for word in CONFIG_ANSWERS:
        expect(path, [word, name], subprocess.DEVNULL, output, status)


def refused_by_both(line):
    return dict.fromkeys(CONFIG_ANSWERS, b"refused " + line + b"\n")


def padded(size):
    """The configuration with a comment behind it, of so many bytes."""
    return (CONFIG + b"#").ljust(size, b"x")


def answers_a_file_without_room(path):
    with path_of(CONFIG) as name, open("/dev/full", "wb") as full:
        for word in CONFIG_ANSWERS:
            compare("status", OUTPUT_FAULT, ended(started(path, [word, name], stdin=subprocess.DEVNULL, stdout=full)))


def answers_a_file_that_may_not_be_read(path):
    """Root may read every file, so there is nothing to try then."""
    if os.geteuid() == 0:
        return
    with path_of(CONFIG) as name:
        os.chmod(name, 0)
        answers_a_path(path, name, b"", FILES_FAULT)


# Clusters.


UNPREFIXED = CONFIG.replace(b'prefix = "alpha-"\n', b"")


def replays_a_cluster(path):
    with path_of(UNPREFIXED) as name, file_of(text_of(EXCHANGE)) as script:
        expect(path, [b"replay", name, b"alpha"], script, answers_to(EXCHANGE), DONE)


def serves_no_cluster(path, data, cluster, line):
    """The input is a pipe that stays open, so that a read of it would wait."""
    with path_of(data) as name, pipe() as (reader, _):
        expect(path, [b"replay", name, cluster], reader, b"refused " + line + b"\n", REFUSED)


def finds_no_file_of_clusters(path):
    with pipe() as (reader, _):
        expect(path, [b"replay", b"/nothing/there", b"alpha"], reader, b"", FILES_FAULT)


# Pipes that stay open.


@contextmanager
def pipe():
    reader, writer = os.pipe()
    with os.fdopen(reader, "rb") as one, os.fdopen(writer, "wb") as other:
        yield one.fileno(), other.fileno()


class Conversation:
    """`replay` with a pipe behind its output, and the time within which all of it is to happen."""

    def __init__(self, path, stdin):
        self.end = time.monotonic() + SECONDS
        self.child = started(path, [b"replay"], stdin=stdin, stdout=subprocess.PIPE, bufsize=0)

    def __enter__(self):
        return self

    def __exit__(self, *_):
        self.child.kill()
        self.child.wait()
        self.child.stdout.close()

    def read(self, most):
        """What is there next, and nothing at the end of the output."""
        left = max(self.end - time.monotonic(), 0)
        if not select.select([self.child.stdout], [], [], left)[0]:
            return None
        return self.child.stdout.read(most)

    def expect(self, wanted):
        """These bytes come next."""
        got = b""
        while len(got) < len(wanted):
            piece = self.read(len(wanted) - len(got))
            if piece is None:
                raise Complaint(f"wanted {shown(wanted)}, got no more than {shown(got)} in {SECONDS} seconds")
            if not piece:
                break
            got += piece
        compare("the output", wanted, got)

    def expect_silence(self, seconds=0.2):
        if select.select([self.child.stdout], [], [], seconds)[0]:
            raise Complaint(f"wanted nothing yet, got {shown(self.child.stdout.read(100))}")

    def stop_reading(self):
        self.child.stdout.close()

    def expect_end(self, status):
        """Nothing more comes, and the program ends."""
        if not self.child.stdout.closed:
            more = self.read(100)
            if more is None:
                raise Complaint(f"it had not ended after {SECONDS} seconds")
            if more:
                raise Complaint(f"wanted the output's end, got {shown(more)}")
        found = ended(self.child)
        if found != status:
            raise Complaint(f"wanted status {status}, got {status_text(found)}")


@contextmanager
def conversation(path):
    with pipe() as (reader, writer), Conversation(path, reader) as talk:
        yield talk, writer


def answers_before_the_next_line(path):
    """Each line is answered before the next one is written."""
    with conversation(path) as (talk, writer):
        for line, answer in zip(EXCHANGE, answers_to(EXCHANGE).splitlines(keepends=True)):
            os.write(writer, line + b"\n")
            talk.expect(answer)


def answers_two_lines_and_a_half(path):
    """A line whose end hasn't come isn't answered yet."""
    with conversation(path) as (talk, writer):
        os.write(writer, b"send\nemit\nsen")
        talk.expect(b"none\nlater\n")
        talk.expect_silence()
        os.write(writer, b"d\n")
        talk.expect(b"none\n")


def answers_bytes_that_come_one_by_one(path):
    with conversation(path) as (talk, writer):
        for byte in pieces_of(text_of(EXCHANGE), 1):
            os.write(writer, byte)
        talk.expect(answers_to(EXCHANGE))


def answers_the_last_line_at_the_end(path):
    """A last line without byte 10 is answered once the pipe is closed."""
    reader, writer = os.pipe()
    with os.fdopen(reader, "rb") as stdin, Conversation(path, stdin) as talk:
        os.write(writer, b"send\nemit")
        talk.expect(b"none\n")
        talk.expect_silence()
        os.close(writer)
        talk.expect(b"later\n")
        talk.expect_end(DONE)


def ends_at_a_bad_line(path, lines, bad):
    with conversation(path) as (talk, writer):
        os.write(writer, text_of(lines) + bad)
        talk.expect(answers_to(lines) + b"bad line %d\n" % (len(lines) + 1))
        talk.expect_end(REFUSED)


# The cases.


def cases(path):
    for name, words in FAULTY_WORDS.items():
        yield f"words: {name}", refuses_words, (path, words)
    yield "words: another word, over a pipe that stays open", refuses_words_over_a_pipe, (path,)
    yield "words: the usage line to a full device", usage_has_no_room, (path,)
    yield "input: a file", plays_a_file, (path,)
    yield "input: nothing", plays_nothing, (path,)
    yield "input: a directory", reads_a_directory, (path,)
    yield "input: closed", reads_closed_input, (path,)
    yield "input: open for writing", reads_what_is_open_for_writing, (path,)
    yield "input: a socket that is reset behind three lines", input_fails_behind_lines, (path,)
    yield "output: a full device", writes_to_a_full_device, (path,)
    yield "output: a full device, and nothing to write", writes_nothing_to_a_full_device, (path,)
    yield "output: open for reading", writes_to_what_is_open_for_reading, (path,)
    yield "output: closed", writes_to_closed_output, (path,)
    for limit in (0, 1, 10):
        yield f"output: a file of {limit} bytes at most", writes_up_to_a_limit, (path, EXCHANGE, limit)
    many = EXCHANGE[:1] + [b"emit"] * 50_000
    for limit in (65_535, 65_536, 100_001):
        yield f"output: a file of {limit:,} bytes at most", writes_up_to_a_limit, (path, many, limit)
    yield "output: a reader that goes away", reader_goes_away, (path,)
    yield "output: a slow reader", slow_reader, (path,)
    yield "file: a configuration that holds", answers_a_file, (path, CONFIG, CONFIG_ANSWERS)
    yield "file: of the limit", answers_a_file, (path, padded(CONFIG_LIMIT), CONFIG_ANSWERS)
    too_long = refused_by_both(b"too-long")
    yield "file: a byte too long", answers_a_file, (path, padded(CONFIG_LIMIT + 1), too_long)
    yield "file: many times too long", answers_a_file, (path, padded(20 * CONFIG_LIMIT), too_long)
    yield "file: one that doesn't end", answers_a_path, (path, b"/dev/zero", b"refused too-long\n", REFUSED)
    yield "file: empty", answers_a_file, (path, b"", refused_by_both(b"missing version"))
    yield "file: not UTF-8", answers_a_file, (path, CONFIG + b"#\xff", refused_by_both(b"not-toml"))
    yield "file: none of that name", answers_a_path, (path, b"/nothing/there", b"", FILES_FAULT)
    yield "file: an empty name", answers_a_path, (path, b"", b"", FILES_FAULT)
    yield "file: a name of 5,000 bytes", answers_a_path, (path, b"n" * 5_000, b"", FILES_FAULT)
    yield "file: a directory", answers_a_path, (path, b"/", b"", FILES_FAULT)
    yield "file: one that may not be read", answers_a_file_that_may_not_be_read, (path,)
    yield "file: an answer to a full device", answers_a_file_without_room, (path,)
    yield "cluster: a script is played", replays_a_cluster, (path,)
    yield "cluster: another name", serves_no_cluster, (path, UNPREFIXED, b"alph", b"no-cluster")
    yield "cluster: an empty name", serves_no_cluster, (path, UNPREFIXED, b"", b"no-cluster")
    yield "cluster: one with a prefix", serves_no_cluster, (path, CONFIG, b"alpha", b"no-cluster")
    yield "cluster: of a refused file", serves_no_cluster, (path, b"", b"alpha", b"missing version")
    yield "cluster: of a file that isn't there", finds_no_file_of_clusters, (path,)
    yield "pipe: each line is answered before the next", answers_before_the_next_line, (path,)
    yield "pipe: two lines and a half", answers_two_lines_and_a_half, (path,)
    yield "pipe: byte by byte", answers_bytes_that_come_one_by_one, (path,)
    yield "pipe: the last line without its end", answers_the_last_line_at_the_end, (path,)
    yield "pipe: a bad line", ends_at_a_bad_line, (path, [], b"sned\n")
    yield "pipe: a bad line behind three", ends_at_a_bad_line, (path, EXCHANGE[:3], b"\n")
    yield "pipe: a bad line before others", ends_at_a_bad_line, (path, EXCHANGE[:1], b"emit \nsend\nemit\n")


def main():
    path = program(is_wrapped=True)
    table = Cases("check_program")
    for name, case, arguments in cases(path):
        try:
            case(*arguments)
            table.note(name, None)
        except (Complaint, OSError) as complaint:
            table.note(name, str(complaint))
    return table.status()


if __name__ == "__main__":
    sys.exit(main())
