"""Runs the exchanges of `examples/exchanges` on the built program, and compares what is written byte by byte.

Use `scripts/check_examples`, which calls this. The form of a file is told in examples/exchanges/README.md.
"""

import json
import os
import socket
import subprocess
import sys
import tempfile
from concurrent.futures import ThreadPoolExecutor
from dataclasses import dataclass, field
from pathlib import Path

from running import TOP, Cases, program, shown, status_text

FOLDER = TOP / "examples" / "exchanges"
PIECES = 1, 7, 4096  # bytes of the script that each read finds at most
SECONDS = 60  # that a run may take
FRONT = """version = 1
[[cluster]]
name = "lab"
listen = "127.0.0.1"
advertise = "p"
bootstrap = "b:9092"
"""
NODES = 'nodes = ["b:9092"]'


@dataclass
class Exchange:
    """A script with what is wanted. Without keys it is replayed under the default plan."""

    name: str
    keys: list
    rows: list = field(default_factory=list)
    script: str = None
    text: str = None
    status: int = 0

    def input(self):
        return "".join(line + "\n" for line, _ in self.rows) if self.script is None else self.script

    def wanted(self):
        return "".join(answer + "\n" for _, answer in self.rows) if self.text is None else self.text

    def is_whole(self):
        """Either rows, or a script and its text."""
        return bool(self.rows) == (self.script is None) == (self.text is None)


def read_exchanges(path):
    """The exchanges of a file. A line that has none of the forms is a ValueError."""
    common, found = [], []
    for number, line in enumerate(path.read_text().splitlines(), 1):
        word, _, rest = line.partition(": ")
        if not line or line.startswith("#"):
            continue
        if line.startswith("== "):
            found.append(Exchange(line[3:], list(common)))
        elif word == "keys":
            (found[-1].keys if found else common).append(rest)
        elif found and word in ("script", "text"):
            setattr(found[-1], word, json.loads(rest))
        elif found and word == "status":
            found[-1].status = int(rest)
        elif found and " -> " in line:
            found[-1].rows.append(tuple(line.split(" -> ", 1)))
        else:
            raise ValueError(f"line {number}: {line!r}")
    return found


def configuration(keys):
    """The configuration with the cluster `lab` of these keys. Of a key that is there twice the later value counts."""
    values = dict(key.split(" = ", 1) for key in [NODES, *keys])
    return FRONT + "".join(f"{key} = {value}\n" for key, value in values.items())


def send_in_pieces(end, data, piece):
    """Closes the end where the program reads no more."""
    try:
        for start in range(0, len(data), piece):
            end.send(data[start : start + piece])
    except OSError:
        pass
    end.close()


def run_pieces(words, data, piece):
    """Runs the words on an input of which each read finds one piece, and gives the status and what was written."""
    far, near = socket.socketpair(socket.AF_UNIX, socket.SOCK_SEQPACKET)
    with far, near, subprocess.Popen(words, stdin=near, stdout=subprocess.PIPE) as running:
        near.close()
        with ThreadPoolExecutor(1) as sender:
            sender.submit(send_in_pieces, far, data, piece)
            try:
                written, _ = running.communicate(timeout=SECONDS)
            except subprocess.TimeoutExpired:
                running.kill()
                written, _ = running.communicate()
    return running.returncode, written


def first_difference(wanted, found):
    """The first line that differs, and what was wanted and found there."""
    others = found.split(b"\n")
    for number, line in enumerate(wanted.split(b"\n")):
        other = others[number] if number < len(others) else b""
        if line != other:
            return f"line {number + 1}: wanted {shown(line)}, got {shown(other)}"
    return f"more was written: {shown(found[len(wanted):])}"


def complaint_of(path, folder, exchange):
    """Why an exchange fails, or None."""
    if not exchange.is_whole():
        return "it has rows and a script, or neither, or no text"
    words = [path, "replay"]
    if exchange.keys:
        file = Path(folder) / f"{id(exchange)}.toml"
        file.write_text(configuration(exchange.keys))
        words += [str(file), "lab"]
    wanted = exchange.wanted().encode()
    for piece in PIECES:
        status, written = run_pieces(words, exchange.input().encode(), piece)
        if written != wanted:
            return f"in pieces of {piece}: {first_difference(wanted, written)}"
        if status != exchange.status:
            return f"in pieces of {piece}: wanted {status_text(exchange.status)}, got {status_text(status)}"
    return None


def main():
    path = program(False)
    cases = Cases("exchanges")
    files = sorted(FOLDER.glob("*.exchanges"))
    with tempfile.TemporaryDirectory() as folder, ThreadPoolExecutor(os.cpu_count()) as workers:
        waiting = []
        for file in files:
            try:
                exchanges = read_exchanges(file)
            except ValueError as fault:
                cases.note(file.name, str(fault))
                continue
            if not exchanges:
                cases.note(file.name, "no exchange is there")
            for exchange in exchanges:
                job = workers.submit(complaint_of, path, folder, exchange)
                waiting.append((f"{file.name}: {exchange.name}", job))
        for name, job in waiting:
            cases.note(name, job.result())
    return cases.status()


if __name__ == "__main__":
    sys.exit(main())
