"""Bodies of messages, as docs/MESSAGES.md has them: whether bytes spell one, and else where they go wrong.

Used by `scripts/replay_model.py`. It shares no code with the program: a body is read by recursion.
"""

import re
from functools import lru_cache
from pathlib import Path
from typing import NamedTuple

MESSAGES = Path(__file__).resolve().parent.parent / "docs" / "MESSAGES.md"

MOST_ENTRIES = 8_388_608

NUMBERS = {"I8": 1, "I16": 2, "I32": 4, "I64": 8, "Bool": 1}
LENGTHS = {"Str": 2, "Bytes": 4, "Array": 4}


class Field(NamedTuple):
    name: str
    kind: str
    entry: tuple  # the fields of an array's entries


class BadBody(Exception):
    def __init__(self, place, is_too_many=False):
        super().__init__(place)
        self.place = place
        self.is_too_many = is_too_many


def versions_of(cell, least, greatest):
    if cell == "all":
        return range(least, greatest + 1)
    first, _, last = cell.partition(" to ")
    return range(int(first), int(last or first) + 1)


def nested(rows, depth):
    """The fields at this depth from the first row on, and the rows that follow them."""
    fields = []
    while rows and rows[0][0] == depth:
        (_, name, kind), rows = rows[0], rows[1:]
        entry, rows = nested(rows, depth + 1)
        fields.append(Field(name, kind, tuple(entry)))
    return fields, rows


@lru_cache(maxsize=None)
def tables():
    """From key and direction to the least and greatest version, and the rows: depth, name, kind, versions."""
    found = {}
    for api in re.split(r"^## ", MESSAGES.read_text(), flags=re.M)[1:]:
        head = re.match(r"\w+ \(key (\d+), versions (\d+) to (\d+)\)", api)
        if not head:
            continue
        key, least, greatest = map(int, head.groups())
        for part in re.split(r"^\*\*", api, flags=re.M)[1:]:
            rows = []
            for line in part.splitlines():
                cells = [cell.strip() for cell in line.strip().strip("|").split("|")]
                if not line.startswith("| ") or cells[0] == "Field":
                    continue
                rows.append((cells[0].count("·"), cells[0].strip("· "), cells[1], versions_of(cells[2], least, greatest)))
            found[key, part.split("*")[0].lower()] = range(least, greatest + 1), rows
    return found


@lru_cache(maxsize=None)
def served_versions():
    """From each API key to its versions."""
    return {key: versions for (key, direction), (versions, _) in tables().items() if direction == "request"}


@lru_cache(maxsize=None)
def fields_of(key, version, direction):
    _, rows = tables()[key, direction]
    return tuple(nested([row[:3] for row in rows if version in row[3]], 0)[0])


class Body:
    """A body while it is read."""

    def __init__(self, data):
        self.data = data
        self.at = 0
        self.entries = 0

    def number(self, size):
        if len(self.data) - self.at < size:
            raise BadBody(self.at)
        return int.from_bytes(self.data[self.at : self.at + size], "big", signed=True)

    def read_field(self, field):
        if field.kind in NUMBERS:
            value = self.number(NUMBERS[field.kind])
            self.at += NUMBERS[field.kind]
            return value
        size = LENGTHS[field.kind]
        length = self.number(size)
        if length < -1:
            raise BadBody(self.at)
        if field.kind == "Array":
            return self.read_entries(field, length, size)
        if len(self.data) - self.at - size < length:
            raise BadBody(self.at)
        self.at += size + max(length, 0)
        return length

    def read_entries(self, field, count, size):
        if self.entries + max(count, 0) > MOST_ENTRIES:
            raise BadBody(self.at, is_too_many=True)
        self.entries += max(count, 0)
        self.at += size
        for _ in range(count):
            for inner in field.entry:
                self.read_field(inner)
        return count


def read_body(data, key, version, direction):
    """From the names of the fields that lie in no array to their values; raises BadBody."""
    body = Body(data)
    values = {field.name: body.read_field(field) for field in fields_of(key, version, direction)}
    if body.at < len(data):
        raise BadBody(body.at)
    return values
