"""Writes bodies that the Python package kafka-python spells, as cases of `codec_cases`.

Run `scripts/spell_with_kafka_python`. Each message of a version that the package and docs/MESSAGES.md both have is
spelled once by the package. The places of its items, and those of the faults of each front, of one byte more and of each bad
length, come from `message_bodies.py`, which reads them. It has to find each fault at the item where it belongs.
"""

import sys
from pathlib import Path

import kafka
from kafka.protocol import types

from message_bodies import LENGTHS, BadBody, Body, fields_of, read_body, tables
from messages import KNOWN, python_classes, source

CRATE = Path(__file__).resolve().parent.parent / "crates" / "codec_cases"

# The line of both files behind which all is written by this script.
MARK = "# kafka-python "

# Lengths of -2, and lengths past the end of each body, by the size of the length.
BAD_LENGTHS = {2: (b"\xff\xfe", b"\x7f\xff"), 4: (b"\xff\xff\xff\xfe", b"\x7f\xff\xff\xff")}


class Numbers:
    """A different value for each field: none is the least of its type, and every third text or array is null."""

    def __init__(self):
        self.given = 0

    def value(self, kind, is_entry=False):
        self.given += 1
        n = self.given
        if isinstance(kind, types.Schema):
            return tuple(self.value(field, True) for field in kind.fields)
        if isinstance(kind, types.Array):
            if is_entry and n % 3 == 0:
                return None
            return [self.value(kind.array_of, True) for _ in range(1 + n % 2)]
        if kind is types.Int8:
            return n - 100
        if kind is types.Int16:
            return 259 + n
        if kind is types.Int32:
            return -n
        if kind is types.Int64:
            return (n << 33) + 7
        if kind is types.Boolean:
            return n % 2 == 0
        if kind is types.Bytes:
            return None if n % 3 == 0 else bytes([n % 256, 0, 255][: n % 4])
        return None if n % 3 == 0 else "tö"[: n % 3] + str(n)


class Placed(Body):
    def __init__(self, data):
        super().__init__(data)
        self.items = []

    def read_field(self, field):
        self.items.append((self.at, field.kind))
        return super().read_field(field)


def items_of(data, key, version, direction):
    """The place and the kind of each item."""
    body = Placed(data)
    for field in fields_of(key, version, direction):
        body.read_field(field)
    if body.at != len(data):
        raise BadBody(body.at)
    return body.items


def fault_of(data, key, version, direction):
    try:
        read_body(data, key, version, direction)
    except BadBody as fault:
        return fault
    raise AssertionError(f"no fault: {key} {version} {direction} {data.hex()}")


def cases_of(data, key, version, direction):
    """The lines that ask, and what is written for each."""
    items = items_of(data, key, version, direction)
    places = [place for place, _ in items]
    yield f"decode {key} {version} {direction} {data.hex() or '-'}", words("spelled", places)
    fronts = [fault_of(data[:size], key, version, direction).place for size in range(len(data))]
    assert fronts == [max(place for place in places if place <= size) for size in range(len(data))]
    yield "fronts", words("wrong-at", fronts)
    assert fault_of(data + b"\0", key, version, direction).place == len(data)
    yield f"with {len(data)} 00", f"not-spelled {len(data)}"
    for place, kind in items:
        for length in BAD_LENGTHS[LENGTHS[kind]] if kind in LENGTHS else ():
            fault = fault_of(data[:place] + length + data[place + len(length) :], key, version, direction)
            assert (fault.place, fault.is_too_many) == (place, kind == "Array" and length[0] == 0x7F)
            yield f"with {place} {length.hex()}", f"{'too-many-entries' if fault.is_too_many else 'not-spelled'} {place}"


def words(word, numbers):
    return " ".join([word, *map(str, numbers)])


def rewrite(name, lines):
    """Puts these lines in the place of what stands behind the mark."""
    path = CRATE / name
    head = path.read_text().partition(MARK)[0]
    path.write_text(head + "".join(line + "\n" for line in lines))


def main():
    classes = python_classes()
    cases = [(f"{MARK}{kafka.__version__}", f"{MARK}{kafka.__version__}")]
    count = 0
    for api in source():
        for direction in ("request", "response"):
            where = f"{api.name} {direction}"
            versions, _ = tables()[api.key, direction]
            for version in versions:
                found = classes.get((api.key, version, direction))
                if found is None or (where, version) in KNOWN:
                    continue
                schema = found.SCHEMA
                try:
                    data = schema.encode(Numbers().value(schema))
                except TypeError:
                    # its schema has a type in place of a value of that type, so it can't spell the message
                    print(f"{where}, version {version}: the package can't spell it")
                    continue
                count += 1
                cases.append((f"# {where} {version}", f"# {where} {version}"))
                cases.extend(cases_of(data, api.key, version, direction))
    rewrite("stdin", [asked for asked, _ in cases])
    rewrite("stdout", [answered for _, answered in cases])
    print(f"{count} bodies, {len(cases)} lines: stdin and stdout of {CRATE.name}")
    return 0


if __name__ == "__main__":
    sys.exit(main())
