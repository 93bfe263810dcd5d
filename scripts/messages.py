"""The table of Kafka's messages, read from the source, and what is held beside it.

    messages.py check      docs/MESSAGES.md, the definitions in specs/ and the structs, by every row
    messages.py compare    the Python package kafka-python, by every version that both have

Use `scripts/check_messages` and `scripts/compare_kafka_python`, which call this.
"""

import re
import sys
from pathlib import Path
from typing import NamedTuple

from structs import struct_differences

TOP = Path(__file__).resolve().parent.parent
CRATE = TOP / "crates" / "kp_schema"
DOCUMENT = TOP / "docs" / "MESSAGES.md"
DIRECTIONS = ("request", "response")


class Row(NamedTuple):
    depth: int
    name: str
    kind: str
    mark: str
    first: int
    last: int

    def __str__(self):
        mark = "" if self.mark == "Plain" else f" ({self.mark})"
        return f"{'  ' * self.depth}{self.name} {self.kind}{mark}, {self.first} to {self.last}, depth {self.depth}"


class Api(NamedTuple):
    key: int
    name: str
    least: int
    greatest: int
    tables: dict  # from each direction to its rows


class Unreadable(Exception):
    pass


def snake(name):
    return re.sub(r"(?<!^)([A-Z])", r"_\1", name).lower()


# The source: the columns of `table!`, and the list of versions.


def source_row(line, columns, where):
    found = re.fullmatch(r"\[([\d_ ]+)\] (\d+) +(\w+): (\w+)(?:\((\w+)\))?;", line)
    if not found:
        raise Unreadable(f"{where}: not a row: {line}")
    at, depth, name, kind, mark = found.groups()
    at = at.split()
    if len(at) != len(columns) or any(a not in ("_", c) for a, c in zip(at, columns)):
        raise Unreadable(f"{where}: the columns of this row are not those of its table: {line}")
    versions = [int(a) for a in at if a != "_"]
    return Row(int(depth), name, kind, mark or "Plain", versions[0], versions[-1])


def source_api(key, name, least, greatest):
    path = CRATE / "src" / "messages" / f"{snake(name)}.rt"
    text = path.read_text()
    tables = {}
    for direction in DIRECTIONS:
        found = re.search(
            r"fn %s\(.*?table! \{ version in \[([\d ]+)\]\n(.*?)\n?    \}" % direction, text, re.S
        )
        if not found:
            raise Unreadable(f"{path}: no table of the {direction}")
        columns = found[1].split()
        if columns != [str(v) for v in range(least, greatest + 1)]:
            raise Unreadable(f"{path}: the columns of the {direction} are not {least} to {greatest}")
        lines = [line.strip() for line in found[2].splitlines() if line.strip()]
        tables[direction] = [source_row(line, columns, path) for line in lines]
    return Api(key, name, least, greatest, tables)


def source():
    text = (CRATE / "src" / "lookup.rt").read_text()
    rows = re.findall(r"^    \((\d+), (\d+), (\d+)\), // (\w+)$", text, re.M)
    if not rows:
        raise Unreadable("src/lookup.rt: no list of versions")
    return [source_api(int(key), name, int(least), int(greatest)) for key, least, greatest, name in rows]


# The document.


def document_row(line, api):
    cells = [cell.strip() for cell in line.strip("|").split("|")]
    if len(cells) != 4:
        raise Unreadable(f"docs/MESSAGES.md: not a row of four cells: {line}")
    name, kind, versions, mark = cells
    depth = name.count("·")
    first, last = api.least, api.greatest
    if versions != "all":
        found = re.fullmatch(r"(\d+)(?: to (\d+))?", versions)
        if not found:
            raise Unreadable(f"docs/MESSAGES.md: {api.name}: versions of {name}: {versions}")
        first, last = int(found[1]), int(found[2] or found[1])
    return Row(depth, name.replace("·", "").strip(), kind, mark or "Plain", first, last)


def document():
    apis, rows = [], None
    for line in DOCUMENT.read_text().splitlines():
        heading = re.fullmatch(r"## (\w+) \(key (\d+), versions (\d+) to (\d+)\)", line)
        part = re.fullmatch(r"\*\*(Request|Response)\*\*(: no fields)?", line)
        if heading:
            name, key, least, greatest = heading.groups()
            apis.append(Api(int(key), name, int(least), int(greatest), {}))
            rows = None
        elif line.startswith("## "):
            rows = None
        elif part and apis:
            rows = apis[-1].tables.setdefault(part[1].lower(), [])
        elif line.startswith("|") and rows is not None:
            if not re.match(r"\|(-+\|)+$|\| Field \|", line):
                rows.append(document_row(line, apis[-1]))
    return apis


# The definitions that the contracts cite. The names are comments there.


def spec_api(api):
    path = CRATE / "specs" / f"{api.name}.antt"
    text = path.read_text()
    tables = {}
    for direction in DIRECTIONS:
        found = re.search(r"^%s =(.*?)\[\]$" % direction, text, re.S | re.M)
        if not found:
            raise Unreadable(f"{path}: no table of the {direction}")
        tables[direction] = rows = []
        for line in found[1].splitlines():
            if not line.strip():
                continue
            row = re.fullmatch(r" *(?:field (\d+) (\w+)|marked (\d+) (\w+) (\w+)) (\d+) (\d+) ∷  -- +(\w+)", line)
            if not row:
                raise Unreadable(f"{path}: not a row: {line}")
            depth, kind, mark = (row[1], row[2], "Plain") if row[1] else (row[3], row[4], row[5])
            rows.append(Row(int(depth), row[8], kind, mark, int(row[6]), int(row[7])))
    found = re.search(r"key = (\d+); least = (\d+); greatest = (\d+);", text)
    if not found:
        raise Unreadable(f"{path}: no key and versions")
    return Api(int(found[1]), api.name, int(found[2]), int(found[3]), tables)


def differences(apis, others, title):
    heads = [api[:4] for api in apis]
    other_heads = [api[:4] for api in others]
    if heads != other_heads:
        for head in heads:
            if head not in other_heads:
                yield f"{title} lacks {head[1]}, key {head[0]}, versions {head[2]} to {head[3]}"
        for head in other_heads:
            if head not in heads:
                yield f"{title} has {head[1]}, key {head[0]}, versions {head[2]} to {head[3]}, and the source doesn't"
        if sorted(heads) == sorted(other_heads):
            yield f"{title} has the messages in another order"
        return
    for api, other in zip(apis, others):
        for direction in DIRECTIONS:
            rows, other_rows = api.tables[direction], other.tables.get(direction)
            if other_rows is None:
                yield f"{title} lacks the {direction} of {api.name}"
                continue
            for i in range(max(len(rows), len(other_rows))):
                row = rows[i] if i < len(rows) else None
                other_row = other_rows[i] if i < len(other_rows) else None
                if row != other_row:
                    yield f"{title}, {direction} of {api.name}, row {i + 1}: {other_row}\n    where the source has: {row}"
                    break


def check():
    apis = source()
    found = list(differences(apis, document(), "docs/MESSAGES.md"))
    found += differences(apis, [spec_api(api) for api in apis], "specs/")
    found += struct_differences(apis, DOCUMENT.read_text())
    for line in found:
        print(f"check_messages: {line}")
    if not found:
        count = sum(len(rows) for api in apis for rows in api.tables.values())
        print(f"check_messages: {len(apis)} messages with {count} rows: source, specs, structs and document agree")
    return 1 if found else 0


# kafka-python, which has a schema for each version.

KINDS = {
    "Int8": "I8",
    "Int16": "I16",
    "Int32": "I32",
    "Int64": "I64",
    "Boolean": "Bool",
    "String": "Str",
    "Bytes": "Bytes",
}


# What is known of the places where the package differs, after its own source and the guide.
KNOWN = {
    ("Produce response", 8): "its brackets close too early: record_errors and error_message are lost (KIP-467)",
    ("ListOffsets request", 4): "it has current_leader_epoch as INT64; the guide has INT32 (KIP-320)",
    ("ListOffsets request", 5): "as in version 4",
    ("FindCoordinator response", 1): "it lacks throttle_time_ms, which the guide has from version 1 on",
    ("DescribeGroups response", 3): "its brackets close too early: authorized_operations is lost (KIP-430)",
}


def python_fields(field, name, depth):
    """Depth, kind and name of a field and of what lies in it."""
    kind = field.__name__ if isinstance(field, type) else type(field).__name__
    if kind == "Array":
        yield depth, "Array", name
        yield from python_fields(field.array_of, "it", depth + 1)
    elif kind == "Schema":
        for inner_name, inner in zip(field.names, field.fields):
            yield from python_fields(inner, inner_name, depth)
    else:
        yield depth, KINDS[kind], name


def python_schema(schema):
    return [row for name, field in zip(schema.names, schema.fields) for row in python_fields(field, name, 0)]


def python_classes():
    """From key, version and direction to a class. The version is that of the class's name."""
    from kafka.protocol import admin, commit, fetch, group, metadata, offset, produce

    classes = {}
    for module in (admin, commit, fetch, group, metadata, offset, produce):
        for name, value in vars(module).items():
            found = re.fullmatch(r"\w+?(Request|Response)_v(\d+)", name)
            if found and isinstance(value, type) and hasattr(value, "API_KEY"):
                classes[value.API_KEY, int(found[2]), found[1].lower()] = value
    return classes


def compare():
    classes = python_classes()
    same, others, missing, numbers = 0, [], {}, []
    for api in source():
        for direction in DIRECTIONS:
            for version in range(api.least, api.greatest + 1):
                where = f"{api.name} {direction}"
                found = classes.get((api.key, version, direction))
                if found is None:
                    missing.setdefault(where, []).append(version)
                    continue
                if found.API_VERSION != version:
                    numbers.append(f"{found.__name__} says that it is version {found.API_VERSION}")
                ours = [(r.depth, r.kind, r.name) for r in api.tables[direction] if r.first <= version <= r.last]
                theirs = python_schema(found.SCHEMA)
                if [row[:2] for row in ours] == [row[:2] for row in theirs]:
                    same += 1
                else:
                    others.append((where, version, ours, theirs))
    print(f"{same} messages have the same kinds at the same depths, in the same order.")
    print(f"{len(others)} differ:")
    for where, version, ours, theirs in others:
        known = KNOWN.get((where, version))
        print(f"  {where}, version {version}" + (f" (known: {known})" if known else ""))
        for title, rows in (("here", ours), ("there", theirs)):
            print(f"    {title}: " + ", ".join(f"{'.' * depth}{name} {kind}" for depth, kind, name in rows))
    print("Not compared, since the package has no such version:")
    for where, versions in missing.items():
        print(f"  {where}: {', '.join(map(str, versions))}")
    print("Not compared, since the package has no such thing: marks, names, and whether a text may be null.")
    for line in numbers:
        print(f"In the package {line}.")
    return 0


def main(arguments):
    if arguments not in (["check"], ["compare"]):
        print(__doc__)
        return 2
    try:
        return check() if arguments == ["check"] else compare()
    except (Unreadable, OSError) as fault:
        print(f"messages.py: {fault}")
        return 1


if __name__ == "__main__":
    sys.exit(main(sys.argv[1:]))
