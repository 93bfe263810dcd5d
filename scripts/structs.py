"""The structs of messages, read from the source of the crates that have them, for `messages.py`."""

import re
from pathlib import Path

TOP = Path(__file__).resolve().parent.parent

# Entries that are one number or one text.
PLAIN_ENTRIES = {"Number": "I32", "Name": "Str"}

FIELD_TYPES = {
    "i8": {"I8"},
    "i16": {"I16"},
    "i32": {"I32"},
    "i64": {"I64"},
    "u8": {"Bool"},
    "Option<Bytes>": {"Str", "Bytes"},
}


class Structs:
    """Of one crate: from the name of a struct to its fields, and the keys and directions of its views."""

    def __init__(self, crate):
        self.crate, self.fields, self.views = crate, {}, {}
        for path in sorted((TOP / "crates" / crate / "src").glob("*.rt")):
            text = path.read_text()
            for name, body in re.findall(r"^pub struct (\w+) \{\n(.*?)^\}", text, re.S | re.M):
                self.fields[name] = re.findall(r"^    pub (\w+): (.*),$", body, re.M)
            for name, body in re.findall(r"^impl View for (\w+) \{\n(.*?)^\}", text, re.S | re.M):
                key = re.search(r"const KEY: i16 = (\d+);", body)
                dir = re.search(r"const DIR: Dir = Dir::(\w+);", body)
                self.views[name] = int(key[1]), dir[1].lower()

    def rows(self, name, depth=0):
        """The fields of a struct and of its entries: depth, name, kinds that it can have, and whether it can be missing."""
        for field, type in self.fields[name]:
            if depth == 0 and field == "version":
                continue
            entries = re.fullmatch(r"(Option<)?Option<Entries<(\w+)>>>?", type)
            if entries:
                yield depth, field, {"Array"}, entries[1] is not None
                if entries[2] in PLAIN_ENTRIES:
                    yield depth + 1, "it", {PLAIN_ENTRIES[entries[2]]}, False
                else:
                    yield from self.rows(entries[2], depth + 1)
            else:
                inner = re.fullmatch(r"Option<(.*)>", type)
                is_optional = type not in FIELD_TYPES and inner is not None
                yield depth, field, FIELD_TYPES.get(inner[1] if is_optional else type, set()), is_optional


def crates_of_structs():
    return [path.name for path in sorted((TOP / "crates").glob("*_api"))]


def listed(document):
    """The list of the document: API, crate, request, response."""
    part = re.search(r"^## The structs$(.*?)^## ", document, re.S | re.M)
    rows = re.findall(r"^\| (\w+) \| `(\w+)` \| `(\w+)` \| `(\w+)` \|$", part[1] if part else "", re.M)
    return [tuple(row) for row in rows]


def struct_differences(apis, document):
    """A line for each struct that the document or the table has otherwise."""
    crates = {crate: Structs(crate) for crate in crates_of_structs()}
    found = []
    for api in apis:
        views = {}
        for crate, structs in crates.items():
            for name, (key, dir) in structs.views.items():
                if key == api.key:
                    views[dir] = crate, name
        if views:
            found.append((api.name, views["request"][0], views["request"][1], views["response"][1]))
        for dir, (crate, name) in views.items():
            yield from row_differences(api, dir, name, list(crates[crate].rows(name)))
    if found != listed(document):
        for row in sorted(set(found) ^ set(listed(document))):
            yield f"docs/MESSAGES.md, the structs: {' '.join(row)} stands on one side alone"
        if sorted(found) == sorted(listed(document)):
            yield "docs/MESSAGES.md has the structs in another order"


def row_differences(api, dir, name, ours):
    rows = api.tables[dir]
    if len(rows) != len(ours):
        yield f"{name} has {len(ours)} fields, and the table has {len(rows)}"
    around = []  # the versions of the arrays that a row lies in
    for row, (depth, field, kinds, is_optional) in zip(rows, ours):
        del around[row.depth :]
        least, greatest = around[-1] if around else (api.least, api.greatest)
        is_part = (row.first, row.last) != (least, greatest)
        if (row.depth, row.name) != (depth, field) or row.kind not in kinds or is_part != is_optional:
            yield f"{name}: the field {field} isn't the table's {row}"
        around.append((row.first, row.last))
