"""The ends of a connection: the source, the definition that its contract cites, the page and the examples, compared.

Use `scripts/check_ends`, which calls this.
"""

import re
import sys
from pathlib import Path
from typing import NamedTuple

TOP = Path(__file__).resolve().parent.parent
SOURCE = TOP / "crates" / "kp_edge" / "src" / "end.rt"
SPEC = TOP / "crates" / "kp_edge" / "specs" / "End.antt"
PAGE = TOP / "docs" / "ENDS.md"
EXAMPLES = TOP / "examples"
AT_GREAT_SIZES = "in check_ample"  # its scripts are too large for an example
MODEL = TOP / "scripts" / "replay_model.py"  # what check_ample compares with
KINDS = ("cut", "death", "halt")


class End(NamedTuple):
    name: str
    fields: tuple
    kind: str
    text: str  # each number as N


class Unreadable(Exception):
    pass


def text_with_numbers(pieces, where):
    """The text of alternating words and numbers, if each number stands behind its own name."""
    text = ""
    for words, number in pieces:
        if number and not words.endswith(f"{number}="):
            raise Unreadable(f"{where}: the number {number} stands behind {words!r}")
        text += words + ("N" if number else "")
    return text


# The source: the groups of the enum, parted by empty lines, are the kinds.


def variants():
    found = re.search(r"pub enum End \{\n(.*?)\n\}", SOURCE.read_text(), re.S)
    if not found:
        raise Unreadable(f"{SOURCE}: no enum End")
    groups = found.group(1).split("\n\n")
    if len(groups) != len(KINDS):
        raise Unreadable(f"{SOURCE}: {len(groups)} groups of ends, where there are {len(KINDS)} kinds")
    for kind, group in zip(KINDS, groups):
        group = re.sub(r"^\s*///.*$", "", group, flags=re.M)
        for name, fields in re.findall(r"(\w+)\s*(?:\{(.*?)\})?\s*,(?=\s*(?:[A-Z]|$))", group, re.S):
            yield name, tuple(re.findall(r"(\w+):", fields)), kind


def printed():
    arms = re.findall(r"End::(\w+)\s*(?:\{[^}]*\})?\s*=>\s*write!\(\s*f,\s*\"([^\"]*)\"\s*\)", SOURCE.read_text())
    for name, form in arms:
        pieces = re.findall(r"([^{}]*)(?:\{(\w+)\})?", form)
        yield name, text_with_numbers(pieces, f"{SOURCE}: {name}")


def in_source():
    texts = dict(printed())
    for name, fields, kind in variants():
        if name not in texts:
            raise Unreadable(f"{SOURCE}: {name} is not printed")
        yield End(name, fields, kind, texts[name])


# The definition: a line for each end.


def in_spec():
    for left, right in re.findall(r"^end_text (.*?) = (.*)$", SPEC.read_text(), re.M):
        name, *fields = left.strip("()").split()
        pieces = re.findall(r"codes \"([^\"]*)\"(?: \+\+ (?:signed_)?decimal (\w+))?", right)
        yield End(name, tuple(fields), "", text_with_numbers(pieces, f"{SPEC}: {name}"))


# The page: a row of the table for each end. Numbers are N there, and K for a request's.


class Row(NamedTuple):
    end: End
    today: str


def in_page():
    for line in PAGE.read_text().splitlines():
        cells = [cell.strip() for cell in line.strip().strip("|").split("|")]
        if not line.startswith("| `") or len(cells) < 6:
            continue
        text = cells[1].strip("`")
        fields = tuple(re.findall(r"(\w+)=[NK]\b", text))
        end = End(cells[0].strip("`"), fields, cells[3], re.sub(r"=[NK]\b", "=N", text))
        yield Row(end, cells[5])


def shown():
    for file in sorted(EXAMPLES.glob("*/*.out")):
        for text in re.findall(r"^over (.*)$", file.read_text(), re.M):
            yield re.sub(r"=-?\d+", "=N", text)


def differences():
    source, spec, page = list(in_source()), list(in_spec()), list(in_page())
    if not source or not page:
        yield "there are no ends to compare"
    for what, others in ((SPEC.name, spec), (PAGE.name, [row.end for row in page])):
        names = [end.name for end in others]
        if names != [end.name for end in source]:
            yield f"{what}: its ends, or their order, are not those of the source: {' '.join(names)}"
            continue
        for end, other in zip(source, others):
            if end.text != other.text:
                yield f"{what}: {end.name} is `{other.text}`, and `{end.text}` in the source"
            if set(end.fields) != set(other.fields):
                yield f"{what}: {end.name} has the numbers {other.fields}, and {end.fields} in the source"
            if other.kind and other.kind != end.kind:
                yield f"{what}: {end.name} is a {other.kind}, and a {end.kind} in the source"
    for end, other in zip(source, spec):
        if end.name == other.name and end.fields != other.fields:
            yield f"{SPEC.name}: the numbers of {end.name} stand in another order"
    said, seen = {row.end.text for row in page if row.today == "yes"}, set(shown())
    for text in sorted(said - seen):
        yield f"{PAGE.name}: `{text}` comes today, and no example shows it"
    for text in sorted(seen - said):
        yield f"{PAGE.name}: an example shows `{text}`, which does not come today"
    for row in page:
        word = row.end.text.split()[0]
        if row.today == AT_GREAT_SIZES and f'f"{word} ' not in MODEL.read_text():
            yield f"{PAGE.name}: `{word}` comes {AT_GREAT_SIZES}, and {MODEL.name} does not know it"
        if row.today not in ("yes", "no", AT_GREAT_SIZES):
            yield f"{PAGE.name}: `{word}` has {row.today!r} in its last column"


def main():
    try:
        found = list(differences())
    except (OSError, Unreadable) as fault:
        found = [str(fault)]
    for line in found:
        print(f"check_ends: {line}")
    return 1 if found else 0


sys.exit(main())
