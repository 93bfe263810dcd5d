"""The names of the definitions in specs/: no name is given by two crates, and none has a word in it that says nothing.

Use `scripts/check_names`, which calls this. Which word stands for what is told in docs/NAMES.md.
"""

import re
import sys
from collections import defaultdict
from pathlib import Path
from typing import NamedTuple

TOP = Path(__file__).resolve().parent.parent
# Bare verbs and participles: a name is a noun, or a claim that is understood without its definition.
OLD_WORDS = set(
    "does asks says say goes gave met meets hands standing stationed stood runs running left replies".split()
)

DEFINITION = re.compile(r"(?:\w+ )?pub (?:(record|data|mod) )?([^\s:(]+)")
PRIVATE = re.compile(r"(?:(?:abbrev|unfoldable|record|data|mod) )?([^\s:(]+) :(?: |$)")
CONSTRUCTOR = re.compile(r"  ([^\s:(]+) : ")
FIELD = re.compile(r"  pub ([^\s:(]+) : ")


class Name(NamedTuple):
    text: str
    crate: str
    place: str  # file and line
    is_cited_alone: bool  # other crates can cite it by this name: it is public, no field and no module


def names_in(path):
    """The names that a file of definitions gives, in its order."""
    crate, in_data = path.relative_to(TOP).parts[1], False
    for number, line in enumerate(path.read_text().splitlines(), 1):
        place = f"{path.relative_to(TOP)}:{number}"
        if line and not line.startswith(" "):
            in_data = False
        if found := DEFINITION.match(line):
            kind, text = found.groups()
            in_data = kind == "data"
            yield Name(text, crate, place, kind != "mod")
        elif found := FIELD.match(line) or PRIVATE.match(line):
            yield Name(found[1], crate, place, False)
        elif in_data and (found := CONSTRUCTOR.match(line)):
            yield Name(found[1], crate, place, True)


def words_of(text):
    """`HandsOn` and `hands_on` have the same words."""
    return [word.lower() for word in re.findall(r"[A-Z]?[a-z]+|[A-Z]+", text)]


def with_old_words(names):
    for name in names:
        for word in sorted(OLD_WORDS.intersection(words_of(name.text))):
            yield f"{name.place}: the name {name.text} has the word `{word}`"


def given_twice(names):
    places = defaultdict(dict)  # from a name and a crate to its first place there
    for name in names:
        if name.is_cited_alone:
            places[name.text].setdefault(name.crate, name.place)
    for text, by_crate in sorted(places.items()):
        if len(by_crate) > 1:
            yield f"{text} is given by {len(by_crate)} crates: {', '.join(by_crate.values())}"


def main():
    names = [name for path in sorted(TOP.glob("crates/*/specs/**/*.antt")) for name in names_in(path)]
    found = [*given_twice(names), *with_old_words(names)]
    if not names:
        found.append("there are no names to look at")
    for line in found:
        print(f"check_names: {line}")
    if not found:
        print(f"check_names: {len(names)} names")
    return 1 if found else 0


if __name__ == "__main__":
    sys.exit(main())
