"""The definitions that a reader has to open behind the contract of a call, counted by names and imports in specs/.

Use `scripts/count_definitions`, which calls this.
"""

import re
import sys
from collections import Counter
from pathlib import Path

CRATES = Path(__file__).resolve().parent.parent / "crates"
IMPORT = re.compile(r"^\s*(?:ghost )?use Rattle\.(\w+)\.specs\.(\w+)\.\{(.*?)\}", re.M)
# A definition begins at the left, and inside a module two spaces further in; a private one says no word before its name.
MARKED = re.compile(r"(?:  )?(?:(?:pub|abbrev|unfoldable|record|data) )+([^\s:(]+)")
PLAIN = re.compile(r"([^\s:(]+) : ")
TYPE = re.compile(r" *(?:pub )?(?:record|data) ")
# a field of a record, or a constructor
MEMBER = re.compile(r" +(?:pub )?([^\s:(]+) : ")
WORD = re.compile(r"[^\s(){}\[\],.;:λ→∷×≡]+")


def imports(text):
    """From each imported name to its place: the crate, the file and the name there."""
    found = {}
    for crate, file, names in IMPORT.findall(text):
        for name in names.split(","):
            there, _, here = name.strip().partition(" as ")
            found[here or there] = (crate, file, there)
    return found


class Definitions:
    """All definitions, each by its place, with its lines. A constructor or a field leads to its type."""

    def __init__(self):
        self.lines, self.members, self.imports = {}, {}, {}
        for path in sorted(CRATES.glob("*/specs/*.antt")):
            if path.stem != "Lib":
                self.read(path)

    def read(self, path):
        crate, file, place = path.relative_to(CRATES).parts[0], path.stem, None
        text = path.read_text()
        self.imports[crate, file] = imports(text)
        for line in text.splitlines():
            if not line.strip() or line.lstrip().startswith("--"):
                continue
            if line.startswith(("use ", "module ")):
                place = None
                continue
            member = place and TYPE.match(self.lines[place][0]) and MEMBER.match(line)
            if member:
                self.members[crate, file, member[1]] = place
            elif begin := MARKED.match(line) or PLAIN.match(line):
                place = (crate, file, begin[1])
                self.lines.setdefault(place, [])
            if place:
                self.lines[place].append(line)

    def place_of(self, crate, file, word):
        for place in ((crate, file, word), self.imports[crate, file].get(word)):
            if place in self.lines:
                return place
            if place in self.members:
                return self.members[place]
        return None

    def behind(self, places):
        seen, todo = set(), list(places)
        while todo:
            place = todo.pop()
            if place in seen:
                continue
            seen.add(place)
            for line in self.lines[place]:
                for word in WORD.findall(line.split(" -- ")[0]):
                    if found := self.place_of(place[0], place[1], word):
                        todo.append(found)
        return seen


def contract_of(path, head):
    """What stands between the call's head and its body, or its end in a trait."""
    text = path.read_text()
    if head not in text:
        sys.exit(f"count_definitions: {path.name} has no `{head}`")
    behind = text[text.index(head) :]
    end = re.search(r"\n *\{\n|;\n", behind)
    return imports(text), behind[: end.start() if end else len(behind)]


def main(words):
    if len(words) not in (2, 3) or words[2:] not in ([], ["names"]):
        sys.exit("usage: scripts/count_definitions CRATE/src/FILE.rt 'fn NAME' [names]")
    definitions = Definitions()
    imported, contract = contract_of(CRATES / words[0], words[1])
    start = set()
    for word in WORD.findall(contract):
        place = imported.get(word)
        place = place if place in definitions.lines else definitions.members.get(place)
        if place:
            start.add(place)
    found = definitions.behind(start)
    lines = Counter()
    for place in found:
        lines[place[0]] += len(definitions.lines[place])
    files = {place[:2] for place in found}
    print(f"{len(found)} names, {sum(lines.values())} lines, {len(files)} files")
    names = Counter(place[0] for place in found)
    for crate in sorted(names, key=lambda crate: (-names[crate], crate)):
        print(f"  {crate}: {names[crate]} names, {lines[crate]} lines")
    if words[2:]:
        for crate, file, name in sorted(found):
            print(f"{crate}/specs/{file}.antt: {name}")


main(sys.argv[1:])
