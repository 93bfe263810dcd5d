"""The names of specs/ and proofs/ that nothing cites: definitions and lemmas that are there for nothing.

Use `scripts/check_dead`, which calls this. A name is cited where another declaration of its file has it as a word, or where a
file that imports it does, a source file among them (in a clause, an attribute or a ghost item). What is cited by a dead name
alone is dead too. The files in a folder of proofs/ answer goals that a check names, so nothing has to cite what they declare.
"""

import re
import sys
from collections import defaultdict
from pathlib import Path

CRATES = Path(__file__).resolve().parent.parent / "crates"
WORD = re.compile(r"[^\s(){}\[\],.;:λ→∷×≡∙\"`|]+")
# A declaration begins at the left, or two spaces further in than its module, with its words before the name; a clause of it begins
# with the name again.
DECLARED = re.compile(r"(?:(?:pub|abbrev|unfoldable|record|data|ruleset) )*([^\s:(]+)")
MODULE = re.compile(r"module .*where$")
IMPORT = re.compile(r"Rattle\.(\w+)\.(specs|proofs)\.(\w+)(?:\.\{([^}]*)\})?(?: as (\w+))?")
# what a file says beside its declarations
OUTSIDE = ("use ", "pub mod ", "mod ", "ghost use ", "module ", "unfolding ", "infix")
ATTRIBUTE = re.compile(r"crate::(specs|proofs)::(\w+)::([^\s,)]+)")


class File:
    """A file: the lines of each declaration, and where the names that it imports come from."""

    def __init__(self, path):
        crate, part = path.relative_to(CRATES).parts[:2]
        self.path, self.place = path, (crate, part, path.stem)
        self.can_be_dead = part in ("specs", "proofs") and len(path.relative_to(CRATES).parts) == 3 and path.stem != "Lib"
        self.imports, self.modules, self.words = {}, {}, defaultdict(set)
        self.lines, self.attributes = {}, set()
        name, indents = None, [0]
        for number, line in enumerate(path.read_text().splitlines(), 1):
            line = line.split(" -- ")[0] if path.suffix == ".antt" else line.split("// ")[0]
            if not line.strip() or line.lstrip().startswith("--"):
                continue
            if IMPORT.search(line) and line.lstrip().startswith(OUTSIDE):
                self.note_imports(line)
                continue
            if path.suffix == ".antt":
                text = line.lstrip()
                lead = len(line) - len(text)
                while lead < indents[-1]:
                    indents.pop()
                if MODULE.match(text):
                    indents.append(lead + 2)
                    name = None
                elif lead == indents[-1] and text.startswith(OUTSIDE):
                    name = None
                elif lead == indents[-1] and text[0] not in ")]}" and (found := DECLARED.match(text)):
                    name = found[1]
                    self.lines.setdefault(name, number)
            for crate_of, part_of, file, _, _ in IMPORT.findall(line):
                self.modules[(crate_of, part_of, file)] = file
            words = WORD.findall(line)
            self.words[name].update(words)
            self.words[name].update(f"◌{word}◌" for word in words)
            self.attributes.update((crate, part, file, word) for part, file, word in ATTRIBUTE.findall(line))

    def note_imports(self, line):
        for crate, part, file, names, alias in IMPORT.findall(line):
            place = (crate, part, file)
            if not names:
                self.modules[place] = alias or file
            for word in filter(None, (it.strip() for it in names.split(","))):
                there, _, here = word.partition(" as ")
                self.imports[here or there] = (*place, there)

    def cited(self):
        """From each declaration, or None for a source file, to the names that it cites."""
        for name, words in self.words.items():
            found = {self.imports[word] for word in words if word in self.imports}
            found |= {(*self.place, word) for word in words if word in self.lines and word != name}
            # a name behind its module's
            found |= {(*place, word) for place in self.modules for word in words}
            yield name, found
        yield None, self.attributes


def dead_names(files):
    declared = {(*file.place, name): f"{file.path.relative_to(CRATES.parent)}:{line}" for file in files if file.can_be_dead for name, line in file.lines.items()}
    cites = {}
    for file in files:
        for name, found in file.cited():
            key = (*file.place, name) if file.can_be_dead and name else (file.path, name)
            cites.setdefault(key, set()).update(found)
    alive, todo = set(), [key for key in cites if key not in declared]
    while todo:
        for found in cites.get(todo.pop(), ()):
            if found in declared and found not in alive:
                alive.add(found)
                todo.append(found)
    return len(declared), {key: place for key, place in declared.items() if key not in alive}


def main():
    paths = [path for path in CRATES.rglob("*") if path.suffix in (".antt", ".rt") and "out" not in path.relative_to(CRATES).parts]
    count, dead = dead_names([File(path) for path in sorted(paths)])
    if not count:
        print("check_dead: there are no names to look at")
        return 1
    for key, place in sorted(dead.items(), key=lambda it: it[1]):
        print(f"check_dead: {place}: nothing cites {key[3]}")
    if not dead:
        print(f"check_dead: {count} names")
    return 1 if dead else 0


sys.exit(main())
