"""The configuration: the definitions that the contracts cite, the source, the page and the examples, compared.

Use `scripts/check_config`, which calls this.
"""

import re
import sys
from pathlib import Path
from typing import NamedTuple

TOP = Path(__file__).resolve().parent.parent
CONFIG = TOP / "crates" / "proxy_config"
MEANT = CONFIG / "specs" / "Meant.antt"
REFUSALS = CONFIG / "specs" / "Refusals.antt"
CLUSTER = CONFIG / "src" / "cluster.rt"
READING = CONFIG / "src" / "reading.rt"
PLAN_REFUSALS = TOP / "crates" / "virtual_cluster" / "specs" / "Refusals.antt"
COMMANDS = TOP / "crates" / "config_answers" / "specs" / "ConfigAnswers.antt"
CLUSTERS = TOP / "crates" / "config_answers" / "specs" / "ClusterAnswers.antt"
PAGE = TOP / "docs" / "CONFIG.md"
EXAMPLES = TOP / "examples" / "config"
CLUSTER_EXAMPLES = TOP / "examples" / "filters"
LARGE = "too-long"  # its example is made by `scripts/program.py`
NO_CLUSTER = "no-cluster"  # `replay` alone tells it

# The type that a key has, by the reader of its value.
TYPES = {
    "version_in": "integer",
    "tables_in": "array of tables",
    "text_value": "string",
    "some_text_in": "string",
    "natural_in": "integer",
    "int32_value": "integer",
    "address_in": "string",
    "addresses_in": "array of strings",
    "texts_in": "array of strings",
    "filters_in": "array of strings",
}
DEFAULTS = {"None": "none", "[]": "none"}


class Key(NamedTuple):
    name: str
    type: str
    default: str


class Unreadable(Exception):
    pass


def needed(found, what):
    if not found:
        raise Unreadable(f"{what} is not found")
    return found


# The definitions: a line for each key, and one for each refusal.


def defined_keys():
    for left, right in re.findall(r"^ *given_\w+(?: t)? = (.*?) \(key_place (.*?)\) t$", MEANT.read_text(), re.M):
        words = left.split()
        name = needed(re.search(r'codes "(\w+)"', right), f"{MEANT}: the key of {left}").group(1)
        default = "required" if words[0] == "required" else DEFAULTS.get(words[1], words[1])
        reader = words[1 if words[0] == "required" else 2].strip("(")
        yield Key(name, TYPES[reader], default)


def checked_keys():
    """The keys in the order in which the definition looks for faults: of a cluster, and then of the file."""
    return re.findall(r"result_err \(?given_(\w+)", MEANT.read_text())


def listed_keys():
    text = MEANT.read_text()
    cluster = needed(re.search(r"^cluster_keys =\n(.*?)\n\n", text, re.S | re.M), f"{MEANT}: cluster_keys").group(1)
    file = needed(re.search(r"^keys_of None = (.*)$", text, re.M), f"{MEANT}: keys_of None").group(1)
    return re.findall(r'codes "(\w+)"', file), re.findall(r'codes "(\w+)"', cluster)


def source_keys():
    return [
        key
        for source in (READING, CLUSTER)
        for key in re.findall(r'keys::\w+\((?:[^()]|\n)*?"(\w+)"', source.read_text())
    ]


def refusals():
    for name, file in (("config_fault_text", REFUSALS), ("plan_fault_text", PLAN_REFUSALS)):
        for left, right in re.findall(rf"^{name} (.*?) = (.*)$", file.read_text(), re.M):
            fault, *fields = left.strip("()").split()
            if fault in ("NoMemory", "Plan"):
                continue
            word = needed(re.search(r'codes "([^"]*)"', right), f"{file}: the word of {fault}").group(1).strip()
            yield " ".join([word] + [{"p": "WHERE", "key": "KEY"}.get(field, field.upper()) for field in fields])
    if 'codes "too-long"' in COMMANDS.read_text():
        yield LARGE
    if f'codes "{NO_CLUSTER}"' in CLUSTERS.read_text():
        yield NO_CLUSTER


# The page: its tables, by their heads.


def tables():
    rows, head = [], None
    for line in PAGE.read_text().splitlines() + [""]:
        if line.startswith("|"):
            cells = [cell.strip() for cell in line.strip("|").split("|")]
            if head is None:
                head = cells
            elif not set(cells[0]) <= {"-"}:
                rows.append(cells)
        elif head is not None:
            yield head[0], rows
            rows, head = [], None


def page_keys():
    for head, rows in tables():
        if head == "Key":
            for name, type, default, limits, example in rows:
                yield Key(name.strip("`"), type, default), limits, example.strip("`")


def page_refusals():
    for head, rows in tables():
        if head == "Text" and len(rows[0]) == 4:
            for text, where, _, mend in rows:
                if not where or not mend:
                    raise Unreadable(f"{PAGE}: {text} lacks where it comes or what to do")
                yield text.strip("`")


# The examples: one for each refusal, named by its word.


def lacking_examples(texts):
    for word in {text.split()[0]: None for text in texts}:
        example = CLUSTER_EXAMPLES / f"{word}.out" if word == NO_CLUSTER else EXAMPLES / f"{word}.check"
        if word != LARGE and not (example.is_file() and example.read_text().startswith(f"refused {word}")):
            yield f"{example.parent.name}: there is no example {word} that is refused for it"


def differences():
    keys, page = list(defined_keys()), list(page_keys())
    defined = {key.name: key for key in keys}
    file, cluster = listed_keys()
    order = file + cluster
    if [key.name for key, _, _ in page] != order:
        yield f"{PAGE.name}: the keys, or their order, are not {' '.join(order)}"
    if source_keys() != order:
        yield f"src: the keys are read in the order {' '.join(source_keys())}, and not {' '.join(order)}"
    if checked_keys() != cluster + ["version", "tables"]:
        yield f"{MEANT.name}: the checks are in the order {' '.join(checked_keys())}"
    for key, limits, example in page:
        if defined.get(key.name) != key:
            yield f"{PAGE.name}: {key.name} is {key}, and {defined.get(key.name)} in {MEANT.name}"
        if not limits or key.name not in example:
            yield f"{PAGE.name}: {key.name} lacks its limits or its example"
    texts, said = list(refusals()), list(page_refusals())
    if texts != said:
        yield f"{PAGE.name}: the refusals are {said}, and {texts} in the definitions"
    yield from lacking_examples(texts)


def main():
    try:
        found = list(differences())
    except (OSError, Unreadable) as fault:
        found = [str(fault)]
    for line in found:
        print(f"check_config: {line}")
    return 1 if found else 0


sys.exit(main())
