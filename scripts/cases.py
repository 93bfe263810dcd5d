"""Runs configurations and bad lines that stand many in a file, and compares what the built program writes.

Use `scripts/check_cases`, which calls this.

A file of configurations, `examples/config/NAME.cases`, has

    text NAME          a configuration by its name: the lines up to the next empty one
    of NAME            the lines behind it are cases of one change of that text:
    KEY = VALUE > LINE     this line in place of that key's (at the end where it has none)
    -KEY > LINE            an empty line in place of that key's
    > LINE                 no change
    case of NAME       a case of more changes, a line each: `-TEXT` takes the next such line out, `+TEXT` puts one there,
                       and `$` goes on at the end. `case` alone begins with nothing: a text without a last byte 10
    > LINE             what `check` writes, in a case of more changes. Where it is refused, `plan` writes the same
    plan> LINE         what `plan` writes
    replay NAME> LINE  what `replay` over that cluster writes of the empty script; nothing, where no line is given

A file of lines, `examples/replay/NAME.lines`, has bad lines of scripts. Each, alone in a script, is answered `bad line 1`.

In both, `{12*TEXT}` is TEXT twelve times, `{x:ff}` is that byte, and a line that begins with `# ` tells what follows.
"""

import re
import subprocess
import sys
import tempfile
from concurrent.futures import ThreadPoolExecutor
from os import cpu_count
from pathlib import Path
from typing import NamedTuple

from running import TOP, program, shown, status_text

NOTATION = re.compile(rb"\{(?:(\d+)\*([^}]*)|x:([0-9a-f]{2}))\}")


class Run(NamedTuple):
    place: str  # the file, and the line
    words: tuple
    text: bytes  # of the configuration, or of the script
    wanted: bytes
    status: int


def spelled(line):
    def part(found):
        times, text, byte = found.groups()
        return bytes.fromhex(byte.decode()) if byte else text * int(times)

    return NOTATION.sub(part, line)


def key_of(line):
    return line.split(b" =")[0]


def with_one_change(base, line):
    """The base with this line in place of its key's, or behind all."""
    key, put = (line[1:], b"") if line.startswith(b"-") else (key_of(line), line)
    lines = list(base)
    if not line:
        return lines
    places = [place for place, old in enumerate(base) if key_of(old) == key]
    if len(places) > 1:
        sys.exit(f"{line.decode()}: two lines have this key")
    if places:
        lines[places[0]] = put
    else:
        lines.append(put)
    return lines


def with_changes(base, changes):
    lines, place = list(base), len(base)
    begun = False
    for change in changes:
        sign, text = change[:1], change[1:]
        if sign == b"-":
            place = lines.index(text, place if begun else 0)
            del lines[place]
            begun = True
        elif sign == b"$":
            place = len(lines)
        else:
            lines.insert(place, text)
            place += 1
    return lines


def runs_of(place, text, check, plan, replays):
    """The runs of one configuration, by the lines that they write."""

    def one(words, lines):
        written = b"".join(line + b"\n" for line in lines)
        return Run(place, words, text, written, 1 if written.startswith(b"refused ") else 0)

    refused = check[0].startswith(b"refused ")
    yield one(("check",), check)
    if refused or plan:
        yield one(("plan",), check if refused else plan)
    for name, lines in replays.items():
        yield one(("replay", name), [line for line in lines if line])


def case_runs(place, base, lines):
    """The runs of a case of more changes."""
    changes, check, plan, replays = [], [], [], {}
    for line in lines:
        told = re.match(rb"(plan|replay (.*?)|)> ?(.*)$", line, re.S)
        if not told:
            changes.append(spelled(line))
        elif told[1] == b"":
            check.append(spelled(told[3]))
        elif told[1] == b"plan":
            plan.append(spelled(told[3]))
        else:
            replays.setdefault(told[2].decode(), []).append(spelled(told[3]))
    text = b"\n".join(with_changes(base or [], changes))
    yield from runs_of(place, text + (b"\n" if base else b""), check, plan, replays)


def config_runs(path):
    texts, of, block, lines = {}, None, None, []
    name = str(path.relative_to(TOP))
    numbered = list(enumerate(path.read_bytes().split(b"\n")[:-1], 1))
    for number, line in [*numbered, (0, b"")]:
        word, _, rest = line.partition(b" ")
        if block and (line == b"" or word in (b"case", b"of", b"text")):
            yield from case_runs(f"{name}:{block[0]}", block[1], lines)
            block = None
        if block:
            lines.append(line)
        elif word == b"text":
            of = texts[rest] = []
            is_text = True
        elif word == b"of":
            of, is_text = texts[rest], False
        elif word == b"case":
            block, lines = (number, texts[rest[3:]] if rest else None), []
        elif line == b"":
            is_text = False
        elif of is not None and is_text:
            of.append(line)
        elif not line.startswith(b"# "):
            change, _, said = line.rpartition(b"> ")
            text = b"\n".join(with_one_change(of, spelled(change.removesuffix(b" ")))) + b"\n"
            yield from runs_of(f"{name}:{number}", text, [spelled(said)], [], {})


def line_runs(path):
    for number, line in enumerate(path.read_bytes().split(b"\n")[:-1], 1):
        if line.startswith(b"# "):
            continue
        place = f"{path.relative_to(TOP)}:{number}"
        yield Run(place, (), spelled(line) + b"\n", b"bad line 1\n", 1)


def difference(path, run):
    """A line that says how what is written differs, or none."""
    with tempfile.NamedTemporaryFile(suffix=".toml") as file:
        words, script = ["replay"], run.text
        if run.words:
            file.write(run.text)
            file.flush()
            words, script = [run.words[0], file.name, *run.words[1:]], b""
        done = subprocess.run([path, *words], input=script, capture_output=True)
    if (done.returncode, done.stdout) == (run.status, run.wanted):
        return None
    what = " ".join(run.words) or "replay"
    came = f"{status_text(done.returncode)}, {shown(done.stdout)}"
    return f"{run.place}: {what}: wanted status {run.status}, {shown(run.wanted)}, came {came}"


def main():
    path = program(False)
    runs = [run for file in sorted(TOP.glob("examples/*/*.cases")) for run in config_runs(file)]
    runs += [run for file in sorted(TOP.glob("examples/*/*.lines")) for run in line_runs(file)]
    with ThreadPoolExecutor(cpu_count()) as pool:
        failed = [line for line in pool.map(lambda run: difference(path, run), runs) if line]
    for line in failed:
        print(line)
    print(f"{len(runs) - len(failed)} passed, {len(failed)} failed")
    sys.exit(1 if failed or not runs else 0)


if __name__ == "__main__":
    main()
