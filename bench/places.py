#!/usr/bin/env python3
"""Opens each place that `explain --places` tells of packages.

    places.py PROGRAM [--base FILE] FOLDER..      the built program, and folders of packages

Of each scenario the places have to be those at which outcomes of the JSON report ended: of an undecided one the site
of its result, of a failed one the last act of the first script call that failed, by the table of steps in the manual
page. Lines and columns are counted here: each has to be there, with a character in it, and as many outcomes have to
come to it. Prints a line for each folder, and ends with 1 where one is WRONG.
"""
import collections
import json
import pathlib
import re
import subprocess
import sys

TOP = pathlib.Path(__file__).resolve().parent.parent
SCENARIOS = "install install-again upgrade remove purge purge-later".split()
STEP = re.compile(r" ?(\d+) (old|new) (\w+) (\S.*?)(?:  .*)?$")
PLACE = re.compile(rb"(.*?)(?::(\d+):(\d+)|: [^:]*)?: (error|note): .*\b(\d+) outcomes?\)$")


def steps():
    """Of each scenario: its steps, each with its number, the package, the script and the words of its call."""
    page = (TOP / "docs" / "colis.1").read_text()
    block = re.search(r"^\.Sh STEPS\n.*?^\.Bd -literal\n(.*?)^\.Ed", page, re.M | re.S).group(1)
    table = collections.defaultdict(list)
    for line in block.split("\n"):
        step = STEP.match(line)
        if step:
            table[name].append((int(step[1]), step[2], step[3], step[4].split()))
        elif re.match("[a-z]", line):
            name = line
    return table


def said_so(words, said):
    """The words of a step are those of a call: OLD, NEW and NAME are any, and an empty word is written `\\e`."""
    return len(words) == len(said) and all(
        said_one == (r"\e" if word == '""' else word) or word in ("OLD", "NEW", "NAME") and said_one != r"\e"
        for word, said_one in zip(words, said))


def site(table, outcome):
    """Where an outcome ended that is not done: a step and a place in it; None where a failed run has no act."""
    words = outcome["result"].split()
    if words[0] != "failed":
        return tuple(map(int, words[-1].split(":")))
    marks = [tuple(map(int, mark.split(":"))) for mark in outcome["trace"].split()]
    for call in outcome["calls"]:
        side, script, *said, end = call.removeprefix("call ").split()
        if end == "failed":
            made = [step[0] for step in table if step[1:3] == (side, script) and said_so(step[3], said)]
            marks = [mark for mark in marks if mark[0] in made]
            break
    return marks[-1][:2] if marks else None


def place(folder, table, at):
    """The file, line and column of a site in a script; else nothing."""
    script = next((step[2] for step in table if at and step[0] == at[0]), None)
    if script is None:
        return None
    text = (folder / script).read_bytes()
    assert at[1] < len(text), f"{script} has no byte {at[1]}"
    before = text[:at[1]].split(b"\n")
    line = text.split(b"\n")[len(before) - 1]
    column = 1 + len(before[-1].decode(errors="surrogateescape"))
    assert column <= len(line.decode(errors="surrogateescape")), f"{script}: no column {column} in line {len(before)}"
    return script.encode(), len(before), column


def program(*words):
    return subprocess.run([PROGRAM, *words], capture_output=True)


def looked(folder):
    """How many places are told of a package, each of which is right."""
    told = 0
    for scenario in SCENARIOS:
        report = program("check", str(folder), "--scenario", scenario, "--json", *BASE).stdout
        if not report:
            continue
        wanted = collections.Counter()
        for outcome in json.loads(report)["scenarios"][0]["outcomes"]:
            if not outcome["result"].startswith("done"):
                kind = b"error" if outcome["result"].startswith("failed") else b"note"
                wanted[kind, place(folder, TABLE[scenario], site(TABLE[scenario], outcome))] += 1
        found = collections.Counter()
        text = program("explain", str(folder), "--scenario", scenario, "--places", *BASE).stdout
        for line in text.split(b"\n")[:-1]:
            name, row, column, kind, count = PLACE.match(line).groups()
            where = (name.split(b"/")[-1], int(row), int(column)) if row else None
            found[kind, where] += int(count)
            told += 1
        assert found == wanted, f"{scenario}: {found - wanted} and not {wanted - found}"
    return told


def each(name, look):
    """Says of each folder what is seen, or what is wrong; the status is 1 where something is."""
    status = 0
    for folder in map(pathlib.Path, FOLDERS):
        try:
            print(f"ok {folder.name}: {look(folder)} {name}", flush=True)
        except (AssertionError, AttributeError, KeyError) as fault:
            print(f"WRONG {folder.name}: {fault!r}", flush=True)
            status = 1
    sys.exit(status)


PROGRAM, TABLE = sys.argv[1], steps()
BASE = sys.argv[2:4] if sys.argv[2] == "--base" else []
FOLDERS = sys.argv[2 + len(BASE):]
if __name__ == "__main__":
    each("places", looked)
