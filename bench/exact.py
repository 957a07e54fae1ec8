#!/usr/bin/env python3
"""Tries the facts that `explain` tells, by trees and by `predict`, which knows the outcome of each.

    exact.py PROGRAM [--base FILE] FOLDER..       the built program, and folders of packages

Of each scenario trees are made: those that the outcomes show, and each of them with something else at one or two of
the places that the facts name, or in them. Of a tree that is covered by an outcome the facts of one group have to hold,
which ends as that outcome does, and those of no other group of which the text says that it tells exactly. The facts are
read here as a reader does, and looked up in the tree. Prints a line for each folder, with how many of its reports have
outcomes that are not done, how many of their groups say that they tell exactly, how many trees were shown and how many
more were made, and ends with 1 where one is WRONG.
"""
import collections
import itertools
import json
import random
import re
import tempfile

import places

LETTERS = {"d": "directory", "f": "file", "l": "link", "p": "pipe", "s": "socket", "b": "block", "c": "character"}
KINDS = {"missing", *LETTERS.values()}
HEAD = re.compile(rb"(?:\S*/(\w+):(\d+):(\d+)|\S+?(?:: [^:]*)?): (failure|undecided|ends well)\b")
KIND_OF = {"failed": "failure", "incomplete": "undecided", "bound": "undecided", "done": "ends well"}


def kinds(words):
    """The kinds that words behind `is` allow."""
    if words in ("there", "anything, or missing"):
        return KINDS - ({"missing"} if words == "there" else set())
    there, none = words.removeprefix("there, and "), words.removeprefix("there, and ").startswith("no ")
    named = set()
    for noun in re.split(r",? or |, ", there.removeprefix("no ")):
        noun = noun.removeprefix("a ").removesuffix(" device")
        named |= {"block", "character"} if noun == "device" else {noun}
    assert named <= KINDS, words
    return (KINDS - named if none else named) - ({"missing"} if there != words else set())


def spread(path):
    """The paths of one with braces."""
    parts = [part.split(",") for part in re.split(r"[{}]", path)]
    return ["".join(each) for each in itertools.product(*parts)]


def fact(line):
    """A fact on places: the places, and what has to hold of what stands there."""
    path, verb, words = line.split(" ", 2) if line.count(" ") > 1 else (*line.split(" "), "")
    if verb == "has":
        more = words.startswith("an entry")
        names = set(words.split(" ")[3:])
        return spread(path), lambda tree, at: bool({name for name in tree.names(at)} - names) == more
    target = words.removeprefix("a link to ")
    if target != words:
        return spread(path), lambda tree, at: tree.at.get(at) == "l " + target
    allowed = kinds(words)
    return spread(path), lambda tree, at: tree.kind(at) in allowed


class Tree:
    """What stands at the shown paths of a tree: the letter of a line, and the target of a link."""

    def __init__(self, lines):
        self.at = {}
        for line in lines:
            letter, path, *target = line.split(" ")
            self.at[path] = " ".join([letter, *target])

    def kind(self, path):
        return LETTERS[self.at[path][0]] if path in self.at else "directory" if path == "/" else "missing"

    def names(self, path):
        below = path.rstrip("/") + "/"
        return {p[len(below):] for p in self.at if p.startswith(below) and "/" not in p[len(below):]}

    def put(self, path, letter):
        """The tree with something else at a path, and directories on the way."""
        tree = Tree([])
        tree.at = {p: what for p, what in self.at.items() if p != path and not p.startswith(path + "/")}
        if letter:
            for end in [i for i, c in enumerate(path) if c == "/"][1:]:
                if not tree.at.get(path[:end], "d").startswith("d"):
                    return self
                tree.at[path[:end]] = "d"
            tree.at[path] = letter
        return tree

    def lines(self):
        return [f"{what[0]} {path}{what[1:]}" for path, what in sorted(self.at.items(), key=lambda e: e[0].split("/"))]


class Group:
    def __init__(self, end, place):
        self.end, self.exact, self.everywhere, self.boxes = (end, place), False, False, [[]]

    def holds(self, tree):
        return self.everywhere or any(all(holds(tree, at) for ats, holds in box for at in ats) for box in self.boxes)


def groups(text):
    """The groups that a text tells, with the boxes of facts of each."""
    found = []
    for line in text.split(b"\n"):
        head, same = HEAD.match(line), re.match(rb"  The same at (?:(\d+):(\d+)|act \d+) ", line)
        said = line.decode(errors="replace")
        if head:
            found.append(Group(head[4].decode(), head[2] and (head[1], int(head[2]), int(head[3]))))
        elif same:
            end, place = found[-1].end
            found.append(Group(end, place and (place[0], int(same[1]), int(same[2]))))
        elif said == "  On every system that meets the premises.":
            found[-1].exact = found[-1].everywhere = True
        elif said.startswith("  On exactly these systems"):
            found[-1].exact = True
        elif said == "    or":
            found[-1].boxes.append([])
        elif re.match(r"      /\S* (is|has) ", said):
            found[-1].boxes[-1].append(fact(said.strip()))
    return found


def trees(shown, at):
    """The shown trees, and changes of the first of them at and in these places."""
    yield from shown
    for tree in shown[:20]:
        for path in at:
            for letter in ("", "d", "f", "l x", "p"):
                yield tree.put(path, letter)
            yield tree.put(path.rstrip("/") + "/other", "f")
        for turn in range(4 * len(at)):
            some = tree
            for path in RANDOM.sample(sorted(at), min(2, len(at))):
                some = some.put(path + RANDOM.choice(("", "", "/other")), RANDOM.choice(("", "d", "f", "l x", "s")))
            yield some


def looked(folder):
    """What was tried."""
    count = collections.Counter()
    for scenario in places.SCENARIOS:
        report = places.program("check", str(folder), "--scenario", scenario, "--json", *places.BASE).stdout
        if not report:
            continue
        outcomes = json.loads(report)["scenarios"][0]["outcomes"]
        told = groups(places.program("explain", str(folder), "--scenario", scenario, *places.BASE).stdout)
        ends = {}
        for outcome in outcomes:
            where = places.site(places.TABLE[scenario], outcome) if not outcome["result"].startswith("done") else None
            ends[outcome["number"]] = (KIND_OF[outcome["result"].split()[0]],
                                       places.place(folder, places.TABLE[scenario], where))
        at = {path for group in told for box in group.boxes for ats, holds in box for path in ats}
        if any(group.end[0] != "ends well" for group in told):
            count["reports"] += 1
            count["groups"] += len(told)
            count["exactly"] += sum(group.exact for group in told)
        some = list(trees([Tree(outcome["shown"]) for outcome in outcomes], at))[:MOST + len(outcomes)]
        with tempfile.NamedTemporaryFile("w") as one, tempfile.NamedTemporaryFile("w") as other:
            one.write(report.decode())
            other.write("".join(f"tree {i}\n" + "".join(line + "\n" for line in tree.lines())
                                for i, tree in enumerate(some)))
            one.flush(), other.flush()
            picks = places.program("predict", one.name, other.name)
        assert picks.returncode <= 2, picks.stderr
        for line in picks.stdout.decode().split("\n"):
            pick = re.match(r"(\d+) outcome (\d+) ", line)
            if not pick:
                continue
            tree, end = some[int(pick[1])], ends[int(pick[2])]
            mine = [group for group in told if group.end == end and group.holds(tree)]
            others = [group for group in told if group.end != end and group.exact and group.holds(tree)]
            assert mine and not others, f"{scenario}, outcome {pick[2]} ({end}), {tree.lines()}: {len(mine)} groups, " \
                f"and {[group.end for group in others]}"
            assert len([group for group in mine if group.exact]) <= 1, f"{scenario}: two groups, {tree.lines()}"
            count["shown" if int(pick[1]) < len(outcomes) else "made"] += 1
    return ", ".join(f"{count[name]} {name}" for name in ("reports", "groups", "exactly", "shown", "made"))


RANDOM, MOST = random.Random(1), 3000
if __name__ == "__main__":
    places.each("trees", looked)
