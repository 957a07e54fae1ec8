#!/usr/bin/env python3
"""Says of which packages this machine is a start tree of `remove` under a base, by docs/FORMATS.md alone and not by the
program: what the base states stands there, the package's files are in place, and its folders hold no foreign entry
where the base says `own`. What `plain` asks is left out.

    bench/start_trees.py BASE FOLDER ..

A FOLDER is one that `colis-unpack --installed` made. It prints a line for each line of the base that does not hold, and
for each package that has no start tree, with the reasons; packages whose one reason are folders with `__pycache__` as
the one foreign entry (py3clean, a stated call, takes it away before) are counted apart.
"""
import os
import stat
import sys

KINDS = {"dir": {"dir"}, "file": {"reg"}, "absent": {"absent"}, "nodir": {"absent", "reg", "link", "special"}}


def kind(path):
    """The kind of what stands at a path; no link is followed on the way."""
    here, names, mode = "", [name for name in path.split("/") if name], os.lstat("/").st_mode
    for place, name in enumerate(names):
        here += "/" + name
        try:
            mode = os.lstat(here).st_mode
        except OSError:
            return "absent"
        if place < len(names) - 1 and not stat.S_ISDIR(mode):
            return "absent"
    for test, word in ((stat.S_ISDIR, "dir"), (stat.S_ISREG, "reg"), (stat.S_ISLNK, "link")):
        if test(mode):
            return word
    return "special"


def above(path):
    """The folders on the way to a path."""
    names = path.strip("/").split("/")
    return ["/" + "/".join(names[:count]) for count in range(1, len(names))]


class Base:
    """What a base says of a start tree of `remove`."""

    def __init__(self, file):
        self.known, self.links, self.own = [], [], []
        for line in open(file, errors="surrogateescape"):
            word, _, rest = line.rstrip("\n").partition(" ")
            if word in KINDS:
                self.known.append((word, rest))
            elif word == "link":
                self.links.append(tuple(rest.split(" ", 1)))
            elif word == "own":
                self.own.append(rest)
        self.at = dict(reversed(self.links))
        self.folders = set()
        for path in [path for word, path in self.known if word == "dir"] + self.ends():
            self.folders.update(above(path) + [path])

    def ends(self):
        """Where the links lead."""
        return [end for end in (self.reach(path, True) for path, _ in self.links) if end]

    def reach(self, path, last):
        """Where a path leads along the links, its last name too where that is said; None where it is blocked."""
        names = [name for name in path.split("/") if name]
        for _ in range(9):
            for count in range(1, len(names) + (1 if last else 0)):
                target = self.at.get("/" + "/".join(names[:count]))
                if target is not None:
                    start = [] if target.startswith("/") else names[: count - 1]
                    names = start + [name for name in target.split("/") if name] + names[count:]
                    break
            else:
                return "/" + "/".join(names)
        return None

    def faults(self):
        """The lines that do not hold here."""
        for word, path in self.known:
            if kind(path) not in KINDS[word]:
                yield f"{word} {path}: {kind(path)}"
        for path, target in self.links:
            end = self.reach(path, True)
            if kind(path) != "link" or os.readlink(path) != target or not end or kind(end) != "dir":
                yield f"link {path} {target}: {kind(path)}"

    def speaks_of(self, path):
        """Whether an `own` line speaks of a folder."""
        return any(own == "" or path == own or path.startswith(own + "/") for own in self.own)


def entries(folder):
    """The paths that a package lists, each with whether it is a folder."""
    found = {}
    for line in open(folder + "/list", errors="surrogateescape"):
        path = line.rstrip("\n")
        if path != "/.":
            link = " -> " in path
            path = path.split(" -> ", 1)[0]
            found[path.rstrip("/")] = path.endswith("/") and not link
    for path in [way for path in found for way in above(path)]:
        if path in found:
            found[path] = True
    return found


def reasons(base, folder):
    """Why this machine is no start tree, each with whether a `__pycache__` is all."""
    found, below = entries(folder), {}
    for path in found:
        names = (base.reach(path, False) or "").strip("/").split("/")
        for count, name in enumerate(names):
            below.setdefault("/" + "/".join(names[:count]) if count else "", set()).add(name)
    for path, is_folder in found.items():
        place = base.reach(path, is_folder)
        if place is None or (kind(place) == "dir") != is_folder:
            yield f"{path}: {kind(place) if place else 'blocked'}", False
        elif is_folder and base.speaks_of(path) and place not in base.folders:
            foreign = set(os.listdir(place)) - below.get(place, set())
            if foreign:
                yield f"{path}: {' '.join(sorted(foreign)[:4])}", foreign == {"__pycache__"}


def main():
    base = Base(sys.argv[1])
    for fault in base.faults():
        print("base:", fault)
    start, cache = 0, 0
    for folder in sys.argv[2:]:
        why = list(reasons(base, folder))
        start += not why
        cache += bool(why) and all(only for _, only in why)
        if not all(only for _, only in why):
            print(os.path.basename(folder) + ":", "; ".join(reason for reason, only in why if not only))
    print(f"{len(sys.argv) - 2} packages: a start tree of {start}, and of {cache} but for __pycache__")


main()
