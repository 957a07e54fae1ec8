#!/usr/bin/env python3
"""Makes the tables of docs/DEFINITIONS.md: which words of specs/ the clauses of public calls name, and which of the
words that pages name these are made of (of words with a capital or a `_`). The first lines of the page stay."""

import pathlib
import re
import textwrap

TOP = pathlib.Path(__file__).resolve().parent.parent
PAGE = TOP / "docs" / "DEFINITIONS.md"
WORD = r"[A-Za-z_][A-Za-z_0-9'-]*"
DEFINED = re.compile(rf"^ *(?:abbrev |unfoldable |opaque )?pub (?:record |data )?({WORD})(?! *: *.*\b=)")
IMPORT = re.compile(r"use Rattle\.([a-z_]+)\.specs\.([A-Za-z_.]+?)\.\{([^}]*)\}")
FUNCTION = re.compile(r"^( *)(pub )?(?:const )?fn ([a-z_0-9]+)")
OWNER = re.compile(r"^(?:impl(?:<.*?>)? (?:([A-Za-z_:<>]+) for )?|pub (trait) )([A-Za-z_]+)")


def crate_names():
    names = re.findall(r"^([a-z_]+):", (TOP / "crates.txt").read_text(), re.M)
    return [name for name in names if not name.endswith("_tests")]


def imports(text, crates):
    """The names that a file imports from specs/ of the repository: (crate, file, name) of each."""
    found = {}
    for crate, file, names in IMPORT.findall(text):
        if crate in crates and not file.startswith("declared"):
            for name in filter(None, map(str.strip, names.split(","))):
                there, _, here = name.partition(" as ")
                found[(here or there).strip()] = (crate, file, there.strip())
    return found


def definitions(crates):
    """The text of each definition, by (crate, file, name), and the imports of each file."""
    bodies, known = {}, {}
    for crate in crates:
        specs = TOP / "crates" / crate / "specs"
        for path in sorted(specs.rglob("*.antt")):
            file = ".".join(path.relative_to(specs).with_suffix("").parts)
            name = None
            for line in path.read_text().split("\n"):
                match = DEFINED.match(line)
                if match and not re.match(r"^ +pub [a-z_]+ *:", line) and match[1] not in ("use", "mod"):
                    name = match[1]
                if name:
                    bodies[crate, file, name] = bodies.get((crate, file, name), "") + line + "\n"
            known[crate, file] = imports(path.read_text(), crates)
    return bodies, known


def clauses(text):
    """Each function of a file that callers may see, with its type and its clauses."""
    owner, trait, lines = None, False, text.split("\n")
    for at, line in enumerate(lines):
        match = OWNER.match(line)
        if match:
            owner, trait = match[3], bool(match[1] or match[2])
        if line.startswith("}"):
            owner, trait = None, False
        match = FUNCTION.match(line)
        if not match or not (match[2] or (owner and trait and match[1])):
            continue
        taken = []
        for more in lines[at:]:
            taken.append(more)
            stated = any(re.match(r"\s*(ensures|requires)", x) for x in taken)
            if re.match(match[1] + r"\{", more) or (more.endswith("{") and not stated) or more.endswith(";"):
                break
        clause = "\n".join(taken)
        cut = re.search(r"ensures|requires", clause)
        if cut:
            yield match[3], owner, clause[cut.start():]


def is_seen(crate, module, name, owner, exported, modules):
    return module in modules or module in ("lib", "main") or (owner or name) in exported


def citations(crates):
    """The calls whose clauses name a definition, by (crate, file, name)."""
    cited = {}
    for crate in crates:
        source = TOP / "crates" / crate / "src"
        root = next(path for path in (source / "lib.rt", source / "main.rt") if path.exists()).read_text()
        exported = set(re.findall(WORD, " ".join(re.findall(r"pub use ([^;]*);", root))))
        modules = set(re.findall(r"pub mod ([a-z_]+)", root))
        for path in sorted(source.rglob("*.rt")):
            module = path.relative_to(source).with_suffix("").parts[0]
            if module == "tests":
                continue
            text = path.read_text()
            known = imports(text, crates)
            for name, owner, clause in clauses(text):
                if is_seen(crate, module, name, owner, exported, modules):
                    call = f"{owner}::{name}" if owner else name
                    for word in set(re.findall(WORD, clause)) & set(known):
                        cited.setdefault(known[word], []).append((crate, call))
    return cited


def reached(cited, bodies, known):
    """The definitions that those which are cited are made of."""
    seen, left = set(cited), list(cited)
    while left:
        crate, file, name = left.pop()
        for word in set(re.findall(WORD, bodies.get((crate, file, name), ""))):
            there = known.get((crate, file), {}).get(word, (crate, file, word))
            if there in bodies and there not in seen:
                seen.add(there)
                left.append(there)
    return seen


def page(crates, cited, within, places):
    lines = []
    for crate in reversed(crates):
        own = sorted((key for key in cited if key[0] == crate and key in places), key=lambda key: (key[1], places[key]))
        inside = sorted((key for key in within if key[0] == crate), key=lambda key: (key[1], places[key]))
        if own or inside:
            lines += ["", f"## {crate}", ""]
        if own:
            lines += ["Word|File|Calls", "---|---|---"]
        for key in own:
            calls = list(dict.fromkeys(call for _, call in sorted(cited[key], key=lambda c: c[0] != crate)))
            shown = ", ".join(f"`{call}`" for call in calls[:1]) + (".." if len(calls) > 1 else "")
            lines.append(f"`{key[2]}`|{key[1]}|{shown}")
        files = dict.fromkeys(key[1] for key in inside)
        parts = [f + ": " + ", ".join(f"`{key[2]}`" for key in inside if key[1] == f) for f in files]
        if parts:
            lines += [""] if own else []
            lines += textwrap.wrap("Through these: " + "; ".join(parts) + ".", 118, break_on_hyphens=False)
    return "\n".join(lines) + "\n"


def main():
    crates = crate_names()
    bodies, known = definitions(crates)
    cited = citations(crates)
    pages = "".join(path.read_text() for path in (TOP / "docs").glob("*.md"))
    named = set(re.findall(WORD, " ".join(re.findall(r"`([^`\n]*)`", pages))))
    named = {word for word in named if re.search("[A-Z_]", word)}
    within = {key for key in reached(cited, bodies, known) - set(cited) if key[2] in named}
    head = PAGE.read_text().split("\n## ")[0].rstrip("\n")
    places = {key: at for at, key in enumerate(bodies)}
    PAGE.write_text(head + "\n" + page(crates, cited, within, places))


if __name__ == "__main__":
    main()
