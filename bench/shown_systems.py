#!/usr/bin/env python3
"""Makes the systems that `explain` shows, by its shell lines, and runs the scenario on each.

    shown_systems.py PROGRAM [--base FILE] FOLDER..       the built program, and folders of packages

Of each group with shell lines these are run in an empty folder, which colis-tree prints as a tree; `run` on it has to
end as the group does, at its place. A system with a socket or a device, which no line makes, is left out. Prints a line
for each folder, and ends with 1 where one is WRONG.
"""
import re
import subprocess
import tempfile

import exact
import places

LINE = re.compile(rb"""      ((?:mkdir -p|touch|mkfifo|ln -s --|printf) .*"\$root".*)""")


def systems(text):
    """The groups of a text that are not done, each with its shell lines, or nothing where one system is not made."""
    for part in re.split(rb"\n\n", text):
        head = exact.HEAD.match(part)
        lines = LINE.findall(part)
        if head and lines and not re.search(rb"^      # (?:a|an) .* stands at ", part, re.M):
            yield (head[4].decode(), head[2] and (head[1], int(head[2]), int(head[3]))), b"\n".join(lines) + b"\n"


def ended(folder, scenario, lines):
    """How the run ends on the system that these lines make, and where."""
    with tempfile.TemporaryDirectory() as root, tempfile.NamedTemporaryFile() as tree:
        subprocess.run(["sh", "-eu"], input=lines, env={"root": root, "PATH": "/usr/bin:/bin"}, check=True)
        subprocess.run([places.TOP / "colis-tree", root], stdout=tree, check=True)
        run = places.program("run", str(folder), "--scenario", scenario, "--tree", tree.name, *places.BASE)
    assert run.returncode <= 2, run.stderr
    said = run.stdout.decode().split("\n")
    outcome = {"result": said[0].removeprefix("result "), "trace": said[1].removeprefix("trace").strip(),
               "calls": [line for line in said if line.startswith("call ")]}
    site = places.site(places.TABLE[scenario], outcome) if not outcome["result"].startswith("done") else None
    return exact.KIND_OF[outcome["result"].split()[0]], places.place(folder, places.TABLE[scenario], site)


def looked(folder):
    """How many systems were made."""
    made = 0
    for scenario in places.SCENARIOS:
        text = places.program("explain", str(folder), "--scenario", scenario, *places.BASE).stdout
        for wanted, lines in systems(text):
            found = ended(folder, scenario, lines)
            assert found == wanted, f"{scenario}: {found} and not {wanted}: {lines.decode(errors='replace')}"
            made += 1
    return made


if __name__ == "__main__":
    places.each("systems", looked)
