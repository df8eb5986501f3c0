#!/usr/bin/env python3
"""crate_table.py [--check]: writes into docs/ARCHITECTURE.md, between two marks, the table of crates: by the headings of
crates.txt, each crate with the first sentence of its root file, the crates that it stands on, and the handles that its
code takes. Of what a crate stands on the table leaves out what the others named there stand on. With --check it writes
nothing, and ends with status 1 where the page says something else, or where a crate stands on one that crates.txt has
below it."""
import glob
import os
import re
import sys

import crates

PAGE = f"{crates.TOP}/docs/ARCHITECTURE.md"
BEGIN, END = "<!-- crate_table.py: begin -->\n", "<!-- crate_table.py: end -->\n"
HEADING = re.compile(r"# == (.*)")
SENTENCE = re.compile(r"(.*?[.])(?: |$)")
HANDLE = re.compile(r"(?m)^use std::(?:sync|thread)::\{?[^;]*?\b(Threads|Wait)\b")


def layers():
    """By heading the crates that crates.txt has below it, in its order."""
    found, names = {}, []
    with open(f"{crates.TOP}/crates.txt", encoding="utf-8") as lines:
        for line in lines:
            heading = HEADING.match(line)
            if heading:
                names = found.setdefault(heading[1], [])
            elif line.strip() and not line.startswith("#"):
                names.append(line.partition(":")[0].split()[0])
    return found


def first_sentence(name):
    """The first sentence of a crate's root file."""
    for root in ("lib.rt", "main.rt"):
        path = f"{crates.TOP}/crates/{name}/src/{root}"
        if os.path.exists(path):
            with open(path, encoding="utf-8") as file:
                head = re.match(r"(?://! .*\n)*", file.read())[0]
            text = " ".join(line.removeprefix("//! ") for line in head.split("\n")).strip()
            return SENTENCE.match(text)[1].removesuffix(".").replace("|", "\\|")
    raise FileNotFoundError(f"crates/{name}/src has no lib.rt and no main.rt")


def handles(name):
    """The handles that a crate's code takes."""
    found = set()
    for path in glob.glob(f"{crates.TOP}/crates/{name}/src/**/*.rt", recursive=True):
        with open(path, encoding="utf-8") as file:
            found |= set(HANDLE.findall(file.read()))
    return sorted(found)


def nearest(name, below):
    """What a crate stands on, less what others of these stand on."""
    further = {it for use in below[name] for it in crates.all_below(use, below)}
    return [it for it in below[name] if it not in further]


def row(name, below):
    stands_on = ", ".join(f"`{it}`" for it in nearest(name, below))
    return f"| `{name}` | {first_sentence(name)} | {stands_on} | {', '.join(f'`{it}`' for it in handles(name))} |"


def made():
    below = crates.libraries_below()
    lines = ["| Crate | Is | Stands on | Handles |", "|---|---|---|---|"]
    for heading, names in layers().items():
        lines += [f"| **{heading}** | | | |", *(row(it, below) for it in names)]
    return "\n".join(lines) + "\n"


def checks():
    """What has to be there, with whether it is: the table, and for each crate those below it on lines above its own."""
    below, order = crates.libraries_below(), [it for names in layers().values() for it in names]
    with open(PAGE, encoding="utf-8") as file:
        found = [("docs/ARCHITECTURE.md: the table that scripts/crate_table.py makes", f"{BEGIN}{made()}{END}" in file.read())]
    return found + [
        (f"crates.txt: {use} above {name}", order.index(use) < at) for at, name in enumerate(order) for use in below[name]
    ]


def main(words):
    if words == ["--check"]:
        missing = [name for name, there in checks() if not there]
        for name in missing:
            print(f"{name} isn't there")
        return 1 if missing else 0
    with open(PAGE, encoding="utf-8") as file:
        before, begin, rest = file.read().partition(BEGIN)
    _, end, after = rest.partition(END)
    with open(PAGE, "w", encoding="utf-8") as file:
        file.write(before + begin + made() + end + after)
    return 0


if __name__ == "__main__":
    sys.exit(main(sys.argv[1:]))
