#!/usr/bin/env python3
"""documents.py: sees that what the documents name is there: the target of each link, each file in the tables of
docs/ARCHITECTURE.md that say where to change what, and its table of crates. Of the pages that stand in prose.py it also sees
that they keep their lengths and that each name, file and command in them is there; and of README.md, that its figures are those
of bench/FIGURES.md. It prints a line for each fault, and a last line 'N passed, M failed'; the status is 0 if nothing failed."""
import glob
import os
import re
import sys

import crate_table
import crates
import prose

sys.path.append(f"{crates.TOP}/bench")
import figures

PAGES = ["*.md", "docs/*.md", "bench/*.md", "examples/*/*.md"]
LINK = re.compile(r"\]\(([^)\s#]+)")
ROW = re.compile(r"\| (.*?) \| (.*?) \| (.*?) ?\|")
CRATE, SOURCE = re.compile(r"`(cmb\w+)`"), re.compile(r"`([\w/]+\.rt)`")
FILE = re.compile(r"`((?:Inner/)?[A-Z][A-Za-z]+)`")


def links(page):
    """Each link of a page to a file, with whether that is there."""
    with open(page, encoding="utf-8") as file:
        targets = [it for it in LINK.findall(file.read()) if "://" not in it]
    name, folder = os.path.relpath(page, crates.TOP), os.path.dirname(page)
    return [(f"{name}: {it} isn't there", os.path.exists(os.path.join(folder, it))) for it in targets]


def named(row):
    """Each file that a row of the map names, what stands in brackets left out, with whether that is there."""
    cells = [re.sub(r"\([^()]*\)", "", it) for it in ROW.match(row).groups()]
    crate = CRATE.search(cells[0])
    if not crate:
        return []
    top = f"{crates.TOP}/crates/{crate[1]}"
    paths = [f"src/{it}" for it in SOURCE.findall(cells[1])] + [f"specs/{it}.antt" for it in FILE.findall(cells[2])]
    return [(f"docs/ARCHITECTURE.md: {crate[1]}/{it} isn't there", os.path.exists(f"{top}/{it}")) for it in paths]


def main():
    pages = [it for pattern in PAGES for it in sorted(glob.glob(f"{crates.TOP}/{pattern}"))]
    found = [it for page in pages for it in links(page)]
    with open(f"{crates.TOP}/docs/ARCHITECTURE.md", encoding="utf-8") as file:
        rows = file.read().partition("## Five changes")[2].split("\n")
    found += [it for row in rows if ROW.match(row) for it in named(row)]
    found += [(f"{it} isn't there", there) for it, there in crate_table.checks()]
    found += [it for page in prose.LENGTHS for it in prose.of_page(page)]
    found.append(("README.md: its figures aren't those of bench/FIGURES.md: run bench/figures.py --readme", figures.is_copied()))
    faults = [fault for fault, holds in found if not holds]
    for fault in faults:
        print(fault)
    print(f"{len(found) - len(faults)} passed, {len(faults)} failed")
    return 1 if faults else 0


if __name__ == "__main__":
    sys.exit(main())
