#!/usr/bin/env python3
"""figures.py SECTION < TEXT
figures.py --readme

The first writes a text into the section of bench/FIGURES.md that has this name in its marks; a section that isn't there is
added. The second copies the table of the section `run` into README.md, as run.py does, without the rows in ALIKE. run.py,
threads.py and growth.py call this with --record.
"""
import os
import re
import sys

TOP = os.path.dirname(os.path.dirname(os.path.abspath(__file__)))
FIGURES, README = os.path.join(TOP, "bench", "FIGURES.md"), os.path.join(TOP, "README.md")

# Circuits that README.md leaves out: it shows another of their kind.
ALIKE = ("multiplier 64", "multiplier 64, delays", "600 LFSRs of 16", "50 rings, 20000 idle", "reading clocked, local")


def marks(name):
    return f"<!-- {name}: begin -->\n", f"<!-- {name}: end -->\n"


def read(path, name):
    """What stands between the marks of this name; None where there are none."""
    begin, end = map(re.escape, marks(name))
    with open(path, encoding="utf-8") as file:
        found = re.search(f"{begin}(.*?){end}", file.read(), re.DOTALL)
    return found and found[1]


def put(path, name, text):
    """Puts a text between the marks of this name, which are added at the page's end where there are none."""
    begin, end = marks(name)
    with open(path, encoding="utf-8") as file:
        before, is_there, rest = file.read().partition(begin)
    after = rest.partition(end)[2] if is_there else ""
    title = "" if is_there else f"\n## {name}\n\n"
    with open(path, "w", encoding="utf-8") as file:
        file.write(f"{before}{title}{begin}{text.strip()}\n{end}{after}")


def record(name, text):
    put(FIGURES, name, text)


def table_of(text):
    """The table in a text, without the rows in ALIKE."""
    rows = [line for line in text.split("\n") if line.startswith("|")]
    return "".join(row + "\n" for row in rows if row.split("|")[1].strip() not in ALIKE)


def copy():
    """README.md gets that of the section `run`."""
    put(README, "figures", table_of(read(FIGURES, "run")))


def is_copied():
    return read(README, "figures") == table_of(read(FIGURES, "run") or "")


def main(words):
    if words == ["--readme"]:
        copy()
    elif len(words) == 1 and not words[0].startswith("-"):
        record(words[0], sys.stdin.read())
    else:
        print(__doc__, file=sys.stderr)
        return 2
    return 0


if __name__ == "__main__":
    sys.exit(main(sys.argv[1:]))
