#!/usr/bin/env python3
"""fault_tables.py PROGRAM [--check]: writes into docs/GUIDE.md, each between two marks, the table of faults, of what the program
explains, and that of options, of what `run -h` prints. With --check it writes nothing, and ends with status 1 where the page
says something else."""
import os
import re
import subprocess
import sys

TOP = os.path.dirname(os.path.dirname(os.path.abspath(__file__)))
PAGE = f"{TOP}/docs/GUIDE.md"
FAULT = re.compile(r"(?m)^ ?(\d+)  (\w+) +(\S.*)$")
OPTION = re.compile(r"(?m)^ +(?:-\w, )?(--[a-z-]+(?: <\S+>)?)\s+(\S.*)$")


def said(program, *words):
    return subprocess.run([program, *words], check=True, stdout=subprocess.PIPE, universal_newlines=True).stdout


def faults(program):
    rows = ["| Fault | P | Is | What to do |", "|---|---|---|---|"]
    for number, place, meaning in FAULT.findall(said(program, "explain")):
        advice = " ".join(said(program, "explain", number).strip().split("\n\n")[-1].split("\n"))
        rows.append(f"| {number} | {place} | {meaning} | {advice} |")
    return "\n".join(rows) + "\n"


def options(program):
    part = said(program, "run", "-h").partition("\nOptions:\n")[2].partition("\n\n")[0]
    rows = [f"| `{re.sub('[<>]', '', option)}` | {meaning} |" for option, meaning in OPTION.findall(part)]
    return "\n".join(["| Option | Meaning |", "|---|---|", *rows]) + "\n"


# What is made, by the name in its marks.
TABLES = {"fault_tables.py": faults, "options": options}


def with_table(page, name, table):
    """The page with this table between the marks of this name."""
    begin, end = f"<!-- {name}: begin -->\n", f"<!-- {name}: end -->\n"
    before, _, rest = page.partition(begin)
    return before + begin + table + end + rest.partition(end)[2]


def main(program, check=None):
    with open(PAGE, encoding="utf-8") as file:
        page = file.read()
    made = page
    for name, table in TABLES.items():
        made = with_table(made, name, table(os.path.abspath(program)))
    if check:
        if page != made:
            print("docs/GUIDE.md has other tables than the program prints: run scripts/fault_tables.py PROGRAM", file=sys.stderr)
        return page != made
    with open(PAGE, "w", encoding="utf-8") as file:
        file.write(made)
    return 0


if __name__ == "__main__":
    sys.exit(main(*sys.argv[1:]))
