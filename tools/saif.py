#!/usr/bin/env python3
"""saif.py: makes a switching activity file (SAIF 2.0, IEEE 1801, in its backward form) of the table that `cmbsim activity` writes.

  cmbsim activity .. < NETLIST.bench | saif.py [--top NAME] [--timescale "1 ns"] > ACTIVITY.saif

A name is parted at '.' into instances, which stand inside NAME, top if not given; one with an empty part isn't parted. In an instance its
nets come first, then its instances, each in the order of the table. In a part each character but letters, digits and '_' gets a
backslash, as the format has it. Of each net there is the number of ticks at each level (its keyword is T and the level), whose sum is
DURATION. TC is the number of its changes after tick 0: those from and to x count too.

Status 1: the table can't be read; standard error says where."""
import argparse
import csv
import re
import sys

HEADER = ["net", "changes", "low", "high", "unknown"]


class Unreadable(Exception):
    """The table isn't one of activities."""


class Instance:
    """An instance: its nets, each with its row, and the instances in it, by their names."""

    def __init__(self):
        self.nets, self.instances = [], {}

    def put(self, parts, row):
        """Puts a net below the instances that its parts name."""
        for part in parts[:-1]:
            self = self.instances.setdefault(part, Instance())
        self.nets.append((parts[-1], row))

    def lines(self, name, depth):
        """The lines of the instance."""
        space = "  " * depth
        yield f"{space}(INSTANCE {escaped(name)}"
        if self.nets:
            yield f"{space}  (NET"
            for net, (changes, low, high, unknown) in self.nets:
                yield f"{space}    ({escaped(net)} (T0 {low}) (T1 {high}) (TX {unknown}) (TC {changes}))"
            yield f"{space}  )"
        for part, instance in self.instances.items():
            yield from instance.lines(part, depth + 1)
        yield f"{space})"


def escaped(name):
    return re.sub(r"([^A-Za-z0-9_])", r"\\\1", name)


def parts_of(name):
    parts = name.split(".")
    return parts if all(parts) else [name]


def numbers_of(number, row):
    """The net and the numbers of a row."""
    if len(row) != len(HEADER) or not all(field.isdecimal() for field in row[1:]):
        raise Unreadable(f"record {number}: not a net and four numbers")
    return row[0], tuple(map(int, row[1:]))


def read_table(lines):
    """The nets of a table, each with its numbers, and how many ticks there are."""
    rows = csv.reader(lines)
    if next(rows, None) != HEADER:
        raise Unreadable(f"record 1: not the header {','.join(HEADER)}")
    nets, ticks = [], None
    for number, row in enumerate(rows, 2):
        net, found = numbers_of(number, row)
        if ticks not in (None, sum(found[1:])):
            raise Unreadable(f"record {number}: {sum(found[1:])} ticks, and {ticks} before")
        ticks = sum(found[1:])
        nets.append((net, found))
    return nets, ticks or 0


def saif(nets, ticks, top, timescale):
    """The lines of the file."""
    yield "(SAIFILE"
    yield '(SAIFVERSION "2.0")'
    yield '(DIRECTION "backward")'
    yield "(DESIGN )"
    yield "(DATE )"
    yield "(VENDOR )"
    yield '(PROGRAM_NAME "cmbsim")'
    yield "(VERSION )"
    yield "(DIVIDER .)"
    yield f"(TIMESCALE {timescale})"
    yield f"(DURATION {ticks})"
    whole = Instance()
    for net, row in nets:
        whole.put(parts_of(net), row)
    yield from whole.lines(top, 0)
    yield ")"


def timescale_of(text):
    if not re.fullmatch(r"10{0,2} [munpf]?s", text):
        raise argparse.ArgumentTypeError(f"{text!r} is none like '1 ns'")
    return text


def main():
    parser = argparse.ArgumentParser(description="Makes a switching activity file of a table of activities.")
    parser.add_argument("--top", default="top", metavar="NAME")
    parser.add_argument("--timescale", default="1 ns", type=timescale_of, metavar="TIME", help="of one tick [default: 1 ns]")
    given = parser.parse_args()
    try:
        nets, ticks = read_table(sys.stdin)
    except Unreadable as unreadable:
        print(f"saif.py: {unreadable}", file=sys.stderr)
        return 1
    for line in saif(nets, ticks, given.top, given.timescale):
        print(line)
    return 0


if __name__ == "__main__":
    sys.exit(main())
