#!/usr/bin/env python3
"""compare_vcd.py: says where two value change dumps of one circuit differ.

  compare_vcd.py [--scope-a SCOPE] [--scope-b SCOPE] [--common] [--names FILE] [--upto TIME] [--sample F:P] [--x-matches SIDE] A B

Nets are compared by name and by time, whatever the order and the codes of the variables, whatever the time scales, and buses
bit by bit, so that count[3] of one dump is bit 3 of the other's count [7:0]. Names are taken below the scope that all
variables of a dump stand in, as top or test.circuit, or below SCOPE. Before its first value a net counts as x. A net
that only one dump has is a difference too, but with --common. With --upto only times below TIME count, in units of A.

With --names a bit that only one dump has is held against what FILE, the names.csv of from_yosys.py, makes of the other's
nets; one that is gone doesn't count. With --sample levels count at the times F, F+P, F+2P and so on alone, in units of A,
below the end of the longer dump: where all has settled by these times, delays don't matter. With --x-matches a an x or z
of A stands for any level, with b one of B, with both one of either; the nets that weren't 0 or 1 in both dumps at any time
are named then.

Status 0: they are the same. Status 1: they differ; the lines tell the first time at which they do, and the nets that differ
then. Status 2: the line is wrong, there is nothing to compare, or a dump or the table can't be read."""
import argparse
import collections
import itertools
import re
import sys

from names import LEVELS, NamesUnreadable, level_of, read_names
from vcd import Dump, Unreadable

SHOWN = 8  # as many names are printed
SIDES = {"a": "a", "b": "b", "both": "ab"}


class Levels:
    """The levels of a dump's nets, as far as it was read, and of the bits that a table of names makes of them."""

    def __init__(self, dump, table):
        self.blocks, self.table = dump.blocks(), table
        self.now = {bit: kind for bit, (kind, _) in table.items() if kind in LEVELS}
        self.next = next(self.blocks, None)
        self.made = collections.defaultdict(list)
        for bit, (_, net) in table.items():
            self.made[net].append(bit)

    def go_to(self, time):
        """Reads what changes up to this time, and gives the names of it."""
        levels = {}
        while self.next and self.next[0] <= time:
            levels.update(self.next[1])
            self.next = next(self.blocks, None)
        bits = [bit for net in levels for bit in self.made.get(net, ())] if self.table else ()
        levels.update([(bit, level_of(bit, levels, self.table)) for bit in bits])
        self.now.update(levels)
        return levels

    def of(self, name):
        return self.now.get(name, "x")


# ---- times, each with the names of what changed since the one before

def changes(a, b):
    """Each time at which something changes."""
    while a.next or b.next:
        time = min(it.next[0] for it in (a, b) if it.next)
        yield time, [*a.go_to(time), *b.go_to(time)]


def samples(a, b, first, period):
    """The times of a clock, until both dumps have ended."""
    for time in itertools.count(first, period):
        names = [*a.go_to(time), *b.go_to(time)]
        if not a.next and not b.next:
            return
        yield time, names


class Search:
    """A search for the first difference: how many times were compared, and which nets were known in both dumps."""

    def __init__(self, a, b, names, wild):
        self.a, self.b, self.names, self.wild = a, b, names, wild
        self.times, self.known = 0, set()

    def is_known(self, name):
        """Whether neither side has an x or z that stands for any level."""
        unknown = [side for side, it in (("a", self.a), ("b", self.b)) if it.of(name) in ("x", "z")]
        if not unknown:
            self.known.add(name)
        return not any(side in self.wild for side in unknown)

    def differing(self, changed):
        """The nets that differ of those that changed; at first of all, since what the table makes of no net doesn't change."""
        names = [name for name in dict.fromkeys(changed) if name in self.names] if self.times else self.names
        if self.wild:
            names = [name for name in names if self.is_known(name)]
        a, b = self.a.now, self.b.now
        return [name for name in names if a.get(name, "x") != b.get(name, "x")]

    def first_difference(self, moments, upto):
        """The first time at which nets differ, with these nets, or None."""
        for time, changed in moments:
            if time >= upto:
                return None
            found = self.differing(changed)
            self.times += 1
            if found:
                return time, found
        return None


# ---- names

def made_of(table, names, others):
    """What the table makes of a dump's nets, of the bits that the other dump alone has."""
    return {bit: (kind, net) for bit, (kind, net) in table.items()
            if bit in others and bit not in names and (kind in LEVELS or net in names)}


def listed(names):
    more = f" and {len(names) - SHOWN} more" if len(names) > SHOWN else ""
    return ", ".join(names[:SHOWN]) + more


def only(path, names, others, table):
    """A line where a dump has nets that the other hasn't."""
    found = [name for name in names if name not in others and table.get(name, "")[:1] != ("gone",)]
    return [f"only in {path}: {listed(found)}"] if found else []


# ---- what is told

def told(line, difference, search, unit):
    """The lines of the first difference."""
    time, names = difference
    at = time // unit if time % unit == 0 else time / unit
    lines = [f"time {at}: {name} is {search.a.of(name)} in {line.a} and {search.b.of(name)} in {line.b}" for name in names[:SHOWN]]
    return lines + ([f"time {at}: {len(names) - SHOWN} more nets differ"] if len(names) > SHOWN else [])


def sameness(line, search):
    """The lines where nothing differs."""
    at = f" at {search.times} time{'s' if search.times != 1 else ''}" if line.sample else ""
    unknown = [name for name in search.names if name not in search.known] if line.x_matches else []
    lines = [f"{len(unknown)} of them never 0 or 1 in both: {listed(unknown)}"] if unknown else []
    return [f"the same: {len(search.names)} nets{at}", *lines]


def compare(line, first, second, table):
    """The lines that say what differs or doesn't, and whether something does."""
    mine, others = first.names(), second.names()
    one, other = made_of(table, mine, others), made_of(table, others, mine)
    lines = [] if line.common else only(line.a, mine, {**others, **other}, table) + only(line.b, others, {**mine, **one}, table)
    names = dict.fromkeys([*(name for name in mine if name in others), *one, *other])
    search = Search(Levels(first, one), Levels(second, other), names, SIDES.get(line.x_matches, ""))
    upto = float("inf") if line.upto is None else line.upto * first.unit
    ticks = [number * first.unit for number in line.sample or ()]
    moments = samples(search.a, search.b, *ticks) if ticks else changes(search.a, search.b)
    difference = search.first_difference(moments, upto)
    lines += told(line, difference, search, first.unit) if difference else []
    if not lines and not (names and search.times):
        raise Unreadable("no time is left to compare" if names else "no net is in both dumps")
    return lines or sameness(line, search), bool(lines)


def sample_of(text):
    """The value of --sample."""
    found = re.fullmatch(r"(\d{1,18}):(\d{1,18})", text)
    if not found or int(found[2]) < 1:
        raise argparse.ArgumentTypeError(f"{text} isn't F:P")
    return int(found[1]), int(found[2])


def arguments():
    parser = argparse.ArgumentParser(description="Says where two value change dumps of one circuit differ.")
    parser.add_argument("--scope-a", metavar="SCOPE", help="the scope of A to take, as test.circuit")
    parser.add_argument("--scope-b", metavar="SCOPE", help="the scope of B to take")
    parser.add_argument("--common", action="store_true", help="nets that only one of them has don't count")
    parser.add_argument("--names", metavar="FILE", help="what became of bits that one of them hasn't: names.csv of from_yosys.py")
    parser.add_argument("--upto", metavar="TIME", type=int, help="only times below this one count, in units of A")
    parser.add_argument("--sample", metavar="F:P", type=sample_of, help="only the times F, F+P, F+2P and so on count, in units of A")
    parser.add_argument("--x-matches", metavar="SIDE", choices=SIDES, help="an x of a, b or both is the same as any level")
    parser.add_argument("a", metavar="A")
    parser.add_argument("b", metavar="B")
    return parser.parse_args()


def main():
    line = arguments()
    try:
        table = read_names(line.names) if line.names else {}
        with open(line.a, encoding="latin-1") as one, open(line.b, encoding="latin-1") as other:
            lines, is_different = compare(line, Dump(line.a, one, line.scope_a), Dump(line.b, other, line.scope_b), table)
    except (OSError, Unreadable, NamesUnreadable) as error:
        print(f"compare_vcd: {error}", file=sys.stderr)
        return 2
    print("\n".join(lines))
    return 1 if is_different else 0


if __name__ == "__main__":
    sys.exit(main())
