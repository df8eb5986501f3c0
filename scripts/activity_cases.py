#!/usr/bin/env -S python3 -B
"""activity_cases.py [--seed S] [--times N] [--random N] [--oracle ORACLE] PROGRAM [FOLDER..]: runs the program's task `activity` in each
mode, by 1 to 4 threads, of all nets, of nets chosen by chance, and of the outputs, and holds the table that it writes against the one that is
counted here, from the program's own text of waveforms. A list is made as chosen_cases.py makes it, and one in eight has a line that names no
net, which has to be fault 38 at that line; in mode plain a design that is too large has to be fault 33.

A FOLDER is laid out as those of examples/; each is run with N lists, 3 if not given. --random N adds N random circuits, each run with one
list. Where neither is given, the examples are taken. With ORACLE, another program with the same command line or a Python file with a function
run_program(words, input), the table is that which it writes of all nets. The last line is 'N passed, M failed', over all runs.
"""
import sys

from cases import MOST_CELLS, check_all, line_of, list_by_chance, name_in
from hostile.tools import Answer, oracle_of

MODES = [["--mode", mode, *hands] for mode in ("plain", "rounds", "free")
         for hands in ([], *(["--threads", str(count)] for count in range(1, 5)), ["--workers", "2", "--clusters", "3"])]
HEADER = b"net,changes,low,high,unknown\n"


# ---- the table of a text of waveforms

def field(name):
    """A name as a field: in double quotes where it has one, each of them twice."""
    return b'"' + name.replace(b'"', b'""') + b'"' if b'"' in name else name


class Net:
    """A net as the lines go by: its changes after tick 0, its ticks at each level, and its level since a tick."""

    def __init__(self, name):
        self.name, self.changes, self.ticks, self.level, self.since = name, 0, {"0": 0, "1": 0, "x": 0}, None, 0

    def turn(self, tick, level):
        self.end(tick)
        self.changes += tick > 0
        self.level, self.since = level, tick

    def end(self, tick):
        if self.level is not None:
            self.ticks[self.level] += tick - self.since

    def row(self):
        numbers = (self.changes, *(self.ticks[level] for level in "01x"))
        return field(self.name) + b"".join(b",%d" % number for number in numbers) + b"\n"


def counted(text):
    """The rows of the nets of a text of waveforms, by their names, in order."""
    head, _, body = text.partition(b"$enddefinitions $end\n")
    nets = {line.split()[3]: Net(name_in(line)) for line in head.split(b"\n") if line.startswith(b"$var")}
    tick = 0
    for line in body.split(b"\n"):
        if line.startswith(b"#"):
            tick = int(line[1:])
        elif line[:1] in (b"0", b"1", b"x"):
            nets[line[1:]].turn(tick, line[:1].decode())
    for net in nets.values():
        net.end(tick)
    return {net.name: net.row() for net in nets.values()}


# ---- the runs

def rows_of(folder, program, oracle):
    """The row of each net, by its name, and the answer that has them all: a fault has none."""
    whole = program(["run", *folder.options], folder.netlist)
    if whole.status != 0:
        return {}, whole
    rows = counted(whole.out)
    if oracle is None:
        return rows, Answer(0, HEADER + b"".join(rows.values()), b"")
    table = oracle(["activity", *folder.options], folder.netlist)
    return dict(zip(rows, table.out.splitlines(keepends=True)[1:])), table


def wanted(rows, all_of_them, names, mode, horizon):
    """What the program has to answer where the nets of these names are asked for."""
    if all_of_them.status == 0 and "plain" in mode and len(rows) * horizon > MOST_CELLS:
        return line_of(33, 0)
    if all_of_them.status != 0 or names is None:
        return all_of_them
    return Answer(0, HEADER + b"".join(row for name, row in rows.items() if name in names), b"")


def choices_of(folder, rows, chance, times, lists):
    """Each choice of nets: its words, the names, and the line of its list that is none, where there is one."""
    yield [], None, None
    yield ["--only-outputs"], folder.outputs, None
    for _ in range(times):
        path, chosen, line = list_by_chance(chance, list(rows), lists)
        yield ["--only", path], chosen, line


def runs_of(folder, given, chance, times, lists):
    """Each run of a folder: its words, and the answer that it has to give."""
    rows, whole = rows_of(folder, oracle_of(given.program), given.oracle and oracle_of(given.oracle))
    for choice, names, line in choices_of(folder, rows, chance, times, lists):
        for mode in MODES:
            unknown = line_of(38, line) if line and whole.status == 0 else None
            yield ["activity", *folder.options, *choice, *mode], unknown or wanted(rows, whole, names, mode, folder.horizon)


if __name__ == "__main__":
    check_all(sys.argv[1:], runs_of)
