#!/usr/bin/env -S python3 -B
"""expect_cases.py [--seed S] [--times N] [--random N] [--oracle ORACLE] PROGRAM [FOLDER..]: runs the program's task `expect` in each mode, by
1 to 4 threads, with tables of the right levels of which some are turned, and holds what it writes, its line on standard error and its status
against what is told here, from the program's own text of waveforms. A table is of nets and ticks by chance, in any order; one in four has a row
or a record that is wrong, which has to be its fault at that record; in mode plain a design that is too large has to be fault 33.

A FOLDER is laid out as those of examples/; each is run with N tables, 3 if not given. --random N adds N random circuits, each run with one
table. Where neither is given, the examples are taken. With ORACLE, another program with the same command line or a Python file with a function
run_program(words, input), the answer is that which it gives. The last line is 'N passed, M failed', over all runs.
"""
import bisect
import os
import sys

from activity_cases import MODES, field
from cases import MOST_CELLS, check_all, line_of, name_in
from hostile.tools import Answer, oracle_of

HEADER = b"tick,net,expected,value\n"
LEVELS = [b"0", b"1", b"x"]


# ---- the levels of a text of waveforms

class Wave:
    """A net's changes, by rising tick."""

    def __init__(self):
        self.ticks, self.levels = [], []

    def turn(self, tick, level):
        self.ticks.append(tick)
        self.levels.append(level)

    def at(self, tick):
        return self.levels[bisect.bisect_right(self.ticks, tick) - 1]


def waves_of(text):
    """The waves of the nets of a text of waveforms, by their names."""
    head, _, body = text.partition(b"$enddefinitions $end\n")
    names = {line.split()[3]: name_in(line) for line in head.split(b"\n") if line.startswith(b"$var")}
    waves, tick = {name: Wave() for name in names.values()}, 0
    for line in body.split(b"\n"):
        if line.startswith(b"#"):
            tick = int(line[1:])
        elif line[:1] in LEVELS:
            waves[names[line[1:]]].turn(tick, line[:1])
    return waves


# ---- tables of what is expected

def rows_of(chance, waves, horizon):
    """Rows of a tick, a net, the level that is expected and the one that it has, no two of one tick and net."""
    places = {}
    for _ in range(chance.choice([0, 1, 3, 20, 200, 2000]) if waves else 0):
        name, tick = chance.choice(list(waves)), chance.choice([0, horizon - 1, chance.randrange(horizon)])
        places[tick, name] = None
    turned = chance.choice([0, 0, 0.01, 0.2, 1])
    rows = [(tick, name, waves[name].at(tick)) for tick, name in places]
    rows = [(tick, name, chance.choice(LEVELS) if chance.random() < turned else level, level) for tick, name, level in rows]
    chance.shuffle(rows)
    return rows


def written(chance, row):
    """A row as a line of the table, with a level or a number in one of their forms."""
    tick, name, level, _ = row
    number = b"%d" % tick if chance.random() < 0.9 else b"%03d" % tick
    return b"%s,%s,%s\n" % (number, field(name), b"X" if level == b"x" and chance.random() < 0.2 else level)


def wrong_line(chance, rows, waves, horizon):
    """A line that is wrong behind these rows, and the number of its fault."""
    name = chance.choice(list(waves)) if waves else b"a"
    found = [(26, b"0,no net of this name,1\n"), (31, b"0,%s,2\n" % field(name)), (25, b"-1,%s,1\n" % field(name)), (24, b"0,1\n")]
    if waves:
        found += [(39, b"%d,%s,1\n" % (horizon, field(name))), (39, b"9999999999,%s,x\n" % field(name))]
    if rows:
        again = chance.choice(rows)
        found.append((29, b"%d,%s,0\n" % (again[0], field(again[1]))))
    return chance.choice(found)


def table_of(chance, waves, horizon):
    """The text of a table, its rows, and its first fault with its record, or None."""
    rows = rows_of(chance, waves, horizon)
    lines = [written(chance, row) for row in rows]
    if chance.random() < 0.05:
        return b"tick,net,level\n" + b"".join(lines), rows, (23, 1)
    fault = None
    if chance.random() < 0.2:
        place = chance.randint(0, len(rows))
        number, line = wrong_line(chance, rows[:place], waves, horizon)
        lines.insert(place, line)
        fault = number, place + 2
    return b"tick,net,value\n" + b"".join(lines), rows, fault


def told(rows):
    """What the program has to answer of these rows."""
    differ = [(tick, name, level, has) for tick, name, level, has in rows if level != has]
    text = HEADER + b"".join(b"%d,%s,%s,%s\n" % (tick, field(name), level, has) for tick, name, level, has in differ)
    return Answer(3, text, b"%d of %d rows differ\n" % (len(differ), len(rows))) if differ else Answer(0, text, b"")


# ---- the runs

def wanted(folder, whole, waves, rows, fault):
    """What the program has to answer in each mode: of the rows, or the table's fault."""
    if whole.status != 0:
        return lambda mode: whole
    answer = line_of(*fault) if fault else told(rows)
    too_large = answer.status != 1 and len(waves) * folder.horizon > MOST_CELLS
    return lambda mode: line_of(33, 0) if too_large and "plain" in mode else answer


def runs_of(folder, given, chance, times, tables):
    """Each run of a folder: its words, and the answer that it has to give."""
    oracle = given.oracle and oracle_of(given.oracle)
    whole = oracle_of(given.program)(["run", *folder.options], folder.netlist)
    waves = waves_of(whole.out) if whole.status == 0 else {}
    for _ in range(times):
        text, rows, fault = table_of(chance, waves, folder.horizon)
        path = f"{tables}/{len(os.listdir(tables))}"
        with open(path, "wb") as file:
            file.write(text)
        words = ["expect", *folder.options, "--expected", path]
        want = wanted(folder, whole, waves, rows, fault)
        if oracle:
            yield words, oracle(words, folder.netlist)
        for mode in MODES:
            yield [*words, *mode], want(mode)


if __name__ == "__main__":
    check_all(sys.argv[1:], runs_of)
