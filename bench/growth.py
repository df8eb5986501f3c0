#!/usr/bin/env python3
"""growth.py [--quick] [--times N] [--limit SECONDS] [--workers W] [--no-build] [--record] [--out FOLDER]

How the program's time grows: with the changes, with the nets at equal changes, and with the horizon at
equal changes, in mode rounds. Prints a table, and writes it and a plot to FOLDER, bench/out if not given; with --record it
writes the table to bench/FIGURES.md too. In the column `slope` a growth that is a straight line has 1, a quadratic one 2,
and 0 means none.
"""
import math
import os
import sys
import tempfile

import circuits
import measuring
import plots


def ring_beside(changes, nets):
    """A ring that makes so many changes, beside so many gates that stand still."""
    return circuits.rings(1, changes, nets)


def banks_of(nets, changes, period=4):
    """LFSRs of 16 bits with so many nets in all, for as many cycles as make about so many changes. They begin with
    all ones, and change little in the first dozen of cycles."""
    banks = max(1, nets // 17)
    cycles = 12 + round(changes / (banks * 17 * 0.52))
    return circuits.lfsrs(16, cycles, banks, period)


def multipliers(changes, gap=0):
    """A multiplier of 32 bits, fed as often as makes about so many changes."""
    return circuits.multiplier(32, max(1, round(changes / 66_000)), circuits.UNIT, gap)


def steps(low, high, quick):
    """1, 3, 10, .. from low to high, less far and in steps of ten where it is quick."""
    values, k = [], math.log10(low)
    while round(10 ** k) <= high:
        values.append(round(10 ** k))
        k += 1 if quick else 0.5
    return values


def families(quick):
    """Each: what grows, and the lines as (name, [(x asked for, circuit)])."""
    most = 3 * 10 ** 5 if quick else 10 ** 7
    fixed = 100_000 if quick else 3 * 10 ** 6
    idle = 2_000 if quick else 20_000
    horizon = 10 ** 5 if quick else 10 ** 6
    nets = [x for x in steps(100, 50_000, quick)] + ([] if quick else [65_500])
    return [
        ("changes", [
            ("LFSRs, 1020 nets", [lambda x=x: banks_of(1020, x) for x in steps(10 ** 4, most, quick)]),
            ("multiplier 32", [lambda x=x: multipliers(x) for x in steps(10 ** 5, most, quick)])]),
        ("nets at equal changes", [
            ("LFSRs, all nets busy", [lambda x=x: banks_of(x, fixed) for x in nets]),
            ("ring beside idle nets", [lambda x=x: ring_beside(idle, x) for x in nets])]),
        ("horizon at equal changes", [
            ("LFSRs, longer period", [lambda x=x: banks_of(17 * 40, 80_000, max(4, x // 238)) for x in steps(10 ** 3, horizon, quick)]),
            ("multiplier 32, longer gap", [lambda x=x: multipliers(66_000 * 2, x // 2) for x in steps(10 ** 3, horizon, quick)])])]


class Point:
    """What was asked for and what came of it."""

    def __init__(self, nets, horizon, changes, sample):
        self.nets, self.horizon, self.changes, self.sample = nets, horizon, changes, sample

    def along(self, family):
        return {"changes": self.changes, "nets at equal changes": self.nets, "horizon at equal changes": self.horizon}[family]


def changes_in(path, nets):
    """The changes after tick 0 in a text."""
    levels, tail = 0, b"\n"
    with open(path, "rb") as file:
        while chunk := file.read(1 << 20):
            seen = tail + chunk
            levels += sum(seen.count(b"\n" + level) for level in (b"0", b"1", b"x"))
            tail = chunk[-1:]
    return max(levels - nets, 1)


def measure(make, options, folder):
    """One circuit: a first run that counts the changes, and then those that are timed. None where the first is too slow."""
    measuring.apart(lambda: make().write(folder))
    words, netlist = measuring.words_of(folder)
    command = [measuring.PROGRAM] + words + ["--workers", str(options.workers), "--clusters", str(options.workers)]
    path = os.path.join(folder, "text.vcd")
    first = measuring.once(command, netlist, path, options.limit)
    if first.late:
        return None
    if first.status:
        raise RuntimeError(f"status {first.status}: {' '.join(command)}")
    with open(os.path.join(folder, "nets")) as file:
        nets = int(file.read())
    horizon = int(words[words.index("--horizon") + 1])
    sample = measuring.Sample([first]) if first.wall > 10 else measuring.sample(command, netlist, options.times, options.limit)
    return Point(nets, horizon, changes_in(path, nets), sample)


def line_of(family, name, makes, options):
    """The points of a line, up to the first that is too slow."""
    points = []
    for make in makes:
        with tempfile.TemporaryDirectory() as folder:
            point = measure(make, options, folder)
        if point is None:
            print(f"{family}, {name}: not in {options.limit:g} s", file=sys.stderr, flush=True)
            break
        print(f"{family}, {name}: {point.along(family)}, {measuring.short(point.sample.best)}", file=sys.stderr, flush=True)
        points.append(point)
    return points


def slope(before, point, family):
    """By which power of x the processor time grew since the point before."""
    if before is None or before.along(family) == point.along(family) or min(before.sample.processor, point.sample.processor) <= 0:
        return ""
    return f"{math.log(point.sample.processor / before.sample.processor) / math.log(point.along(family) / before.along(family)):.2f}"


HEADER = ["what grows", "circuit", "nets", "horizon", "changes", "best", "processor", "slope", "ns a change"]


def rows_of(family, name, points):
    rows = []
    for before, point in zip([None] + points, points):
        sample = point.sample
        rows.append([
            family, name, str(point.nets), str(point.horizon), str(point.changes), measuring.short(sample.best), measuring.short(sample.processor),
            slope(before, point, family), f"{sample.processor / point.changes * 1e9:.0f}"])
    return rows


def write_all(found, options):
    """The table and the plot."""
    rows = [HEADER]
    for family, lines in found:
        for name, points in lines:
            rows += rows_of(family, name, points)
    lines = [f"mode rounds, {options.workers} workers"]
    measuring.write_report(options, "growth", lines, rows)
    if options.record:
        measuring.record(options, "growth", lines, rows)
    parts = [(family, [(name, [(p.along(family), p.sample.best) for p in points]) for name, points in lines if points]) for family, lines in found]
    plots.panels(os.path.join(options.out, "growth.svg"), f"Wall time of a run in mode rounds, {options.workers} workers", parts)


def main():
    words = measuring.parser(__doc__, 60.0, 10.0)
    words.add_argument("--workers", type=int, default=1, help="workers and clusters")
    options = measuring.begin(words)
    found = [(family, [(name, line_of(family, name, makes, options)) for name, makes in lines]) for family, lines in families(options.quick)]
    write_all(found, options)
    return 0


if __name__ == "__main__":
    sys.exit(main())
