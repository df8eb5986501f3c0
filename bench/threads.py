#!/usr/bin/env python3
"""threads.py [--quick | --short] [--times N] [--only NAME]... [--no-build] [--record] [--out FOLDER]

Measures what several threads bring: the program on the circuits of circuits.py and those in the folders that CIRCUITS
names, by one thread and by several, and the C simulator that CREF names where it is there. All ways of a circuit are
run in turn, so that what the machine does besides falls on all alike. Prints the best wall times in milliseconds, and
each by that of one thread in the same mode; writes the table to FOLDER, bench/out if not given, and with --record to
bench/FIGURES.md.
"""
import os
import sys
import tempfile

import circuits
import measuring


def shared(mode, workers):
    return ["--mode", mode, "--workers", str(workers), "--clusters", str(workers)]


# Each way with its words, and the way by whose time its own is told.
WAYS = {
    "free": (["--mode", "free"], None),
    "2 threads": (["--mode", "free", "--threads", "2"], "free"),
    "4 threads": (["--mode", "free", "--threads", "4"], "free"),
    "64 threads": (["--mode", "free", "--threads", "64"], "free"),
    "free 4, 4": (shared("free", 4), "free"),
    "rounds": (["--mode", "rounds"], None),
    "rounds 4, 4": (shared("rounds", 4), "rounds"),
}


def times_of(folder, reference, options):
    """The best wall time of each way, in seconds."""
    words, netlist = measuring.words_of(folder)
    commands = {way: [measuring.PROGRAM] + words + more for way, (more, _) in WAYS.items()}
    if reference:
        commands["C simulator"] = [reference] + words
    best = {}
    for _ in range(options.times):
        for way, command in commands.items():
            run = measuring.once(command, netlist, None, options.limit)
            if run.status or run.late:
                sys.exit(f"threads.py: {way} ended with status {run.status}")
            best[way] = min(run.wall, best.get(way, run.wall))
    return best


def cell(way, best):
    """A time in milliseconds, and what it is to that of one thread."""
    beside = WAYS.get(way, (None, None))[1]
    ratio = f" ({best[way] / best[beside]:.2f})" if beside else ""
    return f"{1000 * best[way]:.0f}{ratio}"


def measure(name, reference, options):
    """A circuit's line of the table."""
    with tempfile.TemporaryDirectory() as top:
        folder = os.path.join(top, "circuit")
        if name in circuits.given():
            circuits.copy(circuits.given()[name], folder)
        else:
            measuring.apart(lambda: circuits.make(name, options.quick, options.short).write(folder))
        best = times_of(folder, reference, options)
    row = [name] + [cell(way, best) for way in best]
    print(", ".join(row), file=sys.stderr, flush=True)
    return row


def read_words():
    words = measuring.parser(__doc__, 120.0, 20.0)
    measuring.add_choice(words, circuits.names)
    return measuring.begin(words)


def main():
    options = read_words()
    with tempfile.TemporaryDirectory() as top:
        reference = measuring.reference(top)
        header = ["circuit", *WAYS] + (["C simulator"] if reference else [])
        rows = [measure(name, reference, options) for name in options.only or circuits.names(options.short)]
    lines = [f"best of {options.times}, in turn"]
    measuring.write_report(options, "threads", lines, [header] + rows)
    if options.record:
        measuring.record(options, "threads", lines, [header] + rows)


if __name__ == "__main__":
    main()
