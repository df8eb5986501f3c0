#!/usr/bin/env python3
"""prove.py NAME: proves and builds the libraries that a crate of the repository stands on, as far as they aren't built
yet. Each begins once those below it are built, in a copy of the repository; first those on which the longest chain of
others stands, by the seconds in seconds.txt. All checks together have about as many jobs as processors (`jobs_for`). What
the toolchain says goes to standard error."""
import concurrent.futures
import os
import shutil
import subprocess
import sys
import tempfile
import time

import crates

# The most jobs of a check, and about how many seconds a library waits for a processor once it could begin.
MOST_JOBS = 3
WAIT = 80


def build(room, name, below, jobs):
    """Proves and builds a library in a copy, over what was kept of it; what is kept then goes back. Gives the status."""
    crates.copy_sources(room)
    crates.link_libraries(crates.TOP, room, crates.all_below(name, below))
    own, copied = f"{crates.TOP}/crates/{name}/out", f"{room}/crates/{name}/out"
    if os.path.isdir(own):
        os.rename(own, copied)
    try:
        began = time.monotonic()
        words = ["rt", "lib", "--jobs", str(jobs)]
        status = subprocess.run(words, cwd=f"{room}/crates/{name}", stdin=subprocess.DEVNULL, stdout=sys.stderr).returncode
        took = f"after {time.monotonic() - began:.0f} s with {jobs} {'job' if jobs == 1 else 'jobs'}"
        print(f"{name}: {'NOT PROVED' if status else 'proved'} {took}", file=sys.stderr, flush=True)
        return status
    finally:
        if os.path.isdir(copied):
            os.rename(copied, own)
        shutil.rmtree(room)


def lines_of(name):
    """How many lines of code, definitions and proofs a crate has."""
    found = 0
    for part in crates.SOURCES:
        for at, _, files in os.walk(f"{crates.TOP}/crates/{name}/{part}"):
            for file in files:
                with open(os.path.join(at, file), "rb") as it:
                    found += it.read().count(b"\n")
    return found


def seconds(wanted):
    """By library about how many seconds its proof takes with one job: as measured in the gate, or else by its lines."""
    with open(f"{crates.TOP}/scripts/seconds.txt", encoding="utf-8") as lines:
        rows = (it.partition("#")[0].split() for it in lines)
        measured = {row[0]: int(row[1]) for row in rows if row and row[1] != "0"}
    known = [it for it in wanted if it in measured]
    pace = sum(measured[it] for it in known) / max(1, sum(map(lines_of, known)))
    return {it: measured.get(it, pace * lines_of(it)) for it in wanted}


def chains(wanted, below):
    """By library, the seconds of the longest chain that begins with it, of libraries of which each stands on the one before and
    waits a while for a processor."""
    behind, took = {name: 0 for name in wanted}, seconds(wanted)
    for name in reversed([it for it in below if it in wanted]):
        behind[name] += took[name] + WAIT
        for it in below[name]:
            behind[it] = max(behind[it], behind[name])
    return behind


def jobs_for(ready, idle, lanes, behind, longest):
    """How many jobs each of these libraries gets of those that are idle, by their order, as far as they go.

    A second job takes about two fifths more of the processors. So most get one. With more than two processors the time
    goes by the longest chain too, and not by the work alone: so a library gets two on which as long a chain stands as on
    any that isn't built yet, also where one processor alone is idle, since a check keeps its jobs to its end. What is
    idle then goes to the first, up to three."""
    jobs = {}
    for name in ready:
        if idle > 0:
            jobs[name] = 2 if lanes > 2 and behind[name] == longest else 1
            idle -= jobs[name]
    for _ in range(MOST_JOBS):
        for name in jobs:
            if idle > 0 and jobs[name] < MOST_JOBS:
                jobs[name] += 1
                idle -= 1
    return jobs


def prove(wanted, below):
    """Proves and builds these libraries, lowest first; 1 where one isn't proved, and those above it aren't tried."""
    os.makedirs(f"{crates.TOP}/out", exist_ok=True)
    behind, lanes = chains(wanted, below), len(os.sched_getaffinity(0))
    left, running, built = sorted(wanted, key=lambda it: -behind[it]), {}, set()
    with tempfile.TemporaryDirectory(prefix="beside-", dir=f"{crates.TOP}/out") as rooms:
        with concurrent.futures.ThreadPoolExecutor(lanes) as pool:
            while left or running:
                ready = [it for it in left if built.issuperset(below[it])]
                idle = lanes - sum(jobs for _, jobs in running.values())
                longest = max(behind[it] for it in [*left, *(name for name, _ in running.values())])
                for name, jobs in jobs_for(ready, idle, lanes, behind, longest).items():
                    left.remove(name)
                    running[pool.submit(build, f"{rooms}/{name}", name, below, jobs)] = name, jobs
                if not running:
                    return 1
                for run in concurrent.futures.wait(running, return_when=concurrent.futures.FIRST_COMPLETED).done:
                    name, _ = running.pop(run)
                    if run.result() == 0:
                        built.add(name)
    return 0 if built == set(wanted) else 1


def main(names):
    below = crates.libraries_below()
    return prove({it for name in names for it in crates.all_below(name, below)}, below)


if __name__ == "__main__":
    sys.exit(main(sys.argv[1:]))
