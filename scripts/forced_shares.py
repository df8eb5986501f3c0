#!/usr/bin/env -S python3 -B
"""forced_shares.py [--random N] [--seed S] [--program PROGRAM] [FOLDER..]: runs by shares where the program itself would not choose them.

The thresholds in cmb_sim/src/tuning.rt change no text. Here the program is built, and proved, with others, and put at
out/forced_shares: in a run by several threads each netlist with two flip-flops or nets that nothing reads is cut into
shares, however small it is and however short the run. The libraries have to be built already (make build). With --program
nothing is built, and PROGRAM is run, which was made so.

Then it runs N random circuits, 300 if not given, and the FOLDERs, which are laid out as those of examples/, in both modes by 2 to
64 threads, of all nets and of the outputs. Each has to write what one thread writes. The last line is 'N passed, M failed', over all runs.
"""
import argparse
import os
import random
import re
import shutil
import subprocess
import sys
import tempfile

import crates
from cases import Folder, write_random
from hostile.tools import Tally, each, run

FORCED = {"LEAST_SAMPLES: u64": "0", "LEAST_NETS: usize": "0", "MOST_OF_ALL: u64": "1_000_000",
          "PER_PROCESSOR: usize": "64"}
THREADS = (2, 3, 4, 5, 9, 64)
MADE = f"{crates.TOP}/out/forced_shares"


def force(path):
    """Changes the thresholds in a copy of tuning.rt."""
    with open(path, encoding="utf-8") as file:
        text = file.read()
    for name, value in FORCED.items():
        text, count = re.subn(f"const {re.escape(name)} = [0-9_]+;", f"const {name} = {value};", text)
        if count != 1:
            sys.exit(f"forced_shares.py: {path} has no threshold {name}")
    with open(path, "w", encoding="utf-8") as file:
        file.write(text)


def build():
    """Proves and builds the program with these thresholds, in a copy over the libraries that are built."""
    below = crates.libraries_below()
    with tempfile.TemporaryDirectory(prefix="forced-") as folder:
        room = f"{folder}/room"
        crates.copy_sources(room)
        crates.link_libraries(crates.TOP, room, [it for it in crates.all_below("cmbsim", below) if it != "cmb_sim"])
        force(f"{room}/crates/cmb_sim/src/tuning.rt")
        for name, words in (("cmb_sim", ["rt", "lib"]), ("cmbsim", ["rt", "run", "--jobs", "1", "--", "--help"])):
            subprocess.run(words, cwd=f"{room}/crates/{name}", check=True, stdin=subprocess.DEVNULL, stdout=sys.stderr)
        shutil.copy2(f"{room}/crates/cmbsim/out/cmbsim", MADE)


def check(tally, name, program):
    """One circuit, of all nets and of the outputs, by each number of threads in each mode, against one thread's text."""
    folder = Folder(name)
    words = lambda mode, threads, nets: [program, "run", *folder.options, *nets, "--mode", mode, "--threads", str(threads)]
    for nets in ([], ["--only-outputs"]):
        wanted = run(words("rounds", 1, nets), folder.netlist, 60)
        for mode in ("rounds", "free"):
            for threads, answer in each(lambda it: run(words(mode, it, nets), folder.netlist, 60), THREADS):
                tally.check(answer == wanted, lambda: f"{folder.name} {nets}, {mode} by {threads}: {answer}")


def main():
    parser = argparse.ArgumentParser()
    parser.add_argument("--random", type=int, default=300)
    parser.add_argument("--seed", type=int, default=1)
    parser.add_argument("--program")
    parser.add_argument("folders", nargs="*")
    options = parser.parse_args()
    if not options.program:
        build()
    tally = Tally()
    with tempfile.TemporaryDirectory(prefix="forced-") as room:
        for i in range(options.random):
            name = write_random(random.Random(f"{options.seed}/{i}"), f"{room}/{i}")
            check(tally, name, options.program or MADE)
            shutil.rmtree(name)
    for name in options.folders:
        check(tally, name, options.program or MADE)
    tally.end()


if __name__ == "__main__":
    main()
