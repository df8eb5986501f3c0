#!/usr/bin/env python3
"""costs.py [NAME..]: what the last proof of these crates took, or of all that have kept work: by kind of module, and the
functions that took longest. The toolchain keeps a file for each module that it checked, as soon as it did, so what a
module took is the time since the file before it, where the check had one job. With more jobs, and where only a part was
proved anew, the times say little.

costs.py --gate FILE: writes scripts/seconds.txt, what each crate takes in the gate, of what a run of the gate printed. It
should be a run of a fresh clone, on a machine that has kept nothing of an earlier one."""
import collections
import glob
import os
import re
import sys

import crates

MOST = 25
SECONDS = f"{crates.TOP}/scripts/seconds.txt"
HEAD = """# What each crate took in a run of the gate from nothing, in seconds of a processor: its proofs, its must-fail edits, its
# tests, its programs. costs.py --gate writes this file; by the first number prove.py orders the libraries.
"""
ROW = re.compile(r"\w+(?: +\d+){4}")


def modules(name):
    """The modules that were checked, each with the seconds since the one before and the bytes that were kept of it."""
    files = glob.glob(f"{crates.TOP}/crates/{name}/out/incremental/antt-checked*/*.oantt")
    kept = sorted((os.stat(it).st_mtime, os.path.getsize(it), os.path.basename(it)) for it in files)
    return [(now - before, size, it.removesuffix(".oantt")) for (before, _, _), (now, size, it) in zip(kept, kept[1:])]


def function_and_kind(name, module):
    """The function that a module is about and what of it the module has; no function where it isn't one's own."""
    _, own, rest = module.partition(f"Rattle-{name}-proofs.")
    function, _, kind = rest.rpartition(".")
    return (function, kind) if own and function else (None, "definitions, lemmas and what is read")


def write_seconds(path):
    """Writes the table that a run of the gate printed, with what else it printed about it as comments."""
    with open(path, encoding="utf-8") as file:
        said = file.read().partition("seconds of a processor, as read once a second:\n")[2].strip().split("\n")
    rows = [" ".join(it.split()) for it in said if ROW.fullmatch(it)]
    if not rows:
        sys.exit(f"costs: {path} has no table of the gate")
    rest = [f"# {it}" for it in said if it and not ROW.fullmatch(it) and not it.startswith("crate ")]
    with open(SECONDS, "w", encoding="utf-8") as file:
        file.write(HEAD + "\n".join([*rest, *rows]) + "\n")


def main(names):
    if names[:1] == ["--gate"]:
        return write_seconds(*names[1:])
    kinds, functions = collections.Counter(), collections.Counter()
    bytes_of = collections.Counter()
    for name in names or sorted(os.listdir(f"{crates.TOP}/crates")):
        total = 0
        for seconds, size, module in modules(name):
            function, kind = function_and_kind(name, module)
            kinds[kind] += seconds
            bytes_of[kind] += size
            total += seconds
            if function:
                functions[f"{name} {function}"] += seconds
        if total:
            print(f"{total:8.1f} s  {name}")
    for title, counted in (("By kind of module", kinds), ("By function", functions)):
        print(f"\n{title}:")
        for it, seconds in counted.most_common(MOST):
            size = f"  {bytes_of[it] / 1e6:7.1f} MB" if it in bytes_of else ""
            print(f"{seconds:8.1f} s{size}  {it}")


if __name__ == "__main__":
    main(sys.argv[1:])
