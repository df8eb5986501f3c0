#!/usr/bin/env python3
"""build.py PROGRAM: proves and builds the program and all crates that it stands on, and puts it at out/PROGRAM. What has
changed is proved, over what an earlier run left: the first time that is all of it. Crates that don't stand on one another
are proved side by side. Where neither a source nor the toolchain has changed since the last time, nothing is done. What the
toolchain says goes to standard error, so that standard output stays the program's own. The environment variable CPU names
the processor that the program is compiled for, as the toolchain's --cpu does; without it the toolchain's own choice stays."""
import hashlib
import os
import shutil
import subprocess
import sys

import crates
import prove


def sum_of(names, cpu):
    """A sum of the toolchain's version, of the processor that is compiled for, and of all sources of these crates."""
    whole = hashlib.sha256(subprocess.run(["rt", "version"], check=True, stdout=subprocess.PIPE).stdout)
    whole.update(cpu.encode())
    for name in sorted(names):
        for at, folders, files in os.walk(f"{crates.TOP}/crates/{name}"):
            folders[:] = sorted(set(folders) & set(crates.SOURCES) if at.endswith(f"crates/{name}") else folders)
            for file in sorted(files):
                path = os.path.join(at, file)
                with open(path, "rb") as it:
                    whole.update(repr((os.path.relpath(path, crates.TOP), it.read())).encode())
    return whole.hexdigest()


def run(words, folder):
    return subprocess.run(words, cwd=folder, stdin=subprocess.DEVNULL, stdout=sys.stderr).returncode


def build(name, below, made, cpu):
    """Proves what has changed, and builds the program for a processor."""
    status = prove.prove(set(crates.all_below(name, below)), below)
    folder = f"{crates.TOP}/crates/{name}"
    # A program is little, and reads 4 GB of its libraries first: more jobs would be copies of a process that large.
    words = ["rt", "run", *([f"--cpu={cpu}"] if cpu else []), "--jobs", "1", "--", "--help"]
    status = status or run(words, folder)
    if status == 0:
        shutil.copy2(f"{folder}/out/{name}", made)
    return status


def main(name):
    below = crates.libraries_below()
    names = [*crates.all_below(name, below), name]
    made = f"{crates.TOP}/out/{name}"
    os.makedirs(os.path.dirname(made), exist_ok=True)
    cpu = os.environ.get("CPU", "")
    now = sum_of(names, cpu)
    if os.path.isfile(made) and os.path.isfile(f"{made}.sum"):
        with open(f"{made}.sum", encoding="utf-8") as it:
            if it.read() == now:
                return 0
    status = build(name, below, made, cpu)
    if status == 0:
        with open(f"{made}.sum", "w", encoding="utf-8") as it:
            it.write(now)
    return status


if __name__ == "__main__":
    sys.exit(main(*sys.argv[1:]))
