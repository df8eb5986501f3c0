"""The repository's crates for the scripts beside this one: what crates.txt says of them, and copies of them.

The toolchain holds a crate's folder and those of the crates below it while it works there, so what is done side by
side is done in copies of the repository."""
import os
import shutil

TOP = os.path.dirname(os.path.dirname(os.path.abspath(__file__)))
SOURCES = ("src", "specs", "proofs")


def libraries_below():
    """By crate, those of the repository that it stands on, as crates.txt has them; lowest first."""
    rows = {}
    with open(f"{TOP}/crates.txt", encoding="utf-8") as lines:
        for line in filter(None, (it.partition("#")[0].strip() for it in lines)):
            head, _, uses = line.partition(":")
            rows[head.split()[0]] = uses.split()
    below = {name: [it for it in uses if it in rows] for name, uses in rows.items()}
    return dict(sorted(below.items(), key=lambda row: depth(row[0], below)))


def depth(name, below):
    return 1 + max((depth(it, below) for it in below[name]), default=0)


def all_below(name, below):
    """All that a crate stands on, lowest first."""
    found = []
    for it in below[name]:
        found += [*all_below(it, below), it]
    return list(dict.fromkeys(found))


def copy_sources(room):
    """A copy of what the toolchain reads: crates.txt, HANDLES and each crate's code, definitions and proofs."""
    os.makedirs(room)
    for file in ("crates.txt", "HANDLES"):
        shutil.copy2(f"{TOP}/{file}", room)
    for name in os.listdir(f"{TOP}/crates"):
        for part in SOURCES:
            if os.path.isdir(f"{TOP}/crates/{name}/{part}"):
                shutil.copytree(f"{TOP}/crates/{name}/{part}", f"{room}/crates/{name}/{part}")


def link_libraries(top, room, names):
    """Gives a copy the built libraries of another, as far as they are there."""
    for name in names:
        if os.path.isdir(f"{top}/crates/{name}/out/rlib"):
            shutil.copytree(f"{top}/crates/{name}/out/rlib", f"{room}/crates/{name}/out/rlib", copy_function=os.link)
