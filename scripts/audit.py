#!/usr/bin/env python3
"""audit.py [NAME..]: tries every edit that the prover must refuse, those of crates/*/must-fail/ and those of
crates/*/audit/, in a copy of the repository; with names, those of these crates alone. Edits of different functions are
tried at once, in these functions alone (edits.py). What isn't refused so is tried by itself, in the function that it
changes, and where that is still proved in the whole crate. Each edit gets a line:

    CRATE/EDIT: refused by a goal of FUNCTION       the changed function doesn't meet its contract
    CRATE/EDIT: refused by a goal of its caller F   the changed function does, and what stands on it doesn't
    CRATE/EDIT: FAILED: ..                          still proved; or no goal is open, and only a proof names what
                                                    the edit took away; or the edited text isn't read

The last line is 'N passed, M failed'; the status is 0 where nothing failed. Kept work of this checkout is taken over,
as far as it is up to date, so the libraries are proved first only where they have changed since."""
import concurrent.futures
import os
import re
import shutil
import subprocess
import sys
import tempfile

import crates
import prove
from edits import Edit, Source, is_open, left, open_functions, own, rounds

MEMORY_OF_A_CHECK = 4_500_000_000


def checked(folder, functions=()):
    """What a check of the crate, or of these functions alone, says, and its status."""
    words = ["rt", "check", "--jobs", "1", *(it for function in functions for it in ("--only", function))]
    ran = subprocess.run(words, cwd=folder, stdin=subprocess.DEVNULL, stdout=subprocess.PIPE, stderr=subprocess.STDOUT, text=True, errors="replace")
    return ran.returncode, ran.stdout


def with_edits(source, edits, functions=()):
    """What a check says with these edits made."""
    texts = source.changed(edits)
    try:
        source.write(texts)
        return checked(source.folder, functions)
    finally:
        source.write({file: source.text(file) for file in texts})


def at_once(source, tried):
    """Those of these edits of different functions of which a check of all of them says that a goal of their own is open, each
    with the words for it."""
    named = dict.fromkeys(function for _, functions in tried for function in functions)
    status, said = with_edits(source, [edit for edit, _ in tried], named)
    if status != 1 or "only=" not in said:
        return {}
    opened = open_functions(said, source)
    refused = {edit: [it for it in functions if it in opened and own([it], said)] for edit, functions in tried}
    return {edit: f"refused by a goal of {functions[-1]}" for edit, functions in refused.items() if functions}


def alone(source, edit):
    """Whether the prover refuses the edit by a goal, and the words for it."""
    if not edit.lines(source):
        return False, "FAILED: one of its old texts doesn't stand in the file exactly once"
    functions = [it for it in edit.functions(source) if it]
    status, said = with_edits(source, [edit], functions[-1:]) if functions else (0, "")
    if status == 1 and "only=" in said and is_open(said) and own(functions, said):
        return True, f"refused by a goal of {functions[-1]}"
    status, said = with_edits(source, [edit])
    if status == 0:
        return False, "FAILED: the crate is still proved"
    if "logic=not-proved" not in said or not left(said):
        return False, "FAILED: the edited text isn't read: " + " / ".join(said.strip().split("\n")[:3])[:300]
    if not is_open(said):
        return False, f"FAILED: no goal is open, and only a proof of {left(said)[0]} names what the edit took away"
    if own(functions, said):
        return True, f"refused by a goal of {own(functions, said)}"
    return True, f"refused by a goal of {'its caller ' if functions else ''}{left(said)[0]}"


def verdicts(source, edits):
    """Each edit, whether a goal refuses it, and the words for that."""
    tried, others = rounds(edits, source)
    for those in tried:
        refused = at_once(source, those)
        yield from ((edit, True, words) for edit, words in refused.items())
        others += [edit for edit, _ in those if edit not in refused]
    yield from ((edit, *alone(source, edit)) for edit in others)


def edits_of(crate):
    """The crate's edits, those of one file next to one another."""
    found = []
    for part in ("must-fail", "audit"):
        folder = f"{crates.TOP}/crates/{crate}/{part}"
        if os.path.isdir(folder):
            found += [Edit(crate, f"{folder}/{it}") for it in sorted(os.listdir(folder)) if it.endswith(".edit")]
    return sorted(found, key=lambda it: (it.pairs[0][0], it.name))


def copy_of(room, name, below):
    """The crate's folder in a copy of the repository, with what this checkout has kept of it and of those below it."""
    crates.copy_sources(room)
    crates.link_libraries(crates.TOP, room, crates.all_below(name, below))
    if os.path.isdir(f"{crates.TOP}/crates/{name}/out"):
        shutil.copytree(f"{crates.TOP}/crates/{name}/out", f"{room}/crates/{name}/out")
    return f"{room}/crates/{name}"


def audit(room, name, below):
    """Tries a crate's edits in a copy of its own, and gives how many were refused by a goal, and not."""
    source = Source(copy_of(room, name, below))
    passed = failed = 0
    for edit, well, words in verdicts(source, edits_of(name)):
        print(f"{name}/{edit.name}: {words}", flush=True)
        passed, failed = passed + well, failed + (not well)
    shutil.rmtree(room, ignore_errors=True)
    return passed, failed


def lanes():
    """How many crates are tried side by side, by processors and free memory."""
    with open("/proc/meminfo", encoding="utf-8") as file:
        memory = 1024 * int(re.search(r"MemAvailable:\s+(\d+)", file.read())[1])
    return max(1, min(len(os.sched_getaffinity(0)), memory // MEMORY_OF_A_CHECK))


def main(names):
    below = crates.libraries_below()
    wanted = [it for it in below if edits_of(it) and (not names or it in names)]
    if prove.prove({it for name in wanted for it in [*crates.all_below(name, below), name]}, below):
        sys.exit("audit: not everything is proved as it stands")
    longest = sorted(wanted, key=lambda it: -len(edits_of(it)) * (1 + len(crates.all_below(it, below))))
    with tempfile.TemporaryDirectory(prefix="audit-") as room, concurrent.futures.ThreadPoolExecutor(lanes()) as pool:
        runs = [pool.submit(audit, f"{room}/{it}", it, below) for it in longest]
        results = [it.result() for it in runs]
    passed, failed = sum(it[0] for it in results), sum(it[1] for it in results)
    print(f"{passed} passed, {failed} failed")
    return 1 if failed else 0


if __name__ == "__main__":
    sys.exit(main(sys.argv[1:]))
