#!/usr/bin/env -S python3 -B
"""refuse_each.py [CASE..]: runs the built programs with each request for memory or for a thread refused in turn.

Each request is refused alone, and with all that follow it, until a run meets none that is refused. The answer has to
be fault 70, or what it is with ample memory where the refused request wasn't needed; what was written has to be a
beginning of the whole text, and nothing in the modes that write at the end, nor where scopes or activities are asked for,
since that text is made whole before any of it is written. Where all later requests are refused too, the line of fault 70 may be
missing, since it needs memory itself. No run may last longer than 20 seconds.

Then the programs run under rising limits of their address space, where the C library itself finds no memory, for a
heap and for the stacks of threads. CASE names cases that are run alone, without all else.

PLAY_EVENTS names the program that plays events, crates/play_events/out/play_events if it isn't set.
"""
import os
import resource
import subprocess
import sys

from tools import HERE, JOBS, PROGRAM, ROOT, Answer, Case, Files, Tally, clocks, compared, each, example, levels, listed, measured, measured_list, modes, outputs, parted, picked, run, toggle

SECONDS = 20
EVENTS = os.path.abspath(os.environ.get("PLAY_EVENTS", os.path.join(ROOT, "crates", "play_events", "out", "play_events")))
LINE_70 = b"cmbsim: fault 70 at 0\n"

# Two clusters with a net each: what is played, and the replies.
TWO_CLUSTERS = b"""12 2 4 0 2
%
q = DFF(d)
d = NOT(q)
%
%
%
step 0
promise 0
look 1 0
post 0 0
deliver 1 0
step 1
post 1 5
deliver 1 7
deliver 0 0
look 1 0
"""
TWO_CLUSTERS_REPLIES = b"""piece 0 0 3 0:0
promise 0 0 1 3
ahead
post 0
clock 3
piece 1 0 4 1:1
46
45
44
old
"""


def refused(words, netlist, number, more, shim):
    """A run with a request refused: its answer, and how many were."""
    reading, writing = os.pipe()
    env = dict(os.environ, LD_PRELOAD=shim, REFUSE_AT=str(number), REFUSE_MORE=str(int(more)), REFUSE_TO=str(writing))
    answer = run(words, netlist, SECONDS, env, (writing,))
    os.close(writing)
    count = 0
    while True:
        told = os.read(reading, 65536)
        if not told:
            break
        count += len(told)
    os.close(reading)
    return answer, count


def is_right(answer, whole, more, early):
    """Whether this may be the answer to a run with a request refused, where the whole one is that."""
    if answer == whole:
        return True
    # How many rows differ may be wanting on standard error.
    if whole.status == 3 and (answer.status, answer.out, answer.err) == (3, whole.out, b""):
        return True
    if answer.status != 1 or not (answer.err == LINE_70 or (more and answer.err == b"")):
        return False
    return whole.out.startswith(answer.out) if early else answer.out == b""


def kind_of(answer, whole, count):
    """What came of a run with a request refused, for the count of them."""
    if not count:
        return "none refused"
    if answer == whole:
        return "whole"
    return ("70, told" if answer.err else "70, silent") + (" behind a beginning" if answer.out else "")


def sweep(tally, name, words, netlist, whole, shim, right, patience):
    """Refuses each request in turn, until this many runs in a row met no refusal."""
    outcomes = {}
    for more in (False, True):
        last, idle, number = 0, 0, 0
        while idle < patience:
            numbers = range(number + 1, number + 1 + 8 * JOBS)
            number += 8 * JOBS
            for at, (answer, count) in each(lambda n: refused(words, netlist, n, more, shim), numbers):
                idle = 0 if count else idle + 1
                last = at if count else last
                what = lambda: f"{name}: request {at}{' and all later' if more else ''} refused: {answer}"
                tally.check(right(answer, more) if count else answer == whole, what)
                kind = kind_of(answer, whole, count)
                outcomes[kind] = outcomes.get(kind, 0) + 1
    print(f"{name}: {last} requests; " + ", ".join(f"{kind} {n}" for kind, n in sorted(outcomes.items())), flush=True)


def limited(words, netlist, megabytes):
    """A run in an address space of so many megabytes."""
    limit = int(megabytes * 1024 * 1024)
    try:
        done = subprocess.run(words, input=netlist, capture_output=True, timeout=SECONDS, preexec_fn=lambda: resource.setrlimit(resource.RLIMIT_AS, (limit, limit)))
    except subprocess.TimeoutExpired:
        return Answer(None, b"", b"")
    except OSError as error:
        return Answer(127, b"", str(error).encode())
    return Answer(done.returncode, done.stdout, done.stderr)


def rising_limits(tally, name, words, netlist, whole, right, steps):
    """Runs in address spaces of rising size, from the least in which the program starts at all."""
    counts = {}
    for megabytes, answer in each(lambda m: limited(words, netlist, m), steps):
        # Below some size the system can't even load the program.
        if not counts and answer.status in (127, -9, -11, -6) and answer.out == b"":
            continue
        tally.check(right(answer, True), lambda: f"{name}: in {megabytes} MB: {answer}")
        kind = "whole" if answer == whole else "70"
        counts[kind] = counts.get(kind, 0) + 1
    print(f"{name}: limits of address space: " + ", ".join(f"{kind} {n}" for kind, n in sorted(counts.items())), flush=True)
    tally.check("whole" in counts and "70" in counts, f"{name}: the limits don't go from too little to enough")


def lines():
    """Lines that ask for help, that are wrong, and that have a fault."""
    return {
        "help": ["run", "--help"],
        "a wrong line": ["run", "--horizon", "0"],
        "a wrong clock": ["run", "--horizon", "10", "--clock", "2-4"],
    }


def is_right_line(answer, whole, more):
    """Where more is to be told than that memory is wanted, it may be missing, or fault 70 comes in its place."""
    told = answer.out + answer.err
    silent = answer.status == whole.status and told == b""
    return answer == whole or silent or is_right(answer, whole, more, False)


def check_program(tally, files, shim):
    for case in picked([toggle(), clocks(), levels(), example("inverter"), example("s27"), example("c17"), listed(), outputs(), parted(), measured(), measured_list(), compared()]):
        threads = (3,) if case.is_whole_first() else ()
        for mode, more_words in modes(rounds=((1, 1), (1, 2), (2, 2)), free=((1, 2), (2, 2), (3, 3)), threads=threads).items():
            words = [PROGRAM] + files.words(case) + more_words
            name = f"{case.name}, {mode}"
            whole = run(words, case.netlist)
            if not tally.check(whole == case.whole(), lambda: f"{name}: {whole}"):
                continue
            early = mode.startswith("free") and not case.is_whole_first()
            patience = 30 if mode.startswith("free") else 3
            sweep(tally, name, words, case.netlist, whole, shim, lambda a, more: is_right(a, whole, more, early), patience)


def check_lines(tally, shim):
    for name, words in lines().items():
        words = [PROGRAM] + words
        whole = run(words, b"")
        sweep(tally, name, words, b"", whole, shim, lambda a, more: is_right_line(a, whole, more), 3)


def check_faults(tally, files, shim):
    """A netlist and a list that are refused."""
    faults = {"a fault": (3, 3), "a fault of a list": (38, 2)}
    of_netlist = Case("a fault", b"INPUT(a)\n\nb = FOO(a)\n", ["--horizon", "9"])
    of_list = Case("a fault of a list", b"INPUT(a)\n", ["--horizon", "9"], {"only": b"a\nb\n"})
    for bad in picked([of_netlist, of_list]):
        for mode, more_words in modes(rounds=((1, 1),), free=((2, 2),)).items():
            words = [PROGRAM] + files.words(bad) + more_words
            whole = run(words, bad.netlist)
            tally.check(whole.fault() == faults[bad.name], lambda: f"{bad.name}, {mode}: {whole}")
            sweep(tally, f"{bad.name}, {mode}", words, bad.netlist, whole, shim, lambda a, more: is_right_line(a, whole, more), 3)


def check_limits(tally):
    """A chain whose run needs some memory, with no worker's thread, with a few and with many."""
    chain = b"INPUT(a)\nn0 = BUFF(a)\n" + b"".join(b"n%d = NOT(n%d)\n" % (i, i - 1) for i in range(1, 3000))
    sizes = dict(rounds=((1, 1), (4, 4), (64, 64)), free=((2, 2), (64, 64)))
    for mode, more_words in modes(**sizes).items():
        words = [PROGRAM, "run", "--horizon", "900"] + more_words
        whole = run(words, chain)
        tally.check(whole.status == 0, lambda: f"a chain, {mode}: {whole}")
        early = mode.startswith("free")
        steps = [m / 4 for m in range(8, 200)] + list(range(50, 1200, 10))
        rising_limits(tally, f"a chain, {mode}", words, chain, whole, lambda a, more: is_right(a, whole, more, early), steps)


def check_events(tally, shim):
    """The events over a world: the replies, or nothing and status 1."""
    if not tally.check(os.path.exists(EVENTS), f"{EVENTS} isn't built: `rt run` in crates/play_events builds it"):
        return
    stored = open(os.path.join(ROOT, "crates", "play_events", "stdin"), "rb").read()
    replies = open(os.path.join(ROOT, "crates", "play_events", "stdout"), "rb").read()
    cases = stored.split(b"%%\n")
    for name, text, expected in (("two clusters", TWO_CLUSTERS, TWO_CLUSTERS_REPLIES), ("the first two stored cases", b"%%\n".join(cases[:2]) + b"%%\n", None)):
        whole = run([EVENTS], text)
        if expected is None:
            expected = replies[: len(whole.out)]
        if tally.check(whole == Answer(0, expected, b""), lambda: f"events, {name}: {whole}"):
            right = lambda a, more: a == whole or a == Answer(1, b"", b"")
            sweep(tally, f"events, {name}", [EVENTS], text, whole, shim, right, 3)


def main():
    tally, files = Tally(), Files()
    shim = files.path("refuse.so")
    subprocess.run(["gcc", "-O2", "-shared", "-fPIC", "-o", shim, os.path.join(HERE, "refuse.c")], check=True)
    check_program(tally, files, shim)
    check_faults(tally, files, shim)
    if not sys.argv[1:]:
        check_lines(tally, shim)
        check_events(tally, shim)
        check_limits(tally)
    tally.end()


if __name__ == "__main__":
    sys.exit(main())
