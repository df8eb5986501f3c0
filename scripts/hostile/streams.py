#!/usr/bin/env -S python3 -B
"""streams.py [CASE..]: fails each read of the built program in turn, and its output after each number of bytes.

Reads and writes take one byte a call, a few, or what they like. A read that fails is fault 61 at its input with
nothing written; an output that fails after n bytes is fault 62 at n with the first n bytes of the text.
CASE names cases that are run alone.
"""
import errno
import os
import subprocess

from tools import HERE, PROGRAM, Answer, Files, Tally, clocks, compared, each, example, levels, listed, measured, measured_list, modes, outputs, parted, picked, run, toggle

SECONDS = 60
# In the order in which they are read.
INPUTS = {"netlist": 1, "delays": 2, "stimuli": 3, "clocks": 4, "initial": 6, "only": 5, "expected": 7}


def streamed(words, netlist, shim, **settings):
    env = dict(os.environ, LD_PRELOAD=shim, **{"STREAMS_" + name: str(value) for name, value in settings.items()})
    return run(words, netlist, SECONDS, env)


def line(number, place):
    return b"cmbsim: fault %d at %d\n" % (number, place)


def reads_of(case, most):
    """The input of each read, in order: those that give bytes, and the one that tells the end."""
    for name, number in INPUTS.items():
        data = case.netlist if name == "netlist" else case.tables.get(name)
        if data is not None:
            yield from [number] * (-(-len(data) // most) + 1)


def check_reads(tally, name, words, case, shim, most):
    inputs = list(reads_of(case, most))
    wanted = [Answer(1, b"", line(61, number)) for number in inputs] + [case.whole()]
    work = lambda at: streamed(words, case.netlist, shim, MOST=most, READ=at + 1, WITH=errno.EIO)
    for at, answer in each(work, range(len(wanted))):
        tally.check(answer == wanted[at], lambda: f"{name}: read {at + 1} of {most} bytes fails: {answer}")


def check_writes(tally, name, words, case, shim, most):
    length = len(case.expected)
    error = errno.ENOSPC if most % 2 else errno.EPIPE
    work = lambda room: streamed(words, case.netlist, shim, MOST=most, ROOM=room, WITH=error)
    for room, answer in each(work, range(length + 1)):
        wanted = case.whole() if room == length else Answer(1, case.expected[:room], line(62, room))
        tally.check(answer == wanted, lambda: f"{name}: room for {room} bytes, {most} a call: {answer}")


def main():
    tally, files = Tally(), Files()
    shim = files.path("streams.so")
    subprocess.run(["gcc", "-O2", "-shared", "-fPIC", "-o", shim, os.path.join(HERE, "streams.c")], check=True)
    for case in picked([toggle(), clocks(), levels(), example("inverter"), listed(), outputs(), parted(), measured(), measured_list(), compared()]):
        before = tally.passed
        threads = (3,) if case.is_whole_first() else ()
        for mode, more in modes(rounds=((1, 1), (2, 2)), free=((1, 1), (2, 2), (3, 3)), threads=threads).items():
            words, name = [PROGRAM] + files.words(case) + more, f"{case.name}, {mode}"
            for most in (1, 7):
                check_reads(tally, name, words, case, shim, most)
            for most in (1, 10, 1000):
                check_writes(tally, name, words, case, shim, most)
        print(f"{case.name}: {tally.passed - before} runs as they have to be", flush=True)
    tally.end()


if __name__ == "__main__":
    main()
