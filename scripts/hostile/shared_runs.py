#!/usr/bin/env -S python3 -B
"""shared_runs.py [CASE..]: makes it hard for runs that several threads share.

The other scripts run small circuits, for which no threads are started where `--threads` is given. Here each circuit is
so large that they are: nets that are shared out to threads, with and without what one share gives another, and a text
that threads make in turn. Where they aren't started, the script fails.

- The text has to be that of one thread, by 2 to 64 threads, also where what reads it is slow, with 128 KB of stack for
  each thread, and beside twice as many busy loops as there are processors.
- An output that fails after n bytes is fault 62 at n, with the first n bytes of the text.
- Where a request for memory or for a thread is refused, alone or with all that follow it, the answer is fault 70, or
  the whole text where the request wasn't needed. Mode rounds has written nothing then, mode free a beginning. Some 150
  requests of each run are refused, among them the first fifty and the last.

No run may last longer than a minute. CASE names cases that are run alone.
"""
import errno
import os
import subprocess
import sys
import tempfile
import time

from refuse_each import is_right, refused
from streams import line, streamed
from tools import HERE, PROGRAM, ROOT, TABLES, Answer, Case, Files, Tally, each, picked, read, run

sys.path.insert(0, os.path.join(ROOT, "bench"))
import circuits

SECONDS = 60
THREADS = (2, 3, 4, 7, 64)
MODES = ("rounds", "free")


def case_of(name, circuit):
    """A circuit of the benchmarks' kinds as a case."""
    with tempfile.TemporaryDirectory(prefix="cmbsim-hostile-") as folder:
        circuit.write(folder)
        tables = {it: read(folder, it + ".csv") for it in TABLES if os.path.exists(os.path.join(folder, it + ".csv"))}
        return Case(name, read(folder, "netlist.bench"), read(folder, "options").decode().split(), tables)


def cases():
    yield case_of("registers", circuits.lfsrs(16, 260, 128))
    yield case_of("clocked", circuits.local(3_000, 1_500))
    yield case_of("multiplier", circuits.multiplier(104, 6, circuits.UNIT))


def words_by(words, mode, threads):
    return words + ["--mode", mode, "--threads", str(threads)]


def check_texts(tally, name, words, case):
    """The text by several numbers of threads, each three times."""
    for mode in MODES:
        for threads, answer in each(lambda it: run(words_by(words, mode, it), case.netlist, SECONDS), 3 * THREADS):
            tally.check(answer == Answer(0, case.expected, b""), lambda: f"{name}, {mode} by {threads}: {answer}")


def slowly(words, netlist, pause, most=1 << 30):
    """A run whose text is read with a pause before each 256 KB, and no further than so many bytes."""
    with open(netlist, "rb") as file:
        child = subprocess.Popen(words, stdin=file, stdout=subprocess.PIPE, stderr=subprocess.PIPE)
    taken = b""
    while len(taken) < most:
        time.sleep(pause)
        more = child.stdout.read(min(1 << 18, most - len(taken)))
        taken += more
        if not more:
            break
    child.stdout.close()
    try:
        return Answer(child.wait(SECONDS), taken, child.stderr.read())
    except subprocess.TimeoutExpired:
        child.kill()
        return Answer(None, taken, b"")


def is_cut_off(answer, whole):
    """Whether this is the answer where the output took some bytes more than were read, and then failed."""
    number, place = answer.fault() or (0, 0)
    return number == 62 and len(answer.out) <= place < len(whole) and whole.startswith(answer.out)


def check_readers(tally, netlist, name, words, case):
    """What reads the text is slow, or goes away."""
    for mode in MODES:
        answer = slowly(words_by(words, mode, 4), netlist, 0.02)
        tally.check(answer == Answer(0, case.expected, b""), lambda: f"{name}, {mode}, a slow reader: {answer}")
        for most in (0, 1, 100_000):
            answer = slowly(words_by(words, mode, 4), netlist, 0.0, most)
            tally.check(is_cut_off(answer, case.expected), lambda: f"{name}, {mode}, a reader that leaves after {most} bytes: {answer}")


def check_stack(tally, name, words, case):
    """Each thread has a small stack: its size is the limit of the first one's."""
    small = ["bash", "-c", 'ulimit -s 128 && exec "$@"', "small"]
    for mode in MODES:
        answer = run(small + words_by(words, mode, 4), case.netlist, SECONDS)
        tally.check(answer == Answer(0, case.expected, b""), lambda: f"{name}, {mode}, a small stack: {answer}")


def check_busy(tally, name, words, case):
    """The machine has twice as many busy loops as processors."""
    busy = [subprocess.Popen([sys.executable, "-c", "while True: pass"]) for _ in range(2 * (os.cpu_count() or 2))]
    try:
        check_texts(tally, f"{name}, on a busy machine", words, case)
    finally:
        for loop in busy:
            loop.kill()
            loop.wait()


def rooms(length):
    """After how many bytes the output fails: the first and the last ones, and forty between."""
    return sorted({0, 1, 2, length - 2, length - 1, *range(length // 40, length, length // 40)})


def check_writes(tally, name, words, case, shim):
    for mode in MODES:
        work = lambda room: streamed(words_by(words, mode, 4), case.netlist, shim, ROOM=room, WITH=errno.ENOSPC)
        for room, answer in each(work, rooms(len(case.expected))):
            wanted = Answer(1, case.expected[:room], line(62, room))
            tally.check(answer == wanted, lambda: f"{name}, {mode}: room for {room} bytes: {answer}")


def last_request(words, netlist, shim):
    """About how many requests a run has: the largest number, of those that are halved between, at which one is refused."""
    is_met = lambda number: refused(words, netlist, number, False, shim)[1] > 0
    below, above = 1, 2
    while is_met(above):
        below, above = above, 2 * above
    while above - below > 1:
        middle = (below + above) // 2
        below, above = (middle, above) if is_met(middle) else (below, middle)
    return below


def check_refusals(tally, name, words, case, shim):
    whole = Answer(0, case.expected, b"")
    for mode in MODES:
        by_four = words_by(words, mode, 4)
        last = last_request(by_four, case.netlist, shim)
        numbers = sorted({*range(1, min(50, last)), *range(50, last, max(1, last // 100)), last - 1, last})
        met = 0
        for more in (False, True):
            for at, (answer, count) in each(lambda n: refused(by_four, case.netlist, n, more, shim), numbers):
                met += count > 0
                what = lambda: f"{name}, {mode}: request {at}{' and all later' if more else ''} refused: {answer}"
                tally.check(is_right(answer, whole, more, mode == "free") if count else answer == whole, what)
        print(f"{name}, {mode}: some {last} requests, of which one was refused in {met} runs", flush=True)


def threads_of(words, netlist):
    """The most threads that a run had at once, as the system tells it."""
    most = 0
    with open(netlist, "rb") as file:
        child = subprocess.Popen(words, stdin=file, stdout=subprocess.DEVNULL)
    while child.poll() is None:
        try:
            most = max(most, len(os.listdir(f"/proc/{child.pid}/task")))
        except OSError:
            pass
    return most


def check(tally, files, case, streams, refuse):
    before = tally.passed
    words, netlist = [PROGRAM] + files.words(case), files.write("netlist", case.netlist)
    whole = run(words, case.netlist, SECONDS)
    case.expected = whole.out
    tally.check(whole.status == 0 and whole.err == b"", lambda: f"{case.name}: {whole}")
    for mode in MODES:
        started = threads_of(words_by(words, mode, 4), netlist)
        tally.check(started > 1, f"{case.name}, {mode}: no thread was started")
    check_texts(tally, case.name, words, case)
    check_readers(tally, netlist, case.name, words, case)
    check_stack(tally, case.name, words, case)
    check_busy(tally, case.name, words, case)
    check_writes(tally, case.name, words, case, streams)
    check_refusals(tally, case.name, words, case, refuse)
    print(f"{case.name}: {tally.passed - before} as they have to be", flush=True)


def main():
    tally, files = Tally(), Files()
    shims = [files.path(name + ".so") for name in ("streams", "refuse")]
    for shim, name in zip(shims, ("streams", "refuse")):
        subprocess.run(["gcc", "-O2", "-shared", "-fPIC", "-o", shim, os.path.join(HERE, name + ".c")], check=True)
    for case in picked(cases()):
        check(tally, files, case, *shims)
    tally.end()


if __name__ == "__main__":
    main()
