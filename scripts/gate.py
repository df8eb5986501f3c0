#!/usr/bin/env python3
"""gate.py: the gate. It runs `rt ci` (every proof from nothing, the must-fail edits, the tests, the programs) and
then the program on whole files and the tools on small ones, sees that the other definitions stand apart and that the
documents name what is there and have the lists that scripts make, and says at the end what each part came to and what it
took; costs.py makes seconds.txt of that. The last line is 'N passed, M failed' over all; the status is 0 where nothing
failed.

Each check gets one job, as many checks at a time as there are processors: more jobs for one check take up to twice as
much of the processors, which other checks can use. Where RT_JOBS is set already it stays as it is.

The program is run on whole files as soon as `rt ci` has built it, in a copy of the repository, since the toolchain holds
the crates' folders until it ends. What that run says is printed behind what `rt ci` says.

Processor seconds are read from /proc once a second, of each of the toolchain's processes by its own command line,
so a process that ends between two readings lacks what it did after the last one."""
import os
import re
import shutil
import subprocess
import sys
import tempfile
import threading
import time

import crates

TOP = crates.TOP
TICKS = os.sysconf("SC_CLK_TCK")
CLOSING = re.compile(r"(\d+) passed, (\d+) failed")


def stat_of(pid):
    """A process's number and what /proc says of it from its state on, or None where it has ended."""
    try:
        with open(f"/proc/{pid}/stat", encoding="utf-8", errors="replace") as file:
            return pid, file.read().rpartition(")")[2].split()
    except OSError:
        return pid, None


def is_below(pid, now):
    """Whether a process was started by this one, or by one that was."""
    while pid in now and pid != str(os.getpid()):
        pid = now[pid][1]
    return pid == str(os.getpid())


class Meter:
    """What the checks below this process took so far, by crate and part, in seconds of a processor."""

    def __init__(self, programs):
        self.programs = programs
        self.seconds = {}
        self.stopped = threading.Event()
        self.thread = threading.Thread(target=self.read_on, daemon=True)

    def read_on(self):
        while not self.stopped.wait(1):
            now = {pid: fields for pid, fields in map(stat_of, filter(str.isdigit, os.listdir("/proc"))) if fields}
            for pid, fields in now.items():
                try:
                    if is_below(pid, now):
                        self.read(pid, fields)
                except (OSError, IndexError):
                    pass  # it has ended

    def read(self, pid, fields):
        with open(f"/proc/{pid}/cmdline", encoding="utf-8", errors="replace") as file:
            words = file.read().split("\0")
        if os.path.basename(words[0]) != "rattle" or "--crate-name" not in words:
            return
        crate = words[words.index("--crate-name") + 1]
        part = self.part(crate, words, os.readlink(f"/proc/{pid}/cwd"))
        self.seconds[pid, fields[19]] = crate, part, (int(fields[11]) + int(fields[12])) / TICKS

    def part(self, crate, words, folder):
        if os.path.basename(folder).startswith("rt-edit"):
            return "edits"
        if "--test" in words:
            return "tests"
        return "programs" if crate in self.programs else "proofs"

    def table(self):
        """The seconds by crate, then by part."""
        rows = {}
        for crate, part, seconds in self.seconds.values():
            row = rows.setdefault(crate, {})
            row[part] = row.get(part, 0) + seconds
        return rows


def run(command, counts, hear=lambda line: None, status=0):
    """Runs a command at the top of the repository, hands its lines on, and gives the numbers of its closing line. Where its
    status, or one that is given, isn't 0, something failed."""
    passed = failed = 0
    child = subprocess.Popen(command, cwd=TOP, stdin=subprocess.DEVNULL, stdout=subprocess.PIPE, text=True, errors="replace")
    for line in child.stdout:
        print(line, end="", flush=True)
        count(line, counts)
        hear(line)
        closing = CLOSING.fullmatch(line.strip())
        if closing:
            passed, failed = int(closing[1]), int(closing[2])
    status = child.wait() or status
    return passed, failed + (status != 0 and failed == 0)


class EndToEnd:
    """The program's run on whole files, which begins once `rt ci` says that the program is built."""

    BUILT = re.compile(r"rt: cmbsim (proved|is kept)")
    MADE = "crates/cmbsim/out/cmbsim"
    READ = ("bench", "docs", "examples", "scripts", "tools")

    def __init__(self, room):
        self.room, self.said, self.program, self.child, self.took = f"{room}/copy", f"{room}/said", None, None, 0.0

    def hear(self, line):
        if self.child is None and self.BUILT.match(line) and os.access(f"{TOP}/{self.MADE}", os.X_OK):
            crates.copy_sources(self.room)
            for folder in self.READ:
                shutil.copytree(f"{TOP}/{folder}", f"{self.room}/{folder}")
            self.start(self.room, shutil.copy2(f"{TOP}/{self.MADE}", f"{self.room}/program"))

    def start(self, top, program):
        began, self.program = time.monotonic(), program
        with open(self.said, "w", encoding="utf-8") as said:
            self.child = subprocess.Popen([f"{top}/scripts/end_to_end.sh", program], stdin=subprocess.DEVNULL, stdout=said)

        def wait():
            self.child.wait()
            self.took = time.monotonic() - began

        self.waiter = threading.Thread(target=wait)
        self.waiter.start()

    def end(self):
        """What the run came to; it begins here where `rt ci` built no program."""
        if self.child is None:
            subprocess.run(["scripts/build.py", "cmbsim"], cwd=TOP)
            self.start(TOP, f"{TOP}/out/cmbsim")
        self.waiter.join()
        return run(["cat", self.said], {}, status=self.child.returncode)


KINDS = [
    ("tests", re.compile(r"rt: \w+: its tests (passed|FAILED)")),
    ("programs", re.compile(r"rt: \w+ ran.*, and wrote what")),
    ("edits", re.compile(r"rt: must-fail \w+/\S+: refused, as it must be")),
    ("proofs", re.compile(r"rt: \w+(: its tests are)? proved")),
]


def count(line, counts):
    for part, said in KINDS:
        if said.match(line):
            counts[part] = counts.get(part, 0) + 1
            return


def stale(program):
    """How many of the lists that scripts make in the documents aren't what the scripts would make, and how many there are."""
    lists = [["believed.py"], ["wrong_bodies.py"], ["fault_tables.py", program], ["command_texts.py", program]]
    ran = [subprocess.run([f"scripts/{it[0]}", *it[1:], "--check"], cwd=TOP).returncode for it in lists]
    return sum(map(bool, ran)), len(lists)


def programs():
    crates = os.path.join(TOP, "crates")
    return {name for name in os.listdir(crates) if os.path.isfile(f"{crates}/{name}/src/main.rt")}


def machine():
    """The commit, the day and the processors."""
    ran = subprocess.run(["git", "log", "-1", "--format=%h"], cwd=TOP, stdout=subprocess.PIPE, text=True)
    with open("/proc/cpuinfo", encoding="utf-8") as file:
        model = re.search(r"model name\s*:\s*(.*)", file.read())
    processors = f"{len(os.sched_getaffinity(0))} processors ({model[1] if model else 'of a model that is not told'})"
    return f"commit {ran.stdout.strip()}, {time.strftime('%d %B %Y')}, {processors}"


def show(meter, counts, minutes):
    parts = ["proofs", "edits", "tests", "programs"]
    rows = meter.table()
    print("\nseconds of a processor, as read once a second:")
    print(machine())
    print(f"{'crate':<18}" + "".join(f"{part:>10}" for part in parts))
    for crate in sorted(rows):
        print(f"{crate:<18}" + "".join(f"{rows[crate].get(part, 0):>10.0f}" for part in parts))
    total = [sum(row.get(part, 0) for row in rows.values()) for part in parts]
    print(f"{'in all':<18}" + "".join(f"{it:>10.0f}" for it in total))
    for part in parts:
        print(f"{part}: {counts.get(part, 0)} passed")
    for part, took in minutes:
        print(f"{part}: {took / 60:.1f} minutes on {len(os.sched_getaffinity(0))} processors")


def main():
    meter, counts = Meter(programs()), {}
    os.environ.setdefault("RT_JOBS", str(len(os.sched_getaffinity(0))))
    meter.thread.start()
    began = time.monotonic()
    with tempfile.TemporaryDirectory(prefix="gate-") as room:
        files = EndToEnd(room)
        proved, unproved = run(["rt", "ci"], counts, files.hear)
        between = time.monotonic()
        ran, wrong = files.end()
        untrue, lists = stale(files.program)
    parts = [run([f"tools/{name}.py"], {}) for name in ("test_tools", "test_netlists", "test_vectors", "test_processor")]
    held, broken = map(sum, zip(*parts))
    apart, mixed = run(["scripts/inner.py"], {})
    named, missing = run(["scripts/documents.py"], {})
    meter.stopped.set()
    counts["end to end"] = ran
    show(meter, counts, [("rt ci", between - began), ("end to end, beside it", files.took), ("the rest", time.monotonic() - between)])
    print(f"end to end: {ran} passed")
    print(f"tools: {held} passed")
    print(f"files of definitions: {apart} passed")
    print(f"documents: {named + lists - untrue} passed")
    failed = unproved + wrong + broken + mixed + missing + untrue
    print(f"{proved + ran + held + apart + named + lists - untrue} passed, {failed} failed")
    return 1 if failed else 0


if __name__ == "__main__":
    sys.exit(main())
