"""What the scripts of this folder share: the program, its modes, the cases, and the count of what passed.

CMBSIM names the program, out/cmbsim if it isn't set. JOBS says how many runs go on at once, half of the processors if
it isn't set.
"""
import concurrent.futures
import importlib.util
import io
import os
import subprocess
import sys
import tempfile

HERE = os.path.dirname(os.path.abspath(__file__))
ROOT = os.path.dirname(os.path.dirname(HERE))
PROGRAM = os.path.abspath(os.environ.get("CMBSIM", os.path.join(ROOT, "out", "cmbsim")))
JOBS = int(os.environ.get("JOBS", "0")) or max(1, (os.cpu_count() or 2) // 2)
TABLES = ("delays", "stimuli", "clocks", "initial")

# Each fault that the program can have, with the kind of its place.
PLACES = {
    "line": {1, 2, 3, 4, 5, 6, 7, 8},
    "line of a list": {38},
    "record": {23, 24, 25, 26, 27, 28, 29, 30, 31, 32, 34, 35, 36, 37, 39},
    "nothing": {20, 21, 22, 33, 40, 54, 70},
    "input": {60, 61},
    "bytes": {62},
    "net": {53},
}


class Case:
    """A netlist, the words of a line, the files by the options that take them, the whole text where it is known, the task, and how it ends."""

    def __init__(self, name, netlist, words, tables=None, expected=None, task="run", status=0, err=b""):
        self.name = name
        self.netlist = netlist
        self.words = words
        self.tables = tables or {}
        self.expected = expected
        self.task = task
        self.status = status
        self.err = err

    def whole(self):
        """The whole answer, where it is known."""
        return Answer(self.status, self.expected, self.err)

    def is_whole_first(self):
        """Whether the text is made whole before any of it is written, in each mode: one with scopes, and a table."""
        return self.task != "run" or "--scopes" in self.words


class Answer:
    """What a run wrote and how it ended; status is None where it didn't end in time."""

    def __init__(self, status, out, err):
        self.status = status
        self.out = out
        self.err = err

    def __eq__(self, other):
        return (self.status, self.out, self.err) == (other.status, other.out, other.err)

    def fault(self):
        """The number and the place of a fault, None where the answer isn't one."""
        words = self.err.split(b" ")
        if self.status != 1 or len(words) != 5 or words[:2] != [b"cmbsim:", b"fault"] or words[3] != b"at":
            return None
        if not self.err.endswith(b"\n") or not words[2].isdigit() or not words[4][:-1].isdigit():
            return None
        return int(words[2]), int(words[4])

    def __str__(self):
        if self.status is None:
            return "no end in time"
        return f"status {self.status}, {len(self.out)} bytes, {self.err[:100]!r}"


class Tally:
    """Counts what passed, and prints the first of what didn't."""

    def __init__(self, shown=20):
        self.passed = 0
        self.failed = 0
        self.shown = shown

    def check(self, passed, what):
        if passed:
            self.passed += 1
            return True
        self.failed += 1
        if self.failed <= self.shown:
            print("FAILED:", what() if callable(what) else what, flush=True)
        return False

    def end(self):
        print(f"{self.passed} passed, {self.failed} failed")
        sys.exit(1 if self.failed else 0)


def run(words, netlist, seconds=60, env=None, pass_fds=()):
    """One run of a program, with these words and this standard input."""
    try:
        done = subprocess.run(words, input=netlist, capture_output=True, timeout=seconds, env=env, pass_fds=pass_fds)
    except subprocess.TimeoutExpired:
        return Answer(None, b"", b"")
    return Answer(done.returncode, done.stdout, done.stderr)


def oracle_of(path):
    """What answers a line and a netlist in the program's place: another program, or a Python file with a function run_program."""
    if not path.endswith(".py"):
        return lambda words, netlist: run([path] + words, netlist)
    spec = importlib.util.spec_from_file_location("oracle", path)
    module = importlib.util.module_from_spec(spec)
    spec.loader.exec_module(module)
    return lambda words, netlist: Answer(*module.run_program(words, io.BytesIO(netlist)))


def has_free():
    """Whether the program has the mode free."""
    return run([PROGRAM, "run", "--horizon", "1", "--mode", "free"], b"").status == 0


def modes(rounds=((1, 1), (2, 3)), free=((2, 3),), threads=()):
    """The words of each mode, by a name for it: rounds and free by their workers and clusters, and by threads that share the work."""
    found = {"plain": ["--mode", "plain"]}
    named = [("rounds", rounds)] + ([("free", free)] if has_free() else [])
    for mode, sizes in named:
        for workers, clusters in sizes:
            found[f"{mode} {workers}/{clusters}"] = ["--mode", mode, "--workers", str(workers), "--clusters", str(clusters)]
        for count in threads:
            found[f"{mode} by {count} threads"] = ["--mode", mode, "--threads", str(count)]
    return found


def read(*path):
    with open(os.path.join(ROOT, *path), "rb") as file:
        return file.read()


def example(name):
    """A case of the folder examples."""
    folder = os.path.join("examples", name)
    tables = {table: read(folder, table + ".csv") for table in TABLES if os.path.exists(os.path.join(ROOT, folder, table + ".csv"))}
    words = read(folder, "options").decode().split()
    return Case(name, read(folder, "netlist.bench"), words, tables, read(folder, "expected.vcd"))


def text(names, body):
    """The whole text of at most 94 nets: their names, and the lines behind the header, with $dumpvars and its $end left out."""
    lines = ["$version cmbsim 1 $end", "$timescale 1 ns $end", "$scope module top $end"]
    lines += [f"$var wire 1 {chr(33 + i)} {name} $end" for i, name in enumerate(names.split())]
    lines += ["$upscope $end", "$enddefinitions $end", "#0", "$dumpvars"]
    words = body.split()
    first = next(i for i in range(1, len(words)) if words[i].startswith("#"))
    lines += words[1:first] + ["$end"] + words[first:]
    return "".join(line + "\n" for line in lines).encode()


def toggle():
    """A flip-flop that is fed its own value, inverted."""
    body = '#0 0! x" #1 1" #3 1! #4 0" #7 0! #8 1" #11 1! #12'
    words = ["--horizon", "12", "--clock", "2:4", "--init", "0"]
    return Case("toggle", b"q = DFF(d)\nd = NOT(q)\n", words, {}, text("q d", body))


def clocks():
    """Two flip-flops of which the second has a clock of its own, with a table of each kind."""
    body = '#0 0! 0" 0# #3 1! #7 1" #8 1# #12'
    tables = {
        "delays": b"by,name,delay\nkind,DFF,1\npin,q:1,1\nnet,p,1\n",
        "stimuli": b'tick,net,value\n0,a,0\n3,"a",1\n',
        "clocks": b"net,first,period\nq,4,3\n",
    }
    words = ["--horizon", "12", "--clock", "2:4", "--init", "0"]
    return Case("clocks", b"INPUT(a)\np = DFF(a)\nq = DFF(p)\n", words, tables, text("a p q", body))


def levels():
    """Of `clocks` the second flip-flop begins with a level of its own."""
    case = clocks()
    tables = dict(case.tables, initial=b"net,value\nq,1\n")
    return Case("levels", case.netlist, case.words, tables, text("a p q", '#0 0! 0" 1# #3 1! #5 0# #7 1" #8 1# #12'))


def listed():
    """Of `clocks` the nets that a list names, the last of them first and twice."""
    case = clocks()
    tables = dict(case.tables, only=b"q # twice\na\nq\n")
    return Case("listed", case.netlist, case.words, tables, text("a q", '#0 0! 0" #3 1! #8 1" #12'))


def outputs():
    """Of `clocks` the one output, which doesn't ask for the last net."""
    case = clocks()
    return Case("outputs", b"OUTPUT(p)\n" + case.netlist, case.words + ["--only-outputs"], case.tables, text("p", "#0 0! #7 1! #12"))


def parted():
    """Of `clocks` with other names, the nets in modules and as bits of buses."""
    case = clocks()
    tables = {
        "delays": b"by,name,delay\nkind,DFF,1\npin,q[0]:1,1\nnet,cpu.p,1\n",
        "stimuli": b"tick,net,value\n0,a,0\n3,a,1\n",
        "clocks": b"net,first,period\nq[0],4,3\n",
    }
    plain = b'$var wire 1 " p $end\n$var wire 1 # q $end\n'
    scoped = b'$var wire 1 # q [0] $end\n$scope module cpu $end\n$var wire 1 " p $end\n$upscope $end\n'
    netlist = b"INPUT(a)\ncpu.p = DFF(a)\nq[0] = DFF(cpu.p)\n"
    return Case("parted", netlist, case.words + ["--scopes"], tables, case.expected.replace(plain, scoped))


def measured():
    """How active the nets of `clocks` are."""
    case = clocks()
    return Case("measured", case.netlist, case.words, case.tables, b"net,changes,low,high,unknown\na,1,3,9,0\np,1,7,5,0\nq,1,8,4,0\n", "activity")


def measured_list():
    """How active those are that the list of `listed` names."""
    case = listed()
    return Case("measured list", case.netlist, case.words, case.tables, b"net,changes,low,high,unknown\na,1,3,9,0\nq,1,8,4,0\n", "activity")


def compared():
    """What came of `clocks` otherwise than a table expects."""
    case = clocks()
    tables = dict(case.tables, expected=b'tick,net,value\n11,q,0\n0,a,0\n7,"p",X\n6,p,1\n7,a,1\n')
    text = b"tick,net,expected,value\n11,q,0,1\n7,p,x,1\n6,p,1,0\n"
    return Case("compared", case.netlist, case.words, tables, text, "expect", 3, b"3 of 5 rows differ\n")


def picked(cases):
    """Those of the cases that the script's words name, all where there are no words."""
    return [case for case in cases if case.name in (sys.argv[1:] or [case.name])]


class Files:
    """A folder for the tables of cases, removed at the end."""

    def __init__(self):
        self.room = tempfile.TemporaryDirectory(prefix="cmbsim-hostile-")
        self.count = 0

    def path(self, name):
        return os.path.join(self.room.name, name)

    def write(self, name, data):
        with open(self.path(name), "wb") as file:
            file.write(data)
        return self.path(name)

    def words(self, case):
        """The words of a case's line, its tables written to files."""
        words = [case.task] + case.words
        for table, data in case.tables.items():
            words += ["--" + table, self.write(f"{case.name}.{table}.csv", data)]
        return words


def each(work, items):
    """Does the work on each item, some at once, and gives each item with what came of it, in order."""
    with concurrent.futures.ThreadPoolExecutor(JOBS) as pool:
        waiting = []
        for item in items:
            waiting.append((item, pool.submit(work, item)))
            if len(waiting) >= 4 * JOBS:
                done, future = waiting.pop(0)
                yield done, future.result()
        for done, future in waiting:
            yield done, future.result()
