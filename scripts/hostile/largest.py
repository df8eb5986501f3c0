#!/usr/bin/env -S python3 -B
"""largest.py [WORD..]: the largest inputs and the deepest structures, in bounded time and memory.

Each case runs in mode rounds with 1 and 4 workers and 1 and 4 clusters, in mode free with 1 to 4 workers where it is
there, and in mode plain, which has to answer fault 33 where the table would be too large. A run fails
where it needs more processor time or memory than its case allows, ends with another status or line, or writes another
text than the other runs of the case. With words, only the cases whose names have one of them are run. What is
printed: the processor seconds, the seconds by the clock, and the megabytes at the peak, at least the fifteen or so of this script.

Where a change goes through many nets one after the other, against the order of their lines or between workers, the modes rounds
and free go over all nets for each of them; with more workers than one each round starts their threads, and workers of mode
free wait for one another. So such circuits run at a lesser size, for fewer ticks, or by fewer workers that have nets.

REFERENCE names another simulator that reads the same line without --mode, --workers and --clusters, if there is one;
its text then has to be the same, where it gives one.
"""
import hashlib
import os
import random
import subprocess
import sys
import time

from tools import HERE, PROGRAM, Files, Tally, has_free

REFERENCE = os.environ.get("REFERENCE")
MOST = 65_535
INPUT_LIMIT = 16_777_216
CELLS = 16_777_216
PATIENCE = 200

# The ways to run a case: by mode, workers and clusters. Wide is what a few turns or rounds bring to the end; deep is what goes
# from net to net, tick by tick; alone is one gate that does so; long is what takes long by one worker too.
PLAIN = [("plain", 1, 1)]
BY_ONE = [("rounds", 1, 1), ("rounds", 1, 4), ("rounds", 4, 1), ("free", 1, 1)]
FREELY = [("free", 2, 2), ("free", 3, 3), ("free", 4, 4)]
WIDE = BY_ONE + [("rounds", 4, 4)] + FREELY + PLAIN
DEEP = BY_ONE + [("free", 3, 1)] + PLAIN
ALONE = BY_ONE + FREELY + PLAIN
LONG = [("rounds", 1, 1), ("free", 1, 1)] + PLAIN


class Large:
    """A case: how its inputs are written, the words of its line, what it has to answer, and what it may need."""

    def __init__(self, name, netlist, words, seconds, megabytes, tables=None, status=0, line=b"", ways=WIDE):
        self.name = name
        self.netlist = netlist
        self.words = words
        self.seconds = seconds
        self.megabytes = megabytes
        self.tables = tables or {}
        self.status = status
        self.line = line
        self.ways = [way for way in ways if way[0] != "free" or has_free()]


def fill(lines, limit=INPUT_LIMIT):
    """As many of the lines as fit."""
    size = 0
    for line in lines:
        size += len(line)
        if size > limit:
            return
        yield line


def chain(order, count=MOST):
    lines = [b"n%d = BUFF(n%d)\n" % (i, i - 1) for i in range(1, count)]
    if order == "backward":
        lines.reverse()
    if order == "shuffled":
        random.Random(1).shuffle(lines)
    yield b"INPUT(n0)\n"
    yield from lines


def ring(count):
    """Buffers in a ring of which one gate takes an input too, so that a change runs round and round."""
    yield b"INPUT(a)\nn0 = NAND(a, n%d)\n" % (count - 1)
    yield from (b"n%d = BUFF(n%d)\n" % (i, i - 1) for i in range(1, count))


def readers(kind=b"NOT"):
    yield b"INPUT(a)\n"
    yield from (b"n%d = %s(a)\n" % (i, kind) for i in range(MOST - 1))


def operands(count):
    yield b"INPUT(a)\nINPUT(b)\ny = XOR(b"
    yield from (b",a" for _ in range(count - 1))
    yield b")\n"


def all_to_all(count):
    """Each gate reads every gate."""
    names = b",".join(b"n%d" % i for i in range(count))
    yield b"INPUT(a)\n"
    yield from (b"n%d = NAND(a,%s)\n" % (i, names) for i in range(count))


def long_names(count, length):
    for i in range(count):
        yield b"INPUT(" + (b"%d" % i).rjust(length, b"n") + b")\n"


def shift_register(count):
    yield b"INPUT(d)\nq0 = DFF(d)\n"
    yield from (b"q%d = DFF(q%d)\n" % (i, i - 1) for i in range(1, count))


def toggles(count):
    """Flip-flops that each turn over at every sample."""
    for i in range(count):
        yield b"q%d = DFF(d%d)\nd%d = NOT(q%d)\n" % (i, i, i, i)


def rows(header, lines):
    yield header + b"\n"
    yield from fill(lines, INPUT_LIMIT - len(header) - 1)


def stimulus_ticks(shuffled):
    ticks = list(range(1_200_000))
    if shuffled:
        random.Random(2).shuffle(ticks)
    return (b"%d,a,%d\n" % (tick, tick & 1) for tick in ticks)


def colliding(files):
    """Names that fall into one place of the table of names."""
    program, found = files.path("collide"), files.path("names")
    if not os.path.exists(found):
        subprocess.run(["gcc", "-O2", "-o", program, os.path.join(HERE, "collide.c")], check=True)
        with open(found, "wb") as names:
            subprocess.run([program, str(MOST)], stdout=names, check=True)
    with open(found, "rb") as names:
        return names.read().split()


def wide():
    rise = {"stimuli": lambda: [b"tick,net,value\n0,a,0\n5,a,1\n"]}
    first = {"stimuli": lambda: [b"tick,net,value\n0,n0,0\n5,n0,1\n"]}
    yield Large("chain of 65,534 forward", lambda: chain("forward"), ["--horizon", "65600"], 20, 200, first, ways=DEEP)
    yield Large("chain of 65,534 backward", lambda: chain("backward"), ["--horizon", "65600"], 150, 200, first, ways=LONG)
    for order in ("forward", "backward", "shuffled"):
        yield Large(f"chain of 65,534 {order}, 250 ticks", lambda: chain(order), ["--horizon", "250"], 20, 200, first)
    for order in ("backward", "shuffled"):
        yield Large(f"chain of 16,000 {order}", lambda: chain(order, 16_001), ["--horizon", "16100"], 20, 200, first, ways=DEEP)
    for order in ("forward", "backward", "shuffled"):
        yield Large(f"chain of 2,000 {order}", lambda: chain(order, 2001), ["--horizon", "2100"], 10, 100, first)
    yield Large("ring of 65,534", lambda: ring(MOST - 1), ["--horizon", "400000"], 20, 300, rise, ways=DEEP)
    yield Large("one net, 65,534 readers", readers, ["--horizon", "1000000"], 10, 200, rise)
    yield Large("one net, 65,534 readers, 250 ticks", readers, ["--horizon", "250"], 10, 200, rise)
    without_plain = [way for way in WIDE if way not in PLAIN]
    yield Large("a gate of 1,000,000 operands", lambda: operands(1_000_000), ["--horizon", "1000000"], 10, 300, rise, ways=without_plain)
    yield Large("a gate of 1,000,000 operands, 20 ticks", lambda: operands(1_000_000), ["--horizon", "20"], 10, 300, rise)
    yield Large("gates that read all, 1,500", lambda: all_to_all(1500), ["--horizon", "100"], 40, 400, rise)
    yield Large("65,535 inputs", lambda: (b"INPUT(n%d)\n" % i for i in range(MOST)), ["--horizon", "1"], 5, 100)
    yield Large("65,536 inputs", lambda: (b"INPUT(n%d)\n" % i for i in range(MOST + 1)), ["--horizon", "1"], 5, 100, status=1, line=b"cmbsim: fault 7 at 65536\n")


def deep_in_time():
    a_row = {"stimuli": lambda: [b"tick,net,value\n0,a,0\n5,a,1\n"]}
    yield Large("a ring of one inverter", lambda: [b"n = NOT(n)\n"], ["--horizon", "1000000"], 20, 100, ways=ALONE)
    yield Large("a ring of one gate, started", lambda: [b"INPUT(a)\nn = NAND(a, n)\n"], ["--horizon", "1000000"], 20, 200, a_row, ways=ALONE)
    yield Large("a ring of 64 gates, started", lambda: ring(64), ["--horizon", "1000000"], 40, 300, a_row, ways=DEEP)
    yield Large("64 flip-flops turning over", lambda: toggles(64), ["--horizon", "200000", "--clock", "2:2", "--init", "0"], 40, 600, ways=DEEP)
    yield Large("a ring of 64 gates, shorter", lambda: ring(64), ["--horizon", "10000"], 20, 100, a_row)
    yield Large("64 flip-flops turning over, shorter", lambda: toggles(64), ["--horizon", "10000", "--clock", "2:2", "--init", "0"], 20, 100)
    yield Large("a shift register of 65,534", lambda: shift_register(MOST - 1), ["--horizon", "1000", "--clock", "0:1"], 20, 300, ways=DEEP)
    yield Large("largest delays", lambda: ring(1000), ["--horizon", "1000000"], 20, 200, dict(a_row, delays=lambda: [b"by,name,delay\nkind,BUFF,1000000\nkind,NAND,999999\n"]))


def full_texts():
    names = b"," .join(b"a" for _ in range(50))
    yield Large("16 MB of blanks", lambda: fill(b" " * 65536 for _ in range(1000)), ["--horizon", "1"], 5, 100)
    yield Large("16 MB of one comment", lambda: fill([b"#" * 65536] * 1000), ["--horizon", "1"], 5, 100)
    yield Large("16 MB of parentheses", lambda: fill([b"(" * 65536] * 1000), ["--horizon", "1"], 5, 100, status=1, line=b"cmbsim: fault 2 at 1\n")
    yield Large("16 MB of outputs", lambda: fill([b"INPUT(a)\n"] + [b"OUTPUT(a)\n"] * 1_700_000), ["--horizon", "1"], 10, 400)
    yield Large("16 MB of inputs of one name", lambda: fill([b"INPUT(a)\n"] * 1_900_000), ["--horizon", "1"], 10, 400, status=1, line=b"cmbsim: fault 5 at 2\n")
    yield Large("16 MB of one name", lambda: fill([b"INPUT("] + [b"a" * 65530] * 1000), ["--horizon", "1"], 5, 100, status=1, line=b"cmbsim: fault 8 at 1\n")
    yield Large("a gate of 8,388,000 operands", lambda: operands(8_388_000), ["--horizon", "10"], 20, 1500)
    yield Large("gates with 16 MB of operands", lambda: fill([b"INPUT(a)\n"] + [b"n%d = AND(%s)\n" % (i, names) for i in range(MOST - 1)]), ["--horizon", "100"], 20, 1500)
    yield Large("names of 255 bytes, 62,000", lambda: long_names(62_000, 255), ["--horizon", "1"], 5, 200)
    yield Large("names of 256 bytes", lambda: long_names(10, 256), ["--horizon", "1"], 5, 100, status=1, line=b"cmbsim: fault 8 at 1\n")


def full_tables():
    one, flop = lambda: [b"INPUT(a)\n"], lambda: [b"INPUT(a)\nq = DFF(a)\n"]
    ten = ["--horizon", "10"]
    table = lambda name, header, lines: {name: lambda: rows(header, lines())}
    stimuli, delays, clocks = b"tick,net,value", b"by,name,delay", b"net,first,period"
    yield Large("16 MB of stimuli in order", one, ["--horizon", "1000000"], 10, 500, table("stimuli", stimuli, lambda: stimulus_ticks(False)))
    yield Large("16 MB of stimuli, shuffled", one, ["--horizon", "1000000"], 10, 500, table("stimuli", stimuli, lambda: stimulus_ticks(True)))
    yield Large("16 MB of stimuli of all inputs", lambda: (b"INPUT(n%d)\n" % i for i in range(MOST)), ten, 15, 500, table("stimuli", stimuli, lambda: (b"%d,n%d,1\n" % (i // MOST, i % MOST) for i in range(1_500_000))))
    yield Large("16 MB of one stimulus repeated", one, ten, 10, 400, table("stimuli", stimuli, lambda: [b"1,a,1\n"] * 2_800_000), 1, b"cmbsim: fault 29 at 3\n")
    yield Large("16 MB of delays of pins", lambda: operands(1_500_000), ten, 20, 700, table("delays", delays, lambda: (b"pin,y:%d,2\n" % (i + 1) for i in range(1_400_000))))
    yield Large("65,534 clocks", lambda: shift_register(MOST - 1), ["--horizon", "1000"], 20, 600, table("clocks", clocks, lambda: (b"q%d,%d,000000000%d\n" % (i, i % 7, 1 + i % 9) for i in range(MOST - 1))))
    yield Large("65,534 first levels", lambda: shift_register(MOST - 1), ["--horizon", "1000", "--clock", "1:9"], 20, 600, table("initial", b"net,value", lambda: (b"q%d,%d\n" % (i, i % 2) for i in range(MOST - 1))))
    yield Large("16 MB of empty lines", one, ten, 5, 100, {"stimuli": lambda: fill([b"\n" * 65536] * 1000)})
    yield Large("16 MB of commas", one, ten, 10, 700, {"delays": lambda: fill([b"," * 65536] * 1000)}, 1, b"cmbsim: fault 23 at 1\n")
    yield Large("16 MB in one field", one, ten, 5, 400, {"delays": lambda: fill([b"a" * 65536] * 1000)}, 1, b"cmbsim: fault 23 at 1\n")
    yield Large("16 MB in an open quote", flop, ten + ["--clock", "1:1"], 5, 400, {"clocks": lambda: fill([b'net,first,period\n"'] + [b'x""\n' * 16384] * 1000)}, 1, b"cmbsim: fault 24 at 2\n")
    for number, name in ((1, "netlist"), (2, "delays"), (3, "stimuli"), (4, "clocks"), (6, "initial")):
        over = lambda: [b" " * INPUT_LIMIT, b"\n"]
        netlist, tables = (over, None) if name == "netlist" else (one, {name: over})
        yield Large(f"a byte too many in the {name}", netlist, ten, 5, 100, tables, 1, b"cmbsim: fault 60 at %d\n" % number)
    yield Large("a row of 16 MB of blanks", one, ten, 5, 400, {"stimuli": lambda: fill([b"tick,net,value\n0,a,"] + [b" " * 65536] * 255 + [b" " * 65000 + b"1\n"])})


def collisions(files):
    inputs = lambda: (b"INPUT(%s)\n" % name for name in colliding(files))

    def far():
        last = colliding(files)[-1]
        return rows(b"tick,net,value", (b"%d,%s,1\n" % (i, last) for i in range(800_000)))

    yield Large("colliding names", inputs, ["--horizon", "1"], 15, 200)
    yield Large("16 MB of rows of colliding names", inputs, ["--horizon", "1"], 60, 500, {"stimuli": far})


class Cost:
    """What a run needed: seconds of processors and by the clock, and megabytes at the peak."""

    def __init__(self, usage, clock):
        self.seconds = usage.ru_utime + usage.ru_stime
        self.clock = clock
        self.megabytes = usage.ru_maxrss / 1024


def measured(words, netlist, out):
    """A run with its cost: status (None where it didn't end), standard error, a digest of the text and its last bytes."""
    started = time.monotonic()
    with open(netlist, "rb") as stdin, open(out, "wb") as stdout, open(out + ".err", "wb") as stderr:
        process = subprocess.Popen(words, stdin=stdin, stdout=stdout, stderr=stderr)
        while True:
            pid, status, usage = os.wait4(process.pid, os.WNOHANG)
            if pid:
                break
            if time.monotonic() - started > PATIENCE:
                process.kill()
                os.wait4(process.pid, 0)
                return None, b"", "", b"", None
            time.sleep(0.005)
    process.returncode = os.waitstatus_to_exitcode(status)
    cost = Cost(usage, time.monotonic() - started)
    digest, last = hashlib.sha256(), b""
    with open(out, "rb") as file:
        while block := file.read(1 << 20):
            digest.update(block)
            last = (last + block)[-20:]
    with open(out + ".err", "rb") as file:
        return process.returncode, file.read(200), digest.hexdigest(), last, cost


def words_of(way):
    """The words of a way to run, and its name."""
    mode, workers, clusters = way
    if mode == "plain":
        return mode, ["--mode", mode]
    return f"{mode} {workers}/{clusters}", ["--mode", mode, "--workers", str(workers), "--clusters", str(clusters)]


def nets_told(out):
    """How many nets the header of a text tells of."""
    nets = 0
    with open(out, "rb") as file:
        for line in file:
            nets += line.startswith(b"$var ")
            if line.startswith(b"$enddefinitions "):
                break
    return nets


def wanted_of(case, mode, nets):
    """The status and the line that a mode has to give: mode plain has fault 33 where there are too many cells."""
    if mode == "plain" and case.status == 0 and nets * int(case.words[1]) > CELLS:
        return 1, b"cmbsim: fault 33 at 0\n"
    return case.status, case.line


def write(files, case):
    """Writes the inputs, in a process of its own: what it needs would count as the programs' peak, which begins with that of this script."""
    child = os.fork()
    if child == 0:
        status = 1
        try:
            for name, lines in [("netlist", case.netlist)] + list(case.tables.items()):
                with open(files.path(name), "wb") as file:
                    file.writelines(lines())
            status = 0
        finally:
            os._exit(status)
    if os.waitstatus_to_exitcode(os.waitpid(child, 0)[1]) != 0:
        sys.exit(f"the inputs of {case.name} can't be written")
    return files.path("netlist")


def check(tally, files, case):
    netlist = write(files, case)
    words = ["run"] + case.words
    for table in case.tables:
        words += ["--" + table, files.path(table)]
    texts, nets = {}, None
    for mode, (way, more) in [(way[0], words_of(way)) for way in case.ways]:
        status, err, digest, last, cost = measured([PROGRAM] + words + more, netlist, files.path("out"))
        name = f"{case.name}, {way}"
        if not tally.check(cost is not None, f"{name}: no end in {PATIENCE} s"):
            continue
        print(f"{case.name:41}{way:13}{cost.seconds:9.2f} s{cost.clock:9.2f} s{cost.megabytes:8.0f} MB", flush=True)
        nets = nets_told(files.path("out")) if nets is None else nets
        tally.check((status, err) == wanted_of(case, mode, nets), f"{name}: status {status}, {err!r}")
        if status == 0:
            horizon = case.words[1].encode()
            tally.check(last.endswith(b"\n#%s\n" % horizon), f"{name}: the text ends with {last!r}")
            texts[digest] = way
        else:
            tally.check(last == b"", f"{name}: a fault, and something is written")
        tally.check(cost.seconds <= case.seconds, f"{name}: {cost.seconds:.1f} s of processors, {case.seconds} allowed")
        tally.check(cost.megabytes <= case.megabytes, f"{name}: {cost.megabytes:.0f} MB, {case.megabytes} allowed")
    tally.check(len(texts) <= 1, f"{case.name}: the texts differ: {list(texts.values())}")
    if REFERENCE and case.status == 0:
        status, _, digest, _, cost = measured([REFERENCE] + words, netlist, files.path("out"))
        if status == 0:
            print(f"{case.name:41}{'reference':13}{cost.seconds:9.2f} s{cost.clock:9.2f} s{cost.megabytes:8.0f} MB", flush=True)
            tally.check(digest in texts, f"{case.name}: the reference's text differs")


def main():
    wanted = sys.argv[1:]
    tally, files = Tally(), Files()
    print(f"{'case':41}{'mode':13}{'processors':>11}{'clock':>11}{'peak':>11}")
    for group in (wide, deep_in_time, full_texts, full_tables, lambda: collisions(files)):
        for case in group():
            if not wanted or any(word in case.name for word in wanted):
                check(tally, files, case)
    tally.end()


if __name__ == "__main__":
    main()
