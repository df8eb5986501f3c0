#!/usr/bin/env python3
"""circuits.py: the circuits that are measured, made from nothing but their sizes and a seed.

  circuits.py list [--short]
  circuits.py write NAME FOLDER [--quick | --short]

A folder gets netlist.bench, delays.csv, stimuli.csv, clocks.csv (each table only where it has rows),
options (the words for the horizon, the clock and the level before the first sample), nets (how many
there are) and netlist.v, the same circuit as Verilog.
"""
import os
import random
import shutil
import sys


class Circuit:
    """A netlist with its tables. Gates are (name, kind, operands) in the order of the netlist."""

    def __init__(self, horizon=0, clock=None, init="x"):
        self.inputs, self.gates, self.outputs = [], [], []
        self.kind_delays, self.net_delays = {}, {}
        self.stimuli, self.clocks = [], {}
        self.horizon, self.clock, self.init = horizon, clock, init

    def input(self, name):
        self.inputs.append(name)
        return name

    def gate(self, kind, *operands, name=None):
        name = name or f"n{len(self.gates)}"
        self.gates.append((name, kind, operands))
        return name

    def drive(self, tick, names, number, last):
        """Puts a number on a bus, the least bit first; rows for the bits that change."""
        for i, name in enumerate(names):
            bit = number >> i & 1
            if last.get(name) != bit:
                last[name] = bit
                self.stimuli.append((tick, name, bit))

    def adder(self, a, b, carry):
        """A full adder of five gates: the sum and the carry."""
        half = self.gate("XOR", a, b)
        total = self.gate("XOR", half, carry)
        both = self.gate("AND", a, b)
        through = self.gate("AND", half, carry)
        return total, self.gate("OR", both, through)

    def delay(self, name, kind):
        return self.net_delays.get(name, self.kind_delays.get(kind, 1))

    @property
    def nets(self):
        return len(self.inputs) + len(self.gates)

    def options(self):
        words = ["--horizon", str(self.horizon), "--init", self.init]
        if self.clock:
            words += ["--clock", f"{self.clock[0]}:{self.clock[1]}"]
        return words

    def bench(self):
        lines = [f"INPUT({x})" for x in self.inputs] + [f"OUTPUT({x})" for x in self.outputs]
        lines += [f"{name} = {kind}({', '.join(operands)})" for name, kind, operands in self.gates]
        return "\n".join(lines) + "\n"

    def delay_rows(self):
        return [("kind", k, d) for k, d in self.kind_delays.items()] + [("net", n, d) for n, d in self.net_delays.items()]

    def write(self, folder):
        os.makedirs(folder, exist_ok=True)
        tables = {
            "delays.csv": (("by", "name", "delay"), self.delay_rows()),
            "stimuli.csv": (("tick", "net", "value"), self.stimuli),
            "clocks.csv": (("net", "first", "period"), [(n, f, p) for n, (f, p) in self.clocks.items()])}
        texts = {"netlist.bench": self.bench(), "options": " ".join(self.options()) + "\n", "nets": f"{self.nets}\n", "netlist.v": verilog(self)}
        for name, (header, rows) in tables.items():
            if rows:
                texts[name] = "\n".join(",".join(map(str, row)) for row in [header] + rows) + "\n"
        for name, text in texts.items():
            with open(os.path.join(folder, name), "w") as file:
                file.write(text)


# Verilog. A tick is two units of its time, so that a flip-flop can sample when the changes of a tick are over. A
# gate is a non-blocking assignment with a delay, which lets each pulse pass, as a transport delay does; `assign
# #d` and the primitives swallow short ones. The nets are spread over modules of some hundred, since Icarus
# takes long to compile one large module.
JOIN = {"AND": " & ", "NAND": " & ", "OR": " | ", "NOR": " | ", "XOR": " ^ ", "XNOR": " ^ ", "NOT": "", "BUFF": ""}
TURNED = ("NAND", "NOR", "XNOR", "NOT")
PART = 200


def gate_line(c, ref, name, kind, operands):
    value = JOIN[kind].join(map(ref, operands))
    value = f"~({value})" if kind in TURNED else value
    return f"always @* {ref(name)}<= #{2 * c.delay(name, kind)} {value};"


def stimulus_lines(c, ref):
    """The levels of the inputs and of flip-flops before their first samples, by rising tick."""
    lines, now = [], 0
    if c.init != "x":
        lines += [f"{ref(name)}<= 1'b{c.init};" for name, kind, _ in c.gates if kind == "DFF"]
    for tick, name, level in sorted(c.stimuli, key=lambda row: row[0]):
        if tick >= c.horizon:
            break
        if tick > now:
            lines.append(f"#{2 * (tick - now)};")
            now = tick
        lines.append(f"{ref(name)}<= 1'b{level};")
    return lines


def verilog(c):
    names = c.inputs + [name for name, _, _ in c.gates]
    part = {name: i // PART for i, name in enumerate(names)}
    gates = {name: (name, kind, operands) for name, kind, operands in c.gates}
    flops, lines = {}, ["`timescale 1ns/1ns"]

    def ref(name):
        return f"top.p{part[name]}.\\{name} "
    for first in range(0, len(names), PART):
        held = names[first:first + PART]
        lines += [f"module part{first // PART};"] + [f"reg \\{name} ;" for name in held]
        lines += [gate_line(c, ref, *gates[name]) for name in held if name in gates and gates[name][1] != "DFF"]
        lines.append("endmodule")
    for name, kind, operands in c.gates:
        if kind == "DFF":
            sample = f"{ref(name)}<= #{2 * c.delay(name, kind) - 1} {ref(operands[0])};"
            flops.setdefault(c.clocks.get(name, c.clock), []).append(sample)
    lines += ["module top;"] + [f"part{i} p{i}();" for i in range(len(range(0, len(names), PART)))]
    for (first, period), samples in flops.items():
        lines += [f"initial begin #{2 * first + 1}; forever begin"] + samples + [f"#{2 * period}; end end"]
    lines += ["initial begin"] + stimulus_lines(c, ref)
    lines += ["end", 'initial begin $dumpfile("/dev/null"); $dumpvars(0, top);', f"#{2 * c.horizon}; $finish; end", "endmodule"]
    return "\n".join(lines) + "\n"


UNIT = {}
SLOW = {"XOR": 3, "AND": 2, "OR": 2}


def multiplier(bits, count, delays, gap=0, seed=1):
    """An array multiplier: a row of full adders for each bit of the second factor, fed with so many pairs."""
    c, r = Circuit(), random.Random(f"multiplier {bits} {seed}")
    a = [c.input(f"a{i}") for i in range(bits)]
    b = [c.input(f"b{i}") for i in range(bits)]
    zero = c.input("zero")
    c.kind_delays = dict(delays)
    total, product = None, []
    for y in b:
        row = [c.gate("AND", x, y) for x in a]
        if total is None:
            total = row + [zero]
        else:
            carry, sums = zero, []
            for x, old in zip(row, total[1:]):
                out, carry = c.adder(x, old, carry)
                sums.append(out)
            total = sums + [carry]
        product.append(total[0])
    c.outputs = product + total[1:]
    gap = gap or (6 if delays else 2) * (6 * bits + 4)
    last = {}
    c.drive(0, [zero], 0, last)
    for k in range(count):
        c.drive(k * gap, a, r.getrandbits(bits), last)
        c.drive(k * gap, b, r.getrandbits(bits), last)
    c.horizon = count * gap
    return c


TAPS = {16: (16, 15, 13, 4), 32: (32, 22, 2, 1)}


def lfsrs(width, cycles, banks, period=4):
    """So many shift registers with feedback, each at one of four phases of the clock."""
    c = Circuit(cycles * period, (period - 1, period), "1")
    for bank in range(banks):
        q = [f"b{bank}q{i}" for i in range(width)]
        feedback = c.gate("XOR", *(q[tap - 1] for tap in TAPS[width]), name=f"b{bank}f")
        for name, data in zip(q, [feedback] + q):
            c.gate("DFF", data, name=name)
            if bank % 4:
                c.clocks[name] = (period - 1 + bank % 4, period)
    return c


KINDS = ("NAND", "NAND", "NOR", "NOR", "AND", "OR", "NOT", "NOT", "XOR", "BUFF")


def random_sequential(gates, flops, inputs, cycles, period=60, depth=15, seed=1):
    """Layers of random gates between flip-flops, with random delays from 1 to 3."""
    r = random.Random(f"random {gates} {seed}")
    c = Circuit(cycles * period, (period - 1, period), "0")
    bus = [c.input(f"i{k}") for k in range(inputs)]
    sources = bus + [f"f{k}" for k in range(flops)]
    made, layer = [], sources
    for level in range(depth):
        new = []
        for _ in range(gates // depth + (level < gates % depth)):
            kind = r.choice(KINDS)
            pins = 1 if kind in ("NOT", "BUFF") else r.choice((2, 2, 2, 3, 4))
            new.append(c.gate(kind, *(r.choice(layer if r.random() < 0.8 else sources) for _ in range(pins))))
        made += new
        layer = new
    for k in range(flops):
        c.gate("DFF", r.choice(made[len(made) // 2:]), name=f"f{k}")
    c.net_delays = {name: r.choice((2, 2, 3)) for name in made if r.random() < 0.5}
    last = {}
    for cycle in range(cycles):
        c.drive(cycle * period, bus, r.getrandbits(inputs), last)
    return c


def pipelines(bits, stages, cycles, banks, seed=1):
    """Adders between registers, in so many independent banks."""
    r = random.Random(f"pipelines {seed}")
    period = 4 * (bits + 2)
    c = Circuit(cycles * period, (period - 1, period), "0")
    for bank in range(banks):
        a = [c.input(f"b{bank}a{i}") for i in range(bits)]
        zero = c.input(f"b{bank}zero")
        word = a
        for stage in range(stages):
            held = [c.gate("DFF", x, name=f"b{bank}s{stage}r{i}") for i, x in enumerate(word)]
            carry, word = zero, []
            for x, y in zip(a, held):
                out, carry = c.adder(x, y, carry)
                word.append(out)
        last = {}
        c.drive(0, [zero], 0, last)
        for cycle in range(cycles):
            c.drive(cycle * period, a, r.getrandbits(bits), last)
    c.stimuli.sort(key=lambda row: row[0])
    return c


def adder(bits, count, carries=1, apart=500, seed=1):
    """A ripple-carry adder with delays. The first pair makes a carry run through all bits; if there are more carries, they
    follow it before the next pair comes."""
    c, r = Circuit(), random.Random(f"adder {seed}")
    a = [c.input(f"a{i}") for i in range(bits)]
    b = [c.input(f"b{i}") for i in range(bits)]
    carry = c.input("c")
    bus = a + b + [carry]
    for x, y in zip(a, b):
        out, carry = c.adder(x, y, carry)
        c.outputs.append(out)
    c.kind_delays = dict(SLOW)
    gap, last = 4 * (2 * bits + 4), {}
    c.drive(0, bus, (1 << bits) - 1 | 1 << 2 * bits, last)
    for k in range(1, carries):
        c.drive(k * apart, bus[-1:], (k + 1) % 2, last)
    begin = (carries - 1) * apart
    for k in range(1, count):
        c.drive(begin + k * gap, bus, r.getrandbits(2 * bits + 1), last)
    c.horizon = begin + count * gap
    return c


def rings(count, horizon, idle):
    """Rings of one gate that change at each tick, beside a tree of gates that stand still after some ticks."""
    c = Circuit(horizon)
    enable = c.input("e")
    for k in range(count):
        c.gate("NAND", enable, f"y{k}", name=f"y{k}")
    c.stimuli = [(0, enable, 0), (1, enable, 1)]
    nodes = [enable]
    for k in range(idle):
        nodes.append(c.gate("NOT", nodes[k // 2], name=f"idle{k}"))
    return c


class Hierarchy:
    """Places of nets in a binary tree of blocks. A net's operands come from the least block that holds both with a
    chance that falls by level, so that a block of n nets has about n ** RENT connections to the outside (B. S. Landman
    and R. L. Russo, On a pin versus block relationship, 1971)."""

    RENT, DEPTH, STEP = 0.65, 18, 4

    def __init__(self, nets, seed):
        self.random, self.nets = random.Random(seed), nets
        self.levels = (nets - 1).bit_length()
        self.depth = [0] * nets

    def near(self, net, below):
        """Another net, near in the tree; where a depth is given, one of a depth below it, a register's or not far below."""
        level = 1
        while level < self.levels and self.random.random() < 2 ** (self.RENT - 1):
            level += 1
        while True:
            for _ in range(12):
                other = (net >> level << level) + self.random.randrange(1 << level)
                if other < self.nets and other != net and self.fits(other, below):
                    return other
            level = min(level + 1, self.levels)

    def fits(self, other, below):
        return below is None or self.depth[other] == 0 or below - self.STEP <= self.depth[other] < below


SHARES = (["NAND", "NOR", "AND", "OR", "XOR", "NOT", "XNOR"], [24, 16, 14, 10, 18, 10, 8])


def local(nets, cycles, inputs=64, period=60, seed=7):
    """A clocked circuit with the locality of real ones: one net in seven is a flip-flop, and gates are 18 deep."""
    c, tree = Circuit(cycles * period, (period - 1, period), "0"), Hierarchy(nets, seed)
    r = tree.random
    kinds = ["DFF" if r.random() < 0.14 else r.choices(*SHARES)[0] for _ in range(nets)]
    for net in r.sample(range(nets), inputs):
        kinds[net] = "INPUT"
    tree.depth = [0 if kind in ("DFF", "INPUT") else r.randint(1, tree.DEPTH) for kind in kinds]
    names = [f"n{net}" for net in range(nets)]
    buses = [c.input(names[net]) for net in range(nets) if kinds[net] == "INPUT"]
    order = [net for net in range(nets) if kinds[net] != "INPUT"]
    r.shuffle(order)
    for net in order:
        kind = kinds[net]
        if kind == "DFF":
            c.gate(kind, names[tree.near(net, None)], name=names[net])
            continue
        count = 1 if kind == "NOT" else 2 if kind in ("XOR", "XNOR") else r.choices([2, 3, 4], [75, 18, 7])[0]
        read = sorted({tree.near(net, tree.depth[net]) for _ in range(count)})
        c.gate(kind if len(read) > 1 or kind == "NOT" else "BUFF", *(names[other] for other in read), name=names[net])
    last = {}
    for cycle in range(cycles):
        c.drive(cycle * period, buses, r.getrandbits(len(buses)), last)
    return c


# A program for the processors below: each row is an operation, the register that it writes, the two that it reads and a
# number. It counts, mixes what it has with what the neighbour puts out, and keeps some of it in its memory.
PROGRAM = (
    ("set", 1, 0, 0, 1), ("set", 2, 0, 0, 0x9e37), ("set", 3, 0, 0, 40),
    ("add", 4, 4, 2, 0), ("turn", 5, 4, 0, 0), ("xor", 4, 4, 5, 0), ("read", 6, 0, 0, 0), ("xor", 7, 6, 4, 0),
    ("store", 0, 8, 7, 0), ("add", 8, 8, 1, 0), ("load", 9, 4, 0, 0), ("add", 10, 10, 9, 0),
    ("put", 0, 0, 10, 0), ("less", 3, 3, 1, 0), ("jump", 0, 3, 0, 3), ("jump", 0, 1, 0, 2))


def chosen(c, places, rows):
    """Of so many rows of bits the one whose number stands at the places, the least first."""
    for place in places:
        other = c.gate("NOT", place)
        rows = [[c.gate("OR", c.gate("AND", a, other), c.gate("AND", b, place)) for a, b in zip(*pair)] for pair in zip(rows[::2], rows[1::2])]
    return rows[0]


def decoded(c, places):
    """For each number that the places can have whether they have it."""
    sides = [(c.gate("NOT", place), place) for place in places]
    return [c.gate("AND", *(side[number >> i & 1] for i, side in enumerate(sides))) for number in range(1 << len(places))]


def kept(c, name, writes, data):
    """Registers that get the data where they are written; each is named before its bits are."""
    rows = [[f"{name}{k}b{i}" for i in range(len(data))] for k in range(len(writes))]
    for row, write in zip(rows, writes):
        other = c.gate("NOT", write)
        for bit, new in zip(row, data):
            c.gate("DFF", c.gate("OR", c.gate("AND", bit, other), c.gate("AND", new, write)), name=bit)
    return rows


def processor(c, name, neighbour, zero, one, width=16, memory=6):
    """A processor that does one row of PROGRAM in each cycle."""
    at = [f"{name}at{i}" for i in range(4)]
    rows = decoded(c, at)

    def rom(column, count):
        held = [[rows[k] for k, row in enumerate(PROGRAM) if row[column] >> i & 1] for i in range(count)]
        return [c.gate("OR", *bits) if len(bits) > 1 else c.gate("BUFF", *(bits or [zero])) for bits in held]
    does = {op: c.gate("OR", zero, *(rows[k] for k, row in enumerate(PROGRAM) if row[0] == op)) for op in sorted({row[0] for row in PROGRAM})}
    names = [[f"{name}r{k}b{i}" for i in range(width)] for k in range(16)]
    a, b, number = (chosen(c, rom(2, 4), names), chosen(c, rom(3, 4), names), rom(4, width))
    cells = [[f"{name}m{k}b{i}" for i in range(width)] for k in range(1 << memory)]
    turned = [c.gate("XOR", bit, does["less"]) for bit in b]
    carry, total = does["less"], []
    for x, y in zip(a, turned):
        out, carry = c.adder(x, y, carry)
        total.append(out)
    sums = c.gate("OR", does["add"], does["less"])
    ways = [(does["set"], number), (sums, total), (does["turn"], a[-5:] + a[:-5]), (does["read"], neighbour),
            (does["xor"], [c.gate("XOR", x, y) for x, y in zip(a, b)]), (does["load"], chosen(c, a[:memory], cells))]
    result = [c.gate("OR", *(c.gate("AND", way, bits[i]) for way, bits in ways)) for i in range(width)]
    writes = c.gate("OR", *(way for way, _ in ways))
    kept(c, f"{name}r", [c.gate("AND", writes, row) for row in decoded(c, rom(1, 4))], result)
    kept(c, f"{name}m", [c.gate("AND", does["store"], row) for row in decoded(c, a[:memory])], b)
    kept(c, f"{name}out", [does["put"]], b)
    jumps = c.gate("AND", does["jump"], c.gate("OR", *a))
    step = one
    for place, target in zip(at, number):
        onward = c.gate("XOR", place, step)
        step = c.gate("AND", place, step)
        c.gate("DFF", chosen(c, [jumps], [[onward], [target]])[0], name=place)


def processors(cores, cycles, period=50):
    """Processors in a ring, each of which reads what the one before it puts out; they begin with all registers 0."""
    c = Circuit(cycles * period, (period - 1, period), "0")
    zero, one = c.input("zero"), c.input("one")
    c.drive(0, [zero, one], 2, {})
    for core in range(cores):
        processor(c, f"p{core}", [f"p{(core - 1) % cores}out0b{i}" for i in range(16)], zero, one)
    return c


def reading(name, quick=False):
    """The files of a circuit with a horizon of one tick: it takes little but to read them."""
    c = make(name, quick)
    c.horizon = 1
    return c


# Each with its measured and its quick size. The C simulator takes half a second or more for a measured one, which is
# mostly simulation; the last ones are for reading.
ALL = {
    "multiplier 64": (lambda: multiplier(64, 40, UNIT), lambda: multiplier(16, 6, UNIT)),
    "multiplier 104": (lambda: multiplier(104, 10, UNIT), lambda: multiplier(24, 4, UNIT)),
    "multiplier 64, delays": (lambda: multiplier(64, 25, SLOW), lambda: multiplier(16, 4, SLOW)),
    "600 LFSRs of 16": (lambda: lfsrs(16, 10_000, 600), lambda: lfsrs(16, 60, 60)),
    "1900 LFSRs of 32": (lambda: lfsrs(32, 1_200, 1900), lambda: lfsrs(32, 12, 190)),
    "random, s38417": (lambda: random_sequential(22179, 1636, 28, 3_000), lambda: random_sequential(2217, 163, 28, 30)),
    "clocked, local": (lambda: local(30_000, 3_000), lambda: local(3_000, 30)),
    "1 processor": (lambda: processors(1, 5_000), lambda: processors(1, 100)),
    "4 processors": (lambda: processors(4, 4_000), lambda: processors(2, 50)),
    "40 pipelines": (lambda: pipelines(16, 8, 1_000, 40), lambda: pipelines(16, 8, 10, 4)),
    "adder 4000": (lambda: adder(4000, 4, 1_600), lambda: adder(200, 4, 20)),
    "50 rings": (lambda: rings(50, 1_000_000, 0), lambda: rings(4, 2_000, 0)),
    "50 rings, 20000 idle": (lambda: rings(50, 1_000_000, 20_000), lambda: rings(4, 1_000, 2_000)),
    "reading multiplier 104": (lambda: reading("multiplier 104"), lambda: reading("multiplier 104", True)),
    "reading clocked, local": (lambda: reading("clocked, local"), lambda: reading("clocked, local", True)),
}

# The sizes that older figures have, of which reading is a large part.
SHORT = {
    "multiplier 64": lambda: multiplier(64, 6, UNIT),
    "multiplier 104": lambda: multiplier(104, 4, UNIT),
    "multiplier 64, delays": lambda: multiplier(64, 4, SLOW),
    "600 LFSRs of 16": lambda: lfsrs(16, 600, 600),
    "1900 LFSRs of 32": lambda: lfsrs(32, 120, 1900),
    "random, s38417": lambda: random_sequential(22179, 1636, 28, 300),
    "clocked, local": lambda: local(30_000, 300),
    "40 pipelines": lambda: pipelines(16, 8, 60, 40),
    "adder 4000": lambda: adder(4000, 4),
    "ring": lambda: rings(1, 1_000_000, 0),
    "ring, 20000 idle": lambda: rings(1, 1_000_000, 20_000),
}


def given():
    """Circuits of one's own: by name the folders that the environment variable CIRCUITS names, with a colon between
    them, each with netlist.bench, options and the tables that it has."""
    folders = [it for it in os.environ.get("CIRCUITS", "").split(":") if it]
    return {os.path.basename(os.path.normpath(it)): it for it in folders}


def copy(source, folder):
    """A circuit of one's own, with how many nets it drives."""
    shutil.copytree(source, folder)
    with open(os.path.join(folder, "netlist.bench"), encoding="latin-1") as file:
        nets = sum("=" in line or line.lstrip().upper().startswith("INPUT") for line in (it.partition("#")[0] for it in file))
    with open(os.path.join(folder, "nets"), "w") as file:
        file.write(f"{nets}\n")


def names(short=False):
    """The circuits of a size, and those of one's own."""
    return [*(SHORT if short else ALL), *given()]


def make(name, quick=False, short=False):
    return SHORT[name]() if short else ALL[name][1 if quick else 0]()


def main(words):
    quick, short = "--quick" in words, "--short" in words
    words = [word for word in words if word not in ("--quick", "--short")]
    made = SHORT if short else ALL
    if words == ["list"]:
        print("\n".join(made))
    elif len(words) == 3 and words[0] == "write" and words[1] in made and not (quick and short):
        make(words[1], quick, short).write(words[2])
    else:
        print(__doc__, file=sys.stderr)
        return 2
    return 0


if __name__ == "__main__":
    sys.exit(main(sys.argv[1:]))
