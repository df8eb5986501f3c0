#!/usr/bin/env -S python3 -B
"""window_cases.py [--seed S] [--times N] [--random N] [--oracle ORACLE] PROGRAM [FOLDER..]: runs the program in each mode on random circuits
that are made for the ends of the engine's windows, and holds its text against that of ORACLE: another program with the same command line, or
a Python file with a function run_program(words, input). Without ORACLE it is held against the program's own text in mode plain.

Each period from 2 to 130 has N circuits of one clock, 3 if not given: in turn its first sample is at tick 0, at 1, at the end of the period,
at any tick, and behind the horizon. --random N adds N circuits: of several clocks whose samples arrive at the same ticks, of hundreds of
clocks, and of many loops of gates. Everywhere flip-flops have delays of a tick up to more than a window, and inputs change where windows may
end. A FOLDER is laid out as those of examples/; where some are given, they are run in place of the circuits.

A circuit of which a run failed is kept in such a folder, which the run's line names. The last line is 'N passed, M failed', over all runs.
"""
import os
import random
import shutil
import sys
import tempfile

from cases import KINDS, Folder, random_names, read_words, write_files
from hostile.tools import Tally, each, oracle_of, run

MODES = [["--mode", "plain"], ["--mode", "rounds", "--threads", "2"], ["--mode", "free", "--threads", "1"], ["--mode", "free", "--threads", "3"]]
PERIODS, SHORTEST = range(2, 131), 12  # clocks with periods below the shortest end no window
WIDTHS = [62, 63]
DELAYS = [1, 1, 2, 5, 12, 30, 31, 32, 33, 40, 61, 62, 63, 64, 65, 70, 130]


# ---- clocks: by flip-flop its first sample, the period and the delay

def one_clock(chance, horizon, period, turn):
    """Flip-flops of one clock, with one delay or several. The first sample goes by the turn."""
    near = [period - 1, period, period + 1]
    delays = [chance.choice(chance.choice([DELAYS, DELAYS, near])) for _ in range(chance.choice([1, 1, 2, 4]))]
    first = [0, 1, period - 1, chance.randrange(period), horizon + chance.randint(0, 9)][turn % 5]
    return [(first, period, chance.choice(delays)) for _ in range(chance.randint(1, 12))]


def several_clocks(chance, horizon):
    """Two to twelve clocks whose samples meet at a tick, and again at the common multiples of their periods."""
    unit, meeting, found = chance.choice([1, 2, 3, 5, 6, 12, 13, 20, 31]), chance.randint(1, horizon - 1), []
    for _ in range(chance.randint(2, 12)):
        period, delay = unit * chance.choice([2, 3, 4, 6, 8, 12]), min(meeting, chance.choice(DELAYS))
        first = meeting - delay if chance.random() < 0.2 else (meeting - delay) % period
        found += [(first, period, delay)] * chance.randint(1, 3)
    return found


def hundreds_of_clocks(chance):
    """Hundreds of flip-flops, each with its own clock, or with one of about 64: where they have more clocks, none ends windows."""
    count, shortest = chance.choice([63, 64, 65, 66, 400, 400, 400]), chance.choice([2, SHORTEST, 40])
    delays = chance.sample(DELAYS, chance.randint(1, 4))
    clocks = [(chance.randint(0, 60), chance.randint(shortest, 130), chance.choice(delays)) for _ in range(count)]
    return (clocks + chance.choices(clocks, k=400))[:chance.randint(200, 400)]


# ---- circuits

class Circuit:
    """A circuit that is being made: the nets so far, its statements, and the rows of its tables."""

    def __init__(self, chance, flops):
        self.chance, self.slowest, self.names = chance, chance.choice([1, 3, 12, 40]), iter(random_names(chance, 2000))
        self.inputs, self.flops = [next(self.names) for _ in range(chance.randint(1, 4))], [next(self.names) for _ in range(flops)]
        self.nets, self.statements = self.inputs + self.flops, [f"INPUT({name})" for name in self.inputs]
        self.rows = {"delays": ["by,name,delay"], "clocks": ["net,first,period"], "stimuli": ["tick,net,value"]}

    def drive(self, name, kind, operands, delay):
        self.statements.append(f"{name} = {kind}({', '.join(operands)})")
        if delay > 1:
            self.rows["delays"].append(f"net,{name},{delay}")

    def gate(self, kind=None, operands=None, name=None):
        """One more gate, of one to five nets if not of these."""
        operands, name = operands or self.chance.choices(self.nets, k=self.chance.randint(1, 5)), name or next(self.names)
        kinds = [it for it, most in KINDS.items() if len(operands) <= most and it != "DFF"]
        self.drive(name, kind or self.chance.choice(kinds), operands, self.chance.randint(1, self.slowest))
        if self.chance.random() < 0.1:
            self.rows["delays"] += [f"pin,{name}:{pin},{self.chance.randint(1, 40)}" for pin in range(1, len(operands) + 1)]
        self.nets.append(name)
        return name

    def loop(self):
        """A latch, or a ring that a net holds: of one gate, or with some inverters."""
        kind, hold, last = self.chance.choice(["NAND", "NOR"]), self.chance.choice(self.nets), next(self.names)
        before = self.gate(kind, [self.chance.choice(self.nets), last]) if self.chance.random() < 0.5 else last
        for _ in range(self.chance.choice([0, 1, 2, 4]) if before == last else 0):
            before = self.gate("NOT", [before])
        self.gate(kind, [hold, before], last)

    def flop(self, name, delay):
        """A flip-flop that takes any net, or turns, if an input lets it."""
        kind, hold = self.chance.choice([None, None, "NOT", "NAND", "NOR"]), self.chance.choice(self.inputs)
        data = self.gate(kind, [name] if kind == "NOT" else [hold, name]) if kind else self.chance.choice(self.nets)
        self.drive(name, "DFF", [data], delay)


def ends(clocks, horizon, width):
    """Where windows of so many ticks at most may end: where samples of these clocks arrive that weren't taken before the window."""
    clock = 0
    while clock < horizon:
        arrivals = [first + delay + max(0, -(-(clock - first) // period)) * period for first, period, delay in clocks]
        clock = min([clock + width, *arrivals])
        yield clock


def stimuli(chance, inputs, clocks, horizon):
    """Rows for each input, most of them at the ends of windows and a tick beside them."""
    ending = chance.choice([[], [clock for clock in set(clocks) if clock[1] >= SHORTEST]])
    near = [0, *ends(ending, horizon, chance.choice(WIDTHS))]
    for name in inputs:
        ticks = {0} if chance.random() < 0.8 else set()
        for _ in range(chance.choice([0, 2, 8, 30])):
            ticks.add(max(0, chance.choice(near) + chance.randint(-1, 1)) if chance.random() < 0.8 else chance.randrange(horizon))
        yield from (f"{tick},{name},{chance.choice('0101010101x')}" for tick in sorted(ticks))


def circuit_of(chance, clocks, horizon, loops, common):
    """The files of a circuit whose flip-flops have these clocks: each has a row, if the first flip-flop's isn't to be the common one."""
    circuit, common = Circuit(chance, len(clocks)), clocks[0][:2] if common else None
    for _ in range(chance.randint(4, 30)):
        circuit.gate()
    for _ in range(loops):
        circuit.loop()
    for name, (first, period, delay) in zip(circuit.flops, clocks):
        circuit.flop(name, delay)
        circuit.rows["clocks"] += [f"{name},{first},{period}"] if (first, period) != common else []
    circuit.rows["stimuli"] += stimuli(chance, circuit.inputs, clocks, horizon)
    chance.shuffle(circuit.statements)
    options = f"--horizon {horizon}" + chance.choice(["", " --init 0", " --init 1"]) + (" --clock %d:%d" % common if common else "")
    lines = {"netlist.bench": circuit.statements, "options": [options], **{f"{it}.csv": rows for it, rows in circuit.rows.items()}}
    return {name: "".join(f"{line}\n" for line in it) for name, it in lines.items()}


def of_period(chance, period, turn):
    horizon = 2 * period + chance.randint(100, 300)
    return circuit_of(chance, one_clock(chance, horizon, period, period + turn), horizon, chance.choice([0, 1, 3]), chance.random() < 0.8)


def by_chance(chance):
    kind, horizon, few = chance.choice(["several", "several", "hundreds", "loops", "loops"]), chance.randint(100, 450), chance.choice([0, 1, 3])
    if kind == "hundreds":
        return circuit_of(chance, hundreds_of_clocks(chance), 200, few, False)
    if kind == "several":
        return circuit_of(chance, several_clocks(chance, horizon), horizon, few, chance.random() < 0.3)
    return circuit_of(chance, one_clock(chance, horizon, chance.choice(PERIODS), chance.randrange(4)), horizon, chance.randint(3, 8), True)


# ---- the runs

def made(given, room):
    """The folder of each circuit, in the room. What a circuit is doesn't depend on how many there are."""
    for turn, period in ((turn, period) for turn in range(given.times) for period in PERIODS):
        yield write_files(f"{room}/{period}_{turn}", of_period(random.Random(f"{given.seed}/{period}/{turn}"), period, turn))
    for i in range(given.random):
        yield write_files(f"{room}/{i}", by_chance(random.Random(f"{given.seed}/{i}")))


def main():
    given, tally, room = read_words(sys.argv[1:]), Tally(), tempfile.mkdtemp(prefix="windows-")
    oracle, mode_of_oracle = oracle_of(given.oracle or given.program), [] if given.oracle else MODES[0]
    cases = ((it, oracle(["run", *it.options, *mode_of_oracle], it.netlist)) for it in map(Folder, given.folders or made(given, room)))
    work = lambda case: [run([given.program, "run", *case[0].options, *mode], case[0].netlist) for mode in MODES]
    for (folder, want), answers in each(work, cases):
        passed = [tally.check(answer == want and want.status == 0, lambda: f"{folder.name}: {' '.join(mode)}: {answer}; wanted {want}")
                  for mode, answer in zip(MODES, answers)]
        if all(passed) and not given.folders:
            shutil.rmtree(folder.name)
    if not os.listdir(room):
        os.rmdir(room)
    tally.end()


if __name__ == "__main__":
    main()
