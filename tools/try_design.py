#!/usr/bin/env python3
"""try_design.py: makes gates of a module of Verilog, and holds them against Icarus Verilog on the module itself, with random stimuli.

  try_design.py [--seed N] [--cycles N] [--keep FOLDER] MODULE FILE

The gates are those of from_verilog.sh, with --async and --latches where it asks for them, simulated by simulate.sh.
Inputs change a tick behind the rising edges of all clocks, and levels are compared a tick before the next: an x of either side
may be any level there. Where there are resets, by their names, one run has them at first and now and then, and another never.

The line printed is the module with what came of it. Status 0: no level differs. Status 1: one does. Status 2: the tools failed
behind the gates, or something took too long. Status 3: yosys, from_verilog.sh or Icarus refuses the module."""
import argparse
import json
import os
import random
import re
import subprocess
import sys
import tempfile

HERE = os.path.dirname(os.path.abspath(__file__))
RESET = re.compile(r"rst|reset|clear|clr", re.IGNORECASE)
LOW = re.compile(r"^n|_n_|_ni?$|(rst|reset|clear|clr)n$", re.IGNORECASE)  # what the name of a reset has that is active at 0
LIMIT = 120  # as many seconds may a command take
UNTIMED = 500  # the ticks of half a period where no longest path is told
# What from_verilog.sh says, and the option that helps.
HELP = [("--async", "from_verilog.sh --async"), ("--latches", "from_verilog.sh --latches")]


class Refused(Exception):
    """The module can't be tried; the words say why."""


class Failed(Exception):
    """What was made of the module can't be used; the words say why."""


def run(words, folder):
    """Runs a command; gives its status and all that it says."""
    try:
        ran = subprocess.run(words, cwd=folder, stdin=subprocess.DEVNULL, stdout=subprocess.PIPE, stderr=subprocess.STDOUT,
                             universal_newlines=True, errors="replace", timeout=LIMIT, check=False)
    except subprocess.TimeoutExpired:
        raise Failed(f"{' '.join(words)} took more than {LIMIT} seconds") from None
    return ran.returncode, ran.stdout


def need(words, folder, fault):
    """Runs a command that has to succeed, else the fault is raised."""
    status, said = run(words, folder)
    if status:
        raise fault(f"{os.path.basename(words[0])}: {shortened(said)}")


def shortened(said):
    return " / ".join(said.strip().split("\n"))[:300]


# ---- the gates

class Gates:
    """What from_verilog.sh makes of a module in a folder."""

    def __init__(self, room, module, path):
        self.room, self.module, self.path = room, module, path
        self.options = ["--sv"] if path.endswith(".sv") else []
        self.said, self.folder, self.made = "", "", 0

    def make(self, words=()):
        """Makes the files in a new folder, and whether that went well."""
        self.made += 1
        self.folder = f"{self.room}/{self.made}"
        status, self.said = run([f"{HERE}/from_verilog.sh", *self.options, self.module, self.folder, self.path,
                                 *(["--", *words] if words else [])], self.room)
        return status == 0

    def make_by_help(self, words=()):
        """The same, with the options that the refusals name."""
        is_made = self.make(words)
        for option, said in HELP:
            if said in self.said and option not in self.options:
                self.options.append(option)
                return self.make_by_help(words)
        return is_made

    def clocks(self, ports):
        """The clocks, each with its edges, as words of from_yosys.py."""
        told = re.search(r"each has to be given its ticks: (.*)", self.said)
        if told:
            return re.findall(r"(--clock|--falling) (\S+)=F:P", told[1])
        if not os.path.exists(f"{self.folder}/options"):
            raise Refused(shortened(self.said))
        with open(f"{self.folder}/ports.csv", encoding="utf-8") as file:
            data = {line.split(",")[0] for line in file}
        with open(f"{self.folder}/options", encoding="utf-8") as file:
            is_clocked = "--clock" in file.read()
        clocks = [name for name, _ in ports if name not in data] if is_clocked else []
        return [("--clock", name) for name in clocks]

    def make_clocked(self, ports):
        """Makes the files, with clocks that all rise at once; gives the names of clocks, and the period."""
        self.make_by_help()
        clocks = self.clocks(ports)
        path = re.search(r"shortest period is of (\d+) ticks", self.said)
        period = 2 * (int(path[1]) + 10 if path else UNTIMED)
        ticks = {"--clock": f"{period - 1}:{period}", "--falling": f"{period + period // 2 - 1}:{period}"}
        if clocks and not self.make([word for edge, name in clocks for word in (edge, f"{name}={ticks[edge]}")]):
            clocks = [("--falling", name) for _, name in clocks]
            if not self.make([word for edge, name in clocks for word in (edge, f"{name}={ticks[edge]}")]):
                raise Refused(shortened(self.said))
        path = re.search(r"shortest period is of (\d+) ticks", self.said)
        if path and 2 * (int(path[1]) + 2) > period:
            raise Failed(f"a path of {path[1]} ticks was told too late")
        return {name for _, name in clocks}, period


# ---- the bench

def ports_of(module, path, room):
    """The inputs of the module, each with its width."""
    language = "verilog -sv" if path.endswith(".sv") else "verilog"
    script = f"hierarchy -top {module}; proc; write_json ports.json"
    need(["yosys", "-q", "-f", language, "-p", script, path], room, Refused)
    with open(f"{room}/ports.json", encoding="utf-8") as file:
        ports = json.load(file)["modules"][module]["ports"]
    if any(port["direction"] == "inout" for port in ports.values()):
        raise Refused("there is an inout")
    return [(name, len(port["bits"])) for name, port in ports.items() if port["direction"] == "input"]


def resets_of(ports):
    return [name for name, width in ports if RESET.search(name) and width == 1]


def vector_of(ports, reset, chance):
    """The levels of the inputs in a cycle, in which one reset may be active."""
    resets = resets_of(ports)
    levels = [int((name == reset) != bool(LOW.search(name))) if name in resets else chance.getrandbits(width) for name, width in ports]
    return [(name, width, level) for (name, width), level in zip(ports, levels)]


def resets_in_cycles(ports, cycles, chance):
    """The reset that is active in each cycle, or None: each at first, and later one now and then. There is never more than one: where
    of two the first is released, a flip-flop of gates takes up the second, and one in Verilog waits for an edge."""
    resets = resets_of(ports)
    first = [reset for reset in resets for _ in range(4)]
    return first + [chance.choice(resets) if chance.randrange(8) == 0 else None for _ in range(cycles - len(first))]


def bench_of(module, ports, clocks, period, cycles, has_resets, chance):
    """A test bench: the clocks rise together at multiples of the period, and inputs change a tick later."""
    data = [(name, width) for name, width in ports if name not in clocks]
    lines = ["`timescale 1ns/1ns", "module try_bench;", "  reg \\the.clock = 0;"]
    lines += [f"  reg [{width - 1}:0] \\{name} ;" for name, width in data]
    pins = [f".\\{name} (\\{name} )" for name, _ in data] + [f".\\{name} (\\the.clock )" for name in sorted(clocks)]
    lines += [f"  \\{module} dut({', '.join(pins)});", "  initial begin $dumpfile(\"rtl.vcd\"); $dumpvars(0, dut); end"]
    lines += [f"  initial begin #{period}; repeat ({cycles}) begin \\the.clock = 1; #{period // 2} \\the.clock = 0;",
              f"    #{period - period // 2}; end end", "  initial begin #1;"]
    for reset in resets_in_cycles(data, cycles, chance) if has_resets else [None] * cycles:
        levels = [f"\\{name} = {width}'h{level:x};" for name, width, level in vector_of(data, reset, chance)]
        lines.append(f"    {' '.join(levels)} #{period};")
    return "\n".join([*lines, "  end", f"  initial #{period * cycles} $finish;", "endmodule", ""])


def compile_by_icarus(path, room):
    """Has Icarus take the bench and the module, by the language of 2012 or, where words of that are names, by that of 2005."""
    words = ["iverilog", "-s", "try_bench", "-o", "bench", "bench.v", path]
    if path.endswith(".sv") or run([*words, "-g2012"], room)[0]:
        need([*words, "-g2012" if path.endswith(".sv") else "-g2005"], room, Refused)


def held(gates, ports, clocks, period, line, has_resets):
    """Holds the gates against the module in one run, and gives the words of what came of it."""
    room, folder = gates.room, gates.folder
    chance = random.Random(f"{line.seed} {line.module} {has_resets}")
    with open(f"{room}/bench.v", "w", encoding="utf-8") as file:
        file.write(bench_of(line.module, ports, clocks, period, line.cycles, has_resets, chance))
    compile_by_icarus(gates.path, room)
    need(["vvp", "-n", "bench"], room, Refused)
    with open(f"{folder}/options", encoding="utf-8") as file:
        words = re.sub(r"--horizon \d+", f"--horizon {period * line.cycles}", file.read())
    with open(f"{folder}/options", "w", encoding="utf-8") as file:
        file.write(words)
    stimuli = '"$1"/vcd_to_stimuli.py --ports "$2"/ports.csv --scope try_bench.dut <rtl.vcd >"$2"/stimuli.csv'
    need(["bash", "-c", stimuli, "-", HERE, folder], room, Failed)
    need(["bash", "-c", '"$1"/simulate.sh "$2" >gates.vcd', "-", HERE, folder], room, Failed)
    words = ["--common", "--names", f"{folder}/names.csv", "--sample", f"{period - 1}:{period}", "--x-matches", "both"]
    status, said = run([f"{HERE}/compare_vcd.py", *words, "--scope-b", "try_bench.dut", "gates.vcd", "rtl.vcd"], room)
    if status > 1:
        raise (Refused if "no net is in both" in said else Failed)(said.strip())
    return status, said


def arguments():
    parser = argparse.ArgumentParser(description="Holds the gates of a module of Verilog against Icarus Verilog on the module itself.")
    parser.add_argument("--seed", metavar="N", type=int, default=1, help="of the random stimuli [default: 1]")
    parser.add_argument("--cycles", metavar="N", type=int, default=60, help="how many cycles of a run [default: 60]")
    parser.add_argument("--keep", metavar="FOLDER", help="leave the files in this folder, which is there and empty")
    parser.add_argument("module", metavar="MODULE")
    parser.add_argument("file", metavar="FILE")
    return parser.parse_args()


def main():
    line = arguments()
    with tempfile.TemporaryDirectory(prefix="try-") as room:
        gates = Gates(os.path.abspath(line.keep or room), line.module, os.path.abspath(line.file))
        title = f"{os.path.basename(line.file)} {line.module}"
        try:
            ports = ports_of(line.module, gates.path, gates.room)
            clocks, period = gates.make_clocked(ports)
            runs = [held(gates, ports, clocks, period, line, it) for it in ([True, False] if resets_of(ports) else [False])]
        except (Refused, Failed) as error:
            print(f"{title}: {error}")
            return 3 if isinstance(error, Refused) else 2
        status = max(it for it, _ in runs)
        words = " | ".join(said.strip().replace("\n", "; ") for _, said in runs)
        print(f"{title}: {' '.join([*gates.options, ''])}{words}")
        return status


if __name__ == "__main__":
    sys.exit(main())
