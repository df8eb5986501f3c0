#!/usr/bin/env python3
"""test_processor.py [--write]: carries out the program of examples/processor here, instruction by instruction, and sees that the stored
files have what it puts out: expected.csv the levels in the cycle of each number, expected.txt those at the end, and outputs.vcd the
waveforms of the outputs. Icarus simulates the Verilog, if it is installed, and has to give these waveforms at each sample. --write writes
expected.csv and expected.txt. The last line is 'N passed, M failed'."""
import itertools
import os
import re
import shutil
import subprocess
import sys
import tempfile

from test_tools import COUNTS, TOP, run, see
from vcd import Dump

FOLDER = f"{TOP}/examples/processor"
LIMIT, FIRST, PERIOD, HORIZON = 16, 29, 30, 24000
BITS = [f"out[{i}]" for i in range(8)]
BENCH = f"""`timescale 1ns/1ns
module bench;
  reg clk = 0;
  wire [7:0] out;
  wire valid, halted;
  processor dut(.clk(clk), .in(8'd{LIMIT}), .out(out), .valid(valid), .halted(halted));
  initial forever begin #{PERIOD // 2} clk = 0; #{PERIOD // 2} clk = 1; end
  initial begin $dumpfile("source.vcd"); $dumpvars(0, dut); #{HORIZON} $finish; end
endmodule
"""


def read(name):
    with open(f"{FOLDER}/{name}", encoding="ascii") as file:
        return file.read()


def program():
    """The program in the processor's ROM: what each instruction does, and its operand."""
    text = read("processor.v")
    registers = {name: int(number) for name, number in re.findall(r"(\w+) = 8'd(\d+)", text)}
    rows = re.findall(r"5'd(\d+): rom = \{(\w+), (?:8'd(\d+)|(\w+))\};", text)
    see("instructions in their places", [int(place) for place, *_ in rows], list(range(len(rows))))
    return [(what, int(number) if number else registers[name]) for _, what, number, name in rows]


class Machine:
    """The processor, by what the head of its source says of each instruction."""

    def __init__(self, given):
        self.given, self.pc, self.acc, self.carry, self.registers = given, 0, 0, 0, [0] * 4

    def add(self, number):
        self.acc, self.carry = (self.acc + number) % 256, int(not 0 <= self.acc + number < 256)

    def do(self, what, k):
        """One instruction, which gives the number that it puts out, or None."""
        self.pc += 1
        if what in ("LDI", "LD", "IN"):
            self.acc = {"LDI": k, "LD": self.registers[k % 4], "IN": self.given}[what]
        elif what == "ST":
            self.registers[k % 4] = self.acc
        elif what in ("ADD", "SUB", "ADDI", "SUBI"):
            self.add((k if what.endswith("I") else self.registers[k % 4]) * (-1 if what.startswith("SUB") else 1))
        elif what == "JMP" or what == "JZ" and self.acc == 0 or what == "JC" and self.carry:
            self.pc = k
        return self.acc if what == "OUT" else None


def put_out(instructions, given):
    """By its cycle each number that is put out, and the cycle in which the processor halts."""
    machine, found = Machine(given), {}
    for cycle in itertools.count():
        if machine.pc >= len(instructions):
            return found, cycle
        number = machine.do(*instructions[machine.pc])
        if number is not None:
            found[cycle] = number


def levels_of(number, valid, halted):
    return {**{bit: str(number >> i & 1) for i, bit in enumerate(BITS)}, "halted": str(int(halted)), "valid": str(int(valid))}


def shown(numbers, halted):
    """The levels of the outputs, by each tick from which on they hold: a sample shows a tick later."""
    number, found = 0, {0: levels_of(0, False, False)}
    for cycle in range(halted + 1):
        valid, number = cycle in numbers, numbers.get(cycle, number)
        found[FIRST + PERIOD * cycle + 1] = levels_of(number, valid, cycle == halted)
    return found


def table(levels, numbers):
    """The rows of expected.csv: the outputs in the cycle of each number, and when the processor has halted."""
    ticks = [FIRST + PERIOD * cycle + 1 for cycle in numbers] + [max(levels)]
    return "tick,net,value\n" + "".join(f"{tick},{net},{level}\n" for tick in ticks for net, level in levels[tick].items())


def changed(levels):
    """The changes of these levels by ticks, where there are any."""
    now, found = {}, {}
    for tick, nets in levels.items():
        changes = {net: level for net, level in nets.items() if now.get(net) != level}
        now.update(nets)
        found.update({tick: changes} if changes else {})
    return found


def test_icarus():
    """The waveforms of the outputs are those that Icarus gives of the Verilog, at each sample."""
    if not shutil.which("iverilog"):
        print("tools: iverilog isn't installed, so the processor's Verilog wasn't simulated")
        return
    with tempfile.TemporaryDirectory() as folder:
        with open(f"{folder}/bench.v", "w", encoding="ascii") as file:
            file.write(BENCH)
        subprocess.run(["iverilog", "-o", "bench", "bench.v", f"{FOLDER}/processor.v"], cwd=folder, check=True, stderr=subprocess.DEVNULL)
        subprocess.run(["vvp", "-n", "bench"], cwd=folder, check=True, stdout=subprocess.DEVNULL)
        words = ["compare_vcd.py", "--common", "--sample", f"{FIRST}:{PERIOD}", f"{FOLDER}/outputs.vcd", "source.vcd"]
        see("the processor in Icarus", run(folder, words), (0, f"the same: 10 nets at {HORIZON // PERIOD} times\n", ""))


def main(words):
    numbers, halted = put_out(program(), LIMIT)
    levels = shown(numbers, halted)
    files = {"expected.csv": table(levels, numbers), "expected.txt": f"halted 1\nvalid 0\nout {list(numbers.values())[-1]:02x}\n"}
    for name, text in files.items() if words == ["--write"] else ():
        with open(f"{FOLDER}/{name}", "w", encoding="ascii") as file:
            file.write(text)
    primes = [it for it in range(2, LIMIT + 1) if all(it % by for by in range(2, it))]
    see("what the program puts out", list(numbers.values()), [*primes, len(primes)])
    see("options and stimuli", (read("options"), read("stimuli.txt")),
        (f"--horizon {HORIZON} --clock {FIRST}:{PERIOD} --init 0\n", f"# the prime numbers up to {LIMIT}\n0  in={LIMIT}\n"))
    for name, text in files.items():
        see(name, read(name), text)
    with open(f"{FOLDER}/outputs.vcd", encoding="ascii") as file:
        dump = Dump("outputs.vcd", file)
        see("outputs.vcd", {time // dump.unit: changes for time, changes in dump.blocks() if changes}, changed(levels))
    test_icarus()
    print(f"{COUNTS['passed']} passed, {COUNTS['failed']} failed")
    return 1 if COUNTS["failed"] else 0


if __name__ == "__main__":
    sys.exit(main(sys.argv[1:]))
