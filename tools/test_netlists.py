#!/usr/bin/env python3
"""test_netlists.py: runs the tools that make netlists, some through yosys where it is installed, and simulate.sh on small texts that
were written by hand. The last line is 'N passed, M failed'."""
import itertools
import json
import os
import re
import shutil
import subprocess
import sys
import tempfile

from names import level_of as level_of_bit, read_names
from test_tools import COUNTS, HERE, design, flop, gate, port, put, run, see


# ---- a simulator of settled levels

OPPOSITE = {"0": "1", "1": "0", "x": "x"}


def level_of(kind, levels):
    """The level that a gate gives for those of its operands."""
    if kind in ("XOR", "XNOR"):
        found = "x" if "x" in levels else str(levels.count("1") % 2)
    elif kind in ("OR", "NOR"):
        found = "1" if "1" in levels else "x" if "x" in levels else "0"
    else:
        found = "0" if "0" in levels else "x" if "x" in levels else "1"
    return OPPOSITE[found] if kind in ("NOT", "NAND", "NOR", "XNOR") else found


def settle(netlist, levels):
    """All levels, once those of inputs and flip-flops have passed all gates; a gate in a loop begins with the level that is given, or x."""
    gates = re.findall(r"^(\S+) = (\w+)\((.*)\)", netlist, re.MULTILINE)
    gates = [(net, kind, operands.split(", ")) for net, kind, operands in gates]
    levels, before = {**{net: "x" for net, _, _ in gates}, **levels}, None
    while levels != before:
        before = dict(levels)
        for net, kind, operands in gates:
            levels[net] = levels[net] if kind == "DFF" else level_of(kind, [levels[it] for it in operands])
    return levels


def sampled(netlist, levels):
    """The levels after all flip-flops sampled."""
    flops = re.findall(r"^(\S+) = DFF\((.*)\)", netlist, re.MULTILINE)
    return settle(netlist, {**levels, **{net: levels[data] for net, data in flops}})


# ---- from_bench.py

def benched(text):
    """What from_bench.py says of a text, the netlist and the constants."""
    with tempfile.TemporaryDirectory() as folder:
        put(folder, {"c.bench": text})
        ran, made = run(folder, ["from_bench.py", "c.bench", "d"]), []
        for name in ("netlist.bench", "constants.csv") if ran[0] == 0 else ():
            with open(f"{folder}/d/{name}", encoding="ascii") as file:
                made.append(file.read())
        return ran, made


def test_spellings():
    text = "# by hand\nInput ( a )\nOUTPUT(z)\nk = vdd # a constant\nl = GND()\nn = INV(a)m = buf( a )\nq = DFF(n)\nz = and(k, l,\n  n, VCC)\n_1_ = LUT 0x7 ( a, q )\n"
    netlist = "INPUT(a)\nOUTPUT(z)\nINPUT(k)\nINPUT(l)\nn = NOT(a)\nm = BUFF(a)\nq = DFF(n)\nz = AND(k, l, n, VCC)\n" \
              "_2_ = NOT(q)\n_3_ = NOT(a)\n_1_ = OR(_2_, _3_)\nINPUT(VCC)\n"
    see("spellings", benched(text), ((0, "in d were written: netlist.bench, constants.csv (3 constants)\n", ""),
                                     [netlist, "tick,net,value\n0,k,1\n0,l,0\n0,VCC,1\n"]))
    for text, said in (
            ("q = DFFRSE( d, gnd, gnd, gnd, gnd )", "line 2: DFFRSE: a flip-flop with a set, a reset or an enable: write_bench -l, after strash, writes DFF"),
            ("y = MUX(d, d, d)", "line 2: MUX: no kind of gate that cmbsim has"),
            ("y = LUT 0x1 (d, d, d, d, d)", "line 2: LUT: a table of more than 4 operands: write_bench -l, after strash, writes gates"),
            ("y = LUT 0x10 (d, d)", "line 2: the table 0x10 is too long for 2 operands"),
            ("y = AND()", "line 2: AND: without operands"), ("y = NOT(d", "line 2: not a statement: y"), ("\ny NOT(d)", "line 3: not a statement: y")):
        see(f"refused, {text}", benched(f"INPUT(d)\n{text}\n"), ((1, "", f"from_bench: c.bench, {said}\n"), []))


def known(table, levels):
    """The level of a table where some operands aren't known."""
    choices = itertools.product(*("01" if level == "x" else level for level in levels))
    found = {table >> int("".join(reversed(it)) or "0", 2) & 1 for it in choices}
    return str(found.pop()) if len(found) == 1 else "x"


def test_tables():
    for width, tables in ((1, range(4)), (2, range(16)), (3, range(256)), (4, range(1, 65536, 1117))):
        nets = "abcd"[:width]
        lines = [f"INPUT({net})" for net in nets] + [f"y{table} = LUT {table:#x} ({','.join(nets)})" for table in tables]
        netlist, constants = benched("\n".join(lines))[1]
        given = {net: level for net, level in re.findall(r"^0,(\w+),([01])", constants, re.MULTILINE)}
        wrong = []
        for levels in itertools.product("01x", repeat=width):
            found = settle(netlist, {**given, **dict(zip(nets, levels))}) if width < 4 or levels.count("x") < 3 else None
            wrong += [(table, levels) for table in tables if found and found[f"y{table}"] != known(table, levels)]
        see(f"tables of {width} operands", wrong, [])


# ---- simulate.sh

PROGRAM = """#!/bin/sh
echo "$@"
while [ $# -gt 0 ]; do
    if [ "$1" = --stimuli ]; then cat "$2"; fi
    shift
done
cat
exit 3
"""


def simulated(files, words=(), program="./program"):
    """What simulate.sh has a program do, that says its words, the stimuli and the netlist."""
    with tempfile.TemporaryDirectory() as folder:
        for name in ("program", "cmbsim"):
            put(folder, {name: PROGRAM})
            os.chmod(f"{folder}/{name}", 0o755)
        path = {"CMBSIM": program} if program else {"PATH": f"{folder}:{os.environ['PATH']}", "CMBSIM": ""}
        os.mkdir(f"{folder}/a b")
        put(f"{folder}/a b", files)
        ran = subprocess.run([f"{HERE}/simulate.sh", "a b", *words], cwd=folder, env={**os.environ, **path},
                             stdout=subprocess.PIPE, stderr=subprocess.STDOUT, universal_newlines=True, timeout=60)
        return ran.returncode, re.sub(r"--stimuli /\S*/", "--stimuli ROOM/", ran.stdout)


def test_simulate():
    files = {"netlist.bench": "INPUT(a)\n", "options": "--horizon 9 \n --clock 1:2", "stimuli.csv": "tick,net,value\n0,a,1"}
    see("stimuli alone", simulated(files, ["--threads", "2"]),
        (3, "run --horizon 9 --clock 1:2 --stimuli a b/stimuli.csv --threads 2\ntick,net,value\n0,a,1INPUT(a)\n"))
    files["constants.csv"] = "tick,net,value\n0,_0_,0\n0,_1_,1\n"
    see("stimuli and constants", simulated(files), (3, "run --horizon 9 --clock 1:2 --stimuli ROOM/stimuli.csv\n"
                                                   "tick,net,value\n0,a,1\n0,_0_,0\n0,_1_,1\nINPUT(a)\n"))
    files["stimuli.csv"] += "\n5,_1_,x\n"
    see("a constant that has stimuli", simulated(files)[1].split("\n")[1:-2], ["tick,net,value", "0,a,1", "5,_1_,x", "0,_0_,0"])
    del files["stimuli.csv"], files["options"]
    see("constants alone", simulated({**files, "delays.csv": "", "clocks.csv": "", "initial.csv": ""}), (
        3, "run --delays a b/delays.csv --clocks a b/clocks.csv --initial a b/initial.csv --stimuli ROOM/stimuli.csv\ntick,net,value\n0,_0_,0\n0,_1_,1\nINPUT(a)\n"))
    see("no constants", simulated({**files, "constants.csv": "tick,net,value\n"}), (3, "run\nINPUT(a)\n"))
    see("the program of the path", simulated({"netlist.bench": ""}, program=None), (3, "run\n"))
    see("no program", simulated({"netlist.bench": ""}, program="none"), (2, "simulate.sh: there is no program none: run make build\n"))
    see("no netlist", simulated({}), (2, "simulate.sh: there is no file a b/netlist.bench\n"))


# ---- from_yosys.py with what the design was before

def test_lost():
    ports = {"a": port("input", 2), "b": port("input", 3), "s": port("input", 4), "y": port("output", 5)}
    wires = {"n7": {"bits": [6]}, "n8": {"bits": [7, 5], "offset": 3}, "same": {"bits": [8]}, "mux": {"bits": [9]}, "q": {"bits": [10]},
             "one": {"bits": [11]}, "other": {"bits": [12]}, "$made$1": {"bits": [13], "hide_name": 1}, "not_q": {"bits": [14]}}
    before = design(ports, [gate("AND", 6, 2, 3), gate("NOT", 7, 6), gate("OR", 5, 6, 4), gate("XOR", 8, 4, 4),
                            {"type": "$_MUX_", "connections": {"A": [2], "B": [3], "S": [4], "Y": [9]}}, gate("NAND", 11, 2, 8),
                            gate("XOR", 12, 2, 3), flop(2, 5, 13), gate("NOT", 14, 13)], wires)
    after = design(ports, [gate("NAND", 7, 3, 2), gate("NOT", 9, 7), gate("OR", 5, 4, 9), flop(20, 5, 21), gate("NAND", 22, 4, 3),
                           gate("NOT", 23, 4), gate("NAND", 24, 2, 23), gate("NAND", 25, 24, 22)],
                   {"$made$1": {"bits": [21], "hide_name": 1}})
    after["modules"]["d"]["ports"] = {**ports, "clk": port("input", 20)}
    with tempfile.TemporaryDirectory() as folder:
        source = design(ports, [], {**wires, "tied": {"bits": ["1", "z", 40]}})
        put(folder, {"a.json": json.dumps(after), "b.json": json.dumps(before), "s.json": json.dumps(source)})
        ran = run(folder, ["from_yosys.py", "--source", "s.json", "--before-abc", "b.json", "a.json", "d"])
        with open(f"{folder}/d/names.csv", encoding="ascii") as file:
            names = file.read()
    see("bits that abc left no net of", (ran[0], ran[2], names),
        (0, "", "bit,is,net\nn7,net,_9_\nn8[3],net,_7_\nn8[4],net,y\nsame,0,\nmux,net,_25_\nq,gone,\none,1,\nother,gone,\nnot_q,not,_21_\n"
                "tied[0],1,\ntied[1],x,\ntied[2],gone,\nclk,gone,\n"))


# ---- from_verilog.sh

class Made:
    """What from_verilog.sh says of a text of Verilog, and the files that it leaves."""

    def __init__(self, text, words=(), name="d.v", others=None):
        with tempfile.TemporaryDirectory() as folder:
            put(folder, {name: text, **(others or {})})
            ran = subprocess.run([f"{HERE}/from_verilog.sh", *words, "d", "d d", name], cwd=folder, stdout=subprocess.PIPE, stderr=subprocess.PIPE,
                                 universal_newlines=True, timeout=120)
            self.status, self.out, self.said, self.files, self.names = ran.returncode, ran.stdout, ran.stderr, {}, {}
            for made in sorted(os.listdir(f"{folder}/d d")) if os.path.isdir(f"{folder}/d d") else ():
                with open(f"{folder}/d d/{made}", encoding="utf-8") as file:
                    self.files[made] = file.read()
            if self.files:
                self.names = read_names(f"{folder}/d d/names.csv")
        self.netlist = self.files.get("netlist.bench", "")
        self.levels = dict(re.findall(r"^0,([^,]+),([01])", self.files.get("constants.csv", ""), re.MULTILINE))

    def go(self, **inputs):
        """Gives inputs their levels, without a sample; d__1 is the input d[1]."""
        self.levels.update((re.sub(r"__(\d+)", r"[\1]", name), level) for name, level in inputs.items())
        self.levels = settle(self.netlist, self.levels)

    def begin(self, level):
        self.levels.update((net, level) for net in re.findall(r"^(\S+) = DFF", self.netlist, re.MULTILINE))

    def sample(self):
        self.levels = sampled(self.netlist, self.levels)

    def read(self, bus, width):
        """The levels of a bus, or of a net."""
        bits = [f"{bus}[{number}]" for number in range(width - 1, -1, -1)] if width else [bus]
        return "".join(level_of_bit(bit, self.levels, self.names) or "?" for bit in bits)


PARTS = """
module d(input clk, input a, input b, input c, output y, output reg [3:1] s, output [3:0] up, input [0:3] in);
  wire n7 = a & b;
  wire n8 = ~(a & b);
  wire [3:0] pc = {s, 1'b0};
  always @(posedge clk) s <= s ^ {3{n8}};
  assign y = n7 | c, up = in;
endmodule
"""


def test_names():
    for words in ([], ["--sv"]):
        made = Made(PARTS, words, "my d.v")
        taken = [net for net in ("n7", "n8", "pc[0]") if re.search(rf"^{re.escape(net)} =", made.netlist, re.MULTILINE)]
        see("names that are made up", (made.status, made.said, taken), (0, "", []))
        found = []
        for a, b in itertools.product("01", repeat=2):
            made.begin("1")
            made.go(a=a, b=b, c="0", in__0="1", in__1="1", in__2="0", in__3="0")
            found.append((made.read("n7", 0), made.read("n8", 0), made.read("pc", 4), made.read("up", 4)))
        see("bits without nets", found, [("0", "1", "1110", "1100")] * 3 + [("1", "0", "1110", "1100")])
        see("ends of buses", (made.files["ports.csv"].split()[1:], made.files["buses.csv"].split()),
            (["a,input,,", "b,input,,", "c,input,,", "y,output,,", "s,output,3,1", "up,output,3,0", "in,input,0,3"], ["name,left,right", "in,0,3", "s,3,1"]))


MACHINE = """
module d(input clk, input reset, input go, output busy);
  reg [1:0] state;
  always @(posedge clk)
    if (reset) state <= 2;
    else case (state)
      0: if (go) state <= 1;
      1: state <= 2;
      2: state <= go ? 0 : 2;
      default: state <= 2;
    endcase
  assign busy = state == 1;
endmodule
"""


def test_machine():
    made, found = Made(MACHINE), []
    made.begin("x")
    for reset, go in ("10", "01", "01", "01", "00", "00"):
        made.go(reset=reset, go=go)
        made.sample()
        found.append(made.read("state", 2))
    see("the states of a machine", (made.status, found), (0, ["10", "00", "01", "10", "10", "10"]))
    see("other states", Made(MACHINE, ["--fsm"]).status, 0)


SEEDED = """
module d(input clk, output reg [1:0] out);
  reg [4:0] lfsr = 5'b10110;
  always @(posedge clk) begin
    lfsr <= {lfsr[3:0], lfsr[4] ^ lfsr[2]};
    out <= {out[0], lfsr[4]};
  end
endmodule
"""


def test_first_levels():
    plain = Made(SEEDED)
    see("levels that differ", (plain.status, "begin with different levels" in plain.out, "--init" in plain.files["options"]), (0, True, False))
    rows = plain.files["initial.csv"].split()
    see("levels by rows", (rows[0], sorted(rows[1:])), ("net,value", sorted(
        [*(f"lfsr[{bit}],{level}" for bit, level in enumerate(reversed("10110"))), "out[0],x", "out[1],x"])))
    made, found = Made(SEEDED, ["--zero-init"]), []
    see("levels by zinit", (made.status, made.out.split("\n")[0], made.files["options"].split()[-2:]),
        (0, "--zero-init: registers for which the source says nothing begin with 0, where Verilog has x", ["--init", "0"]))
    made.begin("0")
    made.go()
    for _ in range(4):
        found.append((made.read("lfsr", 5), made.read("out", 2)))
        made.sample()
    see("a seed", found, [("10110", "00"), ("01100", "01"), ("11001", "10"), ("10011", "01")])


RESETS = """
module d(input clk, input rst_n, input set, input [1:0] in, input en, output reg [1:0] q, output reg p, output reg l, output reg l2);
  always @(posedge clk or negedge rst_n) if (!rst_n) q <= 2'b10; else if (en) q <= in;
  always @(posedge clk or posedge set) if (set) p <= 1; else p <= in[0];
  always @* if (en) l = in[1];
  always @* if (!en) l2 = in[1];
endmodule
"""


def test_resets():
    said = [(re.findall(r"of type \$_(\w+)_,", made.said), made.status) for made in (
        Made(RESETS), Made(RESETS, ["--async"]), Made(RESETS, ["--latches"]))]
    see("resets and latches", said, [(["DFF_PN0", "DFF_PN1", "DFF_PP1", "DLATCH_N", "DLATCH_P"], 1), (["DLATCH_N", "DLATCH_P"], 1),
                                     (["DFF_PN0", "DFF_PN1", "DFF_PP1"], 1)])
    made, found = Made(RESETS, ["--async", "--latches"]), []
    made.begin("x")
    for rst_n, put_1, en, one, zero, is_sampled in (
            "100000", "011110", "011111", "110100", "110000", "101001", "100000", "100111", "101110", "100100"):
        made.go(rst_n=rst_n, set=put_1, en=en, in__1=one, in__0=zero)
        if is_sampled == "1":
            made.sample()
        found.append(made.read("q", 2) + made.read("p", 0) + made.read("l", 0) + made.read("l2", 0))
    see("resets at once and latches that hold", found, [
        "xxxx0", "10110", "10110", "10111", "10110", "00000", "00000", "00101", "00111", "00111"])


CELLS = """
library(small) {
  cell(NAND2) { area: 1; pin(A) { direction: input; } pin(B) { direction: input; } pin(Y) { direction: output; function: "!(A * B)"; } }
  cell(DFFX) {
    area: 1; ff(IQ, IQN) { clocked_on: "CK"; next_state: "D"; }
    pin(CK) { direction: input; clock: true; } pin(D) { direction: input; } pin(Q) { direction: output; function: "IQ"; }
  }
}
"""
MAPPED = "module d(input ck, a, b, output q);\n  wire y;\n  NAND2 u1(.A(a), .B(b), .Y(y));\n  DFFX u2(.CK(ck), .D(y), .Q(q));\nendmodule\n"


def test_library():
    made, found = Made(MAPPED, ["--liberty", "my cells.lib"], others={"my cells.lib": CELLS}), []
    for a, b in ("01", "11"):
        made.go(a=a, b=b, **{net: "x" for net in re.findall(r"^(\S+) = DFF", made.netlist, re.MULTILINE)})
        made.sample()
        found.append(made.read("q", 0))
    see("cells of a library", (made.status, found), (0, ["1", "0"]))
    see("cells without their library", (Made(MAPPED).status, "DFFX" in Made(MAPPED).said), (1, True))


def test_words():
    line = ": from_verilog.sh [OPTIONS] TOP FOLDER FILE.. [-- WORDS..], and --help helps\n"
    for words, said in ((["d", "d"], "give the top module, a folder for the files, and the Verilog files"), (["d", "d", "no.v"], "there is no file no.v"),
                        (["--vhdl", "d"], "there is no option --vhdl"), (["--liberty"], "--liberty needs a file")):
        ran = subprocess.run([f"{HERE}/from_verilog.sh", *words], stdout=subprocess.PIPE, stderr=subprocess.PIPE, universal_newlines=True, timeout=60)
        see(f"from_verilog.sh {' '.join(words)}", (ran.returncode, ran.stdout, ran.stderr), (2, "", f"from_verilog.sh: {said}{line}"))


def main():
    tests = [test_spellings, test_tables, test_simulate, test_lost, test_words]
    if shutil.which("yosys"):
        tests += [test_names, test_machine, test_first_levels, test_resets, test_library]
    else:
        print("tools: no yosys is installed, so designs of Verilog weren't tried")
    for test in tests:
        test()
    print(f"{COUNTS['passed']} passed, {COUNTS['failed']} failed")
    return 1 if COUNTS["failed"] else 0


if __name__ == "__main__":
    sys.exit(main())
