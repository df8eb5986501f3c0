#!/usr/bin/env python3
"""test_tools.py: runs the tools on small texts that were written by hand, asks bash and fish for completions, and sees that these and the
manual page have each word of the program's line. The last line is 'N passed, M failed'."""
import json
import os
import re
import shutil
import subprocess
import sys
import tempfile

HERE = os.path.dirname(os.path.abspath(__file__))
TOP = os.path.dirname(HERE)
COUNTS = {"passed": 0, "failed": 0}


def put(folder, files):
    for name, text in files.items():
        with open(os.path.join(folder, name), "w", encoding="ascii") as file:
            file.write(text)


def run(folder, words, given=""):
    """Runs a tool, and gives its status, its output and what it says on standard error."""
    ran = subprocess.run([sys.executable, os.path.join(HERE, words[0]), *words[1:]], cwd=folder, input=given,
                         stdout=subprocess.PIPE, stderr=subprocess.PIPE, universal_newlines=True, timeout=60)
    return ran.returncode, ran.stdout, ran.stderr


def see(name, found, wanted):
    """Counts whether a case came out as wanted."""
    COUNTS["passed" if found == wanted else "failed"] += 1
    if found != wanted:
        print(f"tools: {name} FAILED: wanted\n{wanted!r}, found\n{found!r}")


# ---- compare_vcd.py and read_vcd.py

# A register of two bits that counts, and its clear: bit by bit, as cmbsim writes it.
BITS = """\
$version by hand $end
$timescale 1 ns $end
$scope module top $end
$var wire 1 ! clear $end
$var wire 1 " \\count[0] $end
$var wire 1 # \\count[1] $end
$upscope $end
$enddefinitions $end
#0
$dumpvars
1!
x"
x#
$end
#10
0"
0#
#15
0!
#20
1"
#30
0"
1#
#40
"""
# The same as a bus, in another order, with other codes, another time scale and a further scope.
BUS = """\
$date today $end
$timescale 100ps $end
$scope module test $end $scope module dut $end
$var reg 2 a count [1:0] $end
$var wire 1 b clear $end
$upscope $end $upscope $end
$enddefinitions $end
$comment nothing yet $end
#0 $dumpvars bx a 1b $end
#100 b0 a
#150 0b
#200 b01 a
#300 b11 a b10 a
"""
REAL = """\
$scope module top $end
$var real 64 r voltage $end
$var wire 3 w word [0:2] $end
$upscope $end
$enddefinitions $end
#0 r1.5 r bz w
#7 r2.5 r b1x w
"""


# The same nets, all in one module, as cmbsim declares them without scopes and with them.
FLAT = BITS.replace("by hand", "cmbsim 1").replace("! clear", "! \\gen[0].clear").replace("\\count", "\\gen[0].count")
SCOPED = BITS.replace("by hand", "cmbsim 1").replace("module top $end", "module top $end\n$scope module \\gen[0] $end", 1).replace(
    "\\count[", "count [").replace("$upscope $end", "$upscope $end\n$upscope $end", 1)


def compared(name, files, words, wanted):
    with tempfile.TemporaryDirectory() as folder:
        put(folder, files)
        see(name, run(folder, ["compare_vcd.py", *words, "a.vcd", "b.vcd"]), wanted)


def pair(b, a=BITS):
    return {"a.vcd": a, "b.vcd": b}


def test_compare():
    same = 0, "the same: 3 nets\n", ""
    compared("a dump and itself", pair(BITS), [], same)
    compared("bits and a bus", pair(BUS), [], same)
    compared("a bus and bits", pair(BITS, BUS), [], same)
    compared("what isn't told yet is x", pair(BITS.replace('x"\nx#\n', "")), [], same)
    compared("a level twice is no change", pair(BITS.replace("#15\n", '#12\n0"\n#15\n')), [], same)
    compared("numbers and z", pair(REAL, REAL), [], (0, "the same: 4 nets\n", ""))
    late = BITS.replace("#20\n", "#21\n")
    compared("a change comes late", pair(late), [], (1, "time 20: count[0] is 1 in a.vcd and 0 in b.vcd\n", ""))
    compared("only times below one", pair(late), ["--upto", "20"], same)
    compared("units of the first dump", pair(late, BUS), ["--upto", "200"], same)
    compared("the first of two", pair(BITS.replace("#30\n0\"\n1#", "#30\n").replace("#15\n0!", "#15\n")), [],
             (1, "time 15: clear is 0 in a.vcd and 1 in b.vcd\n", ""))
    compared("a time between units", pair(BUS.replace("#150", "#155")), [], (1, "time 15: clear is 0 in a.vcd and 1 in b.vcd\n", ""))
    compared("the same between units", pair(BUS.replace("#150", "#145")), [], (1, "time 14.5: clear is 1 in a.vcd and 0 in b.vcd\n", ""))
    compared("one dump ends", pair(BITS.partition("#30")[0]), [],
             (1, "time 30: count[0] is 0 in a.vcd and 1 in b.vcd\ntime 30: count[1] is 1 in a.vcd and 0 in b.vcd\n", ""))
    compared("z isn't x", pair(REAL.replace("bz", "bx"), REAL), [], (1, "".join(
        f"time 0: word[{bit}] is z in a.vcd and x in b.vcd\n" for bit in range(3)), ""))


def test_compare_names():
    further = BITS.replace("$upscope", "$var wire 1 $ carry $end\n$upscope")
    compared("a net of one alone", pair(further), [], (1, "only in b.vcd: carry\n", ""))
    compared("a net of one alone doesn't count", pair(further), ["--common"], (0, "the same: 3 nets\n", ""))
    bench = BUS.replace("$scope module dut $end", "$var wire 1 c clock $end $scope module dut $end")
    compared("a scope that isn't named", pair(bench), [], (
        1, "only in a.vcd: clear, count[0], count[1]\nonly in b.vcd: clock, dut.count[1], dut.count[0], dut.clear\n", ""))
    compared("a scope that is", pair(bench), ["--scope-b", "test.dut"], (0, "the same: 3 nets\n", ""))
    compared("names and scopes", pair(SCOPED, FLAT), [], (0, "the same: 3 nets\n", ""))
    compared("nets of one scope", pair(SCOPED), ["--scope-b", "top.gen[0]"], (0, "the same: 3 nets\n", ""))


def test_unreadable():
    for name, text, said in (
            ("no text", "", "line 0: the text ends before $enddefinitions"),
            ("no dump", "hello\n", "line 1: 'hello' stands where a declaration should"),
            ("a command without an end", "$scope module top\n", "line 1: $scope has no $end"),
            ("a time scale of another form", "$timescale 7 ns $end\n", "line 1: no time scale is '7 ns'"),
            ("a variable without a name", "$var wire 1 ! $end\n", "line 1: no variable is 'wire 1 !'"),
            ("a code of no variable", BITS + "1%\n", "line 26: '1%' changes no variable"),
            ("a time that goes back", BITS + "#39\n", "line 26: after time 40 there is '39'")):
        compared(name, pair(text), [], (2, "", f"compare_vcd: b.vcd, {said}\n"))
    compared("a missing file", {"a.vcd": BITS}, [], (2, "", "compare_vcd: [Errno 2] No such file or directory: 'b.vcd'\n"))


def test_read():
    for name, text, words, wanted in (
            ("the end", BITS, ["clear", "count"], (0, "0\n2\n", "")),
            ("a time", BITS, ["--at", "20", "count"], (0, "1\n", "")),
            ("what isn't known", BITS, ["--at", "9", "count", "count[1]"], (0, "x\nx\n", "")),
            ("a bus that counts from the left", REAL, ["word[0]", "word[2]"], (0, "0\nx\n", "")),
            ("the whole of it", REAL.replace("b1x w", "b110 w"), ["word"], (0, "6\n", "")),
            ("no such net", BITS, ["clear", "carry"], (2, "", "read_vcd: there is no net carry\n"))):
        see(f"read_vcd, {name}", run(".", ["read_vcd.py", *words], text), wanted)


def test_gtkw():
    wanted = ["[timestart] 0", "[size] 430 400", "[pos] -1 -1", "*-5.577873" + " -1" * 27, "[sst_width] 0", "[signals_width] 190",
              "[sst_expanded] 0", "@28", "top.clear", "@22", "#{count[1:0]} top.\\count[1] top.\\count[0]", "@28", "top.\\count[0]",
              "[pattern_trace] 1", "[pattern_trace] 0", ""]
    ran = run(".", ["gtkw.py", "--width", "430", "clear", "count", "count[0]"], BITS)
    see("gtkw", (ran[0], ran[1].split("\n"), ran[2]), (0, wanted, ""))
    scoped = run(".", ["gtkw.py", "gen[0].clear", "gen[0].count"], SCOPED)
    see("gtkw, with scopes", (scoped[0], scoped[1].split("\n")[7:-3], scoped[2]),
        (0, ["@28", "top.\\gen[0].clear", "@22", "#{gen[0].count[1:0]} top.\\gen[0].count[1] top.\\gen[0].count[0]"], ""))
    see("gtkw, no such net", run(".", ["gtkw.py", "carry"], BITS), (2, "", "gtkw: there is no net carry\n"))


# What is left of a bus pc[31:1] of which yosys made bit 0 a constant, of a state whose bits 4 and 6 went, and of a bus [0:3].
PARTS = """\
$timescale 1 ns $end
$scope module top $end
""" + "".join(f"$var wire 1 p{bit} \\pc[{bit}] $end\n" for bit in range(1, 32)) + "".join(
    f"$var wire 1 s{bit} \\state[{bit}] $end\n" for bit in (0, 1, 2, 3, 5, 7)) + "".join(
    f"$var wire 1 u{bit} \\up[{bit}] $end\n" for bit in range(4)) + """\
$upscope $end
$enddefinitions $end
#0
""" + "".join(f"{int(bit in (4, 6, 31))}p{bit}\n" for bit in range(1, 32)) + "".join(
    f"{int(bit in (1, 5))}s{bit}\n" for bit in (0, 1, 2, 3, 5, 7)) + "0u0\n0u1\n0u2\n1u3\n#12345678\n"
PART_NAMES = "bit,is,net\npc[0],0,\nstate[4],not,state[1]\nstate[6],gone,\nhigh[11],x,\nhigh[10],1,\nhigh[9],net,up[3]\nhigh[8],0,\n"
PART_BUSES = "name,left,right\nup,0,3\nhigh,11,8\n"


def read_parts(tool, words, names=PART_NAMES, buses=PART_BUSES):
    with tempfile.TemporaryDirectory() as folder:
        put(folder, {"names.csv": names, "buses.csv": buses})
        return run(folder, [tool, *words], PARTS)


def test_parts():
    tables = ["--names", "names.csv"]
    for name, words, wanted in (
            ("no bit 0", ["pc"], (0, "8000005?\n", "read_vcd: pc[0] has no net, and is shown as ?\n")),
            ("bits that went", ["state", "pc"], (0, "?2\n8000005?\n", "read_vcd: state[6], state[4], pc[0] has no net, and is shown as ?\n")),
            ("a bit 0 that the table tells of", tables + ["pc", "pc[0]"], (0, "80000050\n0\n", "")),
            ("the opposite of a net", tables + ["state[4]", "state[6]", "state"],
             (0, "0\n?\n?2\n", "read_vcd: state[6], state[6] has no net, and is shown as ?\n")),
            ("a bus that ends with bit 8", tables + ["high", "high[9]"], (0, "x\n1\n", "")),
            ("a bus that begins with bit 0", tables + ["up"], (0, "1\n", "")),
            ("no such bus", tables + ["low"], (2, "", "read_vcd: there is no net low\n"))):
        see(f"read_vcd, {name}", read_parts("read_vcd.py", words), wanted)
    see("a table of another kind", read_parts("read_vcd.py", tables + ["pc"], "bit,is,net\npc[0],2,\n"),
        (2, "", "read_vcd: names.csv, line 2: not a row of bit,is,net, as from_yosys.py writes it\n"))
    see("buses of another kind", read_parts("read_vcd.py", tables + ["pc"], buses="name,left,right\npc,a,0\n"),
        (2, "", "read_vcd: buses.csv, line 2: not a row of name,left,right, as from_yosys.py writes it\n"))
    see("buses of another design", read_parts("read_vcd.py", tables + ["pc"], buses="name,left,right\npc,9,2\n"),
        (0, "80000050\n", ""))


def test_gtkw_parts():
    def body(words):
        ran = read_parts("gtkw.py", words)
        return ran[0], ran[1].split("\n")[7:-3], ran[2]
    pc = [f"top.\\pc[{bit}]" for bit in range(31, 0, -1)]
    see("gtkw, no bit 0", body(["pc"]), (0, ["@22", " ".join(["#{pc[31:4]}", *pc[:-3]]), "@28", " ".join(["#{pc[3:1]}", *pc[-3:]])],
                                        "gtkw: pc[0] has no net to show, and is left out\n"))
    bits = ["#{state[7],state[5]} top.\\state[7] top.\\state[5]", "#{state[3:0]} " + " ".join(f"top.\\state[{bit}]" for bit in (3, 2, 1, 0))]
    see("gtkw, bits that went", body(["state"]), (0, ["@28", bits[0], "@22", bits[1]], "gtkw: state[6], state[4] has no net to show, and is left out\n"))
    see("gtkw, a bit that is another net", body(["--names", "names.csv", "high[9]", "up", "pc[0]"]),
        (0, ["@28", "+{high[9]} top.\\up[3]", "@22", "#{up[0:3]} " + " ".join(f"top.\\up[{bit}]" for bit in range(4))],
         "gtkw: pc[0] has no net to show, and is left out\n"))
    see("gtkw, the last time", read_parts("gtkw.py", ["up"])[1].split("\n")[3][:12], "*-21.068021 ")
    with tempfile.TemporaryDirectory() as folder:
        put(folder, {"long.vcd": PARTS + "#12345679\n" + "0u0\n" * 600000})
        with open(f"{folder}/long.vcd", encoding="ascii") as file:
            ran = subprocess.run([sys.executable, f"{HERE}/gtkw.py", "up"], stdin=file, stdout=subprocess.PIPE, universal_newlines=True, timeout=60)
        see("gtkw, a last time that stands far from the end", ran.stdout.split("\n")[3][:12], "*-21.068021 ")


# ---- from_yosys.py

def gate(kind, output, *operands):
    return {"type": f"$_{kind}_", "connections": {"Y": [output], **{pin: [bit] for pin, bit in zip("AB", operands)}}}


def flop(clock, data, output, kind="$_DFF_P_"):
    return {"type": kind, "connections": {"C": [clock], "D": [data], "Q": [output]}, "attributes": {"src": "d.v:3.1-3.9"}}


def port(direction, *bits, **more):
    return {"direction": direction, "bits": list(bits), **more}


def design(ports, cells, wires=None):
    module = {"attributes": {"top": "1"}, "ports": ports, "cells": {str(number): it for number, it in enumerate(cells)}, "netnames": wires or {}}
    return {"modules": {"d": module}}


def converted(text, words=(), files=None):
    """What from_yosys.py says of a design, and the files that it then leaves."""
    with tempfile.TemporaryDirectory() as folder:
        put(folder, {"d.json": json.dumps(text)})
        os.mkdir(f"{folder}/d")
        put(f"{folder}/d", files or {})
        ran = run(folder, ["from_yosys.py", *words, "d.json", "d"])
        made = {}
        for name in sorted(os.listdir(f"{folder}/d")):
            with open(f"{folder}/d/{name}", encoding="ascii") as file:
                made[name] = file.read()
        return ran, made


def refused(name, text, said, words=()):
    see(name, converted(text, words), ((1, "", "".join(f"from_yosys: {line}\n" for line in said)), {}))


WHOLE = design(
    {"clk": port("input", 2), "d": port("input", 3, 4, offset=4), "e": port("input", 5, 6, upto=1),
     "q": port("output", 7, 8), "x": port("output", 8, "1", "x")},
    [gate("AND", 12, 10, 3), flop(2, 12, 7), gate("NOT", 10, 11), gate("XNOR", 11, 5, 6), flop(2, "0", 8), gate("BUF", 13, 4)],
    {"count": {"bits": [7, 8], "attributes": {"init": "00"}}, "inner.a(1,2": {"bits": [10]}, "deep.er": {"bits": [10]}, "hidden": {"bits": [11], "hide_name": 1},
     "q": {"bits": [7, 8]}, "part": {"bits": ["0", 3, 90]}, "gone": {"bits": [91, 92], "offset": 8}, "_13_": {"bits": [93]}})
NETLIST = """\
# d, of Verilog by yosys
INPUT(d[4])
INPUT(d[5])
INPUT(e[1])
INPUT(e[0])
INPUT(_0_)
INPUT(_1_)
INPUT(_x_)
OUTPUT(q[0])
OUTPUT(q[1])
OUTPUT(x[0])
OUTPUT(x[1])
OUTPUT(x[2])
count[0] = DFF(_12_)
count[1] = DFF(_0_)
_11_ = XNOR(e[1], e[0])
inner.a_1_2 = NOT(_11_)  # deep.er
_12_ = AND(inner.a_1_2, d[4])
_13__ = BUFF(d[5])
q[0] = BUFF(count[0])
q[1] = BUFF(count[1])
x[0] = BUFF(count[1])
x[1] = BUFF(_1_)
x[2] = BUFF(_x_)
"""
SAID = """\
18 nets: 7 inputs, 2 flip-flops, 9 gates
3 ticks in the longest path, if each gate takes one, so the shortest period is of 4 ticks
3 ticks in the longest path from inputs to --clock clk
_0_ is the constant 0
_1_ is the constant 1
_x_ is the constant x
"""
FILES = {
    "netlist.bench": NETLIST, "options": "--horizon 200 --clock 9:10 --init 0\n", "constants.csv": "tick,net,value\n0,_0_,0\n0,_1_,1\n",
    "stimuli.csv": "tick,net,value\n0,d[4],0\n0,d[5],0\n0,e[1],0\n0,e[0],0\n", "buses.csv": "name,left,right\ngone,9,8\nd,5,4\ne,0,1\n",
    "ports.csv": "name,direction,left,right\nd,input,5,4\ne,input,0,1\nq,output,1,0\nx,output,2,0\n",
    "names.csv": "bit,is,net\npart[0],0,\npart[1],net,d[4]\npart[2],gone,\ngone[8],gone,\ngone[9],gone,\n_13_,gone,\nclk,gone,\n"
                 '"inner.a(1,2",net,inner.a_1_2\ndeep.er,net,inner.a_1_2\n'}
LEFT = "in d were written: netlist.bench, stimuli.csv, options, constants.csv, names.csv, ports.csv, buses.csv\n"


def test_convert():
    see("a whole design", converted(WHOLE), ((0, SAID + LEFT, ""), FILES))
    given = {**FILES, "options": "--horizon 1000 --clock 7:50 --init 0\n"}
    see("ticks that are given", converted(WHOLE, ["--clock", "clk=7:50"]), ((0, SAID + LEFT, ""), given))
    see("ticks that are too few", converted(WHOLE, ["--clock", "clk=0:3"])[0], (0, SAID + "--clock clk: a period of 3 ticks is shorter\n" + LEFT, ""))


def test_kept():
    left = LEFT.replace(" stimuli.csv, options,", "") + "in d are left as they were: stimuli.csv, options\n"
    for name, mine, said in (
            ("files that stand", {"stimuli.csv": FILES["stimuli.csv"], "options": "--horizon 9 --clock 3:4 --init 0\n"}, ""),
            ("a period that is too short", {"stimuli.csv": FILES["stimuli.csv"], "options": "--horizon 9 --clock=3:3 --init=0\n"},
             "d/options has a period of 3 ticks, which is shorter\n"),
            ("levels to begin with that are missing", {"stimuli.csv": FILES["stimuli.csv"], "options": "--clock 3:4\n"},
             "d/options hasn't the --init 0 that the design asks for\n"),
            ("inputs without levels", {"stimuli.csv": "tick,net,value\n0,d[4],0\n0,e[0],1\n", "options": "--init 0"},
             "d/stimuli.csv has no row of d[5], e[1]: x at all ticks\n"),
            ("clocks of earlier", {"stimuli.csv": FILES["stimuli.csv"], "options": "--init 0", "clocks.csv": "mine\n"},
             "d/clocks.csv is there, and the design has no two clocks\n"),
            ("first levels of earlier", {"stimuli.csv": FILES["stimuli.csv"], "options": "--init 0", "initial.csv": "mine\n"},
             "d/initial.csv is there, and flip-flops begin alike\n")):
        see(name, converted(WHOLE, files=mine), ((0, SAID + said + left, ""), {**FILES, **mine}))
    mine = {"stimuli.csv": FILES["stimuli.csv"], "options": "--clock 3:4 --init 0\n"}
    for ticks, said in (("3:4", ""), ("3:5", "d/options has the clock 3:4\n")):
        see(f"a clock {ticks}", converted(WHOLE, ["--clock", f"clk={ticks}"], mine), ((0, SAID + said + left, ""), {**FILES, **mine}))


def test_first_levels():
    ports = {"clk": port("input", 2), "d": port("input", 4), "q": port("output", 6)}
    cells = [flop(2, 4, 5), flop(2, 5, 6), flop(2, 6, 7)]
    wires = {"p": {"bits": [5, 7], "attributes": {"init": "x1"}}, "q": {"bits": [6], "attributes": {"init": "0"}}}
    (status, said, _), files = converted(design(ports, cells, wires))
    see("levels that differ", (status, files["initial.csv"], files["options"]),
        (0, "net,value\np[0],1\nq,0\np[1],x\n", "--horizon 200 --clock 9:10\n"))
    see("levels that differ are told", "flip-flops begin with different levels, which initial.csv has\n" in said, True)
    wires["q"]["attributes"]["init"] = wires["p"]["attributes"]["init"] = "1"
    files = converted(design(ports, cells[:2], wires))[1]
    see("levels that are alike", ("initial.csv" in files, files["options"]), (False, "--horizon 200 --clock 9:10 --init 1\n"))


def test_clocks():
    ports = {"a": port("input", 2), "b": port("input", 3), "d": port("input", 4), "q": port("output", 6)}
    two = design(ports, [flop(2, 4, 5), flop(3, 5, 6, "$_DFF_N_")])
    refused("two clocks", two, ["there are 2 clocks, and each has to be given its ticks: --clock a=F:P (flip-flops: 1), --falling b=F:P (flip-flops: 1)"])
    refused("an edge of no flip-flop", two, ["--clock b: no flip-flop samples at this edge"], ["--clock", "b=1:2"])
    ran, files = converted(two, ["--clock", "a=3:10", "--falling", "b=5:7"])
    see("two clocks with ticks", (ran[0], files["clocks.csv"], files["options"]), (0, "net,first,period\n_5_,3,10\nq,5,7\n", "--horizon 200\n"))
    # By hand: p (5) samples d by a; its inverse (7) and d are AND (8), which q samples by b; p's inverse goes back to p's second stage (9).
    paths = design(ports, [flop(2, 4, 5), gate("NOT", 7, 5), gate("AND", 8, 7, 4), flop(3, 8, 6, "$_DFF_N_"), gate("NOT", 10, 7), flop(2, 10, 9)])
    said = converted(paths, ["--clock", "a=3:10", "--falling", "b=5:7"])[0][1].splitlines()
    see("paths by clock", [line for line in said if "longest path" in line], [
        "3 ticks in the longest path, if each gate takes one, so the shortest period is of 3 ticks",
        "3 ticks in the longest path from --clock a to itself", "0 ticks in the longest path from inputs to --clock a",
        "1 ticks in the longest path from inputs to --falling b", "3 ticks in the longest path from other clocks to --falling b"])
    gated = design(ports, [gate("AND", 7, 2, 3), flop(7, 4, 6)])
    refused("a gated clock", gated, ["_7_ is a clock and no input: make an enable of a gated or divided clock"])
    read = design(ports, [flop(2, 4, 5), gate("AND", 6, 2, 5)])
    refused("a clock that is read", read, ["a is a clock, which is no net here, and something else reads it"])


def test_refusals():
    ports = {"a": port("input", 2), "y": port("output", 3)}
    for kind, said in (
            ("$_DFFE_PP_", "dffunmap"), ("$_SDFF_PP0_", "dffunmap"), ("$_SDFFCE_PP0P_", "dffunmap"), ("$_DFF_PN0_", "--async"),
            ("$_DFFE_PP0P_", "--async"), ("$_DFFSR_PPP_", "--async"), ("$_ALDFF_PP_", "--async"), ("$_DLATCH_P_", "a latch"),
            ("$_DLATCHSR_PPP_", "a latch"), ("$_SR_PP_", "a latch"), ("$_TBUF_", "tribuf"), ("$_FF_", "without a clock"), ("$_MUX_", "abc -g"),
            ("$_ANDNOT_", "abc -g"), ("$lut", "abc -g"), ("$mem_v2", "memory_map"), ("$assert", "chformal"), ("$add", "synth -flatten"),
            ("$dff", "synth -flatten"), ("adder", "flatten"), ("NAND2_X1", "--liberty")):
        ran, files = converted(design(ports, [flop(2, 2, 3, kind)]))
        see(kind, (ran[0], said in ran[2], f"1 of type {kind}, the first at d.v:3.1-3.9: " in ran[2], files), (1, True, True, {}))
    refused("an inout", design({**ports, "b": port("inout", 4)}, [gate("NOT", 3, 2)]), ["b is an inout: make it an input and an output"])
    refused("two drivers", design(ports, [gate("NOT", 3, 2), gate("BUF", 3, 2)]), ["y has 2 drivers"])
    refused("no driver", design(ports, [gate("AND", 3, 2, 9)]), ["_9_ is driven by nothing: run setundef -undriven -zero, or mend the design"])
    both = {"modules": {name: {**design(ports, [gate("NOT", 3, 2)])["modules"]["d"], "attributes": {}} for name in ("e", "f")}}
    refused("two modules", both, ["of the modules e, f one has to be named by --top"])
    see("one of two modules", converted(both, ["--top", "f"])[0][0], 0)
    see("no design", converted([])[0], (2, "", "from_yosys: d.json isn't what write_json writes\n"))


def test_loops():
    ports = {"s": port("input", 2), "r": port("input", 3), "q": port("output", 4)}
    ran, files = converted(design(ports, [gate("NAND", 4, 2, 5), gate("NAND", 5, 3, 4)]))
    see("a loop of gates", (ran[0], ran[1].split("\n")[1], files["netlist.bench"].split("\n")[-3:]),
        (0, "there are loops of gates, so no path is the longest", ["_5_ = NAND(r, q)", "q = NAND(s, _5_)", ""]))


# ---- completions and the manual page

def completed(*words):
    """What bash would offer for the last word."""
    script = f"source {TOP}/completions/cmbsim.bash; COMP_WORDS=(\"$@\"); COMP_CWORD=$(($# - 1)); _cmbsim; echo ${{COMPREPLY[*]}}"
    ran = subprocess.run(["bash", "-c", script, "bash", *words], cwd=f"{TOP}/examples/s27", stdout=subprocess.PIPE, universal_newlines=True, check=True)
    return ran.stdout.split()


def test_completions():
    see("commands", completed("cmbsim", ""), ["run", "activity", "expect", "check", "explain", "help", "-h", "--help", "-V", "--version"])
    see("options", completed("cmbsim", "run", "--horizon", "9", "--cl"), ["--clock", "--clocks", "--clusters"])
    see("options of check", completed("cmbsim", "check", "--horizon", "9", "--cl"), ["--clock", "--clocks"])
    see("options of activity", completed("cmbsim", "activity", "--horizon", "9", "--only"), ["--only", "--only-outputs"])
    see("options of expect", completed("cmbsim", "expect", "--horizon", "9", "--e"), ["--explain", "--expected"])
    see("what activity doesn't tell", completed("cmbsim", "activity", "--horizon", "9", "--s"), ["--stimuli"])
    see("modes", completed("cmbsim", "run", "--mode", ""), ["rounds", "free", "plain"])
    see("a mode", completed("cmbsim", "run", "--mode", "f"), ["free"])
    see("levels", completed("cmbsim", "run", "--init", ""), ["0", "1", "x"])
    see("files", completed("cmbsim", "run", "--clocks", "cl"), ["clocks.csv"])
    see("faults", completed("cmbsim", "explain", "6"), ["6", "60", "61", "62"])
    see("numbers", completed("cmbsim", "run", "--horizon", ""), [])
    see("commands with help of their own", completed("cmbsim", "help", "e"), ["expect", "explain"])


def test_other_shells():
    """fish is asked for completions, and zsh whether it can read its own, if they are installed."""
    for line, wanted in (("run --horizon 9 --cl", ["--clock", "--clocks", "--clusters"]), ("check --cl", ["--clock", "--clocks"]),
                         ("run --mode ", ["free", "plain", "rounds"]), ("explain 6", ["6", "60", "61", "62"]), ("help e", ["expect", "explain"]),
                         ("run --horizon ", []), ("act", ["activity"])):
        if shutil.which("fish"):
            words = ["fish", "--no-config", "-c", f"source {TOP}/completions/cmbsim.fish; complete -C 'cmbsim {line}'"]
            ran = subprocess.run(words, stdout=subprocess.PIPE, universal_newlines=True)
            see(f"fish: {line}", sorted(it.split("\t")[0] for it in ran.stdout.splitlines()), wanted)
    if shutil.which("zsh"):
        see("zsh reads its completions", subprocess.run(["zsh", "-n", f"{TOP}/completions/cmbsim.zsh"]).returncode, 0)


def test_words():
    words = set()
    for name in ("reading", "explaining", "options"):
        with open(f"{TOP}/crates/cmb_cli/src/{name}.rt", encoding="utf-8") as file:
            words |= set(re.findall(r'(?:Command::new\(alloc, |name: )"([a-z-]+)"', file.read())) - {"cmbsim"}
    with open(f"{TOP}/docs/cmbsim.1", encoding="ascii") as file:
        manual = file.read().replace("\\-", "-")
    texts = {"the manual page": manual}
    for shell in ("bash", "zsh", "fish"):
        with open(f"{TOP}/completions/cmbsim.{shell}", encoding="ascii") as file:
            texts[f"completions for {shell}"] = file.read()
    see("the line has words", {"run", "activity", "expect", "check", "explain", "horizon", "clocks"} <= words, True)
    for name, text in texts.items():
        see(f"words that {name} lacks", [word for word in sorted(words) if not re.search(rf"\b{word}\b", text)], [])


def test_nets():
    netlist = "# INPUT(no)\nINPUT(a)  INPUT(led[9])\nOUTPUT(led[1])\nled[0] = NOT(a) led[1]=AND (a, led[0])\nledge = BUFF(a)\n"
    for patterns, wanted in ((["led"], (0, "led[9]\nled[0]\nled[1]\n", "")), (["led[[]*]"], (1, "", "nets.py: no net fits led[[]*]\n")),
                             (["led[*]"], (0, "led[9]\nled[0]\nled[1]\n", "")), (["led*", "?"], (0, "a\nled[9]\nled[0]\nled[1]\nledge\n", "")),
                             (["no", "ledge"], (1, "ledge\n", "nets.py: no net fits no\n")), (["ledge"], (0, "ledge\n", ""))):
        with tempfile.TemporaryDirectory() as folder:
            see(f"nets of {patterns}", run(folder, ["nets.py", *patterns], netlist), wanted)


# ---- saif.py

SAIF_HEAD = """\
(SAIFILE
(SAIFVERSION "2.0")
(DIRECTION "backward")
(DESIGN )
(DATE )
(VENDOR )
(PROGRAM_NAME "cmbsim")
(VERSION )
(DIVIDER .)
"""
# Two nets of the top, two of an instance, with one of an instance of its own between them, and one that isn't parted.
ACTIVITIES = 'net,changes,low,high,unknown\na,1,5,5,0\nu.led[0],2,4,5,1\n"""b""",0,0,0,10\nu.v.q$,3,9,1,0\nu.led[1],0,10,0,0\n.c,1,9,0,1\n'
SAIF = SAIF_HEAD + """\
(TIMESCALE 1 ns)
(DURATION 10)
(INSTANCE top
  (NET
    (a (T0 5) (T1 5) (TX 0) (TC 1))
    (\\"b\\" (T0 0) (T1 0) (TX 10) (TC 0))
    (\\.c (T0 9) (T1 0) (TX 1) (TC 1))
  )
  (INSTANCE u
    (NET
      (led\\[0\\] (T0 4) (T1 5) (TX 1) (TC 2))
      (led\\[1\\] (T0 10) (T1 0) (TX 0) (TC 0))
    )
    (INSTANCE v
      (NET
        (q\\$ (T0 9) (T1 1) (TX 0) (TC 3))
      )
    )
  )
)
)
"""


def test_saif():
    with tempfile.TemporaryDirectory() as folder:
        saif = lambda text, *words: run(folder, ["saif.py", *words], text)
        see("saif of scopes", saif(ACTIVITIES), (0, SAIF, ""))
        see("saif of a top", saif("net,changes,low,high,unknown\n", "--top", "chip", "--timescale", "10 ps"),
            (0, SAIF_HEAD + "(TIMESCALE 10 ps)\n(DURATION 0)\n(INSTANCE chip\n)\n)\n", ""))
        for text, said in (("", "record 1: not the header net,changes,low,high,unknown"), ("net,changes,low,high\n", "record 1: not the header net,changes,low,high,unknown"),
                           ("net,changes,low,high,unknown\na,1,5,5\n", "record 2: not a net and four numbers"),
                           ("net,changes,low,high,unknown\na,1,5,5,0\nb,1,5,x,0\n", "record 3: not a net and four numbers"),
                           ("net,changes,low,high,unknown\na,1,5,5,0\nb,1,5,5,1\n", "record 3: 11 ticks, and 10 before")):
            see(f"saif of {text!r}", saif(text), (1, "", f"saif.py: {said}\n"))
        see("saif of a wrong time", saif(ACTIVITIES, "--timescale", "1ns")[0], 2)


def main():
    for test in (test_compare, test_compare_names, test_unreadable, test_read, test_gtkw, test_parts, test_gtkw_parts, test_convert, test_kept, test_first_levels, test_clocks, test_refusals, test_loops,
                 test_completions, test_other_shells, test_words, test_nets, test_saif):
        test()
    print(f"{COUNTS['passed']} passed, {COUNTS['failed']} failed")
    return 1 if COUNTS["failed"] else 0


if __name__ == "__main__":
    sys.exit(main())
