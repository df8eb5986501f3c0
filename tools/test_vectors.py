#!/usr/bin/env python3
"""test_vectors.py: runs the tools that make stimuli, and those that hold a dump against another simulator's, on small texts that were
written by hand. The last line is 'N passed, M failed'."""
import os
import shutil
import subprocess
import sys
import tempfile

from test_tools import BITS, BUS, COUNTS, HERE, put, run, see

PORTS = """\
name,direction,left,right
a,input,5,0
up,input,0,7
high,input,11,4
go,input,,
q,output,3,0
"""
NETLIST = """\
input ( w[4] ) # INPUT(v)
INPUT(w[6]) INPUT(w[5])
INPUT
(go) y = NOT(go)
"""
# Second lines that are wrong, behind one that gives go a level at tick 0, each with what has to be said of it.
WRONG = """\
9 a=0x40 | 0x40 is too large for 6 bits
9 a=64 | 64 is too large for 6 bits
9 a=4'h2a | 4'h2a is too large for 4 bits
9 a=0bxxxxxxx | 0bxxxxxxx is too large for 6 bits
9 go=2 | 2 is too large for 1 bit
9 b=1 | there is no input b
9 q=1 | there is no input q
9 a[6]=1 | there is no input a[6]
9 a | a isn't NAME=VALUE
9 =1 | =1 isn't NAME=VALUE
9 a= | a= isn't NAME=VALUE
9 a=0x | 0x is no value
9 a=0b12 | 0b12 is no value
9 a=6'o8 | 6'o8 is no value
9 a=z | z is no value
9 a=-1 | -1 is no value
9 a=2a | 2a is no value
1e3 go=1 | 1e3 is no tick
12345678901 go=1 | 12345678901 is no tick
after 9 a=1 | no line begins with after, but with a tick, NAME=VALUE, every, repeat, clock
0 go=1 | go has a level at tick 0 already
a=1 | there is no tick, and no line before says `every N`
repeat 2 | there is no tick, and no line before says `every N`
repeat | such a line is repeat N
every 0 | 0 is no length of a cycle
clock go 9 10 | a clock needs --horizon N, up to which it swings
clock go 9 | such a line is clock NAME FIRST PERIOD
"""


def rows(*changes):
    """A table of stimuli: each change is a tick, a name and the levels of its bits, with their numbers from left to right."""
    lines = ["tick,net,value"]
    for tick, name, numbers, levels in changes:
        lines += [f"{tick},{name}[{number}],{level}" for number, level in reversed(list(zip(numbers, levels)))]
    return "\n".join(lines) + "\n"


def made(name, given, wanted, words=("--ports", "ports.csv")):
    """Holds what stimuli.py makes of lines against the table that is wanted, or against what it has to say of line 2."""
    with tempfile.TemporaryDirectory() as folder:
        put(folder, {"ports.csv": PORTS, "n.bench": NETLIST})
        result = (0, wanted, "") if wanted.startswith("tick") else (2, "", f"stimuli: line 2: {wanted}\n")
        see(f"stimuli, {name}", run(folder, ["stimuli.py", *words], given), result)


SIX = range(5, -1, -1)


def test_widths():
    """Values are as wide as their buses, and stand in the order of these."""
    made("a value that is shorter", "0 a=0b111111\n9 a=0x5\n", rows((0, "a", SIX, "111111"), (9, "a", SIX, "000101")))
    made("a bus from 0 to 7", "0 up=0x01\n", rows((0, "up", range(8), "00000001")))
    made("a bus from 11 to 4", "0 high=0x81\n", rows((0, "high", range(11, 3, -1), "10000001")))
    made("a bit of it", "0 high[4]=1 go=x\n", "tick,net,value\n0,high[4],1\n0,go,x\n")
    for value in ("42", "0x2a", "0X2A", "0b10_1010", "6'h2a", "6'o52", "6'd42", "8'b00101010", "'h2A", "0x0002a"):
        made(value, f"0 a={value}\n", rows((0, "a", SIX, "101010")))
    for value, levels in (("x", "xxxxxx"), ("0xx", "xxxxxx"), ("0x0x", "00xxxx"), ("0b1x", "00001x"), ("6'bx0", "xxxxx0"), ("4'bx", "00xxxx"),
                          ("'dx", "xxxxxx"), ("0xxx", "xxxxxx")):
        made(value, f"0 a={value}\n", rows((0, "a", SIX, levels)))
    netlist = ["--netlist", "n.bench"]
    made("a bus of a netlist", "0 w=3'h1 go=1\n", rows((0, "w", (6, 5, 4), "001")) + "0,go,1\n", netlist)
    made("no bit of a netlist", "0 go=1\n0 w[3]=1\n", "there is no input w[3]", netlist)
    made("a name in a comment", "0 go=1\n0 v=1\n", "there is no input v", netlist)


def test_wrong_lines():
    """A line that can't be true is an error, with its number."""
    for row in WRONG.splitlines():
        line, said = row.split(" | ")
        made(line, f"0 go=0\n{line}\n", said)
    made("a clock that is a bus", "\nclock a 0 10\n", "a is a bus, and no clock", ["--ports", "ports.csv", "--horizon", "20"])
    made("a clock of one tick", "\nclock go 0 1\n", "1 is no period of a clock", ["--ports", "ports.csv", "--horizon", "20"])
    made("nothing to repeat", "every 9\nrepeat 2\n", "no line before says what stays")
    with tempfile.TemporaryDirectory() as folder:
        put(folder, {"ports.csv": PORTS.replace("a,input,5,0", "a,input,5,")})
        said = "stimuli: ports.csv, line 2: not a row of name,direction,left,right, as from_yosys.py writes it\n"
        see("no table of ports", run(folder, ["stimuli.py", "--ports", "ports.csv"]), (2, "", said))
        see("no file", run(folder, ["stimuli.py", "--netlist", "n.bench"]), (2, "", "stimuli: n.bench: No such file or directory\n"))
        see("no file is named", run(folder, ["stimuli.py"])[:2], (2, ""))
        see("a word too many", run(folder, ["stimuli.py", "--ports", "ports.csv", "more"])[:2], (2, ""))
        status, out, said = run(folder, ["stimuli.py", "--help"])
        words = ("--ports", "--netlist", "every N", "repeat N", "clock NAME", "6'h2a")
        see("help", (status, [word for word in words if word not in out], said), (0, [], ""))


def test_cycles():
    """Lines without a tick, and clocks."""
    lines = "# vectors\nevery 10\ngo=0 # the first cycle\ngo=1\nrepeat 3\ngo=0\n95 go=1\ngo=x\nevery 5\ngo=1\n"
    made("cycles", lines, "tick,net,value\n" + "".join(f"{tick},go,{level}\n" for tick, level in (
        (0, "0"), (10, "1"), (50, "0"), (95, "1"), (105, "x"), (110, "1"))))
    words = ["--ports", "ports.csv", "--horizon", "30"]
    made("a clock", "clock go 4 11\n", "tick,net,value\n" + "".join(f"{tick},go,{level}\n" for tick, level in (
        (0, 0), (9, 0), (20, 0), (4, 1), (15, 1), (26, 1))), words)
    made("a clock that begins high", "clock go 0 20\n", "tick,net,value\n10,go,0\n0,go,1\n20,go,1\n", words)
    made("a clock that has a level", "0 go=1\nclock go 9 10\n", "go has a level at tick 0 already", words)


# ---- vcd_to_stimuli.py

DUMP = """\
$timescale 100ps $end
$scope module test $end
$var reg 1 c clk $end
$scope module dut $end
$var wire 6 a a [5:0] $end
$var wire 8 u up [0:7] $end
$var wire 1 g go $end
$upscope $end
$upscope $end
$enddefinitions $end
#0
$dumpvars
bx a
b10z u
xg
0c
$end
#50
1c
b101010 a
b101010 u
#100
0c
0g
1g
b1 u
#150
1c
bx0 a
"""
TAKEN = """\
tick,net,value
0,up[0],0
0,up[1],0
0,up[2],0
0,up[3],0
0,up[4],0
0,up[5],1
0,up[6],0
5,a[5],1
5,a[4],0
5,a[3],1
5,a[2],0
5,a[1],1
5,a[0],0
5,up[2],1
5,up[4],1
5,up[5],0
5,up[6],1
5,up[7],0
10,go,1
10,up[2],0
10,up[4],0
10,up[6],0
10,up[7],1
15,a[5],x
15,a[4],x
15,a[3],x
15,a[2],x
15,a[1],x
"""


def test_dump():
    with tempfile.TemporaryDirectory() as folder:
        put(folder, {"ports.csv": PORTS, "n.bench": "INPUT(go)\nINPUT(one)\n", "m.bench": "INPUT(clk)\n"})
        high = ", ".join(f"high[{bit}]" for bit in range(4, 12))
        lacking = f"vcd_to_stimuli: the dump has no {high}: x at all ticks\n"
        command = ["vcd_to_stimuli.py", "--ports", "ports.csv", "--scope", "test.dut"]
        see("stimuli of a dump", run(folder, command, DUMP), (0, TAKEN, lacking))
        finer = TAKEN.replace("\n15,", "\n150,").replace("\n10,", "\n100,").replace("\n5,", "\n50,")
        see("a shorter tick", run(folder, [*command, "--tick", "100 ps"], DUMP), (0, finer, lacking))
        command = ["vcd_to_stimuli.py", "--netlist", "n.bench"]
        see("inputs of a netlist", run(folder, [*command, "--scope", "test.dut"], DUMP),
            (0, "tick,net,value\n10,go,1\n", "vcd_to_stimuli: the dump has no one: x at all ticks\n"))
        put(folder, {"o.bench": "y = NOT(y)\n"})
        see("no inputs", run(folder, ["vcd_to_stimuli.py", "--netlist", "o.bench"], DUMP), (0, "tick,net,value\n", ""))
        none = "vcd_to_stimuli: the dump has none of the inputs: --scope says where they are\n"
        see("another scope", run(folder, command, DUMP), (2, "", none))
        late = "vcd_to_stimuli: what changes from tick 5000000000 on is left out, since a horizon is at most 1000000: is --tick right?\n"
        see("a time scale of seconds", run(folder, ["vcd_to_stimuli.py", "--netlist", "m.bench"], DUMP.replace("100ps", "100ms")),
            (0, "tick,net,value\n0,clk,0\n", late))
        between = "vcd_to_stimuli: clk changes between two ticks: give a shorter --tick, and delays and clocks to match\n"
        see("a change between ticks", run(folder, ["vcd_to_stimuli.py", "--netlist", "m.bench"], DUMP.replace("#50", "#55")), (2, "", between))
        see("a broken dump", run(folder, command, "$var\n"), (2, "", "vcd_to_stimuli: standard input, line 1: $var has no $end\n"))


# ---- compare_vcd.py

# What a simulator without delays makes of the register of BITS, with two further nets.
RTL = """\
$timescale 1 ns $end
$scope module dut $end
$var wire 1 c clk $end
$var wire 1 ! clear $end
$var wire 2 n count [1:0] $end
$var wire 2 m more [1:0] $end
$upscope $end
$enddefinitions $end
#0
1!
bx n
bx1 m
0c
#9
1c
b0 n
b11 m
#14
0c
0!
#19
1c
b1 n
b01 m
#29
1c
b10 n
b11 m
#40
"""
NAMES = "bit,is,net\nmore[0],1,\nmore[1],not,count[0]\nlost,gone,\n"


def compared(name, words, wanted, a=BITS, b=RTL, names=NAMES):
    with tempfile.TemporaryDirectory() as folder:
        put(folder, {"a.vcd": a, "b.vcd": b, "names.csv": names})
        status, out, said = wanted
        see(f"compare_vcd, {name}", run(folder, ["compare_vcd.py", *words, "a.vcd", "b.vcd"]), (status, out, said))


def test_samples():
    early = 1, "".join(f"time 9: count[{bit}] is x in a.vcd and 0 in b.vcd\n" for bit in (1, 0)), ""
    compared("all times", ["--common"], early)
    compared("settled times", ["--common", "--sample", "8:10"], (0, "the same: 3 nets at 4 times\n", ""))
    unsettled = 1, "".join(f"time 9: count[{bit}] is x in a.vcd and 0 in b.vcd\n" for bit in (0, 1)), ""
    compared("times that aren't settled", ["--common", "--sample", "9:10"], unsettled)
    command, same = ["--common", "--sample", "8:10"], (0, "the same: 3 nets at 4 times\n", "")
    compared("a difference between them", command, same, b=RTL.replace("#14", "#13"))
    late = RTL.replace("#29\n1c\nb10 n", "#29\n1c\nb11 n")
    compared("a difference at one of them", command, (1, "time 38: count[0] is 0 in a.vcd and 1 in b.vcd\n", ""), b=late)
    compared("times below one", [*command, "--upto", "38"], (0, "the same: 3 nets at 3 times\n", ""), b=late)
    compared("units of the first dump", ["--sample", "80:100"], (0, "the same: 3 nets at 4 times\n", ""), a=BUS, b=BITS)
    compared("no time", ["--common", "--sample", "40:1"], (2, "", "compare_vcd: no time is left to compare\n"))
    compared("no net", ["--common", "--scope-b", "other"], (2, "", "compare_vcd: no net is in both dumps\n"))
    see("no clock", run(".", ["compare_vcd.py", "--sample", "9:0", "a", "b"])[0], 2)


def test_unknown():
    """An x may stand for a level on the side that is named, and for that alone."""
    command = ["--common", "--sample", "8:10"]
    blind = BITS.replace('0"\n', 'x"\n')
    differs = 1, "time 18: count[0] is x in a.vcd and 0 in b.vcd\n", ""
    same = 0, "the same: 3 nets at 4 times\n", ""
    compared("x is a level", command, differs, a=blind)
    compared("x of the one", [*command, "--x-matches", "a"], same, a=blind)
    compared("x of either", [*command, "--x-matches", "both"], same, a=blind)
    compared("x of the other", [*command, "--x-matches", "b"], differs, a=blind)
    compared("z of the other", [*command, "--x-matches", "b"], same, a=RTL, b=BITS.replace('0"\n', 'z"\n'))
    wrong = 1, "time 28: count[0] is 1 in a.vcd and 0 in b.vcd\n", ""
    compared("a wrong level isn't hidden", [*command, "--x-matches", "both"], wrong, a=blind, b=RTL.replace("b1 n", "b0 n"))
    never = 0, "the same: 3 nets at 4 times\n2 of them never 0 or 1 in both: count[0], count[1]\n", ""
    blind = blind.replace('1"', 'x"').replace("0#", "x#").replace("1#", "x#")
    compared("what was never known", [*command, "--x-matches", "a"], never, a=blind)


def test_names():
    """Bits that one dump doesn't have are made of the other's nets."""
    command = ["--sample", "8:10", "--names", "names.csv"]
    compared("bits of the table", command, (1, "only in b.vcd: clk\n", ""))
    compared("all but those", [*command, "--common"], (0, "the same: 5 nets at 4 times\n", ""))
    compared("the other way", [*command, "--common"], (0, "the same: 5 nets at 4 times\n", ""), a=RTL, b=BITS)
    wrong = 1, "time 28: more[1] is 0 in a.vcd and 1 in b.vcd\n", ""
    compared("a wrong bit of the table", [*command, "--common"], wrong, b=RTL.replace("b01 m", "b11 m"))
    wrong = 1, "time 8: more[0] is 1 in a.vcd and 0 in b.vcd\n", ""
    compared("a wrong level of the table", [*command, "--common"], wrong, b=RTL.replace("bx1 m", "bx0 m"))
    lost = BITS.replace("$upscope", "$var wire 1 $ lost $end\n$upscope")
    compared("a bit that is gone", ["--names", "names.csv"], (0, "the same: 3 nets\n", ""), b=lost)
    said = "compare_vcd: names.csv, line 1: not a row of bit,is,net, as from_yosys.py writes it\n"
    compared("no table of names", command, (2, "", said), names="net,is\n")


BENCH = """\
`timescale 1ns/1ns
module test;
  reg [5:0] a = 6'h2a;
  reg [0:7] up = 8'h01;
  reg go = 1;
  top dut(.a(a), .up(up), .go(go));
  initial begin
    $dumpfile("test.vcd");
    $dumpvars(0, dut);
    #10 go <= 0;
    #10 $finish;
  end
endmodule
module top(input [5:0] a, input [0:7] up, input [11:4] high, input go, output [3:0] q);
  assign q = a[3:0] & up[4:7];
endmodule
"""


def test_icarus():
    """Stimuli of a dump that Icarus wrote, where it is installed."""
    if not shutil.which("iverilog"):
        print("tools: iverilog isn't installed, so no dump of it was read")
        return
    with tempfile.TemporaryDirectory() as folder:
        put(folder, {"ports.csv": PORTS, "test.v": BENCH})
        subprocess.run(["iverilog", "-o", "test", "test.v"], cwd=folder, check=True, stderr=subprocess.DEVNULL)
        subprocess.run(["vvp", "-n", "test"], cwd=folder, check=True, stdout=subprocess.DEVNULL)
        with open(os.path.join(folder, "test.vcd"), encoding="ascii") as file:
            status, out, _ = run(folder, ["vcd_to_stimuli.py", "--ports", "ports.csv", "--scope", "test.dut"], file.read())
        wanted = rows((0, "a", SIX, "101010"), (0, "up", range(8), "00000001")) + "0,go,1\n10,go,0\n"
        see("a dump of Icarus", (status, sorted(out.split())), (0, sorted(wanted.split())))


def main():
    for test in (test_widths, test_wrong_lines, test_cycles, test_dump, test_samples, test_unknown, test_names, test_icarus):
        test()
    print(f"{COUNTS['passed']} passed, {COUNTS['failed']} failed")
    return 1 if COUNTS["failed"] else 0


if __name__ == "__main__":
    sys.exit(main())
