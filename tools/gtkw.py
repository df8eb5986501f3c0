#!/usr/bin/env python3
"""gtkw.py: makes a save file for GTKWave that shows nets and buses of a dump of cmbsim, all of its time in one window.

  gtkw.py [--width PIXELS] [--names FILE] NAME.. < FILE.vcd > FILE.gtkw

A NAME is a net, or a bus, which is all nets NAME[0], NAME[1] and so on and is shown in hexadecimal digits; GTKWave alone shows it bit
by bit, since such a bit is a variable of its own. FILE is names.csv, by which from_yosys.py tells which net shows a bit that has
none of its own. GTKWave shows nets alone: where a bit of a digit has none, standard error names it, and the others of its digit
stand apart, in binary digits and with their numbers.

Status 2: there is no net of such a name, or the dump or a table can't be read."""
import argparse
import itertools
import math
import sys

from buses import Buses, runs_of, said_of
from names import NamesUnreadable
from vcd import Unreadable, dump_of_input, last_time

NET, BUS = "@28", "@22"
SCALE = 203  # a pixel shows 2 to the power of the zoom units of time, over this number, as was seen of GTKWave 3.3


def lines_of_part(bits, nets, places, is_whole):
    """The lines of digits, with whether all bits of these are there."""
    there = [bit for bit in bits if nets[bit]]
    if not there:
        return []
    return [BUS if is_whole else NET, " ".join([f"#{{{','.join(runs_of(there))}}}", *(places[nets[bit]] for bit in there)])]


def lines_of_bus(bits, nets, places):
    """The lines of a bus: digits with all their bits are shown together, others by themselves."""
    first = len(bits) % 4
    digits = [bits[at:at + 4] for at in range(first, len(bits), 4)]
    digits = ([bits[:first]] if first else []) + digits
    parts = itertools.groupby(digits, lambda digit: all(nets[bit] for bit in digit))
    return [line for is_whole, part in parts for line in lines_of_part([bit for digit in part for bit in digit], nets, places, is_whole)]


def lines_of(name, buses):
    """The lines of a net or a bus and which of its bits have no net, or None where there is no such name."""
    if buses.has(name):
        net = buses.net_of(name)
        return [NET, buses.places[name] if net == name else f"+{{{name}}} {buses.places[net]}"] if net else [], [] if net else [name]
    bits = buses.bits(name)
    nets = {bit: buses.net_of(bit) for bit in bits}
    return (lines_of_bus(bits, nets, buses.places), [bit for bit in bits if not nets[bit]]) if bits else None


def head_of(end, width):
    """The lines of the window."""
    zoom = math.log2(max(end, 1) / max(width - 260, 1) * SCALE)
    return ["[timestart] 0", f"[size] {width} 400", "[pos] -1 -1", f"*-{zoom:.6f}" + " -1" * 27,
            "[sst_width] 0", "[signals_width] 190", "[sst_expanded] 0"]


def main():
    parser = argparse.ArgumentParser(description="Makes a save file for GTKWave of a dump on standard input.")
    parser.add_argument("--width", metavar="PIXELS", type=int, default=1400, help="the width of the window [default: 1400]")
    parser.add_argument("--names", metavar="FILE", help="names.csv, which tells of bits that have no net of their own")
    parser.add_argument("names_shown", metavar="NAME", nargs="+")
    line = parser.parse_args()
    try:
        buses, end = Buses(dump_of_input(), line.names), last_time(sys.stdin.buffer)
    except (Unreadable, NamesUnreadable) as error:
        print(f"gtkw: {error}", file=sys.stderr)
        return 2
    found = [lines_of(name, buses) for name in line.names_shown]
    missing = [name for name, it in zip(line.names_shown, found) if it is None]
    if missing:
        print(f"gtkw: there is no net {', '.join(missing)}", file=sys.stderr)
        return 2
    for words in said_of([bit for _, bits in found for bit in bits], "has no net to show, and is left out"):
        print(f"gtkw: {words}", file=sys.stderr)
    print("\n".join(head_of(end, line.width) + [it for lines, _ in found for it in lines] + ["[pattern_trace] 1", "[pattern_trace] 0"]))
    return 0


if __name__ == "__main__":
    sys.exit(main())
