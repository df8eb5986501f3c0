#!/usr/bin/env python3
"""vcd_to_stimuli.py: makes a table of stimuli for cmbsim of what a dump has of a design's inputs, whichever simulator wrote it.

  vcd_to_stimuli.py (--ports FILE | --netlist FILE) [--scope SCOPE] [--tick TIME] < FILE.vcd > stimuli.csv

The inputs are those of ports.csv or of a netlist. Names are taken below the scope that all variables of the dump stand in, or below
SCOPE, as test.dut. A tick is 1 ns of the dump, or TIME, as 100ps. A level z is x. An input that the dump doesn't have stays x, and
changes behind the largest horizon are left out: standard error says so. Status 2: the dump has no input, a change isn't at a
whole tick, or a file can't be read."""
import argparse
import sys

from ports import Unknown, add_options, inputs_of
from vcd import Dump, Unreadable, unit_of

NAMED = 8  # as many names are printed
MOST_TICKS = 1000000


def tick_of(text):
    """The value of --tick, in femtoseconds."""
    unit = unit_of(text.replace(" ", ""))
    if unit is None:
        raise argparse.ArgumentTypeError(f"{text} is no time as 1ns or 100ps")
    return unit


def rows_of(dump, inputs, tick):
    """The rows: the first level of each input, and then its changes."""
    now = dict.fromkeys(inputs, "x")
    for time, levels in dump.blocks():
        if time >= MOST_TICKS * tick and levels:
            print(f"vcd_to_stimuli: what changes from tick {time // tick} on is left out, since a horizon is at most {MOST_TICKS}: "
                  "is --tick right?", file=sys.stderr)
            return
        changes = {net: level.replace("z", "x") for net, level in levels.items() if net in now}
        changes = [(net, level) for net, level in changes.items() if level != now[net]]
        if changes and time % tick:
            raise Unknown(f"{changes[0][0]} changes between two ticks: give a shorter --tick, and delays and clocks to match")
        now.update(changes)
        yield from (f"{time // tick},{net},{level}" for net, level in changes)


def told(names, inputs):
    """Says on standard error which inputs the dump doesn't have."""
    lacking = [net for net in inputs if net not in names]
    if inputs and len(lacking) == len(inputs):
        raise Unknown("the dump has none of the inputs: --scope says where they are")
    if lacking:
        more = f" and {len(lacking) - NAMED} more" if len(lacking) > NAMED else ""
        print(f"vcd_to_stimuli: the dump has no {', '.join(lacking[:NAMED])}{more}: x at all ticks", file=sys.stderr)


def arguments():
    parser = argparse.ArgumentParser(description="Makes a table of stimuli of the inputs in a value change dump on standard input.")
    add_options(parser)
    parser.add_argument("--scope", metavar="SCOPE", help="the scope of the dump to take, as test.dut")
    parser.add_argument("--tick", metavar="TIME", type=tick_of, default="1ns", help="what a tick is of the dump's time [default: 1ns]")
    return parser.parse_args()


def main():
    line = arguments()
    try:
        sys.stdin.reconfigure(encoding="latin-1")
        inputs, dump = inputs_of(line).bits, Dump("standard input", sys.stdin, line.scope)
        told(dump.names(), inputs)
        print("\n".join(["tick,net,value", *rows_of(dump, inputs, line.tick)]))
    except (Unknown, Unreadable) as error:
        print(f"vcd_to_stimuli: {error}", file=sys.stderr)
        return 2
    return 0


if __name__ == "__main__":
    sys.exit(main())
