#!/usr/bin/env python3
"""read_vcd.py: reads the levels of nets and buses off a value change dump.

  read_vcd.py [--at TIME] [--names FILE] NAME.. < DUMP

For each NAME there is a line with its level after all changes, or at TIME: 0, 1 or x for a net of this name, and hexadecimal
digits for a bus, which is all nets NAME[0], NAME[1] and so on; a digit with a bit that isn't known is x. Each bit stands at its
place. One that isn't there is shown as ?, its digit too, and standard error names it. FILE is names.csv, by which from_yosys.py
tells what became of bits that have no net of their own; buses.csv beside it tells which end of a bus is the left one. Without
it that is the highest number, and each bus has a bit 0.

Status 2: there is no net of such a name, or the dump or a table can't be read."""
import argparse
import sys

from buses import Buses, said_of
from names import NamesUnreadable, level_of
from vcd import Unreadable, dump_of_input


def levels_at(dump, time):
    """The levels of all nets at a time, or after all changes where it is None."""
    levels = dict.fromkeys(dump.names(), "x")
    for at, changes in dump.blocks():
        if time is not None and at > time * dump.unit:
            break
        levels.update(changes)
    return levels


def digits_of(bits):
    """Hexadecimal digits of levels, the leftmost one first."""
    digits = [bits[max(end - 4, 0):end] for end in range(len(bits), 0, -4)]
    return "".join("?" if "?" in it else f"{int(it, 2):x}" if set(it) <= set("01") else "x" for it in reversed(digits))


def shown(name, buses, levels):
    """What is printed of a name, and which of its bits aren't there; or None where there is no such name."""
    bits = [name] if buses.has(name) else buses.bits(name)
    if not bits:
        return None
    found = {bit: level_of(bit, levels, buses.names) for bit in bits}
    text = "".join(level or "?" for level in found.values())
    return text if buses.has(name) else digits_of(text), [bit for bit, level in found.items() if level is None]


def main():
    parser = argparse.ArgumentParser(description="Reads the levels of nets and buses off a value change dump on standard input.")
    parser.add_argument("--at", metavar="TIME", type=int, help="the levels at this time, in units of the dump")
    parser.add_argument("--names", metavar="FILE", help="names.csv, which tells of bits that have no net of their own")
    parser.add_argument("names_shown", metavar="NAME", nargs="+")
    line = parser.parse_args()
    try:
        dump = dump_of_input()
        buses, levels = Buses(dump, line.names), levels_at(dump, line.at)
    except (Unreadable, NamesUnreadable) as error:
        print(f"read_vcd: {error}", file=sys.stderr)
        return 2
    found = [shown(name, buses, levels) for name in line.names_shown]
    missing = [name for name, it in zip(line.names_shown, found) if it is None]
    if missing:
        print(f"read_vcd: there is no net {', '.join(missing)}", file=sys.stderr)
        return 2
    for words in said_of([bit for _, bits in found for bit in bits], "has no net, and is shown as ?"):
        print(f"read_vcd: {words}", file=sys.stderr)
    print("\n".join(text for text, _ in found))
    return 0


if __name__ == "__main__":
    sys.exit(main())
