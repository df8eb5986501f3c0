"""ports.py: the inputs of a design, for stimuli.py and vcd_to_stimuli.py: off its netlist, or off ports.csv as from_yosys.py
writes it, which knows in which order the bits of a bus stand."""
import collections
import csv
import re

HEADER = ["name", "direction", "left", "right"]
INPUT = re.compile(r"(?<![^\s(),=#])INPUT\s*\(\s*([^\s(),=#]+)\s*\)", re.IGNORECASE)


class Unknown(Exception):
    """The file doesn't tell the inputs, or there is no input of a name."""


class Inputs:
    """The inputs, bit by bit, and the buses that they make, each with its bits, the rightmost one first."""

    def __init__(self, bits, buses):
        self.bits, self.buses = dict.fromkeys(bits), buses

    def of(self, name):
        """The bits that a name stands for, the rightmost one first."""
        if name in self.bits:
            return [name]
        if name not in self.buses:
            raise Unknown(f"there is no input {name}")
        if not self.bits.keys() >= set(self.buses[name]):
            raise Unknown(f"the bits of {name} have a gap: give them their levels one by one")
        return self.buses[name]


def of_netlist(text):
    """The inputs of a netlist, whose highest number is the leftmost bit of a bus."""
    bits, numbers = INPUT.findall(re.sub("#.*", "", text)), collections.defaultdict(list)
    for bit in bits:
        found = re.fullmatch(r"(.+)\[(0|[1-9]\d{0,5})\]", bit)
        if found:
            numbers[found[1]].append(int(found[2]))
    return Inputs(bits, {name: bits_of_port(name, max(found), min(found)) for name, found in numbers.items()})


def bits_of_port(name, left, right):
    """The bits of a bus, the rightmost one first."""
    step = 1 if right <= left else -1
    return [f"{name}[{number}]" for number in range(right, left + step, step)]


def of_ports(path, lines):
    """The inputs of a table of ports."""
    rows, bits, buses = csv.reader(lines, strict=True), [], {}
    try:
        if next(rows, None) != HEADER:
            raise ValueError
        for name, direction, left, right in rows:
            if direction == "input" and (left or right):
                buses[name] = bits_of_port(name, int(left), int(right))
            elif direction not in ("input", "output"):
                raise ValueError
            bits += ([] if direction == "output" else buses.get(name, [name]))
    except (ValueError, csv.Error) as error:
        raise Unknown(f"{path}, line {max(rows.line_num, 1)}: not a row of {','.join(HEADER)}, as from_yosys.py writes it") from error
    return Inputs(bits, buses)


def inputs_of(line):
    """The inputs, of the file that the command line names."""
    path = line.ports or line.netlist
    try:
        with open(path, encoding="latin-1", newline="") as file:
            return of_ports(path, file) if line.ports else of_netlist(file.read())
    except OSError as error:
        raise Unknown(f"{path}: {error.strerror}") from error


def add_options(parser):
    """The two options of the command line, of which one has to be given."""
    either = parser.add_mutually_exclusive_group(required=True)
    either.add_argument("--ports", metavar="FILE", help="the list of the design's ports, as from_yosys.py writes it: ports.csv")
    either.add_argument("--netlist", metavar="FILE", help="or the netlist; the highest number is then the leftmost bit of a bus")
