"""buses.py: which bits a bus has and what each is, for read_vcd.py and gtkw.py."""
import csv
import os
import re

from names import NamesUnreadable, read_names

HEADER = ["name", "left", "right"]
BIT = re.compile(r"(.+)\[(0|[1-9]\d{0,6})\]")


def read_buses(path):
    """The left and the right number of each bus that buses.csv tells of; of none where there is no such file."""
    if not os.path.exists(path):
        return {}
    with open(path, encoding="utf-8", newline="") as file:
        rows = csv.reader(file)
        try:
            if next(rows, None) != HEADER:
                raise ValueError
            return {name: (int(left), int(right)) for name, left, right in rows}
        except ValueError as error:
            raise NamesUnreadable(f"{path}, line {max(rows.line_num, 1)}: not a row of {','.join(HEADER)}, as from_yosys.py writes it") from error


class Buses:
    """The buses of a dump, and of the tables that from_yosys.py writes."""

    def __init__(self, dump, path=None):
        """The path is that of names.csv, beside which buses.csv stands."""
        self.nets = dump.names()
        self.places = dump.places
        self.names = read_names(path) if path else {}
        self.has_tables = path is not None
        self.ends = {**dump.buses(), **(read_buses(os.path.join(os.path.dirname(path), "buses.csv")) if path else {})}
        self.numbers = {}
        for bit in (*self.nets, *self.names):
            found = BIT.fullmatch(bit)
            if found:
                self.numbers.setdefault(found[1], set()).add(int(found[2]))

    def bits(self, name):
        """The bits of a bus, the leftmost one first; none where there is no such bus. Without tables it ends with bit 0."""
        numbers = self.numbers.get(name)
        if not numbers:
            return []
        low, high = min(numbers), max(numbers)
        left, right = self.ends.get(name, (high, low))
        if not (min(left, right) <= low and high <= max(left, right)) or (name not in self.ends and not self.has_tables):
            left, right = high, 0
        step = 1 if left < right else -1
        return [f"{name}[{number}]" for number in range(left, right + step, step)]

    def has(self, name):
        """Whether a net, or a bit that the table tells of, has this name."""
        return name in self.nets or name in self.names

    def net_of(self, bit):
        """The net that shows the level of a bit, or None."""
        kind, net = ("net", bit) if bit in self.nets else self.names.get(bit, ("gone", ""))
        return net if kind == "net" and net in self.nets else None


def runs_of(bits):
    """The bits, of which those of a bus that follow one another stand together, as a[3:1]."""
    runs = []
    for bit in bits:
        found = BIT.fullmatch(bit)
        name, number = (found[1], int(found[2])) if found else (bit, None)
        if runs and found and runs[-1][0] == name and abs(runs[-1][2] - number) == 1:
            runs[-1][2] = number
        else:
            runs.append([name, number, number])
    return [name if first is None else f"{name}[{first}]" if first == last else f"{name}[{first}:{last}]" for name, first, last in runs]


def said_of(bits, words):
    """A line on bits; none where there are no bits."""
    return [f"{', '.join(runs_of(bits))} {words}"] if bits else []
