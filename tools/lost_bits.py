"""lost_bits.py: finds bits of the source that abc left no net of among the functions of the gates that it made, for from_yosys.py."""
import itertools

from names import LEVELS
from yosys_json import GATES, Cell, bits_by_name, in_order, tidy

KINDS = {**GATES, "$_MUX_": "MUX"}
OPPOSITES = {"NOT", "NAND", "NOR", "XNOR"}
TRUE = 1


class Functions:
    """A number for each function. That of the opposite is its negative, and TRUE is the constant 1."""

    def __init__(self):
        self.numbers, self.count = {}, itertools.count(2)

    def new(self):
        """The number of a function of which nothing is known."""
        return next(self.count)

    def number(self, *key):
        """The number of an operator and its operands."""
        if key not in self.numbers:
            self.numbers[key] = self.new()
        return self.numbers[key]

    def conjunction(self, a, b):
        """The function that is 1 where both are."""
        if a == -b or -TRUE in (a, b):
            return -TRUE
        if a == b or TRUE in (a, b):
            return b if a == TRUE else a
        return self.number("and", *sorted((a, b)))

    def parity(self, a, b):
        """The function that is 1 where the two differ."""
        sign = 1 if (a > 0) == (b > 0) else -1
        low, high = sorted((abs(a), abs(b)))
        if low == high:
            return -sign * TRUE
        return -sign * high if low == TRUE else sign * self.number("xor", low, high)

    def gate(self, kind, operands):
        """The function of a gate, by those of its operands."""
        a, b, select = (*operands, TRUE, TRUE)[:3]
        if kind in ("OR", "NOR"):
            found = -self.conjunction(-a, -b)
        elif kind in ("XOR", "XNOR"):
            found = self.parity(a, b)
        elif kind == "MUX":
            found = -self.conjunction(-self.conjunction(-select, a), -self.conjunction(select, b))
        else:
            found = self.conjunction(a, b)
        return -found if kind in OPPOSITES else found

    def of_bits(self, gates, known):
        """The functions of all bits, where `known` has those of some. A bit that no gate makes, or a loop, is like an input."""
        found = {"0": -TRUE, "1": TRUE, **known}
        for gate in in_order(gates)[0]:
            operands = []
            for bit in gate.operands:
                if bit not in found:
                    found[bit] = self.new()
                operands.append(self.new() if bit == "x" else found[bit])
            found.setdefault(gate.output, self.gate(gate.kind, operands))
        return found


def gates_of(module):
    """The gates of a module as abc is given it; other cells are left out."""
    for cell in module["cells"].values():
        if cell["type"] in KINDS:
            pins = {pin: tidy(bits) for pin, bits in cell["connections"].items()}
            yield Cell(KINDS[cell["type"]], pins["Y"][0], [pins[pin][0] for pin in "ABS" if pin in pins], None)


def lost_bits(before, after, cells, nets):
    """What each bit is that has a name in the module as abc was given it: its kind, as names.csv tells it, and which of `nets` it means.

    A name that both modules have, also one that yosys made up, is of the same function in both."""
    functions, earlier, later = Functions(), bits_by_name(before), bits_by_name(after)
    made = functions.of_bits([cell for cell in cells if cell.clock is None], {})
    made.pop("x", None)
    nets_of = {}
    for bit in nets:
        nets_of.setdefault(made.setdefault(bit, functions.new()), bit)
    known = {bit: made[later[name]] for name, bit in earlier.items() if bit not in LEVELS and later.get(name) in made}
    found = functions.of_bits(gates_of(before), known)
    return {name: what_is(bit, found.get(bit), nets_of) for name, bit in earlier.items()}


def what_is(bit, function, nets_of):
    """The kind of a bit and, where it is one, the bit of the net."""
    if bit in LEVELS:
        return bit, None
    if function in (TRUE, -TRUE):
        return "1" if function == TRUE else "0", None
    if function in nets_of:
        return "net", nets_of[function]
    return ("not", nets_of[-function]) if function and -function in nets_of else ("gone", None)
