"""paths.py: the longest paths of a netlist in which each gate and each flip-flop takes a tick, in the numbers of `cmbsim check`, for
from_yosys.py."""


def arrivals(ordered, launched):
    """When the last change comes to each net, in ticks, by paths from these nets, of which each has the tick of its own change."""
    found = dict(launched)
    for cell in ordered:
        ticks = [found[bit] for bit in cell.operands if bit in found]
        if cell.clock is None and ticks:
            found[cell.output] = 1 + max(ticks)
    return found


class Paths:
    """The longest paths of a design whose gates are in order."""

    def __init__(self, design, ordered):
        self.ordered, self.outputs = ordered, design.outputs
        self.flops = [cell for cell in ordered if cell.clock]
        self.inputs = [bit for bit in [*design.inputs, *"01x"] if bit not in {clock for clock, _ in design.clocks}]

    def longest(self, ends, inputs, clocks, after=0):
        """The most ticks to one of these nets, from inputs and from flip-flops of these clocks, or None where there is no path."""
        launched = {**({bit: after for bit in self.inputs} if inputs else {}), **{cell.output: 1 for cell in self.flops if cell.clock in clocks}}
        found = arrivals(self.ordered, launched)
        return max((found[bit] for bit in ends if bit in found), default=None)

    def data(self, clocks):
        """The data of the flip-flops of these clocks."""
        return [bit for cell in self.flops if cell.clock in clocks for bit in cell.operands]

    def shortest(self, clocks):
        """The shortest period in which all paths settle, if inputs change a tick after samples."""
        return self.longest(self.outputs + self.data(clocks), True, clocks, 1) or 1

    def lines(self, clocks, called):
        """A line for the whole, and one for each kind of path to a clock's flip-flops."""
        most = self.longest(self.outputs + self.data(clocks), True, clocks) or 0
        yield f"{most} ticks in the longest path, if each gate takes one, so the shortest period is of {self.shortest(clocks)} ticks"
        for clock in clocks:
            ends, others = self.data([clock]), [it for it in clocks if it != clock]
            kinds = (f"from {called(clock)} to itself", self.longest(ends, False, [clock])), (
                f"from inputs to {called(clock)}", self.longest(ends, True, [])), (
                f"from other clocks to {called(clock)}", self.longest(ends, False, others))
            yield from (f"{ticks} ticks in the longest path {words}" for words, ticks in kinds if ticks is not None)
