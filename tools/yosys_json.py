"""yosys_json.py: reads a design off the JSON that yosys's write_json wrote, for from_yosys.py and lost_bits.py."""
import collections
import re

GATES = {"$_BUF_": "BUFF", **{f"$_{kind}_": kind for kind in ("NOT", "AND", "NAND", "OR", "NOR", "XOR", "XNOR")}}
EDGES = {"$_DFF_P_": "rising", "$_DFF_N_": "falling"}
ABC = "abc -g AND,NAND,OR,NOR,XOR,XNOR"
# What a cell of another type is, and what helps; the first form that a type begins with counts.
ADVICE = [(re.compile(form), words) for form, words in (
    (r"\$_DFFE_[NP]{2}_|\$_SDFF", "a flip-flop with an enable or a synchronous reset: run dffunmap before abc"),
    (r"\$_(DFFE?_[NP]{2}[01]|DFFSR|ALDFF)",
     "a flip-flop with an asynchronous set, reset or load: from_verilog.sh --async takes it, and it then waits for the next sample"),
    (r"\$_(DLATCH|SR_)",
     "a latch, mostly of an always block that leaves a signal as it was in some case: give it a value in each; from_verilog.sh --latches makes one that is wanted a loop of gates"),
    (r"\$_TBUF_", "a tri-state buffer, and there is no z: run proc, tribuf -formal and chformal -remove before synth"),
    (r"\$_FF_", "a flip-flop without a clock, as async2sync makes one of a latch: mend the latch"),
    (r"\$_", f"a gate of another kind: run {ABC}"),
    (r"\$lut", f"a table of a function: run {ABC} in the place of abc -lut"),
    (r"\$mem", "a memory: run memory_map, or synth, which does so"),
    (r"\$(assert|assume|cover|live|fair|check|print|any|all|initstate)", "a cell of checks: run chformal -remove, or leave it out"),
    (r"\$", "a cell of whole words: run synth -flatten"),
    (r"", "a module, or a cell of a library: name the library by from_verilog.sh --liberty, or run flatten"))]

Cell = collections.namedtuple("Cell", "kind output operands clock")


class Refused(Exception):
    """The design has what such a netlist can't say; a line for each such thing."""


def module_of(design, top):
    """The module to take, with its name: the named one, else the only one, else the one that yosys marked as the top."""
    modules = design["modules"]
    tops = [name for name, it in modules.items() if int(str(it.get("attributes", {}).get("top", "0")), 2)]
    found = [top] if top is not None else list(modules) if len(modules) == 1 else tops
    if len(found) != 1 or found[0] not in modules:
        raise Refused([f"of the modules {', '.join(modules)} one has to be named by --top"])
    return found[0], modules[found[0]]


def tidy(bits):
    """Bits as they are written, with x in the place of z."""
    return ["x" if bit == "z" else bit for bit in bits]


def complaint(kind, cells):
    """The line for cells of a type that isn't taken."""
    source = cells[0].get("attributes", {}).get("src", "").split("|")[0]
    words = next(words for form, words in ADVICE if form.match(kind))
    return f"{len(cells)} of type {kind}{f', the first at {source}' if source else ''}: {words}"


def cells_of(module):
    """The gates and flip-flops of the module."""
    cells, others = [], collections.defaultdict(list)
    for cell in module["cells"].values():
        kind, pins = cell["type"], {pin: tidy(bits) for pin, bits in cell["connections"].items()}
        if kind in GATES:
            cells.append(Cell(GATES[kind], pins["Y"][0], pins["A"] + pins.get("B", []), None))
        elif kind in EDGES:
            cells.append(Cell("DFF", pins["Q"][0], pins["D"], (pins["C"][0], EDGES[kind])))
        elif kind != "$scopeinfo":
            others[kind].append(cell)
    if others:
        raise Refused([complaint(kind, found) for kind, found in sorted(others.items())])
    return cells


def named_bits(name, wire):
    """The bits of a port or a wire, each with its name."""
    bits, first = tidy(wire["bits"]), wire.get("offset", 0)
    if len(bits) == 1 and not first:
        return [(bits[0], name)]
    numbers = range(first, first + len(bits))
    return [(bit, f"{name}[{number}]") for bit, number in zip(bits, reversed(numbers) if wire.get("upto") else numbers)]


def ports_of(module, direction):
    return [pair for name, port in module["ports"].items() if port["direction"] == direction for pair in named_bits(name, port)]


def bits_by_name(module):
    """Each bit of the ports and wires by its name, also those that yosys made up."""
    wires = {**module["ports"], **module.get("netnames", {})}
    return {name: bit for wire, it in wires.items() for bit, name in named_bits(wire, it)}


def wires_of(module):
    """The bits of the wires that the design itself names, those of outer modules first."""
    wires = [(name, it) for name, it in module.get("netnames", {}).items() if not it.get("hide_name")]
    wires.sort(key=lambda wire: wire[0].count("."))
    return [pair for name, wire in wires for pair in named_bits(name, wire)]


def first_levels(module):
    """The level that the design gives to a bit to begin with."""
    levels = {}
    for wire in module.get("netnames", {}).values():
        given = wire.get("attributes", {}).get("init", "")
        levels.update((bit, level) for bit, level in zip(wire["bits"], reversed(given)) if level in "01")
    return levels


def in_order(cells):
    """The flip-flops, and then the gates, each after those that it reads where no loop hinders; and whether there is a loop."""
    makers = {cell.output: cell for cell in cells if cell.clock is None}
    ordered, state, has_loop = [], {}, False
    for root in makers:
        stack = [(root, False)]
        while stack:
            bit, is_done = stack.pop()
            if is_done:
                state[bit] = "done"
                ordered.append(makers[bit])
            elif bit not in state:
                state[bit] = "begun"
                read = [it for it in makers[bit].operands if it in makers]
                has_loop |= any(state.get(it) == "begun" for it in read)
                stack += [(bit, True), *((it, False) for it in reversed(read))]
    return [cell for cell in cells if cell.clock] + ordered, has_loop
