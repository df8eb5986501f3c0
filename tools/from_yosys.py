#!/usr/bin/env python3
"""from_yosys.py: makes files for cmbsim of the JSON that yosys's write_json wrote of a design of simple gates and plain flip-flops.

  from_yosys.py [--top MODULE] [--clock NAME=F:P].. [--falling NAME=F:P].. [--source SOURCE.json] [--before-abc GATES.json]
                DESIGN.json FOLDER

FOLDER gets netlist.bench; constants.csv, the levels of inputs that are constants; ports.csv, the ports as declared; buses.csv,
the buses whose rightmost bit isn't bit 0; names.csv, what became of bits of the source that have no net of their own; and
clocks.csv where there are several clocks; and initial.csv, what flip-flops begin with, where that differs. It also gets two
files to begin with, which are left as they are where they stand already: stimuli.csv, with each input at 0 from tick 0 on, and options, words for the program's line.

Bits of buses are named as name[3], and what has no name in the source as _7_. An output that shows an input, a constant or a
register of another name is a gate BUFF. Each cell becomes one gate, with a delay of its own. The clock is no net of such a
netlist: F:P says that the flip-flops of this clock, or of its falling edge, sample at the ticks F, F+P, F+2P and so on. A single
clock needs no F:P: it gets a period in which the longest path settles, each gate taking one tick. SOURCE.json and GATES.json are
of the same design behind proc and flatten and before abc: all names of the first are kept free, and off the second names.csv
tells what abc did with bits. docs/VERILOG.md goes from Verilog to waveforms.

Status 0: the files were written. Status 1: the design has what such a netlist can't say; standard error names it, and what
would help. Status 2: the line is wrong, or a file can't be read or written."""
import argparse
import collections
import csv
import io
import json
import os
import re
import sys

from lost_bits import lost_bits
from names import HEADER as NAMES, LEVELS
from paths import Paths
from yosys_json import Cell, Refused, bits_by_name, cells_of, first_levels, in_order, module_of, named_bits, ports_of, wires_of

OPTIONS = {"rising": "--clock", "falling": "--falling"}
TO_BEGIN = ("stimuli.csv", "options")
INSIDE = "$func$"  # in the names that yosys gives to what is inside a call of a function
MOST_NETS = 65535
MOST_TICKS = 1000000


# ---- names

def clean(name):
    """The name without what a netlist or a table can't have in names."""
    return re.sub(r'[^!-~]|[(),=#"]', "_", name)[:240]


class Names:
    """A name for each bit: that which it is given first, else its number as _7_. The reserved ones are given to no other bit."""

    def __init__(self, reserved):
        self.taken, self.reserved = set(), reserved
        self.of_bit = {}
        self.others = collections.defaultdict(list)

    def free(self, name, is_own):
        """The name, changed where another net has it or it is another one of the source."""
        while name in self.taken or (name in self.reserved and not is_own):
            name, is_own = name + "_", False
        self.taken.add(name)
        return name

    def give(self, bit, wanted):
        """Names a bit, unless it has a name."""
        if bit in self.of_bit:
            self.others[bit].append(clean(wanted))
        elif bit not in LEVELS:
            self.of_bit[bit] = self.free(clean(wanted), clean(wanted) == wanted)

    def of(self, bit):
        if bit not in self.of_bit:
            self.of_bit[bit] = self.free(f"_{bit}_", False)
        return self.of_bit[bit]


class Design:
    """What is taken of a module: its inputs, bit by bit, its outputs as names, and its cells."""

    def __init__(self, title, module, reserved):
        self.title = clean(title)
        self.cells = cells_of(module)
        self.clocks = collections.Counter(cell.clock for cell in self.cells if cell.clock)
        self.inputs = [bit for bit, _ in ports_of(module, "input")]
        self.outputs, self.names = [], Names(reserved)
        self.give_names(module)
        self.first_levels = first_levels(module)

    def give_names(self, module):
        ports = {name for direction in ("input", "output") for _, name in ports_of(module, direction)}
        wires = [(bit, name) for bit, name in wires_of(module) if name not in ports]
        flops = {cell.output for cell in self.cells if cell.clock}
        for bit, name in ports_of(module, "input") + [(bit, name) for bit, name in wires if bit in flops]:
            self.names.give(bit, name)
        for bit, name in ports_of(module, "output"):
            if bit in self.names.of_bit or bit in LEVELS:
                # a gate of its own, since the bit has the name of another port or of a register
                self.cells.append(Cell("BUFF", ("copy", name), [bit], None))
                bit = "copy", name
            self.names.give(bit, name)
            self.outputs.append(bit)
        for bit, name in wires:
            if bit not in flops:
                self.names.give(bit, name)

    def used(self):
        """The bits that something reads, in order."""
        return dict.fromkeys(bit for cell in self.cells for bit in cell.operands)

    def constants(self):
        """The nets of constants, each with its level."""
        used = self.used()
        return [(self.names.of(bit), bit) for bit in LEVELS if bit in used]

    def option(self, clock):
        """The option that names a clock."""
        return f"{OPTIONS[clock[1]]} {self.names.of(clock[0])}"

    def data_inputs(self):
        """The names of the inputs but the clocks."""
        clocks = {bit for bit, _ in self.clocks}
        return [self.names.of(bit) for bit in self.inputs if bit not in clocks]

    def nets(self):
        """The names of all nets but constants, each with its bit."""
        clocks = {bit for bit, _ in self.clocks}
        bits = [bit for bit in self.inputs if bit not in clocks] + [cell.output for cell in in_order(self.cells)[0]]
        return {self.names.of(bit): bit for bit in bits}


# ---- what has to hold

def check_ports(module):
    both = [name for name, port in module["ports"].items() if port["direction"] == "inout"]
    if both:
        raise Refused([f"{', '.join(both)} is an inout: make it an input and an output"])


def check_drivers(design):
    """Each bit that is read has one driver."""
    name, driven = design.names.of, collections.Counter([cell.output for cell in design.cells] + design.inputs)
    lines = [f"{name(bit)} has {count} drivers" for bit, count in driven.items() if count > 1]
    lines += [f"{name(bit)} is driven by nothing: run setundef -undriven -zero, or mend the design"
              for bit in [*design.used(), *design.outputs] if bit not in driven and bit not in LEVELS]
    if lines:
        raise Refused(list(dict.fromkeys(lines)))


def check_clocks(design):
    """Each clock is an input, and nothing else reads it."""
    name, bits = design.names.of, sorted({bit for bit, _ in design.clocks}, key=str)
    used = design.used()
    lines = [f"{name(bit)} is a clock and no input: make an enable of a gated or divided clock" for bit in bits if bit not in design.inputs]
    lines += [f"{name(bit)} is a clock, which is no net here, and something else reads it" for bit in bits if bit in used]
    if lines:
        raise Refused(lines)


def check_given(design, given):
    """The ticks of the line are of clocks, and several clocks have theirs."""
    known = {(design.names.of(bit), edge): count for (bit, edge), count in design.clocks.items()}
    wrong = [f"{OPTIONS[edge]} {name}: no flip-flop samples at this edge" for name, edge in given if (name, edge) not in known]
    if wrong:
        raise Refused(wrong)
    if len(known) > 1 and len(given) != len(known):
        told = [f"{OPTIONS[edge]} {name}=F:P (flip-flops: {count})" for (name, edge), count in sorted(known.items())]
        raise Refused([f"there are {len(known)} clocks, and each has to be given its ticks: {', '.join(told)}"])


# ---- the netlist

def statement(cell, names):
    also = " ".join(names.others.get(cell.output, []))
    return f"{names.of(cell.output)} = {cell.kind}({', '.join(map(names.of, cell.operands))})" + (f"  # {also}" if also else "")


def netlist_of(design, ordered):
    lines = [f"# {design.title}, of Verilog by yosys"]
    lines += [f"INPUT({name})" for name in design.data_inputs() + [name for name, _ in design.constants()]]
    lines += [f"OUTPUT({design.names.of(bit)})" for bit in design.outputs]
    return "\n".join(lines + [statement(cell, design.names) for cell in ordered]) + "\n"


# ---- the tables and the options

def table(*rows):
    text = io.StringIO()
    csv.writer(text, lineterminator="\n").writerows(rows)
    return text.getvalue()


def levels_of(levels):
    """The table of stimuli that gives nets a level from tick 0 on."""
    return table(["tick", "net", "value"], *((0, name, level) for name, level in levels if level != "x"))


def declared_of(wires):
    """The left and the right number of each bus, empty for what isn't one."""
    for name, wire in wires.items():
        width, first = len(wire["bits"]), wire.get("offset", 0)
        ends = (first + width - 1, first) if width > 1 or first else ("", "")
        yield name, wire, ends[::-1] if wire.get("upto") else ends


def ports_table(design, module):
    """The ports whose nets have their names; a clock has none."""
    nets = design.nets()
    rows = [(clean(name), it["direction"], *ends) for name, it, ends in declared_of(module["ports"])
            if all(nets.get(clean(name)) in (bit, ("copy", name)) for bit, name in named_bits(name, it))]
    return table(["name", "direction", "left", "right"], *rows)


def buses_table(wires):
    """The buses whose rightmost bit isn't bit 0."""
    return table(["name", "left", "right"], *((clean(name), *ends) for name, _, ends in declared_of(wires) if ends[1]))


def names_table(design, wires, bits, lost):
    """What became of each bit that the source names and that has no net of its own."""
    nets = design.nets()
    has_net, rows = set(nets.values()), [NAMES]
    for name, declared in {name: bit for bit, name in wires_of({"netnames": wires})}.items():
        bit = bits.get(name, declared if declared in LEVELS else None)
        kind, bit = ("net", bit) if bit in has_net else (bit, None) if bit in LEVELS else lost.get(name, ("gone", None))
        if name not in nets and INSIDE not in name:
            rows.append([name, kind, "" if bit is None else design.names.of(bit)])
    return table(*rows)


def clocks_of(design, given):
    name = design.names.of
    return table(["net", "first", "period"], *((name(it.output), *given[name(it.clock[0]), it.clock[1]]) for it in design.cells if it.clock))


def initial_of(design):
    """The table of what each flip-flop begins with."""
    flops = (it.output for it in design.cells if it.clock)
    return table(["net", "value"], *((design.names.of(bit), design.first_levels.get(bit, "x")) for bit in flops))


def init_of(design):
    """What all flip-flops begin with, x where that differs, and whether it is what the design says."""
    wanted = {design.first_levels.get(cell.output, "x") for cell in design.cells if cell.clock}
    return (wanted.pop(), True) if len(wanted) == 1 else ("x", not wanted)


def options_of(design, given, period):
    """The words for the program's line: twenty periods."""
    ticks = list(given.values()) or [(period - 1, period)]
    words = ["--horizon", min(20 * max(period for _, period in ticks), MOST_TICKS)]
    words += ["--clock", "{}:{}".format(*ticks[0])] if len(design.clocks) == 1 else []
    level, _ = init_of(design)
    return " ".join(map(str, words + (["--init", level] if level != "x" else []))) + "\n"


# ---- the whole

def tables_of(design, module, source, before):
    """The tables by name. The source and the design before abc are modules too, or None."""
    wires = {**(source or module)["netnames"], **module["netnames"], **module["ports"]}
    bits, nets = bits_by_name(module), list(design.nets().values())
    lost = lost_bits(before, module, design.cells, nets) if before else {}
    return {"constants.csv": levels_of(design.constants()), "names.csv": names_table(design, wires, bits, lost),
            "ports.csv": ports_table(design, module), "buses.csv": buses_table(wires)}


def files_of(design, given):
    """The files by name, what there is to say of them, and the shortest period."""
    ordered, has_loop = in_order(design.cells)
    paths, nets = Paths(design, ordered), len(ordered) + len(design.data_inputs()) + len(design.constants())
    shortest = paths.shortest(design.clocks)
    files = {"netlist.bench": netlist_of(design, ordered), "stimuli.csv": levels_of([(name, "0") for name in design.data_inputs()]),
             "options": options_of(design, given, -(-shortest // 10) * 10)}
    if len(design.clocks) > 1:
        files["clocks.csv"] = clocks_of(design, given)
    if not init_of(design)[1]:
        files["initial.csv"] = initial_of(design)
    flops = sum(design.clocks.values())
    lines = [f"{nets} nets: {nets - len(ordered)} inputs, {flops} flip-flops, {len(ordered) - flops} gates"]
    lines += ["there are loops of gates, so no path is the longest"] if has_loop else paths.lines(design.clocks, design.option)
    lines += [f"{name} is the constant {level}" for name, level in design.constants()]
    lines += [] if init_of(design)[1] else ["flip-flops begin with different levels, which initial.csv has"]
    lines += [f"cmbsim takes {MOST_NETS} nets, so this is too large"] if nets > MOST_NETS else []
    lines += [f"{OPTIONS[edge]} {name}: a period of {period} ticks is shorter" for (name, edge), (_, period) in given.items() if period < shortest]
    return files, lines, shortest


def read_text(folder, name):
    """A file of the folder, or None where there is none."""
    path = os.path.join(folder, name)
    if not os.path.exists(path):
        return None
    with open(path, encoding="latin-1") as file:
        return file.read()


def said_of_kept(design, given, folder, shortest):
    """What files that are left as they are lack."""
    lines, options, stimuli = [], read_text(folder, "options"), read_text(folder, "stimuli.csv")
    if options is not None:
        clock, init = (re.search(form, options) for form in (r"--clock[\s=]+(\d+):(\d+)", r"--init[\s=]+([01])"))
        level, ticks = init_of(design)[0], clock and (int(clock[1]), int(clock[2]))
        if ticks and len(design.clocks) == 1 and ticks not in (list(given.values()) or [ticks]):
            lines += [f"{folder}/options has the clock {ticks[0]}:{ticks[1]}"]
        lines += [f"{folder}/options has a period of {ticks[1]} ticks, which is shorter"] if ticks and ticks[1] < shortest else []
        lines += [f"{folder}/options hasn't the --init {level} that the design asks for"] if level not in ("x", init and init[1]) else []
    if stimuli is not None:
        told = {row[1] for row in csv.reader(stimuli.splitlines()) if len(row) > 1}
        without = [name for name in design.data_inputs() if name not in told]
        lines += [f"{folder}/stimuli.csv has no row of {', '.join(without)}: x at all ticks"] if without else []
    if len(design.clocks) < 2 and read_text(folder, "clocks.csv") is not None:
        lines += [f"{folder}/clocks.csv is there, and the design has no two clocks"]
    if init_of(design)[1] and read_text(folder, "initial.csv") is not None:
        lines += [f"{folder}/initial.csv is there, and flip-flops begin alike"]
    return lines


def write(folder, files):
    """Writes the files, and gives a line for those that were written and for those that were left."""
    os.makedirs(folder, exist_ok=True)
    kept = [name for name in files if name in TO_BEGIN and os.path.exists(os.path.join(folder, name))]
    written = [name for name in files if name not in kept]
    for name in written:
        with open(os.path.join(folder, name), "w", encoding="utf-8", newline="\n") as file:
            file.write(files[name])
    return [f"in {folder} {words}: {', '.join(names)}" for words, names in (("were written", written), ("are left as they were", kept)) if names]


def ticks_of(text):
    """The value of --clock and --falling."""
    found = re.fullmatch(r"(.+)=(\d+):(\d+)", text)
    if not found or int(found[3]) < 1:
        raise argparse.ArgumentTypeError(f"{text} isn't NAME=F:P")
    return found[1], (int(found[2]), int(found[3]))


def arguments():
    parser = argparse.ArgumentParser(description="Makes a netlist for cmbsim of a design that yosys wrote by write_json.")
    parser.add_argument("--top", metavar="MODULE", help="the module to take, if there are several")
    for option, words in (("--clock", "when flip-flops of this clock sample"), ("--falling", "the same for its falling edge")):
        parser.add_argument(option, metavar="NAME=F:P", action="append", type=ticks_of, default=[], help=words)
    for option, words in (("--source", "the design behind proc and flatten, whose names are kept free"),
                          ("--before-abc", "the design as abc is given it, which tells what abc did with bits")):
        parser.add_argument(option, metavar="FILE.json", help=words)
    parser.add_argument("design", metavar="DESIGN.json")
    parser.add_argument("folder", metavar="FOLDER")
    return parser.parse_args()


class NotJson(Exception):
    """A file isn't what write_json writes."""


def read_module(path, top):
    """The module of a file, with its name."""
    try:
        with open(path, encoding="utf-8") as file:
            name, module = module_of(json.load(file), top)
        return name, {"netnames": {}, **module}
    except (ValueError, KeyError, TypeError, AttributeError) as error:
        raise NotJson(path) from error


def convert(line):
    """Writes the files, and gives what there is to say."""
    given = {(name, "rising"): ticks for name, ticks in line.clock}
    given.update({(name, "falling"): ticks for name, ticks in line.falling})
    name, module = read_module(line.design, line.top)
    source, before = (path and read_module(path, name)[1] for path in (line.source, line.before_abc))
    check_ports(module)
    reserved = {name for it in (module, source) if it for name in (*it["netnames"], *bits_by_name(it))}
    design = Design(name, module, reserved)
    for check in (check_drivers, check_clocks):
        check(design)
    check_given(design, given)
    files, said, shortest = files_of(design, given)
    files.update(tables_of(design, module, source, before))
    return said + said_of_kept(design, given, line.folder, shortest) + write(line.folder, files)


def main():
    line = arguments()
    try:
        print("\n".join(convert(line)))
    except Refused as refused:
        print("\n".join(f"from_yosys: {it}" for it in refused.args[0]), file=sys.stderr)
        return 1
    except OSError as error:
        print(f"from_yosys: {error}", file=sys.stderr)
        return 2
    except NotJson as error:
        print(f"from_yosys: {error} isn't what write_json writes", file=sys.stderr)
        return 2
    except (ValueError, KeyError, TypeError, AttributeError, IndexError):
        print(f"from_yosys: {line.design} isn't what write_json writes", file=sys.stderr)
        return 2
    return 0


if __name__ == "__main__":
    sys.exit(main())
