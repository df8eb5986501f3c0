#!/usr/bin/env python3
"""from_bench.py: makes a netlist that cmbsim reads of one in other spellings of the form, as ABC's write_bench writes them.

  from_bench.py CIRCUIT.bench FOLDER

FOLDER gets netlist.bench and constants.csv. A constant (vdd or VCC, gnd or VSS, with brackets or without, as an operand too)
becomes an input, with its level in constants.csv; INV becomes NOT; a table of a function of up to four operands, as
LUT 0x8 ( a, b ), becomes gates: an OR of one AND for each prime implicant, so that it is known wherever the function is, whatever
operands are x. What was made up is named as _7_. Comments are left out.

Status 0: the files were written. Status 1: the netlist has what cmbsim hasn't; standard error names it. Status 2: a file can't be
read or written."""
import argparse
import itertools
import os
import re
import sys

CONSTANTS = {"VDD": 1, "VCC": 1, "GND": 0, "VSS": 0}
KINDS = {kind: kind for kind in ("AND", "NAND", "OR", "NOR", "XOR", "XNOR", "NOT", "BUFF", "DFF")}
KINDS.update({"INV": "NOT", "BUF": "BUFF"})
MOST_OPERANDS = 4
NAME = r"[^\s(),=#]+(?![^\s(),=#])"
STATEMENT = re.compile(rf"""(?:
    (?P<port>INPUT|OUTPUT)\s*\(\s*(?P<net>{NAME})\s*\)
  | (?P<made>{NAME})\s*=\s*(?P<kind>{NAME})(?:\s+(?P<table>0x[0-9a-f]+))?\s*
    (?:\(\s*(?P<operands>{NAME}(?:\s*,\s*{NAME})*)?\s*\))?)\s*(?=$|{NAME})""", re.IGNORECASE | re.VERBOSE)
ADVICE = {"DFFRSE": "a flip-flop with a set, a reset or an enable: write_bench -l, after strash, writes DFF",
          "LUT": f"a table of more than {MOST_OPERANDS} operands: write_bench -l, after strash, writes gates"}


class Refused(Exception):
    """The netlist has what cmbsim hasn't."""


def statements_of(text):
    """The statements, each with its line."""
    text = re.sub(r"#[^\n]*", "", text)
    at, line = len(text) - len(text.lstrip()), 1 + text.count("\n", 0, len(text) - len(text.lstrip()))
    while at < len(text):
        found = STATEMENT.match(text, at)
        if not found:
            raise Refused(f"line {line}: not a statement: {text[at:at + 80].split()[0]}")
        yield line, found.groupdict()
        line += text.count("\n", at, found.end())
        at = found.end()


def matches(cube, minterm):
    """Whether a minterm is in a cube, which has for each operand its level, or None where it doesn't matter."""
    return all(level in (None, minterm >> number & 1) for number, level in enumerate(cube))


def prime_implicants(table, width):
    """The largest cubes in which the function is 1."""
    minterms = range(1 << width)
    cubes = [cube for cube in itertools.product((None, 0, 1), repeat=width) if all(table >> it & 1 for it in minterms if matches(cube, it))]
    return [cube for cube in cubes
            if not any(other != cube and all(a in (None, b) for a, b in zip(other, cube)) for other in cubes)]


class Netlist:
    """The statements that were made, and the constants."""

    def __init__(self, taken):
        self.taken, self.lines, self.constants, self.opposites = taken, [], {}, {}
        self.free = (name for name in (f"_{number}_" for number in itertools.count(1)) if name not in taken)

    def gate(self, name, kind, operands):
        """A gate with this name, or one that is made up."""
        name = name or next(self.free)
        self.lines.append(f"{name} = {kind}({', '.join(operands)})")
        return name

    def constant(self, name, level):
        if name not in self.constants:
            self.lines.append(f"INPUT({name})")
            self.constants[name] = level

    def literal(self, operand, level):
        """The operand, or its opposite."""
        if not level and operand not in self.opposites:
            self.opposites[operand] = self.gate(None, "NOT", [operand])
        return operand if level else self.opposites[operand]

    def function(self, name, table, operands):
        """The gates of a table."""
        cubes = [[(operand, level) for operand, level in zip(operands, cube) if level is not None]
                 for cube in prime_implicants(table, len(operands))]
        if not cubes or not cubes[0]:
            return self.constant(name, len(cubes))
        if len(cubes) == 1 and len(cubes[0]) == 1:
            (operand, level), = cubes[0]
            return self.gate(name, "BUFF" if level else "NOT", [operand])
        terms = [[self.literal(*it) for it in cube] for cube in cubes]
        if len(terms) == 1:
            return self.gate(name, "AND", terms[0])
        return self.gate(name, "OR", [it[0] if len(it) == 1 else self.gate(None, "AND", it) for it in terms])

    def add(self, line, statement):
        """What a statement becomes."""
        if statement["port"]:
            self.lines.append(f"{statement['port'].upper()}({statement['net']})")
            return
        name, kind, operands = statement["made"], statement["kind"].upper(), re.findall(NAME, statement["operands"] or "")
        if kind in CONSTANTS and not operands:
            self.constant(name, CONSTANTS[kind])
        elif kind == "LUT" and statement["table"] and len(operands) <= MOST_OPERANDS:
            table = int(statement["table"], 16)
            if table >> (1 << len(operands)):
                raise Refused(f"line {line}: the table {statement['table']} is too long for {len(operands)} operands")
            self.function(name, table, operands)
        elif kind not in KINDS or not operands:
            words = ADVICE.get(kind, "without operands" if kind in KINDS else "no kind of gate that cmbsim has")
            raise Refused(f"line {line}: {statement['kind']}: {words}")
        else:
            self.gate(name, KINDS[kind], operands)


def convert(text):
    """The netlist of a text."""
    statements = list(statements_of(text))
    driven = {it["net"] if it["port"] else it["made"] for _, it in statements if (it["port"] or "").upper() != "OUTPUT"}
    used = [name for _, it in statements for name in re.findall(NAME, it["operands"] or "")]
    netlist = Netlist(driven | set(used))
    for line, statement in statements:
        netlist.add(line, statement)
    for name in used:
        if name not in driven and name.upper() in CONSTANTS:
            netlist.constant(name, CONSTANTS[name.upper()])
    return netlist


def main():
    parser = argparse.ArgumentParser(description="Makes a netlist for cmbsim of one in other spellings of the form.")
    parser.add_argument("circuit", metavar="CIRCUIT.bench")
    parser.add_argument("folder", metavar="FOLDER")
    line = parser.parse_args()
    try:
        with open(line.circuit, encoding="latin-1") as file:
            netlist = convert(file.read())
        rows = [f"0,{name},{level}" for name, level in netlist.constants.items()]
        os.makedirs(line.folder, exist_ok=True)
        for name, lines in (("netlist.bench", netlist.lines), ("constants.csv", ["tick,net,value", *rows])):
            with open(os.path.join(line.folder, name), "w", encoding="latin-1", newline="\n") as file:
                file.write("".join(f"{it}\n" for it in lines))
    except Refused as refused:
        print(f"from_bench: {line.circuit}, {refused}", file=sys.stderr)
        return 1
    except OSError as error:
        print(f"from_bench: {error}", file=sys.stderr)
        return 2
    print(f"in {line.folder} were written: netlist.bench, constants.csv ({len(rows)} constants)")
    return 0


if __name__ == "__main__":
    sys.exit(main())
