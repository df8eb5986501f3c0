#!/usr/bin/env python3
"""loop_counts.py NETLIST: how many nets of a .bench file are in feedback loops, and how many in loops of gates alone, as
`cmbsim check` says it. It shares nothing with the program: S. R. Kosaraju's two passes over the whole graph, in which a net is in a
loop where its component has two nets, or a step to itself."""
import re
import sys

INPUT = re.compile(r"\s*INPUT\s*\(\s*([^()\s]+)\s*\)", re.I)
DRIVER = re.compile(r"\s*([^()\s=]+)\s*=\s*(\w+)\s*\(([^()]*)\)")


def read(path):
    """The operands of each net, and the nets that flip-flops drive."""
    operands, flops = {}, set()
    with open(path, encoding="ascii") as text:
        for line in text:
            line = line.split("#")[0]
            if found := DRIVER.match(line):
                name, kind, pins = found.groups()
                operands[name] = [pin.strip() for pin in pins.split(",")]
                if kind.upper() == "DFF":
                    flops.add(name)
            elif found := INPUT.match(line):
                operands[found.group(1)] = []
    return operands, flops


def finishing_order(steps):
    """All nets, each after those that were found from it."""
    order, seen = [], set()
    for start in steps:
        if start in seen:
            continue
        seen.add(start)
        stack = [(start, iter(steps[start]))]
        while stack:
            net, left = stack[-1]
            for other in left:
                if other not in seen:
                    seen.add(other)
                    stack.append((other, iter(steps[other])))
                    break
            else:
                order.append(net)
                stack.pop()
    return order


def in_loops(steps):
    """How many nets are in loops of these steps."""
    back = {net: [] for net in steps}
    for net, others in steps.items():
        for other in others:
            back[other].append(net)
    count, seen = 0, set()
    for start in reversed(finishing_order(steps)):
        if start in seen:
            continue
        seen.add(start)
        members = [start]
        for net in members:
            for other in back[net]:
                if other not in seen:
                    seen.add(other)
                    members.append(other)
        if len(members) > 1 or start in steps[start]:
            count += len(members)
    return count


def main(path):
    operands, flops = read(path)
    gates = {net: [] if net in flops else pins for net, pins in operands.items()}
    print(f"{in_loops(operands):>8}  nets in feedback loops")
    print(f"{in_loops(gates):>8}  nets in loops of gates alone")


if __name__ == "__main__":
    main(sys.argv[1])
