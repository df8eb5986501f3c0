#!/usr/bin/env python3
"""nets.py: makes a list of nets for --only: those of a netlist whose names fit a pattern.

  nets.py PATTERN.. < NETLIST.bench > LIST

In a PATTERN '*' stands for any text, '?' for one character and '[3]' for itself, so that led[*] is all bits of a bus. A PATTERN without
'*' and '?' that is no net's name stands for the bits of the bus of that name. The nets come in the netlist's order, each once.

Status 1: no net fits one of the patterns, which standard error names; those that others fit are written."""
import argparse
import re
import sys

# A name begins where a statement does or a parenthesis opens; comments are taken out before.
DRIVEN = re.compile(r"(?:\bINPUT\s*\(\s*([^\s(),=#]+)\s*\))|(?:(?<![^\s(),=#])([^\s(),=#]+)\s*=)", re.IGNORECASE)


def nets_of(text):
    """The nets of a netlist, in its order."""
    return list(dict.fromkeys(one or other for one, other in DRIVEN.findall(re.sub("#.*", "", text))))


def expression_of(pattern):
    """What a pattern fits, as a regular expression."""
    return re.compile("".join({"*": ".*", "?": "."}.get(char, re.escape(char)) for char in pattern))


def fitting(pattern, nets):
    """The nets that a pattern stands for."""
    fits = expression_of(pattern)
    found = {net for net in nets if fits.fullmatch(net)}
    if found or "*" in pattern or "?" in pattern:
        return found
    bit = re.compile(re.escape(pattern) + r"\[[0-9]+\]")
    return {net for net in nets if bit.fullmatch(net)}


def main():
    parser = argparse.ArgumentParser(description="Makes a list of nets for --only.")
    parser.add_argument("patterns", metavar="PATTERN", nargs="+")
    patterns = parser.parse_args().patterns
    nets = nets_of(sys.stdin.read())
    found = {pattern: fitting(pattern, nets) for pattern in patterns}
    chosen = set().union(*found.values())
    print("".join(f"{net}\n" for net in nets if net in chosen), end="")
    missing = [pattern for pattern in patterns if not found[pattern]]
    if missing:
        print(f"nets.py: no net fits {', '.join(missing)}", file=sys.stderr)
    return 1 if missing else 0


if __name__ == "__main__":
    sys.exit(main())
