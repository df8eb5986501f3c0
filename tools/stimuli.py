#!/usr/bin/env python3
"""stimuli.py: makes a table of stimuli for cmbsim of lines that give whole buses their levels."""
import argparse
import re
import sys

from ports import Unknown, add_options, inputs_of

LINES = """\
A line is one of these; # begins a comment:
  TICK NAME=VALUE..          levels from this tick on, each until a later line gives another
  NAME=VALUE..               the same in the next cycle, by every; the first such line is at tick 0
  every N                    a cycle has N ticks
  repeat N                   what the line before says stays for N cycles more
  clock NAME FIRST PERIOD    NAME rises at the ticks FIRST, FIRST+PERIOD and so on below the horizon,
                             and falls half a period later: a clock that is read as data

NAME is an input, a bus of inputs, or a bit of a bus, as word[3]. A VALUE is as wide as its bus:
  42, 0x2a, 0b101010, 6'h2a, 6'o52, 6'd42, 6'b1010x0, or x, which is: not known
One that has fewer digits is filled up on its left by 0, or by x where its first digit is x.

Status 2: the command line or a file is wrong, or a line can't be read; standard error has its number."""

WORDS = {"every": "N", "repeat": "N", "clock": "NAME FIRST PERIOD"}  # each with what follows it
VALUE = re.compile(r"(?:0([xb])|([1-9]\d{0,4})?'([bodh]))([0-9a-fx]+)")
DIGIT = {"b": 1, "o": 3, "h": 4, "x": 4}  # the bits of a digit


class Wrong(Exception):
    """A line can't be read."""


# ---- values

def fitted(bits, size, each, value):
    """The bits of a value, leftmost first, with so many of them; `each` is how many of them a digit has."""
    over = bits[:max(len(bits) - size, 0)].lstrip("0")
    if over.strip("x") or len(over) >= each:
        raise Wrong(f"{value} is too large for {size} bit{'s' if size > 1 else ''}")
    return bits[-size:].rjust(size, "x" if bits[0] == "x" else "0")


def bits_of(value, width):
    """The bits of a value that has to fit into so many, the leftmost one first."""
    text = value.lower().replace("_", "")
    found = VALUE.fullmatch(text if re.fullmatch(r".*'.*|0[xb].*", text) else f"'d{text}")
    if not found:
        raise Wrong(f"{value} is no value")
    kind, digits, size = found[1] or found[3], found[4], int(found[2] or width)
    try:
        if kind == "d":
            bits, each = ("x", width + 1) if digits == "x" else (f"{int(digits):b}", 1)
        else:
            each = DIGIT[kind]
            bits = "".join("x" * each if digit == "x" else f"{int(digit, 2 ** each):0{each}b}" for digit in digits)
    except ValueError:
        raise Wrong(f"{value} is no value") from None
    return fitted(fitted(bits, size, each, value).rjust(width, "0"), width, 1, value)


def number_of(word, least, what):
    """A number, `least` at least."""
    if not re.fullmatch("[0-9]{1,10}", word) or int(word) < least:
        raise Wrong(f"{word} is no {what}")
    return int(word)


# ---- lines

class Table:
    """The rows that the lines read so far make, and where they are in time."""

    def __init__(self, inputs, horizon):
        self.inputs, self.horizon = inputs, horizon
        self.rows, self.tick, self.cycle = {}, None, None

    def put(self, tick, net, level):
        if (tick, net) in self.rows:
            raise Wrong(f"{net} has a level at tick {tick} already")
        self.rows[tick, net] = level

    def assign(self, word):
        """Takes a word NAME=VALUE."""
        name, mark, value = word.rpartition("=")
        if not (name and mark and value):
            raise Wrong(f"{word} isn't NAME=VALUE")
        nets = self.inputs.of(name)
        for net, level in zip(nets, reversed(bits_of(value, len(nets)))):
            self.put(self.tick, net, level)

    def go_on(self, cycles):
        """Goes to a later cycle."""
        if self.cycle is None:
            raise Wrong("there is no tick, and no line before says `every N`")
        self.tick = 0 if self.tick is None else self.tick + cycles * self.cycle

    def swing(self, name, first, period):
        """Has a clock rise and fall below the horizon."""
        if self.horizon is None:
            raise Wrong("a clock needs --horizon N, up to which it swings")
        nets = self.inputs.of(name)
        if len(nets) > 1:
            raise Wrong(f"{name} is a bus, and no clock")
        falls = range(first + period // 2, self.horizon, period)
        for tick in [0] * (first > 0) + list(falls):
            self.put(tick, nets[0], "0")
        for tick in range(first, self.horizon, period):
            self.put(tick, nets[0], "1")

    def obey(self, word, rest):
        """Takes a line that begins with every, repeat or clock."""
        if len(rest) != len(WORDS[word].split()):
            raise Wrong(f"such a line is {word} {WORDS[word]}")
        if word == "every":
            self.cycle = number_of(rest[0], 1, "length of a cycle")
        elif word == "clock":
            self.swing(rest[0], number_of(rest[1], 0, "tick"), number_of(rest[2], 2, "period of a clock"))
        elif self.tick is None:
            raise Wrong("no line before says what stays")
        else:
            self.go_on(number_of(rest[0], 1, "number of cycles"))

    def take(self, line):
        """Takes a line."""
        words = line.partition("#")[0].split()
        if not words:
            return
        if words[0] in WORDS:
            self.obey(words[0], words[1:])
            return
        if "=" in words[0]:
            self.go_on(1)
        elif words[0][0].isdigit():
            self.tick = number_of(words.pop(0), 0, "tick")
        else:
            raise Wrong(f"no line begins with {words[0]}, but with a tick, NAME=VALUE, {', '.join(WORDS)}")
        for word in words:
            self.assign(word)


def arguments():
    parser = argparse.ArgumentParser(description="Makes a table of stimuli on standard output, of lines on standard input.", epilog=LINES,
                                     formatter_class=argparse.RawDescriptionHelpFormatter)
    add_options(parser)
    parser.add_argument("--horizon", metavar="N", type=int, help="up to which tick clocks swing, as in the program's line")
    return parser.parse_args()


def main():
    line = arguments()
    number = None
    try:
        table = Table(inputs_of(line), line.horizon)
        for number, text in enumerate(sys.stdin, 1):
            table.take(text)
    except (Wrong, Unknown) as error:
        print(f"stimuli: {f'line {number}: ' if number else ''}{error}", file=sys.stderr)
        return 2
    print("\n".join(["tick,net,value", *(f"{tick},{net},{level}" for (tick, net), level in table.rows.items())]))
    return 0


if __name__ == "__main__":
    sys.exit(main())
