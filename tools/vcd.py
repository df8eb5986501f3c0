"""vcd.py: reads value change dumps (IEEE 1364-2005, clause 18.2), for compare_vcd.py, read_vcd.py and gtkw.py."""
import os
import re
import sys

UNITS = {"s": 15, "ms": 12, "us": 9, "ns": 6, "ps": 3, "fs": 0}  # each as a power of ten of a femtosecond
BLOCK = 1 << 20  # bytes that are read at once
LEVELS = dict(zip("01xXzZuUwW-lLhH", "01xxzzxxxxx0011"))  # the last ones are those that dumps of VHDL have besides


class Unreadable(Exception):
    """The text isn't a value change dump, or not one that is read here."""


def unit_of(text):
    """The femtoseconds of a time scale such as 10ns, or None."""
    found = re.fullmatch(r"(10{0,2})(\w+)", text)
    return int(found[1]) * 10 ** UNITS[found[2]] if found and found[2] in UNITS else None


def bits_of(kind, size, reference):
    """The names of a variable's bits, the leftmost one first. What isn't made of bits counts as one."""
    is_escaped = reference.startswith("\\")
    name = reference[1:] if is_escaped else reference
    if kind in ("real", "realtime", "string") or (is_escaped and size == 1):
        return [name]
    found = re.fullmatch(r"(.+)\[(\d+):(\d+)\]", name)
    if found and abs(int(found[2]) - int(found[3])) + 1 == size:
        left, right = int(found[2]), int(found[3])
        numbers = range(left, right - 1, -1) if left >= right else range(left, right + 1)
        return [f"{found[1]}[{number}]" for number in numbers]
    return [name] if size == 1 else [f"{name}[{number}]" for number in range(size - 1, -1, -1)]


def widened(value, size):
    """The levels of a vector's bits: a value that is shorter is filled up by x or z where it begins with that, else by 0."""
    levels = "".join(LEVELS.get(digit, "x") for digit in value)
    return levels.rjust(size, levels[:1] if levels[:1] in ("x", "z") else "0")[-size:]


class Dump:
    """A dump: the femtoseconds of one unit of its time; its variables, by code; where each stands; and, read once, the blocks of its
    changes."""

    def __init__(self, path, lines, scope=None):
        self.path, self.line, self.unit, self.is_own = path, 0, 10 ** UNITS["ns"], False
        self.words = self.words_of(lines)
        declared = list(self.declarations())
        inner = scope.split(".") if scope else ["top"] if self.is_own else os.path.commonprefix([scopes for scopes, *_ in declared])
        self.variables, self.single, self.places = {}, {}, {}
        for scopes, code, bits, place in declared:
            if scopes[:len(inner)] == inner:
                names = [".".join(scopes[len(inner):] + [bit]) for bit in bits]
                self.variables.setdefault(code, []).append(names)
                self.places.update(dict.fromkeys(names, place))
        self.single = {code: found[0][0] for code, found in self.variables.items() if len(found) == 1 and len(found[0]) == 1}
        self.others = {code for _, code, *_ in declared} - set(self.variables)

    def words_of(self, lines):
        for self.line, line in enumerate(lines, 1):
            yield from line.split()

    def fault(self, text):
        return Unreadable(f"{self.path}, line {self.line}: {text}")

    def command(self, keyword):
        """The words of a command up to its $end."""
        found = []
        for word in self.words:
            if word == "$end":
                return found
            found.append(word)
        raise self.fault(f"{keyword} has no $end")

    def declarations(self):
        """Each variable with its scopes, its code, the names of its bits, and its place as the dump writes it."""
        scopes, written = [], []
        for word in self.words:
            if not word.startswith("$"):
                raise self.fault(f"{word[:40]!r} stands where a declaration should")
            said = self.command(word)
            if word == "$enddefinitions":
                return
            if word == "$timescale":
                self.unit = unit_of("".join(said))
                if self.unit is None:
                    raise self.fault(f"no time scale is {' '.join(said)[:40]!r}")
            elif word == "$version":
                self.is_own = said[:1] == ["cmbsim"]
            elif word in ("$scope", "$upscope"):
                written = written + said[-1:] if word == "$scope" else written[:-1]
                scopes = [name.removeprefix("\\") for name in written]
            elif word == "$var":
                if len(said) < 4 or not re.fullmatch("[1-9][0-9]{0,6}", said[1]):
                    raise self.fault(f"no variable is {' '.join(said)[:80]!r}")
                reference = "".join(said[3:])
                yield scopes, said[2], bits_of(said[0], int(said[1]), reference), ".".join([*written, reference])
        raise self.fault("the text ends before $enddefinitions")

    def names(self):
        """The names of all bits, each once, in order."""
        return dict.fromkeys(bit for variables in self.variables.values() for bits in variables for bit in bits)

    def buses(self):
        """The left and the right number of each bus that is one variable."""
        found = {}
        for bits in (bits for variables in self.variables.values() for bits in variables if len(bits) > 1):
            name, _, left = bits[0].rpartition("[")
            found[name] = int(left[:-1]), int(bits[-1].rpartition("[")[2][:-1])
        return found

    def blocks(self):
        """For each time that changes something, by rising time, that time in femtoseconds and the new levels by name."""
        time, levels = 0, {}
        for word in self.words:
            first = word[0]
            if first == "#":
                later = self.later(time, word[1:])
                if later > time and levels:
                    yield time * self.unit, levels
                    levels = {}
                time = later
            elif first in LEVELS and word[1:] in self.single:
                levels[self.single[word[1:]]] = LEVELS[first]
            elif first != "$":
                self.change(word, levels)
            elif word == "$comment":
                self.command(word)
        yield time * self.unit, levels

    def later(self, time, text):
        if not text.isdigit() or int(text) < time:
            raise self.fault(f"after time {time} there is {text[:40]!r}")
        return int(text)

    def change(self, word, levels):
        """A change of a vector, of a real number or of several variables with one code."""
        kind = word[0].lower()
        value, code = (word[1:], next(self.words, "")) if kind in "brs" else (kind, word[1:])
        if code not in self.variables and code not in self.others:
            raise self.fault(f"{word[:40]!r} changes no variable")
        for bits in self.variables.get(code, ()):
            levels.update(zip(bits, [value] if kind in "rs" else widened(value, len(bits))))


def dump_of_input():
    """The dump on standard input."""
    return Dump("standard input", (line.decode("latin-1") for line in sys.stdin.buffer))


def last_time(file):
    """The last time of the rest of a dump, which stands at its end; 0 where there is none."""
    if not file.seekable():
        return last_of(file) or 0
    start, end = file.tell(), file.seek(0, os.SEEK_END)
    file.seek(max(start, end - BLOCK))
    found = last_of(file)
    if found is None:
        file.seek(start)
        found = last_of(file)
    return found or 0


def last_of(file):
    """The last time of what is still to be read of a file, or None."""
    text = b"\n"
    for block in iter(lambda: file.read(BLOCK), b""):
        text += block
        text = text[text.rfind(b"\n#"):]
    found = re.match(rb"\n#(\d+)", text)
    return int(found[1]) if found else None
