"""help_texts.py: what the program's help says, by command and by option; command_texts.py makes the manual page and the completions of it."""
import collections
import re

from fault_tables import said

SHORT = re.compile(r"(?m)^ +(?:(-\w), )?--([a-z-]+)(?: <(\S+)>)? +(\S.*)$")
LONG = re.compile(r"(?m)^ {2,6}(?:-\w, )?--([a-z-]+)(?: <\S+>)?\n((?: {10}.*\n|\n)+)")
VALUES = re.compile(r"\[possible values: (.*)\]")
DEFAULT = re.compile(r" (\[default: .*?\])")

# short: its letter with a hyphen, or None; takes: how help calls its value, or None; values: those that it may have; more: its
# paragraphs behind the first line, in the whole help
Option = collections.namedtuple("Option", "short name takes line default values more")


def part_of(text, heading):
    """What stands indented below a heading, and what stands behind that."""
    rest = text.partition(f"\n{heading}:\n")[2] + "\n"
    part = re.match(r"(?:  .*\n|\n)*", rest)[0]
    return part, rest[len(part):]


def paragraphs_of(text):
    return [it for it in text.strip("\n").split("\n\n") if it.strip()]


def options_of(short, long):
    """The options of a command, of the two texts of its help."""
    longer = {name: re.sub(r"(?m)^ {10}", "", text) for name, text in LONG.findall(part_of(long, "Options")[0])}
    for letter, name, takes, text in SHORT.findall(part_of(short, "Options")[0]):
        default, values = DEFAULT.search(text), VALUES.search(text)
        more = [it for it in paragraphs_of(longer.get(name, ""))[1:] if not VALUES.fullmatch(it)]
        line = DEFAULT.sub("", VALUES.sub("", text)).strip()
        yield Option(letter or None, name, takes or None, line, default and default[1], values[1].split(", ") if values else [], more)


class Command:
    """A command, or the whole program if it has no name: what it is about, how it is written, its options, and the paragraphs around these."""

    def __init__(self, program, name="", about=""):
        words = name.split()
        short, long = said(program, *words, "-h"), said(program, *words, "--help")
        self.name, self.about = name, about
        self.usage = re.search(r"(?m)^Usage: (.*)$", short)[1]
        self.options = list(options_of(short, long))
        self.above = paragraphs_of(long.partition("\nUsage: ")[0])
        self.below = paragraphs_of(part_of(long, "Options")[1])

    @classmethod
    def all(cls, program):
        """The commands but `help`, in the order of the program's help."""
        found = re.findall(r"(?m)^  (\w+) +(\S.*)$", part_of(said(program, "-h"), "Commands")[0])
        return [cls(program, *it) for it in found if it[0] != "help"]

    def is_task(self):
        """Whether it does something with a netlist."""
        return any(it.name == "horizon" for it in self.options)
