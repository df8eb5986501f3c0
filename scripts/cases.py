"""cases.py: what the scripts share that run the program on examples and on random circuits: chosen_cases.py, activity_cases.py,
expect_cases.py, window_cases.py and forced_shares.py. A FOLDER is laid out as those of examples/: netlist.bench, the tables that there are,
and the options."""
import argparse
import glob
import os
import random
import re
import tempfile

from hostile.tools import ROOT, TABLES, Answer, Tally, each, run

MOST_CELLS = 16777216
OUTPUT = re.compile(rb"(?i)(?<![^\s(),=])OUTPUT\s*\(\s*([^\s(),=#]+)\s*\)")
KINDS = {"AND": 9, "NAND": 9, "OR": 9, "NOR": 9, "XOR": 9, "XNOR": 9, "NOT": 1, "BUFF": 1, "DFF": 1}


def name_in(line):
    """The name that a line declares: an escaped one without its backslash."""
    name = line.split()[4]
    return name[1:] if name.startswith(b"\\") else name


def names_in(text):
    return [name_in(line) for line in text.split(b"\n") if line.startswith(b"$var")]


# ---- random circuits

def random_names(chance, count):
    styles = ["n{}", "{}", "u.{}", "q[{}]", "a_{}$", "\\x{}", "-{}!"]
    style = chance.choice(styles)
    return [(chance.choice(styles) if chance.random() < 0.1 else style).format(i) for i in range(count)]


def random_netlist(chance, names, inputs):
    """The statements of the nets, in any order, loops and all, with some outputs among them."""
    statements = [f"INPUT({name})" for name in names[:inputs]]
    kinds = list(KINDS) + ["DFF"] * chance.choice([0, 2, 10])
    loops = chance.random() < 0.3
    for i, name in enumerate(names[inputs:], inputs):
        kind = chance.choice(kinds)
        near = names if loops or i == 0 or kind == "DFF" else names[max(0, i - 20):i]
        operands = [chance.choice(near) for _ in range(chance.randint(1, min(KINDS[kind], chance.choice([1, 2, 3, 9]))))]
        statements.append(f"{name} = {kind}({', '.join(operands)})")
    chance.shuffle(statements)
    for name in chance.sample(names, chance.randint(0, min(len(names), 5))):
        statements.insert(chance.randint(0, len(statements)), f"OUTPUT({name})")
    return "".join(f"{it}\n" for it in statements)


def random_tables(chance, names, inputs, horizon):
    top = chance.choice([1, 3, 9, 80])
    delays = [f"kind,{kind},{chance.randint(1, top)}" for kind in KINDS if chance.random() < 0.5]
    delays += [f"net,{name},{chance.randint(1, top)}" for name in names[inputs:] if chance.random() < 0.2]
    stimuli = [f"{tick},{name},{chance.choice('01x01')}" for name in names[:inputs]
               for tick in sorted(set(chance.choices(range(horizon), k=chance.choice([1, 4, horizon]))))]
    return {"delays": ["by,name,delay", *delays], "stimuli": ["tick,net,value", *stimuli]}


def write_files(folder, files):
    """Files in a folder of their own."""
    os.mkdir(folder)
    for name, text in files.items():
        with open(f"{folder}/{name}", "w", encoding="utf-8") as file:
            file.write(text)
    return folder


def write_random(chance, folder):
    """A random circuit in a folder of its own."""
    names = random_names(chance, chance.choice([1, 2, 3, 5, 8, 20, 60, 100, 200]))
    inputs, horizon = chance.randint(0, len(names) // 2), chance.choice([1, 2, 5, 20, 63, 64, 65, 130, 300])
    files = {"netlist.bench": random_netlist(chance, names, inputs)}
    for table, rows in random_tables(chance, names, inputs, horizon).items():
        files[f"{table}.csv"] = "".join(f"{row}\n" for row in rows)
    files["options"] = f"--horizon {horizon} --clock {chance.randint(0, 9)}:{chance.randint(1, 9)} --init {chance.choice('01x')}\n"
    return write_files(folder, files)


# ---- folders and lists

class Folder:
    """A folder: what the program is run with."""

    def __init__(self, folder):
        self.name = folder
        with open(f"{folder}/netlist.bench", "rb") as file:
            self.netlist = file.read()
        with open(f"{folder}/options", encoding="utf-8") as file:
            self.options = file.read().split()
        for table in TABLES:
            if os.path.exists(f"{folder}/{table}.csv"):
                self.options += [f"--{table}", f"{folder}/{table}.csv"]
        self.outputs = set(OUTPUT.findall(re.sub(rb"#[^\n]*", b"", self.netlist)))
        self.horizon = int(self.options[self.options.index("--horizon") + 1])


def line_of(fault, place):
    return Answer(1, b"", b"cmbsim: fault %d at %d\n" % (fault, place))


def list_of(chance, names, all_names):
    """A list of these names, and the line that names no net, or None."""
    lines = names + chance.choices(names, k=len(names) // 3) if names else []
    chance.shuffle(lines)
    wrong = b"no_" + b"_".join(all_names)[:200]
    at = chance.randint(0, len(lines)) if chance.random() < 1 / 8 and wrong not in all_names else None
    if at is not None:
        lines.insert(at, wrong)
    text, line = b"# nets\n", None
    for i, name in enumerate(lines):
        line = text.count(b"\n") + 1 if i == at else line
        text += name + chance.choice([b"\n", b" \n", b" # chosen\n", b"\n\n"])
    return text, line


def list_by_chance(chance, all_names, lists):
    """A list of nets in a new file: its path, the names in it, and the line that names no net, or None."""
    chosen = chance.sample(all_names, chance.randint(0, min(len(all_names), chance.choice([1, 3, 20, 200]))))
    text, line = list_of(chance, chosen, all_names)
    path = f"{lists}/{len(os.listdir(lists))}"
    with open(path, "wb") as file:
        file.write(text)
    return path, set(chosen), line


# ---- the runs

def read_words(words):
    parser = argparse.ArgumentParser()
    parser.add_argument("program", type=os.path.abspath)
    parser.add_argument("folders", nargs="*", metavar="FOLDER")
    parser.add_argument("--seed", type=int, default=1)
    parser.add_argument("--times", type=int, default=3)
    parser.add_argument("--random", type=int, default=0)
    parser.add_argument("--oracle")
    return parser.parse_args(words)


def check_all(words, runs_of):
    """Does each run, and prints 'N passed, M failed' at the end. runs_of(folder, given, chance, times, lists) gives the runs of a folder: the
    words of each and the answer that it has to give; given is what the words of the script say, times the number of lists, and lists a
    folder for these."""
    given, tally = read_words(words), Tally()
    chance = random.Random(given.seed)
    names = given.folders or ([] if given.random else [os.path.dirname(it) for it in sorted(glob.glob(f"{ROOT}/examples/*/options"))])
    with tempfile.TemporaryDirectory() as room:
        lists = f"{room}/lists"
        os.mkdir(lists)
        folders = [(Folder(it), given.times) for it in names]
        folders += [(Folder(write_random(chance, f"{room}/{i}")), 1) for i in range(given.random)]
        runs = ((folder, *it) for folder, times in folders for it in runs_of(folder, given, chance, times, lists))
        work = lambda it: run([given.program, *it[1]], it[0].netlist)
        for (folder, line, want), answer in each(work, runs):
            tally.check(answer == want, lambda: f"{folder.name}: {' '.join(line)}: {answer}; wanted {want}")
    tally.end()
