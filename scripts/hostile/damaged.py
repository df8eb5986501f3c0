#!/usr/bin/env -S python3 -B
"""damaged.py [--all]: cuts the netlist and each table of a small case at every byte, and damages every byte.

Each byte is left out, doubled, and changed to each of a few values, or to all 255 others with --all. In each mode the
answer has to be the whole text of some design, or a fault of those that this input can have, with a place of its
kind and nothing written; all modes have to give the same answer.

ORACLE names another program with the same command line, if there is one, whose mode plain then has to give the same
answer too; or a Python file with a function run_program(words, input) that gives a status and what is written to
the two streams.
"""
import os
import sys

from tools import PLACES, PROGRAM, Case, Files, Tally, each, modes, oracle_of, run

ORACLE = os.environ.get("ORACLE")
VALUES = b"\x00\x09\x0a\x0d \"#(),019:=Aabx\x7f\x80\xe9\xff"
SECONDS = 60

CASE = Case(
    "damaged",
    b"INPUT(a) # in\r\nOUTPUT(y)\np = DFF(a)\ny = NAND(p,\n a, p)\n",
    ["--horizon", "12", "--clock", "2:4", "--init", "0"],
    {
        "delays": b'by,name,delay\nkind,DFF,2\nnet,y,"3"\n\npin, y:02 ,1\n',
        "stimuli": b'tick,net,value\r\n0,a,0\r\n3,"a",1\r\n07,a,X\r\n',
        "clocks": b"net,first,period\np,4,3\n",
        "initial": b"net,value\n p ,1\n",
    },
)

# The faults that a damaged input can bring: those of its own text, and those of rows that no longer fit the netlist.
FAULTS = {
    "netlist": PLACES["line"] | {22, 26, 30, 32, 35, 37},
    "delays": {23, 24, 25, 26, 27, 28, 29, 32, 34, 35},
    "stimuli": {23, 24, 25, 26, 29, 30, 31},
    "clocks": {22, 23, 24, 25, 26, 29, 36, 37},
    "initial": {23, 24, 26, 29, 31, 37},
}


def damaged(data, values):
    """The texts that come of one cut or one damaged byte, each once."""
    seen = {data}
    for at in range(len(data) + 1):
        made = [data[:at], data[:at] + data[at + 1 :], data[:at] + data[at : at + 1] * 2 + data[at + 1 :]]
        if at < len(data):
            made += [data[:at] + bytes([value]) + data[at + 1 :] for value in values]
            made += [data[:at] + bytes([data[at] ^ 1 << bit]) + data[at + 1 :] for bit in range(8)]
        else:
            made += [data + bytes([value]) for value in values]
        for text in made:
            if text not in seen:
                seen.add(text)
                yield text


def inputs(values):
    for which in ("netlist", *CASE.tables):
        for text in damaged(CASE.netlist if which == "netlist" else CASE.tables[which], values):
            yield which, text


def is_lawful(which, text, answer):
    """Whether this is an answer that the program may give to a damaged input at all."""
    if answer.status == 0:
        lines = answer.out.split(b"\n")
        return answer.err == b"" and lines[0] == b"$version cmbsim 1 $end" and lines[-2:] == [b"#12", b""]
    fault = answer.fault()
    if fault is None or answer.out != b"" or fault[0] not in FAULTS[which]:
        return False
    number, place = fault
    if number in PLACES["line"]:
        return 1 <= place <= text.count(b"\n") + 1
    if number in PLACES["record"]:
        return 1 <= place <= 1 + max(t.count(b"\n") + t.count(b"\r") for t in [text, *CASE.tables.values()])
    return place == 0


class Runs:
    """What runs a damaged input in all modes, and the oracle."""

    def __init__(self):
        self.files = Files()
        self.modes = modes(rounds=((1, 1), (2, 3)), free=((1, 1), (2, 3), (3, 3)))
        self.oracle = oracle_of(ORACLE) if ORACLE else None
        self.tables = {name: self.files.write(name + ".csv", data) for name, data in CASE.tables.items()}

    def answers(self, which, text):
        tables = dict(self.tables)
        netlist = text
        if which != "netlist":
            netlist = CASE.netlist
            tables[which] = self.files.write(f"damaged.{hash((which, text)) & 0xffffffffffffffff}.csv", text)
        words = ["run"] + CASE.words
        for name, path in tables.items():
            words += ["--" + name, path]
        found = {name: run([PROGRAM] + words + more, netlist, SECONDS) for name, more in self.modes.items()}
        if self.oracle:
            found["oracle"] = self.oracle(words + ["--mode", "plain"], netlist)
        if which != "netlist":
            os.unlink(tables[which])
        return found


def main():
    values = range(256) if "--all" in sys.argv[1:] else VALUES
    tally, runs = Tally(), Runs()
    counts = {}
    whole = runs.answers("netlist", CASE.netlist)
    tally.check(all(answer.status == 0 for answer in whole.values()), lambda: f"undamaged: {next(iter(whole.values()))}")
    for (which, text), answers in each(lambda item: runs.answers(*item), inputs(values)):
        first = answers["plain"]
        for mode, answer in answers.items():
            right = answer == first and is_lawful(which, text, answer)
            tally.check(right, lambda: f"{which} {text!r}, {mode}: {answer}; plain: {first}")
        kind = "text" if first.status == 0 else f"fault {first.fault()[0]}" if first.fault() else "other"
        counts[kind] = counts.get(kind, 0) + 1
    print("answers: " + ", ".join(f"{kind}: {n}" for kind, n in sorted(counts.items())))
    print("modes: " + ", ".join(whole))
    tally.end()


if __name__ == "__main__":
    main()
