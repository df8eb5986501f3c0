#!/usr/bin/env -S python3 -B
"""chosen_cases.py [--seed S] [--times N] [--random N] [--oracle ORACLE] PROGRAM [FOLDER..]: runs the program in each mode with nets
chosen by chance, and with the outputs, and holds what it writes against the text of all nets, from which the lines of the other nets are
taken out here. A list has its names in any order, some twice, with comments; one in eight has a line that names no net, which has to be
fault 38 at that line.

A FOLDER is laid out as those of examples/: netlist.bench, the tables that there are, and the options; each is run with N lists, 3 if not
given. --random N adds N random circuits, each run with one list. Where neither is given, the examples are taken. The text of all nets is
the program's own, or that of ORACLE: another program with the same command line, or a Python file with a function
run_program(words, input) that gives a status and what is written to the two streams. The last line is 'N passed, M failed', over all runs.
"""
import sys

from cases import MOST_CELLS, check_all, line_of, list_by_chance, name_in, names_in
from hostile.tools import Answer, oracle_of

MODES = [["--mode", "plain"], [], ["--workers", "3", "--clusters", "5"], ["--threads", "3"], ["--mode", "free"],
         ["--mode", "free", "--workers", "2", "--clusters", "2"], ["--mode", "free", "--threads", "4"]]


def filtered(text, names):
    """The text of all nets without the lines of those that aren't among the names. The codes are those of the first nets."""
    lines = text.split(b"\n")
    variables = [line for line in lines if line.startswith(b"$var")]
    codes = [line.split()[3] for line in variables]
    kept = [line.split()[3] for line in variables if name_in(line) in names]
    new_code = {code: codes[place] for place, code in enumerate(kept)}
    result, tick, declaring = [], None, True
    for line in lines:
        if declaring and line.startswith(b"$var"):
            words = line.split()
            if words[3] in new_code:
                result.append(b" ".join(words[:3] + [new_code[words[3]]] + words[4:]))
        elif line.startswith(b"#"):
            tick = line
        elif not declaring and line[:1] in (b"0", b"1", b"x"):
            if line[1:] in new_code:
                result += [tick] if tick else []
                result.append(line[:1] + new_code[line[1:]])
                tick = None
        elif line == b"$dumpvars":
            result += [tick, line]
            tick = None
        else:
            if line == b"" and tick:
                result.append(tick)
            result.append(line)
        declaring = declaring and not line.startswith(b"$enddefinitions")
    return b"\n".join(result)


def wanted(whole, names, mode, horizon):
    """What the program has to answer where these nets are chosen: the line of a list without a net comes before the mode's fault."""
    if whole.status != 0:
        return whole
    if "plain" in mode and len(names_in(whole.out)) * horizon > MOST_CELLS:
        return line_of(33, 0)
    return Answer(0, filtered(whole.out, names), b"")


def runs_of(folder, given, chance, times, lists):
    """Each run of a folder: its words, and the answer that it has to give."""
    words = ["run", *folder.options]
    whole = oracle_of(given.oracle or given.program)(words, folder.netlist)
    all_names = names_in(whole.out)
    for number in range(times):
        path, chosen, line = list_by_chance(chance, all_names, lists)
        for mode in MODES:
            unknown = line_of(38, line) if line and whole.status == 0 else None
            yield [*words, "--only", path, *mode], unknown or wanted(whole, chosen, mode, folder.horizon)
            if number == 0:
                yield [*words, "--only-outputs", *mode], wanted(whole, folder.outputs, mode, folder.horizon)


if __name__ == "__main__":
    check_all(sys.argv[1:], runs_of)
