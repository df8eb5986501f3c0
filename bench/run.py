#!/usr/bin/env python3
"""run.py [--quick | --short] [--brief] [--times N] [--limit SECONDS] [--only NAME]... [--no-build] [--no-icarus] [--record] [--out FOLDER]

Measures the program on the circuits of circuits.py and those in the folders that CIRCUITS names (with a colon
between them), each in each mode, and beside it the C simulator that CREF names and Icarus Verilog, where they are there.
The timed runs of a circuit are made in turn, so that other load falls on all alike. With --brief only those ways are
measured that --record writes.
Prints a table, and writes it and a plot to FOLDER, bench/out if not given. With --record it writes how one thread and four
compare with the C simulator to bench/FIGURES.md, and some of it to README.md. Ends with status 1 if two ways gave
different texts.
"""
import hashlib
import os
import shutil
import sys
import tempfile

import circuits
import figures
import measuring
import plots

PLAIN_CELLS = 16_777_216
SLOW = 10.0


def mode(name, workers):
    return ["--mode", name, "--workers", str(workers), "--clusters", str(workers)]


WAYS = {
    "plain": ["--mode", "plain"],
    "rounds 1": mode("rounds", 1),
    "rounds 2": mode("rounds", 2),
    "rounds 4": mode("rounds", 4),
    "free 1": mode("free", 1),
    "free 2": mode("free", 2),
    "free 4": mode("free", 4),
    "threads 2": ["--mode", "free", "--threads", "2"],
    "threads 4": ["--mode", "free", "--threads", "4"],
    "threads 64": ["--mode", "free", "--threads", "64"]}


class Text:
    """What a way wrote: its length, its number of changes after tick 0, and its hash."""

    def __init__(self, path, nets):
        digest, self.size, levels, tail = hashlib.sha256(), 0, 0, b"\n"
        with open(path, "rb") as file:
            while chunk := file.read(1 << 20):
                digest.update(chunk)
                self.size += len(chunk)
                seen = tail + chunk
                levels += sum(seen.count(b"\n" + level) for level in (b"0", b"1", b"x"))
                tail = chunk[-1:]
        self.hash, self.changes = digest.hexdigest(), levels - nets


class Result:
    """A way's times on a circuit, or a note in their place, and the command to be timed where it is to be timed yet."""

    def __init__(self, circuit, way, sample=None, text=None, memory=0, note="", command=None):
        self.circuit, self.way, self.sample, self.text, self.memory, self.note = circuit, way, sample, text, memory, note
        self.command = command


def measure(circuit, way, command, netlist, nets, options, folder):
    """A first run, which writes a file, whose text is compared. A slow way is run once."""
    path = os.path.join(folder, "text.vcd")
    first = measuring.once_with_peak(command, netlist, path, options.limit, None, folder)
    if first.late:
        return Result(circuit, way, note=f"more than {options.limit:g} s")
    if first.status:
        return Result(circuit, way, note=f"status {first.status}")
    text = Text(path, nets)
    os.remove(path)
    if first.wall > SLOW or options.times == 0:
        return Result(circuit, way, measuring.Sample([first]), text, first.memory)
    return Result(circuit, way, None, text, first.memory, command=command)


def time_in_turn(results, netlist, options):
    """The runs that are timed. They write to nothing."""
    timed = [result for result in results if result.command]
    runs = [[] for _ in timed]
    for _ in range(options.times):
        for result, own in zip(timed, runs):
            own.append(measuring.once(result.command, netlist, None, options.limit))
    for result, own in zip(timed, runs):
        result.sample = measuring.Sample(own)


def icarus(circuit, text, options, folder):
    """Compiles and runs the circuit as Verilog, once; it writes its own waveforms to nothing."""
    compiled = measuring.once_with_peak(["iverilog", "-o", "netlist.vvp", "netlist.v"], None, None, options.limit, folder, folder)
    if compiled.late or compiled.status:
        return Result(circuit, "icarus", note=f"not compiled in {options.limit:g} s" if compiled.late else f"status {compiled.status}")
    ran = measuring.once_with_peak(["vvp", "-n", "netlist.vvp"], None, None, options.limit, folder, folder)
    if ran.late or ran.status:
        return Result(circuit, "icarus", note=f"compiled in {measuring.short(compiled.wall)}, not run in {options.limit:g} s" if ran.late else f"status {ran.status}")
    memory = max(compiled.memory, ran.memory)
    both = measuring.Run(0, compiled.wall + ran.wall, compiled.processor + ran.processor, memory, False)
    return Result(circuit, "icarus", measuring.Sample([both]), text, memory, f"{measuring.short(compiled.wall)} of it to compile")


def measure_circuit(name, options, reference, folder):
    """The program's ways, then the other simulators'."""
    if name in circuits.given():
        circuits.copy(circuits.given()[name], folder)
    else:
        measuring.apart(lambda: circuits.make(name, options.quick, options.short).write(folder))
    words, netlist = measuring.words_of(folder)
    with open(os.path.join(folder, "nets")) as file:
        nets = int(file.read())
    horizon = int(words[words.index("--horizon") + 1])
    results = []
    for way, more in WAYS.items():
        if options.brief and way not in RECORDED.values():
            continue
        if way == "plain" and nets * horizon > PLAIN_CELLS:
            results.append(Result(name, way, note="more cells than mode plain may have"))
        elif way.startswith("free") and options.no_free:
            results.append(Result(name, way, note="the program has no such mode"))
        else:
            results.append(measure(name, way, [measuring.PROGRAM] + words + more, netlist, nets, options, folder))
            if way == "free 2" and results[-1].note == "status 2":
                options.no_free = True
                results[-1].note = "the program has no such mode"
    if reference:
        results.append(measure(name, "cref", [reference] + words, netlist, nets, options, folder))
    time_in_turn(results, netlist, options)
    text = next((result.text for result in results if result.text), None)
    if text and options.icarus and os.path.exists(os.path.join(folder, "netlist.v")):
        results.append(icarus(name, text, options, folder))
    for result in results:
        tell(result)
    return results


def tell(result):
    said = measuring.short(result.sample.best) if result.sample else result.note
    print(f"{result.circuit}, {result.way}: {said}", file=sys.stderr, flush=True)


def row_of(result, results):
    """A line of the table."""
    if result.sample is None:
        return [result.circuit, result.way] + [""] * 8 + [result.note]
    beside = next((r.sample for r in results if r.circuit == result.circuit and r.way == "cref"), None)
    sample, text = result.sample, result.text
    return [
        result.circuit, result.way, measuring.short(sample.best), measuring.short(sample.median), measuring.short(sample.processor),
        f"{result.memory / 1e6:.0f} MB", f"{text.changes / sample.best / 1e6:.2f} M", f"{text.size / sample.best / 1e6:.1f} MB",
        f"{sample.best / beside.best:.2f}" if beside else "", f"{sample.processor / beside.processor:.2f}" if beside else "", result.note]


HEADER = ["circuit", "way", "best", "median", "processor", "memory", "changes a second", "bytes a second", "to cref", "processor to cref", "note"]


# What --record writes: ways in mode free, each by the C simulator's time, and that time.
RECORDED = {"one thread": "free 1", "4 threads": "threads 4"}


def recorded_rows(results):
    """A line for each circuit with the wall times of the ways in RECORDED, each by that of the C simulator, and the last."""
    best = {(it.circuit, it.way): it.sample.best for it in results if it.sample}
    rows = [["circuit", *RECORDED, "C simulator"]]
    for circuit in dict.fromkeys(it.circuit for it in results):
        beside = best.get((circuit, "cref"))
        ratios = [best[circuit, way] / beside if beside and (circuit, way) in best else None for way in RECORDED.values()]
        rows.append([circuit] + ["" if it is None else f"{it:.2f}" for it in ratios] + [measuring.short(beside) if beside else ""])
    return rows


def differences(results):
    """The circuits of which two ways wrote different texts."""
    hashes = {}
    for result in results:
        if result.text:
            hashes.setdefault(result.circuit, set()).add(result.text.hash)
    return [circuit for circuit, found in hashes.items() if len(found) > 1]


def write_all(results, options):
    """The table and the plot."""
    measuring.write_report(options, "run", [], [HEADER] + [row_of(result, results) for result in results])
    if options.record:
        measuring.record(options, "run", [f"best of {options.times}"], recorded_rows(results))
        figures.copy()
    groups = {}
    for result in results:
        if result.sample:
            groups.setdefault(result.circuit, []).append((result.way, result.sample.best))
    plots.bars(os.path.join(options.out, "run.svg"), "Wall time of a run in seconds, best of some; shorter is better", "s", list(groups.items()))


def read_words():
    words = measuring.parser(__doc__, 120.0, 20.0)
    measuring.add_choice(words, circuits.names)
    words.add_argument("--no-icarus", action="store_true")
    words.add_argument("--brief", action="store_true", help="only the ways that --record writes")
    if "--record" in sys.argv and not os.environ.get("CREF"):
        words.error("--record needs the C simulator, and CREF names none")
    options = measuring.begin(words)
    options.icarus = not options.no_icarus and shutil.which("iverilog")
    options.no_free = False
    return options


def main():
    options = read_words()
    results = []
    with tempfile.TemporaryDirectory() as top:
        reference = measuring.reference(top)
        for number, name in enumerate(options.only or circuits.names(options.short)):
            folder = os.path.join(top, str(number))
            results += measure_circuit(name, options, reference, folder)
            shutil.rmtree(folder)
    write_all(results, options)
    wrong = differences(results)
    for circuit in wrong:
        print(f"DIFFERENT TEXTS: {circuit}", file=sys.stderr)
    return 1 if wrong else 0


if __name__ == "__main__":
    sys.exit(main())
