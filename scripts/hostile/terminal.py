#!/usr/bin/env -S python3 -B
"""terminal.py: runs the built program with standard error on a terminal, in a pipe and in a file.

On a terminal a fault is told in words too, what looks like a slip is told at the end, and a pipe that its reader closed
isn't told. --no-explain turns that off. In a pipe and in a file the line of the fault stands alone, unless --explain asks
for more.
"""
import os
import pty
import subprocess
import tempfile

from tools import PROGRAM, Tally

SECONDS = 60
CHAIN = b"INPUT(a)\nn0 = NOT(a)\n" + b"".join(b"n%d = NOT(n%d)\n" % (it + 1, it) for it in range(20000))
INVERTER = b"INPUT(a)\ny = NOT(a)\n"
FLOP = b"INPUT(a)\ny = AND(a, q)\nq = DFF(y)\n"
RISE = b"tick,net,value\n0,a,0\n5,a,1\n"


def read_all(end):
    """What a terminal shows until its other end is closed."""
    shown = b""
    while True:
        try:
            more = os.read(end, 4096)
        except OSError:
            return shown.replace(b"\r\n", b"\n")
        if not more:
            return shown.replace(b"\r\n", b"\n")
        shown += more


def on_terminal(words, netlist, folder, stdout, stdin=None):
    """The status of a run and what it shows on a terminal."""
    master, slave = pty.openpty()
    source = subprocess.PIPE if stdin is None else stdin
    with subprocess.Popen([PROGRAM, *words], stdin=source, stdout=stdout, stderr=slave, cwd=folder) as run:
        os.close(slave)
        if stdin is None:
            run.stdin.write(netlist)
            run.stdin.close()
        shown = read_all(master)
        os.close(master)
        return run.wait(SECONDS), shown


def into_pipe(words, netlist, folder):
    ran = subprocess.run([PROGRAM, *words], input=netlist, stdout=subprocess.DEVNULL, stderr=subprocess.PIPE, cwd=folder, timeout=SECONDS)
    return ran.returncode, ran.stderr


def into_file(words, netlist, folder):
    with tempfile.TemporaryFile() as file:
        ran = subprocess.run([PROGRAM, *words], input=netlist, stdout=subprocess.DEVNULL, stderr=file, cwd=folder, timeout=SECONDS)
        file.seek(0)
        return ran.returncode, file.read()


def check_words(tally, name, words, netlist, folder, status, line, more):
    """The line stands alone in a pipe and a file, and with more behind it on a terminal, or where words are asked for."""
    for option, shown, piped in (([], line + more, line), (["--explain"], line + more, line + more), (["--no-explain"], line, line)):
        whole = words + option
        answer = on_terminal(whole, netlist, folder, subprocess.DEVNULL)
        tally.check(answer == (status, shown), lambda: f"{name} {option} on a terminal: {answer}")
        for answer in (into_pipe(whole, netlist, folder), into_file(whole, netlist, folder)):
            tally.check(answer == (status, piped), lambda: f"{name} {option} in a pipe or a file: {answer}")


def check_closed(tally, name, words, netlist, folder, wanted):
    """Standard output is a pipe that nobody reads."""
    reader, writer = os.pipe()
    os.close(reader)
    answer = on_terminal(words, netlist, folder, writer)
    os.close(writer)
    tally.check(answer == wanted, lambda: f"{name} into a closed pipe: {answer}")


def check_typed(tally):
    """The netlist is typed at a terminal, and ends at once."""
    master, slave = pty.openpty()
    os.write(master, b"\x04")
    answer = on_terminal(["run", "--horizon", "10"], b"", None, subprocess.DEVNULL, stdin=slave)
    wanted = b"cmbsim: the netlist, read from the terminal, has no nets: `< netlist.bench` has it read from a file\n"
    tally.check(answer == (0, wanted), lambda: f"a netlist that is typed: {answer}")


def main():
    tally = Tally()
    run = ["run", "--horizon", "10"]
    with tempfile.TemporaryDirectory() as folder:
        with open(f"{folder}/in.csv", "wb") as file:
            file.write(RISE)
        check_words(tally, "a fault", run, b"y = NOT(b)\n", folder, 1, b"cmbsim: fault 6 at 1\n",
                    b"cmbsim: the netlist, line 1: not driven: b, in y = NOT(b)\n")
        check_words(tally, "a folder", [*run, "--stimuli", "."], INVERTER, folder, 1, b"cmbsim: fault 61 at 3\n",
                    b"cmbsim: .: Is a directory (os error 21)\n")
        check_words(tally, "no file", [*run, "--stimuli", "none"], INVERTER, folder, 1, b"cmbsim: fault 61 at 3\n",
                    b"cmbsim: none: No such file or directory (os error 2)\n")
        check_words(tally, "a clock", [*run, "--clock", "5"], FLOP, folder, 1, b"cmbsim: fault 21 at 0\n",
                    b"cmbsim: --clock 5 isn't F:P, the first tick and the period: --clock 9:10 samples at 9, 19, 29 and so on\n")
        check_words(tally, "a run", [*run, "--stimuli", "in.csv"], INVERTER, folder, 0, b"", b"")
        check_words(tally, "no stimuli", run, INVERTER, folder, 0, b"",
                    b"cmbsim: the input a is x at all ticks, since no row of the stimuli gives it a level\n")
        check_words(tally, "a short clock", [*run, "--clock", "2:1", "--stimuli", "in.csv"], FLOP, folder, 0, b"",
                    b"cmbsim: a sample takes up to 2 ticks to the data y, and the clock's period is 1\n")
        for mode in ([], ["--mode", "free"], ["--threads", "3"], ["--mode", "plain"]):
            check_closed(tally, f"a run {mode}", [*run, *mode], CHAIN, folder, (1, b""))
        check_closed(tally, "a run told", [*run, "--no-explain"], INVERTER, folder, (1, b"cmbsim: fault 62 at 0\n"))
        check_closed(tally, "help", ["--help"], b"", folder, (1, b""))
        with open("/dev/full", "wb") as full:
            answer = on_terminal([*run, "--stimuli", "in.csv"], INVERTER, folder, full)
        wanted = b"cmbsim: fault 62 at 0\ncmbsim: after 0 bytes: the output failed\n"
        tally.check(answer == (1, wanted), lambda: f"a full device: {answer}")
    check_typed(tally)
    tally.end()


if __name__ == "__main__":
    main()
