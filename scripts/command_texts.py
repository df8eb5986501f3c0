#!/usr/bin/env python3
"""command_texts.py PROGRAM [--check]: writes the manual page docs/cmbsim.1 and the completions for bash, zsh and fish, of what the program
prints: its help, its version and its list of faults. With --check it writes nothing, and ends with status 1 if a file says something else."""
import os
import sys

from completions import bash, fish, zsh
from fault_tables import FAULT, TOP, said
from help_texts import Command
from manual_page import manual


def texts_of(program):
    """What is made, by its path."""
    whole, commands, faults = Command(program), Command.all(program), FAULT.findall(said(program, "explain"))
    made = {f"completions/cmbsim.{shell.__name__}": shell(whole, commands, faults) for shell in (bash, zsh, fish)}
    return {"docs/cmbsim.1": manual(said(program, "--version").strip(), whole, commands, faults), **made}


def read(path):
    if not os.path.exists(path):
        return ""
    with open(path, encoding="utf-8") as file:
        return file.read()


def main(program, check=None):
    made = {f"{TOP}/{path}": text for path, text in texts_of(os.path.abspath(program)).items()}
    stale = [path for path, text in made.items() if read(path) != text]
    for path in stale:
        if check:
            print(f"{os.path.relpath(path, TOP)} says something else than the program: run scripts/command_texts.py PROGRAM", file=sys.stderr)
        else:
            with open(path, "w", encoding="utf-8") as file:
                file.write(made[path])
    return 1 if check and stale else 0


if __name__ == "__main__":
    sys.exit(main(*sys.argv[1:]))
