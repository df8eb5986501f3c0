#!/usr/bin/env python3
"""pages.py [PROGRAM]: runs the commands of README.md, docs/GUIDE.md and docs/VERILOG.md with PROGRAM, out/cmbsim if not given, and holds
what they print against what the pages show below them; and so what is shown of files. It runs in a folder of its own, in which files that
a page shows and that aren't there are written. Commands of make, apt-get and gtkwave aren't run, nor those that stand on a program
that isn't installed, which is said. The last line is 'N passed, M failed'; the status is 0 where nothing failed."""
import collections
import os
import re
import shutil
import subprocess
import sys
import tempfile

import crates

PAGES = ["README.md", "docs/GUIDE.md", "docs/VERILOG.md"]
NEVER = {"make", "apt-get", "gtkwave"}
STANDS_ON = {"tools/from_verilog.sh": "yosys", "tools/from_yosys.py": "yosys"}
BLOCK = re.compile(r"```(\w+)\n(.*?)```\n", re.DOTALL)
FILE = re.compile(r"`([\w/]+(?:\.\w+|/options))`")

Block = collections.namedtuple("Block", "line kind text before")  # before: what stands between it and the block above


def blocks_of(text):
    """The blocks of a page in order, each with its line."""
    blocks, last = [], 0
    for found in BLOCK.finditer(text):
        blocks.append(Block(text.count("\n", 0, found.start()) + 1, found[1], found[2], text[last:found.start()]))
        last = found.end()
    return blocks


def commands_of(text):
    """The commands that are run, each line of a block being one but where it ends with a backslash."""
    lines = text.replace("\\\n", "").strip().split("\n")
    return "\n".join(line for line in lines if line.split()[0] not in NEVER)


def missing(text):
    """The programs that the commands stand on and that aren't installed."""
    words = re.findall(r"(?:^|[|;&\n] *)([\w./-]+)", text)
    needed = {STANDS_ON.get(word, word) for word in words if "/" not in word or word in STANDS_ON}
    return sorted(it for it in needed & {"yosys", "iverilog", "vvp", "yosys-abc"} if not shutil.which(it))


class Page:
    """A page, whose commands run in a folder."""

    def __init__(self, name, folder):
        self.name, self.folder = name, folder
        self.passed, self.failed, self.lost = 0, 0, set()

    def see(self, block, wanted, found):
        """Counts whether what was found is what the page shows."""
        if wanted == found:
            self.passed += 1
        else:
            self.failed += 1
            print(f"pages: {self.name}, line {block.line} FAILED: it shows\n{wanted}\nand there is\n{found}")

    def run(self, block, shown):
        """Runs the commands of a block, and holds what they print against a block that stands right below."""
        commands, lacking = commands_of(block.text), missing(block.text)
        stands_on_lost = any(re.search(rf"(?<![\w/]){re.escape(it)}\b", commands) for it in self.lost)
        if lacking or stands_on_lost:
            self.lost |= {it for it in re.findall(r"(?<![\w/.-])\w+\b", commands) if not os.path.exists(f"{self.folder}/{it}")}
            why = f"{', '.join(lacking)} isn't installed" if lacking else "what it reads wasn't made"
            print(f"pages: {self.name}, line {block.line} isn't run: {why}")
            return
        ran = subprocess.run(["bash", "-c", commands if shown else f"set -e\n{commands}"], cwd=self.folder, stdout=subprocess.PIPE,
                             stderr=subprocess.STDOUT, universal_newlines=True, timeout=1200)
        if shown:
            self.see(shown, shown.text.rstrip(), ran.stdout.rstrip())
        else:
            self.see(block, 0, ran.returncode)

    def show(self, block):
        """Holds what is shown of a file against it, or writes the file."""
        names = FILE.findall(block.before.strip().split("\n")[-1])
        if not names or not block.before.strip().endswith(":"):
            return
        path = f"{self.folder}/{names[-1]}"
        if not os.path.exists(path):
            os.makedirs(os.path.dirname(path), exist_ok=True)
            with open(path, "w", encoding="utf-8") as file:
                file.write(block.text)
            return
        with open(path, encoding="utf-8") as file:
            text = file.read()
        self.see(block, block.text, text[:len(block.text)])

    def go(self):
        with open(f"{crates.TOP}/{self.name}", encoding="utf-8") as file:
            blocks = blocks_of(file.read())
        shown = None
        for block, below in zip(blocks, [*blocks[1:], None]):
            if block.kind == "sh" and commands_of(block.text):
                shown = below if below and below.kind == "text" and not below.before.strip() else None
                self.run(block, shown)
            elif block is not shown and block.kind != "sh":
                self.show(block)


def main():
    program = os.path.abspath(sys.argv[1] if len(sys.argv) > 1 else f"{crates.TOP}/out/cmbsim")
    passed = failed = 0
    for name in PAGES:
        with tempfile.TemporaryDirectory() as folder:
            for part in ("tools", "scripts", "examples", "docs"):
                shutil.copytree(f"{crates.TOP}/{part}", f"{folder}/{part}")
            os.mkdir(f"{folder}/out")
            os.symlink(program, f"{folder}/out/cmbsim")
            os.environ["CMBSIM"] = f"{folder}/out/cmbsim"
            page = Page(name, folder)
            page.go()
            passed, failed = passed + page.passed, failed + page.failed
    print(f"{passed} passed, {failed} failed")
    return 1 if failed else 0


if __name__ == "__main__":
    sys.exit(main())
