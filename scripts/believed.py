#!/usr/bin/env python3
"""believed.py [--check | --rest]: writes into docs/MODEL.md, between two marks, which definitions the contract of
`carry_out` stands on: `IsDone`, what it cites, and so on down, by the files of specs/ that have them. With --check it
writes nothing, and ends with status 1 where the page says something else. With --rest it writes nothing and lists the
files of specs/ to which the page has no link, which needn't be read."""
import glob
import os
import re
import sys

import crates

ROOT = "IsDone"
PAGE = f"{crates.TOP}/docs/MODEL.md"
FILES = f"{crates.TOP}/crates/*/specs/**/*.antt"
LINK = re.compile(r"\]\(\.\./crates/([^)]+\.antt)\)")
BEGIN, END = "<!-- believed.py: begin -->\n", "<!-- believed.py: end -->\n"
HEAD = re.compile(r"(?:(?:pub|abbrev|unfoldable|opaque|data|record)\s+)*([^\s:(){},]+)\s*(?:[({:])")
USE = re.compile(r"(?m)^(?:pub )?use (\S+?)\.(?:\{([^\n]*)\}|([^\s.{}]+))$")


class Module:
    """A file of definitions: what it defines, each with its text, and by its own names for them what it takes from others."""

    def __init__(self, path):
        crate, _, inside = os.path.relpath(path, f"{crates.TOP}/crates").partition("/specs/")
        self.path, self.name = f"{crate}/specs/{inside}", f"Rattle.{crate}.specs.{inside.removesuffix('.antt').replace('/', '.')}"
        with open(path, encoding="utf-8") as file:
            text = re.sub(r"--[^\n]*", "", file.read())
        self.taken, self.defined = {}, {}
        for module, several, one in USE.findall(text):
            for item in (several or one).split(","):
                name, _, own = item.strip().partition(" as ")
                self.taken[own.strip() or name.strip()] = module, name.strip()
        self.read(text)

    def read(self, text):
        current = None
        for line in text.split("\n"):
            head = HEAD.match(line)
            if head and not line.startswith(("use ", "pub use ", "pub mod ", "mod ")) and head[1] not in self.defined:
                current = head[1]
            if current and not line.startswith(("use ", "pub use ")):
                self.defined[current] = self.defined.get(current, "") + line + "\n"

    def cited(self, name):
        """The modules and names of the definitions that one of this file cites."""
        words = set(re.findall(r"[^\s(){}\[\],;.∷→×⊎λ=≡≤<>+*/]+", self.defined[name])) - {name}
        return [(self.name, it) for it in words if it in self.defined] + [self.taken[it] for it in words if it in self.taken and it not in self.defined]


def all_modules():
    """The files of definitions of all crates, by the names of their modules."""
    return {it.name: it for it in map(Module, glob.glob(FILES, recursive=True))}


def stood_on(modules, left):
    """All definitions on which these stand, themselves among them: each by its module and its name."""
    found = set()
    while left:
        at = left.pop()
        if at in found or at[0] not in modules or at[1] not in modules[at[0]].defined:
            continue
        found.add(at)
        left += modules[at[0]].cited(at[1])
    return found


def believed():
    """By file the definitions that the root stands on."""
    modules, files = all_modules(), {}
    for module, name in stood_on(modules, [(it.name, ROOT) for it in modules.values() if ROOT in it.defined]):
        files.setdefault(modules[module].path, []).append(name)
    return files


def listed(files):
    rows = [f"`{ROOT}` stands on {sum(map(len, files.values()))} definitions in {len(files)} files:", "", "| File | Definitions |", "|---|---|"]
    for path in sorted(files):
        rows.append(f"| [`{path}`](../crates/{path}) | {', '.join(f'`{it}`' for it in sorted(files[path]))} |")
    return "\n".join(rows) + "\n"


def is_list(path):
    """Whether a file only names others: Lib.antt, or one beside a folder of its name."""
    return path.endswith("/Lib.antt") or os.path.isdir(path.removesuffix(".antt"))


def unread(page):
    """The files of definitions to which the page has no link."""
    files = {os.path.relpath(it, f"{crates.TOP}/crates") for it in glob.glob(FILES, recursive=True) if not is_list(it)}
    return sorted(files - set(LINK.findall(page)))


def main(words):
    with open(PAGE, encoding="utf-8") as file:
        page = file.read()
    if words == ["--rest"]:
        print("\n".join(unread(page)))
        return 0
    before, _, rest = page.partition(BEGIN)
    _, _, after = rest.partition(END)
    now = before + BEGIN + listed(believed()) + END + after
    if words == ["--check"]:
        print("docs/MODEL.md lists " + ("what" if now == page else "SOMETHING ELSE than what") + f" {ROOT} stands on")
        return 0 if now == page else 1
    with open(PAGE, "w", encoding="utf-8") as file:
        file.write(now)
    return 0


if __name__ == "__main__":
    sys.exit(main(sys.argv[1:]))
