#!/usr/bin/env python3
"""inner.py: sees that each file of definitions stands where a reader looks for it. A file in a crate's specs/Inner/ is for
the contracts inside that crate: no public contract stands on it, no file of definitions outside Inner/ cites it, and no
other crate does. Of every other file of a library a public contract stands on some definition, or another crate cites
one. It prints a line for each file that stands elsewhere, and a last line 'N passed, M failed'; the status is 0 where
nothing failed. It reads contracts by their layout, which `rt fmt` keeps."""
import glob
import os
import re
import sys

import believed
import crates

FOLDER = f"{crates.TOP}/crates"
USE = re.compile(r"(?m)^\s*(?:ghost |pub )?use (Rattle\.(\w+)\.specs\.[\w.]+?)\.(?:\{([^\n]*)\}|([^\s.{};]+));?$")
EXPORT = re.compile(r"(?m)^pub use (?:crate::)?(\w+)::(?:\{([^}]*)\}|(\w+));")
FUNCTION = re.compile(r"( *)(pub )?(?:const )?fn (\w+)")
OWNER = re.compile(r"(?:impl|(?:pub )?trait)\b.*")
VALUE = re.compile(r" *ghost Value = ")
WORD = re.compile(r"[^\s(){}\[\],;.∷→×⊎λ=≡≤<>+*/]+")


def read(path):
    with open(path, encoding="utf-8") as file:
        return file.read()


def names_in(several, one):
    return [it.partition(" as ") for it in map(str.strip, (several or one).split(","))]


def exported(crate, file):
    """What a crate's lib.rt exports of a file by name, or None where all that is public there is public outside."""
    module, lib = file.removesuffix(".rt").split("/")[0], read(f"{FOLDER}/{crate}/src/lib.rt")
    if module == "lib" or re.search(rf"(?m)^pub mod {module}\b", lib):
        return None
    return {name for of, several, one in EXPORT.findall(lib) if of == module for name, _, _ in names_in(several, one)}


def head(lines, begin):
    """The lines of a function up to its body, or to the end of its declaration."""
    for end in range(begin, len(lines)):
        if lines[end].strip() == "{" or lines[end].endswith((" {", ";", "{}")):
            return lines[begin : end + 1]
    return lines[begin:]


def public_lines(text, names):
    """The lines of a file in which public contracts are told, and the types in whose terms they are."""
    lines, owner, found = text.split("\n"), "", []
    for at, line in enumerate(lines):
        owner = line if OWNER.match(line) else owner
        is_owned = names is None or any(re.search(rf"\b{it}\b", owner) for it in names)
        function = FUNCTION.match(line)
        if function and function[1]:
            is_public = is_owned and (function[2] or " for " in owner or owner.startswith("pub trait"))
        else:
            is_public = function and function[2] and (names is None or function[3] in names)
        if is_public:
            found += head(lines, at)
        elif VALUE.match(line) and is_owned:
            found.append(line)
    return found


def cited_in_public(path):
    """The modules and names of the definitions that the public contracts of a file cite."""
    crate, _, file = os.path.relpath(path, FOLDER).partition("/src/")
    text = read(path)
    taken = {own or name: (module, name) for module, _, several, one in USE.findall(text) for name, _, own in names_in(several, one)}
    told = "\n".join(re.sub(r"//.*", "", it) for it in public_lines(text, exported(crate, file)))
    return {taken[it] for it in WORD.findall(told) if it in taken}


def cited_outside(modules):
    """The modules that a file of another crate cites, be it code, a definition or a proof."""
    found = set()
    for part in crates.SOURCES:
        for path in glob.glob(f"{FOLDER}/*/{part}/**/*.*", recursive=True):
            crate = os.path.relpath(path, FOLDER).partition("/")[0]
            found |= {module for module, of, _, _ in USE.findall(read(path)) if of != crate}
    return found & set(modules)


def faults(modules, public, outside):
    """What is wrong, by the module's path."""
    libraries = {os.path.basename(os.path.dirname(os.path.dirname(it))) for it in glob.glob(f"{FOLDER}/*/src/lib.rt")}
    for it in modules.values():
        crate, is_inner = it.path.partition("/")[0], "/specs/Inner/" in it.path
        if believed.is_list(f"{FOLDER}/{it.path}") or crate not in libraries:
            continue
        if not is_inner:
            inner = {module for module, _ in it.taken.values() if ".specs.Inner." in module}
            yield it.path, f"cites {', '.join(sorted(inner))}" if inner else "" if it.name in public | outside else "belongs to Inner/: no public contract stands on it"
        elif it.name in public:
            yield it.path, "a public contract stands on it"
        else:
            yield it.path, "another crate cites it" if it.name in outside else ""


def main():
    modules = believed.all_modules()
    roots = set().union(*map(cited_in_public, glob.glob(f"{FOLDER}/cmb_*/src/**/*.rt", recursive=True)))
    public = {module for module, _ in believed.stood_on(modules, list(roots))}
    found = list(faults(modules, public, cited_outside(modules)))
    wrong = [(path, what) for path, what in sorted(found) if what]
    for path, what in wrong:
        print(f"{path}: {what}")
    print(f"{len(found) - len(wrong)} passed, {len(wrong)} failed")
    return 1 if wrong else 0


if __name__ == "__main__":
    sys.exit(main())
