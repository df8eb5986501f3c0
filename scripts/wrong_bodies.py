#!/usr/bin/env python3
"""wrong_bodies.py [--check]: writes into docs/CLAIMS.md, between two marks, the wrong bodies with what refuses each: those of
the edits that say so in their first two lines, and those of wrong_bodies.txt. With --check it writes nothing, and ends with
status 1 where the page says something else. An edit says it so, and neither `rt` nor audit.py reads these lines:

    # wrong body: ..       what the edit makes of the code
    # refused by: ..       the contract, with its clause, that refuses it"""
import glob
import os
import re
import sys

import crates

PAGE = f"{crates.TOP}/docs/CLAIMS.md"
FOLDERS = ("must-fail", "audit")
OTHERS = f"{crates.TOP}/scripts/wrong_bodies.txt"
BEGIN, END = "<!-- wrong_bodies.py: begin -->\n", "<!-- wrong_bodies.py: end -->\n"
NOTES = re.compile(r"\A# wrong body: (.+)\n# refused by: (.+)\nfile: ")


def text_of(path):
    with open(path, encoding="utf-8") as file:
        return file.read()


def order(path):
    """Lowest crates first, then by name."""
    crate, _, name = os.path.relpath(path, f"{crates.TOP}/crates").split("/")
    return list(crates.libraries_below()).index(crate), name


def row_of(path):
    """The row of an edit, None where it says nothing of a wrong body."""
    text = text_of(path)
    notes = NOTES.match(text)
    if not notes:
        if "wrong body" in text or "refused by" in text:
            sys.exit(f"wrong_bodies: {os.path.relpath(path, crates.TOP)} has no two lines of the form '# wrong body: ..', '# refused by: ..'")
        return None
    crate, folder, name = os.path.relpath(path, f"{crates.TOP}/crates").split("/")
    return f"| `{crate}` | {notes[1]} | {notes[2]} | [`{name.removesuffix('.edit')}`](../crates/{crate}/{folder}/{name}) |"


def refusal(word):
    """What refuses a wrong body beside contracts, as the page names it: CRATE/FUNCTION or a script; it has to be there."""
    crate, _, function = word.partition("/")
    if os.path.isfile(f"{crates.TOP}/{word}"):
        return f"`{word}`"
    sources = glob.glob(f"{crates.TOP}/crates/{crate}/src/**/*.rt", recursive=True)
    if not any(re.search(rf"\bfn {function}\b", text_of(it)) for it in sources):
        sys.exit(f"wrong_bodies: there is no {word}")
    return f"`{function}` of `{crate}`"


def row_of_other(line):
    body, why, words = (it.strip() for it in line.split("|"))
    return f"| {body} | {why} | {', '.join(map(refusal, words.split())) or 'nothing'} |"


def table():
    paths = [it for folder in FOLDERS for it in glob.glob(f"{crates.TOP}/crates/*/{folder}/*.edit")]
    edits = filter(None, map(row_of, sorted(paths, key=order)))
    others = [row_of_other(it) for it in text_of(OTHERS).split("\n") if it and not it.startswith("#")]
    heads = ["| Crate | Wrong body | Refused by | Edit |", "|---|---|---|---|"]
    rest = ["", "No contract refuses these:", "", "| Wrong body | Why | Refused by |", "|---|---|---|"]
    return "\n".join([*heads, *edits, *rest, *others]) + "\n"


def main(words):
    page = text_of(PAGE)
    before, begin, rest = page.partition(BEGIN)
    _, end, after = rest.partition(END)
    if not begin or not end:
        sys.exit("wrong_bodies: docs/CLAIMS.md lacks the two marks")
    now = before + begin + table() + end + after
    if words == ["--check"]:
        print("docs/CLAIMS.md has " + ("the wrong bodies that stand" if now == page else "OTHER wrong bodies than stand") + " beside the edits")
        return now != page
    with open(PAGE, "w", encoding="utf-8") as file:
        file.write(now)
    return 0


if __name__ == "__main__":
    sys.exit(main(sys.argv[1:]))
