"""prose.py: what documents.py asks of the pages that have been brought into form: how long they, their paragraphs and their
sentences are, and that each name, file and command in them is there. What scripts write between marks counts for nothing."""
import functools
import glob
import os
import re

import crates

# By page the most words that it may have. A page is checked once it stands here.
LENGTHS = {"README.md": 900, "CONTRIBUTING.md": 700, "docs/GUIDE.md": 3800, "docs/VERILOG.md": 1700, "bench/README.md": 900,
           "docs/ARCHITECTURE.md": 2500, "docs/MODEL.md": 5000, "docs/GLOSSARY.md": 1300, "docs/CLAIMS.md": 2800,
           "docs/DECISIONS.md": 2500, "docs/GATE.md": 900, "docs/PROVING.md": 1200, "docs/ROBUSTNESS.md": 900,
           **{os.path.relpath(it, crates.TOP): 70 for it in sorted(glob.glob(f"{crates.TOP}/examples/*/README.md"))}}
SENTENCE, PARAGRAPH = 25, 90
# Names of other programs and of the toolchain.
FOREIGN = {"--margin", "--opt", "--statements", "--tool", "TheLink", "sched_yield"}

MADE = re.compile(r"<!-- ([\w.]+): begin -->\n.*?<!-- \1: end -->\n?", re.DOTALL)
FENCE = re.compile(r"^```(\w*)\n(.*?)^```$", re.DOTALL | re.MULTILINE)
CODE = re.compile(r"`([^`\n]+)`")
PICTURE, TARGET = re.compile(r"!\[[^\]]*\]\([^)]*\)"), re.compile(r"\[([^\]]*)\]\([^)]*\)")
ITEM = re.compile(r"^(?:[-*]|\d+\.) +")
END = re.compile(r"(?<=[.?!])(?:\*\*|[\")])?\s+")

FOLDERS = ("bench/", "completions/", "crates/", "docs/", "examples/", "scripts/", "tools/")
EXTENSIONS = (".antt", ".bash", ".fish", ".md", ".py", ".rt", ".sh", ".txt", ".zsh")
SOURCES = ("crates/*/src/**/*.rt", "crates/*/specs/**/*.antt", "crates/*/proofs/**/*.antt", "bench/*.py", "bench/*.sh",
           "scripts/*.py", "scripts/*.sh", "scripts/hostile/*", "tools/*")
PATH = re.compile(r"[\w.*-]+(?:/[\w.*-]+)*/?")
NAME = re.compile(r"(?:[A-Z][a-z]+(?:[A-Z][a-z]*)+|[a-z]\w*_\w+|\w+(?:::\w+)+)(?=\W|$)")
OPTION = re.compile(r"(?<![\w-])--[a-z][a-z-]*")
OURS = {"cmbsim": {"run", "activity", "expect", "check", "explain", "help"},
        "rt": {"all", "check", "ci", "doc", "fmt", "help", "lib", "lemma", "must-fail", "plant", "run", "selftest", "test", "tidy", "try", "verdict",
               "version"}}


def words_in(text):
    return [it for it in text.split() if re.search(r"\w", it)]


def paragraphs_of(text):
    """The paragraphs, items of lists and cells of tables of a page, its blocks of code left out, each with its line."""
    text = FENCE.sub(lambda it: "\n" * it[0].count("\n"), text)
    current, begin = [], 0
    for at, line in enumerate([*text.split("\n"), ""], 1):
        is_apart = not line.strip() or line.startswith(("#", "|", "<!--", "![")) or ITEM.match(line.strip())
        if is_apart and current:
            yield begin, " ".join(current)
            current = []
        if line.startswith("|"):
            yield from ((at, it.strip()) for it in line.strip("| ").split(" | "))
        elif line.strip() and not line.startswith(("#", "<!--", "![")):
            begin = begin if current else at
            current.append(ITEM.sub("", line.strip(), count=1))


def plain(text):
    """A paragraph as it is read: a piece of code is a word, and of a link there is its text."""
    return CODE.sub("code", TARGET.sub(r"\1", PICTURE.sub("", text)))


def lengths(page, text):
    """Each length that a page has to keep, with whether it does."""
    most, found = LENGTHS[page], len(text.split())
    yield f"{page}: has {found} words, at most {most}", found <= most
    for line, paragraph in paragraphs_of(text):
        read = plain(paragraph)
        size = len(words_in(read))
        yield f"{page}, line {line}: a paragraph of {size} words, at most {PARAGRAPH}", size <= PARAGRAPH
        for sentence in END.split(read):
            size = len(words_in(sentence))
            yield f"{page}, line {line}: a sentence of {size} words, at most {SENTENCE}: {sentence}", size <= SENTENCE


@functools.cache
def files():
    """Each file and folder of the repository but what is made, from its top."""
    found = set()
    for at, folders, names in os.walk(crates.TOP):
        folders[:] = [it for it in folders if it not in (".git", "out", "__pycache__")]
        here = os.path.relpath(at, crates.TOP)
        found |= {os.path.normpath(f"{here}/{it}") for it in folders + names}
    return found


@functools.cache
def sources():
    """All words of the code, the definitions, the proofs and the scripts, and the names of the edits."""
    found = {os.path.basename(it).removesuffix(".edit") for it in files() if it.endswith(".edit")}
    for pattern in SOURCES:
        for path in filter(os.path.isfile, glob.glob(f"{crates.TOP}/{pattern}", recursive=True)):
            with open(path, encoding="utf-8", errors="replace") as file:
                text = file.read()
            found |= set(re.findall(r"[A-Za-z_]\w*|--[a-z][a-z-]*", text))
            if path.endswith("/options.rt"):
                found |= {f"--{it}" for it in re.findall(r'name: "([\w-]+)"', text)}
    return found | {"--help", "--version"}


@functools.cache
def targets():
    with open(f"{crates.TOP}/Makefile", encoding="utf-8") as file:
        return set(re.findall(r"(?m)^([a-z]+):", file.read()))


def is_file(path, page):
    """Whether a file of the repository has this path, from the top, from the page or as the end of its own; it may have a '*'."""
    beside = os.path.normpath(f"{os.path.dirname(page)}/{path}")
    form = re.compile("(?:.*/)?" + "[^/]*".join(map(re.escape, path.rstrip("/").split("*"))))
    return beside in files() or any(map(form.fullmatch, files()))


def names_in(code, page):
    """Each name in a piece of code that has to be one of the repository's, with whether it is."""
    words = code.split()
    for word in words:
        is_made = "out" in word.split("/")
        if PATH.fullmatch(word) and not is_made and (word.startswith(FOLDERS) or word.endswith(EXTENSIONS)):
            yield word, is_file(word, page)
    if len(words) > 1 and words[0] in OURS and re.match(r"[a-z]", words[1]):
        yield f"{words[0]} {words[1]}", words[1] in OURS[words[0]]
    if words[0] == "make" and len(words) > 1:
        yield " ".join(words[:2]), words[1] in targets()
    if len(words) == 1 and code.startswith("cmb_") and "::" not in code:
        yield code, f"crates/{code}" in files()
    elif len(words) == 1 and NAME.fullmatch(code):
        yield code, all(it in sources() or f"crates/{it}" in files() for it in code.split("::"))


def options_in(text):
    return [(it, it in sources()) for it in sorted(set(OPTION.findall(text)))]


def names(page, text):
    """Each name, file and command of a page, with whether it is there."""
    shown = [block for kind, block in FENCE.findall(text) if kind == "sh"]
    lines = [re.split(r" +# |[;|<>]", line)[0] for block in shown for line in block.replace("\\\n", " ").split("\n")]
    pieces = CODE.findall(FENCE.sub("", text)) + [re.sub(r"^(\w+=\S+ )+", "", it) for it in lines if it.strip()]
    found = {it for piece in pieces if piece.strip() for it in names_in(piece, page)}
    found |= set(options_in(" ".join(CODE.findall(text))))
    return [(f"{page}: {name} isn't there", there) for name, there in sorted(found) if name not in FOREIGN]


def of_page(page):
    """All that is asked of a page, with whether it holds."""
    with open(f"{crates.TOP}/{page}", encoding="utf-8") as file:
        text = MADE.sub(lambda it: "\n" * it[0].count("\n"), file.read())
    return [*lengths(page, text), *names(page, text)]
