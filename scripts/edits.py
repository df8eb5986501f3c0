"""Edits that the prover must refuse, for audit.py: which functions they change, which of them can be tried at once, and what
a check says of each.

Edits of different functions are tried at once: a function is proved by the contracts of those that it calls, so a refused
body leaves no goal open in another function. A function that calls one whose body is refused isn't proved either, but
without an open goal of its own, and only such a goal counts."""
import os
import re

NAMES = re.compile(r"has no field|is not in scope|has no `|was not admitted")
NOTE = re.compile(r"(?m)^note: (src/\S+?):(\d+):\d+: (?:it is not proved|`search` found no proof)|^(?:note: )?(?:\./)?(src/\S+?):(\d+):\d+: error")
ERROR = re.compile(r"(?m)^\./proofs/(\S+)/\w+\.antt:\d+:\d+: error(.*)$")
LEFT = re.compile(r"(?m)^(?:fn|impl) (\S+): (?!proved\b|assumed)")
HEAD = re.compile(r"(?:    )?(?:pub(?:\(\w+\))? )?fn (\w+)")
OPENS = re.compile(r"(?!\s*(?:requires|ensures)\b).*\{$")
MOST_AT_ONCE = 12


class Edit:
    """An edit's pairs of texts, by file."""

    def __init__(self, crate, path):
        self.crate, self.name = crate, os.path.basename(path).removesuffix(".edit")
        self.pairs, file, old = [], None, None
        with open(path, encoding="utf-8") as lines:
            for line in lines.read().split("\n"):
                key, _, text = line.partition(":")
                if key == "file":
                    file = text.strip()
                elif key == "old":
                    old = text[1:]
                elif key == "new":
                    self.pairs.append((file, old, text[1:]))

    def lines(self, source):
        """The lines that the edit changes, by file and number from 1; None where an old text isn't in its file exactly once when
        its turn comes. Old and new texts are parts of one line."""
        texts = {}
        for file, old, new in self.pairs:
            text = texts.get(file, source.text(file))
            if text.count(old) != 1:
                return None
            texts[file] = text.replace(old, new)
        both = ((file, zip(source.text(file).split("\n"), text.split("\n"))) for file, text in texts.items())
        return {(file, i): new for file, pairs in both for i, (old, new) in enumerate(pairs, 1) if old != new}

    def functions(self, source):
        """The functions whose bodies the edit changes, None among them where a line of it is in no body."""
        return list(dict.fromkeys(source.body_at(file, line) for file, line in self.lines(source)))


class Source:
    """The files of a crate's folder as they stand."""

    def __init__(self, folder):
        self.folder, self.texts = folder, {}

    def text(self, file):
        if file not in self.texts:
            with open(f"{self.folder}/{file}", encoding="utf-8") as it:
                self.texts[file] = it.read()
        return self.texts[file]

    def function_in(self, file, line):
        """The function that a line of a file belongs to, by its number from 1."""
        return function_at(file, self.text(file).split("\n")[:line])

    def body_at(self, file, line):
        """The same, where the line stands in the function's body, and None where it is of what others see of it."""
        lines = self.text(file).split("\n")[:line]
        head = max((i for i, it in enumerate(lines) if HEAD.match(it)), default=line)
        return function_at(file, lines) if any(map(OPENS.match, lines[head:-1])) else None

    def write(self, texts):
        for file, text in texts.items():
            with open(f"{self.folder}/{file}", "w", encoding="utf-8") as it:
                it.write(text)

    def changed(self, edits):
        """The texts of the files that these edits of different lines change."""
        texts = {}
        for edit in edits:
            for (file, line), new in edit.lines(self).items():
                texts.setdefault(file, self.text(file).split("\n"))[line - 1] = new
        return {file: "\n".join(lines) for file, lines in texts.items()}


def function_at(file, lines):
    """The path of the function that the last of these first lines of a file stands in, as the prover names it, or None outside of
    all."""
    owner = function = None
    for line in lines:
        impl = re.match(r"impl(?:<(.*?)>)? (?:(\w+)(?:<(\w+).*?>)? for )?(\w+)", line)
        found = HEAD.match(line)
        if impl:
            free = {it.partition(":")[0].strip() for it in (impl[1] or "").split(",")}
            owner = ("Any" if impl[4] in free else impl[4]) + (impl[2] or "") + (impl[3] or "")
        elif found:
            function = found[1]
        elif line == "}":
            owner = function = None
        elif line == "    }" and owner:
            function = None
    module = [it for it in file.removeprefix("src/").removesuffix(".rt").split("/") if it not in ("lib", "main")]
    return "::".join([*module, *filter(None, [owner]), function]) if function else None


def rounds(edits, source):
    """The edits that change nothing but bodies, in as few rounds as they need to change each once at most, and the other
    edits: what others see of a function may open a goal of theirs."""
    found, others = [], []
    for edit in edits:
        functions = edit.functions(source) if edit.lines(source) else [None]
        if None in functions:
            others.append(edit)
            continue
        fits = (it for it in found if len(it) < MOST_AT_ONCE and not any(set(functions) & set(was) for _, was in it))
        place = next(fits, None)
        if place is None:
            found.append(place := [])
        place.append((edit, functions))
    return found, others


def open_functions(said, source):
    """The functions in which a goal is open, and not only a name gone that a proof cites."""
    places = [(it[1] or it[3], int(it[2] or it[4])) for it in NOTE.finditer(said)]
    found = {source.function_in(file, line) for file, line in places}
    return found | {it[1].replace("/", "::") for it in ERROR.finditer(said) if not NAMES.search(it[2])}


def is_open(said):
    """Whether a goal is open anywhere."""
    return bool(NOTE.search(said)) or any(not NAMES.search(it[2]) for it in ERROR.finditer(said))


def left(said):
    """The functions that aren't proved, by their paths below the crate."""
    return [it.partition("::")[2] for it in LEFT.findall(said)]


def own(functions, said):
    """The first of the functions left that is one of these, or the impl of one, or None."""
    ends = tuple(f"::{it}" for function in functions for it in (function, function.rpartition("::")[0]))
    return next((it for it in left(said) if f"::{it}".endswith(ends)), None)
