"""manual_page.py: the manual page, of what the program's help says; command_texts.py writes it."""
import itertools
import re

HEAD = '.\\" Made by scripts/command_texts.py of what the program prints. Checked by: man --warnings -l docs/cmbsim.1'
FLAGS = [("\\-h", "Print a summary of help."), ("\\-\\-help", "Print help."),
         ("\\-V\\fR, \\fP\\-\\-version", "Print the version. It stands before any command.")]
SEE_ALSO = """.SH SEE ALSO
.BR gtkwave (1),
.BR yosys (1)
.PP
The guide in the repository, docs/GUIDE.md, goes through examples step by step.
docs/VERILOG.md goes from Verilog to waveforms.
"""


def roff(text):
    """A text as groff reads it: options, and what stands in backquotes, in bold."""
    text = text.replace("\\", "\\e").replace("-", "\\-")
    text = re.sub(r"`([^`]*)`", r"\\fB\1\\fR", text)
    text = re.sub(r"(?<![\w\\-])(\\-\\-[a-z]+(?:\\-[a-z]+)*)", r"\\fB\1\\fR", text)
    return re.sub(r"(?m)^([.'])", r"\\&\1", text)


def lines_of(paragraph):
    """A paragraph, a sentence a line, and indented lines as they are."""
    for is_shown, lines in itertools.groupby(paragraph.split("\n"), lambda it: it.startswith("    ")):
        if is_shown:
            yield from [".RS", ".EX", *(roff(it[4:]) for it in lines), ".EE", ".RE"]
        else:
            yield from re.sub(r"(?<=[.;:]) (?=[A-Z])", "\n", roff(" ".join(lines))).split("\n")


def paragraphs(texts):
    return [line for text in texts for line in (".PP", *lines_of(text))]


def listed(words, last):
    """Words as a sentence has them: a, b and c."""
    return f" {last} ".join(filter(None, [", ".join(words[:-1]), words[-1]]))


def option_lines(option, takers, tasks):
    """An option, its value and what is said of it; and which tasks take it, if not all do."""
    yield ".TP"
    yield f".BI \\-\\-{roff(option.name)}\\~ {option.takes}" if option.takes else f".B \\-\\-{roff(option.name)}"
    sentences = [f"{option.line}{f' {option.default}' if option.default else ''}."]
    if option.values:
        sentences.append(f"It is {listed(option.values, 'or')}.")
    if len(takers) < len(tasks):
        sentences.append(f"Of {listed([f'`{it.name}`' for it in takers], 'and')} alone.")
    yield from lines_of(" ".join(sentences))
    if option.more:
        yield from [".RS", *paragraphs(option.more), ".RE"]


def options(tasks):
    every = {it.name: it for task in tasks for it in task.options if not it.short}
    for name, option in every.items():
        yield from option_lines(option, [it for it in tasks if name in {its.name for its in it.options}], tasks)
    for flag, text in FLAGS:
        yield from [".TP", f".B {flag}", text]


def described(command, usual):
    """What a command does: what its help says above its usage, and below its options if no other says that."""
    first, *more = [it for it in command.above if it != usual]
    own = [it for it in command.below if not it.startswith("Example")] if usual not in command.above else []
    return [f".SS cmbsim {command.name}", *lines_of(f"{first}."), *paragraphs(more + own)]


def synopsis(commands):
    for command in commands:
        yield from [f"\\fBcmbsim {command.name}\\fR{roff(command.usage.removeprefix(f'cmbsim {command.name}'))}", ".br"]
    yield "\\fBcmbsim help\\fR [COMMAND]"


def manual(version, whole, commands, faults):
    """The manual page of the whole program, of these commands, and with these faults: number, place and meaning of each."""
    usual, about = whole.above
    time, *further = whole.below
    statuses = [it for it in further if it.startswith("Status")]
    examples = {it: None for command in [whole, *commands] for it in command.below if it.startswith("Example")}
    lines = [HEAD, f'.TH CMBSIM 1 "" "{version}" "User Commands"', ".SH NAME", f"cmbsim \\- {roff(about[0].lower() + about[1:])}",
             ".SH SYNOPSIS", *synopsis(commands), ".SH DESCRIPTION", *lines_of(time)]
    for command in commands:
        lines += described(command, usual)
    lines += [".SH OPTIONS", *options([it for it in commands if it.is_task()]), ".SH FILES"]
    lines += paragraphs(it for it in further if it not in statuses and it not in examples)
    lines += [".SH EXIT STATUS", *paragraphs(statuses), ".SH DIAGNOSTICS", "By the number of the fault, it is"]
    lines += [line for number, _, meaning in faults for line in (".TP", f".B {number}", roff(meaning))]
    lines += [".SH EXAMPLES", *paragraphs([usual, *examples])]
    return "\n".join(lines) + "\n" + SEE_ALSO
