"""completions.py: the completions of the program's line for bash, zsh and fish, of what its help says; command_texts.py writes them. Each
function gets the whole program, its commands, and its faults: number, place and meaning of each."""
import re

HELP = "help", "Prints the help of a command"
HEAD = "Completions of cmbsim's line for {}, made by scripts/command_texts.py; `make install` puts them where {} looks."


def flags_of(command):
    """The options of a command as they are written."""
    return " ".join(flag for it in command.options for flag in (it.short, f"--{it.name}") if flag)


def quoted(text):
    return "'" + text.replace("'", "'\\''") + "'"


# ---- bash

BASH = """
_cmbsim() {{
    local current=${{COMP_WORDS[COMP_CWORD]}} before=${{COMP_WORDS[COMP_CWORD - 1]}} words=
    case $COMP_CWORD:$before in
        1:*) words="{commands} help {flags}" ;;
        2:explain) words="{faults} {explaining}" ;;
        2:help) words="{commands}" ;;
{values}
        {files})
            mapfile -t COMPREPLY < <(compgen -f -- "$current")
            return
            ;;
        {others}) ;;
        *)
            case ${{COMP_WORDS[1]}} in
{options}
            esac
            ;;
    esac
    mapfile -t COMPREPLY < <(compgen -W "$words" -- "$current")
}}

complete -o filenames -o bashdefault -F _cmbsim cmbsim
"""


def bash(whole, commands, faults):
    every = {it.name: it for command in commands for it in command.options if it.takes}.values()
    files = [it for it in every if it.takes == "FILE"]
    return f"# {HEAD.format('bash', 'bash-completion')}\n" + BASH.format(
        commands=" ".join(it.name for it in commands), flags=flags_of(whole),
        explaining=" ".join(flags_of(it) for it in commands if it.name == "explain"), faults=" ".join(number for number, _, _ in faults),
        values="\n".join(f'        *:--{it.name}) words="{" ".join(it.values)}" ;;' for it in every if it.values),
        files=" | ".join(f"*:--{it.name}" for it in files),
        others=" | ".join(f"*:--{it.name}" for it in every if it not in files and not it.values),
        options="\n".join(f'                {it.name}) words="{flags_of(it)}" ;;' for it in commands))


# ---- zsh

ZSH = """
_cmbsim() {{
    local curcontext=$curcontext state line
    local -a commands faults
    typeset -A opt_args
    commands=(
{commands}
    )
    faults=(
{faults}
    )
    _arguments -C \\
{flags} \\
        '1: :->command' '*:: :->rest'
    case $state in
        command) _describe -t commands command commands ;;
        rest)
            case $words[1] in
{options}
                explain) (( CURRENT == 2 )) && _describe -t faults fault faults ;;
                help)
                    commands=(${{commands:#help:*}})
                    (( CURRENT == 2 )) && _describe -t commands command commands
                    ;;
            esac
            ;;
    esac
}}

_cmbsim "$@"
"""


def escaped(text):
    """A text as _arguments and _describe read it."""
    return re.sub(r"([\[\]:\\])", r"\\\1", text)


def zsh_option(option):
    kind = f"({' '.join(option.values)})" if option.values else "_files" if option.takes == "FILE" else " "
    takes = f":{escaped(option.takes)}:{kind}" if option.takes else ""
    if option.short:
        return f"'(- *)'{{{option.short},--{option.name}}}{quoted(f'[{escaped(option.line)}]')}"
    return quoted(f"--{option.name}[{escaped(option.line)}]{takes}")


def zsh_words(words):
    return "\n".join(f"        {quoted(f'{word}:{escaped(text)}')}" for word, text in words)


def zsh_command(command):
    options = " \\\n".join(f"                        {zsh_option(it)}" for it in command.options)
    return f"                {command.name})\n                    _arguments \\\n{options}\n                    ;;"


def zsh(whole, commands, faults):
    return f"#compdef cmbsim\n# {HEAD.format('zsh', 'zsh')}\n" + ZSH.format(
        commands=zsh_words([*((it.name, it.about) for it in commands), HELP]),
        faults=zsh_words((number, meaning) for number, _, meaning in faults),
        flags=" \\\n".join(f"        {zsh_option(it)}" for it in whole.options),
        options="\n".join(zsh_command(it) for it in commands if it.is_task()))


# ---- fish

FISH = """
# Whether the word is this one of the line, behind this command.
function __cmbsim_at
    set -l words (commandline -poc)
    test (count $words) -eq $argv[1]; and test "$words[2]" = "$argv[2]"
end

# Whether the line has this command.
function __cmbsim_does
    set -l words (commandline -poc)
    test (count $words) -ge 2; and test "$words[2]" = "$argv[1]"
end

complete -c cmbsim -f
"""


def fish_option(condition, option):
    kind = f" -xa {quoted(' '.join(option.values))}" if option.values else " -rF" if option.takes == "FILE" else " -x" if option.takes else ""
    short = f" -s {option.short[1]}" if option.short else ""
    return f"complete -c cmbsim -n {quoted(condition)}{short} -l {option.name}{kind} -d {quoted(option.line)}"


def fish_word(condition, word, text):
    return f"complete -c cmbsim -n {quoted(condition)} -a {word} -d {quoted(text)}"


def fish(whole, commands, faults):
    lines = [fish_word("__cmbsim_at 1", *HELP), *(fish_option("__cmbsim_at 1", it) for it in whole.options)]
    for command in commands:
        lines.append(fish_word("__cmbsim_at 1; or __cmbsim_at 2 help", command.name, command.about))
        lines += [fish_option(f"__cmbsim_does {command.name}", it) for it in command.options]
    lines += [fish_word("__cmbsim_at 2 explain", number, meaning) for number, _, meaning in faults]
    return f"# {HEAD.format('fish', 'fish')}\n" + FISH + "\n".join(lines) + "\n"
