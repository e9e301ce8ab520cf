"""Completions for bash and zsh, of the commands and options that the program's help has."""

from __future__ import annotations

from .help_text import Entry, Helps

# What stands for a file; all other values are for a person to think of.
FILES = ("DOC", "FILE")

BASH = """\
# Completes the words of grove in bash. Made from what its help says.
_grove() {
    local word=${COMP_WORDS[COMP_CWORD]} before=${COMP_WORDS[COMP_CWORD - 1]} command= at
    # bash takes --tree=FILE for three words.
    [ "$word" != = ] || word=
    [ "$before" != = ] || before=${COMP_WORDS[COMP_CWORD - 2]}
    [ "${COMP_WORDS[COMP_CWORD]}" != = ] || before=${COMP_WORDS[COMP_CWORD - 1]}
    for ((at = 1; at < COMP_CWORD; at++)); do
        case ${COMP_WORDS[at]} in
            -*) ;;
            *) command=${COMP_WORDS[at]}; break ;;
        esac
    done
    COMPREPLY=()
    case "$command $before" in
@VALUES@
    esac
    case "$command $word" in
@WORDS@
    esac
}

_grove_words() { mapfile -t COMPREPLY < <(compgen -W "$1" -- "$2"); }

_grove_files() {
    compopt -o filenames 2>/dev/null
    mapfile -t COMPREPLY < <(compgen -f -- "$1")
}

complete -F _grove grove
"""

ZSH = """\
#compdef grove
# Completes the words of grove in zsh. Made from what its help says.
_grove() {
    local curcontext=$curcontext state line
    typeset -A opt_args
    _arguments -C @OPTIONS@ '1:command:_grove_commands' '*::word:->words'
    [[ $state != words ]] || case $line[1] in
@CASES@
    esac
}

_grove_commands() {
    local -a commands=(
@COMMANDS@
    )
    _describe -t commands command commands
}

_grove "$@"
"""


def in_bash(helps: Helps) -> str:
    """Behind an option that takes a value a file, or nothing; else options if there is a dash, commands, and files."""
    values, words = [], []
    for command, of in helps.commands.items():
        for option in of.options():
            if option.value():
                patterns = " | ".join(f"'{command} {word}'" for word in option.words())
                then = '_grove_files "$word"; return' if option.value() in FILES else "return"
                values.append(f"        {patterns}) {then} ;;")
        words.append(f"""        '{command} -'*) _grove_words '{all_words(of.options())}' "$word" ;;""")
        if any(argument.value() in FILES for argument in of.arguments()):
            words.append(f"""        '{command} '*) _grove_files "$word" ;;""")
    words.append(f"""        ' -'*) _grove_words '{all_words(helps.program.options())}' "$word" ;;""")
    commands = " ".join(entry.name for entry in helps.program.entries("Commands"))
    words += [f"""        ' '* | 'help '*) _grove_words '{commands}' "$word" ;;"""]
    return BASH.replace("@VALUES@", "\n".join(values)).replace("@WORDS@", "\n".join(words))


def all_words(options: list[Entry]) -> str:
    return " ".join(word for option in options for word in option.words())


def in_zsh(helps: Helps) -> str:
    commands = "\n".join(
        f"        {quoted(entry.name + ':' + entry.text.replace(':', chr(92) + ':'))}"
        for entry in helps.program.entries("Commands")
    )
    cases = "\n".join(
        f"        {command}) _arguments {' '.join(map(zsh_of, [*of.options(), *of.arguments()]))} ;;"
        for command, of in helps.commands.items()
    )
    cases += "\n        help) _arguments '1:command:_grove_commands' ;;"
    options = " ".join(map(zsh_of, helps.program.options()))
    return ZSH.replace("@OPTIONS@", options).replace("@COMMANDS@", commands).replace("@CASES@", cases)


def zsh_of(entry: Entry) -> str:
    """An argument or an option, as `_arguments` of zsh wants it."""
    value, words = entry.value(), entry.words()
    action = f":{value}:{'_files' if value in FILES else ' '}" if value else ""
    if not words:
        return quoted(f"{'*' if entry.name.endswith('...') else ''}{action}")
    text = f"[{in_brackets(entry.text)}]"
    if value:
        signs = {word: "=" if word.startswith("--") else "+" for word in words}
        return " ".join(quoted(f"{word}{sign}{text}{action}") for word, sign in signs.items())
    return " ".join(quoted(f"({' '.join(words)}){word}{text}") for word in words)


def in_brackets(text: str) -> str:
    return "".join(f"\\{sign}" if sign in "[]:\\" else sign for sign in text)


def quoted(text: str) -> str:
    """In single quotes of a shell."""
    return "'" + text.replace("'", "'\\''") + "'"
