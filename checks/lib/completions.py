"""Completions of a program's arguments in bash, zsh and fish, written from its table."""
import textwrap

BY = "Written by checks/write-arguments."
# How the shells complete what a value is; of a word, a number and a text they have another way.
IN_BASH = {"file": "-f", "folder": "-d"}
IN_ZSH = {"file": "_files", "folder": "_directories"}
IN_FISH = {"file": "-r -F", "folder": "-x -a '(__fish_complete_directories)'"}


def quoted(text):
    """A text between single quotes, as bash and zsh read it."""
    return "'" + text.replace("'", "'\\''") + "'"


def wrapped(words, indent):
    """Words between single quotes, which go on in further lines where they are too many for one."""
    return "'" + f"\n{' ' * indent}".join(textwrap.wrap(" ".join(words), 100, break_on_hyphens=False)) + "'"


def in_bash(program):
    """The completion of a program in bash: a function for each command, and one that finds the command."""
    name = "_" + program.name.replace("-", "_")
    lines = [f"# Completion of {program.name}'s arguments in bash. {BY}"]
    for command in program.commands:
        lines += [f"{name}_{command.name}() {{", *bash_of_values(command), *bash_of_words(command), "}", ""]
    lines += [f"{name}() {{", "    local word=${COMP_WORDS[COMP_CWORD]}"]
    lines += bash_of_commands(program, name) if program.commands else bash_of_words(program)
    return "\n".join([*lines, "}", f"complete -o filenames -F {name} {program.name}", ""])


def bash_of_commands(program, name):
    """The lines that call a command's function, or complete the commands."""
    words = [it.name for it in program.commands] + [it.option() for it in program.options()]
    calls = [f"    *:{it.name}) {name}_{it.name} ;;" for it in program.commands]
    before, case = "    local before=${COMP_WORDS[COMP_CWORD - 1]}", "    case $COMP_CWORD:${COMP_WORDS[1]} in"
    first = f"    1:*) COMPREPLY=($(compgen -W {wrapped(words, 8)} -- \"$word\")) ;;"
    return [before, case, first, *calls, "    *) COMPREPLY=() ;;", "    esac"]


def bash_of_values(command):
    """The lines that complete the value behind an option."""
    arms = {}
    for it in command.options():
        if it.value:
            how = f"-W {quoted(' '.join(it.words))}" if it.words else IN_BASH.get(it.kind)
            arms.setdefault(f'($(compgen {how} -- "$word"))' if how else "()", []).append(it.option())
    lines = [f"    {' | '.join(options)}) COMPREPLY={found}; return ;;" for found, options in arms.items()]
    return ["    case $before in", *lines, "    esac"]


def bash_of_words(command):
    """The lines that complete an option's name, or a word that has none. Of several such words the first alone is a file."""
    options, how = wrapped([it.option() for it in command.options()], 12), IN_BASH[command.words()[0].kind]
    rest = "    else" if len(command.words()) == 1 else '    elif [ "$COMP_CWORD" -eq 1 ]; then'
    lines = ["    if [[ $word == -* ]]; then", f'        COMPREPLY=($(compgen -W {options} -- "$word"))', rest]
    return ["    COMPREPLY=()", *lines, f'        COMPREPLY=($(compgen {how} -- "$word"))', "    fi"]


def in_zsh(program):
    """The completion of a program in zsh."""
    head = [f"#compdef {program.name}", f"# Completion of {program.name}'s arguments in zsh. {BY}"]
    if not program.commands:
        return "\n".join([*head, "_arguments \\", *zsh_of_arguments(program, 4), ""])
    listed = [f"    {quoted(f'{it.name}:{it.about}')}" for it in program.commands]
    own = [*zsh_of_arguments(program, 4), "    '1: :->command' '*:: :->rest'"]
    own[-2] += " \\"
    lines = [*head, "local -a commands", "commands=(", *listed, ")", "_arguments -C \\", *own, "case $state in"]
    lines += ["command) _describe command commands ;;", "rest)", "    case $words[1] in"]
    for command in program.commands:
        lines += [f"    {command.name})", "        _arguments \\", *zsh_of_arguments(command, 12), "        ;;"]
    return "\n".join([*lines, "    esac", "    ;;", "esac", ""])


def zsh_of_arguments(command, indent):
    """The lines of `_arguments`, the words without names last."""
    found = [zsh_of_option(it) for it in command.options()]
    for place, it in enumerate(command.words(), 1):
        found.append(quoted(f"{'*' if it.is_many else place}:{it.value}:{IN_ZSH.get(it.kind, '')}"))
    return textwrap.indent(" \\\n".join(found), " " * indent).split("\n")


def zsh_of_option(option):
    """What `_arguments` takes of an option."""
    told = "[" + option.help.replace("]", "\\]") + "]"
    if option.letter:
        long, short = option.option(), f"-{option.letter}"
        return f"'({short} {long})'{{{short},{long}}}{quoted(told)}"
    how = f"({' '.join(option.words)})" if option.words else IN_ZSH.get(option.kind, "")
    return quoted(("*" if option.is_many else "") + option.option() + told + (f":{option.value}:{how}" if option.value else ""))


def in_fish(program):
    """The completion of a program in fish. An option that several commands have alike is one line."""
    begin = f"complete -c {program.name}"
    first = f"{begin} -n __fish_use_subcommand" if program.commands else begin
    lines = [f"# Completion of {program.name}'s arguments in fish. {BY}"]
    lines += [f"{first} -f -a {it.name} -d {fish_quoted(it.about)}" for it in program.commands]
    lines += [f"{first} {fish_of_option(it)}" for it in program.options()]
    commands_of = {}
    for command in program.commands:
        for it in command.options():
            commands_of.setdefault(fish_of_option(it), []).append(command.name)
    lines += [f"{begin} -n '__fish_seen_subcommand_from {' '.join(names)}' {it}" for it, names in commands_of.items()]
    return "\n".join([*lines, ""])


def fish_of_option(option):
    """What `complete` takes of an option."""
    how = f"-x -a {fish_quoted(' '.join(option.words))}" if option.words else IN_FISH.get(option.kind, "-x" if option.value else "")
    letter = f"-s {option.letter}" if option.letter else ""
    return " ".join(filter(None, [how, letter, f"-l {option.name}", f"-d {fish_quoted(option.help)}"]))


def fish_quoted(text):
    """A text between single quotes, as fish reads it."""
    return "'" + text.replace("\\", "\\\\").replace("'", "\\'") + "'"
