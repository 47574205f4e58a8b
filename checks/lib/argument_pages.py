"""What pages say of a program's arguments: its manual page, the table of options in docs/TOOL.md, and what `--help` shows."""
import re
import textwrap

from command_line import listed

# What a help says in code: options, and a sample of a template.
CODE = re.compile(r"--[\w-]+(?:=\w+)?|\{\{.*?\}\}(?:\.\w+)*")
# What is said of other arguments, by the field that has them.
OTHERS = (("unless", "It is required, unless {} is there", "or"), ("needs", "Only with {}", "and"), ("excludes", "Not with {}", "or"))


def sentences(argument):
    """Returns what the table says of an argument, in sentences: its help, its words, and what has to be there with it."""
    told = [argument.help]
    if argument.words:
        told.append("One of " + listed(argument.words, "or"))
    if argument.kind == "number":
        told.append("A whole number")
    if argument.name and argument.is_many:
        told.append("It may be there several times")
    if argument.name and argument.is_required:
        told.append("It is required")
    told += [begin.format(listed(getattr(argument, field), last)) for field, begin, last in OTHERS if getattr(argument, field)]
    return ". ".join(told) + "."


def escaped(text):
    """A text as roff reads it: a hyphen stays one, and no line begins as a request does."""
    return re.sub(r"^([.'])", r"\\&\1", text.replace("\\", "\\e").replace("-", "\\-"), flags=re.M)


def filled(text):
    """Lines of roff that have a text."""
    return [escaped(line) for line in textwrap.wrap(text, 76, break_on_hyphens=False)]


def entry(argument):
    """The lines of an argument on the manual page."""
    if not argument.name:
        return [".TP", f".I {escaped(argument.value)}" + (" ..." if argument.is_many else ""), *filled(sentences(argument))]
    if argument.letter:
        return [".TP", f'.BR \\-{argument.letter} ", " {escaped(argument.option())}', *filled(sentences(argument))]
    value = f'I {escaped(argument.option())} " {escaped(argument.value)}"' if argument.value else f" {escaped(argument.option())}"
    return [".TP", f".B{value}", *filled(sentences(argument))]


def call(program, command):
    """The lines of the synopsis for a command, or for a program without commands."""
    words = [program.name] + ([command.name] if command is not program else [])
    required = [it for it in command.options() if it.is_required]
    lines = [".B " + escaped(" ".join(words))]
    lines += [".RI [ OPTIONS ]"] if any(it.value for it in command.options()) else []
    for it in required:
        lines += [f".B {escaped(it.option())}", f".I {escaped(it.value)}"]
    for it in command.words():
        lines.append(f".I {it.value}" if it.is_required else f".RI [ {it.value} ]...")
    return [*lines, ".br"]


def page(program, version, prose):
    """The manual page of a program: what its table has, then prose."""
    brief, about = program.about[0].lower() + program.about[1:], [*filled(program.about + ".")]
    lines = [f'.\\" Written by checks/write-arguments; its prose is checks/arguments/{program.name}.1.']
    lines += [f'.TH {program.name.upper()} 1 "" "{program.name} {version}" "User Commands"', ".SH NAME"]
    lines += [f"{escaped(program.name)} \\- {escaped(brief)}", ".SH SYNOPSIS"]
    lines += [line for command in program.commands or [program] for line in call(program, command)]
    own = " | ".join(it.option() for it in program.options())
    lines += [f".B {escaped(program.name)}", f".RB {{ {escaped(own).replace(' | ', ' | ')} }}"]
    lines += [".SH DESCRIPTION", *about]
    lines += [line for it in [*program.words(), *program.options()] for line in entry(it)]
    for command in program.commands:
        lines += [f".SH {command.name.upper()}", *filled(command.about + ".")]
        lines += [line for it in [*command.words(), *command.options()] for line in entry(it)]
    return "\n".join(lines) + "\n" + prose


def in_markdown(text):
    """A text in a cell of a table."""
    return CODE.sub(r"`\g<0>`", text.replace("|", "\\|"))


def table(program):
    """The table of the options of a program's commands: what several commands have alike is one row, rows of a name are together."""
    rows = {}
    for command, it in ((command, it) for command in program.commands for it in command.options() if not it.letter):
        call = f"{it.option()} {it.value}".rstrip()
        rows.setdefault(it.name, {}).setdefault((call, in_markdown(sentences(it))), []).append(f"`{command.name}`")
    alike = [(call, ", ".join(names), says) for found in rows.values() for (call, says), names in found.items()]
    lines = [f"| `{call}` | {names} | {says} |" for call, names, says in alike]
    return "\n".join(["| option | commands | what it does |", "|---|---|---|", *lines, ""])


def usage(program, command):
    """What comes behind `Usage:` in the help of a command, or of the program."""
    if command is program:
        return f"{program.name} <COMMAND>"
    required = [f"{it.option()} <{it.value}>" for it in command.options() if it.is_required]
    return " ".join([program.name, command.name, "[OPTIONS]", *required, *map(word, command.words())])


def word(argument):
    """How the help shows a word without a name."""
    return (f"<{argument.value}>" if argument.is_required else f"[{argument.value}]") + ("..." if argument.is_many else "")


def block(heading, rows):
    """A part of the help: rows in two columns below a heading, if there are rows."""
    width = max((len(left) for left, _ in rows), default=0)
    return ["", f"{heading}:", *(f"  {left:<{width}}  {right}" for left, right in rows)] if rows else []


def option_row(option):
    """The row of an option in the help."""
    left = (f"-{option.letter}, " if option.letter else "    ") + option.option() + (f" <{option.value}>" if option.value else "")
    return left, option.help + (f" [possible values: {', '.join(option.words)}]" if option.words else "")


def shown(program, command):
    """What a command, or the program, has to show for `--help`."""
    lines = [command.about, "", f"Usage: {usage(program, command)}"]
    lines += block("Commands", [(it.name, it.about) for it in command.commands])
    lines += block("Arguments", [(word(it), it.help) for it in command.words()])
    return "\n".join([*lines, *block("Options", [option_row(it) for it in command.options()]), ""])
