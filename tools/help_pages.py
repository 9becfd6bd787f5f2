#!/usr/bin/env python3
"""Writes manual pages and completions of shells for the program `vx`, made of what it says itself by `vx --help` and
`vx COMMAND --help`, as tools/install.sh installs them below share/:

    man/man1/vx.1, vx-COMMAND.1                 for `man`
    bash-completion/completions/vx              for bash
    zsh/site-functions/_vx                      for zsh
    fish/vendor_completions.d/vx.fish           for fish

usage: tools/help_pages.py PROGRAM FOLDER       FOLDER is the one of share/
"""
import dataclasses
import pathlib
import re
import subprocess
import sys

# A line of a list: what is given, and behind two blanks or more what that is.
ITEM = re.compile(r" {2,}(\S.*?)(?: {2,}(.*))?")
CHOICES = re.compile(r" \[possible values: (.*)\]")
VALUE = re.compile(r" <(.*)>$")
MADE = "Made of the program's own help by tools/help_pages.py."


@dataclasses.dataclass
class Item:
    """An option, an argument or a command: its names, the value that it takes or nothing, and what it is."""

    names: list
    value: str
    text: str
    choices: list

    @property
    def takes_file(self):
        return self.value == "FILE"


@dataclasses.dataclass
class Help:
    """What the program says of one command, or with no name of itself."""

    name: str
    about: str
    usage: str
    lists: dict
    texts: list
    examples: str

    @property
    def options(self):
        return self.lists.get("Options", [])


def item(line):
    """The item of a line of a list."""
    given, text = ITEM.fullmatch(line).groups()
    value = VALUE.search(given)
    choices = CHOICES.search(text)
    return Item(VALUE.sub("", given).split(", "), value[1] if value else "", text, choices[1].split(", ") if choices else [])


def read_help(program, name):
    """What the program says of the command."""
    words = [program, *name.split(), "--help"]
    said = subprocess.run(words, capture_output=True, text=True, check=True).stdout
    about, usage, *parts = said.strip("\n").split("\n\n")
    found = Help(name, about, usage.removeprefix("Usage: "), {}, [], "")
    for part in parts:
        head, _, rest = part.partition("\n")
        if head in ("Commands:", "Arguments:", "Options:"):
            found.lists[head[:-1]] = [item(line) for line in rest.splitlines()]
        elif head in ("Example:", "Examples:"):
            found.examples = rest
        else:
            found.texts.append(part)
    return found


def roff(text):
    """The text as it stands, for groff."""
    text = text.replace("\\", "\\e").replace("-", "\\-").replace("'", "\\(aq").replace("`", "\\(ga").replace("^", "\\(ha")
    return re.sub(r"^(?=[.])", r"\\&", text.replace("~", "\\(ti"), flags=re.MULTILINE)


def manual_page(it, commands, version):
    """The manual page of the command, or that of the program, which names those of its commands."""
    title = "-".join(["vx", *it.name.split()])
    about = it.about[0].lower() + it.about[1:].rstrip(".")
    lines = [f'.\\" {MADE}', f'.TH {title.upper()} 1 "" "{version}" "User Commands"']
    lines += [".SH NAME", f"{roff(title)} \\- {roff(about)}", ".SH SYNOPSIS", roff(it.usage)]
    lines += [".SH DESCRIPTION", "\n.PP\n".join(map(roff, [it.about.rstrip(".") + ".", *it.texts]))]
    for heading, items in it.lists.items():
        lines.append(f".SH {heading.upper()}")
        for each in items:
            names = ", ".join(f"\\fB{roff(name)}\\fR" for name in each.names)
            lines += [".TP", names + (f" <\\fI{roff(each.value)}\\fR>" if each.value else ""), roff(each.text)]
    if it.examples:
        lines += [".SH EXAMPLES", ".nf", roff(it.examples), ".fi"]
    others = [f"vx\\-{name}(1)" for name in commands] if not it.name else ["vx(1)"]
    return "\n".join([*lines, ".SH SEE ALSO", ", ".join(others), ""])


def quoted(text):
    """A word of any of the shells."""
    return "'" + text.replace("'", "'\\''") + "'"


def words_of(it):
    return " ".join(name for option in it.options for name in option.names)


def bash(whole, commands):
    lines = [f"# {MADE}", "_vx() {", '    local word=${COMP_WORDS[COMP_CWORD]} words=""']
    lines += ['    case "${COMP_WORDS[1]} ${COMP_WORDS[COMP_CWORD - 1]}" in']
    for it in commands.values():
        for option in it.options:
            if option.choices:
                names = "|".join(f'"{it.name} {name}"' for name in option.names)
                lines.append(f'    {names}) words="{" ".join(option.choices)}" ;;')
    for it in commands.values():
        lines.append(f'    "{it.name} "*) [[ $word == -* ]] && words="{words_of(it)}" ;;')
    lines += ["    esac", f'    [[ $COMP_CWORD == 1 ]] && words="{" ".join(commands)} {words_of(whole)}"']
    lines += ['    mapfile -t COMPREPLY < <(compgen -W "$words" -- "$word")', "}"]
    return "\n".join([*lines, "complete -o bashdefault -o default -F _vx vx", ""])


def zsh(whole, commands):
    def described(text):
        return re.sub(r"([\[\]:\\])", r"\\\1", text)

    def given(option):
        action = "_files" if option.takes_file else f"({' '.join(option.choices)})"
        value = f":{option.value}:{action if action != '()' else ''}" if option.value else ""
        return [quoted(f"{name}[{described(option.text)}]{value}") for name in option.names]

    lines = ["#compdef vx", f"# {MADE}", "local -a subcommands=("]
    lines += [f"    {quoted(it.name + ':' + it.about)}" for it in commands.values()]
    lines += [")", "if (( CURRENT == 2 )); then", "    _describe command subcommands", "    _arguments \\"]
    lines += [f"        {' '.join(word for option in whole.options for word in given(option))}", "    return", "fi"]
    lines += ["shift words", "(( CURRENT-- ))", "case $words[1] in"]
    for it in commands.values():
        lines.append(f"{it.name})\n    _arguments \\")
        lines += [f"        {word} \\" for option in it.options for word in given(option)]
        lines += ["        '*:expression:' ;;"]
    return "\n".join([*lines, "esac", ""])


def fish(whole, commands):
    def given(when, option):
        names = " ".join(f"-l {name[2:]}" if name.startswith("--") else f"-s {name[1:]}" for name in option.names)
        value = " -x -a " + quoted(" ".join(option.choices)) if option.choices else " -r" if option.takes_file else " -x"
        return f"complete -c vx -n {quoted(when)} {names}{value if option.value else ''} -d {quoted(option.text)}"

    first, lines = "__fish_use_subcommand", [f"# {MADE}"]
    lines += [f"complete -c vx -f -n {first} -a {it.name} -d {quoted(it.about)}" for it in commands.values()]
    lines += [given(first, option) for option in whole.options]
    for it in commands.values():
        lines += [given(f"__fish_seen_subcommand_from {it.name}", option) for option in it.options]
    return "\n".join([*lines, ""])


def main():
    if len(sys.argv) != 3:
        sys.exit(__doc__.rsplit("\n", 2)[1])
    program, folder = sys.argv[1], pathlib.Path(sys.argv[2])
    version = subprocess.run([program, "--version"], capture_output=True, text=True, check=True).stdout.strip()
    whole = read_help(program, "")
    names = [each.names[0] for each in whole.lists["Commands"] if each.names[0] != "help"]
    commands = {name: read_help(program, name) for name in names}
    pages = {f"man/man1/{'-'.join(['vx', *it.name.split()])}.1": manual_page(it, commands, version) for it in [whole, *commands.values()]}
    pages["bash-completion/completions/vx"] = bash(whole, commands)
    pages["zsh/site-functions/_vx"] = zsh(whole, commands)
    pages["fish/vendor_completions.d/vx.fish"] = fish(whole, commands)
    for path, page in pages.items():
        (folder / path).parent.mkdir(parents=True, exist_ok=True)
        (folder / path).write_text(page, encoding="utf-8")


if __name__ == "__main__":
    main()
