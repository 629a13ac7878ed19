#!/usr/bin/env python3
"""Writes the man page and the shell completions of pdb_symbolizer, from the output of --help.

Usage: pages.py PROGRAM PAGE VERSION DATE FOLDER

PAGE is the man page with @OPTIONS@ and @EXAMPLES@ on lines of their own, and with @VERSION@ and @DATE@. FOLDER gets
pdb_symbolizer.1, pdb_symbolizer.bash, pdb_symbolizer.zsh and pdb_symbolizer.fish.
"""
import pathlib
import re
import subprocess
import sys
from typing import NamedTuple, Optional

NAME = "pdb_symbolizer"
OPTION = re.compile(r"  (?:-(\w), )? *--([\w-]+)(?:(?:\[=| )<(\w+)>\]?)? {2,}(.*)")
FOLDERS, FILES = ("DIR", "FOLDER"), ("FILE", "RECORDS")


class Option(NamedTuple):
    short: Optional[str]
    name: str
    value: Optional[str]
    after_equals: bool
    help: str

    def choices(self):
        """Returns the values that the help lists after a colon, for an option with a STYLE."""
        listed = self.help.partition(": ")[2] if self.value == "STYLE" else ""
        return re.split(r", | or ", listed) if listed else []


def read_help(program):
    """Returns the options in the help of a program, and its examples. Each has its description."""
    text = subprocess.run([program, "--help"], capture_output=True, text=True, check=True).stdout
    found = [OPTION.fullmatch(line) for line in text.partition("\nOptions:\n")[2].splitlines()]
    if None in found or not found:
        sys.exit(f"pages.py: {program} --help has a line of options in another form")
    options = [Option(each[1], each[2], each[3], f"--{each[2]}[=" in each[0], each[4]) for each in found]
    examples = re.findall(rf"^  ({NAME} .*?) {{2,}}(.*)$", text, re.M)
    return options, examples


def roff(text):
    return text.replace("\\", "\\e").replace("-", "\\-")


def man_option(option):
    names = ([f"-{option.short}"] if option.short else []) + [f"--{option.name}"]
    shown = ", ".join(f"\\fB{roff(name)}\\fR" for name in names)
    if option.value:
        value = f"\\fI{option.value}\\fR"
        shown += f"[={value}]" if option.after_equals else f" {value}"
    return f".TP\n{shown}\n{roff(option.help)}.\n"


def man_page(page, version, date, options, examples):
    shown = "".join(f".PP\n{roff(said[0].upper() + said[1:])}:\n.PP\n.RS 4\n.nf\n{roff(command)}\n.fi\n.RE\n"
                    for command, said in examples)
    texts = {"@OPTIONS@\n": "".join(map(man_option, options)), "@EXAMPLES@\n": shown, "@VERSION@": version,
             "@DATE@": date}
    for mark, text in texts.items():
        page = page.replace(mark, text)
    return page


def bash(options):
    def named(values):
        return "|".join(f"--{option.name}" for option in options if option.value in values)

    cases = [f"    --{option.name}) words='{' '.join(option.choices())}' ;;" for option in options if option.choices()]
    cases += [f"    {named(FOLDERS)}) COMPREPLY=($(compgen -d -- \"$word\")); return ;;",
              f"    {named(FILES)}) ;;"]
    every = " ".join(f"--{option.name}" for option in options)
    return "\n".join([
        f"_{NAME}() {{", "    local word=${COMP_WORDS[COMP_CWORD]} before=${COMP_WORDS[COMP_CWORD-1]} words=",
        "    [ \"$before\" = = ] && before=${COMP_WORDS[COMP_CWORD-2]}", "    [ \"$word\" = = ] && word=",
        "    case $before in", *cases, f"    *) case $word in -*) words='{every}' ;; esac ;;", "    esac",
        "    if [ -n \"$words\" ]; then", "        COMPREPLY=($(compgen -W \"$words\" -- \"$word\"))",
        "    else", "        COMPREPLY=($(compgen -f -- \"$word\"))", "    fi", "}",
        f"complete -o filenames -F _{NAME} {NAME}", ""])


def zsh(options):
    def action(option):
        if not option.value:
            return ""
        kind = "_files -/" if option.value in FOLDERS else "_files" if option.value in FILES else " "
        return f":{option.value}:" + (f"({' '.join(option.choices())})" if option.choices() else kind)

    lines = []
    for option in options:
        said = option.help.replace("'", "").replace("[", "(").replace("]", ")").replace(":", "\\:")
        ends = "=-" if option.after_equals else "=" if option.value else ""
        optional = ":" if option.after_equals else ""
        lines.append(f"    '*--{option.name}{ends}[{said}]{optional}{action(option)}' \\")
    return "\n".join([f"#compdef {NAME}", "_arguments \\", *lines, "    '*:file or address:_files'", ""])


def fish(options):
    lines = []
    for option in options:
        words = [f"complete -c {NAME} -l {option.name}"]
        words += [f"-s {option.short}"] if option.short else []
        words += [f"-x -a '{' '.join(option.choices())}'"] if option.choices() else ["-r"] if option.value else []
        lines.append(" ".join([*words, "-d", "'" + option.help.replace("'", "") + "'"]))
    return "\n".join([*lines, ""])


def main(program, page, version, date, folder):
    options, examples = read_help(program)
    page = man_page(pathlib.Path(page).read_text(), version, date, options, examples)
    texts = {"1": page, "bash": bash(options), "zsh": zsh(options), "fish": fish(options)}
    for ending, text in texts.items():
        (pathlib.Path(folder) / f"{NAME}.{ending}").write_text(text)


if __name__ == "__main__":
    if len(sys.argv) != 6:
        sys.exit(__doc__)
    main(*sys.argv[1:])
