#!/usr/bin/env python3
"""tools/usage.py [--check] [--program=FILE | --sources]

Writes what tells of the program's words, all of it from tools/commands.tsv: the usage that tools/leancop-explain shows, the man
page and the completion of bash (tools/generated/). The program is asked which commands, options and values of the table it knows,
so what it does not know is left out. --check writes nothing, and ends with 1 where the files are not those of this program, where
it refuses a value of the table or takes a number next to its bounds, or where its sources have a command or an option that the table
lacks. --sources asks the table of crates/command_line in place of the program, where that is not built yet."""
from __future__ import annotations

import glob
import os
import re
import subprocess
import sys

Row = list  # of the table: the fields of a line
HERE = os.path.dirname(os.path.abspath(__file__))
GENERATED = os.path.join(HERE, "generated")
PROGRAM = os.path.join(HERE, "../crates/leancop/out/leancop")
SOURCE = os.path.join(HERE, "../crates/command_line/src/table.rt")


def read_table() -> list[list[Row]]:
    with open(os.path.join(HERE, "commands.tsv")) as table:
        rows = [line.rstrip("\n").split("\t") for line in table if not line.startswith("#")]
    return [[row[1:] for row in rows if row[0] == kind] for kind in ("command", "operand", "option", "status")]


def read_version() -> str:
    with open(os.path.join(HERE, "../VERSION")) as version:
        return version.read().strip()


class Asked:
    """The program, which tells by its first bad word what it knows. A word that is no operand is looked at before any is missed."""
    checks_values = True

    def __init__(self, program: str) -> None:
        self.program = program

    def first_bad(self, *words: str) -> int:
        told = subprocess.run([self.program, *words], stdin=subprocess.DEVNULL, stdout=subprocess.PIPE, text=True).stdout
        if not told.startswith("bad word "):
            sys.exit("usage.py: %s answers %r to %s" % (self.program, told[:60], " ".join(words)))
        return int(told.split()[2])

    def knows(self, *words: str) -> bool:
        return self.first_bad(*words) > len(words)

    def takes(self, *words: str) -> bool:
        """As knows, where the words are a whole command, which is not run: one more is bad."""
        return self.first_bad(*words, "--none") > len(words)


class Sources:
    """What the program will know, by its own table. Values are not looked at."""
    checks_values = False

    def __init__(self) -> None:
        with open(SOURCE, encoding="utf-8") as source:
            text = source.read()
        self.commands = dict(re.findall(r'"([a-z]+)" => Some\(CommandName::(\w+)\)', text))
        fronts = {name: front for name, front in re.findall(r'OptionName::(\w+) => "(--[a-z]+=)"', text)}
        self.options = {name: {fronts[o] for o in re.findall(r"OptionName::(\w+)", body)}
                        for name, body in self.arms(text, "options_of", "CommandName", r"(?:\{\s*)?&\[[^]]*\]").items()}
        if not (self.commands and fronts and self.options):
            sys.exit("usage.py: crates/command_line/src/table.rt has another shape than this script reads")

    @staticmethod
    def arms(text: str, function: str, kind: str, right: str) -> dict[str, str]:
        """The arms of a match: each name on the left, with what stands on the right."""
        head = re.search(r"\nfn %s|\npub fn %s" % (function, function), text)
        body = text[head.end():text.index("\n}\n", head.end())] if head else ""
        found = re.findall(r"((?:%s::\w+[\s|]*)+)=> (%s)" % (kind, right), body)
        return {name: told for names, told in found for name in re.findall(kind + r"::(\w+)", names)}

    def knows(self, command: str, option: str | None = None) -> bool:
        name = self.commands.get(command)
        return name in self.options and (option is None or option[:option.index("=") + 1] in self.options[name])


def values_of(option: Row) -> tuple[list[str], list[str]]:
    """Values that are taken, and some that are not."""
    return values_named(option[4])


def values_named(values: str) -> tuple[list[str], list[str]]:
    if values == "folder":
        return ["x"], [""]
    if ".." in values:
        least, most = map(int, values.split(".."))
        return [str(least), str(most)], [str(least - 1), str(most + 1), "0" + str(most), ""]
    return values.split(), ["x", ""]


def known(asked: Asked | Sources, faults: list[str]) -> tuple[list[Row], list[Row], list[Row], list[Row]]:
    """The table without what the program does not know."""
    commands, operands, options, statuses = read_table()
    commands = [c for c in commands if asked.knows(c[0])]
    for name, command, _, values in operands if isinstance(asked, Asked) else []:
        before = ["chain"] if name == "N" else []
        good, bad = values_named(values)
        taken = {v for v in [*good, *bad] if isinstance(asked, Asked) and asked.takes(command, *before, v)}
        faults += ["%s refuses %s as %s" % (command, v, name) for v in good if v not in taken]
        faults += ["%s takes %s as %s" % (command, v, name) for v in bad if v in taken]
    kept = []
    for option in options:
        good, bad = values_of(option)
        has = [c[0] for c in commands if asked.knows(c[0], option[0] + good[0])]
        faults += ["%s has %s, and the table says other" % (c, option[0]) for c in has if c not in option[2].split()]
        for command in has:
            faults += ["%s refuses %s%s" % (command, option[0], v) for v in good if not asked.knows(command, option[0] + v)]
            faults += ["%s takes %s%s" % (command, option[0], v) for v in bad if asked.checks_values and asked.knows(command, option[0] + v)]
        if has:
            kept.append(option[:2] + [has] + option[3:])
    names = [c[0] for c in commands]
    return commands, operands, kept, [s for s in statuses if set(s[2].split()) & set(names)]


def synopsis(command: Row, options: list[Row]) -> tuple[str, str, list[str]]:
    return command[0], command[1], ["[%s%s]" % (o[0], o[1]) for o in options if command[0] in o[2]]


def told_values(option: Row) -> str:
    """For people: the values, and which holds without the option."""
    if option[4] == "folder":
        return "without it, " + option[5]
    values = option[4].replace("..", " to ") if ".." in option[4] else option[4].replace(" ", ", ")
    return values if option[5] == "none" else "%s (without it %s)" % (values, option[5])


def usage(commands: list[Row], operands: list[Row], options: list[Row]) -> str:
    """A paragraph for all commands, and one for each."""
    wide = max(len(c[0] + c[1]) for c in commands) + 1
    told = [["leancop COMMAND OPERAND.. [OPTION..]", *("  %-*s  %s" % (wide, c[0] + " " + c[1], c[2]) for c in commands),
             "leancop help COMMAND tells the options of a command, leancop --version the version."]]
    for c in commands:
        rows = [(o[0], told_operand(o)) for o in operands if o[1] == c[0]]
        rows += [(o[0] + o[1], "%s: %s" % (o[3], told_values(o))) for o in options if c[0] in o[2]]
        wide = max(len(name) for name, _ in rows)
        told.append(["leancop %s %s [OPTION..]" % (c[0], c[1]), c[2], *("  %-*s  %s" % (wide, *row) for row in rows)])
    return "\n\n".join("\n".join(lines) for lines in told) + "\n"


def told_operand(operand: Row) -> str:
    values = operand[3].replace("..", " to ") if ".." in operand[3] else operand[3].replace(" ", ", ")
    return "%s: %s" % (operand[2], values)


def escaped(text: str) -> str:
    return text.replace("\\", "\\e").replace("-", "\\-")


def man(commands: list[Row], operands: list[Row], options: list[Row], statuses: list[Row]) -> str:
    out = [".\\\" Written by tools/usage.py.", '.TH LEANCOP 1 "" "leancop %s"' % read_version(), ".SH NAME",
           "leancop \\- prove formulas of first\\-order logic, and judge derivations", ".SH SYNOPSIS"]
    for c in commands:
        name, taken, words = synopsis(c, options)
        out += [".B leancop " + name, ".I " + taken, escaped(" ".join(words)), ".br"]
    out += [".SH DESCRIPTION",
            "Problems are texts of TPTP (fof and cnf items) or, with a modal logic, of QMLTP (qmf items).",
            "Standard output has the answer, and nothing is written to standard error."]
    for c in commands:
        out += [".TP", ".BI %s \" %s\"" % (c[0], c[1]), escaped(c[2]) + "."]
        out += ["%s is %s." % (o[0], escaped(told_operand(o))) for o in operands if o[1] == c[0]]
    out += [".PP", "Without words, and with", ".BR help ,", ".B help", ".IR COMMAND ,", ".B \\-\\-help", "or", ".BR \\-\\-version ,",
            "the installed leancop and that of a checkout tell of themselves."]
    out += [".SH OPTIONS", "They stand anywhere behind the command, each at most once."]
    for o in options:
        out += [".TP", ".BI %s %s" % (escaped(o[0]), o[1]), escaped("%s: %s." % (o[3], told_values(o)))]
    out += [".SH EXIT STATUS"]
    for status in statuses:
        out += [".TP", ".B " + status[0], escaped(status[1])]
    out += [".SH EXAMPLES", ".EX", "leancop prove group.p > d.txt && leancop check group.p d.txt",
            "leancop prove \\-\\-logic=s4 \\-\\-domains=varying barcan.p", "leancop prove /dev/stdin < group.p",
            "leancop prove \\-\\-root=$HOME/TPTP $HOME/TPTP/Problems/GRP/GRP001\\-1.p", ".EE", ".SH COMPANIONS",
            ".TP", ".B leancop\\-play", "opens a page in the browser to type formulas into, as in a book.",
            ".TP", ".BI leancop\\-explain \" WORD ...\"", "runs the program, and says on standard error what its answer means.",
            ".TP", ".BI leancop\\-view \" PROBLEM TEXT\" \" > \" PAGE.html", "draws an accepted text as a page for a browser.",
            ".TP", ".BI leancop\\-refute \" PROBLEM\"", "finds a finite structure in which the formula is false, by a SAT solver.",
            ".TP", ".BI leancop\\-decide \" PROBLEM\"", "looks for a proof and for such a structure at once.",
            ".TP", ".BI leancop\\-szs \" PROBLEM\" \" [\\-\\-time=\" SECONDS \"] [\\-\\-schedule]\"", "tells the answer as an SZS status.",
            ".TP", ".BI leancop\\-coq \" PROBLEM DERIVATION\" \" > \" FILE.v", "prints an accepted derivation as a theorem of Coq with its proof.",
            ".TP", ".BI leancop\\-tstp \" PROBLEM DERIVATION\" \" > \" FILE", "prints an accepted derivation of classical logic in TSTP.",
            ".PP", "They find the program by the environment variable LEANCOP, or by PATH."]
    return "\n".join(out) + "\n"


def completion(commands: list[Row], operands: list[Row], options: list[Row]) -> str:
    out = ["# Completion of bash for leancop. Written by tools/usage.py.", "_leancop() {",
           '    local word="${COMP_WORDS[COMP_CWORD]}" before="${COMP_WORDS[COMP_CWORD - 1]}" options=', "    COMPREPLY=()",
           '    if [ "$COMP_CWORD" = 1 ]; then',
           "        mapfile -t COMPREPLY < <(compgen -W '%s help --help --version' -- \"$word\")" % " ".join(c[0] for c in commands),
           "        return", "    fi",
           '    case "$COMP_CWORD ${COMP_WORDS[1]}" in',
           "    '2 help') mapfile -t COMPREPLY < <(compgen -W '%s' -- \"$word\"); return ;;" % " ".join(c[0] for c in commands),
           *("    '2 %s') mapfile -t COMPREPLY < <(compgen -W '%s' -- \"$word\"); return ;;" % (o[1], o[3])
             for o in operands if ".." not in o[3]), "    esac",
           "    # The value of an option is a word of its own here, as = parts words.",
           '    [ "$word" = = ] && word=', '    [ "$before" = = ] && before="${COMP_WORDS[COMP_CWORD - 2]}"', '    case "$before" in']
    for o in options:
        front = "    %s) " % o[0].rstrip("=")
        if o[4] == "folder":
            out.append(front + 'compopt -o filenames; mapfile -t COMPREPLY < <(compgen -d -- "$word"); return ;;')
        elif ".." in o[4]:
            out.append(front + "return ;;")
        else:
            out.append(front + "mapfile -t COMPREPLY < <(compgen -W '%s' -- \"$word\"); return ;;" % o[4])
    out += ["    esac", '    if [[ $word == -* ]]; then', '        case "${COMP_WORDS[1]}" in']
    for c in commands:
        out.append("        %s) options='%s' ;;" % (c[0], " ".join(o[0] for o in options if c[0] in o[2])))
    out += ["        esac", '        mapfile -t COMPREPLY < <(compgen -W "$options" -- "$word")', "        compopt -o nospace", "    else",
            "        compopt -o filenames", '        mapfile -t COMPREPLY < <(compgen -f -- "$word")', "    fi", "}",
            "complete -F _leancop leancop leancop-explain"]
    return "\n".join(out) + "\n"


def lacking() -> list[str]:
    """Commands and options that the program's sources name and the table does not."""
    named = set()
    for file in glob.glob(os.path.join(HERE, "../crates/*/src/*.rt")):
        with open(file, encoding="utf-8") as source:
            named |= set(re.findall(r'"(--[a-z]+=)"|"([a-z]+)" => Some\(CommandName::', source.read()))
    commands, _, options, _ = read_table()
    return sorted({a or b for a, b in named} - {row[0] for row in commands + options})


def main(words: list[str]) -> None:
    options = dict((w + "=").split("=")[:2] for w in words)
    if "--help" in options:
        print(__doc__)
        return
    if set(options) - {"--check", "--program", "--sources"}:
        sys.exit(__doc__)
    faults = ["the sources have %s, and the table does not" % o for o in lacking()]
    table = known(Sources() if "--sources" in options else Asked(options.get("--program") or PROGRAM), faults)
    files = {"usage.txt": usage(*table[:3]), "leancop.1": man(*table), "leancop.bash-completion": completion(*table[:3])}
    os.makedirs(GENERATED, exist_ok=True)
    for name, text in files.items():
        path = os.path.join(GENERATED, name)
        if "--check" not in options:
            with open(path, "w") as file:
                file.write(text)
            continue
        with open(path) as file:
            if file.read() != text:
                faults.append("tools/generated/%s is not of this program and table: run tools/usage.py" % name)
    for fault in faults:
        print("usage.py: " + fault)
    sys.exit(1 if faults else 0)


if __name__ == "__main__":
    main(sys.argv[1:])
