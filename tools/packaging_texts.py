"""The texts that only a package has: its manual pages and the completion for bash, of which those of `planner` are made
from its table of words, tools/front/words.bash; its changelog; and what Debian's tools ask for.
"""
import datetime
import email.utils
import re
import subprocess
import time
from collections import namedtuple

# The rows of the tables, as tuples: (program, words, what it does), (word, form, what it is), and pairs.
Words = namedtuple("Words", "programs commands options own statuses ranges")
TABLES = {"programs": 1, "commands": 3, "options": 3, "own": 2, "statuses": 2}
# What of the table a package has not: it has no sources.
OF_CLONES = ("--unproved", "--build")
INTRODUCTION = """.SH DESCRIPTION
.B planner
makes, judges and mends plans for a year of maintenance on a transmission grid: which works start when, whether the plan
keeps every rule on loads and exclusions, what mean risk and expected excess it carries, and how good any plan can be.
The problem is that of the ROADEF/EURO Challenge 2020. Every function of the programs behind it is proved to meet its
contract.
"""
END = """.SH FILES
.TP
.I /usr/share/doc/gadvresa
the pages and the examples: docs/GUIDE.md walks through the commands, docs/FORMATS.md has every format whole
.TP
.I /usr/lib/gadvresa/receipt
the commit, the kit, the sums of the sources and of the files, and the verdict on each crate
.SH OTHER PROGRAMS
.TP
.B planner\\-faults \\fIINSTANCE PLAN\\fR [slack=\\fID\\fR]
lists every load outside its limits and every clash of a plan
.TP
.B planner\\-picture \\fIINSTANCE PLAN PICTURE\\fR [slack=\\fID\\fR]
draws a year of a plan, as PNG or SVG; it needs python3\\-matplotlib
"""


# Who a package is by.
MAINTAINER = "Gadvresa maintainers <maintainers@users.noreply.gadvresa.example>"
# (stripped programs would not be those that the receipt and the proofs are of)
OVERRIDES = """# The programs have the bytes that were built behind their proofs, so nothing is stripped from them.
gadvresa: unstripped-binary-or-object [usr/lib/gadvresa/out/*]
"""
# (DPKG_ROOT is set where dpkg installs into a folder without entering it)
REMOVAL = """#!/bin/sh
# Removes what Python keeps of the modules that it has read, before their folders are to be removed.
set -e
for folder in usr/lib/gadvresa usr/lib/python3/dist-packages/gadvresa; do
    [ ! -d "$DPKG_ROOT/$folder" ] || find "$DPKG_ROOT/$folder" -depth -type d -name __pycache__ -exec rm -rf {} +
done
"""
# The manual pages of the other programs: what each is, its calls, what it does, and its statuses.
OTHERS = {
    "planner-faults": (
        "every load outside its limits and every clash of a plan",
        ["planner-faults INSTANCE PLAN [slack=D]", "planner-faults --table FILE"],
        "Lists each load of a plan that is above or below its limits, and each broken exclusion, from what planner "
        "table prints, or from a FILE with that. The last three lines add them up.",
        [("0", "there is none"), ("1", "there is one"), ("64 and above", "the call failed, as a line says"),
         ("any other", "the status of planner table")]),
    "planner-picture": (
        "a picture of a year of a plan",
        ["planner-picture INSTANCE PLAN PICTURE [slack=D]", "planner-picture --table FILE PICTURE",
         "planner-picture --progress FILE PICTURE"],
        "Draws works, loads between their limits, and risk, from what planner table prints, or from a FILE with that. "
        "With --progress it draws the rounds of planner plan. PICTURE is written as PNG or SVG, by its suffix. "
        "It needs the package python3-matplotlib.",
        [("0", "PICTURE was written"), ("64 and above", "the call failed, as a line says"),
         ("any other", "the status of planner table")]),
}


def read_words(path):
    """The tables of a file for bash."""
    script = 'source "$1"; '
    script += "".join(f'printf "%s\\0" {name} "${{#{name}[@]}}" "${{{name}[@]}}"; ' for name in TABLES)
    script += 'for word in "${!ranges[@]}"; do printf "%s\\0" "$word" "${ranges[$word]}"; done'
    said = subprocess.run(["bash", "-c", script, "bash", path], check=True, stdout=subprocess.PIPE, text=True).stdout
    given, found = said.split("\0")[:-1], {}
    for name, width in TABLES.items():
        assert given[0] == name, given[0]
        count = int(given[1])
        cells, given = given[2:2 + count], given[2 + count:]
        found[name] = [tuple(cells[at:at + width]) for at in range(0, count, width)]
    found["programs"] = [name for name, in found["programs"]]
    found["own"] = [row for row in found["own"] if row[0].split()[0] not in OF_CLONES]
    return Words(**found, ranges=dict(sorted(zip(given[::2], given[1::2]))))


def escaped(text):
    """A text for a manual page, in which no character has a meaning of its own."""
    text = text.replace("\\", "\\e").replace("-", "\\-")
    return re.sub(r"^(?=[.'])", r"\\&", text)


def entry(words, text):
    return f".TP\n.B {escaped(words)}\n{escaped(text)}\n"


def names_in(form):
    """The words of a form that name files which are written."""
    return [part[1:] for part in form.split() if part.startswith(">")]


def manual(words, version, seconds):
    """The manual page, in the language of `man`."""
    day = time.strftime("%Y-%m-%d", time.gmtime(seconds))
    page = f'.TH PLANNER 1 {day} "gadvresa {version}" "Gadvresa"\n'
    page += ".SH NAME\nplanner \\- plans for a year of maintenance on a transmission grid\n.SH SYNOPSIS\n.nf\n"
    forms = [form for _, form, _ in words.commands] + [form for form, _ in words.own]
    page += "".join(f"planner {escaped(form.replace('>', ''))}\n" for form in forms)
    page += f".fi\n{INTRODUCTION}.SH COMMANDS\n"
    for _, form, does in words.commands:
        written = names_in(form)
        page += entry(form.replace(">", ""), does + (f"; it writes {' and '.join(written)}" if written else ""))
    page += "".join(entry(form, does) for form, does in words.own)
    page += ".SH WORDS\nA word in brackets may be left out. Other words than these name files.\n"
    page += "".join(entry(word, it) for word, it in words.ranges.items())
    page += "".join(entry(word, it) for word, _, it in words.options)
    return page + ".SH EXIT STATUS\n" + "".join(entry(*row) for row in words.statuses) + END


def other_manual(name, version, seconds):
    """The manual page of one of the other programs."""
    what, calls, does, statuses = OTHERS[name]
    day = time.strftime("%Y-%m-%d", time.gmtime(seconds))
    page = f'.TH {name.upper()} 1 {day} "gadvresa {version}" "Gadvresa"\n'
    page += f".SH NAME\n{name} \\- {what}\n.SH SYNOPSIS\n.nf\n".replace(name, escaped(name))
    page += "".join(f"{escaped(call)}\n" for call in calls) + f".fi\n.SH DESCRIPTION\n{escaped(does)}\n"
    page += ".SH EXIT STATUS\n" + "".join(entry(*row) for row in statuses)
    return page + ".SH SEE ALSO\n.BR planner (1)\n"


def changelog(version, commit, seconds):
    """The changelog of a package, which has the commit that it was made of."""
    day = email.utils.format_datetime(datetime.datetime.fromtimestamp(seconds, datetime.timezone.utc))
    return (f"gadvresa ({version}) unstable; urgency=medium\n\n"
            f"  * Commit {commit}:\n    `git log` of a clone has what changed.\n\n -- {MAINTAINER}  {day}\n")


def kind_of(part, words):
    """What completes a word of a form: a name of a file, the beginning of an option, or nothing."""
    name = part.strip("[]")
    if name in words.ranges:
        return "none"
    return name.partition("=")[0] + "=" if name in [word for word, _, _ in words.options] else "file"


def completion(words):
    """The function for bash that completes the words of `planner`."""
    forms = [form for _, form, _ in words.commands]
    kinds = {form.split()[0]: " ".join(kind_of(it, words) for it in form.split()[1:]) for form in forms}
    rows = "\n".join(f"    {command}) kinds=({those}) ;;" for command, those in kinds.items())
    names = " ".join(form.split()[0] for form in forms + [form for form, _ in words.own])
    return f"""# Completes the words of `planner` in bash: commands, names of files, and what may be behind them.
_planner() {{
    local word=${{COMP_WORDS[COMP_CWORD]}} kinds=() kind
    COMPREPLY=()
    if ((COMP_CWORD == 1)); then
        mapfile -t COMPREPLY < <(compgen -W '{names}' -- "$word")
        return
    fi
    case ${{COMP_WORDS[1]}} in
{rows}
    explain) kinds=(file none file file slack=) ;;
    view) kinds=(file file file other= certificate= progress= slack=) ;;
    plan) kinds=(file file minutes= jobs= gap= seed= slack= hosts=) ;;
    esac
    kind=${{kinds[COMP_CWORD - 2]-none}}
    case $kind in
    none) ;;
    file)
        compopt -o filenames 2>/dev/null
        mapfile -t COMPREPLY < <(compgen -f -- "$word")
        ;;
    *)
        compopt -o nospace 2>/dev/null
        mapfile -t COMPREPLY < <(compgen -W "$kind" -- "$word")
        ;;
    esac
}}
complete -F _planner planner
"""
