"""Programs over crates of the repository, for measurements alone: proved and built in a copy, which is then removed.

tools/planner_build makes them there, as it makes the programs of the repository. The copy has the libraries of crates
that stand; what doesn't is proved there first. `./planner --build` has all that its program stands on proved for good.
"""
import os
import re
import shutil
import subprocess
import sys
from contextlib import contextmanager
from tempfile import TemporaryDirectory

TOP = os.path.dirname(os.path.dirname(os.path.abspath(__file__)))
# What a copy has of a crate, and of the repository.
PARTS = ("src", "specs", "proofs")
WHOLE = ("KIT", "out/proved", "out/libraries")


def rows():
    """The lines of crates.txt, by the crate that each names."""
    with open(os.path.join(TOP, "crates.txt"), encoding="utf-8") as file:
        lines = [line.partition("#")[0].strip() for line in file]
    return {line.split(":")[0].split()[0]: line for line in lines if line}


def below(names, listed):
    """The crates of these names that the repository has, and all that they stand on."""
    found, waiting = set(), list(names)
    while waiting:
        name = waiting.pop()
        if name in listed and name not in found:
            found.add(name)
            waiting += re.split(r"[\s,]+", listed[name].partition(":")[2].strip())
    return found


def take(path, folder):
    """Gives a file or folder of the repository, if it is there, a second name in a folder."""
    have, there = os.path.join(TOP, path), os.path.join(folder, path)
    os.makedirs(os.path.dirname(there), exist_ok=True)
    if os.path.isdir(have):
        shutil.copytree(have, there, copy_function=link_or_copy)
    elif os.path.exists(have):
        link_or_copy(have, there)


def link_or_copy(one, other):
    """Links a file that is never changed, but replaced."""
    try:
        os.link(one, other)
    except OSError:
        shutil.copy2(one, other)


def write(path, text):
    """Writes a file, and makes the folders that it wants."""
    os.makedirs(os.path.dirname(path), exist_ok=True)
    with open(path, "w", encoding="utf-8") as out:
        out.write(text)


@contextmanager
def program(name, uses, source, proofs):
    """The path of a program of this source, which uses these crates; it is gone behind the block.

    `proofs` has the texts of the files of its folder of that name, by their paths; they say CRATE for its name.
    """
    listed = rows()
    with TemporaryDirectory(prefix="bench-") as folder:
        names = below(uses, listed)
        for path in [*WHOLE, *(os.path.join("crates", crate, part) for crate in names for part in PARTS)]:
            take(path, folder)
        own = os.path.join(folder, "crates", name)
        write(os.path.join(own, "src", "main.rt"), source)
        for path, text in proofs.items():
            write(os.path.join(own, "proofs", path), text.replace("CRATE", name))
        lines = [listed[crate] for crate in sorted(names)] + [f"{name}: {' '.join(uses)}"]
        write(os.path.join(folder, "crates.txt"), "\n".join(lines) + "\n")
        build = [sys.executable, "-I", os.path.join(TOP, "tools", "planner_build"), folder, name]
        if subprocess.run(build, stdin=subprocess.DEVNULL, check=False).returncode:
            sys.exit(f"{name} is not proved and built")
        yield os.path.join(folder, "out", name)


def lines_by_word(printed):
    """The lines that a program printed, as lists of words by their first."""
    lines = [line.split() for line in printed.decode().splitlines()]
    return {line[0]: line[1:] for line in lines}


def answers(words, seconds):
    """The lines that a program prints, as `lines_by_word` has them; none where it takes longer than that."""
    try:
        ran = subprocess.run(words, stdin=subprocess.DEVNULL, stdout=subprocess.PIPE, timeout=seconds, check=True)
    except subprocess.TimeoutExpired:
        return None
    return lines_by_word(ran.stdout)
