"""The drawn cases of cases.txt, which the scripts beside this file measure on, and of other files of its form."""
import os
import shlex
import subprocess
import sys

HERE = os.path.dirname(os.path.abspath(__file__))


def read(path):
    """The cases of a file: the words that draw each, by its name, in order."""
    with open(path, encoding="utf-8") as file:
        lines = [shlex.split(line, comments=True) for line in file]
    return {words[0]: words[1:] for words in lines if words}


def listed(only, more=()):
    """The named cases, or all of them where none is named but by further lines of the file's form; with the words that
    draw each, in order.
    """
    known = read(os.path.join(HERE, "cases.txt"))
    further = {words[0]: words[1:] for words in map(str.split, more)}
    missing = [name for name in only if name not in known]
    if missing:
        sys.exit(f"no cases {' '.join(missing)}: those that there are: {' '.join(known)}")
    return {name: known[name] for name in (only if only or further else known)} | further


def draw(words, path, plan=None):
    """Draws an instance to a path, and the plan that it is made around, where that has one."""
    drawer = [sys.executable, os.path.join(HERE, "draw_case.py"), *words]
    subprocess.run([*drawer, *(["--plan", plan] if plan else []), path], stderr=subprocess.DEVNULL, check=True)
