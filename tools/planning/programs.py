"""Which programs are called: those in the folder that GADVRESA_PROGRAMS names, or those of this clone or package. In a
clone one that doesn't stand for the sources is proved and built first, as ./planner does.
"""
import os
import subprocess
import sys

from gadvresa.cli import stop
from gadvresa.running import Status

TOP = os.path.dirname(os.path.dirname(os.path.dirname(os.path.abspath(__file__))))
VARIABLE = "GADVRESA_PROGRAMS"
NAMES = ("planner_cli", "plan_refine")


def find(name):
    """The file of a program. Ends the script where it isn't there, and can't be built."""
    folder = os.environ.get(VARIABLE) or os.path.join(TOP, "out")
    path = os.path.abspath(os.path.join(folder, name))
    is_clone = not os.environ.get(VARIABLE) and not os.path.isfile(os.path.join(TOP, "receipt"))
    if is_clone:
        build = [sys.executable, "-I", os.path.join(TOP, "tools", "planner_build"), TOP, name, "--native"]
        status = subprocess.run(build, stdin=subprocess.DEVNULL).returncode
        if status:
            sys.exit(status if status > 0 else 128 - status)
    if not (os.path.isfile(path) and os.access(path, os.X_OK)):
        stop(Status.TOOL_MISSING, f"{path} is no program: see GADVRESA_PROGRAMS, or install the package anew")
    return path
