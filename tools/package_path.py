"""Has a script find the package for Python once it imports this module, and starts the scripts of that.

In a clone and in the Debian package the sources of `gadvresa` are in python/src, beside the folder of this file. They
come before any other `gadvresa` that is installed. A script that stands elsewhere takes the installed one.
"""
import importlib
import os
import sys

SOURCES = os.path.join(os.path.dirname(os.path.dirname(os.path.realpath(__file__))), "python", "src")
if os.path.isdir(os.path.join(SOURCES, "gadvresa")) and SOURCES not in sys.path:
    sys.path.insert(0, SOURCES)


def start(module, *given):
    """Runs the script that a module of the package is, with what is given to it."""
    from gadvresa.cli import run_script

    run_script(lambda: importlib.import_module(module).main(*given))
