"""Where the proved programs are.

A program is looked for in this order:

1. where `use` or the variable GADVRESA_PROGRAMS says: a folder that holds `planner_cli`, `plan_repair`, `plan_refine`;
2. in the clone that this package stands in, once it is built and `tools/planner_build` says that it stands for the
   sources as they are;
3. on the PATH: by its own name, or in the package or clone of the `planner` that is there.
"""
from __future__ import annotations

import os
import shutil
import subprocess
import sys
import threading
from dataclasses import dataclass
from typing import Dict, List, Optional, Union

Path = Union[str, "os.PathLike[str]"]
PROGRAMS = ("planner_cli", "plan_repair", "plan_refine")
VARIABLE = "GADVRESA_PROGRAMS"
_set: Dict[str, str] = {}
_standing: Dict[str, bool] = {}
_lock = threading.Lock()


@dataclass(frozen=True)
class Program:
    """A program that was found: its name, its file, and how it was found, as `setting`, `clone` or `path`."""

    name: str
    path: str
    found: str


class NotFound(Exception):
    """There is no such program; the message says where it was looked for."""


def use(folder: Optional[Path] = None, **programs: Path) -> None:
    """Says where the programs are: a folder that holds them, or a file each; without either forgets what was said.

    >>> use("/opt/gadvresa")
    >>> use(planner_cli="/opt/gadvresa/planner_cli", plan_repair="/opt/elsewhere/plan_repair")
    >>> use()

    Raises TypeError for a program of another name.
    """
    unknown = sorted(set(programs) - set(PROGRAMS))
    if unknown:
        raise TypeError(f"no program {unknown[0]}: those that there are: {', '.join(PROGRAMS)}")
    with _lock:
        _set.clear()
        _standing.clear()
        if folder is not None:
            _set.update({name: os.path.join(os.fspath(folder), name) for name in PROGRAMS})
        _set.update({name: os.fspath(path) for name, path in programs.items()})


def programs() -> Dict[str, Optional[Program]]:
    """The programs by their names, None where one isn't found."""
    return {name: _look_for(name, []) for name in PROGRAMS}


def find(name: str) -> Program:
    """The program of this name. Raises NotFound, which says where it was looked for."""
    looked: List[str] = []
    program = _look_for(name, looked)
    if program is None:
        raise NotFound(f"{name} is not there. Looked for it: " + "; ".join(looked) + ". Build it by `./planner --build "
                       f"{name}` in a clone, install the Debian package, or say where it is by gadvresa.use(FOLDER) or "
                       f"by {VARIABLE}")
    return program


def folder_of(program: str) -> Optional[str]:
    """The top folder of the clone or package that a program stands in, which has `explain`."""
    above = os.path.dirname(os.path.dirname(os.path.realpath(program)))
    folders = [above, *filter(None, [clone(), _planner_folder()])]
    return next((it for it in folders if os.path.isfile(os.path.join(it, "tools", "explain"))), None)


def clone() -> Optional[str]:
    """The clone that this package stands in, if it does."""
    top = os.path.realpath(os.path.join(os.path.dirname(os.path.realpath(__file__)), "..", "..", "..", ".."))
    needed = ("crates.txt", "planner", "tools/planner_build")
    return top if all(os.path.isfile(os.path.join(top, it)) for it in needed) else None


def _look_for(name: str, looked: List[str]) -> Optional[Program]:
    given = _set.get(name)
    if given is None and os.environ.get(VARIABLE):
        given = os.path.join(os.environ[VARIABLE], name)
    if given is not None:
        # (what was said to be used is used, or nothing)
        looked.append(f"as {given}, as it was said to be")
        return Program(name, os.path.abspath(given), "setting") if _is_program(given) else None
    top = clone()
    if top:
        path = os.path.join(top, "out", name)
        looked.append(f"in the clone, as {path}, built for the sources as they are")
        if _stands(top, name):
            return Program(name, path, "clone")
    looked.append(f"on the PATH, as {name} or beside `planner`")
    found = shutil.which(name)
    if found:
        return Program(name, os.path.abspath(found), "path")
    folder = _planner_folder()
    if folder:
        path = os.path.join(folder, "out", name)
        is_package = os.path.isfile(os.path.join(folder, "receipt"))
        if _is_program(path) if is_package else _stands(folder, name):
            return Program(name, path, "path")
    return None


def _is_program(path: str) -> bool:
    return os.path.isfile(path) and os.access(path, os.X_OK)


def _planner_folder() -> Optional[str]:
    """The folder of the `planner` on the PATH."""
    path = shutil.which("planner")
    folder = os.path.dirname(os.path.realpath(path)) if path else None
    return folder if folder and os.path.isfile(os.path.join(folder, "tools", "front", "words.bash")) else None


def _stands(top: str, name: str) -> bool:
    """Whether a program of a clone stands for the sources; asked once, and again where the program has changed."""
    path = os.path.join(top, "out", name)
    if not (_is_program(path) and os.path.isfile(path + ".stamp")):
        return False
    key = f"{path} {os.stat(path).st_mtime_ns}"
    if key not in _standing:
        build = [sys.executable, "-I", os.path.join(top, "tools", "planner_build"), top, name, "--look", "--native"]
        _standing[key] = subprocess.run(build, stdin=subprocess.DEVNULL, stdout=subprocess.DEVNULL,
                                        stderr=subprocess.DEVNULL).returncode == 0
    return _standing[key]
