"""What is to be run, and where what came of it stands.

OUT holds `tasks.json`, what all runs share and a task for each; `records/KEY.json`, what came of one; `plans/KEY.txt`,
the plan that was judged; `bounds/KEY.cert`, the certificate of an instance. A record counts as long as what it was made
of is the same: the bytes of the instance, the words of the method, the seconds. So a comparison that was ended at any
place goes on with what is missing, and one that was changed makes anew what the change touches.
"""
from __future__ import annotations

import errno
import hashlib
import json
import os
import re
import shlex
from typing import Any, Dict, List, Mapping, Optional, Sequence

from ..whole_files import read_named, sum_of

# What is to be run, and what came of it, as they stand in files of JSON.
Task = Dict[str, Any]
Record = Dict[str, Any]

METHOD = re.compile(r"[A-Za-z0-9][A-Za-z0-9_.+-]{0,39}")


class Fault(Exception):
    """The words or the files of the comparison are wrong; the message says how."""


def read_methods(path: str) -> Dict[str, List[str]]:
    """The methods of a file, each with its words, in order."""
    methods: Dict[str, List[str]] = {}
    for number, line in enumerate(read_named(path).decode("utf-8").split("\n"), 1):
        try:
            words = shlex.split(line, comments=True)
        except ValueError as fault:
            raise Fault(f"{path}, line {number}: {fault}") from None
        if not words:
            continue
        name = words.pop(0)
        if not METHOD.fullmatch(name):
            raise Fault(f"{path}, line {number}: {name!r} is no name of a method: letters, digits and _.+- only")
        if name in methods:
            raise Fault(f"{path}, line {number}: there is a method {name} above")
        if not words or not any("{plan}" in word for word in words):
            raise Fault(f"{path}, line {number}: the command of {name} has no {{plan}}, which it is to write")
        methods[name] = words
    if not methods:
        raise Fault(f"{path} has no method")
    return methods


def read_instances(folder: str) -> Dict[str, str]:
    """The instance files of a folder, by name: those that end with .json."""
    names = sorted(name for name in os.listdir(folder) if name.endswith(".json"))
    found = {name[:-len(".json")]: os.path.abspath(os.path.join(folder, name)) for name in names}
    if not found:
        raise Fault(f"{folder} has no instance: no file that ends with .json")
    for path in found.values():
        if os.path.exists(path) and not os.path.isfile(path):
            raise OSError(errno.EINVAL, "is no file that can be read more than once", path)
    return found


def key_of(*words: Any) -> str:
    """A name for files, in which each word can be seen, and no two lists of words have the same one."""
    seen = ".".join(re.sub("[^A-Za-z0-9_+-]+", "_", str(word))[:40] for word in words)
    return f"{seen}.{hashlib.sha256(json.dumps(words).encode()).hexdigest()[:10]}"


def tasks_of(instances: Mapping[str, str], methods: Mapping[str, Sequence[str]], seeds: int, seconds: float,
             processes: int, bound: Mapping[str, Any]) -> Dict[str, Task]:
    """The tasks: first a bound for each instance, and then the runs, by instance, method and seed."""
    sums = {name: sum_of(path) for name, path in instances.items()}
    tasks: Dict[str, Task] = {}
    for name, path in instances.items():
        if bound["turns"] is not None:
            tasks[key_of(name, "bound")] = {"kind": "bound", "instance": name, "path": path, "sum": sums[name], **bound}
    for name, path in instances.items():
        for method, words in methods.items():
            for seed in range(1, seeds + 1):
                tasks[key_of(name, method, seed)] = {
                    "kind": "run", "instance": name, "path": path, "sum": sums[name], "method": method, "words": words,
                    "seed": seed, "seconds": seconds, "processes": processes}
    return tasks


def place(out: str, key: str, kind: str = "records", ending: str = "json") -> str:
    """Where a file of a task stands."""
    return os.path.join(out, kind, f"{key}.{ending}")


def record_of(out: str, key: str, task: Task) -> Optional[Record]:
    """The record of a task, or none where it isn't there or was made of something else."""
    try:
        with open(place(out, key), encoding="utf-8") as file:
            record = json.load(file)
    except (OSError, ValueError):
        return None
    return record if isinstance(record, dict) and record.get("task") == task else None
