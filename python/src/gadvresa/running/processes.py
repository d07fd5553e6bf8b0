"""Processes as /proc tells of them: when one was started, and which ones are below another."""
from __future__ import annotations

import contextlib
import os
from typing import Dict, Iterable, List, Optional

# The states of a process that has ended, which is there until its parent takes note of that.
ENDED = ("Z", "X")


def started(pid: int) -> Optional[int]:
    """When a process was started, as the system counts it; None where it has ended."""
    words = _words_of(pid)
    return None if words is None or words[0] in ENDED else int(words[19])


def below(pid: int) -> Dict[int, str]:
    """The processes below a process, with their states, as far as the system has a /proc that tells of them."""
    children: Dict[int, List[int]] = {}
    states: Dict[int, str] = {}
    for number in _numbers():
        words = _words_of(number)
        if words is not None:
            states[number] = words[0]
            children.setdefault(int(words[1]), []).append(number)
    found: Dict[int, str] = {}
    ahead = [pid]
    while ahead:
        for number in children.get(ahead.pop(), ()):
            found[number] = states[number]
            ahead.append(number)
    return found


def send(pids: Iterable[int], number: int) -> None:
    """Sends a signal to processes, of which some may have ended."""
    for pid in pids:
        with contextlib.suppress(ProcessLookupError, PermissionError):
            os.kill(pid, number)


def _numbers() -> List[int]:
    try:
        return [int(name) for name in os.listdir("/proc") if name.isdigit()]
    except OSError:
        return []


def _words_of(pid: int) -> Optional[List[str]]:
    """What the system tells of a process, from its state on; None where it tells nothing."""
    try:
        with open(f"/proc/{pid}/stat", "rb") as file:
            words = file.read().rpartition(b")")[2].decode("ascii", "replace").split()
    except OSError:
        return None
    return words if len(words) > 19 else None
