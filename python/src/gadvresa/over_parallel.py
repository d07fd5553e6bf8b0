"""Calls of GNU parallel, which runs the tasks of a script side by side, on this machine or over several."""
from __future__ import annotations

import re
import shutil
from typing import List, Optional

from .cli import stop
from .running.statuses import Status
from .whole_files import open_regular

# On how many machines a task is tried, where it fails on one.
RETRIES = 3


def parallel_words(jobs: int, hosts: Optional[str] = None, workdir: Optional[str] = None) -> List[str]:
    """The first words of a call of GNU parallel with so many jobs at a time on each machine. A line of the file `hosts`
    is one of its --sshlogin. Ends the script where parallel isn't there.
    """
    parallel = shutil.which("parallel")
    if not parallel:
        stop(Status.TOOL_MISSING, "no parallel on the PATH, for more than one job or hosts: apt-get install parallel")
    words = [parallel, "--will-cite", "--no-notice", "--jobs", str(jobs), "--retries", str(RETRIES)]
    # (parallel looks for its marks, as {}, in the name of the folder)
    words += ["--sshloginfile", hosts] if hosts else []
    return words + (["--workdir", workdir] if workdir else [])


def read_logins(hosts: str) -> List[str]:
    """The machines that a file of --sshloginfile names. Ends the script where there are none, or ssh would take one of
    them for an option.
    """
    try:
        with open_regular(hosts, 0) as file:
            lines = [line.strip() for line in file.read().decode("utf-8").split("\n")]
    except OSError as error:
        stop(Status.SCRIPT_UNREAD, f"{hosts}: {error.strerror}")
    except UnicodeDecodeError:
        stop(Status.SCRIPT_UNREAD, f"{hosts} isn't a text in UTF-8")
    # (as parallel has it, machines are parted by commas, and two of them stand for one)
    logins = [login.strip() for line in lines if line and not line.startswith("#")
              for login in re.split(r"(?<![\\,]),(?!,)", line)]
    if not logins:
        stop(Status.SCRIPT_UNREAD, f"{hosts} names no machine")
    for login in logins:
        if login.startswith("-") or host_of(login).startswith("-"):
            stop(Status.SCRIPT_UNREAD, f"{hosts}: {login} has a host that begins with -, which ssh takes for an option")
    return logins


def host_of(login: str) -> str:
    """The host of [@GROUP/][COUNT/][SSH ][USER@]HOST[:PORT], with its port."""
    login = re.sub(r"^[0-9]+/", "", re.sub(r"^@[^/]+/?", "", login))
    return login.rpartition(" ")[2].rpartition("@")[2]
