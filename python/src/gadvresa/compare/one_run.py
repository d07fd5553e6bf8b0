"""Does one task of a comparison, in a process of its own, whose words are OUT and KEY.

A method is run in a folder of its own, which is gone behind it, and its plan is judged by `evaluate`; for a bound a
certificate is made and checked. What came of it is written to OUT as a record, whole or not at all. The status is 0
where the record stands, and 75 where the run was given up, as who started the comparison is gone.
"""
from __future__ import annotations

import fcntl
import hashlib
import json
import os
import re
import shutil
import signal
import socket
import tempfile
import threading
import time
from typing import Any, Dict, List, Mapping, Sequence, Tuple, Union

from .. import commands, errors
from ..answers import Bounded, Solved
from ..model.exact import shown
from ..running import use
from ..running.holding import end_all, take_orphans
from ..running.processes import started
from ..running.statuses import Status
from ..whole_files import write_whole
from . import guarded
from .tasks import Record, Task, place, record_of

# The seconds that `evaluate` may take for a plan, and `check` for a certificate, and those between two looks for who
# started the comparison.
JUDGING, LOOK = 3600, 1


def is_there(owner: Mapping[str, Any]) -> bool:
    """Whether who started the comparison still runs, as far as this machine can tell."""
    return bool(owner["host"] != socket.gethostname() or started(owner["pid"]) == owner["started"])


def judged(path: str, data: bytes, cancel: threading.Event) -> Dict[str, Any]:
    """What `evaluate` says of the text of a plan."""
    if not data:
        return {"state": "none"}
    if len(data) > guarded.LONGEST_PLAN:
        return {"state": "refused", "detail": "the plan is too long"}
    with tempfile.TemporaryDirectory(prefix="compare-") as folder:
        plan = os.path.join(folder, "plan")
        with open(plan, "wb") as file:
            file.write(data)
        try:
            answer = commands.evaluate(path, plan, timeout=JUDGING, cancel=cancel)
        except errors.Cancelled:
            raise guarded.Interrupted from None
        except errors.InstanceRefused as refused:
            return {"state": "instance refused", "detail": refused.line}
        except errors.Refused as refused:
            return {"state": "refused", "detail": refused.line}
        except errors.TimedOut:
            return {"state": "unjudged", "detail": f"evaluate took more than {JUDGING} seconds"}
    if answer.rule is not None:
        return {"state": "infeasible", "detail": answer.rule.line}
    assert answer.cost is not None
    return {"state": "feasible", "score": str(answer.score), "cost": shown(answer.cost.low)}


def filled(words: Sequence[str], values: Mapping[str, Any]) -> List[str]:
    """The words of a method with what its places stand for. What is put in isn't looked at again."""
    return [re.sub(r"\{(\w+)\}", lambda found: str(values.get(str(found[1]), found[0])), word) for word in words]


def run_method(shared: Mapping[str, Any], task: Task) -> Tuple[Record, bytes]:
    """Runs a method, and has its plans judged; answers the record, and the plan that stood at the end. Where that isn't
    judged in its time the plans before it aren't judged, as each of them could take as long.
    """
    folder = tempfile.mkdtemp(prefix="compare-")
    try:
        plan = os.path.join(folder, "plan.txt")
        words = filled(task["words"], {"instance": task["path"], "plan": plan, "seconds": f"{task['seconds']:g}",
                                       "seed": task["seed"], "folder": folder})
        try:
            ran = guarded.run(words, shared["folder"], plan, task["seconds"], task["processes"],
                              lambda: is_there(shared["owner"]))
        except OSError as error:
            fault = f"{words[0]}: {error.strerror}"
            return {"ended": "not started", "status": "", "state": "none", "detail": fault}, b""
        data, _ = guarded.held(plan)
    finally:
        shutil.rmtree(folder, ignore_errors=True)
    cancel = gone(shared["owner"])
    last = judged(task["path"], data or b"", cancel)
    record = {"ended": ran.ended, "status": ran.status, **last,
              "progress": progress_of(task["path"], ran.seen, cancel) if last["state"] != "unjudged" else [],
              "plans": ran.plans, "left": ran.left, "seconds": round(ran.seconds, 3),
              "processor": round(ran.processor, 3), "peak_mb": round(ran.peak, 1),
              "said": ran.said.decode("utf-8", "replace")}
    return record, data or b""


def progress_of(path: str, texts: Sequence[guarded.Seen], cancel: threading.Event) -> List[List[Any]]:
    """The times and scores of the feasible ones of the texts that a plan had, up to one that isn't judged in its time.
    """
    progress: List[List[Any]] = []
    for seen in texts:
        found = judged(path, seen.data, cancel)
        if found["state"] == "unjudged":
            break
        if found["state"] == "feasible":
            progress.append([round(seen.seconds, 3), found["score"]])
    return progress


def gone(owner: Mapping[str, Any]) -> threading.Event:
    """An event that is set once who started the comparison is gone."""
    event = threading.Event()

    def look() -> None:
        while is_there(owner):
            time.sleep(LOOK)
        event.set()

    threading.Thread(target=look, daemon=True).start()
    return event


def make_bound(out: str, key: str, task: Task, owner: Mapping[str, Any]) -> Record:
    """Makes a certificate, by `bound` or by `solve`, and has it checked."""
    try:
        cancel, words = gone(owner), {"turns": task["turns"], "timeout": task["seconds"]}
        made: Union[Bounded, Solved]
        if task["by"] == "bound":
            made = commands.bound(task["path"], cancel=cancel, **words)
        else:
            made = commands.solve(task["path"], cancel=cancel, **words)
        checked = commands.check(task["path"], made.certificate, timeout=JUDGING, cancel=cancel)
    except errors.Cancelled:
        raise guarded.Interrupted from None
    except errors.GadvresaError as error:
        return {"bound": None, "detail": f"{type(error).__name__}: {error}"}
    write_whole(place(out, key, "bounds", "cert"), made.certificate.data)
    return {"bound": "none" if checked.bound is None else str(checked.bound),
            "seconds": round(made.called.seconds, 3)}


def give_up(number: int, _: object) -> None:
    """Ends the run, as a signal came."""
    raise guarded.Interrupted


def main(out: str, key: str) -> int:
    """Does a task; answers the status."""
    with open(os.path.join(out, "tasks.json"), encoding="utf-8") as file:
        shared = json.load(file)
    task = shared["tasks"][key]
    if shared["programs"]:
        use(**shared["programs"])
    os.makedirs(os.path.join(out, "locks"), exist_ok=True)
    with open(place(out, key, "locks", "lock"), "w", encoding="ascii") as lock:
        # (a run of a comparison that was ended may not have noticed that yet)
        fcntl.flock(lock, fcntl.LOCK_EX)
        if record_of(out, key, task) is not None:
            return Status.DONE
        take_orphans()
        for one in (signal.SIGTERM, signal.SIGINT, signal.SIGHUP):
            signal.signal(one, give_up)
        try:
            if task["kind"] == "bound":
                record = make_bound(out, key, task, shared["owner"])
            else:
                record, data = run_method(shared, task)
                record["plan_sha256"] = hashlib.sha256(data).hexdigest() if data else ""
                if data:
                    write_whole(place(out, key, "plans", "txt"), data[:guarded.LONGEST_PLAN])
        except guarded.Interrupted:
            return Status.BUSY
        finally:
            # (a program may have left what is in no session of its own)
            end_all()
        record["host"] = socket.gethostname()
        write_whole(place(out, key), json.dumps({"task": task, **record}, indent=1) + "\n")
    return Status.DONE
