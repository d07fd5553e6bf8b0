"""What the tests of tools/plan share: stand-ins for the programs, a folder with them, and how results are counted."""
import json
import os
import random
import re
import shutil
import signal
import subprocess
import sys
import time

import package_path  # noqa: F401
from gadvresa.tables.progress import read_progress

HERE = os.path.dirname(os.path.abspath(__file__))
TOP = os.path.dirname(HERE)
PLAN = os.path.join(HERE, "plan")
# Seconds after which what is waited for counts as never coming.
LIMIT = 600
# Knows all plans by their scores. A file `do-COMMAND` says what a call of that command does in place of its work.
STAND_IN = r"""#!{python} -IS
import json, os, re, signal, sys, time
sys.dont_write_bytecode = True
sys.path.insert(0, {tools!r})
told, command, words = {told!r}, sys.argv[1], sys.argv[2:]
with open(os.path.join(told, "calls"), "a", errors="surrogateescape") as calls:
    calls.write(" ".join(sys.argv[1:]) + "\n")
slack = words.pop() if words and words[-1].startswith("slack=") else None
part = words.pop() if words and words[-1].startswith("part=") else None

def end(status, said):
    sys.stdout.write(said)
    sys.exit(status)

def is_due(count):
    at = os.path.join(told, "count-" + command)
    number = int(open(at).read()) + 1 if os.path.exists(at) else 1
    open(at, "w").write(str(number))
    return count is None or number <= count

doing = []
if os.path.exists(os.path.join(told, "do-" + command)):
    doing = open(os.path.join(told, "do-" + command)).read().split()
    if "times" in doing and not is_due(int(doing[doing.index("times") + 1])):
        doing = []
if part and not os.path.exists(os.path.join(told, "knows-parts")):
    end(2, "refused words\n")
try:
    with open(words[0], "rb") as file:
        data = file.read()
except OSError:
    end(7, "refused read 2\n")
try:
    found = json.loads(data)["plans"]
except ValueError:
    end(3, "refused instance syntax 0\n")
plans = sorted((score, starts) for starts, score in found.items())
best = plans[0][0] if plans else None

def read(path):
    try:
        return open(path).read()
    except OSError:
        end(7, "refused read\n")

def text(starts):
    return "".join(f"w{{at}} {{start}}\n" for at, start in enumerate(starts.split()))

def score_of(path):
    lines = read(path).split("\n")
    if not all(re.fullmatch("w[0-9]+ [0-9]+|", line) for line in lines):
        end(4, "refused plan bad line 1\n")
    return found.get(" ".join(line.split()[1] for line in lines if line))

def bound_of(path):
    lines = read(path).split("\n")
    if lines[0] not in ("mpcert 2", "mpcert 3") or len(lines) < 5:
        end(5, "refused certificate bad line 1\n")
    word = lines[1].split()[1]
    return None if word == "none" else int(word)

def write(path, text):
    try:
        with open(path, "w") as file:
            file.write(text)
    except OSError:
        end(8, "refused write\n")

def certificate(bound):
    return f"mpcert 3\nbound {{'none' if bound is None else bound}}\nlists 0\ntree\ncost 0\n"

def do(out=None):
    for at, word in enumerate(doing):
        if word == "sleep":
            open(os.path.join(told, f"at-{{command}}-{{os.getpid()}}"), "w").close()
            time.sleep(float(doing[at + 1]))
        if word == "closed":
            # (goes on behind its output)
            open(os.path.join(told, f"at-{{command}}-{{os.getpid()}}"), "w").close()
            os.close(1)
            time.sleep(600)
        if word == "held" and os.fork() == 0:
            # (a child holds the output)
            signal.signal(signal.SIGTERM, signal.SIG_IGN)
            time.sleep(600)
            os._exit(0)
        if word == "flood":
            signal.signal(signal.SIGTERM, signal.SIG_IGN)
            while True:
                os.write(2, b"x" * 65536)
        if word == "status":
            end(int(doing[at + 1]), "refused memory\n" if doing[at + 1] == "11" else "")
        if word == "kill":
            os.kill(os.getpid(), signal.SIGKILL)
        if word == "garbage" and out:
            write(out, "what is this\n")
            end(0, f"plan improved\nscore {{best - 1}}\nbound {{best + 1}}\nsplits 1\n")
        if word == "lie" and out:
            write(out, text(plans[-1][1]))
            end(0, f"plan improved\nscore {{best}}\n")
        if word == "over" and out:
            write(out, certificate(best + 1))
            end(0, f"bound {{best + 1}}\nsplits 1\nlists 1\n")

if command == "evaluate":
    do()
    score = score_of(words[1])
    end(1, "infeasible\nS1 w0\nrounded 0\n") if score is None else end(0, f"feasible\nscore {{score}}\nrounded 0\n")
elif command == "check":
    do()
    given = None if words[1] == "-" else score_of(words[1])
    bound = bound_of(words[2])
    if words[1] != "-" and given is None:
        end(1, "infeasible\nS1 w0\nrounded 0\n")
    if best is not None and (bound is None or bound > best):
        end(5, "refused certificate leaf 1\n")
    said = f"accepted\nbound {{'none' if bound is None else bound}}\n"
    if bound is not None:
        count = bound // (4 * 10 ** 6)
        said += f"bound-cost {{count // 10 ** 12}}.{{count % 10 ** 12:012}}\n"
    if given is not None:
        said += f"score {{given}}\ngap {{given - bound}}\n"
    end(0, said + "rounded 0\n")
elif command == "solve":
    do(words[1])
    write(words[2], certificate(None if best is None else best // 2))
    write(words[3], "")
    if best is None:
        end(10, "no plan exists\nsplits 0\n")
    write(words[1], text(plans[-1][1]))
    end(0, f"plan found\nscore {{plans[-1][0]}}\nbound {{best // 2}}\nsplits 0\n")
elif command == "improve":
    do(words[2])
    if best is None:
        end(10, "no plan exists\n")
    old = None if words[1] == "-" else score_of(words[1])
    at = len(plans) - 1 if old is None else [score for score, _ in plans].index(old)
    at = max(0, at - 1 - (int(words[4]) + int(words[3])) % 3)
    if old is None and "lucky" in doing:
        at = 1
    write(words[2], text(plans[at][1]))
    end(0, f"plan improved\nscore {{plans[at][0]}}\nbefore {{old}}\n")
elif command == "bound":
    do(words[3])
    old = best // 4 if words[2] == "-" else bound_of(words[2])
    new = old + (best - old) * min(int(words[4]), 9) // 10
    nodes = ["cost 0"] if words[2] == "-" else read(words[2]).split("\n")[4:-1]
    own, count = map(int, part[5:].split("/")) if part else (0, 1)
    leaves = sum(node == "cost 0" for node in nodes)
    each, made, number = min(int(words[4]), 40) * count // leaves, [], 0
    for node in nodes:
        is_own = node == "cost 0" and number % count == own
        number += node == "cost 0"
        made += ["split 1 1", "cost 0"] * (each if is_own else 0) + [node]
    write(words[3], certificate(new).replace("cost 0\n", "\n".join(made) + "\n"))
    splits = (len(made) - len(nodes)) // 2
    end(0, f"bound {{new}}\nlists 1\nsplits {{splits}}\nkept {{leaves}}\nchanged 0\nrounded 0\n")
end(2, "refused words\n")
"""

# Takes the place of GNU parallel: one machine, with a folder of its own, makes the calls one after the other. Behind
# each of them a shell runs the file `odd` there, with its name. What was made comes back as it is, links as links.
PARALLEL = r"""#!{python} -IS
import os, shutil, subprocess, sys
words, home = sys.argv[1:], {home!r}
values = lambda name: [words[at + 1] for at in range(words.index(":::")) if words[at] == name]
run = lambda folder, *call: subprocess.run(call, cwd=folder, stdin=subprocess.DEVNULL)
if "--nonall" in words:
    run(home, "sh", "-c", words[-1])
    sys.exit(0)
at = words.index(":::")
folder = os.path.join(home, *values("--workdir"))
os.makedirs(folder, exist_ok=True)
for name in words[at + 1:]:
    for file in values("--transferfile"):
        shutil.copy(file.replace("{{}}", name), folder)
    run(folder, "sh", "-c", words[at - 1].replace("{{}}", name))
    run(folder, "sh", {odd!r}, name)
    for file in values("--return"):
        run(".", "cp", "-a", os.path.join(folder, file.replace("{{}}", name)), ".")
"""


class Results:
    passed = failed = 0


def same(what, found, wanted):
    if found == wanted:
        Results.passed += 1
    else:
        Results.failed += 1
        print(f"{what}: found {found!r}, and not {wanted!r}", flush=True)


def has(what, text, pattern):
    same(f"{what}, {pattern!r} in {text!r}", re.search(pattern, text, re.MULTILINE) is not None, True)


def read(*names):
    with open(os.path.join(*names), encoding="utf-8", errors="replace") as file:
        return file.read()


class Room:
    """A folder with stand-ins, an instance, and what the stand-ins are told and tell."""

    def __init__(self, folder):
        self.folder = os.path.realpath(folder)
        for name in ("programs", "told"):
            os.mkdir(self.file(name))
        text = STAND_IN.format(python=sys.executable, tools=HERE, told=self.file("told"))
        for name in ("planner_cli", "plan_refine"):
            self.write(text, "programs", name)
            os.chmod(self.file("programs", name), 0o755)
        self.instance = self.drawn("instance", 1)
        self.number, self.has_programs = 0, False

    def file(self, *names):
        return os.path.join(self.folder, *names)

    def write(self, text, *names):
        with open(self.file(*names), "w", encoding="utf-8") as file:
            file.write(text)
        return self.file(*names)

    def drawn(self, name, seed, plans=60):
        """An instance of the stand-ins: plans and their scores."""
        source, found = random.Random(seed), {}
        for _ in range(plans):
            starts = " ".join(str(source.randint(1, 9)) for _ in range(6))
            found[starts] = 10 ** 19 + source.randrange(10 ** 19)
        return self.write(json.dumps({"plans": found}), f"{name}.json")

    def fresh(self):
        """The name of a folder that isn't there."""
        self.number += 1
        return self.file(f"plan-{self.number}")

    def tell(self, **what):
        """Says what the commands are to do: nothing else than before where nothing is said."""
        for name in os.listdir(self.file("told")):
            os.remove(self.file("told", name))
        for command, doing in what.items():
            self.write(doing, "told", command.replace("_", "-"))

    def calls(self):
        path = self.file("told", "calls")
        return read(path).split("\n")[:-1] if os.path.exists(path) else []

    def environment(self):
        return {**os.environ, "GADVRESA_PROGRAMS": self.file("programs"), "PYTHONDONTWRITEBYTECODE": "1"}

    def machine(self, odd):
        """Words and variables of a run over a machine that does something odd behind each call, in a shell; $1 is the
        name of the file that comes back.
        """
        for name in ("machine", "home"):
            os.makedirs(self.file(name), exist_ok=True)
        self.write(PARALLEL.format(python=sys.executable, home=self.file("home"), odd=self.file("odd")), "machine",
                   "parallel")
        os.chmod(self.file("machine", "parallel"), 0o755)
        self.write(odd, "odd")
        path = f"{self.file('machine')}{os.pathsep}{os.environ['PATH']}"
        return f"hosts={self.write('one' + chr(10) + 'other' + chr(10), 'hosts')}", {**self.environment(), "PATH": path}

    def start(self, *words, **more):
        how = {"stdin": subprocess.DEVNULL, "stdout": subprocess.PIPE, "stderr": subprocess.PIPE, "text": True,
               "env": self.environment(), "cwd": self.folder, "start_new_session": True, **more}
        return subprocess.Popen([PLAN, *map(str, words)], **how)

    def plan(self, *words, **more):
        """The status of a call, and what it says on standard output and standard error."""
        process = self.start(*words, **more)
        try:
            said, errors = process.communicate(timeout=LIMIT)
        except subprocess.TimeoutExpired:
            os.killpg(process.pid, signal.SIGKILL)
            said, errors = process.communicate()
            same(f"the end of {words}: {errors}", "none in time", "an end")
        return process.returncode, said, errors

    def check(self, folder):
        words = [self.file("programs", "plan_refine"), "check", self.instance, os.path.join(folder, "plan.txt"),
                 os.path.join(folder, "plan.cert")]
        ran = subprocess.run(words, stdout=subprocess.PIPE, text=True)
        return ran.returncode, ran.stdout

    def use(self, programs):
        """Takes built programs in the place of the stand-ins, and a drawn year."""
        for path in programs:
            name = os.path.basename(path).partition(".")[0]
            if name in ("planner_cli", "plan_refine"):
                os.remove(self.file("programs", name))
                shutil.copyfile(path, self.file("programs", name))
                os.chmod(self.file("programs", name), 0o755)
        subprocess.run([os.path.join(TOP, "examples", "year", "draw"), self.file("year")], check=True)
        self.instance, self.has_programs = self.file("year", "instance.json"), True

    def limited(self, kilobytes):
        """A folder with the programs, which get so much memory at most."""
        folder = self.file(f"programs-{kilobytes}")
        os.makedirs(folder, exist_ok=True)
        for name in ("planner_cli", "plan_refine"):
            text = f"#!/bin/sh\nulimit -v {kilobytes}\nexec '{self.file('programs', name)}' \"$@\"\n"
            self.write(text, os.path.basename(folder), name)
            os.chmod(os.path.join(folder, name), 0o755)
        return folder

    def parallels(self):
        """The processes of GNU parallel that run for this room."""
        return self.running(lambda words: any(b"one_task" in word for word in words)
                            and any(b"parallel" in word for word in words))

    def alive(self):
        """The programs that run."""
        return self.running(lambda words: any(word.startswith(self.file("programs").encode()) for word in words))

    def at_work(self, folder, command=None):
        """The processes whose own folder is in a folder; of a command of `plan_refine` alone where one is named."""
        asked = lambda words: command is None or b"./plan_refine" in words and command.encode() in words

        def is_there(pid):
            try:
                return os.readlink(f"/proc/{pid}/cwd").startswith(os.path.realpath(folder) + os.sep)
            except OSError:
                return False

        return [pid for pid in self.running(asked) if is_there(pid)]

    def running(self, holds):
        found = []
        for name in filter(str.isdigit, os.listdir("/proc")):
            try:
                with open(f"/proc/{name}/cmdline", "rb") as file:
                    words = file.read().split(b"\0")
                with open(f"/proc/{name}/stat", "rb") as file:
                    state = file.read().rpartition(b")")[2].split()[0]
            except OSError:
                continue
            if state != b"Z" and holds(words):
                found.append(int(name))
        return found


def until(what, holds):
    """Waits until that holds."""
    end = time.monotonic() + LIMIT
    while not holds():
        if time.monotonic() > end:
            same(what, "never", "at last")
            return
        time.sleep(0.02)


def score_in(folder):
    """The score and the bound that stand in the last line of the progress."""
    rounds = read_progress(os.path.join(folder, "progress.tsv"))
    return tuple(int(it) for it in rounds[-1][1:3])
