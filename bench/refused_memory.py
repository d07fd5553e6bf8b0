#!/usr/bin/env -S python3 -E -s
"""Runs each command on small files once for each allocation of the run, with that one refused, and prints the answers.

    bench/refused_memory.py [--planner PROGRAM] [--repair PROGRAM] [--refine PROGRAM] [--only "solve roll"]

PROGRAM is built `planner_cli`, as `./planner --build` prints it, `plan_repair` and `plan_refine`; they have to call the
allocator of the C library by its shared library. A small library that is preloaded, and made by `cc` in a temporary
folder, counts the calls of malloc, calloc and realloc and refuses the Nth one (`one`), or the Nth and all later ones
(`all`).

A run without a refusal tells how many there are and what the whole answer is: status, standard output and the files
that are written. Then each N is tried, and each run must end in one of three ways, of which the table has the numbers:

    words     status 11, nothing said: the system's words found no memory, before anything else
    memory    status 11, `refused memory` said and nothing else
    whole     the whole answer, as without a refusal

With the first two no file was opened for writing: each holds what it held before. `other` counts all other ends, as a
signal, another line, a file that was opened; some are printed, and the status is 1 where there is one. `first whole` is
the least N with the whole answer, if there is one: a growth whose refusal does no harm. A command that the program
doesn't have yet (status 2) has an empty row.
"""
import argparse
import os
import shlex
import subprocess
import sys
import tempfile
from concurrent.futures import ThreadPoolExecutor

LIBRARY = r"""
#define _GNU_SOURCE
#include <dlfcn.h>
#include <errno.h>
#include <fcntl.h>
#include <stdlib.h>
#include <sys/mman.h>

/* How many calls there were, in a file that stays when the process ends by any means. */
static unsigned long *calls;
static unsigned long refused_from, refused_to;
static void *(*real_malloc)(size_t);
static void *(*real_calloc)(size_t, size_t);
static void *(*real_realloc)(void *, size_t);

__attribute__((constructor)) static void begin(void)
{
    real_malloc = dlsym(RTLD_NEXT, "malloc");
    real_calloc = dlsym(RTLD_NEXT, "calloc");
    real_realloc = dlsym(RTLD_NEXT, "realloc");
    const char *from = getenv("REFUSED_FROM"), *to = getenv("REFUSED_TO");
    refused_from = strtoul(from ? from : "0", 0, 10);
    refused_to = strtoul(to ? to : "0", 0, 10);
    int file = open(getenv("CALLS_FILE"), O_RDWR);
    if (file < 0)
        _Exit(99);
    calls = mmap(0, sizeof *calls, PROT_READ | PROT_WRITE, MAP_SHARED, file, 0);
    if (calls == MAP_FAILED)
        _Exit(99);
}

static int refuses(void)
{
    if (!calls)
        return 0;
    *calls += 1;
    if (*calls < refused_from || *calls > refused_to)
        return 0;
    errno = ENOMEM;
    return 1;
}

void *malloc(size_t size) { return refuses() ? 0 : real_malloc(size); }
void *calloc(size_t count, size_t size) { return refuses() ? 0 : real_calloc(count, size); }
void *realloc(void *at, size_t size) { return refuses() ? 0 : real_realloc(at, size); }
"""
# For the test of this script itself: it makes three allocations, and ends with 11 where the second is refused, writes
# its file too early where the third is, and ignores the first.
FAULTY = r"""
#include <stdio.h>
#include <stdlib.h>
#include <unistd.h>
int main(int count, char **words)
{
    char *one = malloc(10), *two = malloc(20), *three;
    (void)one;
    if (!two) { write(1, "refused memory\n", 15); return 11; }
    FILE *out = 0;
    int file = creat(words[1], 0600);
    three = realloc(two, 3000);
    if (!three) { write(1, "refused memory\n", 15); return 11; }
    write(file, "text\n", 5);
    write(1, "done\n", 5);
    (void)out; (void)count;
    return 0;
}
"""

INSTANCE = """{"Resources":{"c":{"max":[10,10,10],"min":[0,0,0]},"d":{"max":[9.5,9,9],"min":[0,0,0]}},
"Seasons":{"w":["2","3"]},
"Interventions":{
"I1":{"tmax":3,"Delta":[2,1,1],
"workload":{"c":{"1":{"1":6},"2":{"1":6,"2":6},"3":{"3":6}},"d":{"1":{"1":2}}},
"risk":{"1":{"1":[1,3]},"2":{"1":[1,1],"2":[5,5]},"3":{"3":[2,0.5]}}},
"I2":{"tmax":3,"Delta":[1,1,1],
"workload":{"c":{"1":{"1":6},"2":{"2":6}}},
"risk":{"1":{"1":[2,2]},"2":{"2":[4,0]},"3":{"3":[1,1]}}},
"I3":{"tmax":2,"Delta":[1,1],"workload":{},"risk":{"1":{"1":[2,2.5]},"2":{"2":[4,0]}}}},
"Exclusions":{"E":["I1","I2","w"]},"T":3,"Scenarios_number":[2,2,2],
"Quantile":0.5,"Alpha":0.5,"more":["\\u00e9",{"x":1e5}]}"""
# Its greatest load is above every limit, so no plan keeps the rules.
TIGHT = INSTANCE.replace('"max":[10,10,10]', '"max":[1,1,1]')
PLAN = "I1 2\nI2 1\nI3 1\n"
TOGETHER = "I1 1\nI2 1\nI3 1\n"
CERTIFICATE = ("mpcert 2\nbound 100\nlists 1\nprices\nup 1 1 5\ntail 1 10 1 2\nex 1 2 7\ntree\n"
               "split 1 1\ncost 1\nsplit 2 1\ncost 0\ncost 0\n")
REFINED = ("mpcert 3\nbound 100\nlists 1\nprices\nup 1 1 5\nex 1 2 7\ncap\ntail 1 1 1000\ntail 1 2 1000\n"
           "off 1 1 1 5\nclq 2 7 1 2\ntree\nsplit 1 1\ncost 1\ncost 0\n")
SCRIPT = "move I1 3\nswap I1 I2\nundo\nmove I3 2\nundo\n"
CHANGES = "mpcert 2\nbound 0\nlists 0\ntree\nsplit 1 1\ncost 0\ncost 0\n"
FILES = {"i": INSTANCE, "tight": TIGHT, "bad": INSTANCE[:-1], "double": INSTANCE.replace('"d":{"max"', '"c":{"max"'),
         "unknown": INSTANCE.replace('["I1","I2","w"]', '["I1","I9","w"]'), "p": PLAN, "both": TOGETHER,
         "half": "I2 1\n", "badp": PLAN + "I9 1\n", "s": SCRIPT, "bads": SCRIPT + "undo\nundo\n", "c": CERTIFICATE,
         "badc": CERTIFICATE.replace("bound 100\n", "bound 90000000000000000000000\n"),
         "cutc": CERTIFICATE[:-1], "k": CHANGES, "r": REFINED, "cutr": REFINED[:-1]}
HELD = b"what was there\n"
# What each row runs: the words, of which those in capital letters are written.
PLANNER = ["evaluate i p", "evaluate i both", "evaluate i p slack=0.001", "evaluate bad p", "evaluate double p",
           "evaluate unknown p", "evaluate i badp", "replay i p s", "replay i p bads", "check i p c", "check i - c",
           "check i - badc", "check i - cutc", "solve i P C M 0", "solve i P C M 1", "solve i P C M 20",
           "solve tight P C M 20", "table i p 1 512", "roll i p 1 O", "roll i p 2 O", "rebound i c O",
           "rehearse 7 2"]
REPAIR = ["repair i p C O 20", "repair i both C O 20", "repair i half C O 20", "repair i both C O 0",
          "repair tight both C O 20", "audit i p k", "audit i both k", "audit i both badc"]
REFINE = ["check i p c", "check i p r", "check i - cutr", "rebound i r O", "bound i p - O 0", "bound i - - O 3",
          "bound i p r O 20", "bound tight - - O 20", "improve i p O 0 7", "improve i p O 1 7", "improve i - O 1 7",
          "improve i both O 1 7", "improve tight - O 1 7"]


class Room:
    """A folder with the files of a run, and what a run there comes to."""

    def __init__(self, program, words, library, folder):
        self.folder = folder
        self.words = words
        os.makedirs(folder)
        self.written = [word for word in words if word.isupper()]
        for word in set(words[1:]) & set(FILES):
            with open(os.path.join(folder, word), "w", encoding="utf-8") as out:
                out.write(FILES[word])
        self.calls = os.path.join(folder, "calls")
        self.program, self.library = program, library

    def run(self, first, last):
        """The number of allocations, and the answer: status, output, and what each written file holds."""
        for name in self.written:
            with open(os.path.join(self.folder, name), "wb") as out:
                out.write(HELD)
        with open(self.calls, "wb") as out:
            out.write(bytes(8))
        environment = {"LD_PRELOAD": self.library, "REFUSED_FROM": str(first), "REFUSED_TO": str(last),
                       "CALLS_FILE": self.calls}
        ran = subprocess.run([self.program, *self.words], cwd=self.folder, env=environment, stdin=subprocess.DEVNULL,
                             stdout=subprocess.PIPE, stderr=subprocess.STDOUT, timeout=300)
        with open(self.calls, "rb") as file:
            count = int.from_bytes(file.read(8), sys.byteorder)
        held = []
        for name in self.written:
            with open(os.path.join(self.folder, name), "rb") as file:
                held.append(file.read())
        return count, (ran.returncode, ran.stdout, held)


def kind_of(answer, whole, written):
    """What a run with a refusal came to."""
    untouched = [HELD] * len(written)
    if answer == whole:
        return "whole"
    if answer == (11, b"refused memory\n", untouched):
        return "memory"
    if answer == (11, b"", untouched):
        return "words"
    return "other"


KINDS = ("words", "memory", "whole", "other")


def tried(room, mode, count, whole):
    """How many refusals came to each kind, the least whose answer was whole, and those that came to no due end."""
    found, least, others = dict.fromkeys(KINDS, 0), None, []
    for n in range(1, count + 1):
        _, answer = room.run(n, n if mode == "one" else 2 ** 63)
        kind = kind_of(answer, whole, room.written)
        found[kind] += 1
        if kind == "whole" and least is None:
            least = n
        if kind == "other":
            others.append((n, answer))
    return found, least, others


def row(program, words, library, folder):
    """The lines of the table for a command, and what to say of other ends."""
    room = Room(program, words, library, folder)
    count, whole = room.run(0, 0)
    again, same = room.run(0, 0)
    call = " ".join(words)
    if (count, whole) != (again, same):
        return [], [f"{call}: two runs without a refusal differ"]
    if whole[0] == 2:
        return [f"| `{call}` | 2" + " |" * 10], []
    cells, others, wrong, harmless = [], 0, [], ""
    for mode in ("one", "all"):
        found, least, ends = tried(room, mode, count, whole)
        cells += [str(found[kind]) for kind in KINDS[:3]]
        others += found["other"]
        harmless = harmless or least or ""
        wrong += [f"{call}: {mode} {n}: {answer!r}" for n, answer in ends[:5]]
    return [f"| `{call}` | {whole[0]} | {count} | {' | '.join(cells)} | {harmless} | {others} |"], wrong


def build(folder, name, source, *flags):
    """Compiles a C text, and answers the path of what it makes."""
    path = os.path.join(folder, name)
    with open(path + ".c", "w", encoding="utf-8") as out:
        out.write(source)
    subprocess.run(["cc", "-O0", "-w", *flags, "-o", path, path + ".c", "-ldl"], check=True)
    return path


def self_test(library, folder):
    """Whether a program that does it wrongly is seen to."""
    faulty = build(folder, "faulty", FAULTY)
    room = Room(faulty, ["OUT"], library, os.path.join(folder, "faulty_room"))
    count, whole = room.run(0, 0)
    one, _, _ = tried(room, "one", count, whole)
    if (count, whole) != (3, (0, b"done\n", [b"text\n"])) or one != {"words": 0, "memory": 1, "whole": 1, "other": 1}:
        sys.exit(f"the self-test failed: {count} allocations, {whole}, {one}")


def main():
    parser = argparse.ArgumentParser(description=__doc__, formatter_class=argparse.RawDescriptionHelpFormatter)
    parser.add_argument("--planner", help="the built planner_cli", metavar="PROGRAM")
    parser.add_argument("--repair", help="the built plan_repair", metavar="PROGRAM")
    parser.add_argument("--refine", help="the built plan_refine", metavar="PROGRAM")
    parser.add_argument("--only", help="the commands, else all", metavar="WORDS")
    parser.add_argument("--jobs", type=int, default=2, help="how many commands are tried at a time")
    words = parser.parse_args()
    only = words.only.split() if words.only else None
    programs = (words.planner, PLANNER), (words.repair, REPAIR), (words.refine, REFINE)
    calls = [(program, shlex.split(call)) for program, calls in programs if program for call in calls
             if not only or call.split()[0] in only]
    if not calls:
        parser.error("give --planner, --repair or --refine")
    with tempfile.TemporaryDirectory(prefix="refused-") as folder:
        library = build(folder, "refuse.so", LIBRARY, "-shared", "-fPIC")
        self_test(library, folder)
        kinds = " | ".join(KINDS[:3])
        print(f"| words | status | allocations | one: {kinds} | all: {kinds} | first whole | other |", flush=True)
        print("|---|" + "--:|" * 10, flush=True)
        all_wrong = []
        with ThreadPoolExecutor(words.jobs) as pool:
            rooms = [os.path.join(folder, str(k)) for k in range(len(calls))]
            rows = [pool.submit(row, os.path.abspath(program), call, library, room)
                    for (program, call), room in zip(calls, rooms)]
            for future in rows:
                lines, wrong = future.result()
                all_wrong += wrong
                print("".join(line + "\n" for line in lines), end="", flush=True)
    for line in all_wrong:
        print(line)
    sys.exit(1 if all_wrong else 0)


if __name__ == "__main__":
    main()
