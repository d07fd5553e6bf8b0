"""The calls and what they answer, each status, and how calls end that have no answer."""
import os
import pickle
import signal
import subprocess
import sys
import threading
import time
from decimal import Decimal
from fractions import Fraction

import gadvresa
import pytest
from gadvresa import Outcome, Plan

SUMMER = "examples/summer/instance.json"
SHORT = "examples/summer/short.json"
NONE = "examples/summer/none.json"
GOOD = {"north-line": 1, "south-line": 3}


def test_a_plan_that_keeps_the_rules():
    judged = gadvresa.evaluate(SUMMER, "examples/summer/plan.txt")
    assert judged.feasible and judged.rule is None
    assert (judged.score, judged.rounded) == (3 * 10 ** 18, 0)
    assert judged.mean.low == Fraction("1.416666666666") and judged.mean.high == Fraction("1.416666666667")
    assert Fraction(17, 12) in judged.mean and float(judged.cost) == 1.0
    assert judged.called.status == 0 and judged.called.words[0] == "evaluate"
    assert os.path.basename(judged.called.program) == "planner_cli"


@pytest.mark.parametrize("plan, code, name", [
    ({"north-line": 1}, "S1", "south-line"), ({"north-line": 3, "south-line": 3}, "S2", "north-line"),
    ({"north-line": 1, "south-line": 1}, "B1", "crew"), ({"north-line": 1, "south-line": 2}, "X1", "both-lines")])
def test_broken_rules_are_answers(plan, code, name):
    judged = gadvresa.evaluate(SUMMER, plan)
    assert not judged.feasible and judged.cost is None
    assert (judged.rule.code, judged.rule.name) == (code, name)


def test_a_run_past_the_end():
    rule = gadvresa.evaluate("examples/refused/rule_instance.json", "examples/refused/rule_past_horizon.txt").rule
    assert rule.code == "S3" and str(rule).endswith("goes past the last period")


def test_the_slack_widens_limits():
    over = "examples/challenge/instance.json", "examples/challenge/over.txt"
    assert gadvresa.evaluate(*over).rule.load == Fraction("20.500004")
    for slack in (1e-5, "0.00001", Decimal("0.00001"), Fraction(1, 100000)):
        assert gadvresa.evaluate(*over, slack=slack).feasible
    for slack in (0.002, -1e-6, "1e-13", "much", "", float("nan"), float("inf"), True, [1]):
        with pytest.raises(ValueError, match="slack"):
            gadvresa.evaluate(*over, slack=slack)


def test_solve_and_check():
    solved = gadvresa.solve(SUMMER, 100)
    assert solved.outcome is Outcome.FOUND and solved.plan == {"north-line": 2, "south-line": 3}
    assert (solved.score, solved.gap, solved.gap_percent) == (solved.bound, 0, 0.0)
    checked = gadvresa.check(SUMMER, solved.certificate, solved.plan)
    assert (checked.bound, checked.score, checked.gap) == (solved.bound, solved.score, 0)
    alone = gadvresa.check(SUMMER, solved.certificate)
    assert alone.score is None and alone.gap_percent is None and alone.bound_cost == Fraction(1, 2)


def test_nothing_found_and_no_plan():
    solved = gadvresa.solve(SUMMER, 0)
    assert solved.outcome is Outcome.NOTHING_FOUND and solved.plan is None and solved.bound is not None
    assert gadvresa.check(SUMMER, solved.certificate).bound == solved.bound
    solved = gadvresa.solve(NONE, 100)
    assert solved.outcome is Outcome.NO_PLAN_EXISTS and solved.plan is None and solved.bound is None
    assert gadvresa.check(NONE, solved.certificate).bound is None


def test_repair_and_audit():
    repaired = gadvresa.repair(SHORT, "examples/summer/best.txt", 10)
    assert (repaired.outcome, repaired.changed, repaired.least) == (Outcome.FOUND, 1, 1)
    assert gadvresa.audit(SHORT, "examples/summer/best.txt", repaired.certificate).least == 1
    with pytest.raises(gadvresa.CertificateRefused) as refused:
        gadvresa.audit(SHORT, {"north-line": 2, "south-line": 1}, repaired.certificate)
    assert refused.value.leaf is not None and refused.value.kind == "certificate leaf"
    repaired = gadvresa.repair(NONE, GOOD, 10)
    assert repaired.outcome is Outcome.NO_PLAN_EXISTS
    assert gadvresa.audit(NONE, GOOD, repaired.certificate).least is None
    repaired = gadvresa.repair(SHORT, GOOD, 0)
    assert repaired.outcome is Outcome.NOTHING_FOUND and repaired.plan is None


def test_rebound():
    made = gadvresa.rebound(SUMMER, "examples/summer/short.cert")
    assert (made.kept, made.changed) == (3, 1)
    assert gadvresa.check(SUMMER, made.certificate, "examples/summer/best.txt").gap == 0


def test_roll(tmp_path):
    out = tmp_path / "rest.json"
    rolled = gadvresa.roll(SUMMER, GOOD, 2, out)
    assert (rolled.kept, rolled.free) == (1, 1)
    assert rolled.instance.interventions["north-line"].starts == (1,)
    assert gadvresa.roll(rolled.instance, GOOD, 4, out).kept == 2
    assert os.listdir(tmp_path) == ["rest.json"]
    with pytest.raises(gadvresa.BrokenRule) as broken:
        gadvresa.roll(SUMMER, {"north-line": 9}, 20, out)
    assert broken.value.rule.code == "S2"


def test_replay():
    script = [gadvresa.move("south-line", 2), gadvresa.UNDO]
    replayed = gadvresa.replay(SUMMER, GOOD, script)
    assert replayed.lines == 2 and [key.feasible for key in replayed.keys] == [True, False, True]
    with pytest.raises(gadvresa.ScriptRefused) as refused:
        gadvresa.replay(SUMMER, GOOD, [*script, gadvresa.UNDO])
    assert refused.value.place.line == 3 and len(refused.value.keys) == 3
    with pytest.raises(gadvresa.BrokenRule):
        gadvresa.replay(SUMMER, {"north-line": 1}, script)
    with pytest.raises(ValueError):
        gadvresa.replay(SUMMER, GOOD, ["undo\nundo"])
    assert gadvresa.replay(SUMMER, GOOD, []).lines == 0


def test_table_and_its_rows():
    table = gadvresa.table(SUMMER, "examples/summer/over.txt")
    assert [period.number for period in table.periods] == [1, 2, 3]
    assert table.periods[0].loads[0].state == "over" and table.periods[0].loads[0].load == 4
    rows = table.rows("loads")
    assert len(rows) == 3 and rows[0]["load"] == 4.0 and rows[0]["load_exact"] == "4.000000000000"
    assert {type(value) for row in rows for value in row.values()} == {int, float, str}
    assert [row["name"] for row in table.rows("runs") if row["period"] == 1] == ["north-line", "south-line"]
    assert table.rows("periods")[0]["mean_low"] == "2.500000000000"
    assert gadvresa.table(SUMMER, "examples/summer/clash.txt", 2, 2).rows("clashes") == [
        {"period": 2, "exclusion": "both-lines"}]
    with pytest.raises(ValueError, match="kind"):
        table.rows("works")
    with pytest.raises(gadvresa.BrokenRule):
        gadvresa.table(SUMMER, {})


def test_rows_go_into_a_data_frame():
    pandas = pytest.importorskip("pandas")
    frame = pandas.DataFrame(gadvresa.table(SUMMER, "examples/summer/over.txt").rows())
    assert frame.groupby("resource")["load"].max()["crew"] == 4.0


def test_bound_goes_on_with_a_certificate(folder):
    bounded = gadvresa.bound(SUMMER, GOOD, turns=10)
    assert bounded.outcome is Outcome.FOUND and bounded.score == 3 * 10 ** 18
    assert bounded.gap == bounded.score - bounded.bound and bounded.certificate.is_refined
    again = gadvresa.bound(SUMMER, None, bounded.certificate, 10)
    assert again.bound >= bounded.bound and again.score is None
    checked = gadvresa.check(SUMMER, again.certificate)
    assert checked.bound == again.bound and os.path.basename(checked.called.program) == "plan_refine"
    assert gadvresa.bound(SUMMER, {"north-line": 1, "south-line": 1}, turns=1).score is None
    assert gadvresa.bound(NONE, turns=10).outcome is Outcome.NO_PLAN_EXISTS
    assert gadvresa.rebound(SHORT, bounded.certificate).called.program.endswith("plan_refine")


def test_bound_of_a_part(folder):
    common = gadvresa.bound(SUMMER, GOOD, turns=0).certificate
    for part in ((0, 1), (1, 2), (999_999, 1_000_000)):
        bounded = gadvresa.bound(SUMMER, GOOD, common, 10, part=part, slack=0)
        assert bounded.called.words[-2:] == ("slack=0", f"part={part[0]}/{part[1]}")
        assert bounded.bound <= bounded.score and gadvresa.check(SUMMER, bounded.certificate).bound == bounded.bound
    assert gadvresa.bound(SUMMER, GOOD, common, 10, part=(999_999, 1_000_000)).splits == 0
    for part in ((1, 1), (-1, 2), (0, 0), (0, 1_000_001)):
        with pytest.raises(gadvresa.WordsRefused, match=f"part={part[0]}/{part[1]}"):
            gadvresa.bound(SUMMER, part=part)
    for part in ("0/2", 3, (0,), (0, 1, 2), [0, 2], (0.0, 2), (True, 2), (0, None)):
        with pytest.raises(TypeError, match="part"):
            gadvresa.bound(SUMMER, part=part)


def test_improve(folder):
    improved = gadvresa.improve(SUMMER, GOOD, 10, 7)
    assert improved.outcome is Outcome.FOUND and improved.score <= improved.before
    assert improved.changed == len(improved.plan.changes(GOOD))
    assert gadvresa.improve(SUMMER, None, 10).before is None
    assert gadvresa.improve(NONE, None, 10).plan is None


@pytest.mark.parametrize("words, error, kind, line", [
    (("examples/two_lines/cut.json", "examples/two_lines/plan.txt"), gadvresa.InstanceRefused, "instance syntax", 10),
    (("examples/two_lines/instance.json", "examples/two_lines/twice.txt"), gadvresa.PlanRefused, "plan twice", 2),
    ((SUMMER, "examples/refused/plan_bad_line.txt"), gadvresa.PlanRefused, "plan bad line", 2),
    ((SUMMER, {"no-line": 1}), gadvresa.PlanRefused, "plan unknown name", 1)])
def test_refused_files(words, error, kind, line):
    with pytest.raises(error) as refused:
        gadvresa.evaluate(*words)
    it = refused.value
    assert isinstance(it, ValueError) and it.kind == kind and it.called.status in (3, 4)
    assert it.place is not None and (line is None or it.place.line == line)
    assert str(it.place) in str(it)
    assert "to change" in it.explanation and it.line in it.explanation
    again = pickle.loads(pickle.dumps(it))
    assert (type(again), str(again), again.place, again.line) == (error, str(it), it.place, it.line)


def test_refused_certificates():
    with pytest.raises(gadvresa.CertificateRefused) as refused:
        gadvresa.check(SUMMER, "examples/summer/too_high.cert")
    assert refused.value.leaf == 4 and "to change" in refused.value.explanation
    with pytest.raises(gadvresa.CertificateRefused) as refused:
        gadvresa.check(SUMMER, gadvresa.Certificate(b"nothing\n"))
    assert refused.value.place.line == 1 and refused.value.leaf is None
    with pytest.raises(gadvresa.BrokenRule):
        gadvresa.check(SUMMER, "examples/summer/bound.cert", "examples/summer/over.txt")


def test_refused_words_and_files_that_are_not_there(tmp_path):
    with pytest.raises(gadvresa.WordsRefused, match="1000001"):
        gadvresa.solve(SUMMER, 1_000_001)
    with pytest.raises(gadvresa.WordsRefused):
        gadvresa.table(SUMMER, GOOD, 0, 1)
    with pytest.raises(gadvresa.WordsRefused):
        gadvresa.evaluate("", GOOD)
    with pytest.raises(TypeError):
        gadvresa.solve(SUMMER, 10.0)
    with pytest.raises(TypeError):
        gadvresa.evaluate(SUMMER, None)
    with pytest.raises(gadvresa.Unread, match="none.json") as unread:
        gadvresa.evaluate(tmp_path / "none.json", GOOD)
    assert isinstance(unread.value, OSError) and unread.value.explanation is None
    with pytest.raises(gadvresa.Unread, match="refused read 3"):
        gadvresa.evaluate(SUMMER, "-")
    with pytest.raises(FileNotFoundError):
        gadvresa.roll(SUMMER, GOOD, 2, tmp_path / "none" / "rest.json")
    with pytest.raises(ValueError, match="zero"):
        gadvresa.evaluate("a\0b", GOOD)


def test_programs_that_say_what_they_never_say(program):
    for text in ("echo feasible", "printf 'feasible'", "printf '\\xff\\xfe\\n'", "exit 0", "echo infeasible; exit 1",
                 "echo hello; exit 3", "exit 77", "echo refused words", "exit 9",
                 "printf 'infeasible\\nQ1 x\\nrounded 0\\n'; exit 1",
                 "printf 'feasible\\nscore 1.5\\n'", "printf 'feasible\\nscore 1\\ncost 1.0 1.0\\n'"):
        program(text)
        with pytest.raises(gadvresa.ProgramFailed) as failed:
            gadvresa.evaluate(SUMMER, GOOD)
        assert failed.value.called is not None
        assert pickle.loads(pickle.dumps(failed.value)).called == failed.value.called


def test_statuses_that_no_small_file_has(program):
    program("echo 'refused memory'; exit 11")
    with pytest.raises(MemoryError):
        gadvresa.evaluate(SUMMER, GOOD)
    program("echo 'refused output too long 4'; exit 12")
    with pytest.raises(gadvresa.TooLong):
        gadvresa.rebound(SUMMER, "examples/summer/bound.cert")
    program("echo 'refused write 3'; exit 8")
    with pytest.raises(OSError, match="made-plan"):
        gadvresa.solve(SUMMER, 1)
    program("exit 8")
    with pytest.raises(gadvresa.Unwritten):
        gadvresa.evaluate(SUMMER, GOOD)
    program("exit 13")
    with pytest.raises(gadvresa.ProgramFailed, match="13"):
        gadvresa.evaluate(SUMMER, GOOD)
    program("exit 127")
    with pytest.raises(gadvresa.ProgramFailed, match="processor"):
        gadvresa.evaluate(SUMMER, GOOD)


def test_a_program_that_was_killed(program):
    program("kill -9 $$")
    with pytest.raises(gadvresa.ProgramFailed, match="SIGKILL") as failed:
        gadvresa.solve(SUMMER, 10)
    assert failed.value.called.status == -9


def test_a_program_that_is_not_there(tmp_path, monkeypatch):
    monkeypatch.setenv("PATH", str(tmp_path))
    gadvresa.use(tmp_path)
    with pytest.raises(FileNotFoundError, match="planner_cli is not there") as missing:
        gadvresa.evaluate(SUMMER, GOOD)
    assert isinstance(missing.value, gadvresa.ProgramMissing)
    (tmp_path / "planner_cli").write_text("no program\n")
    with pytest.raises(gadvresa.ProgramMissing):
        gadvresa.evaluate(SUMMER, GOOD)
    (tmp_path / "planner_cli").chmod(0o755)
    (tmp_path / "planner_cli").write_bytes(b"\x7fELF\0\0\0")
    with pytest.raises(gadvresa.ProgramMissing, match="can't be started"):
        gadvresa.evaluate(SUMMER, GOOD)


def test_where_programs_are_found(folder, tmp_path, monkeypatch):
    gadvresa.use()
    monkeypatch.setenv("GADVRESA_PROGRAMS", folder)
    assert {it.found for it in gadvresa.programs().values()} == {"setting"}
    monkeypatch.delenv("GADVRESA_PROGRAMS")
    monkeypatch.setattr("gadvresa.running.finding.clone", lambda: None)
    monkeypatch.setenv("PATH", folder)
    found = gadvresa.programs()["plan_repair"]
    assert (found.found, found.path) == ("path", os.path.join(folder, "plan_repair"))
    # the planner of a package, whose programs aren't on the PATH themselves
    package = tmp_path / "lib"
    (package / "tools" / "front").mkdir(parents=True)
    (package / "out").mkdir()
    for name in ("planner", "receipt", "tools/front/words.bash", "out/planner_cli"):
        (package / name).write_text("#!/bin/sh\n")
        (package / name).chmod(0o755)
    (tmp_path / "bin").mkdir()
    (tmp_path / "bin" / "planner").symlink_to(package / "planner")
    monkeypatch.setenv("PATH", str(tmp_path / "bin"))
    assert gadvresa.programs()["planner_cli"].path == str(package / "out" / "planner_cli")
    assert gadvresa.programs()["plan_repair"] is None
    with pytest.raises(TypeError):
        gadvresa.use(planner="x")


def test_a_program_of_the_clone_has_to_stand_for_its_sources(tmp_path, monkeypatch):
    gadvresa.use()
    monkeypatch.setenv("PATH", os.environ["PATH"])
    (tmp_path / "tools").mkdir()
    (tmp_path / "out").mkdir()
    monkeypatch.setattr("gadvresa.running.finding.clone", lambda: str(tmp_path))
    program = tmp_path / "out" / "planner_cli"
    for name in ("planner_cli", "planner_cli.stamp"):
        (tmp_path / "out" / name).write_text("#!/bin/sh\n")
    program.chmod(0o755)
    for status, found in ((1, None), (0, "clone")):
        gadvresa.use()
        (tmp_path / "tools" / "planner_build").write_text(f"raise SystemExit({status})\n")
        it = gadvresa.programs()["planner_cli"]
        assert (it and it.found) == found


def is_alive(pid):
    try:
        os.kill(pid, 0)
    except ProcessLookupError:
        return False
    return True


def test_cancelled_and_late_calls(program, tmp_path):
    note = tmp_path / "pid"
    program(f"echo $$ >{note}\nexec sleep 100")
    event = threading.Event()
    threading.Timer(0.5, event.set).start()
    began = time.monotonic()
    with pytest.raises(gadvresa.Cancelled):
        gadvresa.solve(SUMMER, 10, cancel=event)
    assert time.monotonic() - began < 20 and not is_alive(int(note.read_text()))
    note.unlink()
    with pytest.raises(gadvresa.Cancelled):
        gadvresa.solve(SUMMER, 10, cancel=event)
    assert not note.exists()
    with pytest.raises(TimeoutError):
        gadvresa.solve(SUMMER, 10, timeout=0.5)
    assert not is_alive(int(note.read_text()))
    with pytest.raises(gadvresa.TimedOut):
        gadvresa.solve(SUMMER, 10, timeout=0.5, cancel=threading.Event())


@pytest.mark.parametrize("text", [
    "trap '' TERM INT HUP; while :; do sleep 0.1; done",
    "exec >&- 2>&-; sleep 100 & echo $! >{note}; wait",
    "sleep 100 & echo $! >{note}; wait",
    "setsid sleep 100 & echo $! >{note}; wait",
    "while :; do echo 0123456789 >&2; done",
])
def test_calls_end_in_their_time(program, tmp_path, text):
    note = tmp_path / "pid"
    program(text.format(note=note))
    began = time.monotonic()
    with pytest.raises(gadvresa.TimedOut):
        gadvresa.solve(SUMMER, 10, timeout=0.5)
    assert time.monotonic() - began < 20
    assert not note.exists() or waited_for(lambda: not is_alive(int(note.read_text())))


def test_what_a_program_leaves_holds_no_call(program, tmp_path):
    note = tmp_path / "pid"
    program(f"sleep 100 & echo $! >{note}; echo refused words; exit 2")
    began = time.monotonic()
    with pytest.raises(gadvresa.WordsRefused):
        gadvresa.solve(SUMMER, 10)
    assert time.monotonic() - began < 20 and waited_for(lambda: not is_alive(int(note.read_text())))


def test_ctrl_c_ends_the_program(program, tmp_path, monkeypatch):
    note, ended = tmp_path / "pid", []
    program(f"echo $$ >{note}\nexec sleep 100")
    whole = subprocess.Popen.poll

    def interrupted(process):
        if not ended and note.exists():
            ended.append(process.pid)
            raise KeyboardInterrupt
        return whole(process)

    monkeypatch.setattr(subprocess.Popen, "poll", interrupted)
    with pytest.raises(KeyboardInterrupt):
        gadvresa.solve(SUMMER, 10, cancel=threading.Event())
    assert not is_alive(ended[0])


CALL = "import gadvresa; gadvresa.solve({!r}, 10)"
HANDLED = """import signal, sys, gadvresa
signal.signal(signal.SIGTERM, lambda *_: sys.exit(5))
gadvresa.solve({!r}, 10)"""

# (the signal comes while the program is being started)
STARTING = """import os, signal, subprocess, sys, gadvresa
class Popen(subprocess.Popen):
    def __init__(self, *words, **more):
        super().__init__(*words, **more)
        with open(os.environ["GADVRESA_PROGRAMS"] + "/started", "w") as note:
            note.write(str(self.pid))
        os.kill(os.getpid(), signal.{name})
        os.getpid()
subprocess.Popen = Popen
{handler}
gadvresa.solve({instance!r}, 10)"""
EXITING = "signal.signal(signal.SIGTERM, lambda *_: sys.exit(5))"


def call_elsewhere(text, tmp_path, more=()):
    """A process of Python that runs a text, with a folder of its own for all that is made for a while."""
    rooms = tmp_path / "rooms"
    rooms.mkdir()
    variables = {**os.environ, "GADVRESA_PROGRAMS": str(tmp_path), "TMPDIR": str(rooms), "PYTHONPATH": "python/src"}
    process = subprocess.Popen([*more, sys.executable, "-c", text], env=variables, stderr=subprocess.PIPE,
                               start_new_session=True, preexec_fn=ignore_no_signal)
    return process, rooms


def ignore_no_signal():
    """Has a process begin with no signal ignored, also where the tests run under `nohup` or in the background."""
    for number in (signal.SIGINT, signal.SIGTERM, signal.SIGHUP):
        signal.signal(number, signal.SIG_DFL)


@pytest.mark.parametrize("text, number, status", [
    (CALL, signal.SIGTERM, -signal.SIGTERM), (CALL, signal.SIGHUP, -signal.SIGHUP), (HANDLED, signal.SIGTERM, 5)])
def test_signals_end_the_program_and_leave_no_folder(program, tmp_path, text, number, status):
    note = tmp_path / "pid"
    program(f"echo $$ >{note}\nexec sleep 100")
    process, rooms = call_elsewhere(text.format(SUMMER), tmp_path)
    assert waited_for(lambda: note.exists() and note.read_text()) and os.listdir(rooms)
    os.kill(process.pid, number)
    assert process.communicate(timeout=60) == (None, b"") and process.returncode == status
    assert os.listdir(rooms) == [] and not is_alive(int(note.read_text()))


@pytest.mark.parametrize("name, handler, status", [
    ("SIGTERM", EXITING, 5), ("SIGTERM", "", -signal.SIGTERM), ("SIGINT", "", -signal.SIGINT)])
def test_signals_end_a_program_that_is_being_started(program, tmp_path, name, handler, status):
    program("exec sleep 100")
    process, rooms = call_elsewhere(STARTING.format(name=name, handler=handler, instance=SUMMER), tmp_path)
    process.communicate(timeout=60)
    assert process.returncode == status
    assert os.listdir(rooms) == [] and not is_alive(int((tmp_path / "started").read_text()))


def test_signals_end_as_ever_behind_a_call(program, tmp_path):
    program("echo refused words; exit 2")
    process, rooms = call_elsewhere(f"try:\n    import gadvresa\n    gadvresa.evaluate({SUMMER!r}, {{}})\n"
                                    "except gadvresa.WordsRefused:\n    import os, signal\n"
                                    "    assert signal.getsignal(signal.SIGTERM) is signal.SIG_DFL\n"
                                    "    os.kill(os.getpid(), signal.SIGTERM)", tmp_path)
    assert process.communicate(timeout=60) == (None, b"") and process.returncode == -signal.SIGTERM
    assert os.listdir(rooms) == []


def test_ignored_signals_stay_so(program, tmp_path):
    program("kill -HUP $PPID; sleep 0.5; echo refused words; exit 2")
    process, rooms = call_elsewhere(CALL.format(SUMMER), tmp_path, ["nohup"])
    assert b"WordsRefused" in process.communicate(timeout=60)[1] and os.listdir(rooms) == []


FLOODED = """import gadvresa, resource
before = resource.getrusage(resource.RUSAGE_SELF).ru_maxrss
try:
    gadvresa.evaluate({!r}, {{}})
except gadvresa.WordsRefused as refused:
    called = refused.called
assert called.said == "refused words\\n", called.said[:100]
assert len(called.errors) < 100_000 and called.errors.endswith("x\\nlast\\n"), called.errors[-100:]
assert resource.getrusage(resource.RUSAGE_SELF).ru_maxrss - before < 50_000, "megabytes of standard error are kept"
"""


def test_of_standard_error_the_end_is_kept(program, tmp_path):
    program("head -c 300000000 /dev/zero | tr '\\0' x >&2; echo >&2; echo last >&2; echo refused words; exit 2")
    process, _ = call_elsewhere(FLOODED.format(SUMMER), tmp_path)
    assert process.communicate(timeout=60) == (None, b"") and process.returncode == 0


def test_all_of_a_long_report_is_kept():
    said = gadvresa.running.run_words(["sh", "-c", "head -c 30000000 /dev/zero; echo last; exit 3"])
    assert (said[0], len(said[1]), said[1][-5:], said[2]) == (3, 30_000_005, b"last\n", b"")


def waited_for(holds):
    """Whether that holds before a minute is over."""
    end = time.monotonic() + 60
    while not holds() and time.monotonic() < end:
        time.sleep(0.02)
    return holds()


def test_calls_side_by_side():
    from concurrent.futures import ThreadPoolExecutor
    plans = [Plan({"north-line": one, "south-line": other}) for one in (1, 2) for other in (1, 2, 3)] * 4
    with ThreadPoolExecutor(4) as pool:
        found = list(pool.map(lambda plan: gadvresa.evaluate(SUMMER, plan).feasible, plans))
    assert found == found[:6] * 4 and sum(found[:6]) == 3


def test_answers_can_be_sent_to_other_processes():
    solved = gadvresa.solve(SUMMER, 100)
    assert pickle.loads(pickle.dumps(solved)) == solved
