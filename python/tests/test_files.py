"""Plans, names that are hostile to texts, and instances as they are read."""
import json
import os
import pickle
import threading
from fractions import Fraction

import gadvresa
import pytest
from gadvresa import Certificate, Instance, Plan, whole_files

HOSTILE = ["slack=0.001", "S1", "end", "-", "--help", "a\u2028b", "c\u0085d", "e\u00a0f", "</script>", "\"'`$(x)", "\\",
           "\u202eright-to-left", "x" * 128, "\U0001f4a1", "rounded", "g\u2003h", "%s{}", "../../etc", "i\ufeff"]


def hostile_file(tmp_path):
    """An instance whose interventions, resources and exclusions have hostile names."""
    works = {name: {"tmax": 2, "Delta": [1, 1], "workload": {name: {"1": {"1": 1}, "2": {"2": 0.5}}},
                    "risk": {"1": {"1": [1]}, "2": {"2": [0.25]}}} for name in HOSTILE}
    root = {"Resources": {name: {"max": [1, 1], "min": [0, 0]} for name in HOSTILE}, "Seasons": {"end": [1]},
            "Interventions": works, "Exclusions": {"clash": [HOSTILE[0], HOSTILE[1], "end"]}, "T": 2,
            "Scenarios_number": [1, 1], "Quantile": 0.5, "Alpha": 0.5}
    path = tmp_path / "slack=0"
    path.write_text(json.dumps(root, ensure_ascii=False), encoding="utf-8")
    return path


def test_hostile_names(tmp_path):
    path = hostile_file(tmp_path)
    instance = Instance.read(path)
    assert list(instance.interventions) == HOSTILE == list(instance.resources)
    plan = Plan(dict.fromkeys(HOSTILE, 2))
    assert Plan.of_text(plan.text()) == plan and len(plan.text().split("\n")) == len(HOSTILE) + 1
    plan.write(tmp_path / "-")
    os.chdir(tmp_path)
    for given in (plan, dict(plan), "-", tmp_path / "-"):
        assert gadvresa.evaluate("slack=0", given, slack="0.0001").feasible
    for name in HOSTILE:
        assert gadvresa.evaluate(path, plan.without(name)).rule.name == name
    broken = gadvresa.evaluate(path, plan.moved({HOSTILE[0]: 1, HOSTILE[1]: 1})).rule
    assert (broken.code, broken.name, broken.period) == ("X1", "clash", 1)
    table = gadvresa.table(path, plan)
    assert [run.name for run in table.periods[1].runs] == HOSTILE
    assert [load.resource for load in table.periods[0].loads] == HOSTILE
    script = [gadvresa.move(HOSTILE[5], 1), gadvresa.swap(HOSTILE[2], HOSTILE[6])]
    assert gadvresa.replay(path, plan, script).lines == 2


def test_names_that_no_instance_has():
    for name in ("", "a b", "a\nb", "a\tb", "\x7f", "x" * 129, "\u00e9" * 65):
        with pytest.raises(ValueError):
            Plan({name: 1})
        with pytest.raises(ValueError):
            gadvresa.move(name, 1)
    with pytest.raises(TypeError):
        Plan({1: 1})
    for start in (-1, 10 ** 9):
        with pytest.raises(ValueError):
            Plan({"a": start})
    for start in (1.0, "1", None, True):
        with pytest.raises(TypeError):
            Plan({"a": start})


def test_plans_are_read_as_the_programs_read_them(tmp_path):
    path = tmp_path / "plan"
    path.write_bytes(b"a  1  \r\n\n   \nb\xff 007\nc 2")
    plan = Plan.read(path)
    assert list(plan.values()) == [1, 7, 2]
    plan.write(path)
    assert path.read_bytes() == b"a 1\nb\xff 7\nc 2\n"
    for text, line in (("a 1\nb", 2), (" a 1", 1), ("a\t1", 1), ("a 1234567890", 1), ("a -1", 1), ("a 1\na 2", 2),
                       ("a 1\n\nb 1.0", 3), ("a 1 \r\r\n", 1)):
        with pytest.raises(ValueError, match=f"line {line} "):
            Plan.of_text(text)


def test_plans_as_mappings():
    plan = Plan({"a": 1, "b": 2})
    assert plan == {"a": 1, "b": 2} and hash(plan) == hash(Plan({"b": 2, "a": 1}))
    assert plan.moved(a=3) == {"a": 3, "b": 2} and plan["a"] == 1
    assert plan.changes({"b": 3, "c": 1}) == {"a": (1, None), "b": (2, 3), "c": (None, 1)}
    with pytest.raises(TypeError):
        plan["a"] = 2
    assert Plan(plan) == Plan(plan.items()) == plan


def test_a_file_is_written_whole_or_not_at_all(tmp_path):
    path, link = tmp_path / "plan", tmp_path / "link"
    path.write_text("old\n")
    path.chmod(0o640)
    link.symlink_to(path)
    Plan({"a": 1}).write(link)
    assert path.read_text() == "a 1\n" and link.is_symlink() and path.stat().st_mode & 0o777 == 0o640
    with pytest.raises(OSError):
        Plan({"a": 1}).write(tmp_path)
    with pytest.raises(OSError):
        Plan({"a": 1}).write(tmp_path / "none" / "plan")
    assert sorted(os.listdir(tmp_path)) == ["link", "plan"]


@pytest.mark.parametrize("mask", [0o077, 0o027, 0o002])
def test_new_files_are_allowed_what_the_umask_leaves(tmp_path, monkeypatch, mask):
    def never(_):
        raise AssertionError("the umask of all threads was changed")

    before = os.umask(mask)
    try:
        with monkeypatch.context() as patch:
            patch.setattr(os, "umask", never)
            Plan({"a": 1}).write(tmp_path / "plan")
    finally:
        os.umask(before)
    assert (tmp_path / "plan").stat().st_mode & 0o777 == 0o666 & ~mask


def test_an_instance_in_the_forms_of_the_challenge():
    instance = Instance.read("examples/challenge/instance.json")
    work = instance.interventions["I1"]
    assert (work.last_start, work.durations, work.starts) == (2, (2, 1), (1, 2))
    assert work.load("c1", 1, 1) == Fraction("10.5") and work.load("c1", 3, 1) == 0 and work.load("none", 1, 1) == 0
    assert work.risks(1, 1) == (4, 8, 3) and work.float_risks(2, 2) == [6.0, 2.0]
    assert work.counted_risks(1, 1) == [4 * 10 ** 12, 8 * 10 ** 12, 3 * 10 ** 12]
    assert instance.seasons["winter"] == {1, 3} and instance.alpha == Fraction(1, 2)
    assert [instance.rank(t) for t in (1, 2, 3)] == [3, 2, 4]
    assert instance.meeting("E1", {"I1": 1, "I2": 2}) == (2,) and instance.meeting("E1", {"I1": 1, "I2": 1}) == ()
    with pytest.raises(ValueError):
        work.run(3)
    with pytest.raises(ValueError):
        work.risks(3, 1)


def test_the_loads_of_one_run():
    instance = Instance.read("examples/challenge/instance.json")
    for work in instance.interventions.values():
        for start in work.starts:
            rows = {name: tuple(work.load(name, t, start) for t in work.run(start)) for name in instance.resources}
            assert work.run_loads(start) == {name: row for name, row in rows.items() if any(row)}
    with pytest.raises(ValueError):
        work.run_loads(9)


def test_counted_loads_are_those_of_allowed_runs(tmp_path):
    """A load of 0, one outside the run of its start, and one of a start that isn't allowed are left out."""
    loads = {"1": {"1": 2, "2": 9}, "2": {"1": 0, "2": 0.0000000000005}, "3": {"2": 1e-3, "3": 4}}
    work = {"tmax": 3, "Delta": [2, 2, 2], "workload": {"crew": loads}, "risk": {}}
    path = tmp_path / "instance.json"
    path.write_text(json.dumps({"Interventions": {"line": work}, "T": 3}))
    line = Instance.read(path).interventions["line"]
    assert line.counted_loads("crew") == {(1, 1): 2 * 10 ** 12, (2, 2): 1, (3, 2): 10 ** 9}
    assert line.counted_loads("none") == {}


def test_a_season_may_list_periods_past_the_year(tmp_path):
    path = tmp_path / "file"
    path.write_text('{"T": 3, "Seasons": {"late": [9, 2, 2, "1e0"], "none": []}}')
    instance = Instance.read(path)
    assert instance.listed_seasons == {"late": (1, 2, 9), "none": ()}
    assert instance.seasons == {"late": {1, 2}, "none": frozenset()}


def test_only_what_is_asked_for_is_made(tmp_path, monkeypatch):
    made, loads = [], json.loads
    monkeypatch.setattr(json, "loads", lambda text, **how: made.append(text) or loads(text, **how))
    instance = Instance.read("examples/challenge/instance.json")
    assert instance.periods == 3 and list(instance.interventions)
    assert not any("risk" in text or "workload" in text for text in made if len(text) > 20)
    broken = tmp_path / "file"
    broken.write_text('{"T": 3, "Alpha": 0.5, "Interventions": {"a": {"tmax": oops}}}')
    assert Instance.read(broken).periods == 3
    with pytest.raises(gadvresa.Unreadable):
        print(Instance.read(broken).interventions)


def test_mapped_and_sent_instances():
    instance, mapped = (how("examples/challenge/instance.json") for how in (Instance.read, Instance.mapped))
    assert instance.interventions == mapped.interventions and instance.resources == mapped.resources
    for each in (instance, mapped):
        copy = pickle.loads(pickle.dumps(each))
        assert copy.interventions == each.interventions and copy.path == each.path
        work = pickle.loads(pickle.dumps(each.interventions["I1"]))
        assert work.risks(1, 1) == (4, 8, 3) and work.run_loads(1) == each.interventions["I1"].run_loads(1)


@pytest.mark.parametrize("text, kept", [
    ("0.123456789012", "0.123456789012"), ("0.1234567890123456789", "0.123456789012"), ("1e-1000000000", "0"),
    ("-5e-13", "-0.000000000001"), ("4.999" + "9" * 80 + "e-13", "0"), ("1" + "0" * 300 + "e-300", "1"),
    ("-99999999.999999999999", "-99999999.999999999999"), ("0e999999999999999999999", "0")])
def test_numbers_are_those_that_the_programs_keep(tmp_path, text, kept):
    work = {"tmax": 1, "Delta": [1], "workload": {"c": {"1": {"1": "@"}}}, "risk": {"1": {"1": ["@"]}}}
    text = json.dumps({"Resources": {"c": {"max": ["@"], "min": ["@"]}}, "Interventions": {"a": work}, "T": 1,
                       "Alpha": "@", "Quantile": "@"}).replace('"@"', text)
    (tmp_path / "file").write_text(text)
    instance, number = Instance.read(tmp_path / "file"), Fraction(kept)
    read, band = instance.interventions["a"], instance.resources["c"]
    assert {*band.upper, *band.lower, *read.risks(1, 1), read.load("c", 1, 1), instance.alpha} == {number}
    assert instance.quantile == number


@pytest.mark.parametrize("text", ["1e400", "1e999999999999999999999", "1e-1000000000", "NaN", "-1", "1.5", "1e9",
                                  "1." + "0" * 100 + "1", "100000000"])
def test_numbers_that_no_instance_has(tmp_path, text):
    (tmp_path / "file").write_text(f'{{"T": {text}, "Alpha": {text}, "Seasons": {{"s": [{text}]}}}}')
    instance = Instance.read(tmp_path / "file")
    for name in ("periods", "seasons"):
        if text != "100000000":
            with pytest.raises(gadvresa.Unreadable):
                getattr(instance, name)
    if text not in ("1e-1000000000", "-1", "1.5", "1." + "0" * 100 + "1"):
        with pytest.raises(gadvresa.Unreadable):
            print(instance.alpha)


def test_what_is_no_instance(tmp_path):
    with pytest.raises(OSError):
        Instance.read(tmp_path / "none")
    path = tmp_path / "file"
    for text in ("", "[1]", "{}", '{"T": "x"}', '{"T": 1.5}', "[" * 100000, '{"T": null}', "\x80"):
        path.write_text(text, encoding="latin-1")
        instance = Instance.read(path)
        with pytest.raises(gadvresa.Unreadable):
            print(instance.periods)
    assert repr(instance) == f"Instance({str(path)!r})" and os.fspath(instance) == str(path)


@pytest.mark.parametrize("key, table", [
    ("workload", 5), ("workload", {"c": 5}), ("workload", {"c": {"1": {"x": 1}}}),
    ("workload", {"c": {"1": {"1": "x"}}}), ("workload", {"c": {"1": {"1": None}}}), ("risk", 5), ("risk", {"1": 5}),
    ("risk", {"1": {"x": []}}), ("risk", {"1": {"1": 12}}), ("risk", {"1": {"1": ["x"]}}),
    ("risk", {"1": {"1": [None]}}), ("risk", {})])
def test_tables_that_are_none(tmp_path, key, table):
    work = {"tmax": 1, "Delta": [1], "workload": {}, "risk": {"1": {"1": [1]}}, key: table}
    path = tmp_path / "file"
    path.write_text(json.dumps({"T": 1, "Interventions": {"a": work}}))
    read = Instance.read(path).interventions["a"]
    calls = {"workload": (lambda: read.load("c", 1, 1), lambda: read.float_load("c", 1, 1)),
             "risk": (lambda: read.risks(1, 1), lambda: read.float_risks(1, 1))}
    for call in calls[key]:
        with pytest.raises(gadvresa.Unreadable, match=f"a: {key}"):
            call()


def test_numbers_that_are_no_lists(tmp_path):
    path = tmp_path / "file"
    path.write_text(json.dumps({
        "T": 2, "Scenarios_number": 12, "Resources": {"c": {"max": 12, "min": [0, 0]}}, "Seasons": {"s": 12},
        "Exclusions": {"e": "abs"}, "Interventions": {"a": {"tmax": 2, "Delta": 12, "workload": {}, "risk": {}}}}))
    for name in ("scenarios", "resources", "seasons", "exclusions", "interventions"):
        with pytest.raises(gadvresa.Unreadable, match="is no list"):
            getattr(Instance.read(path), name)


def test_an_interrupt_behind_the_writing_stays_one(tmp_path, monkeypatch):
    replace = os.replace

    def interrupted(*words):
        replace(*words)
        raise KeyboardInterrupt

    monkeypatch.setattr(os, "replace", interrupted)
    with pytest.raises(KeyboardInterrupt):
        Plan({"a": 1}).write(tmp_path / "plan")
    assert (tmp_path / "plan").read_text() == "a 1\n"


@pytest.mark.parametrize("read", [Plan.read, Certificate.read, Instance.read, Instance.mapped])
def test_a_device_is_no_file(read):
    with pytest.raises(OSError, match="is no "):
        read("/dev/zero")


@pytest.mark.parametrize("read", [Instance.read, Instance.mapped])
def test_an_instance_is_no_pipe(read, tmp_path):
    os.mkfifo(tmp_path / "pipe")
    with pytest.raises(OSError, match="is no regular file"):
        read(tmp_path / "pipe")


def test_plans_and_certificates_of_pipes(tmp_path):
    os.mkfifo(tmp_path / "pipe")
    for read, data, wanted in ((Plan.read, b"a 1\n", Plan({"a": 1})), (Certificate.read, b"c", Certificate(b"c"))):
        writer = threading.Thread(target=(tmp_path / "pipe").write_bytes, args=(data,))
        writer.start()
        assert read(tmp_path / "pipe") == wanted
        writer.join()


def test_a_file_without_an_end_is_read_up_to_a_bound(monkeypatch, tmp_path):
    monkeypatch.setattr(whole_files, "LARGEST", 10)
    monkeypatch.setattr(whole_files, "AT_ONCE", 4)
    path = tmp_path / "plan"
    for text, fits in ((b"a 12345678", True), (b"a 123456789", False)):
        path.write_bytes(text)
        if fits:
            assert Plan.read(path) == Plan({"a": 12345678})
        else:
            with pytest.raises(OSError, match="has more than 10 bytes"):
                Plan.read(path)
