"""What the tests of the package share: the programs, which are stand-ins where GADVRESA_PROGRAMS names none."""
import os
import sys

import pytest

HERE = os.path.dirname(os.path.abspath(__file__))
TOP = os.path.dirname(HERE)
sys.dont_write_bytecode = True
sys.path.insert(0, os.path.join(HERE, "src"))
import gadvresa

STAND_IN = """#!{python} -IS
import sys
sys.dont_write_bytecode = True
sys.path.insert(0, {tests!r})
import stand_in
stand_in.run_as({name!r})
"""


@pytest.fixture(scope="session")
def folder(tmp_path_factory):
    """A folder with the programs: those of GADVRESA_PROGRAMS, and a stand-in for each that isn't there."""
    made = tmp_path_factory.mktemp("programs")
    given = os.environ.get("GADVRESA_PROGRAMS", "")
    for name in gadvresa.programs():
        path = os.path.join(given, name)
        if given and os.path.exists(path):
            os.symlink(os.path.abspath(path), made / name)
        else:
            text = STAND_IN.format(python=sys.executable, name=name, tests=os.path.join(HERE, "tests"))
            (made / name).write_text(text)
            (made / name).chmod(0o755)
    return str(made)


@pytest.fixture(autouse=True)
def programs(folder, monkeypatch):
    """Each test is in the top folder, and calls these programs."""
    monkeypatch.chdir(TOP)
    monkeypatch.delenv("GADVRESA_PROGRAMS", raising=False)
    gadvresa.use(folder)
    yield folder
    gadvresa.use()


@pytest.fixture
def program(tmp_path):
    """Makes a program of a text for bash, which is then called in the place of planner_cli."""

    def make(text):
        path = tmp_path / "planner_cli"
        path.write_text("#!/bin/bash\n" + text)
        path.chmod(0o755)
        gadvresa.use(planner_cli=path)
        return path

    return make
