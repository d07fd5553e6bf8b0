"""The wheel: what is in it, that the same sources give the same bytes, and that it is used without anything else.

The backend is that of pyproject.toml, called as pip and build call it, so no network is needed.
"""
import os
import shutil
import subprocess
import sys
import tarfile
import zipfile

import gadvresa
import pytest

PYTHON = os.path.dirname(os.path.dirname(os.path.abspath(__file__)))
BACKEND = "hatchling.build"
BUILD = "import importlib, sys; print(getattr(importlib.import_module(sys.argv[1]), sys.argv[2])(sys.argv[3]))"


@pytest.fixture
def built(tmp_path):
    """Builds a wheel or an archive of the sources, from a copy of them; answers its path."""
    pytest.importorskip("hatchling", reason="no hatchling: apt-get install python3-hatchling")

    def build(hook, name):
        copy, made = tmp_path / name, tmp_path / f"{name}-made"
        shutil.copytree(PYTHON, copy, ignore=shutil.ignore_patterns("__pycache__", "dist"))
        made.mkdir()
        words = [sys.executable, "-Bc", BUILD, BACKEND, hook, str(made)]
        said = subprocess.run(words, cwd=copy, stdout=subprocess.PIPE, check=True, text=True).stdout
        return made / said.rstrip("\n").split("\n")[-1]

    return build


def test_a_wheel(built):
    wheels = [built("build_wheel", name) for name in ("one", "other")]
    assert wheels[0].read_bytes() == wheels[1].read_bytes()
    assert wheels[0].name == f"gadvresa-{gadvresa.__version__}-py3-none-any.whl"
    with zipfile.ZipFile(wheels[0]) as wheel:
        held = set(wheel.namelist())
    top = os.path.dirname(gadvresa.__file__)
    files = {os.path.relpath(os.path.join(folder, name), os.path.dirname(top))
             for folder, _, names in os.walk(top) for name in names if not name.endswith(".pyc")}
    assert files <= held and {"gadvresa/py.typed", "gadvresa/view/page.html"} <= held and len(held - files) == 3


def test_a_wheel_alone(built, tmp_path):
    """It has no clone around it, finds no program then, and says so."""
    wheel = built("build_wheel", "one")
    script = ("import gadvresa\n"
              "try: gadvresa.evaluate('a', {})\n"
              "except FileNotFoundError as missing: print(type(missing).__name__, set(gadvresa.programs().values()))")
    variables = {"PYTHONPATH": str(wheel), "PATH": str(tmp_path)}
    ran = subprocess.run([sys.executable, "-B", "-c", script], env=variables, stdout=subprocess.PIPE, cwd=tmp_path)
    assert ran.stdout == b"ProgramMissing {None}\n"


def test_an_archive_of_the_sources(built):
    with tarfile.open(built("build_sdist", "one")) as archive:
        held = archive.getnames()
    assert {f"gadvresa-{gadvresa.__version__}/{path}" for path in
            ("PKG-INFO", "pyproject.toml", "src/gadvresa/__init__.py", "tests/test_wheel.py")} <= set(held)
