"""Which module may import which: each part of the package stands on those before it, and judges stay independent."""
import ast
import os

import pytest

PYTHON = os.path.dirname(os.path.dirname(os.path.abspath(__file__)))
PACKAGE = os.path.join(PYTHON, "src", "gadvresa")
TOOLS = os.path.join(os.path.dirname(PYTHON), "tools")
# From the lowest on. A part may import from those before it.
LAYERS = ["whole_files", "running", "cli", "over_parallel", "model", "reports", "explaining", "files", "errors",
          "answers", "commands", "__init__", "milp", "tables", "explain", "plan", "view", "compare"]
# What judges the programs from the formats alone, and what of ours they may share.
INDEPENDENT = {"decimals.py": [], "plain.py": ["decimals"], "plain_drawn.py": [], "plain_faults.py": [],
               "format_cases.py": []}


def imported(path, inside):
    """The modules that a file imports: those of the package by their parts, all others by their first names."""
    with open(path, encoding="utf-8") as file:
        tree = ast.parse(file.read())
    depth = os.path.relpath(path, inside).count(os.sep)
    for node in ast.walk(tree):
        if isinstance(node, ast.Import):
            yield from (name.name.split(".")[0] for name in node.names)
        elif isinstance(node, ast.ImportFrom) and node.level == 0:
            yield str(node.module).split(".")[0]
        elif isinstance(node, ast.ImportFrom) and node.level == depth + 1:
            yield from ([node.module.split(".")[0]] if node.module else (name.name for name in node.names))


def files():
    return [os.path.join(folder, name) for folder, _, names in os.walk(PACKAGE) for name in sorted(names)
            if name.endswith(".py")]


@pytest.mark.parametrize("path", files(), ids=lambda path: os.path.relpath(path, PACKAGE))
def test_parts_stand_on_those_before_them(path):
    part = os.path.relpath(path, PACKAGE).split(os.sep)[0]
    at = LAYERS.index(part[:-3] if part.endswith(".py") else part)
    higher = set(LAYERS[at + 1:]) & set(imported(path, PACKAGE))
    assert not higher


@pytest.mark.parametrize("name, shared", INDEPENDENT.items())
def test_judges_share_nothing_with_the_package(name, shared):
    path = os.path.join(TOOLS, name)
    if not os.path.exists(path):
        pytest.skip("there is no clone around the package")
    ours = {it.split(".")[0] for it in os.listdir(TOOLS)} | {"gadvresa"}
    assert set(imported(path, TOOLS)) & ours == set(shared)
