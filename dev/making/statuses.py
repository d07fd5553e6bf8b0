"""Makes the statuses that Python knows, python/src/gadvresa/running/statuses.py."""
from __future__ import annotations

from .table import Table

PATH = "python/src/gadvresa/running/statuses.py"
HEAD = '''"""How a program or a script ends. tools/front/words.bash has the same table for people."""
from __future__ import annotations

import enum


class Status(enum.IntEnum):
    """The statuses of the programs, up to 13, and those of `planner` and the scripts, from 64 on."""

'''
END = '''

# A signal ends a script with this and its number.
SIGNALLED = 128
'''


def text(table: Table) -> str:
    """The file, from its second line on."""
    named = [it for it in table.statuses if "name" in it]
    return HEAD + "".join(f'    {it["name"]} = {it["code"]}\n    """{it["meaning"]}"""\n' for it in named) + END
