"""The proved programs: where they are, calls of them, and how they end. Nothing else judges, plans or bounds in this
package.

`finding` looks for the programs, `calling` runs them, `ending` ends them with this process, and `statuses` names how
they end. `holding` ends what a script starts with that script, and `processes` says what runs below a process.
"""
from .calling import Called, Stopped, run, run_words, signal_name
from .ending import room, tidied
from .finding import PROGRAMS, VARIABLE, NotFound, Path, Program, clone, find, folder_of, programs, use
from .statuses import SIGNALLED, Status

__all__ = [
    "Called", "NotFound", "PROGRAMS", "Path", "Program", "SIGNALLED", "Status", "Stopped", "VARIABLE", "clone", "find",
    "folder_of", "programs", "room", "run", "run_words", "signal_name", "tidied", "use",
]
