# Made by dev/commands --write of dev/commands.toml: change the table, and not this file.
"""How a program or a script ends. tools/front/words.bash has the same table for people."""
from __future__ import annotations

import enum


class Status(enum.IntEnum):
    """The statuses of the programs, up to 13, and those of `planner` and the scripts, from 64 on."""

    DONE = 0
    """What was asked for is there: a plan keeps the rules, a certificate is valid, a plan was found."""
    BROKEN_RULE = 1
    """The plan breaks a rule."""
    WORDS_REFUSED = 2
    """The words are not in the grammar."""
    INSTANCE_REFUSED = 3
    """The text of the instance is refused."""
    PLAN_REFUSED = 4
    """The text of the plan is refused."""
    CERTIFICATE_REFUSED = 5
    """The text of the certificate is refused, or a leaf of it doesn't hold."""
    SCRIPT_REFUSED = 6
    """The text of the script is refused, or a line of it fails."""
    UNREAD = 7
    """A file can't be opened or read."""
    UNWRITTEN = 8
    """A file or standard output can't be written."""
    NOTHING_FOUND = 9
    """In so many turns no plan was found, and there may be one."""
    NO_PLAN_EXISTS = 10
    """No plan keeps every rule."""
    OUT_OF_MEMORY = 11
    """Memory ran out."""
    TOO_LONG = 12
    """The text to be written is too long for a file of its kind."""
    NO_WORDS = 13
    """The system gave no words."""
    SCRIPT_WORDS = 64
    """The words of a script are wrong."""
    NO_REPORT = 65
    """A text isn't what a script takes it for, or a folder is of another instance."""
    SCRIPT_UNREAD = 66
    """A file that a script needs can't be read."""
    SAME_FILE = 67
    """An output is another file of the call."""
    TOOL_MISSING = 69
    """A tool, a program or a package for Python is missing."""
    UNFORESEEN = 70
    """A build failed, or a script met what it didn't foresee."""
    NOT_STARTED = 71
    """A program can't be started."""
    NO_PLACE = 72
    """The folder of an output is missing, or may not be written to."""
    REPOSITORY_UNWRITTEN = 73
    """A folder of the repository can't be written or read."""
    SCRIPT_UNWRITTEN = 74
    """What a script makes can't be written."""
    BUSY = 75
    """Another run has the folder."""


# A signal ends a script with this and its number.
SIGNALLED = 128
