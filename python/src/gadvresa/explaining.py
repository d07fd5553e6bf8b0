"""What `explain` says of a refusal: its place in the file, what is meant, and what to change."""
from __future__ import annotations

import os
import sys
from dataclasses import dataclass
from typing import Optional, Sequence

from .running import Called, Stopped, clone, folder_of, room, run_words

# How long it may take, in seconds: it reads the file whole.
SECONDS = 120


@dataclass(frozen=True)
class Source:
    """A file of a call: its path, or the bytes that stood in it where it was made for the call alone."""

    path: Optional[str] = None
    data: Optional[bytes] = None

    def bytes(self) -> bytes:
        """What it holds. Raises OSError where its file can't be read."""
        if self.data is not None:
            return self.data
        with open(str(self.path), "rb") as file:
            return file.read()


def explain(line: str, sources: Sequence[Source], slack: Optional[str] = None,
            called: Optional[Called] = None) -> Optional[str]:
    """The explanation of a line about the first source; None where `explain` isn't there, or can't tell."""
    top = folder_of(called.program) if called else clone()
    if not line or not sources or top is None:
        return None
    with room() as folder:
        files = []
        for number, source in enumerate(sources):
            path = source.path
            if source.data is not None:
                path = os.path.join(folder, f"file-{number}")
                with open(path, "wb") as file:
                    file.write(source.data)
            files.append(str(path))
        words = [sys.executable, "-E", "-s", os.path.join(top, "tools", "explain"), files[0], line, *files[1:]]
        if slack is not None and len(files) > 1:
            words.append(slack)
        try:
            status, said, _ = run_words(words, SECONDS)
        except (OSError, ValueError, Stopped):
            return None
    return said.decode("utf-8", "replace") if status == 0 else None
