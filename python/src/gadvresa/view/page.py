"""Puts a page together: page.html with page.css, the scripts and the data in it; its policy lets no other code run.

The data is JSON in a block that no browser runs, with every `<` written as an escape, so that no name ends the block.
"""
from __future__ import annotations

import base64
import hashlib
import json
import os
from typing import Any

# In the order in which they stand on the page.
SCRIPTS = ("data.js", "head.js", "works.js", "drawings.js", "cursor.js", "side.js", "start.js")
HERE = os.path.dirname(os.path.abspath(__file__))
POLICY = "default-src 'none'; style-src 'sha256-{style}'; script-src 'sha256-{script}'; base-uri 'none'; " \
         "form-action 'none'"


def page_text(data: Any) -> bytes:
    """The bytes of the page of some data."""
    style, script = text_of("page.css"), "".join(map(text_of, SCRIPTS))
    parts = {"policy": POLICY.format(style=sum_of(style), script=sum_of(script)), "style": style, "script": script,
             "data": escaped(data)}
    page = text_of("page.html")
    # (each place stands once, and what was put in isn't looked at again)
    for name in parts:
        assert page.count(f"@{name}@") == 1, name
    pieces = page.split("@")
    return "".join(parts.get(piece, piece) if at % 2 else piece for at, piece in enumerate(pieces)).encode("utf-8")


def text_of(name: str) -> str:
    """The text of a part beside this file."""
    with open(os.path.join(HERE, name), encoding="utf-8") as file:
        return file.read()


def sum_of(text: str) -> str:
    """The sum of a text, as a policy names it."""
    return base64.b64encode(hashlib.sha256(text.encode("utf-8")).digest()).decode()


def escaped(data: Any) -> str:
    """The data as JSON, in which nothing ends the block that it stands in."""
    text = json.dumps(data, ensure_ascii=False, separators=(",", ":"))
    for mark in "<>&\u2028\u2029":
        text = text.replace(mark, f"\\u{ord(mark):04x}")
    return text
