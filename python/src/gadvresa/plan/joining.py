"""Puts certificates together that are about parts of one tree: each leaf of the common one by the part that owns it.

Leaves of the common tree are numbered from 0 in the order of its text; number n belongs to part n modulo N. A part has
the splits of the common tree, and in the place of each of its leaves a tree of its own, or that leaf for another
reason; and the price lists of the common one, and behind these its own. What is made claims what all parts claim, which
is the least of it: each leaf proves that, as it does where it comes from. docs/FORMATS.md has the lines.
"""
from __future__ import annotations

import re
from dataclasses import dataclass
from typing import BinaryIO, Collection, Dict, List, Mapping, Optional, Sequence, Tuple

from ..whole_files import open_named, open_regular

HEADS = (b"mpcert 1", b"mpcert 2", b"mpcert 3")
NEWEST = HEADS[-1]
MOST_LISTS = 16
LEAVES = (b"cost", b"point", b"band", b"excl", b"empty")
BOUND, LIST = re.compile(rb"none|-?[0-9]{1,60}"), re.compile(rb"[0-9]{1,9}")
ENTRY = re.compile(rb"(up|lo|ex|tail|off|clq)( [0-9]{1,19})+|cap")
NODE = re.compile(rb"split [0-9]{1,4} [0-9]{1,4}|cost [0-9]{1,4}|point|band [0-9]{1,4} [0-9]{1,4} (over|under)"
                  rb"|excl [0-9]{1,6}|empty [0-9]{1,4}")
# The most bytes of a certificate, and of one of its lines.
LONGEST, LONGEST_LINE = 1 << 28, 1 << 14
# An instance has 1,024 interventions and 512 periods at most. That many nodes are open at most, as no split comes twice
# on the way to a leaf, and that many nodes differ.
MOST_OPEN, MOST_NODES = 1 << 19, 1 << 20


class Misfit(Exception):
    """A text is no certificate, or parts aren't of the common one; the message says how."""


@dataclass
class Certificate:
    """A certificate: the text of the entries of each price list, and the lines of the nodes of its tree."""

    path: str
    head: bytes
    bound: Optional[int]
    lists: List[bytes]
    nodes: List[bytes]


class Lines:
    """The lines of a file, one after the other, of which no more is read than a certificate can have."""

    def __init__(self, file: BinaryIO, path: str) -> None:
        self.file, self.path, self.left = file, path, LONGEST

    def next(self) -> Optional[bytes]:
        """The next line without its end; None behind the last one."""
        line = self.file.readline(min(LONGEST_LINE, self.left) + 1)
        self.left -= len(line)
        if self.left < 0 or len(line) > LONGEST_LINE:
            raise Misfit(f"{self.path} has a line or a text that is longer than any of a certificate")
        if line and not line.endswith(b"\n"):
            raise Misfit(f"{self.path} is no whole certificate")
        return line[:-1] if line else None

    def needed(self) -> bytes:
        """The next line, where there has to be one."""
        line = self.next()
        if line is None:
            raise Misfit(f"{self.path} is no whole certificate")
        return line


def read_certificate(path: str) -> Certificate:
    """The certificate that a file holds. A file that is none is read up to the line that shows it."""
    with open_named(path) as file:
        lines = Lines(file, path)
        head = lines.needed()
        if head not in HEADS:
            raise Misfit(f"{path} is no whole certificate")
        line = lines.needed()
        word, _, value = line.partition(b" ")
        if word != b"bound" or not BOUND.fullmatch(value):
            raise Misfit(f"{path}, line 2: the bound, and not {line[:40]!r}")
        count = lines.needed()
        lists = read_lists(lines)
        if count != b"lists %d" % len(lists):
            raise Misfit(f"{path}, line 3: lists {len(lists)}, and not {count[:40]!r}")
        nodes = read_nodes(lines)
        if lines.next() is not None:
            raise Misfit(f"{path} has lines behind its tree")
    return Certificate(path, head, None if value == b"none" else int(value), lists, nodes)


def read_lists(lines: Lines) -> List[bytes]:
    """The texts of the price lists, up to the line `tree`."""
    lists: List[bytearray] = []
    while (line := lines.next()) != b"tree":
        if line is None:
            raise Misfit(f"{lines.path} has no tree")
        if line == b"prices" and len(lists) == MOST_LISTS:
            raise Misfit(f"{lines.path} has more than {MOST_LISTS} price lists, which no certificate has")
        if line == b"prices":
            lists.append(bytearray())
        elif lists and ENTRY.fullmatch(line):
            lists[-1] += line + b"\n"
        else:
            raise Misfit(f"{lines.path}: an entry of a price list, or its first line, and not {line[:40]!r}")
    return [bytes(it) for it in lists]


def read_nodes(lines: Lines) -> List[bytes]:
    """The nodes of the tree. Equal ones are kept once, as most trees have few that differ."""
    nodes: List[bytes] = []
    kept: Dict[bytes, bytes] = {}
    open_nodes = 1
    while open_nodes:
        line = lines.next()
        if line is None or not NODE.fullmatch(line):
            raise Misfit(f"{lines.path}: a node of the tree, and not {(line or b'')[:40]!r}")
        nodes.append(kept.setdefault(line, line))
        open_nodes += 1 if line.startswith(b"split ") else -1
        if open_nodes > MOST_OPEN or len(kept) > MOST_NODES:
            raise Misfit(f"{lines.path} has a tree that is deeper, or of more different nodes, than any can be")
    return nodes


def claim_of(path: str) -> Optional[int]:
    """The bound that a certificate claims, by its first lines; None where that is `none`, or they aren't right."""
    try:
        with open_regular(path) as file:
            found = re.match(rb"mpcert [123]\nbound (-?[0-9]{1,60})\n", file.read(100))
    except OSError:
        return None
    return int(found[1]) if found else None


def end_of(nodes: Sequence[bytes], at: int, path: str) -> int:
    """Where the tree ends that begins at a node."""
    open_nodes = 1
    while open_nodes:
        word = nodes[at].partition(b" ")[0] if at < len(nodes) else b""
        if word == b"split":
            open_nodes += 1
        elif word in LEAVES:
            open_nodes -= 1
        else:
            raise Misfit(f"{path}: a node of the tree, and not {word[:40]!r}")
        at += 1
    return at


def join(common: Certificate, parts: Mapping[int, Certificate], count: int) -> Certificate:
    """The certificate of the common one and of its parts, which are certificates by their numbers; `count` is how many
    there are in all. A leaf of a part that isn't there stays what it is.
    """
    lists, renumbered = joined_lists(common, parts.values())
    nodes: List[Optional[List[bytes]]] = [None] * len(common.nodes)
    for number, part in parts.items():
        take_leaves(common, part, number, count, renumbered[part.path], nodes)
    joined: List[bytes] = []
    for old, new in zip(common.nodes, nodes):
        joined.extend([old] if new is None else new)
    claims = [part.bound for part in parts.values()] + ([] if len(parts) == count else [common.bound])
    known = [claim for claim in claims if claim is not None]
    head = NEWEST if parts else common.head
    return Certificate("", head, min(known) if known else None, lists, joined)


def joined_lists(common: Certificate,
                 parts: Collection[Certificate]) -> Tuple[List[bytes], Dict[str, List[int]]]:
    """The lists of the common certificate, and behind them those of the parts, each once; and by part what each of its
    numbers becomes.
    """
    lists = list(common.lists)
    for part in parts:
        if len(part.lists) < len(lists):
            raise Misfit(f"{part.path} has fewer price lists than {common.path}")
    # (a list of an older version is spelled otherwise in a part)
    firsts = [part.lists[:len(lists)] for part in parts] + ([lists] if common.head == NEWEST else [])
    if any(it != firsts[0] for it in firsts):
        raise Misfit(f"the first {len(lists)} price lists are not the same in {common.path} and in all parts")
    lists = list(firsts[0]) if firsts else lists
    renumbered: Dict[str, List[int]] = {}
    for part in parts:
        numbers = list(range(len(common.lists) + 1))
        for one in part.lists[len(common.lists):]:
            if one not in lists:
                lists.append(one)
            numbers.append(lists.index(one) + 1)
        renumbered[part.path] = numbers
    if len(lists) > MOST_LISTS:
        raise Misfit(f"there are {len(lists)} price lists in all parts, and a certificate has {MOST_LISTS} at most: "
                     f"have `bound` add lists to the common one first")
    return lists, renumbered


def take_leaves(common: Certificate, part: Certificate, number: int, count: int, numbers: Sequence[int],
                nodes: List[Optional[List[bytes]]]) -> None:
    """Notes what the part puts in the place of the leaves that it owns."""
    at = leaf = 0
    for place, node in enumerate(common.nodes):
        if node.startswith(b"split "):
            if part.nodes[at:at + 1] != [node]:
                raise Misfit(f"{part.path} has not the splits of {common.path}")
            at += 1
            continue
        end = end_of(part.nodes, at, part.path)
        if leaf % count == number:
            nodes[place] = [renamed(line, numbers, part.path) for line in part.nodes[at:end]]
        elif end > at + 1:
            raise Misfit(f"{part.path} splits leaf {leaf}, which isn't of part {number} of {count}")
        at, leaf = end, leaf + 1


def renamed(line: bytes, numbers: Sequence[int], path: str) -> bytes:
    """A node with the number of its price list as it is in the joined certificate."""
    if not line.startswith(b"cost "):
        return line
    word = line[5:]
    if not LIST.fullmatch(word) or int(word) >= len(numbers):
        raise Misfit(f"{path}: a leaf of list {word[:20]!r}, which isn't there")
    return b"cost %d" % numbers[int(word)]


def text_of(certificate: Certificate) -> bytes:
    """The text of a certificate."""
    bound = b"none" if certificate.bound is None else b"%d" % certificate.bound
    lines = [certificate.head, b"bound " + bound, b"lists %d" % len(certificate.lists)]
    for one in certificate.lists:
        lines += [b"prices", one[:-1]] if one else [b"prices"]
    return b"\n".join([*lines, b"tree", *certificate.nodes, b""])
