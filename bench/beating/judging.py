"""Draws cases, has the proved programs judge what is said to be known of them, and takes what is better."""
import contextlib
import os
import resource
import subprocess
import tempfile
from dataclasses import dataclass
from typing import Optional

import cases
import gadvresa
from beating.known import Fault, Known, with_changes
from gadvresa.whole_files import sum_of


class Broken(Exception):
    """What was sent, or what is stored, isn't as it is said to be; the message says how."""


@dataclass(frozen=True)
class Drawn:
    """A drawn case: a folder of its own, its instance and the plan that it was made around, its bytes and its sum."""

    name: str
    room: str
    instance: str
    planted: str
    bytes: int
    sum: str


@dataclass(frozen=True)
class OfPlan:
    """A plan that keeps every rule: its text, its score, who made it, and how."""

    data: bytes
    score: int
    by: str
    made: str


@dataclass(frozen=True)
class OfCertificate:
    """A certificate that `check` accepts: its text, its bound, who made it and how; where `bound` makes it again, with
    how many turns, of which plan, and whether it has nothing left to split then.
    """

    data: bytes
    bound: int
    by: str
    made: str
    turns: Optional[int] = None
    plan: Optional[bytes] = None
    is_whole: bool = False


@contextlib.contextmanager
def drawn(folder, name):
    """Draws a case of a folder. Raises Broken where it isn't the one that is known."""
    with tempfile.TemporaryDirectory(prefix="beat-") as room:
        instance, planted = os.path.join(room, "instance.json"), os.path.join(room, "planted")
        try:
            cases.draw(folder.words[name], instance, planted)
        except subprocess.CalledProcessError:
            raise Fault(f"{folder.place('cases.txt')}: bench/draw_case.py doesn't draw {name} by its words") from None
        found = Drawn(name, room, instance, planted, os.path.getsize(instance), sum_of(instance))
        known = folder.known.get(name)
        if known and (known.bytes, known.sum) != (found.bytes, found.sum):
            raise Broken(f"another instance was drawn than the one that known.tsv has, of {found.bytes:,} bytes and "
                         f"the sum {found.sum}: bench/draw_case.py has changed, or Python draws otherwise here")
        yield found


def spent():
    """The processor seconds of all that was called so far and has ended."""
    used = resource.getrusage(resource.RUSAGE_CHILDREN)
    return used.ru_utime + used.ru_stime


def file_of(case, name, data):
    """Writes a file of the folder of a case, and answers its path."""
    path = os.path.join(case.room, name)
    with open(path, "wb") as file:
        file.write(data)
    return path


def score_of(case, data):
    """The score of the text of a plan. Raises Broken where that is refused, or breaks a rule."""
    try:
        judged = gadvresa.evaluate(case.instance, file_of(case, "judged", data))
    except gadvresa.PlanRefused as refused:
        raise Broken(f"the plan is refused: {refused.line}") from None
    if not judged.feasible:
        raise Broken(f"the plan breaks a rule: {judged.rule}")
    return judged.score


def bound_of(case, data, plan=None):
    """The bound of the text of a certificate, and the score of that of a plan, if one is given. Raises Broken where
    `check` doesn't accept them.
    """
    given = None if plan is None else file_of(case, "judged", plan)
    try:
        checked = gadvresa.check(case.instance, gadvresa.Certificate(data), given)
    except gadvresa.CertificateRefused as refused:
        raise Broken(f"the certificate is refused: {refused.line}") from None
    except gadvresa.PlanRefused as refused:
        raise Broken(f"the plan is refused: {refused.line}") from None
    except gadvresa.BrokenRule as broken:
        raise Broken(f"the plan breaks a rule: {broken.rule}") from None
    if checked.bound is None:
        raise Broken("the certificate says that no plan keeps the rules, and one that does is known: one of the "
                     "programs is wrong, so tell its makers")
    return checked.bound, checked.score


def made_again(case, plan, turns, by):
    """The certificate that `bound` makes of the text of a plan with so many turns, once `check` has accepted it."""
    made = gadvresa.bound(case.instance, file_of(case, "bounded", plan), None, turns)
    if made.bound is None:
        raise Broken("bound says that no plan keeps the rules, and one that does is known: tell its makers")
    data = made.certificate.data
    bound, _ = bound_of(case, data)
    if bound != made.bound:
        raise Broken(f"bound says a bound of {made.bound}, and check one of {bound}: tell their makers")
    return OfCertificate(data, bound, by, f"bound, {turns} turns", turns, plan, made.splits < turns)


def is_better_plan(plan, known):
    return plan is not None and (known is None or plan.score < known.score)


def is_better_certificate(certificate, known):
    return certificate is not None and (known is None or certificate.bound > known.bound)


def remade(folder, case, known, plan, certificate):
    """The certificate that the words of known.tsv make of a better plan, where a case has one that is made again and
    none that is better was given; else the one that was given.
    """
    if known and known.again and is_better_plan(plan, known) and not is_better_certificate(certificate, known):
        made = made_again(case, plan.data, known.again[1], known.bound_by)
        return made if made.bound >= known.bound else None
    return certificate


def take(folder, case, known, plan, certificate):
    """Puts what is better in the place of what is known; answers the files that were written, and what wasn't taken.

    Of a case without a line both have to be there.
    """
    certificate = remade(folder, case, known, plan, certificate)
    name, refused = case.name, []
    with folder.locked():
        if folder.known.get(name) != known:
            raise Fault(f"what is known of {name} has changed meanwhile: call again")
        files, is_taken, new = {}, False, known or Known(name, case.bytes, case.sum, 0, 0, "", "", "", "", None)
        former = folder.bytes_of(f"{name}.plan") if known else None
        if is_better_plan(plan, known):
            new = with_changes(new, score=plan.score, plan_by=plan.by, plan_made=plan.made)
            files["plan"] = plan.data
        now = files.get("plan", former)
        # (one that is made again of the new plan needs no other one)
        is_of_new = certificate is not None and "plan" in files and certificate.plan == plan.data
        if is_better_certificate(certificate, known) or known and known.again and is_of_new:
            is_of_now = certificate.plan == now
            if folder.may_store(name, certificate.data):
                again, is_taken = None, True
                files |= {"cert": certificate.data, "from": None}
            elif certificate.turns is not None:
                again, is_taken = (f"{name}.{'plan' if is_of_now else 'from'}", certificate.turns), True
                files |= {"cert": None, "from": None if is_of_now else certificate.plan}
            else:
                refused.append(f"the certificate isn't taken: it has {len(certificate.data):,} bytes, too many to be "
                               "stored, and one that bound makes again is taken by --turns")
        if is_taken:
            new = with_changes(new, bound=certificate.bound, bound_by=certificate.by, bound_made=certificate.made,
                               again=again)
        elif known and "plan" in files and known.again and known.again[0] == f"{name}.plan":
            # (the known bound is that of the earlier plan)
            files["from"] = former
            new = with_changes(new, again=(f"{name}.from", known.again[1]))
        if files:
            folder.put(new, files)
    written = [f"{name}.{ending}" for ending, data in files.items() if data is not None]
    return [*written, "known.tsv", "README.md"] if files else [], refused
