"""Rollouts in this process, on the bytes of the files that the program's commands of these names take.

    lines = b"".join(sorted(set(client.notes().splitlines(keepends=True))))     # or the lines of a log
    counts = rollouts.tally(document, request, lines)
    plan = rollouts.plan(document, request, counts)
    if plan.has_rule:
        document = rollouts.apply(document, request, counts, plan.file)

What is refused is raised as `Refused`.
"""
from __future__ import annotations

import ctypes
import functools
from typing import NamedTuple

from ._library import NO_RULE, OK, Refused, load, on_files


class Plan(NamedTuple):
    """The plan file of an answer, and whether it has a rule: where it has none, it shows that no rule fits the request."""

    file: bytes
    has_rule: bool


@functools.cache
def _library() -> ctypes.CDLL:
    return load()


def tally(document: bytes, request: bytes, notes: bytes) -> bytes:
    """How many inputs of the request's page fall on each point of its rule. The note lines rise, each is there once."""
    return on_files(_library().flagops_tally, document, request, notes)[1]


def plan(document: bytes, request: bytes, counts: bytes) -> Plan:
    """The rule that fits the request and costs the inputs of a tally the least, or what shows that none fits."""
    number, file = on_files(_library().flagops_plan, document, request, counts)
    return Plan(file, number == OK)


def verify(document: bytes, request: bytes, counts: bytes, file: bytes) -> None:
    """Returns where the plan file, whoever made it, is right for the request over a tally."""
    words = [word for data in (document, request, counts, file) for word in (data, len(data))]
    number = _library().flagops_verify(*words)
    if number != OK:
        raise Refused(number)


def apply(document: bytes, request: bytes, counts: bytes, file: bytes) -> bytes:
    """The document with the rule of a right plan file, and each other byte as it was."""
    number, text = on_files(_library().flagops_apply, document, request, counts, file)
    if number == NO_RULE:
        raise Refused(number)
    return text
