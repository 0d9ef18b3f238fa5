"""What was found, for people and as JSON."""

import grp
import os
import stat
from collections.abc import Iterator
from typing import Any

from ..mirror.nodes import Rights
from ..shared.progress import plain
from ..status.report import user as spell_user
from .kernel import Kind, Step
from .program import Known
from .rights import READ, SEARCH, Grant, grant
from .users import User
from .verdict import Verdict


def report(verdict: Verdict) -> Iterator[str]:
    """The lines of the report."""
    user = verdict.user
    groups = ", ".join(str(one) for one in sorted(user.groups)) or "none"
    who = f"user {plain(user.name)} ({user.number}; groups {groups})"
    yield f"{_path(verdict.path)}, and {who}"
    known = {one.path: one for one in verdict.known}
    for step in verdict.steps:
        yield from _step(step, known.get(step.path), user)
    may = f"doesn't let her open it: {verdict.denied}" if verdict.denied else "lets her open it"
    yield f"The kernel {may}."
    yield f"She is {'told' if verdict.is_told else 'not told'} of it."
    yield from (f"  {plain(one)}" for one in verdict.reasons)
    if not verdict.agrees and verdict.is_told:
        yield "! She is told of what the kernel doesn't let her open: it changed since the mirror's"
        yield "  last turn, or it is of those things that only the kernel knows (ADMIN.md)."


def _path(path: bytes) -> str:
    return plain(os.fsdecode(path))


def _step(step: Step, known: Known | None, user: User) -> Iterator[str]:
    """A step: what the kernel has there, and what the program has."""
    if step.rights is None:
        fault = f": {plain(step.fault)}" if step.fault else ""
        yield f"  {_path(step.path)}: {step.kind.value}{fault}"
        return
    bit = SEARCH if step.kind is Kind.DIRECTORY else READ
    yield f"  {_path(step.path)}"
    yield f"      kernel   {_rights(step, step.rights)}: {_who(grant(step.rights, user), bit)}"
    if known is None:
        yield "      program  doesn't know it"
        return
    if known.node.rights == step.rights:
        yield "      program  the same"
        return
    rights = known.node.rights
    yield f"      program  {_rights(step, rights)}: {_who(grant(rights, user), bit)}"


def _who(found: Grant, bit: int) -> str:
    may = {SEARCH: "pass", READ: "read it"}[bit]
    return f"she is {found.who.value}, and may {'' if found.gives(bit) else 'not '}{may}"


def _rights(step: Step, rights: Rights) -> str:
    """The rights as `ls` shows them, and the list as `getfacl -n` does, shorter."""
    kind = stat.S_IFDIR if step.kind is Kind.DIRECTORY else stat.S_IFREG
    entries = f" {rights.entries.decode()}" if rights.entries else ""
    return f"{stat.filemode(kind | rights.mode)} {spell_user(rights.owner)} " + (
        f"{_group(rights.group)}{entries}"
    )


def _group(number: int) -> str:
    try:
        return f"{plain(grp.getgrgid(number).gr_name)} ({number})"
    except (KeyError, OverflowError):
        return f"{number}"


def as_json(verdict: Verdict) -> dict[str, Any]:
    """The same as JSON."""
    user = verdict.user
    known = {one.path: one for one in verdict.known}
    return {
        "path": os.fsdecode(verdict.path),
        "user": user.number,
        "groups": sorted(user.groups),
        "steps": [_step_as_json(step, known.get(step.path), user) for step in verdict.steps],
        "opens": not verdict.denied,
        "denied": verdict.denied or None,
        "told": verdict.is_told,
        "agrees": verdict.agrees,
        "reasons": verdict.reasons,
    }


def _step_as_json(step: Step, known: Known | None, user: User) -> dict[str, Any]:
    bit = SEARCH if step.kind is Kind.DIRECTORY else READ
    program = None if known is None else _rights_as_json(known.node.rights, user, bit)
    kernel = None if step.rights is None else _rights_as_json(step.rights, user, bit)
    return {
        "path": os.fsdecode(step.path),
        "kind": step.kind.value,
        "fault": step.fault or None,
        "kernel": kernel,
        "program": program,
    }


def _rights_as_json(rights: Rights, user: User, bit: int) -> dict[str, Any]:
    found = grant(rights, user)
    return {
        "mode": f"{rights.mode:03o}",
        "owner": rights.owner,
        "group": rights.group,
        "list": rights.entries.decode(),
        "who": found.who.value,
        "grants": found.gives(bit),
    }
