"""Clauses, and what a reader of them has to read: the closure of what they name.

A word is found where the imports of its file say, so a closure leaves nothing out; a variable that
is named like an import has that counted too. Words of the kit's libraries end the search.
"""

from __future__ import annotations

import re
from dataclasses import dataclass, field
from functools import cache
from pathlib import Path

from definitions import (
    CRATES,
    WORD,
    Definition,
    Source,
    code_of,
    in_module,
    is_function,
    source_of,
    text_of,
    types_in,
    view_of,
)

# ---- closures


def meaning(source: Source, word: str) -> tuple[list[Definition], str]:
    """What a word in a file stands for; and the word of the library that it is, if it is one."""
    first, _, rest = word.partition(".")
    module, name = source.imports.get(first, ("", first))
    if not module and rest and first in source.aliases:
        module, name = source.aliases[first], rest.partition(".")[0]
    if module and not (CRATES / module.split(".")[1]).is_dir():
        return [], f"{module}.{name}"
    if module:
        return in_module(module, name), ""
    if first in source.uses:
        crate, name = source.uses[first]
        return types_in(code_of(crate), name), ""
    return types_in([source], first), ""


@cache
def named_in(path: Path, code: str) -> tuple[frozenset[Definition], frozenset[str]]:
    """What the words of some code of a file stand for: definitions, and words of the library."""
    found: set[Definition] = set()
    library: set[str] = set()
    for word in set(WORD.findall(code)):
        new, other = meaning(source_of(path), word)
        found.update(new)
        if other:
            library.add(other)
    return frozenset(found), frozenset(library)


@dataclass
class Closure:
    """What a reader of some code has to read: definitions, and words of the kit's library."""

    found: set[Definition] = field(default_factory=set)
    library: set[str] = field(default_factory=set)

    def add(self, path: Path, code: str, but: frozenset[Definition] = frozenset()) -> None:
        """Adds what some code of a file names, but for these, and what is named there."""
        named, library = named_in(path, code)
        self.library |= library
        for it in named - but - self.found:
            self.found.add(it)
            self.add(it.path, it.code)

    def add_signature(self, contract: Definition) -> None:
        """Adds the types and traits of a contract, and how each stands for what it is taken for."""
        words = f"{contract.owner} {before_clauses(contract.code)}"
        self.add(contract.path, words)
        for it in named_in(contract.path, words)[0]:
            for model in source_of(it.path).words.get(view_of(it.name), []):
                self.found.add(model)
                self.add(model.path, model.code)

    def defines(self, name: str) -> bool:
        """Whether a definition of that name is in it, or a type with such a constructor."""
        return any(it in source_of(it.path).words.get(name, []) for it in self.found)

    def has_field(self, name: str) -> bool:
        """Whether a record of it has that field."""
        return any(field_of(it, name) for it in self.found)

    def by_file(self) -> dict[Path, list[Definition]]:
        """Its definitions by file, in the order in which they stand there."""
        files: dict[Path, list[Definition]] = {}
        for it in sorted(self.found, key=lambda it: (str(it.path), it.first)):
            files.setdefault(it.path, []).append(it)
        return files


@cache
def field_of(definition: Definition, name: str) -> Definition | None:
    """A field of a record by itself, with the comment above it."""
    if definition.path.suffix != ".antt" or " record " not in f" {definition.code}":
        return None
    lines = text_of(definition.path).splitlines()
    for number in range(definition.first - 1, definition.last):
        if not lines[number].startswith(f"  pub {name} :"):
            continue
        first, end = number, number + 1
        while end < definition.last and lines[end].startswith("   "):
            end += 1
        while lines[first - 1].startswith("  --"):
            first -= 1
        code = "\n".join(line.partition("--")[0] for line in lines[number:end])
        return Definition(definition.path, f"{definition.name}.{name}", first + 1, end, code)
    return None


# ---- clauses


@dataclass(frozen=True)
class Clause:
    """A clause of a contract, by the name of its call, with the fields of it that are meant."""

    crate: str
    call: str
    label: str = ""
    fields: tuple[str, ...] = ()

    def __str__(self) -> str:
        told = f" ({', '.join(self.fields)})" if self.fields else ""
        return f"{self.crate}::{self.call}" + (f": {self.label}" if self.label else "") + told


def before_clauses(contract: str) -> str:
    """What a contract says before its first clause: parameters, and the traits of its types."""
    return re.split(r"^\s*(?=requires|ensures)", contract, maxsplit=1, flags=re.MULTILINE)[0]


def labelled(contract: str, label: str) -> str:
    """The text of a clause of a contract, or nothing; without a label, all of its clauses."""
    if not label:
        return contract.removeprefix(before_clauses(contract))
    parts = re.split(r"^\s*(?=requires|ensures)", contract, flags=re.MULTILINE)
    begin = re.compile(rf"(?:ensures|requires)\*? {re.escape(label)} \{{")
    return "\n".join(part for part in parts if begin.match(part))


def member(text: str, label: str) -> str:
    """The text of a ghost member of a type."""
    more = r"(?:\n(?! *(?:ghost|fn|pub|///|\})).*)*"
    found = re.search(rf"\bghost {label}\b\s*[:=].*{more}", text)
    return found.group() if found else ""


@cache
def places_of(clause: Clause) -> tuple[tuple[Definition, str], ...]:
    """The contracts that have a clause, each with the clause's text."""
    owner, _, name = clause.call.rpartition("::")
    found = []
    for source in code_of(clause.crate):
        if name[0].isupper():
            text = member(text_of(source.path), clause.label)
            if text and name in text_of(source.path):
                found.append((Definition(source.path, name, 1, 1, text), text))
            continue
        for it in source.words.get(name, []):
            text = labelled(it.code, clause.label) if is_function(it) else ""
            if text and owner in ("", it.owner):
                found.append((it, text))
    return tuple(found)


def fields_meant(closure: Closure, clause: Clause) -> list[Definition]:
    """The fields of a clause's records that are meant, each by itself."""
    found = (field_of(it, name) for it in closure.found for name in clause.fields)
    return [it for it in found if it]


@cache
def closure_of(clause: Clause) -> Closure:
    """What a reader of a clause has to read, of its records the meant fields alone."""
    closure = Closure()
    for contract, text in places_of(clause):
        closure.found.add(contract)
        closure.add_signature(contract)
        records: set[Definition] = set()
        if clause.fields:
            named = named_in(contract.path, text)[0]
            records = {it for it in named if re.match(r"(?:pub )?record ", it.code)}
        closure.add(contract.path, text, frozenset(records))
        reached = Closure(set(records))
        for record in records:
            reached.add(record.path, record.code)
        for it in fields_meant(reached, clause):
            closure.found.add(it)
            closure.add(it.path, it.code)
    return closure


def clauses_in(cell: str) -> tuple[list[Clause], list[str]]:
    """What a cell names, as `crate::call`: `clause` (`field`); by `definition`."""
    calls, _, definitions = cell.partition("by `")
    clauses = []
    for part in calls.split(";"):
        called = re.match(r"\s*`(\w+)::([\w:]+)`(.*)", part)
        if not called:
            continue
        crate, call, rest = called.groups()
        labels = re.findall(r"`(\w+)`((?: \((?:`\w+`(?:, )?)+\))?)", rest)
        for label, fields in labels or [("", "")]:
            clauses.append(Clause(crate, call, label, tuple(re.findall(r"`(\w+)`", fields))))
    named = re.findall(r"`([^`]+)`", "`" + definitions) if definitions else []
    return clauses, named
