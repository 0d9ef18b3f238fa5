"""Reads files of definitions and of code: what each has, and what it imports."""

from __future__ import annotations

import re
from collections.abc import Iterable, Iterator
from dataclasses import dataclass, field
from functools import cache
from pathlib import Path

TOP = Path(__file__).resolve().parent.parent
CRATES = TOP / "crates"
WORD = re.compile(r"[A-Za-z_][A-Za-z0-9_]*(?:\.[A-Za-z_][A-Za-z0-9_]*)*|◌[^\s,}]+◌")
USE = re.compile(
    r"^\s*(?:ghost |pub )?use (Rattle(?:\.\w+)+)(?:\.\{([^}]*)\}| as (\w+));?$", re.MULTILINE
)
RUST_USE = re.compile(r"^use ((?:crate|wu_\w+|wumpus\w*)(?:::\w+)*)::(?:\{([^}]*)\}|(\w+));", re.M)
HEAD = re.compile(r"^(?:unfoldable |abbrev )*(?:pub )?(?:record |data )?([^\s(:]+)")
SKIPPED = ("use ", "pub mod ", "mod ", "infix", "}", ")", "]")
RUST_HEAD = re.compile(
    r"^( *)(?:pub(?:\([a-z]+\))? )?(?:unsafe )?(fn|struct|enum|trait|const|type) (\w+)"
)


@dataclass(frozen=True)
class Definition:
    """A definition, a type or a contract: where it stands, and its text without comments."""

    path: Path
    name: str
    first: int
    last: int
    code: str
    # Of a method its type or trait.
    owner: str = ""

    @property
    def lines(self) -> int:
        """How many lines it has, those of its comment included."""
        return self.last - self.first + 1


@dataclass
class Source:
    """A file: what it imports, and what it has."""

    path: Path
    # A word here is, in that module, that word.
    imports: dict[str, tuple[str, str]] = field(default_factory=dict)
    # A word here is that module.
    aliases: dict[str, str] = field(default_factory=dict)
    # A word here is, in that crate, that word.
    uses: dict[str, tuple[str, str]] = field(default_factory=dict)
    # A constructor stands beside its type, and a method of several types has several contracts.
    words: dict[str, list[Definition]] = field(default_factory=dict)

    def add(self, name: str, definition: Definition) -> None:
        """Notes that a word stands for a definition."""
        self.words.setdefault(name, []).append(definition)


@cache
def text_of(path: Path) -> str:
    """The text of a file."""
    return path.read_text(encoding="utf-8")


def renamed(names: str) -> Iterator[tuple[str, str]]:
    """The words of a list of imports, each with what it is called here."""
    for part in re.findall(r"[^,\s]+(?: as \w+)?", names):
        name, _, other = part.partition(" as ")
        yield name, other or name


def read_imports(source: Source, text: str) -> None:
    """Notes the imports of definitions, of both kinds of files."""
    for module, names, alias in USE.findall(text):
        if alias:
            source.aliases[alias] = module
        for name, other in renamed(names):
            source.imports[other] = (module, name)
    own = source.path.relative_to(CRATES).parts[0]
    for place, names, single in RUST_USE.findall(text):
        crate = own if place.startswith("crate") else place.split("::")[0]
        for name, other in renamed(names or single):
            source.uses[other] = (crate, name)


# ---- definitions


def heads(lines: list[str]) -> Iterator[tuple[int, str]]:
    """The lines at which something begins, with its name; the equations of one follow it."""
    last = ""
    for number, line in enumerate(lines):
        if not line or line[0].isspace() or line.startswith(("--", *SKIPPED)):
            continue
        found = HEAD.match(line)
        if found and found.group(1) != last:
            last = found.group(1)
            yield number, last


def definition_at(path: Path, lines: list[str], start: int, end: int, name: str) -> Definition:
    """The definition from a line to before another, with the comment above it."""
    while end > start + 1 and (not lines[end - 1].strip() or lines[end - 1].startswith("--")):
        end -= 1
    first = start
    while first > 0 and re.match(r"--(?! --)", lines[first - 1]):
        first -= 1
    code = "\n".join(line.partition("--")[0] for line in lines[start:end])
    return Definition(path, name, first + 1, end, code)


def read_definitions(path: Path) -> Source:
    """What a file of definitions has."""
    source = Source(path)
    text = text_of(path)
    read_imports(source, text)
    lines = text.splitlines()
    found = list(heads(lines))
    for place, (start, name) in enumerate(found):
        end = found[place + 1][0] if place + 1 < len(found) else len(lines)
        definition = definition_at(path, lines, start, end, name)
        source.add(name, definition)
        if re.match(r"(?:unfoldable |abbrev )*(?:pub )?data ", lines[start]):
            for constructor in re.findall(r"^  (?:pub )?(\w+) :", definition.code, re.MULTILINE):
                source.add(constructor, definition)
    return source


# ---- code


def is_body(line: str, indent: str) -> bool:
    """Whether a line begins the body of a function."""
    return line in (f"{indent}{{", f"{indent}{{}}")


def end_of_contract(lines: list[str], start: int, indent: str) -> int:
    """The line after the contract of a function: that of its body, or the one after a `;`."""
    depth = 0
    clauses = False
    for number in range(start, len(lines)):
        line = lines[number]
        clauses = clauses or bool(re.match(r"\s*(?:requires|ensures)", line))
        depth += sum(line.count(sign) for sign in "({[") - sum(line.count(sign) for sign in ")}]")
        if is_body(line, indent):
            return number
        if depth <= 0 and line.endswith(";") or not clauses and line.endswith(("{", "{}")):
            return number + 1
    return len(lines)


def end_of_type(lines: list[str], start: int, indent: str) -> int:
    """The line after a type, a trait or a constant."""
    if lines[start].endswith((";", "}")):
        return start + 1
    for number in range(start + 1, len(lines)):
        if lines[number].startswith((f"{indent}}}", f"{indent});", f"{indent}]")):
            return number + 1
    return len(lines)


def owner_of(lines: list[str], start: int) -> str:
    """The type or the trait in whose block a method stands."""
    for number in range(start, -1, -1):
        found = re.match(
            r"(?:pub )?(?:impl(?:<[^>]*>)?|trait) (?:[^{]*\bfor )?(\w+)", lines[number]
        )
        if found:
            return found.group(1)
        if lines[number].startswith("}"):
            return ""
    return ""


def model_of(lines: list[str], name: str) -> tuple[int, int] | None:
    """Where a file says what contracts see of a type."""
    for number, line in enumerate(lines):
        if re.match(rf"impl(?:<[^>]*>)? Model for {name}\b", line):
            return number, end_of_type(lines, number, "")
    return None


def view_of(name: str) -> str:
    """The word under which it is kept how a type stands for what contracts see of it."""
    return f"{name} view"


def read_code(path: Path) -> Source:
    """What a file of code has: its types, its constants, and the contracts of its functions."""
    source = Source(path)
    text = text_of(path)
    read_imports(source, text)
    lines = text.splitlines()
    for number, line in enumerate(lines):
        found = RUST_HEAD.match(line)
        if not found:
            continue
        indent, kind, name = found.groups()
        end = (end_of_contract if kind == "fn" else end_of_type)(lines, number, indent)
        first = number
        while first > 0 and re.match(r"\s*(?:///|#\[)", lines[first - 1]):
            first -= 1
        code = "\n".join(part.partition("//")[0] for part in lines[number:end])
        owner = owner_of(lines, number) if kind == "fn" and indent else ""
        seen = model_of(lines, name) if kind == "struct" else None
        if seen:
            # Definitions know of it what it stands for, and contracts also how.
            model = "\n".join(lines[slice(*seen)])
            source.add(view_of(name), Definition(path, name, seen[0] + 1, seen[1], model))
            code = "\n".join(re.findall(r"^    ghost Value = .*$", model, re.MULTILINE))
        source.add(name, Definition(path, name, first + 1, end, code, owner))
    return source


@cache
def source_of(path: Path) -> Source:
    """What a file has."""
    return read_definitions(path) if path.suffix == ".antt" else read_code(path)


@cache
def code_of(crate: str) -> tuple[Source, ...]:
    """The files of code of a crate."""
    return tuple(source_of(path) for path in sorted((CRATES / crate / "src").rglob("*.rt")))


def is_function(definition: Definition) -> bool:
    """Whether it is a contract, and no type."""
    found = RUST_HEAD.match(definition.code)
    return definition.path.suffix == ".rt" and found is not None and found.group(2) == "fn"


def types_in(sources: Iterable[Source], name: str) -> list[Definition]:
    """The types and constants of that name."""
    return [it for source in sources for it in source.words.get(name, []) if not is_function(it)]


def in_module(module: str, name: str) -> list[Definition]:
    """What a word of a module stands for. Proofs and what is made of contracts end the search."""
    _, crate, kind, *rest = module.split(".")
    if kind != "specs" or rest[0] == "contracts":
        return []
    if rest[0] != "declared":
        path = (CRATES / crate / "specs").joinpath(*rest).with_suffix(".antt")
        source = source_of(path)
        if name not in source.words and name in source.imports:
            return in_module(*source.imports[name])
        return source.words.get(name, [])
    types = [part for part in rest[1:] if part[0].isupper() and not part.startswith("The")]
    files = [part for part in rest[1:] if part[0].islower()]
    folder = CRATES / crate / "src"
    path = folder.joinpath(*files).with_suffix(".rt") if files else folder / "lib.rt"
    return types_in([source_of(path)], types[0] if types else name)
