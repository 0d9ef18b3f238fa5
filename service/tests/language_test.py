"""The language of queries, row by row: expressions, messages, arguments, and what is written.

Needs no program and no service.
"""

import io
import os
import socket
import subprocess
import sys
import tempfile
import threading
from collections.abc import Callable, Sequence
from pathlib import Path

from harness import SERVICE, Score, options

from wumpus.ask import language  # isort: skip
from wumpus.ask.asking import Trouble  # isort: skip
from wumpus.ask.explain import at_fault, explained, span_of, too_long  # isort: skip
from wumpus.ask.expression import Scope, TooLong, operators_of, spell  # isort: skip
from wumpus.ask.forms import (  # isort: skip
    Forms, Listing, Marks, counts_as, find_forms, typed_in,
)  # fmt: skip
from wumpus.ask.matching import Matcher, best  # isort: skip
from wumpus.ask.options import query_of, read_arguments  # isort: skip
from wumpus.ask.output import (  # isort: skip
    Around, Format, Layer, Result, Row, Style, Writer, cut, grouped, has_colour,
)  # fmt: skip
from wumpus.ask.paths import Standing, condition_of  # isort: skip
from wumpus.ask.search import Meant  # isort: skip
from wumpus.ask.suggestions import fronts_of, slips_between  # isort: skip
from wumpus.ask.translation import Translation  # isort: skip
from wumpus.ask.tree import And, Fault, Filter, Not, Span, Subject  # isort: skip
from wumpus.shared.lines import Lines  # isort: skip

# What is typed, the expression over files, and how many operators that has.
EXPRESSIONS = (
    ("budget", 'file > "budget"', 1),
    ("budget lunch", 'file > "budget" > "lunch"', 2),
    ("budget AND lunch", 'file > "budget" > "lunch"', 2),
    ("budget and lunch", 'file > "budget" > "and" > "lunch"', 3),
    ("(a OR b) -c", 'file > "a" + "b" /> "c"', 3),
    ("-c (a | b)", 'file > "a" + "b" /> "c"', 3),
    ("a|b", 'file > "a" + "b"', 2),
    ('"the plan"', 'file > "the plan" + ("the" .. "plan" /> [5] > "<line>")', 5),
    ("\u201cthe plan\u201d", 'file > "the plan" + ("the" .. "plan" /> [5] > "<line>")', 5),
    ("\u201ethe plan\u201c", 'file > "the plan" + ("the" .. "plan" /> [5] > "<line>")', 5),
    ('"the\u00a0plan"', 'file > "the plan" + ("the" .. "plan" /> [5] > "<line>")', 5),
    (
        '"to be or not to be"',
        'file > "to be or not to be" + ("to" .. "be" .. "or" .. "not" .. "to" .. "be" /> [9] '
        '> "<line>")',
        9,
    ),
    ('"plan"', 'file > "plan"', 1),
    ("budget NEAR/5 lunch", 'file > ("budget" ^ "lunch" /> [7])', 3),
    ("budget NEAR lunch", 'file > ("budget" ^ "lunch" /> [12])', 3),
    ("a NEAR/3 b NEAR/5 c", 'file > ("a" ^ "b" ^ "c" /> [10])', 4),
    ("a NEAR/2 (b OR c)", 'file > ("a" ^ ("b" + "c") /> [4])', 4),
    (
        "a NEAR/2 (b OR e-mail)",
        'file > ("a" ^ "b" /> [4]) + ("a" ^ "e mail" /> [5])',
        6,
    ),
    ("line:(budget lunch)", 'file > (line > "budget" > "lunch")', 3),
    ('line:("the plan")', 'file > (line > "the plan")', 2),
    ("line:(-draft)", 'file > (line /> "draft")', 2),
    ("a (b OR -c)", 'file > "a" > (file > "b") + (file /> "c")', 5),
    ("b OR -c", '(file > "b") + (file /> "c")', 3),
    ("b OR c OR -d", '(file > "b" + "c") + (file /> "d")', 4),
    ("a OR (b c)", '(file > "a") + (file > "b" > "c")', 4),
    ("-(a b)", 'file /> (file > "a" > "b")', 3),
    ("-(a OR b)", 'file /> "a" + "b"', 2),
    ("-(a OR -b)", 'file /> "a" > "b"', 2),
    ("-(a OR (b c))", 'file /> "a" /> (file > "b" > "c")', 4),
    ("NOT a", 'file /> "a"', 1),
    ("NOT -a", 'file > "a"', 1),
    ("-draft", 'file /> "draft"', 1),
    ("e-mail", 'file > "e mail"', 1),
    ("foo_bar a.txt", 'file > "foo bar" > "a txt"', 2),
    ("budget?", 'file > "budget"', 1),
    ("+budget", 'file > "budget"', 1),
    ("not or near", 'file > "not" > "or" > "near"', 3),
    ('"OR"', 'file > "OR"', 1),
    ("std::vector", 'file > "std vector"', 1),
    ("http://example.org", 'file > "http example org"', 1),
    ("12:30", 'file > "12 30"', 1),
    ("note: lunch", 'file > "note" > "lunch"', 2),
    ("a\u00a0b", 'file > "a" > "b"', 2),
    ("in:/notes budget", 'file > "budget"', 1),
    ("caf\u00e9", 'file > "caf\u00e9" + "cafe\u0301"', 2),
    (
        '"caf\u00e9 x"',
        'file > (("caf\u00e9" + "cafe\u0301") .. "x" /> [3]) + '
        '(("caf\u00e9" + "cafe\u0301") .. "x" /> [5] > "<line>")',
        9,
    ),
    ("a\u2260b", 'file > "a\u2260b"', 1),
)  # fmt: skip

OVER_LINES = (
    ("budget lunch", 'line > "budget" > "lunch"'),
    ('"the plan"', 'line > "the plan"'),
    ("line:(a)", 'line > (line > "a")'),
)

# What is typed, what is said, and which part of it stands above the `^`.
MESSAGES = (
    ("budget OR", "something is missing at the end", ""),
    ("NOT", "something is missing at the end", ""),
    ("(budget", "this ( is never closed", "("),
    ("line:(budget", "this ( is never closed", "("),
    ("budget)", "this ) closes nothing", ")"),
    ('"budget', "a quote is open: a phrase stands between two", '"'),
    ("pl*", "before a * stand at least 3 letters", "pl*"),
    ("*plan", "a * stands at the end of a word, and nothing else stands for letters", "*plan"),
    ("pl*n", "a * stands at the end of a word, and nothing else stands for letters", "pl*n"),
    ("*", "a * stands at the end of a word, and nothing else stands for letters", "*"),
    ('"the plan*"', "a * can't stand in quotes: plan* alone stands for words", '"the plan*"'),
    (
        "subject:plan",
        'there is no subject: here, but in: name: ext: path: line:(..). As text: "subject .."',
        "subject:plan",
    ),
    ('subject:"a b"', "there is no subject: here", "subject:"),
    ("In:notes", "there is no In: here", "In:notes"),
    (
        "budget OR in:notes",
        "in: name: ext: path: stand beside the words, and not in an OR or a - with them",
        "in:notes",
    ),
    ("a -(b in:notes)", "in: name: ext: path: stand beside the words", "in:notes"),
    ("line:(a ext:md)", "in: name: ext: path: stand beside the words", "ext:md"),
    ("a NEAR (b c)", "NEAR stands between words, phrases, and (this OR that)", "(b c)"),
    ("a NEAR -b", "NEAR stands between words, phrases, and (this OR that)", "-"),
    ("line:(a) NEAR b", "NEAR stands between words, phrases, and (this OR that)", "line:(a)"),
    ("a NEAR/0 b", "after NEAR/ stands a number from 1 to 1000", "NEAR/0"),
    ("a NEAR/1001 b", "after NEAR/ stands a number from 1 to 1000", "NEAR/1001"),
    ("a NEAR/x b", "after NEAR/ stands a number from 1 to 1000", "NEAR/x"),
    ("a NEAR", "something is missing at the end", ""),
    ("!!", "!! has no letter or digit", "!!"),
    ("a - b", "- has no letter or digit", "-"),
    ('""', "this has no letter or digit", '""'),
    ("budget~", "there is no search for words that are alike: write plan*, or a OR b", "budget~"),
    ("budget~0.8", "there is no search for words that are alike", "budget~0.8"),
    ("OR budget", "something is missing before this", "OR"),
    ("a OR | b", "something is missing before this", "|"),
    ("()", "something is missing before this", ")"),
    ("in:", "in: stands before a value, without a blank", "in:"),
    ("in: notes", "in: stands before a value, without a blank", "in:"),
    ("ext:,", "ext: stands before a value", "ext:,"),
    ("name:a(1)", "a value with blanks or parentheses stands in quotes", "name:a"),
    ("line:5", "line: stands before a parenthesis", "line:5"),
    ("  ", "there is nothing to look for", "  "),
    ("(" * 33 + "a" + ")" * 33, "more than 32 parentheses and - stand in each other", "("),
    ("a" * 4097, "the query is too long: it has 4097 bytes of at most 4096", "a"),
)

ARGUMENTS = (
    (["budget", "lunch"], b"budget lunch"),
    (["the plan"], b'"the plan"'),
    (["the plan", "-draft"], b'"the plan" -draft'),
    (["budget -draft"], b"budget -draft"),
    (["a OR b"], b"a OR b"),
    (["plan* x"], b"plan* x"),
    (['"the plan" x'], b'"the plan" x'),
    (["in:notes budget"], b"in:notes budget"),
    (["key: value"], b'"key: value"'),
    (["-x"], b"-x"),
    (["-lc"], b"-lc"),
    (["budget", "-draft", "-l"], b"budget -draft"),
    (["-n5", "budget"], b"budget"),
    (["-n", "5", "budget"], b"budget"),
    (["-A", "2", "-B3", "budget"], b"budget"),
    (["--", "-l", "--json"], b"-l --json"),
    (["-l5", "budget"], b"-l5 budget"),
    (["-l0", "budget"], b"budget"),
    (["-5"], b"-5"),
    (["--json", "-L", "budget"], b"budget"),
    (["caf\udce9"], b"caf\xe9"),
)

WRONG_ARGUMENTS: tuple[tuple[list[str], str], ...] = (
    ([], "give a query"),
    (["-e", '"a"', "b"], "give a query"),
    (["-n", "10001", "a"], "-n is"),
    (["-n", "-1", "a"], "-n is"),
    (["-m", "10001", "a"], "-m is"),
    (["-A", "-1", "a"], "-A, -B and -C"),
    (["-o", "0", "a"], "-o is"),
    (["-c", "-l", "a"], "only one of"),
    (["-c", "--vimgrep", "a"], "only one of"),
)


def nobody(prefixes: Sequence[bytes], _: int) -> list[Listing]:
    """A look-up that finds no word."""
    return [(0, [])] * len(prefixes)


def meant_by(typed: str) -> Meant:
    """What is typed, over files that have none of its words with marks."""
    question = language.read(typed.encode())
    forms = find_forms(question.texts, Marks.COUNTED, nobody) if question.texts else Forms()
    return Meant(question, forms, None)


def expressions(score: Score) -> None:
    """Each query is translated into its expression."""
    for typed, due, operators in EXPRESSIONS:
        told = meant_by(typed).expression(Scope.FILE)
        written = spell(told).decode()
        score.check(written == due, f"{typed}: {written} in place of {due}")
        score.check(operators_of(told) == operators, f"{typed}: {operators_of(told)} operators")
    for typed, due in OVER_LINES:
        written = spell(meant_by(typed).expression(Scope.LINE)).decode()
        score.check(written == due, f"-L {typed}: {written} in place of {due}")
    question = language.any_of(language.read(b'budget "the plan" -draft in:/notes'))
    told = Translation(Forms()).kept(question.texts, Scope.FILE) if question.texts else Scope.FILE
    due = 'file > "budget" + ("the plan" + ("the" .. "plan" /> [5] > "<line>")) /> "draft"'
    score.check(spell(told).decode() == due, f"--any: {spell(told).decode()}")


def messages(score: Score) -> None:
    """What can't be asked is told, with the place of the fault."""
    for typed, due, part in MESSAGES:
        try:
            language.read(typed.encode())
            score.check(False, f"{typed[:80]}: no fault")
        except Fault as fault:
            score.check(fault.message.startswith(due), f"{typed[:80]}: {fault.message}")
            told = typed.encode()[fault.span.start : fault.span.end].decode()
            score.check(told == part, f"{typed[:80]}: the ^ stands below {told!r}")
    typed_bytes = "\u8a08 \x1b[1m \u00e9 a)".encode()
    try:
        language.read(typed_bytes)
    except Fault as fault:
        shown = at_fault(typed_bytes, fault)
        due_lines = ["  \u8a08 \\x1b[1m \u00e9 a)", "  " + " " * 14 + "^"]
        score.check(shown == due_lines, f"the ^ below wide letters: {shown}")
    for depth, is_read in ((32, True), (33, False)):
        query = b"-(" * (depth // 2) + b"-" * (depth % 2) + b"a" + b")" * (depth // 2)
        try:
            language.read(query)
            score.check(is_read, f"depth {depth}")
        except Fault:
            score.check(not is_read, f"depth {depth}")


def limits(score: Score) -> None:
    """A query that takes more than the program allows isn't sent."""
    many = " OR ".join(f"w{number}" for number in range(64))
    for typed, due in (
        (many, "it takes 64 operators of at most 63"),
        ('"' + "a b " * 40 + '"', "it takes 83 operators of at most 63"),
        (" NEAR ".join(["(a OR e-mail)"] * 7), "it takes more than 63 operators"),
    ):
        meant = meant_by(typed)
        try:
            spell(meant.expression(Scope.FILE))
            score.check(False, f"{typed[:40]} isn't too long")
        except TooLong as fault:
            score.check(too_long(meant, fault).endswith(due), f"{typed[:40]}: {fault.told}")
    allowed = " OR ".join(f"w{number}" for number in range(63))
    score.check(operators_of(meant_by(allowed).expression(Scope.FILE)) == 63, "63 operators")
    words = " ".join(f"w{number}" for number in range(65))
    try:
        meant_by(words)
        score.check(False, "65 words")
    except Fault as fault:
        score.check("it has 65 words of at most 64" in fault.message, fault.message)
    deep = meant_by('"' + "a " * 2000 + '"')
    score.check(operators_of(deep.expression(Scope.FILE)) == 2003, "a phrase of 2,000 words")


WORDS = (
    ("budget", "budget", True),
    ("\u201cbudget", "budget", True),
    ("budget\u201d", "budget", True),
    ("\u201cbudget\u201d", "budget", True),
    ("budget\u2014then", "budget", True),
    ("\u2018budget\u2014then", "budget", True),
    ("budget\u00a0b", "budget", True),
    ("budget\u3002", "budget", True),
    ("budgets", "budget", False),
    ("\u201cbudgets", "budget", False),
    ("\u201c\u201cbudget", "budget", False),
    ("budget\u00e9", "budget", False),
    ("\u3001budget", "budget", False),
    ("plan\u2014budget", "budget", False),
)


class Index:
    """A look-up over some words, which notes what it is asked."""

    def __init__(self, words: Sequence[str]) -> None:
        self.words = sorted(word.encode() for word in words)
        self.asked: list[bytes] = []

    def __call__(self, prefixes: Sequence[bytes], most: int) -> list[Listing]:
        """The words that begin so."""
        self.asked += prefixes
        found = [[word for word in self.words if word.startswith(one)] for one in prefixes]
        return [(len(some), [(word, 1) for word in some[:most]]) for some in found]


def words(score: Score) -> None:
    """Which words count as a typed one."""
    for word, form, counts in WORDS:
        score.check(counts_as(word.encode(), form.encode()) == counts, f"{word} as {form}")
    index = Index([word for word, _, _ in WORDS])
    texts = language.read(b"budget").texts
    if texts is None:
        return
    found = find_forms(texts, Marks.COUNTED, index)
    (typed,) = found.words
    due = {word.encode() for word, _, counts in WORDS if counts}
    score.check(set(found.of(typed)) == due, f"the forms of budget: {found.of(typed)}")
    score.check(len(index.asked) == 14, f"{len(index.asked)} look-ups of a word")
    score.check(not found.notes, f"{found.notes}")
    for one in ("a", "of", "\u00e9"):
        index = Index(())
        some = language.read(one.encode()).texts
        if some is not None:
            find_forms(some, Marks.COUNTED, index)
        short = [prefix for prefix in index.asked if len(prefix) < 3]
        score.check(not short and len(index.asked) > 10, f"{one} asks for {short}")
    exact = Index(())
    score.check(find_forms(texts, Marks.LEFT_OUT, exact).of(typed) == (b"budget",), "no marks")
    score.check(not exact.asked, "marks that are left out aren't looked up")
    many = Index([f"budget\u2014{number}" for number in range(17)])
    found = find_forms(texts, Marks.COUNTED, many)
    score.check(found.of(typed) == (b"budget",) and len(found.notes) == 1, "17 words with a dash")
    prefixes(score)


def prefixes(score: Score) -> None:
    """What a word with a star stands for."""
    texts = language.read(b"con*").texts
    if texts is None:
        return
    (typed,) = typed_in(texts)
    index = Index(["con", "contra", "\u201cconto", "CON", "xcon", "\u201c\u201ccon"])
    found = find_forms(texts, Marks.COUNTED, index).of(typed)
    score.check(set(found) == {b"con", b"contra", "\u201cconto".encode()}, f"con*: {found}")
    for count, marked in ((64, 0), (65, 0), (60, 5)):
        some = [f"con{number}" for number in range(count)]
        some += [f"\u201ccon{number}" for number in range(marked)]
        try:
            told = len(find_forms(texts, Marks.COUNTED, Index(some)).of(typed))
            score.check(told == count + marked <= 64, f"{told} words of con*")
        except Fault as fault:
            due = f"{count + marked} of your words begin with con, which is more than can be"
            score.check(fault.message.startswith(due) and count + marked > 64, fault.message)
    for short in ("\u1e9e*", "\u212a*", "e\u0301*", "\u00e9*"):
        index = Index(())
        try:
            some_texts = language.read(short.encode()).texts
            if some_texts is not None:
                find_forms(some_texts, Marks.COUNTED, index)
            score.check(False, f"{short} is looked up: {index.asked}")
        except Fault as fault:
            score.check("at least 3 letters" in fault.message and not index.asked, short)


PATHS = (
    ("in:/home/ann/notes", "/home/ann/notes/a", True),
    ("in:/home/ann/notes/", "/home/ann/notes/a/b", True),
    ("in:/home/ann/notes", "/home/ann/notes2/a", False),
    ("in:notes", "/home/ann/notes/a", True),
    ("in:.", "/home/ann/a", True),
    ("in:..", "/home/bob/a", True),
    ("in:../bob", "/home/bob/a", True),
    ("in:/", "/a", True),
    ("in:notes,/srv", "/srv/a", True),
    ('in:"My Notes"', "/home/ann/My Notes/a", True),
    ("in:caf\u00e9", "/home/ann/cafe\u0301/a", True),
    ("ext:md", "/a/b.md", True),
    ("ext:md", "/a/b.MD", True),
    ("ext:.md", "/a/b.md", True),
    ("ext:md,txt", "/a/b.txt", True),
    ("ext:md", "/a/bmd", False),
    ("ext:md", "/a.md/b", False),
    ("ext:tar.gz", "/a/b.tar.gz", True),
    ("name:plan*", "/a/planning", True),
    ("name:plan*", "/a/Planning", True),
    ("name:Plan*", "/a/planning", False),
    ("name:plan", "/a/planning", False),
    ("name:plan", "/plan/a", False),
    ("name:?", "/a/\u00e9", True),
    ("name:e\u0301*", "/a/\u00e9t\u00e9", True),
    ("name:[ab]", "/x/b", True),
    ("name:a*", "/x/a\nb", True),
    ("path:notes", "/home/notes/a", True),
    ("path:n*es", "/home/notes/a", True),
    ("path:/home/*/a", "/home/x/y/a", True),
    ("path:/home", "/home/x", False),
    ("path:HOME", "/home/x", False),
    ("-in:/a", "/a/b", False),
    ("(in:/a OR ext:md)", "/b/c.md", True),
    ("in:/a ext:md", "/a/c.txt", False),
    ("-(in:/a | ext:md)", "/b/c", True),
)


def conditions(score: Score) -> None:
    """Which paths pass."""
    standing = Standing(b"/home/ann")
    for typed, path, due in PATHS:
        tree = language.read(typed.encode()).paths
        if tree is not None:
            told = condition_of(tree, standing)(path.encode())
            score.check(told == due, f"{typed} of {path}: {told}")
    question = language.read(b'budget name:"a b.txt" -ext:md')
    nowhere = Span(0, 0)
    named = Filter(Subject.NAME, (b"a b.txt",), nowhere)
    without = Not(Filter(Subject.EXTENSION, (b"md",), nowhere))
    score.check(question.paths == And((named, without)), f"{question.paths}")
    home = os.path.expanduser(b"~")
    score.check(standing.whole(b"~/x") == home + b"/x", f"{standing.whole(b'~/x')!r}")


def arguments(score: Score) -> None:
    """Which arguments are options, and what the others ask."""
    for given, due in ARGUMENTS:
        told = query_of(read_arguments(given).words)
        score.check(told == due, f"{given}: {told!r}")
    for given, due_text in WRONG_ARGUMENTS:
        try:
            read_arguments(given)
            score.check(False, f"{given}: no fault")
        except Trouble as trouble:
            score.check(due_text in str(trouble), f"{given}: {trouble}")
    read = read_arguments(["-A3", "-C", "1", "--color", "always", "-o2", "x", "--sockets=/s"])
    values = (read.after_context, read.context, read.color, read.open, read.sockets, read.words)
    score.check(values == (3, 1, "always", 2, "/s", ["x"]), f"{values}")


def lines(score: Score) -> None:
    """Which lines are shown of a file, and what is marked in them."""
    text = b"the budget\nnothing\nlunch and budget\nsee the\nplan for lunch\nlunch".split(b"\n")
    rows: tuple[tuple[str, list[tuple[int, tuple[tuple[int, int], ...], int]]], ...] = (
        ("budget lunch", [(1, ((4, 10),), 1), (3, ((0, 5), (10, 16)), 2), (5, ((9, 14),), 1),
                          (6, ((0, 5),), 1)]),
        ('"the plan"', [(4, ((4, 7),), 1), (5, ((0, 4),), 1)]),
        ('line:("the plan")', []),
        ("line:(budget lunch)", [(3, ((0, 5), (10, 16)), 1)]),
        ("budget -lunch", [(1, ((4, 10),), 1), (3, ((10, 16),), 1)]),
        ("budget NEAR/2 lunch", [(3, ((0, 5), (10, 16)), 1)]),
        ("plan NEAR/3 lunch", [(5, ((0, 4), (9, 14)), 1)]),
        ("-budget", []),
    )  # fmt: skip
    for typed, due in rows:
        meant = meant_by(typed)
        found = Matcher(meant.question.texts, meant.forms, Scope.FILE).shown(text)
        told = [(one.number, one.spans, one.parts) for one in found]
        score.check(told == due, f"{typed}: {told}")
    meant = meant_by("budget lunch")
    found = Matcher(meant.question.texts, meant.forms, Scope.FILE).shown(text)
    chosen = [one.number for one in best(found, 2)]
    score.check(chosen == [1, 3], f"the two best lines: {chosen}")
    told_of = Lines(text)
    groups = grouped(told_of, [one for one in found if one.number in (1, 3)], Around(1, 1))
    numbers = [[(row.number, row.spans is not None) for row in group] for group in groups]
    due_numbers = [[(1, True), (2, False), (3, True), (4, False)]]
    score.check(numbers == due_numbers, f"lines around: {numbers}")
    groups = grouped(told_of, [one for one in found if one.number in (1, 5)], Around(0, 1))
    numbers = [[(row.number, row.spans is not None) for row in group] for group in groups]
    score.check(numbers == [[(1, True), (2, False)], [(5, True), (6, False)]], f"{numbers}")


def written(results: Sequence[Result], format_: Format, style: Style, around: Around) -> str:
    """What is written of some results."""
    out = io.BytesIO()
    writer = Writer(out, style, format_, around)
    for result in results:
        writer.write(result)
    return out.getvalue().decode("utf-8", "surrogateescape")


def output(score: Score) -> None:
    """The forms in which results are written."""
    hit = Row(3, b"a budget\x1b[2J\tb", ((2, 8),))
    near = Row(4, "\u202eevil\u00a0x".encode(), None)
    some = [Result(b"/a\n\x1b[1mb", 7, [[hit, near]]), Result(b"/c", None, [[hit]], "changed")]
    pipe, around = Style(Layer.PIPE, False, False), Around(0, 1)
    terminal = Style(Layer.TERMINAL, False, False)
    name, text = "/a\n\x1b[1mb", "a budget\x1b[2J\tb"
    rows = (
        (Format.LINES, pipe, f"{name}:3:{text}\n{name}-4-\u202eevil\u00a0x\n--\n/c:3:{text}\n"),
        (Format.VIMGREP, pipe, f"{name}:3:3:{text}\n/c:3:3:{text}\n"),
        (Format.PATHS, pipe, f"{name}\n/c\n"),
        (Format.PATHS_WITH_NUL, pipe, f"{name}\0/c\0"),
        (
            Format.HEADS, terminal,
            "/a\\x0a\\x1b[1mb\n  3: a budget\\x1b[2J    b\n  4- \\u202eevil x\n\n"
            "/c  changed\n  3: a budget\\x1b[2J    b\n",
        ),
    )  # fmt: skip
    for format_, style, due in rows:
        told = written(some, format_, style, around)
        score.check(told == due, f"{format_}: {told!r}")
    told = written(some, Format.JSON, pipe, around)
    score.check('"spans": [[2, 8]]' in told and '"score": 7' in told, f"JSON: {told}")
    score.check(told.isascii() and "\x1b" not in told, f"JSON: {told!r}")
    told = written([Result(b"/caf\xe9", None, ())], Format.JSON, pipe, around)
    score.check('"path_base64": "L2NhZuk="' in told, f"JSON: {told}")
    colour = Style(Layer.TERMINAL, True, True)
    told = written([Result(b"/a b", None, [[hit]])], Format.HEADS, colour, Around())
    score.check("\x1b[1;31mbudget\x1b[0m" in told, f"highlighting: {told!r}")
    score.check("/a%20b\x1b\\" in told and "\x1b]8;;file://" in told, f"a link: {told!r}")
    long = b"x" * 500 + b" budget " + "\u00e9".encode() * 400
    piece, spans = cut(long, ((501, 507),))
    score.check(piece[spans[0][0] : spans[0][1]] == b"budget", "the first match is in the piece")
    score.check(len(piece) < 420 and piece.decode() != "", "the piece is short, and whole letters")
    wishes = [has_colour(wish, is_there) for wish in ("auto", "always", "never")
              for is_there in (True, False)]  # fmt: skip
    score.check(wishes[1:] == [False, True, True, False, False], f"--color: {wishes}")


def slips(score: Score) -> None:
    """How far words are from each other, and where likely ones begin."""
    rows = (
        ("lunch", "lunch", 0), ("lnuch", "lunch", 1), ("lunh", "lunch", 1), ("luunch", "lunch", 1),
        ("lumch", "lunch", 1), ("ulnch", "lunch", 1), ("budgte", "budget", 1),
        ("budegts", "budget", 2), ("abc", "xyz", 3),
    )  # fmt: skip
    for one, other, due in rows:
        told = slips_between(one, other, 2)
        score.check(told == due or (due > 2 and told > 2), f"{one} {other}: {told}")
    for typed, right in (("lnuch", "lunch"), ("unch", "lunch"), ("blunch", "lunch"), ("kunch",
                         "lunch"), ("lunhc", "lunch")):  # fmt: skip
        score.check(right[:3] in list(fronts_of(typed)), f"{typed} leads to {right}")
    score.check(list(fronts_of("ab")) == [], "a short word")


def explanations(score: Score) -> None:
    """What `--explain` says."""
    told = list(explained(meant_by("budget -draft in:/a"), Scope.FILE))
    due = ['file > "budget" /> "draft"   (2 operators)', "ranked by: budget", "and by their paths"]
    score.check(told == due, f"--explain: {told}")
    question = language.read(b'a ("b c" OR d) -e')
    spans = [span_of(part) for part in question.texts.parts] if isinstance(
        question.texts, And) else []  # fmt: skip
    labels = [question.typed[span.start : span.end] for span in spans]
    score.check(labels == [b"a", b'"b c" OR d', b"e"], f"the parts: {labels}")


ENDS = b"(the connection ends)"


class Fake:
    """A service whose answers are made up, and which notes what it is asked."""

    def __init__(self, folder: Path, answer: Callable[[bytes], bytes]) -> None:
        self.answer = answer
        self.asked: list[bytes] = []
        self.listening = socket.socket(socket.AF_UNIX)
        self.listening.bind(str(folder / "ask"))
        self.listening.listen()
        self.thread = threading.Thread(target=self._serve, daemon=True)
        self.thread.start()

    def _serve(self) -> None:
        while True:
            try:
                connection, _ = self.listening.accept()
            except OSError:
                return
            with connection, connection.makefile("rwb") as both:
                for line in both:
                    self.asked.append(line.rstrip(b"\n"))
                    answer = self.answer(self.asked[-1])
                    both.write(answer.removesuffix(ENDS))
                    both.flush()
                    if answer.endswith(ENDS):
                        break

    def close(self) -> None:
        """Ends it."""
        self.listening.shutdown(socket.SHUT_RDWR)
        self.listening.close()
        self.thread.join(5)


def told_by(answer: Callable[[bytes], bytes], *words: str) -> tuple[int, str, str, list[bytes]]:
    """What `wumpus-ask` writes over a service that answers so, and what that was asked."""
    with tempfile.TemporaryDirectory() as name:
        fake = Fake(Path(name), answer)
        command = [str(SERVICE / "wumpus-ask"), "--sockets", name, *words]
        ran = subprocess.run(command, capture_output=True, text=True, timeout=60)
        fake.close()
        return ran.returncode, ran.stdout, ran.stderr, fake.asked


def services(score: Score) -> None:
    """What is done where the service refuses, has too much to tell, or goes away."""
    empty = b"terms\t0\t0\n"

    def refusing(word: bytes) -> Callable[[bytes], bytes]:
        def answer(line: bytes) -> bytes:
            return empty if line.startswith(b"terms") else b"refused\t" + word + b"\n"

        return answer

    for word, due in ((b"tooslow", "too long"), (b"stale", "hasn't looked"), (b"odd", "odd")):
        status, out, error, asked = told_by(refusing(word), "budget", "lunch")
        others = [line for line in asked if not line.startswith(b"terms")]
        score.check(status == 2 and not out and due in error, f"{word!r}: {error}")
        score.check(len(others) == 1, f"after {word!r} nothing more is asked: {others}")

    def large(line: bytes) -> bytes:
        if line.startswith(b"terms"):
            return empty
        most = int(line.split(b"\t")[1])
        if most > 3000:
            return b"refused\ttoolargereply\n"
        return b"rank\t3\t3\n" + b"".join(b"7\t/%d\t0\t9\n" % place for place in range(3))

    status, out, error, asked = told_by(large, "-l", "budget")
    most = [line.split(b"\t")[1] for line in asked if line.startswith(b"rank")]
    score.check((status, out) == (0, "/0\n/1\n/2\n"), f"a large reply: {out} {error}")
    score.check(most == [b"10000", b"2500"], f"a quarter as many: {most}")

    def more(line: bytes) -> bytes:
        return empty if line.startswith(b"terms") else b"rank\t20000\t1\n7\t/a\t0\t9\n"

    status, out, error, _ = told_by(more, "-l", "budget")
    score.check("1 of 20000 files are shown" in error and status == 0, f"in a pipe: {error}")
    status, out, error, _ = told_by(more, "-l", "-n1", "budget")
    score.check(not error and status == 0, f"as many as were asked for: {error}")
    for answer in (b"", b"rank\t1\t9\n", b"rank\n", b"who\n", b"rank\t1\t1\n7\t/a"):

        def ending(line: bytes, answer: bytes = answer) -> bytes:
            return empty if line.startswith(b"terms") else answer + ENDS

        status, _, error, _ = told_by(ending, "budget")
        score.check(status == 2 and "the service" in error, f"{answer!r}: {error}")


def main() -> int:
    """Runs the test."""
    options(__doc__ or "").parse_args()
    score = Score("language")
    for part in (
        expressions, messages, limits, words, conditions, arguments, lines, output, slips,
        explanations, services,
    ):  # fmt: skip
        part(score)
    return score.end()


if __name__ == "__main__":
    sys.exit(main())
