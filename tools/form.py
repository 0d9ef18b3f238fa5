"""Checks the form of all files by .editorconfig."""

from __future__ import annotations

import configparser
import re
import subprocess

from definitions import TOP, text_of
from documents import Report


def pattern_of(glob: str) -> re.Pattern[str]:
    """The names of files that a pattern means, of which `*` and `{a,b}` are the only ones."""
    named = re.escape(glob).replace(r"\*", "[^/]*")
    named = named.replace(r"\{", "(").replace(r"\}", ")").replace(",", "|")
    return re.compile(("" if "/" in glob else r"(.*/)?") + named)


def sections_of_editorconfig() -> list[tuple[re.Pattern[str], dict[str, str]]]:
    """The sections of .editorconfig: the names of files, and what holds of them."""
    parser = configparser.ConfigParser()
    parser.read_string(text_of(TOP / ".editorconfig").replace("root = true\n", ""))
    return [(pattern_of(glob), dict(parser[glob])) for glob in parser.sections()]


def files_of_repository() -> list[str]:
    """The files that git has or would add, by their paths from the top."""
    command = ["git", "ls-files", "-z", "-co", "--exclude-standard"]
    listed = subprocess.run(command, cwd=TOP, capture_output=True, check=True).stdout.decode()
    return sorted({name for name in listed.split("\0") if (TOP / name).is_file()})


def check_form(report: Report) -> None:
    """Each file is as .editorconfig says, but for the length of lines, which only new ones keep."""
    sections = sections_of_editorconfig()
    for name in files_of_repository():
        wanted: dict[str, str] = {}
        for pattern, said in sections:
            if pattern.fullmatch(name):
                wanted |= said
        faults = faults_of_form((TOP / name).read_bytes(), wanted)
        report.check(not faults, f"{name}: {', '.join(faults)}")


def faults_of_form(content: bytes, wanted: dict[str, str]) -> list[str]:
    """What of a file isn't as .editorconfig says."""
    lines = content.split(b"\n")
    is_text = wanted.get("charset") == "utf-8"
    is_trimmed = wanted.get("trim_trailing_whitespace") == "true"
    is_closed = wanted.get("insert_final_newline") == "true"
    has_spaces = wanted.get("indent_style") == "space"
    faults = {
        "isn't UTF-8": is_text and "\ufffd" in content.decode("utf-8", errors="replace"),
        "has carriage returns": wanted.get("end_of_line") == "lf" and b"\r\n" in content,
        "ends without a line feed": is_closed and content[-1:] not in (b"", b"\n"),
        "has spaces at the end of a line": is_trimmed and any(it != it.rstrip() for it in lines),
        "is indented by tabs": has_spaces and any(line.startswith(b"\t") for line in lines),
    }
    return [fault for fault, holds in faults.items() if holds]
