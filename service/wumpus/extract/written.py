"""What a program writes: text, maybe behind a head with what the document is about."""

import re
from html import unescape

from .coding import decoded
from .frames import Output

# As `pdftotext -htmlmeta` has it. What stands behind is text as it is.
_BEGINS = re.compile("<!DOCTYPE html [^\n]*\n<head>\n")
_BODY = "\n<pre>\n"
_ENDS = "</pre>\n</body>\n</html>\n"
_TITLE = re.compile("<title>([^<]*)</title>")
_ABOUT = re.compile('<meta name="(?:Author|Subject|Keywords)" content="([^"]*)"')


def written(data: bytes, output: Output) -> None:
    """Writes the text."""
    text = decoded(data, "utf-8")
    if _BEGINS.match(text) and _BODY in text:
        head, _, text = text.partition(_BODY)
        text = text.removesuffix(_ENDS)
        for told in (*_TITLE.findall(head), *_ABOUT.findall(head)):
            output.line(unescape(told))
    output.text(text)
