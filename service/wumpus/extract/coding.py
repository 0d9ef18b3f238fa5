"""Which coding of characters a text has. Only those of a list: others are no codings of texts."""

import codecs
import re

from .front import marked

_NAMES = (
    "ascii utf-8 utf-16 utf-16-le utf-16-be utf-32 utf-32-le utf-32-be utf-7"
    " latin-1 iso8859-2 iso8859-3 iso8859-4 iso8859-5 iso8859-6 iso8859-7 iso8859-8 iso8859-9"
    " iso8859-10 iso8859-11 iso8859-13 iso8859-14 iso8859-15 iso8859-16"
    " cp1250 cp1251 cp1252 cp1253 cp1254 cp1255 cp1256 cp1257 cp1258"
    " cp437 cp850 cp852 cp866 cp874 koi8-r koi8-u mac-roman mac-cyrillic tis-620"
    " shift_jis cp932 euc_jp iso2022_jp gb2312 gbk gb18030 big5 big5hkscs cp950 euc_kr cp949"
    " iso2022_kr"
)
# Names that are common, and that the interpreter doesn't know, or means something narrower by.
_MEANT = {
    "iso88591": "cp1252", "latin1": "cp1252", "usascii": "cp1252", "ascii": "cp1252",
    "ansix341968": "cp1252", "unicode": "utf-16", "utf8mb4": "utf-8", "xsjis": "cp932",
    "shiftjis": "cp932", "gb2312": "gb18030", "gbk": "gb18030", "xgbk": "gb18030",
    "ksc56011987": "cp949", "euckr": "cp949", "windows31j": "cp932", "xmacroman": "mac-roman",
    "macintosh": "mac-roman", "iso88599": "cp1254", "iso885911": "cp874", "windows874": "cp874",
}  # fmt: skip
_OTHER = "cp1252"  # of what is no UTF-8 and names no coding
_SIGNS = re.compile("[^a-z0-9]")


def _short(name: str) -> str:
    return _SIGNS.sub("", name.lower())


def _codings() -> dict[str, str]:
    """Each coding by the short forms of its names. They are loaded here, before there are walls."""
    from encodings.aliases import aliases

    known = {}
    for name in _NAMES.split():
        found = codecs.lookup(name).name
        known[_short(name)] = known[_short(found)] = found
        b"".decode(found)
    for alias, target in aliases.items():
        if _short(target) in known:
            known[_short(alias)] = known[_short(target)]
    for number in range(1250, 1259):
        known[f"windows{number}"] = f"cp{number}"
    return known | _MEANT


_CODINGS = _codings()


def coding_of(name: str) -> str | None:
    """The coding of a name that a document has; None for one that isn't in the list."""
    return _CODINGS.get(_short(name))


def decoded(data: bytes, named: str | None = None) -> str:
    """The text of some bytes: by their mark, as what they are named, as UTF-8, or else.

    What a coding has no character for is a sign of its own, which is no part of a word.
    """
    mark = marked(data)
    if mark is not None:
        return data[mark[1] :].decode(mark[0], "replace")
    coding = coding_of(named) if named else None
    if coding is not None and coding != _OTHER:
        return data.decode(coding, "replace")
    # Of what is named as Western much is UTF-8, and what is Western is hardly ever good UTF-8.
    try:
        return data.decode("utf-8")
    except UnicodeDecodeError:
        return data.decode(_OTHER, "replace")
