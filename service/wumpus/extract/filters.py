"""The filters that are code, by their names."""

from collections.abc import Callable

from .book import epub
from .frames import Output
from .kinds import PLAIN, WRITTEN
from .mail import mail
from .office import OFFICE
from .opendocument import opendocument
from .packed import unpack_bz2, unpack_gz, unpack_xz, unpack_zst
from .page import html
from .wide import plain, wide
from .written import written

VERSION = 1  # of all filters: another one has documents made anew

FILTERS: dict[str, Callable[[bytes, Output], None]] = {
    **OFFICE,
    "odf": opendocument,
    "epub": epub,
    "html": html,
    "mail": mail,
    "gz": unpack_gz,
    "xz": unpack_xz,
    "bz2": unpack_bz2,
    "zst": unpack_zst,
    "wide": wide,
    PLAIN: plain,
    WRITTEN: written,
}
