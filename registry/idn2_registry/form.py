"""In which forms a table is published."""

from enum import Enum


class Form(Enum):
    """XML of RFC 7940, the lines of RFC 4290, or a page for people."""

    XML = "xml"
    RFC4290 = "rfc4290"
    HTML = "html"
