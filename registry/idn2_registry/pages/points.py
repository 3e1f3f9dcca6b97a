"""Glyphs, numbers and names of code points."""

import functools
import unicodedata

from .html import Markup, element

# What has no glyph of its own, and what is shown in its place.
SHOWN = {0x200C: "ZWNJ", 0x200D: "ZWJ", 0x20: "space", 0xA0: "space", 0xAD: "SHY"}
CIRCLE = "\u25cc"


def number_of(point: int) -> str:
    """A code point as Unicode writes it."""
    return f"U+{point:04X}"


@functools.cache
def name_of(point: int) -> str:
    """Its name; a code point that is newer than Python's own Unicode has none here."""
    text = chr(point)
    if unicodedata.category(text) == "Cc":
        return "control character"
    known = unicodedata.unidata_version
    return unicodedata.name(text, "") or f"no name in Unicode {known}"


def is_mark(point: int) -> bool:
    """Whether it stands at the letter before it."""
    return unicodedata.category(chr(point)).startswith("M")


def glyph_of(*points: int) -> Markup:
    """A sequence as it looks, apart from the direction of what is around it. A mark stands at a circle."""
    text = "".join(map(chr, points))
    if len(points) == 1 and (points[0] in SHOWN or not text.isprintable()):
        return element("span", SHOWN.get(points[0], "?"), class_="glyph unseen")
    return element("bdi", (CIRCLE if is_mark(points[0]) else "") + text, class_="glyph")


def numbers_of(points: tuple[int, ...]) -> str:
    """The numbers of a sequence."""
    return " ".join(map(number_of, points))


def names_of(points: tuple[int, ...]) -> str:
    """The names of a sequence."""
    return ", ".join(map(name_of, points))
