"""What is read of Unicode's own data, as Debian's package unicode-data holds it, by the scripts that make tables and check the
program from outside. Nothing of the program comes from here, which has its own tables."""

import bz2
import copy
import functools
import os
import pathlib
import re
from collections.abc import Iterable, Iterator
from typing import TextIO

FOLDER = pathlib.Path(os.environ.get("UNICODE_DATA", "/usr/share/unicode"))
MISSING = "no Unicode data in {}: install Debian's package unicode-data, or name a folder in UNICODE_DATA"

PVALID, CONTEXTJ, CONTEXTO = "PVALID", "CONTEXTJ", "CONTEXTO"
DISALLOWED, UNASSIGNED = "DISALLOWED", "UNASSIGNED"
MAY_STAND_IN_A_TABLE = {PVALID, CONTEXTJ, CONTEXTO}

# Blocks whose Bidi classes the profile does not know; without `--standard` none of their code points is registered.
LEFT_OUT = ((0xFB1D, 0xFDFF), (0xFE70, 0xFEFF), (0x10800, 0x10FFF), (0x1E800, 0x1EFFF))

# RFC 5892, section 2.6.
EXCEPTIONS = {
    PVALID: {0x00DF, 0x03C2, 0x06FD, 0x06FE, 0x0F0B, 0x3007},
    CONTEXTO: {0x00B7, 0x0375, 0x05F3, 0x05F4, 0x30FB, *range(0x0660, 0x066A), *range(0x06F0, 0x06FA)},
    DISALLOWED: {0x0640, 0x07FA, 0x302E, 0x302F, *range(0x3031, 0x3036), 0x303B},
}

# RFC 5892, sections 2.4 and 2.9.
IGNORABLE_BLOCKS = ((0x20D0, 0x20FF), (0x1D100, 0x1D1FF), (0x1D200, 0x1D24F))
OLD_HANGUL_JAMO = ((0x1100, 0x11FF), (0xA960, 0xA97F), (0xD7B0, 0xD7FF))
LETTER_DIGITS = {"Ll", "Lu", "Lo", "Nd", "Lm", "Mn", "Mc"}


def lines_of(name: str) -> TextIO:
    """The lines of one of the data's files, which Debian compresses where it is long."""
    unpacked, packed = FOLDER / name, FOLDER / (name + ".bz2")
    if unpacked.exists():
        return unpacked.open(encoding="utf-8")
    if packed.exists():
        return bz2.open(packed, "rt", encoding="utf-8")
    raise SystemExit(MISSING.format(FOLDER))


def version() -> str:
    """The Unicode version of the data."""
    with lines_of("ReadMe.txt") as lines:
        [found] = re.findall(r"Version (\d+\.\d+\.\d+)", lines.read())[:1]
        return str(found)


def properties(name: str, *wanted: str) -> Iterator[tuple[int, int, str]]:
    """(first, last, value) for each line of a file of properties with one of the values `wanted`, or with any."""
    for line in lines_of(name):
        fields = [field.strip() for field in line.split("#")[0].split(";")]
        if len(fields) > 1 and (not wanted or fields[1] in wanted):
            first, _, last = fields[0].partition("..")
            yield int(first, 16), int(last or first, 16), fields[1]


def han_field(file: str, *fields: str) -> Iterator[tuple[int, str]]:
    """(code point, value) for each line of a file of the Unihan database about one of the fields."""
    for line in lines_of(file):
        if line.startswith("U+"):
            point, field, value = line.rstrip("\n").split("\t")
            if field in fields:
                yield int(point[2:], 16), value


def is_in(ranges: Iterable[tuple[int, int]], point: int) -> bool:
    return any(first <= point <= last for first, last in ranges)


class Classes:
    """The class of each code point by RFC 5892, section 3, with the blocks that the profile leaves out."""

    left_out: tuple[tuple[int, int], ...] = LEFT_OUT

    def __init__(self) -> None:
        self.category: dict[int, str] = {}
        for first, last, value in properties("extracted/DerivedGeneralCategory.txt"):
            if value != "Cn":
                self.category.update(dict.fromkeys(range(first, last + 1), value))
        self.noncharacters = self.set_of("PropList.txt", "Noncharacter_Code_Point")
        # A code point that NFKC with case folding changes, or takes away, is Unstable or Default_Ignorable.
        self.never = self.set_of("DerivedNormalizationProps.txt", "Changes_When_NFKC_Casefolded")
        self.never |= self.set_of("DerivedCoreProperties.txt", "Default_Ignorable_Code_Point")
        self.never |= self.set_of("PropList.txt", "White_Space") | self.noncharacters

    @staticmethod
    def set_of(file: str, value: str) -> set[int]:
        return {point for first, last, _ in properties(file, value) for point in range(first, last + 1)}

    def whole(self) -> "Classes":
        """The classes of the standard, which leaves out nothing: those of `--standard`."""
        classes = copy.copy(self)
        classes.left_out = ()
        return classes

    @functools.cache
    def of(self, point: int) -> str:
        """The class, of the blocks left out DISALLOWED."""
        return DISALLOWED if is_in(self.left_out, point) else self.by_the_standard(point)

    def may_stand(self, point: int) -> bool:
        """Whether the code point may stand in a table."""
        return self.of(point) in MAY_STAND_IN_A_TABLE

    def by_the_standard(self, point: int) -> str:
        if point > 0x10FFFF or 0xD800 <= point <= 0xDFFF:
            return DISALLOWED
        for name, points in EXCEPTIONS.items():
            if point in points:
                return name
        if point not in self.category and point not in self.noncharacters:
            return UNASSIGNED
        if point == 0x2D or 0x30 <= point <= 0x39 or 0x61 <= point <= 0x7A:
            return PVALID
        if point in (0x200C, 0x200D):
            return CONTEXTJ
        if point in self.never or is_in(IGNORABLE_BLOCKS, point) or is_in(OLD_HANGUL_JAMO, point):
            return DISALLOWED
        return PVALID if self.category.get(point) in LETTER_DIGITS else DISALLOWED
