"""The properties of Unicode that a class of RFC 7940 may name (its section 6.2.3), from Unicode's own files: those of
Debian's package unicode-data, or of the folder that UNICODE_DATA names. Where these aren't, Python's own data tells of
three properties. Nothing of the program or of its tables comes from here."""

import bisect
import functools
import os
import pathlib
import re
import unicodedata
from collections.abc import Callable

FOLDER = pathlib.Path(os.environ.get("UNICODE_DATA", "/usr/share/unicode"))
FILES = {
    "gc": "extracted/DerivedGeneralCategory.txt", "sc": "Scripts.txt", "ccc": "extracted/DerivedCombiningClass.txt",
    "bc": "extracted/DerivedBidiClass.txt", "jt": "extracted/DerivedJoiningType.txt",
    "InSC": "IndicSyllabicCategory.txt", "Dep": "PropList.txt",
}
# A line about code points: one or a range, and a value. Those without a line of their own have that of the last
# '@missing'.
LINE = re.compile(r"(# @missing: )?([0-9A-F]{4,6})(?:\.\.([0-9A-F]{4,6}))? *; *(\w+)")

# Those that Python tells, and their values as it names them. A category may be named by its first letter.
OF_PYTHON: dict[str, tuple[Callable[[str], str], str]] = {
    "gc": (unicodedata.category, "L[ulmto]?|M[nce]?|N[dlo]?|P[cdseifo]?|S[mcko]?|Z[slp]?|C[cfosn]?"),
    "ccc": (lambda letter: str(unicodedata.combining(letter)), "[0-9]{1,3}"),
    "bc": (unicodedata.bidirectional, "L|R|AL|EN|ES|ET|AN|CS|NSM|BN|B|S|WS|ON"),
}
LONG_NAMES = {"General_Category": "gc", "Canonical_Combining_Class": "ccc", "Bidi_Class": "bc"}

Row = tuple[int, int, str]


class NoProperty(Exception):
    """There is no such property or value, or no data here."""


def lines_of(name: str) -> list[str]:
    try:
        return (FOLDER / name).read_text(encoding="utf-8").splitlines()
    except OSError as error:
        raise NoProperty(f"{error}: install Debian's package unicode-data, or name a folder in UNICODE_DATA") from error


@functools.cache
def rows_of(name: str) -> tuple[list[Row], list[Row]]:
    """The code points of a file with their values, in order; and those of its '@missing' lines, the last first."""
    stated: list[Row] = []
    missing: list[Row] = []
    for found in filter(None, map(LINE.match, lines_of(name))):
        rows = missing if found[1] else stated
        rows.append((int(found[2], 16), int(found[3] or found[2], 16), found[4]))
    return sorted(stated), missing[::-1]


@functools.cache
def names_of(short: str, value: str) -> frozenset[str]:
    """All names of a value of a property, and of a group of values the names of each: gc:L is Lu, Ll, Lt, Lm and Lo."""
    for line in lines_of("PropertyValueAliases.txt"):
        data, _, group = line.partition("#")
        fields = [field.strip() for field in data.split(";")]
        if fields[0] == short and value in fields[1:]:
            parts = group.split("|") if "|" in group else []
            return frozenset(fields[1:]).union(*(names_of(short, part.strip()) for part in parts))
    raise NoProperty(f"'{short}' has no value '{value}'")


def is_assigned(point: int) -> bool:
    """Whether the data know the code point: of later ones they can't tell a property."""
    return not test_of("gc:Cn")(point)


@functools.cache
def test_of(name: str) -> Callable[[int], bool]:
    """Whether a code point has the property and value that are named so: 'gc:Mn', 'Script:Greek', 'ccc:9'."""
    given, _, value = name.partition(":")
    if not FOLDER.exists() and (found := test_by_python(LONG_NAMES.get(given, given), value)):
        return found
    aliases = [[field.strip() for field in line.split(";")] for line in lines_of("PropertyAliases.txt")]
    short = next((fields[0] for fields in aliases if given in fields), "")
    if short not in FILES:
        raise NoProperty(f"the property '{given}' isn't known here")
    names = names_of(short, value)
    stated, missing = rows_of(FILES[short])
    if short == "Dep":
        stated = [row for row in stated if row[2] == "Deprecated"]
        names, missing = frozenset({"Deprecated"} if "Yes" in names else {"No"}), [(0, 0x10FFFF, "No")]

    def has(point: int) -> bool:
        place = bisect.bisect(stated, (point, 0x110000, "")) - 1
        near = stated[place:place + 1] if place >= 0 else []
        return next(value for first, last, value in near + missing if first <= point <= last) in names

    return has


def test_by_python(short: str, value: str) -> Callable[[int], bool] | None:
    """The same by Python's own data, if they tell it."""
    value_of, values = OF_PYTHON.get(short, (str, "(?!)"))
    if not re.fullmatch(values, value):
        return None
    if short == "gc":
        return lambda point: value_of(chr(point)).startswith(value)
    return lambda point: value_of(chr(point)) == value
