"""Worked rows of types, whole-label rules and actions, worked out from the definitions. type_rows.txt has rulesets, and
what runs answer under them; the rows of faulty lines are here.

A paragraph of that file is the heading of a part (==) or of a case (--), or it says by its first line what it has: a
file of the case (`t:`), the canonical text of `t`, a file in XML that `t` is made of or why none is, or a run (`$`)
with its output, its messages (`2>`) and its status where that isn't 0. A line goes on after `\\`."""

import pathlib
import shlex
from collections.abc import Iterator
from typing import NamedTuple

from idn2_registry.notation.faults import TEXTS

TEXT = (pathlib.Path(__file__).parent / "type_rows.txt").read_text(encoding="utf-8")
SYNTAX, SAME_SOURCE, SAME_VARIANT, BAD_CLASS, LIMIT, NO_SUCH_NAME, SAME_NAME = range(30, 37)

Answer = tuple[str, str, int]
Row = tuple[list[str], str, dict[str, str], Answer]

# The lines after the version line, of which the last is faulty; and the place of its fault.
FAULTS = {
    SYNTAX: [
        ("%tag t", "'%tag' at byte 1"),
        ("%type", "the line ends at byte 6"),
        ("%type 9a", "'9a' at byte 7"),
        ("%type s t", "'t' at byte 9"),
        ("%action", "the line ends at byte 8"),
        ("%action block any blocked", "'block' at byte 9"),
        ("%action Blocked", "'Blocked' at byte 9"),
        ("%action valid any", "the line ends at byte 18"),
        ("%action valid any ,", "',' at byte 19"),
        ("%action blocked any blocked,", "the line ends at byte 29"),
        ("%action blocked any blocked valid", "'valid' at byte 29"),
        ("%action blocked any blocked,valid,blocked", "'blocked' at byte 35"),
        ("%whole w .\n%action valid any valid when w", "'when' at byte 25"),
        ("%action valid any valid all valid", "'all' at byte 25"),
        ("%action valid when", "the line ends at byte 19"),
        ("%action valid when w unless w", "'unless' at byte 22"),
        ("%type s\n%type t\n0061 as s,t", "',' at byte 10"),
        ("%type s\n!0061 as s", "'as' at byte 7"),
        ("%type s\n0061|!0062 as s", "'as' at byte 12"),
        ("0061 as", "the line ends at byte 8"),
        ("%rule r _\n0061 when r as valid", "'as' at byte 13"),
        ("!!0061", "'!' at byte 2"),
        ("%whole w", "the line ends at byte 9"),
        ("%whole w 0061 _", "'_' at byte 15"),
        ("%whole w 0061 /", "the line ends at byte 16"),
        ("%rule r 0061", "the line ends at byte 13"),
        ("%rule r 0061 / _", "'/' at byte 14"),
        ("%rule r ^ $ _", "'$' at byte 11"),
        ("%never 0061 _", "'_' at byte 13"),
        ("0063..0061 as valid", "'0061' at byte 7"),
        ("%action valid 0061", "'0061' at byte 15"),
    ],
    NO_SUCH_NAME: [
        ("0061 as bloked", "'bloked' at byte 9"),
        ("%type s\n0061 as s|0062 as t", "'t' at byte 19"),
        ("%action blocked any s", "'s' at byte 21"),
        ("%type s\n%action blocked when w any t", "'w' at byte 22"),
        ("%type s\n%action blocked any s,t", "'t' at byte 23"),
        ("%rule r _\n%action invalid when r", "'r' at byte 22"),
        ("%type s\n%action invalid when s", "'s' at byte 22"),
        ("%whole w .\n%action blocked any w", "'w' at byte 21"),
        ("%whole w .\n0061 as w", "'w' at byte 9"),
        ("%type s\n0061 when s", "'s' at byte 11"),
        ("0041 as s", "'s' at byte 9"),
    ],
    SAME_NAME: [
        ("%type blocked", "'blocked' at byte 7"),
        ("%set valid 0061", "'valid' at byte 6"),
        ("%rule invalid _", "'invalid' at byte 7"),
        ("%whole activated .", "'activated' at byte 8"),
        ("%type s\n%type s", "'s' at byte 7"),
        ("%whole w .\n%rule w _", "'w' at byte 7"),
        ("%type s\n%set s 0061", "'s' at byte 6"),
    ],
    SAME_VARIANT: [
        ("%type s\n%type t\n0061|0062 as s:0062 as t", "variant at byte 16"),
        ("%type s\n0061|0061 as s", "variant at byte 6"),
        ("%rule r _\n%type s\n0061|0062 as s when r:!0062 when r", "variant at byte 24"),
        ("0061|0062:0062 as blocked", "variant at byte 11"),
    ],
    SAME_SOURCE: [
        ("%type s\n0061\n0061 as s", "source at byte 1"),
    ],
    BAD_CLASS: [
        ("%whole w 0041", "U+0041 at byte 10"),
        ("%type s\n0041 as s", "U+0041 at byte 1"),
        ("0041|0041", "U+0041 at byte 1"),
        ("0060..0062 as valid", "U+0060 in the range at byte 1"),
    ],
}
PATTERNS = ["%never ."] * 100 + [f"%whole w{number} ." for number in range(100)]
FAULTS[LIMIT] = [
    ("\n".join(f"%type t{number}" for number in range(58)), "'%type' at byte 1"),
    ("\n".join(PATTERNS + ["%action valid"] * 57), "'%action' at byte 1"),
    ("\n".join([*PATTERNS, *["%action valid"] * 56, "%whole w ."]), "'%whole' at byte 1"),
]


class FromXml(NamedTuple):
    """A Label Generation Ruleset less its root, and the ruleset that is made of it, or why none is."""

    xml: str
    ruleset: str | None
    refused: str | None


def paragraphs() -> Iterator[list[str]]:
    return (paragraph.splitlines() for paragraph in TEXT.replace("\\\n", "").split("\n\n"))


def text_of(lines: list[str]) -> str:
    return "".join(line + "\n" for line in lines)


def rows() -> Iterator[Row]:
    """The words, the input, the files and what must be answered: output, messages, status."""
    files: dict[str, str] = {}
    for first, *rest in paragraphs():
        if first.startswith("--"):
            files = {}
        elif len(first) == 2 and first[1] == ":":
            files[first[0]] = text_of(rest)
        elif first == "canonical:":
            yield ["--print-ruleset", "t"], "", files, (text_of(rest), "", 0)
        elif first.startswith("$ idn2 "):
            words = [word.replace("<TAB>", "\t") for word in shlex.split(first.removeprefix("$ idn2 "))]
            yield words, "", files, answer_of(rest)
    for number, faults in FAULTS.items():
        for lines, place in faults:
            yield from rows_of_fault(lines, number, place)


def answer_of(lines: list[str]) -> Answer:
    status = int(lines.pop().split()[1]) if lines[-1].startswith("status ") else 0
    messages = [line.removeprefix("2> ") for line in lines if line.startswith("2> ")]
    return text_of([line for line in lines if not line.startswith("2> ")]), text_of(messages), status


def rows_of_fault(lines: str, number: int, place: str) -> Iterator[Row]:
    """The fault of the last line: alone, with its place, and as an object."""
    files, line = {"t": f"%version 3\n{lines}\n"}, lines.count("\n") + 2
    message = f"idn2: table line {line}: {number} {TEXTS[number]}"
    words = ["--check-ruleset", "t"]
    yield words, "", files, ("", f"{message}\n", 2)
    yield [*words, "--explain"], "", files, ("", f"{message}: {place}\n", 2)
    code_point = f'"code_point":"{place.split()[0]}",' if place.startswith("U+") else ""
    refusal = f'"number":{number},"text":"{TEXTS[number]}",{code_point}"byte":{place.split()[-1]}'
    yield [*words, "--json"], "", files, (f'{{"table_line":{line},"refusal":{{{refusal}}}}}\n', "", 2)


def from_xml() -> Iterator[FromXml]:
    xml = ""
    for first, *rest in paragraphs():
        if first == "xml:":
            xml = text_of(rest)
        elif xml and first == "t:":
            yield FromXml(xml, text_of(rest), None)
        elif xml and first.startswith("refused: "):
            yield FromXml(xml, None, first.removeprefix("refused: "))
