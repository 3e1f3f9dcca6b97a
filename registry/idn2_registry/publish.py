"""`publish`: a table in a form that others read, which says what the table says, or is refused."""

import itertools
import re
from collections.abc import Callable, Iterator, Sequence
from dataclasses import replace
from pathlib import Path
from typing import Any

from .faults import Unknown, Unsayable
from .form import Form
from .metadata import read_metadata
from .notation.points import Points, spelled
from .notation.ruleset import BLOCKED, INVALID, Action, Entry, Mapped
from .parsed_table import ParsedTable
from .program import Program
from .publish_xml import Element, ruleset_element, untyped_of
from .rfc7940 import reader, verified
from .rfc7940.ruleset import Ruleset
from .tables import Faulty, Table, checked

DECLARATION = '<?xml version="1.0" encoding="UTF-8"?>'


def publish(table: Table, form: Form, meta: Path | None, program: Program) -> bytes:
    """The text. Raises Unsayable, with the line of the table, where the form can't say what the table says."""
    if form is Form.HTML:
        # No other command waits for what draws pages.
        from .pages.table_page import whole_page

        return whole_page(table, program)
    parsed, path = ParsedTable.read(table), meta or table.path.with_suffix(".toml")
    if form is Form.RFC4290:
        told = read_metadata(path, unicode_of(program)) if meta or path.is_file() else []
        return Lines(parsed).text(told)
    return Xml(parsed, read_metadata(path, unicode_of(program)), program).text()


def unicode_of(program: Program) -> str:
    """The version of Unicode of the program, as it tells it."""
    found = re.search(r"\(Unicode (\S+)\)", program.version)
    return found[1] if found else ""


class Xml:
    """A table as XML, each line with the line of the table that it says."""

    def __init__(self, parsed: ParsedTable, meta: Sequence[Element], program: Program) -> None:
        self.parsed, self.program = parsed, program
        self.lines = [(DECLARATION, None), *ruleset_element(parsed, meta).lines()]

    def text(self) -> bytes:
        """The text, after the program and the evaluator read it, and the program's answers were compared with it."""
        for source, variant, lost in lost_variants(self.parsed) if self.parsed.table.version < 3 else ():
            reason = f"by RFC 7940 no label has the variant {spelled(variant)}, since no entry has {lost:04X}"
            raise Unsayable(f"{self.parsed.place(source)}: {reason}")
        text = "".join(f"{line}\n" for line, _ in self.lines).encode()
        try:
            ruleset = reader.read(text)
        except reader.Refused as refused:
            raise self.unsayable(refused.line, f"XML can't say it: {refused.reason}") from refused
        self.check_read_back(text)
        self.check_answers(ruleset)
        return text

    def unsayable(self, line: int | None, reason: str) -> Unsayable:
        """The reason, with the line of the table for a line of the text."""
        place = self.lines[line - 1][1] if line else None
        return Unsayable(f"{self.parsed.table.place}: {f'line {place}: ' if place else ''}{reason}")

    def check_read_back(self, text: bytes) -> None:
        """The program reads the same entries and actions in it."""
        try:
            back = read_back(text, self.parsed, self.program)
        except Faulty as fault:
            raise self.unsayable(fault.line, f"XML can't say it: the program refuses it: {fault.reason}") from fault
        untyped = untyped_of(self.parsed)
        typed = lambda variant: replace(variant, type=variant.type or untyped)
        check_same(self.parsed, back, "XML", lambda entry: (entry.source, set(map(typed, entry.variants))))
        if after_demands(back) != after_demands(self.parsed):
            raise self.unsayable(None, "XML can't say it: the actions read back otherwise")

    def check_answers(self, ruleset: Ruleset) -> None:
        """What the program lists of labels is what RFC 7940 says of them."""
        words, mode = [self.program.path, *self.program.options], self.parsed.table.kind.lists
        labels = verified.labels_for(ruleset, [])
        try:
            for difference in itertools.islice(verified.differences(words, mode, self.parsed.table.data, ruleset, labels), 1):
                raise Unsayable(f"{self.parsed.table.path}: XML can't say it: {difference}")
        except verified.Unanswered as error:
            raise Unknown(f"{self.parsed.table.path}: {error}") from error


class Lines:
    """A table in the lines of RFC 4290: code points with their variants, and nothing else. Version 1 has such lines."""

    def __init__(self, parsed: ParsedTable) -> None:
        self.parsed = parsed

    def text(self, meta: Sequence[Element]) -> bytes:
        """The text, after it was read back."""
        self.check()
        marks = {is_blocked(variant) for entry in self.parsed.ruleset.entries.values() for variant in entry.variants}
        if len(marks) > 1:
            raise self.unsayable(self.first_line_of_both(), "blocked variants beside allocatable ones")
        lines = [f"# {element.name}: {line}" for element in flat(meta) for line in element.text.split("\n")]
        # Version 1 says nothing of them.
        if marks and self.parsed.table.version > 1:
            lines.append(f"# All variants are {'blocked' if marks == {True} else 'allocatable'}.")
        lines += map(line_of, self.parsed.ruleset.entries.values())
        text = "".join(f"{line}\n" for line in lines).encode()
        back = ParsedTable.read(Table(self.parsed.table.name, self.parsed.table.path, text))
        check_same(self.parsed, back, "RFC 4290", lambda entry: [each.points for each in entry.mapped()])
        return text

    def unsayable(self, line: int, what: str) -> Unsayable:
        """What RFC 4290 doesn't have, on a line of the table."""
        return Unsayable(f"{self.parsed.table.place}: line {line}: RFC 4290 has no {what}")

    def check(self) -> None:
        """It has nothing that RFC 4290 lacks."""
        for line, what in sorted(self.lacking()):
            raise self.unsayable(line, what)

    def lacking(self) -> Iterator[tuple[int, str]]:
        """What RFC 4290 lacks, with its lines."""
        ruleset, lines = self.parsed.ruleset, self.parsed.lines
        for words, names in (
            ("types", ruleset.types), ("rules", list(ruleset.rules)),
            ("demands", [f"demand {number}" for number in range(len(ruleset.demands))]),
            ("actions", [f"action {number}" for number in range(len(ruleset.actions))]),
        ):
            yield from ((lines[name], words) for name in names)
        for source, entry in ruleset.entries.items():
            if entry.source.type:
                yield lines[source], "types of sources"
            if len(source) > 1:
                yield lines[source], "sources of several code points"
        for source, _, _ in lost_variants(self.parsed) if self.parsed.table.version == 3 else ():
            yield lines[source], "variants that no label has"

    def first_line_of_both(self) -> int:
        """The first line by which the dispositions differ."""
        seen = None
        for source, entry in self.parsed.ruleset.entries.items():
            for variant in entry.variants:
                if seen not in (None, is_blocked(variant)):
                    return self.parsed.lines[source]
                seen = is_blocked(variant)
        raise AssertionError("it is called where they differ")


def flat(elements: Sequence[Element]) -> Iterator[Element]:
    """The elements that have a text, references as those that they are."""
    for element in elements:
        yield from flat(element.children) if element.children else [element]


def line_of(entry: Entry) -> str:
    """The line of an entry."""
    variants = ":".join(in_rfc4290(variant.points) for variant in entry.variants)
    return in_rfc4290(entry.source.points) + ("|" if variants else "") + variants


def in_rfc4290(points: Points) -> str:
    """A sequence in the spelling of RFC 4290."""
    return "-".join(f"U+{point:04X}" for point in points)


# ---- Reading back


def read_back(text: bytes, parsed: ParsedTable, program: Program) -> ParsedTable:
    """What the program reads in XML. Raises Faulty where it refuses the text."""
    return ParsedTable.read(checked(Table(parsed.table.name, parsed.table.path, text), program))


def after_demands(parsed: ParsedTable) -> list[Action]:
    """The actions from the first on that isn't a demand in other words: invalid by a rule alone."""
    return list(itertools.dropwhile(lambda action: action.disposition == INVALID and not action.types, parsed.ruleset.actions))


def lost_variants(parsed: ParsedTable) -> Iterator[tuple[Points, Points, int]]:
    """Variants with a code point that no source has, each after its source, and with that code point. Before version 3 a
    label may have them; by RFC 7940, section 8.3, none has."""
    known = {point for source in parsed.ruleset.entries for point in source}
    for source, entry in parsed.ruleset.entries.items():
        for variant in entry.variants:
            if lost := [point for point in variant.points if point not in known]:
                yield source, variant.points, lost[0]


def check_same(parsed: ParsedTable, back: ParsedTable, form: str, said: Callable[[Entry], Any]) -> None:
    """What is read back has the same sources, with what is said of each."""
    one, other = ({source: said(entry) for source, entry in each.ruleset.entries.items()} for each in (parsed, back))
    for source in [*one, *other]:
        if one.get(source) != other.get(source):
            place = parsed.place(source) if source in one else parsed.table.place
            raise Unsayable(f"{place}: {form} can't say it: {spelled(source)} reads back otherwise")


def is_blocked(variant: Mapped) -> bool:
    """Whether nobody may have a variant by its type."""
    return variant.type == BLOCKED
