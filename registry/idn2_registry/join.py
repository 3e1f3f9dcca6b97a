"""`join`: one table that tells which labels collide, from several."""

from collections.abc import Iterator, Sequence
from pathlib import Path
from typing import NamedTuple

from .faults import Unusable
from .notation.forms import EntryLine, RangeLine
from .notation.points import Points, spelled
from .parsed_table import ParsedTable, forms_of
from .program import Program
from .tables import Table, checked


def entries_of(table: Table) -> Iterator[list[Points]]:
    """The entries of a table, each as its source and its variants. Types and conditions don't matter, since each label
    is tested under its own table."""
    forms = (form for _, form in forms_of(table) if isinstance(form, EntryLine | RangeLine))
    return ([mapped.points for mapped in entry.mapped()] for form in forms for entry in form.entries())


def check_dispositions(tables: Sequence[Table]) -> None:
    """No pair is blocked in one table and allocatable in another. Version 1 says neither; and no label has a source that
    is invalid by its type."""
    said: dict[tuple[Points, Points], Said] = {}
    for parsed in (ParsedTable.read(table) for table in tables if table.version > 1):
        for source, entry in parsed.ruleset.entries.items():
            told: dict[Points, set[str]] = {}
            for variant in () if parsed.refuses(entry) else entry.variants:
                told.setdefault(variant.points, set()).add(parsed.disposition_of(variant))
            for points, dispositions in told.items():
                own = Said(parsed.place(source), dispositions)
                other = said.setdefault((source, points), own)
                if other.dispositions != own.dispositions:
                    pair = f"{spelled(source)}|{spelled(points)}"
                    raise Unusable(f"{other.place}: {pair} is {other}, and in {own.place} it is {own}: make both the same")


class Said(NamedTuple):
    """The file and the line that say something of a pair, and what they say."""

    place: str
    dispositions: set[str]

    def __str__(self) -> str:
        return "both by conditions" if len(self.dispositions) > 1 else next(iter(self.dispositions))


def lacking(zone: Table, tables: Sequence[Table]) -> str | None:
    """What the table of a zone lacks of the other tables, so that labels may collide under these alone; None if nothing."""
    others = [table for table in tables if table is not zone]
    pairs = {(source, variant) for source, *variants in entries_of(zone) for variant in variants} if others else set()
    for table in others:
        for source, *variants in entries_of(table):
            for variant in variants:
                if source != variant and (source, variant) not in pairs:
                    pair = f"{spelled(source)}|{spelled(variant)}"
                    return f"the table {zone.name} lacks {pair} of {table.name}: join the tables again"
    return None


def joined(tables: Sequence[Table]) -> bytes:
    """A table of version 2 with every source and every pair of them. Sequences that are variants of each other in any of the
    tables, directly or through others, are blocked variants of each other."""
    variants: dict[Points, set[Points]] = {}
    for table in tables:
        for entry in entries_of(table):
            whole = set(entry).union(*(variants.get(sequence, ()) for sequence in entry))
            variants.update(dict.fromkeys(whole, whole))
    lines = ["%version 2"]
    for sequence in sorted(variants):
        others = ":".join("!" + spelled(other) for other in sorted(variants[sequence] - {sequence}))
        lines.append(spelled(sequence) + ("|" if others else "") + others)
    return "".join(f"{line}\n" for line in lines).encode()


def join(tables: Sequence[Table], program: Program) -> bytes:
    """The table of the zone from tables. Raises Unusable if two disagree in a disposition, or if what comes out is more than a
    table may have."""
    check_dispositions(tables)
    text = joined(tables)
    checked(Table("joined", Path("the joined table"), text), program)
    return text
