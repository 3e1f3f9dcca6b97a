"""What the lines of a table say, by the reader of the notation; of a ruleset in XML the lines that the program prints."""

from collections.abc import Iterator
from dataclasses import dataclass, field

from .faults import Unusable
from .notation.forms import Definition, DemandLine, EntryLine, Form, RangeLine, form_of
from .notation.lines import raw_lines, says_nothing, without_return
from .notation.points import Points
from .notation.reading import RulesetReader
from .notation.ruleset import ALLOCATABLE, BLOCKED, INVALID, Entry, Mapped, Ruleset
from .tables import VERSION_LINES, Table


@dataclass(frozen=True)
class ParsedTable:
    """A table with what it says, as `notation.ruleset` has it, and with the lines that say it: of a source, of a definition
    by its name, and of 'demand N' and 'action N', counted from 0. Tables of version 1 and 2 are read as the rulesets that
    they are a part of."""

    table: Table
    ruleset: Ruleset = field(repr=False)
    lines: dict[Points | str, int] = field(repr=False)

    @classmethod
    def read(cls, table: Table) -> "ParsedTable":
        """What a table says that the program has checked."""
        reader = RulesetReader(lambda _: True)
        lines: dict[Points | str, int] = {}
        for number, form in forms_of(table):
            if reader.take(form):
                raise Unusable(f"{table.place}: line {number}: the program reads it otherwise than idn2_registry.notation")
            if isinstance(form, EntryLine | RangeLine):
                lines.update((entry.source.points, number) for entry in form.entries())
            elif isinstance(form, Definition):
                lines[form.name] = number
            elif isinstance(form, DemandLine):
                lines[f"demand {len(reader.ruleset.demands) - 1}"] = number
            else:
                lines[f"action {len(reader.ruleset.actions) - 1}"] = number
        return cls(table, reader.ruleset, lines)

    @property
    def entries(self) -> list[Entry]:
        """Its entries in code point order of their sources."""
        return [entry for _, entry in sorted(self.ruleset.entries.items())]

    def disposition_of(self, mapped: Mapped) -> str:
        """What a label is in which nothing but this is mapped, by its type alone: actions with rules aside (RFC 7940,
        section 7). What its holder may have is told as allocatable."""
        told = (action.disposition for action in self.ruleset.actions
                if not action.condition and (action.types is None or mapped.type in action.types.names))
        found = next(told, mapped.type)
        return found if found in (INVALID, BLOCKED) else ALLOCATABLE

    def refuses(self, entry: Entry) -> bool:
        """Whether no label may have the source of an entry, by its type: it is there to be a variant."""
        return self.disposition_of(entry.source) == INVALID

    def place(self, said: Points | str) -> str:
        """The file and the line that say something."""
        return f"{self.table.place}: line {self.lines[said]}"


def forms_of(table: Table) -> Iterator[tuple[int, Form]]:
    """The lines that say something, each with its number and what it is."""
    for number, raw in enumerate(raw_lines(table.text), 1):
        line = without_return(raw)
        if not (says_nothing(line) or number == 1 and line in VERSION_LINES):
            yield number, form_of(line)
