"""The ruleset that a text of version 3 spells, or its first fault."""

from collections.abc import Callable

from . import canonical, faults
from .faults import TableFault
from .forms import SET, TYPE, ActionLine, Definition, DemandLine, EntryLine, Form, RangeLine, form_of
from .lines import first_line, raw_lines, says_nothing, without_return
from .patterns import NoForm
from .points import Points
from .ruleset import DISPOSITIONS, Condition, Entry, Ruleset

MOST_LINE_BYTES = 8192
MOST_TEXT_BYTES = 8_388_608
MOST_ENTRIES = 65_536
MOST_VARIANTS = 16
MOST_POINTS = 8
# The predefined types are among them.
MOST_TYPES = 62
MOST_SETS = 256
MOST_RULES_DEMANDS_AND_ACTIONS = 256
MOST_ATOMS = 4096
MOST_GROUPS = 8
MOST_STARS = 2


def is_ruleset(text: bytes) -> bool:
    return first_line(text) == canonical.VERSION_LINE.encode()


def read(text: bytes, may_stand: Callable[[int], bool]) -> Ruleset:
    """The ruleset that the text spells; or a TableFault. `may_stand` tells of a code point whether it may stand in a
    table, and is asked of any number."""
    if not is_ruleset(text):
        raise TableFault(1, faults.SYNTAX)
    reader, end = RulesetReader(may_stand), 0
    for number, raw in enumerate(raw_lines(text), 1):
        end += len(raw) + 1
        if len(raw) > MOST_LINE_BYTES or end > MOST_TEXT_BYTES:
            raise TableFault(number, faults.LIMIT)
        line = without_return(raw)
        if number == 1 or says_nothing(line):
            continue
        try:
            fault = reader.take(form_of(line))
        except NoForm:
            fault = faults.SYNTAX
        if fault:
            raise TableFault(number, fault)
    return reader.ruleset


class RulesetReader:
    """The ruleset of the lines so far; the size of its canonical text, and how many atoms it has."""

    def __init__(self, may_stand: Callable[[int], bool]) -> None:
        self.may_stand, self.ruleset = may_stand, Ruleset()
        self.size, self.atoms = len(canonical.VERSION_LINE) + 1, 0
        # As what each name is defined.
        self.kinds: dict[str, str] = dict.fromkeys(DISPOSITIONS, TYPE)

    def take(self, form: Form) -> int | None:
        """Takes what a line says into the ruleset, or answers the number of the line's first fault."""
        if isinstance(form, EntryLine | RangeLine):
            fault = self.fault_of_entries(form)
            if not fault:
                self.ruleset.entries.update((entry.source.points, entry) for entry in form.entries())
        else:
            fault = self.fault_of_definition(form)
            if not fault:
                self.define(form)
        return fault

    def fault_of_definition(self, form: Definition | DemandLine | ActionLine) -> int | None:
        if self.passes_limit(form):
            return faults.LIMIT
        if self.uses_another(form):
            return faults.NO_SUCH_NAME
        if self.has_long_line(form):
            return faults.LIMIT
        if fault := self.fault_of_parts(form):
            return fault
        return faults.SAME_NAME if isinstance(form, Definition) and form.name in self.kinds else None

    def passes_limit(self, form: Definition | DemandLine | ActionLine) -> bool:
        """Whether a line goes past a limit of its kind or of its pattern; the atoms that it takes are counted."""
        pattern, ruleset = form.pattern, self.ruleset
        if pattern:
            self.atoms += pattern.atoms
            if pattern.groups > MOST_GROUPS or pattern.stars > MOST_STARS or self.atoms > MOST_ATOMS:
                return True
        if isinstance(form, Definition) and form.kind == TYPE:
            return len(DISPOSITIONS) + len(ruleset.types) >= MOST_TYPES
        if isinstance(form, Definition) and form.kind == SET:
            return len(ruleset.sets) >= MOST_SETS
        return len(ruleset.rules) + len(ruleset.demands) + len(ruleset.actions) >= MOST_RULES_DEMANDS_AND_ACTIONS

    def has_long_line(self, form: Definition | DemandLine | ActionLine) -> bool:
        """Whether the canonical line or text of a definition is; its bytes are counted."""
        line = canonical.line_of(form)
        self.size += len(line) + 1
        return len(line) > MOST_LINE_BYTES or self.size > MOST_TEXT_BYTES

    def uses_another(self, form: Form) -> bool:
        """Whether a name is none that an earlier line defines as what it is to be."""
        return any(self.kinds.get(name) not in kinds for name, kinds in form.uses())

    def fault_of_parts(self, form: Form) -> int | None:
        """A name that no earlier line defines, or a code point that may not stand in a table."""
        if self.uses_another(form):
            return faults.NO_SUCH_NAME
        return None if all(map(self.may_stand, form.points())) else faults.BAD_CLASS

    def define(self, form: Definition | DemandLine | ActionLine) -> None:
        if isinstance(form, DemandLine):
            self.ruleset.demands.append(form.demand)
        elif isinstance(form, ActionLine):
            self.ruleset.actions.append(form.action)
        else:
            self.kinds[form.name] = form.kind
            if form.kind == TYPE:
                self.ruleset.types.append(form.name)
            elif form.kind == SET:
                self.ruleset.sets[form.name] = form.value
            else:
                self.ruleset.rules[form.name] = form.value

    def fault_of_entries(self, form: EntryLine | RangeLine) -> int | None:
        if len(self.ruleset.entries) + form.count() > MOST_ENTRIES:
            return faults.LIMIT
        entries = list(form.entries())
        self.size += sum(len(canonical.entry_line(entry)) + 1 for entry in entries)
        if any(map(is_too_long, entries)) or self.size > MOST_TEXT_BYTES:
            return faults.LIMIT
        if fault := self.fault_of_parts(form):
            return fault
        if not isinstance(form, RangeLine) and has_equal_variants(form.entry):
            return faults.SAME_VARIANT
        is_there = any(entry.source.points in self.ruleset.entries for entry in entries)
        return faults.SAME_SOURCE if is_there else None


def is_too_long(entry: Entry) -> bool:
    return len(entry.variants) > MOST_VARIANTS or any(len(mapped.points) > MOST_POINTS for mapped in entry.mapped())


def has_equal_variants(entry: Entry) -> bool:
    """Whether a variant is equal to the source, or to another one: unless both have a condition, and not the same."""
    conditions: dict[Points, list[Condition | None]] = {}
    for variant in entry.variants:
        if variant.points == entry.source.points:
            return True
        others = conditions.setdefault(variant.points, [])
        if others and (variant.condition is None or None in others or variant.condition in others):
            return True
        others.append(variant.condition)
    return False
