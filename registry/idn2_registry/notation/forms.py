"""The form of a line, by the grammar alone: which names are defined, and which code points may stand there, is no matter
of it."""

import collections
import dataclasses
from collections.abc import Callable, Iterable, Iterator, Sequence
from typing import Any

from . import tokens
from .patterns import NoForm, PatternReader, contexts_of
from .points import point_of
from .ruleset import (
    BLOCKED,
    DISPOSITIONS,
    INVALID,
    Action,
    Condition,
    ContextRule,
    Demand,
    Entry,
    Mapped,
    Types,
    WholeLabelRule,
    name_of,
)

TYPE, SET, RULE, WHOLE = "type", "set", "rule", "whole"
# A name that a line uses, and as which of these it may be defined.
Use = tuple[str, tuple[str, ...]]


@dataclasses.dataclass
class Definition:
    """A type without a value, a set with its spans, or a rule. `pattern` is what was read of a rule."""

    kind: str
    name: str
    value: Any = None
    pattern: PatternReader | None = None

    def points(self) -> Sequence[int]:
        if self.kind == SET:
            return [point for span in self.value for point in span]
        return self.pattern.points if self.pattern else []

    def uses(self) -> list[Use]:
        return uses_of(self.pattern) if self.pattern else []


@dataclasses.dataclass
class DemandLine:
    demand: Demand
    pattern: PatternReader

    def points(self) -> Sequence[int]:
        return self.pattern.points

    def uses(self) -> list[Use]:
        return uses_of(self.pattern)


@dataclasses.dataclass
class ActionLine:
    action: Action
    pattern = None

    def points(self) -> Sequence[int]:
        return []

    def uses(self) -> list[Use]:
        condition, types = self.action.condition, self.action.types
        names = types.names if types else ()
        return [*([(condition.rule, (WHOLE,))] if condition else []), *((name, (TYPE,)) for name in names)]


@dataclasses.dataclass
class EntryLine:
    entry: Entry

    def points(self) -> Sequence[int]:
        return [point for mapped in self.entry.mapped() for point in mapped.points]

    def uses(self) -> list[Use]:
        return [use for mapped in self.entry.mapped() for use in uses_of_mapped(mapped)]

    def count(self) -> int:
        return 1

    def entries(self) -> Iterable[Entry]:
        return [self.entry]


@dataclasses.dataclass
class RangeLine:
    """An entry without variants for each code point from the first to the last; `mapped` is the first one's source."""

    mapped: Mapped
    last: int

    def points(self) -> Sequence[int]:
        return range(self.mapped.points[0], self.last + 1)

    def uses(self) -> list[Use]:
        return uses_of_mapped(self.mapped)

    def count(self) -> int:
        return len(self.points())

    def entries(self) -> Iterable[Entry]:
        return (Entry(dataclasses.replace(self.mapped, points=(point,))) for point in self.points())


Form = Definition | DemandLine | ActionLine | EntryLine | RangeLine


def uses_of(pattern: PatternReader) -> list[Use]:
    return [(name, (SET,)) for name in pattern.names]


def uses_of_mapped(mapped: Mapped) -> list[Use]:
    uses: list[Use] = [(mapped.type, (TYPE,))] if mapped.type else []
    if mapped.condition:
        uses.append((mapped.condition.rule, (RULE, WHOLE)))
    return uses


def form_of(line: bytes) -> Form:
    """What a line says that is neither blank nor a comment; NoForm if it is of no form."""
    rest = Tokens(line)
    readers: dict[bytes, Callable[[Tokens, bytes], Form]] = {
        b"%type": type_of, b"%set": set_of, b"%rule": rule_of, b"%whole": whole_of, b"%never": demand_of,
        b"%always": demand_of, b"%action": action_of}
    word = rest.takes(*readers)
    form = readers[word](rest, word) if word else entry_of(rest)
    rest.end()
    return form


class Tokens:
    """The tokens of a line from some place on."""

    def __init__(self, line: bytes) -> None:
        self.rest = collections.deque(tokens.tokens_of(line))

    def next(self) -> bytes:
        if not self.rest:
            raise NoForm
        return self.rest.popleft()

    def takes(self, *wanted: bytes) -> bytes | None:
        """The next token, taken, if it is one of these; else None."""
        return self.rest.popleft() if self.rest and self.rest[0] in wanted else None

    def all(self) -> Iterator[bytes]:
        while self.rest:
            yield self.rest.popleft()

    def point(self) -> int:
        point = point_of(self.next())
        if point is None:
            raise NoForm
        return point

    def name(self) -> str:
        name = name_of(self.next())
        if name is None:
            raise NoForm
        return name

    def end(self) -> None:
        if self.rest:
            raise NoForm


# Definitions.


def type_of(rest: Tokens, _: bytes) -> Definition:
    return Definition(TYPE, rest.name())


def set_of(rest: Tokens, _: bytes) -> Definition:
    name = rest.name()
    spans: list[tuple[int, int]] = []
    while rest.rest or not spans:
        first = rest.point()
        last = rest.point() if rest.takes(tokens.TO) else first
        if first > last or (spans and first <= spans[-1][1]):
            raise NoForm
        spans.append((first, last))
    return Definition(SET, name, tuple(spans))


def rule_of(rest: Tokens, _: bytes) -> Definition:
    name, pattern = rest.name(), PatternReader(has_anchors=True)
    return Definition(RULE, name, ContextRule(contexts_of(pattern.read(rest.all()))), pattern)


def whole_of(rest: Tokens, _: bytes) -> Definition:
    name, pattern = rest.name(), PatternReader(has_anchors=False)
    return Definition(WHOLE, name, WholeLabelRule(pattern.read(rest.all())), pattern)


def demand_of(rest: Tokens, word: bytes) -> DemandLine:
    pattern = PatternReader(has_anchors=False)
    return DemandLine(Demand(word.decode(), pattern.read(rest.all())), pattern)


def action_of(rest: Tokens, _: bytes) -> ActionLine:
    disposition = rest.name()
    if disposition not in DISPOSITIONS:
        raise NoForm
    return ActionLine(Action(disposition, condition_of(rest), types_of(rest)))


def types_of(rest: Tokens) -> Types | None:
    """How an action asks for types, none of them twice."""
    word = rest.takes(b"any", b"all", b"only")
    if word is None:
        return None
    names = [rest.name()]
    while rest.takes(b","):
        names.append(rest.name())
    if len(set(names)) < len(names):
        raise NoForm
    return Types(word.decode(), tuple(names))


# Entries.


def entry_of(rest: Tokens) -> EntryLine | RangeLine:
    source, last = mapped_of(rest, INVALID, takes_range=True)
    if last is not None:
        return RangeLine(source, last)
    variants = []
    sign = b"|"
    while rest.takes(sign):
        variants.append(mapped_of(rest, BLOCKED)[0])
        sign = b":"
    return EntryLine(Entry(source, tuple(variants)))


def mapped_of(rest: Tokens, marked: str, takes_range: bool = False) -> tuple[Mapped, int | None]:
    """A sequence with its type, which is `marked` where it has '!', and its condition; for a range the last code point,
    too."""
    is_marked = rest.takes(b"!")
    points, last = [rest.point()], None
    if takes_range and rest.takes(tokens.TO):
        last = rest.point()
        if points[0] > last:
            raise NoForm
    while last is None and rest.takes(b"-"):
        points.append(rest.point())
    name = marked if is_marked else rest.name() if rest.takes(b"as") else None
    return Mapped(tuple(points), name, condition_of(rest)), last


def condition_of(rest: Tokens) -> Condition | None:
    word = rest.takes(b"when", b"unless")
    return Condition(word.decode(), rest.name()) if word else None
