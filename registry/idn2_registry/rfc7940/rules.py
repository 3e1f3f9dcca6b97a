"""Rules of RFC 7940 (its sections 6.3 and 6.4) as match operators, and which parts of a label they match.

A set of places of a label is a number with a bit for each. A label, and what stands in it, is a `str`."""

import dataclasses
import functools
from collections.abc import Callable

Class = Callable[[str], bool]
# From which place of a label and up to which the anchor stands.
Span = tuple[int, int]


@dataclasses.dataclass(frozen=True, eq=False, kw_only=True)
class Part:
    """A match operator: whether it has to be the first or the last that is matched, and whether the anchor is in it.
    Its atoms are counted as if each rule stood where it is named."""
    is_first: bool = False
    is_last: bool = False
    has_anchor: bool = False
    atoms: int = 1


@dataclasses.dataclass(frozen=True, eq=False)
class Literal(Part):
    points: str


@dataclasses.dataclass(frozen=True, eq=False)
class AnyOf(Part):
    """A code point of a class."""
    has: Class


class Start(Part):
    """The start of a label."""


class End(Part):
    """The end of a label."""


class Anchor(Part):
    """What the condition is about, where it stands."""


@dataclasses.dataclass(frozen=True, eq=False)
class AllOf(Part):
    """One after the other."""
    parts: list[Part]


@dataclasses.dataclass(frozen=True, eq=False)
class OneOf(Part):
    parts: list[Part]


@dataclasses.dataclass(frozen=True, eq=False)
class Times(Part):
    """So many times: `most`, or as often as can be if that is None."""
    part: Part
    least: int
    most: int | None


def fits(part: Part, label: str, at: Span | None) -> bool:
    """Whether a rule matches some part of a label."""
    return ends(part, label, at, (2 << len(label)) - 1) != 0


def ends(part: Part, label: str, at: Span | None, places: int) -> int:
    """The places at which a match of the part may end that begins at one of these."""
    match part:
        case Literal(points=points):
            starts = sum(1 << place for place in range(len(label)) if label.startswith(points, place))
            return (places & starts) << len(points)
        case AnyOf(has=has):
            return (places & places_of(has, label)) << 1
        case Start():
            return places & 1
        case End():
            return places & 1 << len(label)
        case Anchor():
            return 1 << at[1] if at and places >> at[0] & 1 else 0
        case AllOf(parts=parts):
            return functools.reduce(lambda found, each: ends(each, label, at, found), parts, places)
        case OneOf(parts=parts):
            return functools.reduce(lambda found, each: found | ends(each, label, at, places), parts, 0)
        case Times():
            return ends_of_many(part, label, at, places)
    raise TypeError(part)


@functools.lru_cache(1 << 14)
def places_of(has: Class, label: str) -> int:
    """The places at which a code point of a class stands."""
    return sum(1 << place for place, character in enumerate(label) if has(character))


def ends_of_many(part: Times, label: str, at: Span | None, places: int) -> int:
    for _ in range(part.least):
        before, places = places, ends(part.part, label, at, places)
        if places == before:
            break
    found = places
    for _ in range(len(label) if part.most is None else part.most - part.least):
        places = ends(part.part, label, at, places)
        if not places & ~found:
            break
        found |= places
    return found


@dataclasses.dataclass(frozen=True)
class Condition:
    """A rule by its name, and whether it has to match (`when`, `match`) or mustn't (`not-when`, `not-match`)."""
    rule: str
    is_wanted: bool
    part: Part = dataclasses.field(compare=False)

    def holds(self, label: str, at: Span | None) -> bool:
        """Of a part of a label; without an anchor the rule is about all of it (6.4.3)."""
        return holds(self.part, label, at if self.part.has_anchor else None) == self.is_wanted


holds = functools.lru_cache(1 << 14)(fits)
