"""What a text of version 3 spells: a ruleset."""

import dataclasses
import re
from typing import TYPE_CHECKING

from .points import Points

if TYPE_CHECKING:
    from .patterns import Contexts, Pattern

NAME = re.compile(rb"[A-Za-z][A-Za-z0-9_]{0,31}")
# RFC 7940, section 7.3: the dispositions, and the types of the same names, which no line defines.
DISPOSITIONS = INVALID, BLOCKED, ALLOCATABLE, ACTIVATED, VALID = (
    "invalid", "blocked", "allocatable", "activated", "valid")


def name_of(word: bytes) -> str | None:
    """The name that a word is, or None."""
    return word.decode() if NAME.fullmatch(word) else None


@dataclasses.dataclass(frozen=True)
class Condition:
    """Where a sequence may be used, or an action is triggered: where the rule holds; or, with 'unless', where it
    doesn't."""

    word: str
    rule: str


@dataclasses.dataclass(frozen=True)
class Mapped:
    """A source with its reflexive type, or a variant with its type; None for no type."""

    points: Points
    type: str | None = None
    condition: Condition | None = None


@dataclasses.dataclass(frozen=True)
class Entry:
    source: Mapped
    variants: tuple[Mapped, ...] = ()

    def mapped(self) -> tuple[Mapped, ...]:
        return (self.source, *self.variants)


@dataclasses.dataclass(frozen=True)
class ContextRule:
    """It holds of a part of a label that stands in one of its contexts."""

    contexts: "Contexts"


@dataclasses.dataclass(frozen=True)
class WholeLabelRule:
    """It holds of a label of which some part matches, and so of each part of that label."""

    pattern: "Pattern"


Rule = ContextRule | WholeLabelRule


@dataclasses.dataclass(frozen=True)
class Demand:
    """What no part of an accepted label matches ('%never'), or some part of each one ('%always')."""

    word: str
    pattern: "Pattern"


@dataclasses.dataclass(frozen=True)
class Types:
    """Which types an action asks for, and how: by 'any', 'all' or 'only'."""

    word: str
    names: tuple[str, ...]


@dataclasses.dataclass(frozen=True)
class Action:
    """The disposition of a label that it is the first to be triggered by. Its condition names a whole-label rule."""

    disposition: str
    condition: Condition | None = None
    types: Types | None = None


@dataclasses.dataclass
class Ruleset:
    """Each kind in the order of the lines. `types` are the file's own; `sets` has for each name its spans, (first, last) each;
    `entries` each entry by its source."""

    types: list[str] = dataclasses.field(default_factory=list)
    sets: dict[str, tuple[tuple[int, int], ...]] = dataclasses.field(default_factory=dict)
    rules: dict[str, Rule] = dataclasses.field(default_factory=dict)
    demands: list[Demand] = dataclasses.field(default_factory=list)
    actions: list[Action] = dataclasses.field(default_factory=list)
    entries: dict[Points, Entry] = dataclasses.field(default_factory=dict)

    def variants_of(self) -> dict[Points, dict[Points, set[Condition | None]]]:
        """For each source its variants, as sequences, each with the set of its conditions; None stands for no condition."""
        found: dict[Points, dict[Points, set[Condition | None]]] = {source: {} for source in self.entries}
        for source, entry in self.entries.items():
            for variant in entry.variants:
                found[source].setdefault(variant.points, set()).add(variant.condition)
        return found

    def idle_types(self) -> list[str]:
        """The types of the file's own that no action names."""
        named = {name for action in self.actions if action.types for name in action.types.names}
        return [name for name in self.types if name not in named]
