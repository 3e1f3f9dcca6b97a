"""An evaluator of RFC 7940: what a Label Generation Ruleset says of a label, and of one variant of it.

The numbers in comments are sections of the standard. Where that leaves room:

- A condition of a variant is asked in the label asked about, where its source stands (8.2); that of an entry in each
  label.
- 8.4 calls each duplicate variant label an error. Here it is one, `Verdict.UNCLEAR`, if its readings record different
  types.

A reading of a label is one way to cut it into entries, with what is put in the place of each. Its kinds are what that
records: the type of a variant, UNTYPED for one without, and UNMAPPED for an entry that stays. A set of kinds is a
number with a bit for each."""

import dataclasses
import enum
from collections.abc import Iterator, Sequence

from .rules import Condition, Span

UNMAPPED, UNTYPED = 1, 2
# 7.3. Other types have the bits after these.
DISPOSITIONS = INVALID, BLOCKED, ALLOCATABLE, ACTIVATED, VALID = (
    "invalid", "blocked", "allocatable", "activated", "valid")
PREDEFINED = {name: 4 << place for place, name in enumerate(DISPOSITIONS)}
NOT_OF_THE_FILE = UNMAPPED | UNTYPED | sum(PREDEFINED.values())


@dataclasses.dataclass(frozen=True)
class Variant:
    points: str
    kind: int
    condition: Condition | None

    def exists(self, label: str, at: Span) -> bool:
        return self.condition is None or self.condition.holds(label, at)


@dataclasses.dataclass(frozen=True)
class Entry:
    points: str
    condition: Condition | None
    variants: tuple[Variant, ...]

    def stands(self, label: str, place: int) -> bool:
        at = place, place + len(self.points)
        return label.startswith(self.points, place) and (self.condition is None or self.condition.holds(label, at))


@dataclasses.dataclass(frozen=True)
class Action:
    """Types are asked as the attribute `asks` says, and not at all if that is empty."""
    disposition: str
    condition: Condition | None = None
    asks: str = ""
    types: int = 0

    def is_triggered(self, label: str, kinds: int) -> bool:
        """By a label of which a reading records these kinds (7.1, 7.2)."""
        others = kinds & ~self.types
        by_types = {
            "": True,
            "any-variant": kinds & self.types != 0,
            "all-variants": kinds & ~UNMAPPED != 0 and others & ~UNMAPPED == 0,
            "only-variants": others == 0,
        }
        return by_types[self.asks] and (self.condition is None or self.condition.holds(label, None))


# 7.6
DEFAULT_ACTIONS = [
    *(Action(name, None, "any-variant", PREDEFINED[name]) for name in (INVALID, BLOCKED, ALLOCATABLE)),
    Action(ACTIVATED, None, "all-variants", PREDEFINED[ACTIVATED]),
    Action(VALID),
]


class Ruleset:
    """The entries by their points, and the actions. `kinds` are all that a reading may record."""

    def __init__(self, entries: dict[str, Entry], actions: Sequence[Action]) -> None:
        self.entries, self.actions = entries, actions
        self.kinds, lengths = UNMAPPED, dict[str, set[int]]()
        for points, entry in entries.items():
            lengths.setdefault(points[0], set()).add(len(points))
            for variant in entry.variants:
                self.kinds |= variant.kind
        self.lengths = {first: sorted(each, reverse=True) for first, each in lengths.items()}
        self.has_types = self.kinds & ~(UNMAPPED | UNTYPED) != 0

    def entries_at(self, label: str, place: int) -> Iterator[Entry]:
        """The entries whose points stand at a place, the longest first; their conditions aren't asked."""
        for length in self.lengths.get(label[place], ()):
            if entry := self.entries.get(label[place:place + length]):
                yield entry

    def is_eligible(self, label: str) -> bool:
        """Whether the longest entries that stand, each where the one before ends, reach the end of a label (8.1)."""
        place = 0
        while place < len(label):
            longest = next((entry for entry in self.entries_at(label, place) if entry.stands(label, place)), None)
            if longest is None:
                return False
            place += len(longest.points)
        return label != ""

    def is_cut(self, label: str) -> bool:
        """Whether a label can be cut into entries in any way."""
        reached = {0}
        for place in range(len(label)):
            if place in reached:
                reached.update(place + len(entry.points) for entry in self.entries_at(label, place)
                               if entry.stands(label, place))
        return len(label) in reached and label != ""

    def disposition(self, label: str, kinds: int) -> str:
        """That of the first action that is triggered; the default actions see no types of the file's own (8.3)."""
        for actions, seen in ((self.actions, kinds), (DEFAULT_ACTIONS, kinds & NOT_OF_THE_FILE)):
            for action in actions:
                if action.is_triggered(label, seen):
                    return action.disposition
        raise AssertionError("the last default action is always triggered")

    def is_barred(self, label: str) -> bool:
        """Whether a label is invalid whatever its readings record: by an action that asks no types, and before which
        none has another disposition."""
        for action in self.actions:
            if action.disposition != INVALID:
                return False
            if not action.asks and action.is_triggered(label, UNMAPPED):
                return True
        return False


class Verdict(enum.Enum):
    """What a ruleset says of a variant. One that is unclear is a variant, and given to nobody."""
    ABSENT, ALLOCATABLE, BLOCKED, UNCLEAR = "absent", "allocatable", "blocked", "unclear"


@dataclasses.dataclass(frozen=True)
class Use:
    """What may be put in the place of so many code points, and what that records."""
    covers: int
    points: str
    kind: int
    is_own: bool


class Asked:
    """A label asked about under a ruleset, and whether it is valid."""

    def __init__(self, ruleset: Ruleset, label: str) -> None:
        self.ruleset, self.label = ruleset, label
        self.uses = [list(self.uses_at(place)) for place in range(len(label))]
        self.own_verdict = self.verdict_of_valid(label)
        self.is_valid = self.own_verdict in (Verdict.ALLOCATABLE, Verdict.BLOCKED)

    def uses_at(self, place: int) -> Iterator[Use]:
        """What may be put in the place of each entry that stands here (8.2)."""
        for entry in self.ruleset.entries_at(self.label, place):
            if entry.stands(self.label, place):
                covers = len(entry.points)
                at = place, place + covers
                existing = [variant for variant in entry.variants if variant.exists(self.label, at)]
                for variant in existing:
                    yield Use(covers, variant.points, variant.kind, variant.points == entry.points)
                if all(variant.points != entry.points for variant in existing):
                    yield Use(covers, entry.points, UNMAPPED, True)

    def recorded(self, variant: str) -> tuple[int, int] | None:
        """The kinds that some reading of a variant records, and those that some reading doesn't record; None if it has
        no reading. Of the label itself only readings count that leave each entry as it is (8.1.1).

        They are found on a grid, by the places of the variant and for each of these by those of the label."""
        grid: list[dict[int, tuple[int, int]]] = [{} for _ in range(len(variant) + 1)]
        grid[0][0] = 0, self.ruleset.kinds
        for place, column in enumerate(grid):
            for start, uses in enumerate(self.uses):
                if start not in column:
                    continue
                has, lacks = column[start]
                for use in uses:
                    if variant.startswith(use.points, place) and (use.is_own or variant != self.label):
                        to, end = grid[place + len(use.points)], start + use.covers
                        before = to.get(end, (0, 0))
                        to[end] = before[0] | has | use.kind, before[1] | lacks & ~use.kind
        return grid[-1].get(len(self.label))

    def is_clear(self, recorded: tuple[int, int]) -> bool:
        """Whether all readings record the same: no kind is recorded by one and not by another (8.4)."""
        return not self.ruleset.has_types or recorded[0] & recorded[1] == 0

    def verdict(self, variant: str) -> Verdict:
        """What the ruleset says of a variant of this label, the label itself too."""
        return self.verdict_of_valid(variant) if self.is_valid else Verdict.ABSENT

    def verdict_of_valid(self, variant: str) -> Verdict:
        """The same, if this label is valid."""
        recorded = self.recorded(variant)
        if recorded is None or not self.ruleset.is_eligible(variant):
            return Verdict.ABSENT
        if not self.is_clear(recorded):
            return Verdict.ABSENT if self.ruleset.is_barred(variant) else Verdict.UNCLEAR
        verdicts = {INVALID: Verdict.ABSENT, BLOCKED: Verdict.BLOCKED}
        return verdicts.get(self.ruleset.disposition(variant, recorded[0]), Verdict.ALLOCATABLE)
