"""Labels drawn from a ruleset of RFC 7940, to find where something else says otherwise of it; and variants that such
labels have.

Random labels alone seldom come near a condition or a rule. So labels are walks through each rule, too, and the same
with one code point changed or lost; each entry with a condition and each variant, among others; and entries that
overlap."""

import dataclasses
import functools
import itertools
import math
import random
from collections.abc import Callable, Iterable, Iterator

from .rules import AllOf, Anchor, AnyOf, Class, Condition, Literal, OneOf, Part, Times
from .ruleset import Asked, Entry, Ruleset

LONGEST = 63
# So many walks through a rule, at least and for each of its parts; so many labels of other kinds; and so many tries to
# draw one that is valid. A class has a few code points if it has no more than these.
WALKS, WALKS_OF_A_PART, AMONG_OTHERS, OVERLAPS, TRIES, FEW = 60, 12, 3_000, 200, 50, 16
# So many random labels for each entry, and at most.
RANDOM_OF_AN_ENTRY, RANDOM = 40, 2_000


class DrawnLabels:
    """Draws labels from a ruleset, the same each time."""

    def __init__(self, ruleset: Ruleset) -> None:
        self.ruleset, self.chance = ruleset, random.Random(0)
        self.entries = list(ruleset.entries.values())
        self.alphabet = sorted({point for entry in self.entries for point in entry.points})
        self.members: Callable[[Class], list[str]] = functools.cache(lambda has: list(filter(has, self.alphabet)))
        self.rules = self.rules_with_users()
        named = {point for part, _ in self.rules.values() for point in self.named_in(part)}
        # Those that a rule, another entry or an action may ask about are drawn as often as all others.
        self.special = [entry for entry in self.entries if entry.condition or entry.variants or len(entry.points) > 1
                        or entry.points in named]

    def rules_with_users(self) -> dict[str, tuple[Part, list[str]]]:
        """Each rule that is asked by its name, with the entries that ask it; an action asks it of no entry."""
        rules: dict[str, tuple[Part, list[str]]] = {}
        for entry in self.entries:
            for condition in conditions_of(entry):
                rules.setdefault(condition.rule, (condition.part, []))[1].append(entry.points)
        for condition in filter(None, (action.condition for action in self.ruleset.actions)):
            rules.setdefault(condition.rule, (condition.part, [""]))
        return rules

    def named_in(self, part: Part) -> Iterator[str]:
        """The code points of a rule's sequences, and of its classes that have only a few."""
        match part:
            case Literal(points=points):
                yield from points
            case AnyOf(has=has) if len(self.members(has)) <= FEW:
                yield from self.members(has)
            case AllOf(parts=parts) | OneOf(parts=parts):
                for each in parts:
                    yield from self.named_in(each)
            case Times(part=inner):
                yield from self.named_in(inner)

    def labels(self) -> list[str]:
        """All labels that are drawn, each once, in the order in which they are drawn."""
        kinds = self.conditions(), self.walks(), self.variants(), self.overlaps(), self.others()
        return list(dict.fromkeys(label for labels in kinds for label in labels if 0 < len(label) <= LONGEST))

    def some(self, least: int, most: int) -> str:
        """So many entries, one after the other."""
        lists = self.chance.choices((self.entries, self.special or self.entries), k=self.chance.randint(least, most))
        return "".join(self.chance.choice(entries).points for entries in lists)

    def among_others(self, points: str) -> Iterator[str]:
        yield points
        yield points + self.some(1, 2)
        yield self.some(1, 2) + points
        yield self.some(1, 3) + points + self.some(1, 3)

    def conditions(self) -> Iterator[str]:
        """Each entry that has a condition, or of which a variant has one, between others."""
        for entry in self.entries:
            if any(conditions_of(entry)):
                yield from self.among_others(entry.points)

    def walks(self) -> Iterator[str]:
        """Labels of which a part matches a rule; and the same with one code point changed or lost."""
        for name, (part, users) in self.rules.items():
            others = self.without_condition(name)
            count = max(WALKS, WALKS_OF_A_PART * min(part.atoms, 50), 4 * len(users))
            for anchor in itertools.islice(itertools.cycle(users), count):
                label = mostly(others.is_eligible, lambda: self.with_walk(part, anchor))
                changed = mostly(others.is_eligible, lambda: self.changed(label))
                yield from (label, changed, self.changed(label), self.lost(label))

    def without_condition(self, rule: str) -> Ruleset:
        """The ruleset without the conditions of entries by a rule: what isn't eligible by something else shows little
        of it."""
        entries = dict(self.ruleset.entries)
        for points, entry in entries.items():
            if entry.condition and entry.condition.rule == rule:
                entries[points] = dataclasses.replace(entry, condition=None)
        return Ruleset(entries, self.ruleset.actions)

    def with_walk(self, part: Part, anchor: str) -> str:
        """A label with a part that a rule matches, the whole of it now and then; the empty one if there is none."""
        walk = self.walk(part, anchor)
        before = self.some(0, 2) if not part.is_first or self.chance.random() < 0.2 else ""
        after = self.some(0, 2) if not part.is_last or self.chance.random() < 0.2 else ""
        return "" if walk is None else before + walk + after

    def walk(self, part: Part, anchor: str) -> str | None:
        """Code points that a rule matches, if the alphabet of the entries has such ones."""
        match part:
            case Literal(points=points):
                return points
            case AnyOf(has=has):
                members = self.members(has)
                return self.chance.choice(members) if members else None
            case Anchor():
                return anchor
            case AllOf(parts=parts):
                return joined(self.walk(each, anchor) for each in parts)
            case OneOf(parts=parts):
                walks = [walk for each in parts if (walk := self.walk(each, anchor)) is not None]
                return self.chance.choice(walks) if walks else None
            case Times(part=inner, least=least, most=most):
                often = least + min(self.chance.choice((0, 0, 1, 1, 2, 3, 5)), math.inf if most is None else most - least)
                return joined(self.walk(inner, anchor) for _ in range(min(int(often), LONGEST)))
        return ""

    def changed(self, label: str) -> str:
        place = self.chance.randrange(len(label) or 1)
        return label[:place] + self.chance.choice(self.alphabet) + label[place + 1:]

    def lost(self, label: str) -> str:
        place = self.chance.randrange(len(label) or 1)
        return label[:place] + label[place + 1:]

    def variants(self) -> Iterator[str]:
        """Each entry that has variants and each variant alone; and with others, each if there aren't too many."""
        having = [entry for entry in self.entries if entry.variants]
        lists = ([entry.points, *(variant.points for variant in entry.variants)] for entry in having)
        each = list(dict.fromkeys(itertools.chain.from_iterable(lists)))
        yield from each
        for points in self.chance.sample(each, min(AMONG_OTHERS, len(each))):
            yield from (self.some(0, 1) + points + self.some(0, 1) for _ in range(3))

    def overlaps(self) -> Iterator[str]:
        """Sequences, and two entries of which the first ends as the second begins."""
        sequences = [entry.points for entry in self.entries if len(entry.points) > 1]
        begun: dict[str, list[str]] = {}
        for entry in self.entries:
            for end in range(1, len(entry.points) + 1):
                begun.setdefault(entry.points[:end], []).append(entry.points)
        for points in self.chance.sample(sequences, min(OVERLAPS, len(sequences))):
            yield from self.among_others(points)
            for place in range(1, len(points)):
                others = begun.get(points[place:], [])
                for other in self.chance.sample(others, min(2, len(others))):
                    yield from self.among_others(points[:place] + other)

    def others(self) -> Iterator[str]:
        for _ in range(min(RANDOM, RANDOM_OF_AN_ENTRY * len(self.entries)) // 2):
            yield mostly(lambda label: Asked(self.ruleset, label).is_valid, lambda: self.some(1, 5))
            label = self.some(1, 5)
            yield self.changed(label) if self.chance.random() < 0.4 else label

    def variants_of(self, asked: Asked, most: int) -> list[str]:
        """All variants of a label, if they aren't more; else so many that are drawn. Which are absent isn't asked."""
        found = every_variant(asked, most)
        return sorted(found or {self.variant_of(asked) for _ in range(most)})

    def variant_of(self, asked: Asked) -> str:
        """One variant, by a walk through what may be put in the places of a label that can be cut."""
        goes_on = [False] * len(asked.label) + [True]
        for place in range(len(asked.label) - 1, -1, -1):
            goes_on[place] = any(goes_on[place + use.covers] for use in asked.uses[place])
        place, points = 0, ""
        while place < len(asked.label):
            use = self.chance.choice([use for use in asked.uses[place] if goes_on[place + use.covers]])
            place, points = place + use.covers, points + use.points
        return points


def conditions_of(entry: Entry) -> Iterator[Condition]:
    for condition in (entry.condition, *(variant.condition for variant in entry.variants)):
        if condition:
            yield condition


def mostly(is_wanted: Callable[[str], bool], draw: Callable[[], str]) -> str:
    """The first of some draws that is wanted, or else the last."""
    for _ in range(TRIES):
        label = draw()
        if is_wanted(label):
            break
    return label


def joined(walks: Iterable[str | None]) -> str | None:
    found = list(walks)
    return None if None in found else "".join(walk or "" for walk in found)


def every_variant(asked: Asked, most: int) -> set[str] | None:
    """What the uses of a label spell, or None if it is more."""
    spelled = [set[str]() for _ in asked.label] + [{""}]
    for place in range(len(asked.label) - 1, -1, -1):
        for use in asked.uses[place]:
            spelled[place].update(use.points + rest for rest in spelled[place + use.covers])
            if len(spelled[place]) > most:
                return None
    return spelled[0]
