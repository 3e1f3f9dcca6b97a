"""What a ruleset of version 3 says of labels, definition by definition from docs/NOTATION.md: plain and slow.

Which labels RFC 5891 lets be registered is no matter of it. Labels are texts; a place is a number of letters before it.
"""

import enum

from causes import at
from idn2_registry.notation.patterns import Group, Many, Optional, Point, Set, Sign
from idn2_registry.notation.reading import MOST_POINTS
from idn2_registry.notation.ruleset import (ACTIVATED, ALLOCATABLE, BLOCKED, INVALID, VALID, Action, Types,
                                            WholeLabelRule)

NOT_MADE_OF_ENTRIES, NOT_VALID = 40, 41
SPELLED_LIMIT = 1_000
UNCLEAR = "unclear"
# RFC 7940, section 7.6.
DEFAULT_ACTIONS = (
    *(Action(name, None, Types("any", (name,))) for name in (INVALID, BLOCKED, ALLOCATABLE)),
    Action(ACTIVATED, None, Types("all", (ACTIVATED,))),
    Action(VALID),
)


class Unknown(Exception):
    """The reference implementation can't tell. Here: a label spells more labels than are looked at."""


class Kind(enum.Enum):
    """What a reading records at a source, where it is no type: that the source stays, or is replaced by a variant
    without a type."""

    UNMAPPED = enum.auto()
    UNTYPED = enum.auto()


class RulesetLabels:
    def __init__(self, ruleset, most_spelled=SPELLED_LIMIT):
        self.ruleset, self.most_spelled = ruleset, most_spelled
        self.entries = {text_of(source): entry for source, entry in ruleset.entries.items()}
        self.has_types = any(mapped.type for entry in self.entries.values() for mapped in entry.mapped())

    # Patterns: in which places of a label a part can end that begins in one of some places.

    def ends(self, branches, label, starts):
        return {end for items in branches for end in self.ends_of_branch(items, label, starts)}

    def ends_of_branch(self, items, label, starts):
        for item in items:
            starts = self.ends_of_item(item, label, starts)
        return starts

    def ends_of_item(self, item, label, starts):
        if item is Sign.START:
            return starts & {0}
        if item is Sign.END:
            return starts & {len(label)}
        if isinstance(item, Group):
            return self.ends(item.branches, label, starts)
        if isinstance(item, Optional):
            return starts | self.ends_of_item(item.atom, label, starts)
        if isinstance(item, Many):
            found, more = set(), starts
            while more - found:
                found |= more
                more = self.ends_of_item(item.atom, label, more)
            return found
        return {start + 1 for start in starts if start < len(label) and self.is_matched(item, ord(label[start]))}

    def is_matched(self, item, point):
        if isinstance(item, Set):
            return any(first <= point <= last for first, last in self.ruleset.sets[item.name])
        return item is Sign.ANY or (isinstance(item, Point) and item.point == point)

    def matches_up_to(self, branch, label):
        """The places in which a part ends that matches the branch, wherever it begins."""
        return self.ends_of_branch(branch, label, set(range(len(label) + 1)))

    def is_somewhere(self, branches, label):
        return bool(self.ends(branches, label, set(range(len(label) + 1))))

    def holds(self, condition, label, start=None, end=None):
        """Whether a condition, or none, holds in the label for the part between two places; a whole-label rule needs
        none."""
        if condition is None:
            return True
        rule = self.ruleset.rules[condition.rule]
        if isinstance(rule, WholeLabelRule):
            is_there = self.is_somewhere(rule.pattern, label)
        else:
            is_there = any(start in self.matches_up_to(before, label) and self.ends_of_branch(after, label, {end})
                           for before, after in rule.contexts)
        return is_there == (condition.word == "when")

    # Eligible labels (RFC 7940, section 8.1).

    def stands(self, source, label, start):
        """Whether the condition of a source that is at a place holds there."""
        return self.holds(self.entries[source].source.condition, label, start, start + len(source))

    def sources_at(self, label, start):
        """The sources at a place of the label, whatever their conditions."""
        parts = (label[start:end] for end in ends_from(start, label))
        return [part for part in parts if part in self.entries]

    def longest(self, label, start):
        """The longest source that stands at a place, or None."""
        standing = (source for source in self.sources_at(label, start) if self.stands(source, label, start))
        return max(standing, key=len, default=None)

    def cut(self, label):
        """The longest source that stands, and then the longest after it, as far as this goes."""
        sources, place = [], 0
        while source := self.longest(label, place):
            sources.append(source)
            place += len(source)
        return sources

    def is_eligible(self, label):
        return label != "" and "".join(self.cut(label)) == label

    def is_made_of_sources(self, label):
        """Whether the label can be cut into sources, conditions not asked."""
        return len(label) in reached(label, self.entries, lambda source, start: True)

    def meets_demands(self, label):
        return all(self.meets(demand, label) for demand in self.ruleset.demands)

    def meets(self, demand, label):
        return self.is_somewhere(demand.pattern, label) == (demand.word == "%always")

    # Readings (RFC 7940, section 8.2): a cut of the label into sources that stand, and a replacement for each.

    def readings(self, label):
        """Each label that arises, with the sets of kinds that its readings record. Of the label itself only readings
        count in which each source stays (8.1.1)."""
        found = self.readings_from(label, 0, self.replacements, {})
        return {**found, **self.own_readings(label)}

    def own_readings(self, label):
        """The label alone, if it can be cut into sources that stand."""
        return self.readings_from(label, 0, lambda *part: self.replacements(*part)[:1], {})

    def readings_from(self, label, start, replacements, known):
        """The same of what begins at a place."""
        if start == len(label):
            return {"": {frozenset()}}
        if start not in known:
            known[start] = found = {}
            for end in ends_from(start, label):
                for first, kind in replacements(label, start, end):
                    for last, rest in self.readings_from(label, end, replacements, known).items():
                        found.setdefault(first + last, set()).update(kinds | {kind} for kinds in rest)
            if len(found) > self.most_spelled:
                raise Unknown
        return known[start]

    def replacements(self, label, start, end):
        """What may stand in place of the part of the label between two places, with its kind; the part itself is the
        first."""
        source = label[start:end]
        if source not in self.entries or not self.stands(source, label, start):
            return []
        entry = self.entries[source]
        variants = [variant for variant in entry.variants if self.holds(variant.condition, label, start, end)]
        return [(source, kind_of_source(entry)),
                *((text_of(variant.points), variant.type or Kind.UNTYPED) for variant in variants)]

    def spelled(self, label):
        return set(self.readings(label))

    def joinings(self, label, parts):
        """All labels that arise by cutting the label and putting one of `parts(start, end)` in place of each part,
        which begins and ends at these places."""
        known = {len(label): {""}}
        for start in reversed(range(len(label))):
            known[start] = {first + last for end in ends_from(start, label)
                            for first in parts(start, end) for last in known[end]}
            if len(known[start]) > self.most_spelled:
                raise Unknown
        return known[0]

    # Dispositions (RFC 7940, sections 7 and 8.3).

    def is_triggered(self, action, label, kinds):
        if not self.holds(action.condition, label):
            return False
        if action.types is None:
            return True
        named, mapped = set(action.types.names), kinds - {Kind.UNMAPPED}
        asks = {"any": bool(kinds & named), "all": bool(mapped) and mapped <= named, "only": kinds <= named}
        return asks[action.types.word]

    def triggered(self, label, kinds):
        """The first action that a label of these kinds triggers, with its number among the actions of the file, or
        among the default ones, which see no types of the file's own; and what these actions are called."""
        for name, actions, seen in (("action", self.ruleset.actions, kinds),
                                    ("default action", DEFAULT_ACTIONS, kinds.difference(self.ruleset.types))):
            for number, action in enumerate(actions, 1):
                if self.is_triggered(action, label, seen):
                    return name, number, action
        raise AssertionError("the last default action is always triggered")

    def is_clear(self, readings):
        """Whether all of them record the same (8.4)."""
        return not self.has_types or len(readings) == 1

    def disposition(self, variant, readings):
        """What a listing says of a variant; None if it is invalid."""
        if not self.is_clear(readings):
            return UNCLEAR
        _, _, action = self.triggered(variant, next(iter(readings)))
        return {INVALID: None, BLOCKED: BLOCKED}.get(action.disposition, ALLOCATABLE)

    # What becomes of a label.

    def refusal(self, label):
        """The number by which the ruleset refuses a label, or None."""
        if not self.is_made_of_sources(label):
            return NOT_MADE_OF_ENTRIES
        if self.is_eligible(label) and self.meets_demands(label):
            if self.disposition(label, self.own_readings(label)[label]) not in (None, UNCLEAR):
                return None
        return NOT_VALID

    def answer(self, label):
        """None of a label that is refused; else its variants, each with its disposition."""
        if self.refusal(label):
            return None
        return {variant: disposition for variant, readings in self.readings(label).items() if self.is_eligible(variant)
                and self.meets_demands(variant) and (disposition := self.disposition(variant, readings))}

    def cause(self, label):
        """Why a label that is made of sources isn't accepted: the first that applies."""
        cut = self.cut(label)
        place = sum(map(len, cut))
        if place < len(label):
            sources = self.sources_at(label, place)
            condition = self.entries[max(sources, key=len)].source.condition if sources else None
            fault = f"{condition.word} {condition.rule}" if condition else "no entry"
            return f"{at(place, ord(label[place]))}: {fault}"
        for number, demand in enumerate(self.ruleset.demands, 1):
            if not self.meets(demand, label):
                return f"demand {number}, {demand.word[1:]}"
        return self.cause_of_action(label, cut) if self.is_clear(self.own_readings(label)[label]) else UNCLEAR

    def cause_of_action(self, label, cut):
        """The action by which a clear label is invalid, with its rule, or with the first source of the cut that has a
        type that it asks for by 'any'."""
        kinds = [kind_of_source(self.entries[source]) for source in cut]
        name, number, action = self.triggered(label, frozenset(kinds))
        if action.condition:
            return f"{name} {number}: {action.condition.word} {action.condition.rule}"
        if action.types and action.types.word == "any":
            turn = next(turn for turn, kind in enumerate(kinds) if kind in action.types.names)
            place = sum(map(len, cut[:turn]))
            return f"{name} {number}: {at(place, ord(label[place]))} is {kinds[turn]}"
        return f"{name} {number}"

    # Beginnings of labels that a listing passes over.

    def is_dead_prefix(self, beginning):
        """Whether the ruleset has ruled out each label that begins so: a demand is broken whatever follows, or no
        source that might go on ends near the end, however the beginning is cut."""
        if any(demand.word == "%never" and not has_end(demand.pattern) and self.is_somewhere(demand.pattern, beginning)
               for demand in self.ruleset.demands):
            return True
        may_stand = lambda source, start: not self.is_barred(self.entries[source].source.condition, beginning, start)
        first_of_last = len(beginning) - max(map(len, self.entries), default=0) + 1
        return not any(place >= first_of_last for place in reached(beginning, self.entries, may_stand))

    def is_barred(self, condition, label, start):
        """Whether the condition can't hold of a part that begins there, whatever follows. Of a whole-label rule a
        beginning never tells that."""
        rule = self.ruleset.rules[condition.rule] if condition else None
        if rule is None or isinstance(rule, WholeLabelRule):
            return False
        contexts = [(start in self.matches_up_to(before, label), after) for before, after in rule.contexts]
        if condition.word == "when":
            return not any(is_there for is_there, _ in contexts)
        return any(is_there and not after for is_there, after in contexts)


class TableLabels(RulesetLabels):
    """The same of a table of version 1 or 2: a label may be cut in any way, each label that arises is listed, and one
    reading that has no blocked variant is enough."""

    def refusal(self, label):
        return None if self.is_made_of_sources(label) else NOT_MADE_OF_ENTRIES

    def answer(self, label):
        if self.refusal(label):
            return None
        return {variant: ALLOCATABLE if any(BLOCKED not in kinds for kinds in readings) else BLOCKED
                for variant, readings in self.readings(label).items()}

    def is_dead_prefix(self, beginning):
        return False


def kind_of_source(entry):
    """What is recorded where a source stays: its reflexive type, if it has one."""
    return entry.source.type or Kind.UNMAPPED


def text_of(points):
    return "".join(map(chr, points))


def reached(label, sources, may_stand):
    """The places that are reached from the first by sources that may stand where they begin."""
    places = {0}
    for start in range(len(label)):
        if start in places:
            places |= {end for end in ends_from(start, label)
                       if label[start:end] in sources and may_stand(label[start:end], start)}
    return places


def ends_from(start, label):
    """Where a sequence that begins at a place may end."""
    return range(start + 1, min(len(label), start + MOST_POINTS) + 1)


def has_end(branches):
    """Whether a '$' stands in a pattern."""
    items = [item for branch in branches for item in branch]
    atoms = [item.atom if isinstance(item, Optional | Many) else item for item in items]
    return any(atom is Sign.END or (isinstance(atom, Group) and has_end(atom.branches)) for atom in atoms)
