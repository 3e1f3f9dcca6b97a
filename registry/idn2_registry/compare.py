"""`compare`: what two tables say otherwise, as people say it."""

import re
from collections.abc import Iterator
from dataclasses import dataclass, replace
from enum import Enum
from typing import Any

from .answers import ExitStatus, Object
from .notation import canonical
from .notation.points import Points, spelled
from .notation.ruleset import ALLOCATABLE, DISPOSITIONS, Action, Mapped, Rule
from .output import Output
from .parsed_table import ParsedTable
from .words import counted

# What is said of a thing, by its kind and its name.
Facts = dict[tuple["Kind", Any], str]
# As many spans of a set a person is told.
MOST_SPANS = 8


class Kind(Enum):
    """What a table says something of, in the order in which it is told."""

    POINT = "code point"
    SEQUENCE = "sequence"
    VARIANT = "variant"
    RULE = "rule"
    DEMAND = "demand"
    ACTION = "action"


class Relation(Enum):
    """How what two tables say lies to each other."""

    IDENTICAL = "identical"
    CONTAINED = "contained"
    OVERLAPPING = "overlapping"
    APART = "apart"


@dataclass(frozen=True)
class Difference:
    """Of one thing, or of code points that follow each other, what each of the two tables says; None if it says nothing."""

    kind: Kind
    subject: str
    said: tuple[str | None, str | None]

    def object(self, names: tuple[str, str]) -> Object:
        """The object that says it."""
        return {"kind": self.kind.value, "subject": self.subject, "only_in": self.only_in(names), "said": list(self.said)}

    def only_in(self, names: tuple[str, str]) -> str | None:
        """The table that alone says something of it; None if both do."""
        return None if None not in self.said else names[self.said.index(None) ^ 1]

    def words(self, names: tuple[str, str]) -> str:
        """The difference in words, with the first spans of each large set."""
        head = f"{self.kind.value} {shortened(self.subject)}:"
        if name := self.only_in(names):
            [said] = [shortened(each) for each in self.said if each is not None]
            return f"{head} only in {name}" + (f": {said}" if said else "")
        each = zip(names, self.said, strict=True)
        return head + ",".join(f" in {name} {shortened(said or 'without a condition')}" for name, said in each)


@dataclass(frozen=True)
class Comparison:
    """Two tables by their names, what they say otherwise, and how they lie to each other."""

    names: tuple[str, str]
    relation: Relation
    differences: tuple[Difference, ...]

    @classmethod
    def of(cls, one: ParsedTable, other: ParsedTable) -> "Comparison":
        """The comparison of two tables. It says nothing of labels, about which the program alone decides."""
        own = rule_texts(one)
        by_text = {text: name for name, text in reversed(own.items())}
        renamed = {name: by_text.get(text, name) for name, text in rule_texts(other).items()}
        facts = facts_of(one, {name: name for name in own}), facts_of(other, renamed)
        names = one.table.name, other.table.name
        return cls(names, relation_of(*facts), tuple(differences_of(*facts)))

    def tell(self, output: Output) -> None:
        """Each difference, and at last the relation."""
        for each in self.differences:
            output.fact(each.object(self.names), each.words(self.names), ExitStatus.NO)
        told = {"tables": list(self.names), "relation": self.relation.value, "differences": len(self.differences)}
        words = f"{' and '.join(self.names)}: {self.relation.value}, {counted(len(self.differences), 'difference')}"
        output.fact(told, words, ExitStatus.YES)


def relation_of(one: Facts, other: Facts) -> Relation:
    """Identical if both say the same; contained if one says all that the other says; overlapping if both have a source."""
    if one == other:
        return Relation.IDENTICAL
    if one.items() <= other.items() or other.items() <= one.items():
        return Relation.CONTAINED
    has_source = any(kind in (Kind.POINT, Kind.SEQUENCE) for kind, _ in one.keys() & other.keys())
    return Relation.OVERLAPPING if has_source else Relation.APART


# ---- What a table says


def facts_of(parsed: ParsedTable, rules: dict[str, str]) -> Facts:
    """What a table says of each thing. `rules` has the names by which its rules are told."""
    facts: Facts = {}
    for source, entry in parsed.ruleset.entries.items():
        kind = Kind.POINT if len(source) == 1 else Kind.SEQUENCE
        own = f"as {entry.source.type}" if entry.source.type else ""
        facts[kind, source] = with_condition(own, entry.source, rules)
        variants: dict[Points, list[str]] = {}
        for variant in entry.variants:
            variants.setdefault(variant.points, []).append(with_condition(kind_of(variant), variant, rules))
        facts.update({(Kind.VARIANT, (source, points)): " and ".join(sorted(said)) for points, said in variants.items()})
    facts.update({(Kind.RULE, rules[name]): text for name, text in rule_texts(parsed).items()})
    facts.update({(Kind.DEMAND, text): "" for text in demand_texts(parsed)})
    for number, action in enumerate(parsed.ruleset.actions, 1):
        facts[Kind.ACTION, number] = action_text(action, rules)
    return facts


def kind_of(variant: Mapped) -> str:
    """What is said of a variant. Without a type it is allocatable, as far as no action says something else."""
    if variant.type is None:
        return ALLOCATABLE
    return variant.type if variant.type in DISPOSITIONS else f"as {variant.type}"


def with_condition(said: str, mapped: Mapped, rules: dict[str, str]) -> str:
    """What is said of a sequence, and where."""
    condition = f"{mapped.condition.word} {rules[mapped.condition.rule]}" if mapped.condition else ""
    return " ".join(filter(None, (said, condition)))


def action_text(action: Action, rules: dict[str, str]) -> str:
    """An action, with the name by which its rule is told."""
    named = action.condition and replace(action.condition, rule=rules[action.condition.rule])
    return canonical.action_line(replace(action, condition=named)).removeprefix("%action ")


def rule_texts(parsed: ParsedTable) -> dict[str, str]:
    """The rules that something names, each with its contexts or its pattern."""
    ruleset = parsed.ruleset
    conditions = [each.condition for entry in ruleset.entries.values() for each in entry.mapped()]
    named = {each.rule for each in [*conditions, *(action.condition for action in ruleset.actions)] if each}
    return {name: rule_text(rule, parsed) for name, rule in ruleset.rules.items() if name in named}


def rule_text(rule: Rule, parsed: ParsedTable) -> str:
    """The contexts or the pattern of a rule."""
    return written_out(canonical.rule_line("", rule).split("  ", 1)[1], parsed)


def demand_texts(parsed: ParsedTable) -> list[str]:
    """The demands."""
    return [written_out(canonical.demand_line(demand), parsed) for demand in parsed.ruleset.demands]


def written_out(pattern: str, parsed: ParsedTable) -> str:
    """A pattern with the code points of each set in place of its name, which may be another one in another table."""
    return re.sub(r"@(\w+)", lambda found: set_text(parsed.ruleset.sets[found[1]]), pattern)


def set_text(spans: tuple[tuple[int, int], ...]) -> str:
    """The code points of a set, those that follow each other as one span."""
    joined: list[list[int]] = []
    for first, last in spans:
        if joined and joined[-1][1] + 1 == first:
            joined[-1][1] = last
        else:
            joined.append([first, last])
    texts = [f"{first:04X}" if first == last else f"{first:04X}..{last:04X}" for first, last in joined]
    return texts[0] if texts == [f"{joined[0][0]:04X}"] else f"[{' '.join(texts)}]"


def shortened(text: str) -> str:
    """A text with the first spans of each set, and how many more it has."""
    def first_spans(found: re.Match[str]) -> str:
        spans = found[1].split(" ")
        more = len(spans) - MOST_SPANS
        return found[0] if more <= 0 else f"[{' '.join(spans[:MOST_SPANS])} and {counted(more, 'more span')}]"

    return re.sub(r"\[([^]]*)\]", first_spans, text)


# ---- Differences


def differences_of(one: Facts, other: Facts) -> Iterator[Difference]:
    """What is said otherwise: by kinds, code points that follow each other as one."""
    differing = [key for key in one.keys() | other.keys() if one.get(key) != other.get(key)]
    points: list[tuple[int, int, tuple[str | None, str | None]]] = []
    rest: list[Difference] = []
    for kind, name in sorted(differing, key=lambda key: (list(Kind).index(key[0]), key[1])):
        said = one.get((kind, name)), other.get((kind, name))
        if kind is not Kind.POINT:
            rest.append(Difference(kind, subject_of(kind, name), said))
        elif points and points[-1][1:] == (name[0] - 1, said):
            points[-1] = points[-1][0], name[0], said
        else:
            points.append((name[0], name[0], said))
    for first, last, said in points:
        subject = f"U+{first:04X}" if first == last else f"U+{first:04X}..U+{last:04X}"
        yield Difference(Kind.POINT, subject, said)
    yield from rest


def subject_of(kind: Kind, name: Any) -> str:
    """A thing as it is told."""
    if kind is Kind.VARIANT:
        return "|".join(map(spelled, name))
    return spelled(name) if kind is Kind.SEQUENCE else str(name)
