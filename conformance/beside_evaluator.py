#!/usr/bin/env python3
"""Compares the built program and the reference implementation of rulesets with the evaluator of RFC 7940, which shares only
the reader of the notation with the latter: python3 conformance/beside_evaluator.py [--seed SEED] [--jobs JOBS] [N]

N rulesets [default: 6000] are drawn from a seed (drawn_rulesets.py). Of each one, some labels have to be answered by all
three in the same way: refused, or with the same variants, each of them allocatable, blocked or unclear; and the program
refuses by the number by which the reference implementation does. A demand is an action for the evaluator; a label with too
many variants or readings is left out. Status 1 where anything differs."""

import collections
import itertools
import pathlib
import random
import sys

sys.path.append(str(pathlib.Path(__file__).resolve().parent.parent / "registry"))

from drawn_rulesets import DrawnRuleset, compare_drawn, count_answer
from evaluator_answers import answer_of_evaluator, asked_of_program
from idn2_registry.notation import patterns, reading
from idn2_registry.notation.faults import TableFault
from idn2_registry.notation.ruleset import ContextRule, Demand, Mapped, Ruleset, WholeLabelRule
from idn2_registry.rfc7940 import ruleset as standard
from idn2_registry.rfc7940.rules import AllOf, Anchor, AnyOf, Condition, End, Literal, OneOf, Part, Start, Times
from ruleset_labels import NOT_VALID, RulesetLabels, Unknown, text_of

LETTERS = ("ab", "abc", "abcd")
# Labels of each ruleset: all that are short, and some that are longer, of its sources.
SHORT, LONGER = 2, 12


class InTermsOfTheStandard:
    """What a ruleset of the notation says, as the evaluator has it."""

    def __init__(self, ruleset: Ruleset) -> None:
        self.ruleset = ruleset
        self.kinds = {name: 1 << 7 + place for place, name in enumerate(ruleset.types)} | standard.PREDEFINED

    def made(self) -> standard.Ruleset:
        entries = [self.entry(*entry.mapped()) for entry in self.ruleset.entries.values()]
        # A demand leaves out an unclear variant, and an action doesn't: one that is never triggered stands between
        # them.
        never = standard.Action("valid", None, "any-variant", 0)
        actions = [*map(self.demand, self.ruleset.demands), never, *map(self.action, self.ruleset.actions)]
        return standard.Ruleset({entry.points: entry for entry in entries}, actions)

    def entry(self, source: Mapped, *variants: Mapped) -> standard.Entry:
        found = [self.variant(each) for each in variants]
        if source.type:
            found.append(standard.Variant(text_of(source.points), self.kinds[source.type], None))
        return standard.Entry(text_of(source.points), self.condition(source), tuple(found))

    def variant(self, variant: Mapped) -> standard.Variant:
        kind = self.kinds[variant.type] if variant.type else standard.UNTYPED
        return standard.Variant(text_of(variant.points), kind, self.condition(variant))

    def condition(self, mapped) -> Condition | None:
        """That of a source, of a variant or of an action."""
        if mapped.condition is None:
            return None
        rule = self.ruleset.rules[mapped.condition.rule]
        return Condition(mapped.condition.rule, mapped.condition.word == "when", self.rule(rule))

    def rule(self, rule: ContextRule | WholeLabelRule) -> Part:
        if isinstance(rule, WholeLabelRule):
            return self.pattern(rule.pattern)
        contexts = [AllOf([self.branch(before), Anchor(has_anchor=True), self.branch(after)], has_anchor=True)
                    for before, after in rule.contexts]
        return OneOf(contexts, has_anchor=True)

    def demand(self, demand: Demand) -> standard.Action:
        return standard.Action("invalid", Condition("", demand.word == "%never", self.pattern(demand.pattern)))

    def action(self, action) -> standard.Action:
        asks, names = "", ()
        if action.types:
            asks = {"any": "any-variant", "all": "all-variants", "only": "only-variants"}[action.types.word]
            names = action.types.names
        types = sum(self.kinds[name] for name in names)
        return standard.Action(action.disposition, self.condition(action), asks, types)

    def pattern(self, pattern: patterns.Pattern) -> Part:
        return OneOf(list(map(self.branch, pattern)))

    def branch(self, items: patterns.Branch) -> Part:
        return AllOf(list(map(self.item, items)))

    def item(self, item: patterns.Item) -> Part:
        match item:
            case patterns.Sign.ANY:
                return AnyOf(lambda _: True)
            case patterns.Sign.START:
                return Start()
            case patterns.Sign.END:
                return End()
            case patterns.Point(point=point):
                return Literal(chr(point))
            case patterns.Set(name=name):
                spans = self.ruleset.sets[name]
                return AnyOf(lambda letter: any(first <= ord(letter) <= last for first, last in spans))
            case patterns.Group(branches=branches):
                return self.pattern(branches)
            case patterns.Optional(atom=atom):
                return Times(self.item(atom), 0, 1)
            case patterns.Many(atom=atom):
                return Times(self.item(atom), 0, None)
        raise TypeError(item)


class Drawn:
    """A well-formed ruleset and labels, by a seed and a number."""

    def __init__(self, seed: int, number: int) -> None:
        self.chance = random.Random(f"{seed} {number}")
        letters = self.chance.choice(LETTERS)
        entries = self.entries(letters)
        self.text = self.some_text(letters, entries)
        while (ruleset := ruleset_of(self.text)) is None:
            self.text = self.some_text(letters, entries)
        self.ruleset = ruleset
        labels = ["".join(label) for size in range(1, SHORT + 1) for label in itertools.product(letters, repeat=size)]
        longer = ["".join(self.chance.choices(list(entries), k=self.chance.randint(1, 4))) for _ in range(LONGER)]
        self.labels = sorted({*labels, *longer})

    def some_text(self, letters: str, entries: dict[str, list[str]]) -> str:
        invalid = {source for source in list(entries)[1:] if self.chance.random() < 0.2}
        lines = ["%version 3", *DrawnRuleset(self.chance, letters, entries, invalid).lines]
        return "".join(line + "\n" for line in lines)

    def entries(self, letters: str) -> dict[str, list[str]]:
        """Sources, most letters among them, with their variants, of which most are sources."""
        pairs = ["".join(self.chance.choices(letters, k=2)) for _ in range(self.chance.choice((0, 0, 1, 2, 3)))]
        sources = list(dict.fromkeys([*self.chance.sample(letters, self.chance.randint(1, len(letters))), *pairs]))
        targets = [*sources * 2, *letters, *pairs]
        drawn = {source: self.chance.sample(targets, self.chance.choice((0, 1, 1, 2))) for source in sources}
        return {source: sorted({*variants} - {source}) for source, variants in drawn.items()}


def ruleset_of(text: str) -> Ruleset | None:
    """What a drawn text spells, if it has no fault."""
    try:
        return reading.read(text.encode(), lambda _: True)
    except TableFault:
        return None


def compared(seed: int, number: int) -> collections.Counter[str]:
    """What was compared of a drawn ruleset; AssertionError where anything differs, or a label is refused with 41 and no
    cause."""
    drawn, counts = Drawn(seed, number), collections.Counter[str]()
    listed, refused = asked_of_program(drawn.text.encode(), drawn.labels)
    labels, standards = RulesetLabels(drawn.ruleset), InTermsOfTheStandard(drawn.ruleset).made()
    counts["rulesets"] += 1
    for label in drawn.labels:
        try:
            answer = labels.answer(label)
        except Unknown:
            counts["labels left out"] += 1
            continue
        wanted = answer_of_evaluator(standard.Asked(standards, label))
        assert answer == wanted, f"number {number}, label {label}: {answer}, and by RFC 7940 {wanted}\n{drawn.text}"
        refusal = labels.refusal(label)
        said = listed.get(label), refused.get(label)
        assert said == (wanted, refusal), f"number {number}, label {label}: {said} by the program, and {wanted}\n{drawn.text}"
        assert refusal != NOT_VALID or labels.cause(label), f"number {number}, label {label}: no cause\n{drawn.text}"
        count_answer(counts, refusal, answer)
    return counts


def main(words: list[str]) -> int:
    return compare_drawn("Compares the reference implementation with another.", compared, words)


if __name__ == "__main__":
    sys.exit(main(sys.argv[1:]))
