"""Labels that a rule or a demand admits and refuses. They are drawn from the table, and the program is asked what it says of
each: nothing here knows which of them are valid."""

import itertools
import json
import unicodedata
from collections.abc import Iterable, Iterator
from dataclasses import dataclass
from typing import TypeVar

from ..answers import Object
from ..collisions import refusals_in
from ..faults import Unknown
from ..notation.patterns import Contexts, Sign
from ..notation.points import Points
from ..notation.ruleset import ContextRule, Demand, Mapped, Rule
from ..parsed_table import ParsedTable
from ..program import Program
from ..tables import Table
from .patterns import ANY, Sample, samples

# So many labels are asked of a table in all, and of each rule; so many sources with a condition are tried of each rule, each in
# so many ways to satisfy it.
MOST, MOST_OF_RULE, SOURCES, WAYS, FILLERS, LONGEST = 20_000, 500, 4, 24, 3, 12
# Of so many labels of each rule variants are asked; such a label has few: so many are listed, and tested.
MOST_LISTED, LISTED, TRIES = 300, 64, 2_000
SECONDS = 10.0
HYPHEN = (0x2D,)
Each = TypeVar("Each")


@dataclass(frozen=True)
class Example:
    """The shortest label that was found of each kind."""

    admitted: str | None = None
    refused: str | None = None


@dataclass(frozen=True)
class VariantExample:
    """The shortest label with a variant that has a condition, and that variant with its disposition; and the shortest label
    without such a variant, or with another disposition of it."""

    label: str | None = None
    variant: str | None = None
    disposition: str | None = None
    without: str | None = None


@dataclass
class Drawn:
    """The labels that are drawn for one rule or demand, and which refusal is its own."""

    labels: list[str]
    sources: list[str]

    def example(self, told: dict[str, Object | None], **own: object) -> Example:
        """The shortest labels that the program admits, with a source that has the condition in it; and that it refuses."""
        known = [label for label in self.labels if label in told]
        refused = [label for label in known if (refusal := told[label]) and own.items() <= refusal.items()]
        admitted = [label for label in known if told[label] is None and any(source in label for source in self.sources)]
        return Example(shortest(admitted), shortest(refused))


def shortest(labels: list[str]) -> str | None:
    """The shortest of some labels; of several the first."""
    return min(labels, key=len) if labels else None


class Examples:
    """Examples of all rules and demands of a table, by one run of the program."""

    def __init__(self, parsed: ParsedTable, program: Program) -> None:
        self._parsed, self._ruleset = parsed, parsed.ruleset
        self._fillers = fillers(parsed)
        self._beside = sorted(itertools.product(self.beside(), repeat=2), key=lambda pair: len(pair[0] + pair[1]))
        self.rules = {name: self.of_rule(name) for name in self._ruleset.rules}
        self.demands = [self.of_demand(demand) for demand in self._ruleset.demands]
        drawn = [each.labels for each in (*self.rules.values(), *self.demands)]
        # Where there are too many, each rule has some.
        told = told_of(parsed.table, program, in_turn(drawn))
        self.variants = {name: list(itertools.islice(self.of_variants(name), MOST_LISTED)) for name in self._ruleset.rules}
        listed = listed_of(parsed.table, program, (label for each in self.variants.values() for label, _, _ in each))
        # Else the program didn't answer in time, and another time it may.
        self.are_whole = told is not None and listed is not None
        self._told, self._listed = told or {}, listed or {}

    def of(self, rule: str) -> Example:
        """Of a rule that sources ask."""
        return self.rules[rule].example(self._told, number=41, rule=rule)

    def of_variant(self, rule: str) -> VariantExample:
        """Of a rule that variants ask."""
        known = [(label, variant, disposition) for label, variant, disposition in self.variants[rule] if label in self._listed]
        having = [each for each in known if self._listed[each[0]].get(each[1]) == each[2]]
        without = shortest([each[0] for each in known if each not in having])
        first = min(having, key=lambda each: len(each[0])) if having else None
        return VariantExample(*first, without) if first else VariantExample(without=without)

    def of_number(self, demand: int) -> Example:
        """Of a demand by its number."""
        return self.demands[demand - 1].example(self._told, number=41, demand=demand)

    def of_rule(self, name: str) -> Drawn:
        """Labels with sources that have a condition with this rule: where it holds, and elsewhere."""
        sources = [entry.source.points for entry in self._ruleset.entries.values()
                   if entry.source.condition and entry.source.condition.rule == name][:SOURCES]
        contexts = contexts_of(self._ruleset.rules[name])
        labels = in_turn(self.around(source, contexts) for source in sources)
        return Drawn(list(itertools.islice(dict.fromkeys(labels), MOST_OF_RULE)), [spelled(source) for source in sources])

    def of_variants(self, name: str) -> Iterator[tuple[str, str, str]]:
        """Labels with a source of which a variant has a condition with this rule, each with what it is with that variant, and
        with the disposition of this."""
        given = [(variant.condition.word, (entry.source.points, variant)) for entry in self._ruleset.entries.values()
                 for variant in entry.variants if variant.condition and variant.condition.rule == name]
        # Those of one word, so that the examples say one thing.
        chosen = max((word for word, _ in given), default=None)
        told = [pair for word, pair in given if word == chosen][:SOURCES]
        contexts = contexts_of(self._ruleset.rules[name])
        return in_turn(self.of_variant_of(source, variant, contexts) for source, variant in told)

    def of_variant_of(self, source: Points, variant: Mapped, contexts: Contexts) -> Iterator[tuple[str, str, str]]:
        """Those of one source and its variant."""
        old, new = spelled(source), spelled(variant.points)
        disposition = self._parsed.disposition_of(variant)
        for label in self.around(source, contexts):
            if label.count(old) == 1:
                yield label, label.replace(old, new), disposition

    def around(self, source: Points, contexts: Contexts) -> Iterator[str]:
        """Labels with a source in the contexts of a rule, and out of them, with ever more beside."""
        ways = list(self.ways(contexts))
        for first, last in self._beside:
            yield spelled((*first, *source, *last))
            yield spelled((*first, *source, *source, *last))
            for left, right, (at_start, at_end) in ways:
                if not (first and at_start or last and at_end):
                    yield spelled(self.filled((*first, *left, *source, *right, *last)))

    def ways(self, contexts: Contexts) -> Iterator[tuple[Sample, Sample, tuple[bool, bool]]]:
        """Some of what is before and after a place where the rule holds, and whether it is at the start and at the end."""
        for before, after in contexts:
            edges = Sign.START in before, Sign.END in after
            lefts, rights = (samples(side, self._ruleset.sets) for side in (before, after))
            # The first ones of both come first.
            places = sorted(itertools.product(range(len(lefts)), range(len(rights))), key=sum)
            yield from ((lefts[left], rights[right], edges) for left, right in places[:max(1, WAYS // len(contexts))])

    def beside(self) -> list[Points]:
        """What stands beside a source that is tried: nothing, letters, and what each label has to have."""
        wanted = [samples(branch, self._ruleset.sets)[:1] for demand in self._ruleset.demands if demand.word == "%always"
                  for branch in demand.pattern[:FILLERS]]
        letters = [(filler,) for filler in self._fillers]
        return list(dict.fromkeys([(), *letters, *(self.filled(sample) for sample in itertools.chain(*wanted)),
                                   *((*letter, *letter) for letter in letters[:1])]))

    def filled(self, sample: Iterable[int | None]) -> Points:
        """A sample with a letter where any code point may be."""
        return tuple(point for each in sample for point in (self._fillers[:1] if each is ANY else [each]) if point is not None)

    def of_demand(self, demand: Demand) -> Drawn:
        """Labels that match its pattern, and others."""
        matched = [self.filled(sample) for branch in demand.pattern for sample in samples(branch, self._ruleset.sets)]
        labels = [spelled((*first, *points, *last)) for first, last in self._beside for points in matched]
        # One code point less, or one of them alone: so near to the pattern some are admitted.
        near = [spelled(points[:place] + points[place + 1:]) for points in matched for place in range(len(points))]
        alone = [spelled(part * 2) for part in self.beside()] + [chr(point) * 2 for points in matched for point in points]
        return Drawn(list(dict.fromkeys([*alone, *near, *labels]))[:MOST_OF_RULE], [""])


def contexts_of(rule: Rule) -> Contexts:
    """The contexts of a rule; of one about the whole label what matches it, directly before or after a place."""
    if isinstance(rule, ContextRule):
        return rule.contexts
    return tuple(context for branch in rule.pattern for context in ((branch, ()), ((), branch)))


def in_turn(each: Iterable[Iterable[Each]]) -> Iterator[Each]:
    """The first ones of all, then the second ones, and so on."""
    return (one for turn in itertools.zip_longest(*each) for one in turn if one is not None)


def spelled(points: Iterable[int]) -> str:
    """A sequence as a text."""
    return "".join(map(chr, points))


def fillers(parsed: ParsedTable) -> list[int]:
    """Some letters and digits that may stand nearly anywhere, as far as the table tells: one of each kind, letters first."""
    found: dict[tuple[bool, bool], int] = {}
    for entry in parsed.entries:
        source, condition = entry.source, entry.source.condition
        is_fixed = parsed.refuses(entry) or condition and condition.word == "when"
        if len(source.points) == 1 and source.points != HYPHEN and not is_fixed:
            found.setdefault((not is_letter(source.points[0]), condition is not None), source.points[0])
    return [point for _, point in sorted(found.items())][:FILLERS]


def is_letter(point: int) -> bool:
    """Whether it is a letter."""
    return unicodedata.category(chr(point)).startswith("L")


def told_of(table: Table, program: Program, labels: Iterable[str]) -> dict[str, Object | None] | None:
    """What the program says of labels under a table: None of one that it admits, else its refusal. None without an answer."""
    asked = [label for label in dict.fromkeys(labels) if label and len(label) <= LONGEST][:MOST]
    words = table.listing("--limit", "1", "--tries", "1")
    try:
        output = program.answered(words, "".join(f"{label}\n" for label in asked).encode(), [table.held.descriptor], SECONDS)
    except Unknown:
        return None
    refused = {told["line"]: told["refusal"] for told in refusals_in(output)}
    return {label: refused.get(line) for line, label in enumerate(asked, 1)} if asked else {}


def listed_of(table: Table, program: Program, labels: Iterable[str]) -> dict[str, dict[str, str]] | None:
    """The variants of labels under a table, with their dispositions. Labels that are refused, or whose listing isn't complete,
    aren't there. None if the program doesn't answer."""
    asked = [label for label in dict.fromkeys(labels) if label and len(label) <= LONGEST][:MOST]
    words = table.listing("--limit", str(LISTED), "--tries", str(TRIES))
    try:
        output = program.answered(words, "".join(f"{label}\n" for label in asked).encode(), [table.held.descriptor], SECONDS)
    except Unknown:
        return None
    listed: dict[str, dict[str, str]] = {}
    variants: dict[str, str] = {}
    for told in map(json.loads, output.splitlines() if asked else ()):
        if "input" not in told:
            variants[told["ulabel"]] = told.get("disposition", "")
            continue
        if told.get("complete"):
            listed[told["input"]] = variants
        variants = {}
    return listed
