"""Which sequences are variants of each other, and which of them go together."""

from collections.abc import Iterator
from dataclasses import dataclass

from ..audit import groups_of
from ..notation.points import Points
from ..notation.ruleset import ALLOCATABLE, Mapped
from ..parsed_table import ParsedTable


@dataclass(frozen=True)
class Pair:
    """A source and one of its variants, with the disposition of this by itself. Before version 2 nothing says which it is."""

    source: Points
    variant: Mapped
    disposition: str

    @property
    def is_allocatable(self) -> bool:
        """Whether the holder of the source may have the variant."""
        return self.disposition == ALLOCATABLE


@dataclass(frozen=True)
class VariantSet:
    """Sequences that are variants of each other, directly or through others, with the parts in which allocatable variants
    connect them, and the pairs as the table has them."""

    parts: tuple[tuple[Points, ...], ...]
    pairs: tuple[Pair, ...]


def pairs_of(parsed: ParsedTable) -> Iterator[Pair]:
    """All of a table."""
    for entry in parsed.entries:
        yield from (Pair(entry.source.points, each, parsed.disposition_of(each)) for each in entry.variants)


def uneven_pairs(parsed: ParsedTable) -> list[tuple[list[Pair], list[Pair]]]:
    """The pairs that go both ways, but not with the same dispositions under the same conditions: one way, and the other."""
    ways: dict[tuple[Points, Points], list[Pair]] = {}
    for pair in pairs_of(parsed):
        ways.setdefault((pair.source, pair.variant.points), []).append(pair)
    both = [(there, ways[back, source]) for (source, back), there in ways.items() if source < back and (back, source) in ways]
    return [(there, back) for there, back in both if set(map(terms, there)) != set(map(terms, back))]


def terms(pair: Pair) -> tuple[str, str, str]:
    """What a pair is, and where."""
    condition = pair.variant.condition
    return (pair.disposition, *(("", "") if condition is None else (condition.word, condition.rule)))


def variant_sets(parsed: ParsedTable) -> list[VariantSet]:
    """All of a table, in the order of their first sequences."""
    pairs = list(pairs_of(parsed))
    wholes = groups_of((pair.source, pair.variant.points) for pair in pairs)
    place = {sequence: number for number, whole in enumerate(wholes) for sequence in whole}
    parts: list[list[tuple[Points, ...]]] = [[] for _ in wholes]
    together = groups_of((pair.source, pair.variant.points) for pair in pairs if pair.is_allocatable)
    alone = place.keys() - {sequence for part in together for sequence in part}
    for part in sorted([*together, *([sequence] for sequence in alone)]):
        parts[place[part[0]]].append(tuple(part))
    of_whole: list[list[Pair]] = [[] for _ in wholes]
    for pair in pairs:
        of_whole[place[pair.source]].append(pair)
    return [VariantSet(tuple(divided), tuple(own)) for divided, own in zip(parts, of_whole, strict=True)]
