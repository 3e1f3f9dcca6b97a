"""The pairs of a source and a variant that a table or a ruleset lacks."""

from collections.abc import Iterable, Mapping

from .points import Points


def gaps(variants_of: Mapping[Points, Iterable[Points]]) -> list[tuple[Points, Points]]:
    """The pairs that symmetry or transitivity asks for and that are not there, in order. `variants_of` has for each source
    the sequences that are its variants; nothing else of them counts."""
    pairs = {(source, variant) for source, variants in variants_of.items() for variant in variants}
    asked = {(variant, source) for source, variant in pairs}
    asked |= {(a, b) for a, c in pairs for b in variants_of.get(c, ())}
    return sorted((a, b) for a, b in asked - pairs if a != b)
