"""The pairs of variants of each other whose conditions one way aren't those of the other way."""

from collections.abc import Mapping, Set

from .points import Points


def differences(variants_of: Mapping[Points, Mapping[Points, Set[object]]]) -> list[tuple[Points, Points]]:
    """Such pairs in order, each once, the lesser sequence first. `variants_of` has for each source the sequences that are its
    variants, and for each of these the set of conditions under which it is one, where None stands for no condition."""
    return sorted((source, variant) for source, variants in variants_of.items() for variant, conditions in variants.items()
                  if source < variant and variants_of.get(variant, {}).get(source, conditions) != conditions)
