"""Which labels collide, and what each is to the other, in the reference implementation, from docs/NOTATION.md: by whole sets.

Two labels that are accepted today collide if the listing of one has the other. A label that isn't has no listing: with it,
a label collides that arises from it, or it from that one, whatever is asked of sources."""

import collections
import functools

from ruleset_labels import text_of

NONE, VARIANT, BLOCKED, ALLOCATABLE = "none", "variant", "blocked", "allocatable"
LABEL_LIMIT, MOST_SOURCES = 63, 64


def sources_of(entries):
    """For each variant of some entries, the sources that have it."""
    found = collections.defaultdict(set)
    for source, entry in entries.items():
        for variant in entry.variants:
            found[text_of(variant.points)].add(source)
    return found


class Collisions:
    """`labels` is what a table says of labels, and `may_be_registered` what RFC 5891 says of one. `has_dispositions` is
    so of versions 2 and 3. Sets are made once for each label."""

    def __init__(self, labels, may_be_registered, has_dispositions):
        self.labels, self.may_be_registered, self.has_dispositions = labels, may_be_registered, has_dispositions
        self.partners = collections.defaultdict(set)
        for source, entry in labels.entries.items():
            for replacement in map(text_of, (each.points for each in entry.mapped())):
                self.partners[source].add(replacement)
                self.partners[replacement].add(source)
        for make in ("is_good", "listing", "arising"):
            setattr(self, make, functools.cache(getattr(self, make)))

    def near(self, label):
        """The labels that are cut into as many parts as this one, each of which goes together with the one of the same
        number: one is a source, and the other it, too, or one of its variants."""
        found = self.labels.joinings(label, lambda start, end: self.partners.get(label[start:end], ()))
        return {each for each in found if len(each) <= LABEL_LIMIT}

    def is_good(self, label):
        """It may be registered, and the table doesn't refuse it."""
        return self.may_be_registered(label) and self.labels.refusal(label) is None

    def listing(self, label):
        """The whole listing of a label, with what each of its labels is to it; nothing of one that isn't good."""
        if not self.is_good(label):
            return {}
        return {each: self.disposition(told == ALLOCATABLE) for each, told in self.labels.answer(label).items()
                if len(each) <= LABEL_LIMIT and self.may_be_registered(each)}

    def disposition(self, is_allocatable):
        if not self.has_dispositions:
            return VARIANT
        return ALLOCATABLE if is_allocatable else BLOCKED

    def arising(self, label):
        """What arises from a label by any cut into sources, whether their conditions hold or not: each is replaced by
        itself, or by a variant whose condition holds in the label where the source stands."""
        def parts(start, end):
            source = label[start:end]
            entry = self.labels.entries.get(source)
            return [] if entry is None else [source, *(text_of(each.points) for each in entry.variants
                                                       if self.labels.holds(each.condition, label, start, end))]
        return self.labels.joinings(label, parts)

    def regard(self, label, other):
        """What another label is to a label: its variant; or barred, if one of them isn't good and it arises all the
        same; or nothing."""
        if other in self.listing(label):
            return self.listing(label)[other]
        are_good = self.is_good(label) and self.is_good(other)
        return self.disposition(False) if not are_good and other in self.arising(label) else NONE

    def regards(self, label, other):
        """What the other label is to the label, and back."""
        return self.regard(label, other), self.regard(other, label)

    def collide(self, label, other):
        return self.regards(label, other) != (NONE, NONE)
