"""The known kinds of difference between our answers and libidn2's, each with its reason and the test of it.

A difference that none of the tests explains is an error in one of the programs or in this list.
"""

import unicodedata
from typing import Callable, NamedTuple, Optional

import rules
from idn2_registry.unicode_data import DISALLOWED, LEFT_OUT, is_in
from registration import CHANGED, lowered


LDH = set("abcdefghijklmnopqrstuvwxyz0123456789-")


class Case(NamedTuple):
    """One line, and what was answered: a text, or a refusal by its number here and by its name there."""

    name: str
    ours: Optional[str]
    our_refusal: Optional[int]
    theirs: Optional[str]
    their_refusal: Optional[str]

    def differs(self):
        return self.ours != self.theirs


class Kind(NamedTuple):
    reason: str
    explains: Callable[["Facts", Case], bool]


class Facts:
    """What the tests below ask of Unicode's data and of libidn2."""

    def __init__(self, classes, known, library):
        self.classes, self.known, self.library = classes, known, library
        self.profile = rules.ProfileProperties()
        self.is_new = {}

    def is_newer(self, letter):
        """Whether the code point is unassigned in the Unicode version of libidn2's tables."""
        if letter not in self.is_new:
            self.is_new[letter] = self.library.register("a" + letter)[1] == "IDN2_UNASSIGNED"
        return self.is_new[letter]

    def has_newer(self, *texts):
        return any(self.is_newer(letter) for text in texts for letter in text if letter > "\u007f")

    def is_mapped(self, letter):
        """Whether UTS #46 maps the code point to others or takes it away."""
        return letter > "\u007f" and ord(letter) in self.classes.never


def points(text):
    return [ord(letter) for letter in text]


def decoded(label):
    """What the Punycode of a label decodes to; the label itself where it has none."""
    if label[:4].lower() != "xn--":
        return label
    try:
        return label[4:].encode("ascii").decode("punycode")
    except (UnicodeError, ValueError, OverflowError):
        return label


def decoded_labels(name):
    return [decoded(label) for label in name.split(".")]


def has_changed(facts, case):
    return any(letter in CHANGED for label in decoded_labels(case.name) for letter in label)


# Registration.


def ascii_is_copied(facts, case):
    return case.name.isascii() and case.theirs == case.name and case.ours is None


def is_normalised_there(facts, case):
    composed = unicodedata.normalize("NFC", case.name)
    has_passed = case.theirs == facts.library.register(composed)[0]
    return case.our_refusal in (10, 12) and composed != case.name and has_passed


def is_newer_label(facts, case):
    return case.theirs is None and facts.has_newer(case.name)


# What docs/PROFILE.md explains: with `--standard` there is no such difference.


def is_left_out(facts, case):
    return case.our_refusal == 10 and any(is_in(LEFT_OUT, point) for point in points(case.name))


def is_joined_otherwise(facts, case):
    label = points(case.name)
    ours, theirs = (rules.passes_context_j(label, known) for known in (facts.profile, facts.known))
    return ours != theirs and (case.our_refusal == 15 or case.their_refusal == "IDN2_CONTEXTJ")


def has_other_bidi_classes(facts, case):
    label = points(case.name)
    ours, theirs = (not rules.is_right_to_left(label, known) or rules.passes_bidi_rule(label, known)
                    for known in (facts.profile, facts.known))
    return ours != theirs and (case.our_refusal == 17 or case.their_refusal == "IDN2_BIDI")


# What it doesn't explain.


def breaks_bidi_in_part(facts, case):
    """RFC 5893, section 2: rule 4, and rule 3 where marks stand at the end."""
    is_broken = not rules.passes_bidi_rule(points(case.name), facts.known)
    return case.our_refusal == 17 and case.theirs is not None and is_broken


REGISTER_BY_STANDARD = (
    Kind("libidn2 copies a label of ASCII without any test", ascii_is_copied),
    Kind("libidn2's program puts the label into NFC; here one that is not in NFC is refused", is_normalised_there),
    Kind("a code point is newer than libidn2's tables", is_newer_label),
    Kind("a code point whose properties have changed since libidn2's tables", has_changed),
    Kind("libidn2 passes two kinds of digits in a right-to-left label, and marks at its end after a hyphen or sign",
         breaks_bidi_in_part),
)

REGISTER = (
    *REGISTER_BY_STANDARD,
    Kind("a code point of the blocks that this profile leaves out", is_left_out),
    Kind("joining types or viramas past this profile's lists", is_joined_otherwise),
    Kind("Bidi classes past this profile's lists", has_other_bidi_classes),
)


# Decoding.


def is_decoded_untested(facts, case):
    """Some A-label of the name decodes, but not to a registrable label, or not to one with that A-label."""
    return case.our_refusal in range(10, 20) and case.theirs is not None and "xn--" in case.name.lower()


def keeps_capitals(facts, case):
    lowered_labels = [lowered(there) if source[:4].lower() == "xn--" else there
                      for source, there in zip(case.name.split("."), (case.theirs or "").split("."))]
    return case.ours == ".".join(lowered_labels)


def is_long_there(facts, case):
    long_label = any(len(label) > 63 for label in case.name.split("."))
    return case.their_refusal in ("IDN2_TOO_BIG_LABEL", "IDN2_TOO_BIG_DOMAIN") and (long_label or len(case.name) > 253)


def is_empty_line(facts, case):
    return case.name == "" and case.our_refusal == 3 and case.theirs == ""


def breaks_bidi_as_a_decoded_name(facts, case):
    labels = [points(label) for label in decoded_labels(case.name)]
    return case.our_refusal == 17 and rules.fails_as_a_name(labels, facts.known) is not None


DECODE = (
    Kind("an empty line is refused here and copied there", is_empty_line),
    Kind("libidn2 decodes without testing what comes out; here a decoded label is registrable", is_decoded_untested),
    Kind("ASCII capitals of an A-label are lowered here and kept there", keeps_capitals),
    Kind("libidn2 refuses long labels that are no A-labels; here they are copied", is_long_there),
)

DECODE_BY_STANDARD = (
    *DECODE,
    Kind("the Bidi rule is asked of all labels of a name here, and of none there", breaks_bidi_as_a_decoded_name),
)


# Lookup. Ours is ToASCII of UTS #46 with CheckHyphens and VerifyDnsLength off, then a test of the lengths.


def has_hyphens(facts, case):
    refused = case.their_refusal in ("IDN2_2HYPHEN", "IDN2_HYPHEN_STARTEND")
    labels = decoded_labels(case.ours or "")
    return refused and any(label[:1] == "-" or label[-1:] == "-" or label[2:4] == "--" for label in labels)


def is_newer_name(facts, case):
    return case.theirs is None and facts.has_newer(case.name, *decoded_labels(case.ours or ""))


def has_symbols(facts, case):
    """UTS #46 keeps a code point (its status NV8 or XV8) that IDNA2008 does not allow, and libidn2 refuses it."""
    labels = decoded_labels(case.ours or "")
    symbols = [letter for label in labels for letter in label if letter > "\u007f"
               and facts.classes.by_the_standard(ord(letter)) == DISALLOWED]
    return case.their_refusal == "IDN2_DISALLOWED" and bool(symbols)


def has_empty_labels(facts, case):
    labels = (case.theirs or "").removesuffix(".").split(".")
    return case.our_refusal == 21 and case.theirs is not None and "" in labels


def is_length_elsewhere(facts, case):
    name = (case.theirs or "").removesuffix(".")
    return case.our_refusal == 21 and (len(name) > 253 or any(len(label) > 63 for label in name.split(".")))


def breaks_bidi_as_a_name(facts, case):
    labels = [points(label) for label in decoded_labels(case.theirs or "") if label]
    is_bidi_name = any(rules.is_right_to_left(label, facts.known) for label in labels)
    return case.our_refusal == 20 and is_bidi_name and not all(
        rules.passes_bidi_rule(label, facts.known) for label in labels)


def has_sharp_s(facts, case):
    return "\u1e9e" in case.name and case.ours is not None and case.theirs is not None


def is_mapped_since(facts, case):
    disallowed_there = [letter for letter in case.name if facts.is_mapped(letter)
                        and facts.library.lookup("a" + letter)[1] == "IDN2_DISALLOWED"]
    return case.ours is not None and case.their_refusal == "IDN2_DISALLOWED" and bool(disallowed_there)


def has_signs(facts, case):
    """A label with a code point past ASCII and an ASCII sign, which its Punycode begins with."""
    refused = case.their_refusal in ("IDN2_ALABEL_ROUNDTRIP_FAILED", "IDN2_PUNYCODE_BAD_INPUT")
    return refused and any(not label.isascii() and any(letter < "\u0080" and letter not in LDH for letter in label)
                           for label in decoded_labels(case.ours or ""))


def is_coded_unmapped(facts, case):
    coded = [decoded(label) for label in case.name.lower().split(".") if label[:4] == "xn--"]
    return case.our_refusal == 20 and case.theirs is not None and any(
        facts.is_mapped(letter) for label in coded for letter in label)


LOOKUP = (
    Kind("an empty line is refused here and copied there", is_empty_line),
    Kind("UTS #46 maps U+1E9E to U+00DF now, and to two letters s in libidn2's version", has_sharp_s),
    Kind("a code point that UTS #46 maps or ignores now, and disallowed in libidn2's version", is_mapped_since),
    Kind("libidn2 refuses the Punycode of a label with ASCII signs; UTS #46 without UseSTD3ASCIIRules keeps them",
         has_signs),
    Kind("libidn2 passes an A-label of a label that UTS #46 would still map", is_coded_unmapped),
    Kind("a code point whose properties have changed since libidn2's tables", has_changed),
    Kind("CheckHyphens is off here and on there", has_hyphens),
    Kind("a code point is newer than libidn2's tables", is_newer_name),
    Kind("a code point that UTS #46 keeps and IDNA2008 disallows: libidn2 applies both", has_symbols),
    Kind("an empty label is refused here and passed there", has_empty_labels),
    Kind("a name or a label too long, which is passed there", is_length_elsewhere),
    Kind("the Bidi rule is asked of all labels of a name and in full here, of each label and in part there",
         breaks_bidi_as_a_name),
)
