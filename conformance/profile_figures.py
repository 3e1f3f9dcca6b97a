#!/usr/bin/env python3
"""Counts the figures of docs/PROFILE.md: python3 conformance/profile_figures.py

It prints each statement there that has a figure, a code point or a script, as it must stand. Unicode's properties are
those of the kit's tables (kit_data.py). The profile is read from its definitions in crates/idn_class/specs, the blocks of
the Bidi classes from the laws that are proved of them (Profile.antt). A test compares the document with what is printed.
After a change of either, edit the document by it.
"""

import collections
import pathlib
import sys

sys.path.insert(0, str(pathlib.Path(__file__).resolve().parent.parent / "registry"))

from idn2_registry.unicode_data import MAY_STAND_IN_A_TABLE, is_in
from kit_data import Kit, KitClasses, KitProperties, NoKit, profile_ranges

ARABIC_BLOCK = (0x0600, 0x06FF)
ZERO_WIDTH_JOINER = 0x200D
JOIN_ONLY_BY_UNICODE = (("U", "R"), ("U", "D"), ("U", "L"), ("U", "C"))

# Of the scripts that can't be registered, those with which people write today.
WRITTEN_TODAY = ("Adlam", "Garay", "Hanifi Rohingya", "Mende Kikakui", "Yezidi")
# Of the scripts with a virama that is none here, those that most people read.
KNOWN_WIDELY = ("Thai", "Lao", "Tibetan", "Myanmar", "Khmer")
NUMBERS = ("No", "One", "Two", "Three", "Four", "Five", "Six", "Seven", "Eight", "Nine", "Ten")


class Profile:
    """The lists of this project, which take the place of Unicode's properties."""

    def __init__(self, classes):
        marks = {name: [(point, point) for point, category in classes.category.items() if category == name]
                 for name in ("Mn", "Me")}
        self.left_out = profile_ranges("Class", "is_outside_profile")
        self.right_to_left = profile_ranges("Profile", "right_to_left_blocks")
        self.arabic_letters = profile_ranges("Profile", "arabic_blocks")
        self.arabic_numbers = profile_ranges("Profile", "arabic_digits")
        self.european_numbers = profile_ranges("Profile", "european_digits")
        self.bidi_classes = by_the_first({
            "BN": profile_ranges("BidiClass", "is_boundary_neutral"),
            "ES": profile_ranges("BidiClass", "is_european_separator"),
            "EN": self.european_numbers, "AN": self.arabic_numbers, "NSM": marks["Mn"] + marks["Me"],
            "R": self.right_to_left, "AL": self.arabic_letters,
        })
        self.joining_types = by_the_first({
            "R": profile_ranges("JoiningType", "right_joining"), "D": profile_ranges("JoiningType", "dual_joining"),
            "T": marks["Mn"],
        })
        self.viramas = [first for first, _ in profile_ranges("JoiningType", "is_profile_virama")]

    def bidi_class(self, point):
        return self.bidi_classes.get(point, "L")

    def joining_type(self, point):
        return self.joining_types.get(point, "U")


def by_the_first(lists):
    """The name of the first list that has a code point."""
    names = {}
    for name, ranges in reversed(lists.items()):
        names.update((point, name) for first, last in ranges for point in range(first, last + 1))
    return names


class Figures:
    """The code points that may stand in a label here, those that may only by RFC 5892, and the statements of them."""

    def __init__(self, kit):
        self.version, self.unicode, self.classes = kit.version(), KitProperties(kit), KitClasses(kit)
        self.profile = Profile(self.classes)
        allowed = {point for point in self.classes.category if self.is_allowed(point)}
        self.lost = {point for point in allowed if is_in(self.profile.left_out, point)}
        self.here = allowed - self.lost

    def is_allowed(self, point):
        """By RFC 5892, where its context rules allow it."""
        return self.classes.by_the_standard(point) in MAY_STAND_IN_A_TABLE

    def scripts(self, points):
        """The scripts of the code points, in their order. A sign of no script, or of the one before it, has none."""
        found = dict.fromkeys(self.unicode.scripts.get(point, "Unknown") for point in sorted(points))
        return [self.unicode.spelled(name) for name in found if name not in ("Common", "Inherited")]

    def of_script(self, points, script):
        return [point for point in sorted(points) if self.scripts([point]) == [script]]

    def different(self, property_here, property_there):
        """The code points by how a property of them differs: (here, by Unicode)."""
        found = collections.defaultdict(list)
        for point in sorted(self.here):
            if property_here(point) != property_there(point):
                found[property_here(point), property_there(point)].append(point)
        return found

    def statements(self):
        yield f"the data of Unicode {self.version}, over the {len(self.here):,} code points that may stand in a label here"
        yield from self.lost_scripts()
        yield from self.bidi_classes()
        yield from self.joining_types()
        yield from self.viramas()

    def lost_scripts(self):
        yield f"The code points of {each_range(self.profile.left_out)} are DISALLOWED"
        touched, kept = self.scripts(self.lost), set(self.scripts(self.here))
        partly = [script for script in touched if script in kept]
        gone = [script for script in touched if script not in kept]
        yield f"{len(self.lost):,} code points that RFC 5892 allows, and with them {len(gone)} scripts"
        today = [f"{script} ({extent(self.of_script(self.lost, script))})" for script in WRITTEN_TODAY]
        yield f"{NUMBERS[len(today)]} of the scripts are written today: {listed(today)}"
        yield f"The others are historic: {listed(sorted(set(gone) - set(WRITTEN_TODAY)))}."
        for script in partly:
            yield f"{script} loses {code_points(self.of_script(self.lost, script))}"

    def bidi_classes(self):
        hebrew, others = self.profile.right_to_left
        yield f"Hebrew ({each_range([hebrew])}), {listed(self.scripts_within([others]))} ({each_range([others])}) are R"
        arabic = self.scripts_within(self.profile.arabic_letters)
        yield f"{listed([f'{arabic[0]} with its supplements', *arabic[1:]])} " \
              f"({listed([each_range([one]) for one in self.profile.arabic_letters])}) are AL"
        yield f"{each_range(self.profile.arabic_numbers)} are AN"
        yield f"the digits of ASCII and {each_range(self.profile.european_numbers[1:])} are EN"
        different = self.different(self.profile.bidi_class, self.unicode.bidi_class)
        signs, marks = different.pop(("L", "ON"), ()), different.pop(("NSM", "L"), ())
        nothing_else(different, "Bidi classes")
        yield f"{len(signs)} are ON in Unicode, and none is ET or CS: {code_points(signs)}."
        yield f"{code_points(marks)}, whose General_Category is Mn"

    def scripts_within(self, ranges):
        return self.scripts(point for point in self.here if is_in(ranges, point))

    def joining_types(self):
        """Unicode has more letters that join, and no others."""
        different = self.different(self.profile.joining_type, self.unicode.joining_type)
        letters = {point for kind in JOIN_ONLY_BY_UNICODE for point in different.pop(kind, ())} - {ZERO_WIDTH_JOINER}
        nothing_else(different, "joining types")
        if any(is_in([ARABIC_BLOCK], point) for point in letters):
            raise ValueError("a letter of the Arabic block joins only by Unicode")
        scripts = [script for script in self.scripts(letters) if script != "Arabic"]
        yield f"Between letters of {', '.join(scripts)} or Arabic's supplements it is refused here"

    def viramas(self):
        viramas = sorted(self.profile.viramas)
        more = [point for point in self.here - set(viramas) if self.unicode.is_virama(point)]
        yield f"{NUMBERS[len(viramas)]} code points are a virama: {code_points(viramas)}, " \
              f"those of {listed(self.scripts(viramas))}."
        if not set(KNOWN_WIDELY) <= set(self.scripts(more)):
            raise ValueError("one of the scripts that are named has no such virama")
        yield f"Unicode has {len(more)} more that may stand in a label (Canonical_Combining_Class 9): " \
              f"those of {listed(KNOWN_WIDELY)}"
        for script in self.scripts(viramas):
            if others := self.of_script(more, script):
                yield f"{code_points(others)} of {script}"


def nothing_else(different, what):
    """Refuses a kind of difference that the document doesn't speak of."""
    if different:
        raise ValueError(f"{what} that differ in a way that docs/PROFILE.md does not have: {dict(different)}")


def listed(words):
    *first, last = words
    return f"{', '.join(first)} and {last}" if first else last


def hexadecimal(point):
    return f"{point:04X}"


def extent(points):
    return f"U+{hexadecimal(min(points))} to {hexadecimal(max(points))}"


def each_range(ranges):
    """'U+FB1D to FDFF and U+FE70 to FEFF'."""
    return listed([f"U+{hexadecimal(first)} to {hexadecimal(last)}" for first, last in ranges])


def code_points(points):
    """'U+02B9, 02BA and 02C6 to 02CF': three or more in a row are told by the first and the last."""
    runs = []
    for point in points:
        if runs and runs[-1][-1] == point - 1:
            runs[-1].append(point)
        else:
            runs.append([point])
    spelled = [part for run in runs for part in
               ([f"{hexadecimal(run[0])} to {hexadecimal(run[-1])}"] if len(run) > 2 else map(hexadecimal, run))]
    return "U+" + listed(spelled)


def main():
    try:
        figures = Figures(Kit())
    except NoKit as reason:
        raise SystemExit(str(reason)) from None
    for statement in figures.statements():
        print(statement)


if __name__ == "__main__":
    main()
