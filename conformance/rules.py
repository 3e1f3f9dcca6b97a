"""The context rules of RFC 5892, appendix A, and the Bidi rule of RFC 5893, section 2, over properties handed in.

Asked once of this project's range lists and once of Unicode's own properties, they tell whether the lists are the
reason why two programs answer differently.
"""

import functools
import unicodedata

from idn2_registry.unicode_data import is_in, lines_of, properties

ZERO_WIDTH_NON_JOINER, ZERO_WIDTH_JOINER = 0x200C, 0x200D
# Bidi classes of right-to-left labels alone, and of labels of both directions.
RIGHT_TO_LEFT, NEUTRAL = {"R", "AL", "AN"}, {"EN", "ES", "CS", "ET", "ON", "BN", "NSM"}


class ProfileProperties:
    """This project's range lists, which hold as they stand."""

    # Whether a name that is decoded has to pass the Bidi rule as a whole (RFC 5893, section 2).
    ASKS_WHOLE_NAMES = False
    VIRAMAS = {0x094D, 0x09CD, 0x0A4D, 0x0ACD, 0x0B4D, 0x0BCD, 0x0C4D, 0x0CCD, 0x0D4D, 0x0DCA}
    RIGHT_JOINING = (
        (0x0622, 0x0625), (0x0627, 0x0627), (0x0629, 0x0629), (0x062F, 0x0632), (0x0648, 0x0648), (0x0671, 0x0673),
        (0x0688, 0x0699), (0x06C0, 0x06C0), (0x06C3, 0x06CB), (0x06CD, 0x06CD), (0x06CF, 0x06CF), (0x06D2, 0x06D3),
        (0x06D5, 0x06D5), (0x06EE, 0x06EF),
    )
    DUAL_JOINING = (
        (0x0620, 0x0620), (0x0626, 0x0626), (0x0628, 0x0628), (0x062A, 0x062E), (0x0633, 0x063F), (0x0641, 0x0647),
        (0x0649, 0x064A), (0x066E, 0x066F), (0x0679, 0x0687), (0x069A, 0x06BF), (0x06C1, 0x06C2), (0x06CC, 0x06CC),
        (0x06CE, 0x06CE), (0x06D0, 0x06D1), (0x06FA, 0x06FC), (0x06FF, 0x06FF),
    )

    def is_virama(self, point):
        return point in self.VIRAMAS

    def joining_type(self, point):
        if is_in(self.RIGHT_JOINING, point):
            return "R"
        if is_in(self.DUAL_JOINING, point):
            return "D"
        return "T" if unicodedata.category(chr(point)) == "Mn" else "U"

    @functools.cache
    def bidi_class(self, point):
        if point in (ZERO_WIDTH_NON_JOINER, ZERO_WIDTH_JOINER):
            return "BN"
        if point == 0x2D:
            return "ES"
        if is_in(((0x30, 0x39), (0x06F0, 0x06F9)), point):
            return "EN"
        if is_in(((0x0660, 0x0669),), point):
            return "AN"
        if unicodedata.category(chr(point)) in ("Mn", "Me"):
            return "NSM"
        if is_in(((0x0590, 0x05FF), (0x07C0, 0x085F)), point):
            return "R"
        return "AL" if is_in(((0x0600, 0x07BF), (0x0860, 0x08FF)), point) else "L"


class UnicodeProperties:
    """Unicode's properties of the same names, which `--standard` asks for."""

    ASKS_WHOLE_NAMES = True

    def __init__(self):
        self.viramas = set()
        for line in lines_of("UnicodeData.txt"):
            fields = line.split(";")
            if fields[3] == "9":
                self.viramas.add(int(fields[0], 16))
        self.joining_types = self.values_of("extracted/DerivedJoiningType.txt")
        self.bidi_classes = self.values_of("extracted/DerivedBidiClass.txt")

    @staticmethod
    def values_of(file):
        return {point: value for first, last, value in properties(file) for point in range(first, last + 1)}

    def is_virama(self, point):
        return point in self.viramas

    def joining_type(self, point):
        return self.joining_types.get(point, "U")

    def bidi_class(self, point):
        return self.bidi_classes.get(point, "L")


def passes_context_j(label, known):
    """RFC 5892, appendices A.1 and A.2."""
    for place, point in enumerate(label):
        if point in (ZERO_WIDTH_NON_JOINER, ZERO_WIDTH_JOINER):
            after_virama = place > 0 and known.is_virama(label[place - 1])
            joins = point == ZERO_WIDTH_NON_JOINER and stands_between_joining(label, place, known)
            if not after_virama and not joins:
                return False
    return True


def stands_between_joining(label, place, known):
    before = first_not_transparent(reversed(label[:place]), known)
    after = first_not_transparent(label[place + 1:], known)
    return before in ("L", "D") and after in ("R", "D")


def first_not_transparent(points, known):
    types = (known.joining_type(point) for point in points)
    return next((joining_type for joining_type in types if joining_type != "T"), None)


def is_right_to_left(label, known):
    return any(known.bidi_class(point) in RIGHT_TO_LEFT for point in label)


def passes_bidi_rule(label, known):
    """RFC 5893, section 2, of a label of a name in which the rule is asked."""
    classes = [known.bidi_class(point) for point in label]
    ending = [name for name in classes if name != "NSM"][-1:]
    if classes[:1] == ["L"]:
        return set(classes) <= NEUTRAL | {"L"} and ending[0] in ("L", "EN")
    if classes[:1] in (["R"], ["AL"]):
        is_mixed = "EN" in classes and "AN" in classes
        return set(classes) <= NEUTRAL | RIGHT_TO_LEFT and ending[0] in ("R", "AL", "EN", "AN") and not is_mixed
    return False


def fails_as_a_name(labels, known):
    """Which label is the first, counted from 1, that breaks the Bidi rule in a name with a right-to-left label, or None. Empty
    labels break nothing."""
    if not any(is_right_to_left(label, known) for label in labels):
        return None
    return next((number for number, label in enumerate(labels, 1) if label and not passes_bidi_rule(label, known)), None)
