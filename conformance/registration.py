"""Registration and decoding in the reference implementation, from RFC 5891, 5892 and 5893, over this project's range lists or, as
with `--standard`, over Unicode's properties alone.

It tells which of libidn2's answers ours may differ from, and which number a refused label must have. Its Unicode
data are those of unicode-data and of Python, which may be older than the program's: `knows` tells whether all code
points of a label are in both, and have kept their properties since.
"""

import unicodedata

import rules
from idn2_registry.unicode_data import DISALLOWED, UNASSIGNED, properties

# Code points whose General_Category or Bidi_Class changed between Unicode 15 and 18, from nonspacing mark.
CHANGED = "\u1b3a\u1b3c\u1b42\U0001171e"

EMPTY, IS_DISALLOWED, IS_UNASSIGNED, NOT_NFC, HYPHEN, LEADING_MARK = 3, 10, 11, 12, 13, 14
CONTEXT_J, CONTEXT_O, BIDI, LABEL_TOO_LONG, BAD_A_LABEL = 15, 16, 17, 18, 19
MOST_OCTETS = 63


class Refused(Exception):
    def __init__(self, number):
        super().__init__(number)
        self.number = number


def a_label(label):
    return label if label.isascii() else "xn--" + label.encode("punycode").decode("ascii")


def points_of(label):
    return [ord(letter) for letter in label]


def lowered(text):
    """The text with its ASCII capitals lowered, and no others."""
    return "".join(letter.lower() if letter < "\u0080" else letter for letter in text)


class Registration:
    """`classes` has the classes of code points, and `known` the properties that rules ask for (rules.py)."""

    def __init__(self, classes, known):
        self.classes, self.known, self.scripts = classes, known, {}
        for first, last, script in properties("Scripts.txt", "Greek", "Hebrew", "Hiragana", "Katakana", "Han"):
            self.scripts.update(dict.fromkeys(range(first, last + 1), script))

    def knows(self, text):
        return all(self.knows_letter(letter) for letter in text)

    def knows_letter(self, letter):
        is_assigned = self.classes.of(ord(letter)) != UNASSIGNED and unicodedata.category(letter) != "Cn"
        return (is_assigned or ord(letter) in self.classes.noncharacters) and letter not in CHANGED

    def register(self, label):
        """(A-label, None) or (None, number)."""
        try:
            if label.startswith("xn--"):
                return a_label(self.decoded(label)), None
            self.refuse_fault(label)
            return a_label(label), None
        except Refused as refused:
            return None, refused.number

    def decode(self, name):
        """(text, None) or (None, number)."""
        try:
            labels = [self.decoded(lowered(label)) if lowered(label[:4]) == "xn--" else label
                      for label in name.split(".")]
            if self.known.ASKS_WHOLE_NAMES and rules.fails_as_a_name([points_of(label) for label in labels], self.known):
                raise Refused(BIDI)
            return (".".join(labels), None) if name else (None, EMPTY)
        except Refused as refused:
            return None, refused.number

    def decoded(self, label):
        """RFC 5891, section 4.2: what an A-label decodes to is registrable, and has that A-label."""
        coded = label[4:]
        # A delimiter with no code point before it is no digit (RFC 3492, section 6.2).
        if not coded or not coded.isascii() or coded.rfind("-") == 0:
            raise Refused(BAD_A_LABEL)
        try:
            text = coded.encode("ascii").decode("punycode")
            text.encode()
        except (UnicodeError, ValueError, OverflowError):
            raise Refused(BAD_A_LABEL) from None
        self.refuse_fault(text)
        if a_label(text) != label:
            raise Refused(BAD_A_LABEL)
        return text

    def refuse_fault(self, label):
        number = self.first_fault(label)
        if number is not None:
            raise Refused(number)

    def first_fault(self, label):
        points = points_of(label)
        for point in points:
            if self.classes.of(point) == DISALLOWED:
                return IS_DISALLOWED
            if self.classes.of(point) == UNASSIGNED:
                return IS_UNASSIGNED
        faults = {
            EMPTY: not label,
            NOT_NFC: unicodedata.normalize("NFC", label) != label,
            HYPHEN: label[:1] == "-" or label[-1:] == "-" or label[2:4] == "--",
            LEADING_MARK: self.classes.category.get(points[0] if points else 0) in ("Mn", "Mc", "Me"),
            CONTEXT_J: not rules.passes_context_j(points, self.known),
            CONTEXT_O: not self.passes_context_o(points),
            BIDI: rules.is_right_to_left(points, self.known) and not rules.passes_bidi_rule(points, self.known),
            LABEL_TOO_LONG: len(label) > MOST_OCTETS or len(a_label(label)) > MOST_OCTETS,
        }
        return next((number for number, is_there in faults.items() if is_there), None)

    def is_dead_prefix(self, points):
        """A test of the hyphens, of a leading mark or of the Bidi rule has failed, whatever follows."""
        classes = {self.known.bidi_class(point) for point in points}
        begins_right_to_left = self.known.bidi_class(points[0]) in ("R", "AL")
        has = lambda first, last: any(first <= point <= last for point in points)
        return (
            points[0] == 0x2D or points[2:4] == [0x2D, 0x2D] or self.classes.category.get(points[0]) in ("Mn", "Mc", "Me")
            or not begins_right_to_left and bool(classes & rules.RIGHT_TO_LEFT)
            or begins_right_to_left and (not classes <= rules.NEUTRAL | rules.RIGHT_TO_LEFT or {"EN", "AN"} <= classes)
            or has(0x0660, 0x0669) and has(0x06F0, 0x06F9)
        )

    def passes_context_o(self, points):
        """RFC 5892, appendices A.3 to A.9."""
        return all(self.passes_context_o_at(points, place) for place in range(len(points)))

    def passes_context_o_at(self, points, place):
        point = points[place]
        before = points[place - 1] if place > 0 else None
        after = points[place + 1] if place + 1 < len(points) else None
        has = lambda first, last: any(first <= each <= last for each in points)
        if point == 0x00B7:
            return before == after == 0x6C
        if point == 0x0375:
            return self.scripts.get(after) == "Greek"
        if point in (0x05F3, 0x05F4):
            return self.scripts.get(before) == "Hebrew"
        if point == 0x30FB:
            return bool({self.scripts.get(each) for each in points} & {"Hiragana", "Katakana", "Han"})
        if 0x0660 <= point <= 0x0669:
            return not has(0x06F0, 0x06F9)
        return not (0x06F0 <= point <= 0x06F9 and has(0x0660, 0x0669))
