"""Causes of refusals in the reference implementation, from docs/idn2.1 and the RFCs alone: what `--explain` tells after a message.

A cause is the text after the colon, or None where none is told. Places and labels are counted from 1 in texts.
"""

import functools
import unicodedata

from old_labels import MARK
from registration import (BAD_A_LABEL, BIDI, CONTEXT_J, CONTEXT_O, HYPHEN, IS_DISALLOWED, IS_UNASSIGNED, LABEL_TOO_LONG,
                          LEADING_MARK, MOST_OCTETS, NOT_NFC, Refused, a_label, lowered, points_of)
from idn2_registry.unicode_data import DISALLOWED, EXCEPTIONS, IGNORABLE_BLOCKS, OLD_HANGUL_JAMO, UNASSIGNED, is_in
from rules import NEUTRAL, RIGHT_TO_LEFT, fails_as_a_name, stands_between_joining

NOT_UTF8, LINE_TOO_LONG, OUT_OF_ORDER, FILE_TOO_LONG, INVALID, BAD_LENGTH, NOT_IN_TABLE, NOT_VALID = 1, 2, 4, 5, 20, 21, 40, 41
# RFC 1035, section 2.3.4, without the last full stop and the lengths of labels.
MOST_OCTETS_OF_A_NAME = 253
# The classes that the Bidi rule names.
NAMED = NEUTRAL | RIGHT_TO_LEFT | {"L"}
APPENDICES = {0x200C: 1, 0x200D: 2, 0xB7: 3, 0x375: 4, 0x5F3: 5, 0x5F4: 6, 0x30FB: 7}


def at(place, point):
    return f"U+{point:04X} at place {place + 1}"


def first(places, fails):
    return next((place for place in places if fails(place)), None)


class Causes:
    def __init__(self, registration, classes):
        self.registration, self.classes, self.known = registration, classes, registration.known

    @functools.cached_property
    def ignorable(self):
        of_data = self.classes.set_of("DerivedCoreProperties.txt", "Default_Ignorable_Code_Point")
        return of_data | self.classes.set_of("PropList.txt", "White_Space") | self.classes.noncharacters

    def of_body(self, mode, body, refusal, table=None):
        """The cause of the refusal of a line's bytes, or of 2 where it is too long, in a mode, with what its table says of labels."""
        if refusal == LINE_TOO_LONG:
            return "more than 1024 bytes"
        if refusal == NOT_UTF8:
            return self.of_bytes(body)
        text = body.decode()
        if mode == "register":
            return self.of_a_label(text, refusal) if text.startswith("xn--") else self.of_label(text, refusal)
        if mode == "decode":
            return self.of_name(text, refusal)
        label = text.partition("\t")[0] if mode == "jump" else text
        if refusal == NOT_VALID:
            return table.cause(label)
        return self.outside(label, table.entries) if refusal == NOT_IN_TABLE else self.of_u_label(label, refusal)

    def of_registered(self, bodies, number, refusal):
        """The cause of the refusal of a line of registered labels, by the bodies of all up to it."""
        if refusal != OUT_OF_ORDER:
            return self.of_body("variants", bodies[number - 1], refusal)
        before, label = (body.decode().removesuffix(MARK) for body in bodies[number - 2:number])
        place = first(range(len(label)), lambda place: before[place:place + 1] != label[place])
        return f"ends at place {len(label) + 1}" if place is None else at(place, ord(label[place]))

    @staticmethod
    def of_bytes(body):
        try:
            body.decode()
        except UnicodeDecodeError as fault:
            return f"byte 0x{body[fault.start]:02X} at byte {fault.start + 1}"
        return None

    def of_label(self, label, refusal):
        points = points_of(label)
        return {
            IS_DISALLOWED: self.barred, IS_UNASSIGNED: self.barred, NOT_NFC: self.changed, HYPHEN: self.hyphen,
            LEADING_MARK: lambda points: at(0, points[0]), CONTEXT_J: self.joiner, CONTEXT_O: self.other, BIDI: self.condition,
            LABEL_TOO_LONG: self.length,
        }.get(refusal, lambda points: None)(points)

    def barred(self, points):
        place = first(range(len(points)), lambda place: self.classes.of(points[place]) in (DISALLOWED, UNASSIGNED))
        return f"{at(place, points[place])}: {self.line(points[place])}"

    def line(self, point):
        """The first line of RFC 5892, section 3, that applies, after that of the profile."""
        letter = chr(point)
        stable = lambda text: unicodedata.normalize("NFKC", unicodedata.normalize("NFKC", text).casefold())
        lines = (
            ("outside the profile", is_in(self.classes.left_out, point)),
            ("RFC 5892 2.6 Exceptions", point in EXCEPTIONS[DISALLOWED]),
            ("RFC 5892 2.10 Unassigned", point not in self.classes.category and point not in self.classes.noncharacters),
            ("RFC 5892 2.2 Unstable", stable(letter) != letter),
            ("RFC 5892 2.3 IgnorableProperties", point in self.ignorable),
            ("RFC 5892 2.4 IgnorableBlocks", is_in(IGNORABLE_BLOCKS, point)),
            ("RFC 5892 2.9 OldHangulJamo", is_in(OLD_HANGUL_JAMO, point)),
            ("not RFC 5892 2.1 LetterDigits", True),
        )
        return next(name for name, applies in lines if applies)

    @staticmethod
    def changed(points):
        form = [ord(letter) for letter in unicodedata.normalize("NFC", "".join(map(chr, points)))]
        place = first(range(len(points)), lambda place: points[place:place + 1] != form[place:place + 1])
        return f"{at(place, points[place])}: " + (f"NFC has U+{form[place]:04X}" if place < len(form) else "NFC ends")

    @staticmethod
    def hyphen(points):
        if points[0] == 0x2D:
            return "place 1, the first"
        if points[2:4] == [0x2D, 0x2D]:
            return "place 3, with place 4"
        return f"place {len(points)}, the last"

    def joiner(self, points):
        def fails(place):
            after_virama = place > 0 and self.known.is_virama(points[place - 1])
            joins = points[place] == 0x200C and stands_between_joining(points, place, self.known)
            return points[place] in (0x200C, 0x200D) and not after_virama and not joins
        return self.against_appendix(points, first(range(len(points)), fails))

    def other(self, points):
        passes = self.registration.passes_context_o_at
        return self.against_appendix(points, first(range(len(points)), lambda place: not passes(points, place)))

    @staticmethod
    def against_appendix(points, place):
        point = points[place]
        appendix = APPENDICES.get(point, 8 if point < 0x06F0 else 9)
        return f"{at(place, point)}: RFC 5892 A.{appendix}"

    def condition(self, points):
        classes = [self.known.bidi_class(point) for point in points]
        number, place = self.broken(classes)
        told = classes[place] if classes[place] in NAMED else "-"
        return f"{at(place, points[place])} is {told}: RFC 5893 2, condition {number}"

    @staticmethod
    def broken(classes):
        """The first condition of RFC 5893, section 2, that is broken, and where. The sixth is the first only of a label
        that the rule is asked of because of another label of its name."""
        places = range(len(classes))
        last = max((place for place in places if classes[place] != "NSM"), default=0)
        if classes[0] == "L":
            place = first(places, lambda place: classes[place] not in NEUTRAL | {"L"})
            return (6, last) if place is None else (5, place)
        if classes[0] not in ("R", "AL"):
            return 1, 0
        place = first(places, lambda place: classes[place] not in NEUTRAL | RIGHT_TO_LEFT)
        if place is not None:
            return 2, place
        if classes[last] not in ("R", "AL", "EN", "AN"):
            return 3, last
        return 4, first(places, lambda place: {"EN", "AN"} <= set(classes[:place + 1]))

    @staticmethod
    def length(points):
        if len(points) > MOST_OCTETS:
            return f"{len(points)} code points"
        return f"A-label of {len(a_label(''.join(map(chr, points))))} octets"

    def of_u_label(self, label, refusal):
        """Of a label where a U-label is wanted: what begins with `xn--` is told by what it stands for (RFC 5890, section 2.3.2.1)."""
        cause = self.of_label(label, refusal)
        if refusal != HYPHEN or not label.startswith("xn--"):
            return cause
        try:
            return f"{cause}: an A-label of '{self.registration.decoded(label)}'"
        except Refused:
            return f"{cause}: not RFC 5890 2.3.2.1 A-label"

    def of_a_label(self, label, refusal):
        """Of what begins with `xn--`, in lower case."""
        code = label[4:]
        if refusal == BAD_A_LABEL and not code:
            return "nothing after xn--"
        if refusal == BAD_A_LABEL and not code.isascii():
            place = first(range(len(label)), lambda place: not label[place].isascii())
            return f"{at(place, ord(label[place]))}: not ASCII"
        decoded = self.decoded(code)
        if decoded is None:
            return "not RFC 3492 6.2 Punycode"
        if refusal == BAD_A_LABEL:
            return f"the A-label is {a_label(decoded)}"
        cause = self.of_label(decoded, refusal)
        return None if cause is None else f"decoded: {cause}"

    @staticmethod
    def decoded(code):
        """What the code stands for, if it is Punycode. A delimiter with no code point before it is no digit."""
        if code.rfind("-") == 0:
            return None
        try:
            text = code.encode("ascii").decode("punycode")
            text.encode()
            return text
        except (UnicodeError, ValueError, OverflowError):
            return None

    def of_name(self, name, refusal):
        for number, label in enumerate(name.split("."), 1):
            lower = lowered(label)
            if not lower.startswith("xn--"):
                continue
            try:
                self.registration.decoded(lower)
            except Refused:
                cause = self.of_a_label(lower, refusal)
                separator = ", " if cause is not None and cause.startswith("decoded: ") else ": "
                return None if cause is None else f"label {number}{separator}{cause}"
        return self.of_whole_name([lowered(label) for label in name.split(".")]) if refusal == BIDI else None

    def of_whole_name(self, labels):
        """Of a name that breaks the Bidi rule although each of its A-labels may be registered."""
        decoded = [self.decoded(label[4:]) if label.startswith("xn--") else label for label in labels]
        number = fails_as_a_name([points_of(label) for label in decoded], self.known)
        separator = ", decoded: " if labels[number - 1].startswith("xn--") else ": "
        return f"label {number}{separator}{self.condition(points_of(decoded[number - 1]))}"

    @staticmethod
    def of_length(query):
        """Of a name as a query has it: its first label of a wrong length, else its own."""
        labels = query.removesuffix(".").split(".")
        number = first(range(len(labels)), lambda number: not 1 <= len(labels[number]) <= MOST_OCTETS)
        if number is not None:
            return f"label {number + 1}: {len(labels[number])} octets"
        octets = len(".".join(labels))
        return f"name of {octets} octets" if octets > MOST_OCTETS_OF_A_NAME else None

    @staticmethod
    def outside(label, sources):
        """The letter after the longest beginning that can be cut into sources."""
        reached = {0}
        for start in range(len(label)):
            if start in reached:
                reached |= {start + len(source) for source in sources if label.startswith(source, start)}
        place = max(reached)
        return at(place, ord(label[place]))
