"""The names that the two programs are asked about: random ones of all scripts, and those built for an edge.

All come from a fixed seed, and none has a line feed, a carriage return or a NUL, which no line of input can hold.
"""

import random
import unicodedata

from idn2_registry.unicode_data import CONTEXTJ, CONTEXTO, PVALID, properties

SEED = 5891
JOINERS = "\u200c\u200d"
CONTEXT_O = "\u00b7\u0375\u05f3\u05f4\u30fb\u0660\u0669\u06f0\u06f9"
NEIGHBOURS = "laα\u05d0\u0627\u30a2\u4e00\u304b"
NOT_IN_A_LINE = "\0\n\r"


class Points:
    """Lists of code points to draw from."""

    def __init__(self, classes, known):
        self.by_script = {}
        for first, last, script in properties("Scripts.txt"):
            valid = [chr(point) for point in range(first, last + 1) if classes.by_the_standard(point) == PVALID]
            self.by_script.setdefault(script, []).extend(valid)
        self.by_script = {script: letters for script, letters in self.by_script.items() if letters}
        assigned = sorted(classes.category)
        self.any = [chr(point) for point in assigned if not 0xD800 <= point <= 0xDFFF]
        self.unassigned = ["\u0378", "\u05ff", "\u0b5a", "\ufdd0", "\uffff", "\U00050000", "\U0010ffff", "\ue000"]
        self.changed = [chr(point) for point in assigned if point in classes.never]
        self.viramas = sorted(chr(point) for point in known.viramas)
        self.by_joining_type = by_value(known.joining_types, "DRLTC")
        valid_bidi = {point: value for point, value in known.bidi_classes.items()
                      if classes.by_the_standard(point) in (PVALID, CONTEXTJ, CONTEXTO)}
        self.by_bidi_class = by_value(valid_bidi, ("L", "R", "AL", "AN", "EN", "ES", "CS", "ET", "ON", "BN", "NSM"))


def by_value(values, wanted):
    points = {name: [] for name in wanted}
    for point, value in values.items():
        if value in points:
            points[value].append(chr(point))
    return {name: sorted(found) for name, found in points.items() if found}


def script_label(chance, points):
    letters = points.by_script[chance.choice(sorted(points.by_script))]
    # A window of the script, so that the letters of a large one still meet each other.
    start = chance.randrange(len(letters))
    label = chance.choices(letters[start : start + 40], k=chance.randint(1, 12))
    if chance.random() < 0.2:
        label.insert(chance.randrange(len(label) + 1), chance.choice("-09az"))
    return "".join(label)


def any_label(chance, points):
    """A few code points of any kind between letters."""
    label = chance.choices(points.any, k=chance.randint(1, 3)) + chance.choices("abα\u05d0中", k=chance.randint(0, 3))
    chance.shuffle(label)
    return "".join(label)


def joiner_label(chance, points):
    """A joiner after a virama, or between letters and transparent marks of some joining types."""
    if chance.random() < 0.4:
        before = chance.choice("\u0915\u0b95\u0f40a") + chance.choice(points.viramas)
        return before + chance.choice(JOINERS) + chance.choice(("", "\u0915", "a"))
    draw = lambda names: chance.choice(points.by_joining_type[chance.choice(names)])
    marks = lambda: "".join(draw("T") for _ in range(chance.choice((0, 0, 1, 2))))
    return draw("DDDRLC") + marks() + "\u200c" + marks() + draw("DDRRLC")


def bidi_label(chance, points):
    draw = lambda: chance.choice(points.by_bidi_class[chance.choice(sorted(points.by_bidi_class))])
    label = [draw() for _ in range(chance.randint(0, 5))]
    label.insert(chance.choice((0, len(label))), chance.choice(points.by_bidi_class[chance.choice(("R", "AL", "L"))]))
    return "".join(label)


def context_label(chance, points):
    label = [chance.choice(CONTEXT_O), *chance.choices(CONTEXT_O + NEIGHBOURS, k=chance.randint(0, 4))]
    chance.shuffle(label)
    return "".join(label)


def mapped_label(chance, points):
    label = [chance.choice(points.changed), *chance.choices("abß中", k=chance.randint(0, 3))]
    chance.shuffle(label)
    return "".join(label)


def unassigned_label(chance, points):
    label = [chance.choice(points.unassigned), *chance.choices("abα", k=chance.randint(0, 2))]
    chance.shuffle(label)
    return "".join(label)


MAKERS = (script_label, script_label, script_label, any_label, joiner_label, bidi_label, context_label, mapped_label,
          unassigned_label)


def a_label(label):
    return "xn--" + label.encode("punycode").decode("ascii")


def coded_label(chance, points):
    """The A-label of some label, or a text that is none for some reason."""
    maker = chance.choice(MAKERS) if chance.random() < 0.4 else script_label
    label = maker(chance, points)
    coded = a_label(label if chance.random() < 0.2 else unicodedata.normalize("NFC", label.lower()))
    damage = chance.random()
    if damage < 0.05:
        return coded.upper()
    if damage < 0.15:
        place = chance.randrange(4, len(coded) + 1)
        return coded[:place] + chance.choice("-0az9") + coded[place + chance.randint(0, 1):]
    return coded + "-" if damage < 0.17 else coded


HYPHENS = ["-", "--", "---", "-a", "a-", "a-b", "a--b", "ab--c", "ab--", "abc--d", "--ab", "-é", "é-", "é--b", "éb--c",
           "ab--é", "abc--é", "xn-a", "xm--a", "-א", "א-", "א-ב", "אב--ג"]
CODED = ["xn--", "xn---", "xn----", "xn--a", "xn--a-", "xn--abc", "xn--abc-", "xn--fa-hia", "XN--FA-HIA", "xN--Fa-hIa",
         "xn--zca", "xn--ls8h", "xn--fiqs8s", "xn--4dbc", "xn--mgb8ia", "xn--9999999999", "xn--99999999", "xn--é",
         "xn--fa-hiá", "xn--ab--c-6xd", "xn--xn--a-abc", "xn--strae-oqa", "xn--q-xbb", "xn--0ca", "xn--a-ecp"]
DOTS = ["", ".", "..", "a.", ".a", "a..b", "a.b.", "ß.", "a\u3002b", "a\uff0eb", "a\uff61b", "\u3002"]
OTHERS = ["Faß", "FASS", "ẞ", "a_b", "a b", "a/b", "ab.", "≠", "a≠b", "①", "⒈", "ﬀ", "ａ", "\u0130", "I\u0307",
          "a\u0301", "\u0301a", "\u00ad", "a\u00adb", "\u2f868", "\U0002f868", "💩", "♥", "a\u20e3", "\u1160", "\u3164"]


def lengths():
    """Labels about 63 octets long, and names about 253 octets long."""
    counts = (15, 16, 17, 18, 54, 55, 56, 57, 58, 62, 63, 64)
    labels = [letter * count for letter in "aß中\U00020000" for count in counts]
    labels += ["a" * count + "ß" for count in range(52, 60)] + [a_label("a" * count + "ß") for count in range(52, 60)]
    names = []
    for last in (59, 60, 61, 62, 63):
        name = ".".join(["a" * 63, "b" * 63, "c" * 63, "d" * last])
        names += [name, name + ".", "ß" + name[1:], name[:-1] + "ß"]
    return labels + names


def labels(points, count):
    """Labels for registration."""
    chance = random.Random(f"{SEED} labels")
    found = HYPHENS + CODED + DOTS + OTHERS + lengths()
    found += [chance.choice(MAKERS)(chance, points) for _ in range(count)]
    found += [coded_label(chance, points) for _ in range(count // 4)]
    return kept(found)


def names(points, count):
    """Names for lookup."""
    chance = random.Random(f"{SEED} names")
    found = HYPHENS + CODED + DOTS + OTHERS + lengths()
    for _ in range(count):
        label = chance.choice((*MAKERS, coded_label))(chance, points)
        label = label.upper() if chance.random() < 0.2 else label
        found.append(label + chance.choice(("", "", ".com", ".de.", ".0a", ".\u05d0", ".中国", "." + label[:2])))
    return kept(found)


def coded_names(points, count):
    """Names for decoding."""
    chance = random.Random(f"{SEED} coded names")
    found = HYPHENS + CODED + DOTS + OTHERS + lengths()
    for _ in range(count):
        parts = [coded_label(chance, points), chance.choice(("", "com", "Com", "中国", coded_label(chance, points)))]
        found.append(".".join(part for part in parts if part))
    return kept(found)


def every_code_point():
    """A label of the letter a and the code point, for each that a line can hold."""
    every = (chr(point) for point in range(0x80, 0x110000) if not 0xD800 <= point <= 0xDFFF)
    return ["a" + letter for letter in every]


def kept(found):
    return [name for name in dict.fromkeys(found) if not any(letter in name for letter in NOT_IN_A_LINE)]
