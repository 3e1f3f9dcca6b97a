"""Where a line of a table has its fault, in the reference implementation, from docs/idn2.1 and docs/NOTATION.md alone.

`of_fault` gives what the message of a faulty line goes on with where causes are told, or None. A lexeme can't stand where it is if
no line of the version begins with the lexemes up to it: whether one does is tried out by what may come after."""

import bisect
import itertools
import re

from idn2_registry.notation.forms import form_of
from idn2_registry.notation.patterns import NoForm
from idn2_registry.notation.ruleset import DISPOSITIONS

SYNTAX, SAME_SOURCE, SAME_VARIANT, BAD_CLASS, LIMIT, NO_SUCH_NAME, SAME_NAME = range(30, 37)
LINE_LIMITS = {1: 1024, 2: 1024, 3: 8192}

LEXEME = re.compile(rb"[-|:!,/()?*^$]|\.+|[^ \t.|:!,/()?*^$-]+")
POINT = re.compile(rb"(?:[Uu]\+)?([0-9A-Fa-f]{4,6})")
SEQUENCE = "P(?:-P)*"
# The forms of tables over the kinds of lexemes: P for a code point, R for '..'. Those of a ruleset are in notation/forms.py.
FORMS = {
    1: re.compile(rf"{SEQUENCE}(?:\|{SEQUENCE}(?::{SEQUENCE})*)?"),
    2: re.compile(rf"PRP|{SEQUENCE}(?:\|!?{SEQUENCE}(?::!?{SEQUENCE})*)?"),
}
# What completes each beginning of a form: nothing, a code point, the greatest one; of a ruleset a name that no line has, too,
# and of a definition a keyword, a disposition, what stands after its name.
ENDS = [[], [b"0061"], [b"10FFFF"]]
NEW_NAME = b"n" * 32
RULESET_ENDS = [*ENDS, [NEW_NAME], [b"%type", NEW_NAME], [b"valid"], [NEW_NAME, b"0061"], [NEW_NAME, b"_"]]
# A name comes after each of these.
BEFORE_NAMES = (b"as", b"when", b"unless")
NAME = re.compile(rb"[A-Za-z][A-Za-z0-9_]{0,31}")
# U+FEFF at the head of a text (RFC 3629, section 6).
BYTE_ORDER_MARK = b"\xEF\xBB\xBF"
MARK = "a byte order mark at byte 1"
# What has a pattern, of which some have a name before it; and how many lines there may be of a kind, by their keywords.
NAMED_PATTERNS, DEMANDS = (b"%rule", b"%whole"), (b"%never", b"%always")
PATTERNS = NAMED_PATTERNS + DEMANDS
MOST = {(b"%type",): 57, (b"%set",): 256, (*PATTERNS, b"%action"): 256}
PREDEFINED = {name.encode() for name in DISPOSITIONS}
# How many atoms all patterns may have together.
MOST_ATOMS = 4096


def of_fault(text, line_number, number, may_stand):
    """`may_stand` tells of a code point whether a table may hold it."""
    if is_mark(text, line_number, number):
        return MARK
    lines = text.split(b"\n")
    line = lines[line_number - 1]
    head = lines[0].removesuffix(b"\r")
    version = {b"%version 2": 2, b"%version 3": 3}.get(head, 1)
    return place_in(line, version, number, may_stand, lines[: line_number - 1])


def is_mark(text, line_number, number):
    return (line_number, number) == (1, SYNTAX) and text.startswith(BYTE_ORDER_MARK)


def of_ruleset(text, line_number, number, may_stand):
    """The same of a text that is read as a ruleset."""
    if text.split(b"\n")[0].removesuffix(b"\r") != b"%version 3":
        return MARK if is_mark(text, line_number, number) else None
    return of_fault(text, line_number, number, may_stand)


def of_table(text, line_number, number, may_stand):
    """The same of one that is read as a table, which no text of version 3 is."""
    if text.split(b"\n")[0].removesuffix(b"\r") == b"%version 3":
        return place_in(b"%version 3", 1, number, may_stand)
    return of_fault(text, line_number, number, may_stand)


def place_in(line, version, number, may_stand, before=()):
    if len(line) > LINE_LIMITS[version]:
        return f"the line goes on at byte {LINE_LIMITS[version] + 1}"
    line = line.removesuffix(b"\r")
    found = [(match.start() + 1, match.group()) for match in LEXEME.finditer(line)]
    if version == 3 and line.lstrip(b" \t").startswith(b"%"):
        return definition_place(line, found, number, may_stand, [lexemes_of(each) for each in before])
    lexemes = [lexeme for _, lexeme in found]
    if number == SYNTAX:
        return wrong_place(line, found, version)
    if not is_whole(lexemes, version):
        return None
    if number == NO_SUCH_NAME:
        return unknown_name(found, [lexemes_of(each) for each in before])
    look = {BAD_CLASS: bad_class, SAME_VARIANT: same_variant, SAME_SOURCE: same_source, LIMIT: past_limit}[number]
    return look(found, may_stand)


def point_of(lexeme):
    match = POINT.fullmatch(lexeme)
    point = int(match.group(1), 16) if match else 0x110000
    return None if point > 0x10FFFF or 0xD800 <= point <= 0xDFFF else point


def kind_of(lexeme):
    if point_of(lexeme) is not None:
        return "P"
    return "R" if lexeme == b".." else lexeme.decode() if lexeme in (b"!", b"-", b"|", b":") else "?"


def is_whole(lexemes, version):
    """Whether the lexemes are a line of the version."""
    if version == 3:
        return form_in(lexemes) is not None
    kinds = "".join(map(kind_of, lexemes))
    if not FORMS[version].fullmatch(kinds):
        return False
    points = [point_of(lexeme) for lexeme in lexemes if kind_of(lexeme) == "P"]
    return "R" not in kinds or points[0] <= points[1]


def form_in(lexemes):
    """What the lexemes say, if they are a line of a ruleset."""
    try:
        return form_of(b" ".join(lexemes))
    except NoForm:
        return None


def begins_a_form(lexemes, version):
    if version < 3:
        return any(is_whole(lexemes + end, version) for end in ENDS)
    open_groups = [b")"] * max(lexemes.count(b"(") - lexemes.count(b")"), 0)
    closings = [[*item, *open_groups, *place] for item in ([], [b"."]) for place in ([], [b"_"])]
    return any(is_whole(lexemes + end, version) for end in RULESET_ENDS + closings)


def quoted(byte, lexeme):
    is_quoted = len(lexeme) <= 32 and all(0x21 <= each <= 0x7E for each in lexeme)
    return f"'{lexeme.decode()}' at byte {byte}" if is_quoted else f"word at byte {byte}"


def wrong_place(line, found, version):
    """The first lexeme that no line goes on with. A beginning of a line has beginnings only."""
    lexemes = [lexeme for _, lexeme in found]
    wrong = lambda count: not begins_a_form(lexemes[:count], version)
    count = bisect.bisect_left(range(1, len(found) + 1), True, key=wrong)
    return f"the line ends at byte {len(line) + 1}" if count == len(found) else quoted(*found[count])


def lexemes_of(line):
    return LEXEME.findall(line.removesuffix(b"\r"))


def definition_place(line, found, number, may_stand, before):
    """`before` has the lexemes of each line before."""
    lexemes = [lexeme for _, lexeme in found]
    if (number == SYNTAX) == is_whole(lexemes, 3):
        return None
    if number == SYNTAX:
        return wrong_place(line, found, 3)
    if number == SAME_NAME:
        return quoted(*found[1])
    if number == NO_SUCH_NAME:
        return unknown_name_of_action(found, before) if lexemes[0] == b"%action" else unknown_set(found, before)
    if number == BAD_CLASS:
        points = [(byte, point_of(lexeme)) for byte, lexeme in found[1 if lexemes[0] in DEMANDS else 2:]]
        return next(f"U+{point:04X} at byte {byte}" for byte, point in points if point is not None and not may_stand(point))
    [(kind, most)] = [(kind, most) for kind, most in MOST.items() if lexemes[0] in kind]
    if sum(each[0] in kind for each in before if each) >= most:
        return quoted(*found[0])
    return place_past_limit(found, before) if lexemes[0] in PATTERNS else None


def place_past_limit(found, before):
    """The lexeme with which a pattern goes past a limit, if one does."""
    left = MOST_ATOMS - sum(atoms_in(pattern_of(each)) for each in before if each[:1] and each[0] in PATTERNS)
    pattern = pattern_of([lexeme for _, lexeme in found])
    past = bisect.bisect_left(range(len(pattern)), True, key=lambda last: is_past(pattern[: last + 1], left))
    return None if past == len(pattern) else quoted(*found[len(found) - len(pattern) + past])


def defined(before, *keywords):
    """What the lines before define by these keywords."""
    return {each[1] for each in before if each and each[0] in keywords}


def unknown_set(found, before):
    known = defined(before, b"%set")
    return next(quoted(byte, lexeme) for byte, lexeme in found
                if lexeme[:1] == b"@" and NAME.fullmatch(lexeme[1:]) and lexeme[1:] not in known)


def unknown_name_of_action(found, before):
    """An action's rule comes before its types."""
    rules, types = ([found[3]], found[5::2]) if found[2][1] in (b"when", b"unless") else ([], found[3::2])
    return first_unknown(rules, defined(before, b"%whole")) or first_unknown(types, PREDEFINED | defined(before, b"%type"))


def first_unknown(names, known):
    return next((quoted(byte, name) for byte, name in names if name not in known), None)


def pattern_of(lexemes):
    return lexemes[2 if lexemes[0] in NAMED_PATTERNS else 1:]


def atoms_in(lexemes):
    return sum(pattern_kind(lexeme) in ("A", "(") or lexeme in (b"^", b"$") for lexeme in lexemes)


def is_past(lexemes, left):
    """Whether the beginning of a pattern, which may have so many atoms, goes past a limit. More lexemes never take it back."""
    depths = itertools.accumulate((lexeme == b"(") - (lexeme == b")") for lexeme in lexemes)
    return max(depths) > 8 or stars_within_each_other(lexemes) > 2 or atoms_in(lexemes) > left


def stars_within_each_other(lexemes):
    """Reduces atoms with '*', and groups, to the depth of '*' in them, innermost first."""
    kinds = "".join("0" if kind == "A" else kind for kind in map(pattern_kind, lexemes))
    while True:
        reduced = re.sub(r"(\d)\*", lambda match: str(int(match[1]) + 1), kinds)
        reduced = re.sub(r"\(([^()*]*)\)", lambda match: max(re.findall(r"\d", match[1]), default="0"), reduced)
        if reduced == kinds:
            return max(map(int, re.findall(r"\d", kinds)), default=0)
        kinds = reduced


def pattern_kind(lexeme):
    """A for an atom, E for '^', '$' and '_'."""
    if point_of(lexeme) is not None or lexeme == b"." or lexeme[:1] == b"@" and NAME.fullmatch(lexeme[1:]):
        return "A"
    if lexeme in (b"^", b"$", b"_"):
        return "E"
    return lexeme.decode() if lexeme in (b"(", b")", b"?", b"*", b"/") else "x"


def points_of(found):
    """For each sequence its code points, each with the byte at which it stands. A name may look like a code point."""
    sequences = [[]]
    for (_, before), (byte, lexeme) in zip([(0, b""), *found], found):
        if lexeme in (b"|", b":"):
            sequences.append([])
        elif before not in BEFORE_NAMES and point_of(lexeme) is not None:
            sequences[-1].append((byte, point_of(lexeme)))
    return sequences


def bad_class(found, may_stand):
    sequences = points_of(found)
    if any(lexeme == b".." for _, lexeme in found):
        (byte, first), (_, last) = sequences[0]
        bad = next(point for point in range(first, last + 1) if not may_stand(point))
        return f"U+{bad:04X} in the range at byte {byte}"
    return next(f"U+{point:04X} at byte {byte}" for sequence in sequences for byte, point in sequence if not may_stand(point))


def same_variant(found, may_stand):
    """The first variant that is equal to the source, or to one before it, unless both have conditions, and other ones."""
    sequences = points_of(found)
    source, *variants = form_in([lexeme for _, lexeme in found]).entry.mapped()
    for number, variant in enumerate(variants):
        equal = [each.condition for each in variants[:number] if each.points == variant.points]
        if variant.points == source.points or (equal and (None in equal or variant.condition in (None, *equal))):
            return f"variant at byte {sequences[number + 1][0][0]}"
    return None


def same_source(found, may_stand):
    return f"source at byte {points_of(found)[0][0][0]}"


def unknown_name(found, before):
    """The first name of an entry or a range that no earlier line defines, as a type or as a rule."""
    types, rules = PREDEFINED | defined(before, b"%type"), defined(before, b"%rule", b"%whole")
    rest = iter(found)
    for _, lexeme in rest:
        if lexeme in BEFORE_NAMES:
            byte, name = next(rest)
            if name not in (types if lexeme == b"as" else rules):
                return quoted(byte, name)
    raise LookupError(found)


def past_limit(found, may_stand):
    for number, sequence in enumerate(points_of(found)):
        for index, (byte, point) in enumerate(sequence):
            if index == 8:
                return f"U+{point:04X} at byte {byte}: code point 9"
            if number == 17:
                return f"U+{point:04X} at byte {byte}: variant 17"
    return None
