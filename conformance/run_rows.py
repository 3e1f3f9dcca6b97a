"""Worked rows of whole runs: labels, names, lines, listings, tables and rulesets, and what a run must print, worked out by hand
from the standards. The file of the table is `t`."""

import string

SHARP_S = "0061\n0065\n0072\n0073\n0074\n0073-0073|00DF\n00DF|0073-0073\n"
DOUBLED = "0061|0061-0061\n"
HYPHENS = "0061|002D\n"
CHINA = "4E2D\n56FD|570B\n570B|56FD\n"
# Vowel signs follow a consonant, with or without a nukta.
SIGNS = "%version 3\n%set C 0915..0939\n%rule sign @C 093C? _\n0915..0939\n093C when sign\n093E..0940 when sign\n"
# Digits of one kind, those of the other kind being blocked variants.
DIGITS = ("%version 3\n%never (0030 / 0031) .* (0966 / 0967) / (0966 / 0967) .* (0030 / 0031)\n"
          "0030|!0966\n0031|!0967\n0966|!0030\n0967|!0031\n")
# An out-of-repertoire variant, and a letter that only ends a label.
ENDS = "%version 3\n%rule end _ $\n0061|!0430\n0062|0063 when end\n0063|0062\n!0430|!0061\n"

# Letters of Adlam, a sign that is ON by Unicode, and a mark that is L by Unicode.
ADLAM = "1E922|1E923\n1E923|1E922\n1E928\n"
ADLAM_RULESET = "%version 3\n%set A 1E922..1E943\n%never ^ @A $\n1E922..1E943\n"
SIGN = "05D0|02C6\n05D1\n"
MARK = "05D0\n05D1|0CBF\n"

LIST = ["--variants", "t"]
RULESET = ["--ruleset", "t"]


def refused(*lines):
    """The messages of the lines that are refused, each with its number and its fault."""
    return "".join(f"idn2: line {number}: {fault}\n" for number, fault in lines)


# In each row: the words, the table or ruleset, the input; the output, the messages, the status.

# Labels, their A-labels and their first faults.
REGISTERED = [
    # The sharp s is PVALID, and is not mapped to ss (RFC 5892, section 2.6).
    (["-r"], "", "faß\n",
     "xn--fa-hia\n", "", 0),
    # A registrable A-label is its own answer (RFC 5891, section 4.1).
    (["-r"], "", "xn--fa-hia\n",
     "xn--fa-hia\n", "", 0),
    # A capital is not mapped, but refused (RFC 5891, section 4.2.2); the line after it is answered.
    (["-r"], "", "faß\nFaß\nabc\n",
     "xn--fa-hia\nabc\n", refused((2, "10 disallowed code point")), 1),
    # A middle dot may stand between two l alone (RFC 5892, appendix A.3).
    (["-r"], "", "l·l\na·l\n",
     "xn--ll-0ea\n", refused((2, "16 code point out of context")), 1),
    # A zero width non-joiner may stand between letters that join, as in this Persian label (RFC 5892, appendix A.1).
    (["-r"], "", "\u0646\u0627\u0645\u0647\u200C\u0627\u06CC\na\u200Cb\n",
     "xn--mgba3gch31f060k\n", refused((2, "15 joiner out of context")), 1),
    # The other faults: an unassigned code point (RFC 5892, section 2.10), not in NFC, hyphens, a leading mark, labels of
    # both directions, a full stop (RFC 5891, sections 4.2.1, 4.2.3.1, 4.2.3.2, 4.2.3.4 and 4.2.2).
    (["-r"], "", "\U00050000\na\u0301\nab--c\na-\n\u0301a\na\u05D0\n\u05D0a\na.b\n",
     "", refused((1, "11 unassigned code point"), (2, "12 not in NFC"), (3, "13 hyphen out of place"),
                 (4, "13 hyphen out of place"), (5, "14 leading combining mark"), (6, "17 Bidi rule broken"),
                 (7, "17 Bidi rule broken"), (8, "10 disallowed code point")), 1),
    # A label in ASCII has at most 63 octets (RFC 1034, section 3.1).
    (["-r"], "", "a" * 63 + "\n" + "a" * 64 + "\n",
     "a" * 63 + "\n", refused((2, "18 label too long")), 1),
    # An A-label has at most 63 octets, too (RFC 5891, section 4.4).
    (["-r"], "", "a" * 55 + "ß\n" + "a" * 56 + "ß\n",
     "xn--" + "a" * 55 + "-une\n", refused((2, "18 label too long")), 1),
]

# A-labels, and what they stand for.
DECODED = [
    # A-labels in either case, and the other labels of a name (RFC 5891, section 5.3).
    (["-d"], "", "xn--fiqs8s.example\nXN--FA-HIA.de\n",
     "中国.example\nfaß.de\n", "", 0),
    # Not A-labels: the prefix and the Punycode of a DISALLOWED code point, of ASCII alone, and of nothing (RFC 5890,
    # section 2.3.2.1).
    (["-d"], "", "xn--a\nxn--abc-\nxn--\n",
     "", refused((1, "10 disallowed code point"), (2, "19 not an A-label"), (3, "19 not an A-label")), 1),
    # Empty labels and capitals in ASCII stay.
    (["-d"], "", "a..b\n.\nAB\n",
     "a..b\n.\nAB\n", "", 0),
    # Labels of a zone: what may be registered, and old labels with their mark. Capitals of ASCII become small; all else is
    # refused as by registration. What `xn--abc-` is decoded to is in ASCII, and has another name.
    (["-d", "--old"], "", "xn--fa-hia\nXN--LS8H\nab--cd\nHaus\nxn--abc-\nStraße\na_b\n",
     "faß\n💩\told\nab--cd\told\nhaus\nxn--abc-\told\n",
     refused((6, "10 disallowed code point"), (7, "10 disallowed code point")), 1),
    (["-d", "--old", "--json"], "", "xn--ls8h\nfaß\n",
     '{"line":1,"input":"xn--ls8h","unicode":"💩","old":true}\n{"line":2,"input":"faß","unicode":"faß"}\n', "", 0),
]

# Names for a query.
LOOKED_UP = [
    # Lookup maps capitals, and keeps the sharp s (UTS #46, section 4, non-transitional).
    (["-l"], "", "Faß.de\n",
     "xn--fa-hia.de\n", "", 0),
    # Lookup is the mode where no word names one.
    ([], "", "Faß.de\n",
     "xn--fa-hia.de\n", "", 0),
    # An underscore and a full stop at the end are no fault; a label of 64 octets is (RFC 1034, section 3.1).
    ([], "", "a_b\nexample.\n" + "a" * 64 + "\n",
     "a_b\nexample.\n", refused((3, "21 name or label length")), 1),
    # UseSTD3ASCIIRules refuses the underscore (UTS #46, section 4.1).
    (["--usestd3asciirules"], "", "a_b\n",
     "", refused((1, "20 not a valid name")), 1),
]

AA = "aa\taa\naaa\taaa\naaaa\taaaa\n#end 3\n"
# The words of each mode that reads lines, and what is printed for the line `aa`.
MODES = [(["-r"], "aa\n"), (["-d"], "aa\n"), (["-d", "--old"], "aa\n"), ([], "aa\n"), (LIST, AA)]
# A line that each mode refuses, and its fault. The line after it is answered.
BAD_LINES = [(b"", "3 empty"), (b"a" * 1025, "2 line too long"), (b"\xff", "1 not UTF-8")]

# Where a line ends, and that the lines after a refused one are answered.
LINES = [
    # A label that is not in the table stands between two that are.
    (LIST, DOUBLED, "aa\nab\naa\n",
     AA + AA, refused((2, "40 not made of table entries")), 1),
    # One carriage return at the end of a line is dropped.
    (LIST, DOUBLED, "aa\r\n", AA, "", 0),
    # The last line lacks its line feed.
    (LIST, DOUBLED, "aa", AA, "", 0),
    # All of these in one run; and an empty line as an object.
    (LIST, DOUBLED, "\r\naa\nab\naa",
     AA + AA, refused((1, "3 empty"), (3, "40 not made of table entries")), 1),
    (["-r", "--json"], "", "faß\n\n",
     '{"line":1,"input":"faß","ulabel":"faß","alabel":"xn--fa-hia"}\n'
     '{"line":2,"input":"","refusal":{"number":3,"text":"empty"}}\n', "", 1),
    # A line of 1,024 bytes is read; one whose carriage return is its 1,025th byte is not; a carriage return alone is an
    # empty line.
    (["-r"], "", "a" * 1024 + "\n" + "a" * 1024 + "\r\n\r\n",
     "", refused((1, "18 label too long"), (2, "2 line too long"), (3, "3 empty")), 1),
    # NUL and a carriage return within a line stay, and so does one of two at its end. One at the end of the input is dropped.
    (["-d"], "", "aa\r\r\n\na\rb\na\0b\n\0\naa\r",
     "aa\r\na\rb\na\0b\n\0\naa\n", refused((2, "3 empty")), 1),
    # Each end of an empty line.
    (["-d"], "", "\n\r\n\r",
     "", refused((1, "3 empty"), (2, "3 empty"), (3, "3 empty")), 1),
]

# Lines, by how many letters each has and by its end. A line has at most 1,024 bytes, a carriage return at its end counted.
BY_LENGTH = [
    [(1023, "\n"), (1024, "\n"), (1025, "\n"), (1022, "\r\n"), (1023, "\r\n"), (1024, "\r\n"), (5000, "\n"), (40000, "\n"),
     (3, "\n")],
    [(1024, "")], [(1025, "")], [(1023, "\r")], [(1024, "\r")],
]
# The same after 15 lines of 1,024 bytes, at the end of the 16,384 bytes that are read at once.
ACROSS_READS = [
    # A line feed is the last byte but one of a read, the last one, and the first of the next.
    [(1022, "\n"), (3, "\n")], [(1023, "\n"), (3, "\n")], [(1024, "\n"), (3, "\n")],
    # A carriage return is the last byte, and so is the line feed after one.
    [(1023, "\r\n"), (3, "\n")], [(1022, "\r\n"), (3, "\n")],
    # Lines that are as long as may be begin just before the end of a read, and longer ones.
    [(1000, "\n"), (1024, "\n"), (3, "\n")], [(1022, "\n"), (1024, "\n"), (3, "\n")], [(1000, "\n"), (1025, "\n"), (3, "\n")],
    [(1000, "\n"), (1024, "\r\n"), (3, "\n")], [(1000, "\n"), (40000, "\n"), (3, "\n")],
    # The last line has no line feed.
    [(1023, "\n"), (3, "")], [(1022, "\n"), (3, "\r")], [(1000, "\n"), (1024, "")],
    # Lines are empty.
    [(1022, "\n"), (0, "\n"), (0, "\r\n"), (3, "\n")],
]


def of_lines(lines):
    """The input of these lines, each of a letter of its own, and what decoding must print of it: output, messages, status."""
    given, output, faults = "", "", []
    for number, (letter, (count, end)) in enumerate(zip(string.ascii_lowercase, lines), 1):
        given += letter * count + end
        if count + len(end.removesuffix("\n")) > 1024:
            faults.append((number, "2 line too long"))
        elif count == 0:
            faults.append((number, "3 empty"))
        else:
            output += letter * count + "\n"
    return given, (output, refused(*faults), 1 if faults else 0)


# The words of a command line, in any order, with a value in the same word or in the next one. The input isn't read.
WORDS = [
    (["-N", "--quiet", "faß"], "", "xn--fa-hia\n", "", 0),
    (["-l", "--usestd3asciirules", "a_b"], "", "", refused((1, "20 not a valid name")), 1),
    (["b", "--decode", "-", "--", "-c"], "", "b\n-\n-c\n", "", 0),
    (["--variants=t", "-N", "aa", "--usestd3asciirules", "", "--quiet"], DOUBLED,
     AA, refused((2, "3 empty")), 1),
    (["aa", "--tries=0000000001", *LIST], DOUBLED, "aa\taa\n#stop 1 aa\n", "", 0),
    # The greatest numbers, and as many digits as there may be.
    ([*LIST, "--limit=1000000000", "--tries=1000000000", "--steps=1000000000000000000", "aa"], DOUBLED, AA, "", 0),
    ([*LIST, "--limit", "0000000001", "aa"], DOUBLED, "aa\taa\n#stop 1 aa\n", "", 0),
    ([*LIST, "--steps", "0000000000000000002", "aa"], DOUBLED, "aa\taa\naaa\taaa\n#stop 2 aaa\n", "", 0),
    # A start without a code point, and a hyphen.
    ([*LIST, "--after", "", "aa"], DOUBLED, AA, "", 0),
    ([*LIST, "--after", "-", "aa"], DOUBLED, AA, "", 0),
]

# Whole listings, and labels that have none.
LISTED = [
    # A variant that replaces two code points; the variant b of a leads to no place from which ab goes on.
    (LIST, "0061-0062|0063\n0061|0062\n", "ab\naba\n",
     "ab\tab\nc\tc\n#end 2\naba\taba\nabb\tabb\nca\tca\ncb\tcb\n#end 4\n", "", 0),
    # A variant that is longer than its source, wherever this stands.
    (LIST, "0061-0061|0062-0063-0062\n0061\n", "aaaaa\n",
     "".join(f"{label}\t{label}\n" for label in (
         "aaaaa", "aaabcb", "aabcba", "abcbaa", "abcbbcb", "bcbaaa", "bcbabcb", "bcbbcba")) + "#end 8\n", "", 0),
    # Sources of one, three and eight code points begin alike.
    (LIST, "0064\n0062-0062-0062-0062-0062-0062-0062-0062|0065\n0062-0062-0063|0061\n0062\n0061\n", "bbbbbbbbb\nbbbc\n",
     "bbbbbbbbb\tbbbbbbbbb\nbe\tbe\neb\teb\n#end 3\nba\tba\nbbbc\tbbbc\n#end 2\n", "", 0),
    # No source is the first code point alone, or the first two.
    (LIST, "0061-0062-0063\n0061-0063|0062\n0062\n", "abcac\n",
     "abcac\tabcac\nabcb\tabcb\n#end 2\n", "", 0),
    # The label ends before a source does that begins like it.
    (LIST, "0061\n0061-0062-0063\n", "ab\nabc\n",
     "abc\tabc\n#end 1\n", refused((1, "40 not made of table entries")), 1),
    # The sharp s and the double s are variants of each other: either label lists both.
    (LIST, SHARP_S, "strasse\nstraße\n",
     "strasse\tstrasse\nstraße\txn--strae-oqa\n#end 2\nstrasse\tstrasse\nstraße\txn--strae-oqa\n#end 2\n", "", 0),
    # Three segmentations, and one label.
    (LIST, "0061\n0061-0061\n", "aaa\n",
     "aaa\taaa\n#end 1\n", "", 0),
    # Simplified and traditional characters.
    (LIST, CHINA, "中国\n",
     "中国\txn--fiqs8s\n中國\txn--fiqz9s\n#end 2\n", "", 0),
    # What is not in NFC is no variant (RFC 5891, section 4.2.1).
    (LIST, "0071|0061\n0301\n", "q\u0301\n",
     "q\u0301\txn--q-xbb\n#end 1\n", "", 0),
    # What breaks the Bidi rule is no variant (RFC 5893, section 2).
    (LIST, "05D0|0061\n05D1\n", "\u05D0\u05D1\n",
     "\u05D0\u05D1\txn--4dbc\n#end 1\n", "", 0),
    # The two kinds of Arabic-Indic digits are not mixed (RFC 5892, appendices A.8 and A.9).
    (LIST, "0627\n0660|06F0\n", "\u0627\u0660\u0660\n",
     "\u0627\u0660\u0660\txn--mgb8ia\n\u0627۰۰\txn--mgb61ba\n#end 2\n", "", 0),
    # Hyphens at the start, at the end or in the third and fourth place (RFC 5891, section 4.2.3.1).
    (LIST, HYPHENS, "aaa\n",
     "a-a\ta-a\naaa\taaa\n#end 2\n", "", 0),
    # Labels without a listing: not in the table, a capital, and an A-label, of which nothing is decoded.
    (LIST, SHARP_S, "sx\nSss\nxn--s-qfa\n",
     "", refused((1, "40 not made of table entries"), (2, "10 disallowed code point"), (3, "13 hyphen out of place")), 1),
    # Labels at whose beginning, in whose middle or at whose end no source stands.
    (LIST, DOUBLED, "ba\naba\nab\n",
     "", refused(*((line, "40 not made of table entries") for line in (1, 2, 3))), 1),
    (LIST, SHARP_S, "ssx\n",
     "", refused((1, "40 not made of table entries")), 1),
    # No label is made of entries of the empty table.
    (LIST, "", "a\n",
     "", refused((1, "40 not made of table entries")), 1),
    # Labels of more than 63 code points are no variants (RFC 1034, section 3.1).
    (LIST, DOUBLED, "a" * 62 + "\n" + "a" * 63 + "\n",
     "a" * 62 + "\t" + "a" * 62 + "\n" + "a" * 63 + "\t" + "a" * 63 + "\n#end 2\n"
     + "a" * 63 + "\t" + "a" * 63 + "\n#end 1\n", "", 0),
]

# Listings with a start, a limit or a number of tries, which begin again with each line. Under the table HYPHENS the labels tested
# of `aaa` are `a--`, `a-a`, `aa-` and `aaa`: the others that it spells begin with a hyphen.
BOUNDED = [
    # A start that the label does not spell.
    ([*LIST, "--after", "b"], "0061-0062|0063\n0061|0062\n", "ab\n",
     "c\tc\n#end 1\n", "", 0),
    # The second label tested has an A-label of more than 63 octets: it is not listed, and the block stops at it.
    ([*LIST, "--tries", "2"], SHARP_S, "s" * 63 + "\n",
     "s" * 63 + "\t" + "s" * 63 + "\n#stop 1 " + "s" * 61 + "ß\n", "", 0),
    # The limit and the tries end the block at one label.
    ([*LIST, "--limit", "2", "--tries", "2"], SHARP_S, "sss\n",
     "sss\tsss\nsß\txn--s-qfa\n#stop 2 sß\n", "", 0),
    # The tries end a block of which nothing is left.
    ([*LIST, "--tries", "3"], SHARP_S, "sss\n",
     "sss\tsss\nsß\txn--s-qfa\nßs\txn--s-pfa\n#stop 3 ßs\n", "", 0),
    # The start is the last label.
    ([*LIST, "--after", "ßs"], SHARP_S, "sss\n",
     "#end 0\n", "", 0),
    # The start is a label in the middle.
    ([*LIST, "--after", "aaa"], DOUBLED, "aa\n",
     "aaaa\taaaa\n#end 1\n", "", 0),
    # The start is no label of the listing, and is greater than all of them, though not as long.
    ([*LIST, "--after", "aab"], DOUBLED, "aa\n",
     "#end 0\n", "", 0),
    # The start is less than all labels.
    ([*LIST, "--after", "a"], DOUBLED, "aa\n",
     AA, "", 0),
    # The start is greater than all labels.
    ([*LIST, "--after", "aaaaa"], DOUBLED, "aa\n",
     "#end 0\n", "", 0),
    # The first variant alone.
    ([*LIST, "--limit", "1"], CHINA, "中国\n",
     "中国\txn--fiqs8s\n#stop 1 中国\n", "", 0),
    # The rest after it.
    ([*LIST, "--after", "中国"], CHINA, "中国\n",
     "中國\txn--fiqz9s\n#end 1\n", "", 0),
    # The limit is the number of variants: the block stops at the last one.
    ([*LIST, "--limit", "2"], CHINA, "中国\n",
     "中国\txn--fiqs8s\n中國\txn--fiqz9s\n#stop 2 中國\n", "", 0),
    # The only label tested is refused.
    ([*LIST, "--tries", "1"], HYPHENS, "aaa\n",
     "#stop 0 a--\n", "", 0),
    # Two labels tested are refused, and the block stops at one of them.
    ([*LIST, "--tries", "3"], HYPHENS, "aaa\n",
     "a-a\ta-a\n#stop 1 aa-\n", "", 0),
    # The tries end at the last label.
    ([*LIST, "--tries", "4"], HYPHENS, "aaa\n",
     "a-a\ta-a\naaa\taaa\n#stop 2 aaa\n", "", 0),
    # The tries end before the limit.
    ([*LIST, "--limit", "1", "--tries", "1"], HYPHENS, "aaa\n",
     "#stop 0 a--\n", "", 0),
    # The start begins with a hyphen.
    ([*LIST, "--after=-aa"], HYPHENS, "aaa\n",
     "a-a\ta-a\naaa\taaa\n#end 2\n", "", 0),
    # The limit ends at a label after one that is refused.
    ([*LIST, "--limit", "1"], HYPHENS, "aaa\n",
     "a-a\ta-a\n#stop 1 a-a\n", "", 0),
    # The limit ends before the tries.
    ([*LIST, "--limit", "1", "--tries", "5"], HYPHENS, "aaa\n",
     "a-a\ta-a\n#stop 1 a-a\n", "", 0),
    # The limit is more than there are variants.
    ([*LIST, "--limit", "3"], HYPHENS, "aaa\n",
     "a-a\ta-a\naaa\taaa\n#end 2\n", "", 0),
    # The tries are more than there are labels tested.
    ([*LIST, "--tries", "5"], HYPHENS, "aaa\n",
     "a-a\ta-a\naaa\taaa\n#end 2\n", "", 0),
    # So many tries as the label spells, and more.
    ([*LIST, "--tries", "9"], HYPHENS, "aaa\n",
     "a-a\ta-a\naaa\taaa\n#end 2\n", "", 0),
    # Of 2 to the power of 63 labels most begin with a hyphen, or have two in the third and fourth place.
    ([*LIST, "--limit", "1", "--tries", "2"], HYPHENS, "a" * 63 + "\n",
     "a--a" + "-" * 58 + "a\ta--a" + "-" * 58 + "a\n#stop 1 a--a" + "-" * 58 + "a\n", "", 0),
    # The limit begins again with each line.
    ([*LIST, "--limit", "1"], HYPHENS, "aaa\naaa\n",
     "a-a\ta-a\n#stop 1 a-a\na-a\ta-a\n#stop 1 a-a\n", "", 0),
]

# Labels whose variant has an A-label of more than 63 octets, which is passed over, and counted by the tries.
LONG_VARIANTS = [(LIST, "0061\n0062|00DF\n", label + "\n", f"{label}\t{label}\n#end 1\n", "", 0)
                 for label in ("a" * count + "b" for count in range(56, 63))]
LONG_VARIANTS.append(([*LIST, "--tries", "4"], "0061\n0062|00DF\n", "ab" * 31 + "\n",
                      "ab" * 31 + "\t" + "ab" * 31 + "\n#stop 1 " + "ab" * 29 + "aßaß\n", "", 0))

# Tables, and what the check prints of them.
CHECKED = [
    (SHARP_S, "#table 7 0\n"),
    (DOUBLED, "missing 0061-0061|0061\n#table 1 1\n"),
    ("0061|0062\n0062|0061:0063\n0063|0062\n", "missing 0061|0063\nmissing 0063|0061\n#table 3 2\n"),
    ("0061|0062\n0062|0061\n", "#table 2 0\n"),
    ("0063|0062\n0062|0061\n", "missing 0061|0062\nmissing 0062|0063\nmissing 0063|0061\n#table 2 3\n"),
    ("", "#table 0 0\n"),
    ("u+0061 | 0062 : 0063-0064\r\n", "missing 0062|0061\nmissing 0063-0064|0061\n#table 1 2\n"),
    # Lines with nothing but blanks, comments, and blanks between words.
    (" \t\r\n#\n\t# 0041\nU+4e2d\t-\t0066 \n", "#table 1 0\n"),
    # A blocked variant counts for gaps as any other.
    ("%version 2\n0061|!0062\n0062..0063\n", "missing 0062|0061\n#table 3 1\n"),
]

# Tables, and the line and the fault that are told before any line is read.
FAULTY = [
    ("0061|\n", 1, "30 table syntax"),
    ("0061\n0061\n", 2, "31 source given twice"),
    ("0061|0062:0062\n", 1, "32 variant given twice"),
    ("0061|0061\n", 1, "32 variant given twice"),
    ("0061\n0061|0062:0062\n", 2, "32 variant given twice"),
    ("0041|0041\n", 1, "33 code point not allowed in a table"),
    ("0041\n", 1, "33 code point not allowed in a table"),
    ("-".join(["0041"] * 9) + "\n", 1, "34 table limit"),
    (SHARP_S[:-len("F|0073-0073\n")], 7, "30 table syntax"),
]

# Runs by tables of version 2.
OF_VERSION_2 = [
    # A label of two entries, and one that has none.
    (LIST, "%version 2\n0061..0063\n0078|!0079:007A\n", "ax\nay\n",
     "ax\tax\tallocatable\nay\tay\tblocked\naz\taz\tallocatable\n#end 3\n", refused((2, "40 not made of table entries")), 1),
    # The listing begins after a label, and ends at a blocked one.
    ([*LIST, "--after", "aa", "--limit", "2"], "%version 2\r\n0061|!0062\n0061-0061|0062-0062\n", "aa\n",
     "ab\tab\tblocked\nba\tba\tblocked\n#stop 2 ba\n", "", 0),
    # One way to spell a label without a blocked variant is enough.
    (LIST, "%version 2\n0061|!0062:0063\n0061-0061|0064\n", "a\naa\nab\n",
     "a\ta\tallocatable\nb\tb\tblocked\nc\tc\tallocatable\n#end 3\n"
     "aa\taa\tallocatable\nab\tab\tblocked\nac\tac\tallocatable\nba\tba\tblocked\nbb\tbb\tblocked\nbc\tbc\tblocked\n"
     "ca\tca\tallocatable\ncb\tcb\tblocked\ncc\tcc\tallocatable\nd\td\tallocatable\n#end 10\n",
     refused((3, "40 not made of table entries")), 1),
    # No variant of the table is blocked.
    (LIST, "%version 2\n0061|0062\n", "a\n",
     "a\ta\tallocatable\nb\tb\tallocatable\n#end 2\n", "", 0),
]

OF_RULESETS = [
    # A label that may arise from two others, and is invalid.
    (RULESET, "%version 3\n0061|0062\n!0062|0061\n0063|!0062\n", "ac\naa\nb\nabc\n",
     "ab\tab\tblocked\nac\tac\tallocatable\nbb\tbb\tblocked\nbc\tbc\tallocatable\n#end 4\n"
     "aa\taa\tallocatable\nab\tab\tallocatable\nba\tba\tallocatable\nbb\tbb\tallocatable\n#end 4\n",
     refused((3, "41 not valid under the table"), (4, "41 not valid under the table")), 1),
    (RULESET, SIGNS, "क\u093C\u093E\nक\u093E\u093E\nकa\n",
     "क\u093C\u093E\txn--11b2fg\tallocatable\n#end 1\n",
     refused((2, "41 not valid under the table"), (3, "40 not made of table entries")), 1),
    ([*RULESET, "--explain"], SIGNS, "क\u093E\u093E\n",
     "", refused((1, "41 not valid under the table: U+093E at place 3: when sign")), 1),
    ([*RULESET, "--json"], SIGNS, "क\u093E\u093E\n",
     '{"line":1,"input":"क\u093E\u093E","refusal":{"number":41,"text":"not valid under the table",'
     '"code_point":"U+093E","place":3,"condition":"when","rule":"sign"}}\n', "", 1),
    # A beginning with both kinds of digits is a dead prefix: `--tries` doesn't count the labels after it.
    ([*RULESET, "--tries", "3"], DIGITS, "01\n",
     "01\t01\tallocatable\n०१\txn--d4bc\tblocked\n#end 2\n", "", 0),
    ([*RULESET, "--explain"], DIGITS, "0१\n",
     "", refused((1, "41 not valid under the table: demand 1, never")), 1),
    ([*RULESET, "--json"], DIGITS, "0१\n",
     '{"line":1,"input":"0१","refusal":{"number":41,"text":"not valid under the table","demand":1,"kind":"never"}}\n', "", 1),
    # A condition of a variant is asked in the label that is given; an out-of-repertoire source may only arise.
    (RULESET, ENDS, "ab\nba\nаb\n",
     "ab\tab\tallocatable\nac\tac\tallocatable\nаb\txn--b-7sb\tblocked\nаc\txn--c-7sb\tblocked\n#end 4\n"
     "ba\tba\tallocatable\nbа\txn--b-8sb\tblocked\n#end 2\n", refused((3, "41 not valid under the table")), 1),
    ([*RULESET, "--jump"], ENDS, "ab\tb\n", "аb\tblocked\tblocked\n", "", 0),
    (["--check-ruleset", "t", "--json"], ENDS, "", '{"source":"0062","differs":"0063"}\n{"entries":4,"gaps":0}\n', "", 1),
    # What a ruleset says, each thing in its one spelling.
    (["--print-ruleset", "t"], "%version 3\n\n# a comment\n%type t\n%rule end  _ $\nU+0061 | !0430\n0062..0063 as t when end\n!0430|!u+0061\n", "",
     "%version 3\n%type t\n%rule end _ $\n0061|!0430\n0062 as t when end\n0063 as t when end\n!0430|!0061\n", "", 0),
    (["--explain", "--print-ruleset", "t"], ENDS + "0062\n", "", "", "idn2: table line 7: 31 source given twice: source at byte 1\n", 2),
    # A byte order mark before the version line.
    ([*RULESET, "--explain"], "\ufeff" + ENDS, "aa\n", "", "idn2: table line 1: 30 table syntax: a byte order mark at byte 1\n", 2),
]


ADLAM_LISTED = "\U0001E922\U0001E928\txn--9d6hma\n\U0001E923\U0001E928\txn--be6hka\n#end 2\n"
SIGN_LAST, SIGN_WITHIN = "\u05D1\u05D0\u05D1\txn--4dbbb\n", "\u05D1\u02C6\u05D1\txn--wqa17mba\n"

# Runs by the profile, and by the standards alone. The A-labels are those of Python's `idna`.
BY_EITHER = [
    # A table of a script that the profile leaves out, its listing, its check, a jump, and its ruleset.
    (LIST, ADLAM, "\U0001E922\U0001E928\n",
     "", "idn2: table line 1: 33 code point not allowed in a table\n", 2),
    ([*LIST, "--explain"], ADLAM, "\U0001E922\U0001E928\n",
     "", "idn2: table line 1: 33 code point not allowed in a table: U+1E922 at byte 1\n", 2),
    ([*LIST, "--standard"], ADLAM, "\U0001E922\U0001E928\n",
     ADLAM_LISTED, "", 0),
    (["--check-table", "t"], ADLAM, "",
     "", "idn2: table line 1: 33 code point not allowed in a table\n", 2),
    (["--check-table", "t", "--standard"], ADLAM, "",
     "#table 3 0\n", "", 0),
    (["--standard", *LIST, "--jump"], ADLAM, "\U0001E922\U0001E928\t\U0001E923\n",
     "\U0001E923\U0001E928\tvariant\tvariant\n", "", 0),
    (RULESET, ADLAM_RULESET, "\U0001E922\n",
     "", "idn2: table line 2: 33 code point not allowed in a table\n", 2),
    (["--check-ruleset", "t", "--standard"], ADLAM_RULESET, "",
     "#table 34 0\n", "", 0),
    ([*RULESET, "--standard"], ADLAM_RULESET, "\U0001E922\n\U0001E922\U0001E928\n",
     "\U0001E922\U0001E928\txn--9d6hma\tallocatable\n#end 1\n", refused((1, "41 not valid under the table")), 1),
    # By Unicode a label that begins with the sign has no dead prefix: it is tested, listed, and the one that is stopped at.
    (LIST, SIGN, "\u05D1\u05D0\u05D1\n",
     SIGN_LAST + "#end 1\n", "", 0),
    ([*LIST, "--standard"], SIGN, "\u05D1\u05D0\u05D1\n",
     SIGN_WITHIN + SIGN_LAST + "#end 2\n", "", 0),
    ([*LIST, "--tries", "1"], SIGN, "\u05D1\u05D0\u05D1\n",
     SIGN_LAST + "#stop 1 \u05D1\u05D0\u05D1\n", "", 0),
    ([*LIST, "--tries", "1", "--standard"], SIGN, "\u05D1\u05D0\u05D1\n",
     SIGN_WITHIN + "#stop 1 \u05D1\u02C6\u05D1\n", "", 0),
    # By the profile the mark may follow a Hebrew letter.
    (LIST, MARK, "\u05D0\u05D1\n",
     "\u05D0\u05D1\txn--4dbc\n\u05D0\u0CBF\txn--4db466a\n#end 2\n", "", 0),
    ([*LIST, "--standard"], MARK, "\u05D0\u05D1\n",
     "\u05D0\u05D1\txn--4dbc\n#end 1\n", "", 0),
    # The causes, of the name as a whole, too.
    (["-r", "--explain"], "", "\u05D0\u02C6\n\u02C6\u05D0\n\u0712\u200C\u0712\n\U0001E922\n",
     "", refused((1, "17 Bidi rule broken: U+02C6 at place 2 is L: RFC 5893 2, condition 2"),
                 (2, "17 Bidi rule broken: U+05D0 at place 2 is R: RFC 5893 2, condition 5"),
                 (3, "15 joiner out of context: U+200C at place 2: RFC 5892 A.1"),
                 (4, "10 disallowed code point: U+1E922 at place 1: outside the profile")), 1),
    (["-r", "--explain", "--standard"], "",
     "\u05D0\u02C6\n\u02C6\u05D0\n\u05D0\u0CBF\n\U0001E922a\n1\U0001E922\n\U00010D00\u06F0\U00010D30\n"
     "\u0628\u0883\u200C\u0628\n\U0001E900\n",
     "", refused((1, "17 Bidi rule broken: U+02C6 at place 2 is ON: RFC 5893 2, condition 3"),
                 (2, "17 Bidi rule broken: U+02C6 at place 1 is ON: RFC 5893 2, condition 1"),
                 (3, "17 Bidi rule broken: U+0CBF at place 2 is L: RFC 5893 2, condition 2"),
                 (4, "17 Bidi rule broken: U+0061 at place 2 is L: RFC 5893 2, condition 2"),
                 (5, "17 Bidi rule broken: U+0031 at place 1 is EN: RFC 5893 2, condition 1"),
                 (6, "17 Bidi rule broken: U+10D30 at place 3 is AN: RFC 5893 2, condition 4"),
                 (7, "15 joiner out of context: U+200C at place 3: RFC 5892 A.1"),
                 (8, "10 disallowed code point: U+1E900 at place 1: RFC 5892 2.2 Unstable")), 1),
    (["-d", "--explain", "--standard"], "", "0a.xn--4db\nxn--4db.a-\nxn--a-k7a.xn--4db\nxn--4db466a\n_x.xn--4db\n",
     "", refused((1, "17 Bidi rule broken: label 1: U+0030 at place 1 is EN: RFC 5893 2, condition 1"),
                 (2, "17 Bidi rule broken: label 2: U+002D at place 2 is ES: RFC 5893 2, condition 6"),
                 (3, "17 Bidi rule broken: label 1, decoded: U+02C6 at place 2 is ON: RFC 5893 2, condition 6"),
                 (4, "17 Bidi rule broken: label 1, decoded: U+0CBF at place 2 is L: RFC 5893 2, condition 2"),
                 (5, "17 Bidi rule broken: label 1: U+005F at place 1 is ON: RFC 5893 2, condition 1")), 1),
    (["-d", "--explain", "--standard"], "", "\n.\n0a._x\n",
     ".\n0a._x\n", refused((1, "3 empty")), 1),
    (["-d", "--json", "--standard"], "", "xn--4db.a-\n",
     '{"line":1,"input":"xn--4db.a-","refusal":{"number":17,"text":"Bidi rule broken","label":2,"code_point":"U+002D",'
     '"place":2,"rule":"RFC 5893 2 condition 6","bidi_class":"ES"}}\n', "", 1),
]

# Collisions with one registered label, by the profile and by the standards alone.
AMONG = [
    # A script that the profile leaves out is refused in the file, too.
    ([], "0061\n", "\U0001E923\U0001E928", "a\n",
     "", "idn2: registered line 1: 10 disallowed code point\n", 2),
    (["--standard"], ADLAM, "\U0001E923\U0001E928", "\U0001E922\U0001E928\n",
     "\U0001E923\U0001E928\txn--be6hka\tvariant\tvariant\n#end 1\n", "", 0),
    # A sign may stand within a label by Unicode, and a mark that is L there by the profile.
    ([], SIGN, "\u05D1\u02C6\u05D1", "\u05D1\u05D0\u05D1\n",
     "", "idn2: registered line 1: 17 Bidi rule broken\n", 2),
    (["--standard"], SIGN, "\u05D1\u02C6\u05D1", "\u05D1\u05D0\u05D1\n",
     SIGN_WITHIN[:-1] + "\tvariant\tnone\n#end 1\n", "", 0),
    ([], MARK, "\u05D0\u0CBF", "\u05D0\u05D1\n",
     "\u05D0\u0CBF\txn--4db466a\tvariant\tnone\n#end 1\n", "", 0),
    (["--standard", "--explain"], MARK, "\u05D0\u0CBF", "\u05D0\u05D1\n",
     "", "idn2: registered line 1: 17 Bidi rule broken: U+0CBF at place 2 is L: RFC 5893 2, condition 2\n", 2),
]


def rows():
    """The words, the input, the files and what must be answered: output, messages, status."""
    for words, table, given, output, messages, status in [*REGISTERED, *DECODED, *LOOKED_UP, *LINES, *LISTED, *BOUNDED,
                                                          *LONG_VARIANTS, *OF_VERSION_2, *OF_RULESETS, *BY_EITHER]:
        yield words, given, {"t": table}, (output, messages, status)
    for words, table, label, given, output, messages, status in AMONG:
        yield [*LIST, "--among", "r", *words], given, {"t": table, "r": label + "\n"}, (output, messages, status)
    for lines in [*BY_LENGTH, *([(1023, "\n")] * 15 + lines for lines in ACROSS_READS)]:
        given, wanted = of_lines(lines)
        yield ["-d"], given, {}, wanted
    for words, table, *wanted in WORDS:
        yield words, "not read\n", {"t": table}, tuple(wanted)
    for count in (1, 99):
        yield ["-r", *["a"] * count], "not read\n", {}, ("a\n" * count, "", 0)
    for words, output in MODES:
        yield words, "", {"t": DOUBLED}, ("", "", 0)
        for line, fault in BAD_LINES:
            yield words, line + b"\naa\n", {"t": DOUBLED}, (output, refused((1, fault)), 1)
    for table, output in CHECKED:
        yield ["--check-table", "t"], "not read\n", {"t": table}, (output, "", 1 if output.startswith("missing") else 0)
    for table, line, fault in FAULTY:
        for words in (["--check-table", "t"], LIST):
            yield words, "Aa\n", {"t": table}, ("", f"idn2: table line {line}: {fault}\n", 2)
