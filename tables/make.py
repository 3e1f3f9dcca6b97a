#!/usr/bin/env python3
"""Makes the example tables of this folder from Unicode's data: python3 tables/make.py

It reads these files of Debian's package unicode-data (/usr/share/unicode, or the folder named in UNICODE_DATA):

    CaseFolding.txt                         german.txt: which letters stand for the sharp s
    NamesList.txt, UnicodeData.txt          arabic-digits.txt: the letters by language, the digits by value
    Unihan_Variants.txt.bz2                 han.txt: kSimplifiedVariant, kTraditionalVariant
    Unihan_OtherMappings.txt.bz2            han.txt: kGB0, kBigFive, the character sets that both ends stand in; in
                                            rulesets/chinese.txt they tell which characters are simplified (chinese.py)
    Unihan_DictionaryLikeData.txt.bz2       han.txt: kGradeLevel, the characters that schools teach
    and those of properties that a code point's class comes from (idn2_registry.unicode_data)

The letters of German are written out below, since Unicode's character data does not list letters by language.
The tables are closed under symmetry and transitivity, so `idn2 --check-table` prints no gap; nor does `--check-ruleset`.
"""

import pathlib
import re
import sys

# The package is a folder of the repository, and one file of the archive.
HERE = pathlib.Path(__file__).resolve().parent
sys.path += [str(HERE.parent / place) for place in ("registry", "bin/idn2-registry")]

import chinese
from idn2_registry import unicode_data
from idn2_registry.notation.points import spelled
from idn2_registry.unicode_data import MAY_STAND_IN_A_TABLE, Classes

HYPHEN = 0x002D
ASCII_DIGITS = range(0x0030, 0x003A)
ASCII_LETTERS = range(0x0061, 0x007B)
SHARP_S = 0x00DF
UMLAUTS = (0x00E4, 0x00F6, 0x00FC)

MOST_VARIANTS = 16
MOST_ENTRIES = 4096

# A range stands for at least so many entries.
LEAST_RANGE = 3

GERMAN = """\
# German: the sharp s and the double s as each other's variants, both allocatable.
#
# Made by tables/make.py from CaseFolding.txt of Unicode {version}, whose full case folding of the sharp s,
# 'LATIN SMALL LETTER SHARP S', is the double s. The letters are those of the German alphabet.
# Every code point that a label may have is an entry: the hyphen, the digits, a to z, three umlauts, the sharp s.
# The holder of a label may have it in the other spelling, too, since some write it with the sharp s, some without.
"""

ARABIC = """\
# Arabic script: the Arabic-Indic and the extended Arabic-Indic digits as each other's variants, all blocked.
#
# Made by tables/make.py from Unicode {version}: the digits of equal value in UnicodeData.txt; the letters that
# NamesList.txt has under 'Based on ISO 8859-6', for Arabic, and those that it marks as used for Persian or Urdu.
# A label never mixes the two kinds of digits (RFC 5892, appendices A.8 and A.9). So a label of letters and then
# digits has two variants, however many digits it has. Nobody can have the one in the other digits, since most digits of
# equal value look the same.
"""

HAN = """\
# Chinese: simplified and traditional characters as each other's variants.
#
# Made by tables/make.py from the Unihan database of Unicode {version}: {pairs} pairs of kSimplifiedVariant and
# kTraditionalVariant, both ends in the character sets GB 2312 (kGB0) or Big Five (kBigFive), joined into {sets}
# sets of characters that are all each other's variants. A set is here if one of its characters is taught in
# Hong Kong's primary schools (kGradeLevel); the other characters taught there have no variant. Then come the
# hyphen, the digits and the letters a to z.
"""


class Table:
    """Entries in the order in which they were added. Version 2 has ranges, and marks variants that are blocked."""

    def __init__(self, version, is_blocking=False):
        self.version, self.mark, self.variants = version, "!" if is_blocking else "", {}

    def add(self, source, variants=()):
        if source in self.variants:
            raise SystemExit(f"{spelled(source)} is a source twice")
        self.variants[source] = sorted(variants)

    def add_points(self, points):
        for point in points:
            self.add((point,))

    def add_set(self, sequences):
        """Makes each of the sequences a variant of each other."""
        for source in sorted(sequences):
            self.add(source, set(sequences) - {source})

    def refuse_faults(self, classes):
        points = {point for source in self.variants for point in source}
        bad = sorted(point for point in points if classes.of(point) not in MAY_STAND_IN_A_TABLE)
        if bad:
            raise SystemExit(f"not allowed in a table: {spelled(bad)}")
        if len(self.variants) > MOST_ENTRIES or max(map(len, self.variants.values())) > MOST_VARIANTS:
            raise SystemExit("a table limit is passed")

    def text(self, head):
        lines = ["%version 2\n"] if self.version == 2 else []
        lines.append(head)
        for run in self.runs():
            if self.version == 2 and len(run) >= LEAST_RANGE:
                lines.append(f"{spelled(run[0])}..{spelled(run[-1])}\n")
            else:
                lines += map(self.line, run)
        return "".join(lines)

    def runs(self):
        """The sources, those that may be one range together."""
        runs, after = [], None
        for source, variants in self.variants.items():
            if source == after and not variants:
                runs[-1].append(source)
            else:
                runs.append([source])
            after = (source[0] + 1,) if len(source) == 1 and not variants else None
        return runs

    def line(self, source):
        variants = ":".join(self.mark + spelled(variant) for variant in self.variants[source])
        return spelled(source) + ("|" if variants else "") + variants + "\n"


def german():
    table = Table(version=2)
    table.add_points([HYPHEN, *ASCII_DIGITS, *ASCII_LETTERS, *UMLAUTS])
    table.add_set([(SHARP_S,), full_case_folding(SHARP_S)])
    return table, {}


def full_case_folding(point):
    for line in unicode_data.lines_of("CaseFolding.txt"):
        fields = [field.strip() for field in line.split("#")[0].split(";")]
        if len(fields) > 2 and fields[1] == "F" and int(fields[0], 16) == point:
            return tuple(int(part, 16) for part in fields[2].split())
    raise SystemExit(f"no full case folding of {spelled([point])}")


def arabic_digits(classes):
    table = Table(version=2, is_blocking=True)
    table.add_points([HYPHEN, *arabic_letters(classes)])
    for _, digits in sorted(digits_by_value((0x0660, 0x0669), (0x06F0, 0x06F9)).items()):
        table.add_set([(digit,) for digit in digits])
    return table, {}


def arabic_letters(classes):
    """The letters of the Arabic block that Arabic, Persian and Urdu are written with."""
    heading, point, letters = "", None, set()
    in_use = re.compile(r"(?<!early )(?<!Old )\b(Persian|Urdu)\b")
    for line in unicode_data.lines_of("NamesList.txt"):
        if line.startswith("@\t"):
            heading = line.strip("@\t\n")
        elif re.match(r"[0-9A-F]{4,6}\t", line):
            point = int(line.split("\t")[0], 16)
            if heading == "Based on ISO 8859-6":
                letters.add(point)
        elif line.startswith("\t* ") and in_use.search(line):
            letters.add(point)
    is_letter = lambda point: classes.category[point] == "Lo" and classes.of(point) == unicode_data.PVALID
    return sorted(point for point in letters if 0x0600 <= point <= 0x06FF and is_letter(point))


def digits_by_value(*ranges):
    """The decimal digits of the ranges, in a set for each value."""
    digits = {}
    for line in unicode_data.lines_of("UnicodeData.txt"):
        fields = line.split(";")
        if unicode_data.is_in(ranges, int(fields[0], 16)):
            digits.setdefault(int(fields[6]), []).append(int(fields[0], 16))
    return digits


def han():
    pairs = set(simplified_and_traditional())
    taught = {point for point, _ in unicode_data.han_field("Unihan_DictionaryLikeData.txt", "kGradeLevel")}
    sets = [members for members in joined(pairs) if members & taught]
    table = Table(version=1)
    in_a_set = {member: members for members in sets for member in members}
    for point in sorted(taught | in_a_set.keys()):
        table.add((point,), {(other,) for other in in_a_set.get(point, {point}) if other != point})
    table.add_points([HYPHEN, *ASCII_DIGITS, *ASCII_LETTERS])
    kept = [pair for pair in pairs if pair[0] in in_a_set]
    return table, {"pairs": len(kept), "sets": len(sets)}


def simplified_and_traditional():
    """The pairs of unlike characters of the two sets, the smaller one first."""
    in_use = {point for point, _ in unicode_data.han_field("Unihan_OtherMappings.txt", "kGB0", "kBigFive")}
    fields = ("kSimplifiedVariant", "kTraditionalVariant")
    for point, value in unicode_data.han_field("Unihan_Variants.txt", *fields):
        for other in (int(word[2:], 16) for word in value.split()):
            if point != other and {point, other} <= in_use:
                yield min(point, other), max(point, other)


def joined(pairs):
    """The sets that the pairs join: the classes of the least equivalence that has them all."""
    set_of = {}
    for pair in pairs:
        both = set().union(*(set_of.get(point, {point}) for point in pair))
        set_of.update(dict.fromkeys(both, both))
    return [set(members) for members in {frozenset(members) for members in set_of.values()}]


def main():
    classes = Classes()
    tables = {
        "german.txt": (GERMAN, german()),
        "arabic-digits.txt": (ARABIC, arabic_digits(classes)),
        "han.txt": (HAN, han()),
    }
    for name, (head, (table, numbers)) in tables.items():
        table.refuse_faults(classes)
        text = table.text(head.format(version=unicode_data.version(), **numbers))
        (HERE / name).write_text(text, encoding="ascii", newline="\n")
        variants = sum(map(len, table.variants.values()))
        print(f"{name}: {len(table.variants)} entries, {variants} variants")
    text = chinese.text_of(tables["han.txt"][1][0].variants, unicode_data.version())
    (HERE / "rulesets" / "chinese.txt").write_text(text, encoding="ascii", newline="\n")


if __name__ == "__main__":
    main()
