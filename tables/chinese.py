"""The ruleset of Chinese, rulesets/chinese.txt, which make.py makes together with the table han.txt: the same sets of
variants, with a type for each kind of character."""

from idn2_registry.notation.points import spelled
from idn2_registry.unicode_data import han_field

# The type of a character, by the field of Unihan that tells of the character set that it has to be in.
CHARACTER_SETS = {"simp": "kGB0", "trad": "kBigFive"}
BOTH = "both"
# The field that a character of a kind has where it is one end of a pair: which characters the other end is.
DIRECTIONS = {"simp": "kTraditionalVariant", "trad": "kSimplifiedVariant"}

HEAD = """\
%version 3
# Chinese: simplified and traditional characters as each other's variants, each kind with its own.
#
# Made by tables/make.py from the sets of tables/han.txt, and from the character sets in the Unihan database of Unicode
# {version}: a character that has variants is simplified if it is in GB 2312 alone (kGB0), traditional if it is in Big Five
# alone (kBigFive), and both if it is in both. So the holder of a label may have the one that is simplified throughout,
# and the one that is traditional throughout, and nobody else can have a mixture of both. {pairs:,} characters have variants,
# {others:,} have none.
#
# Compared with the directions of Unihan's pairs (kSimplifiedVariant, kTraditionalVariant): of {of_one:,} characters of one
# kind {directed:,} have that of their pairs. The others are {undirected}.
%type simp
%type r_simp
%type trad
%type r_trad
%type both
%action allocatable all simp,both,r_simp
%action allocatable all trad,both,r_trad
%action blocked any simp,trad,both
"""


def text_of(variants, version):
    """The text, for each source its variants."""
    kinds = {point: kind_of(point) for source in variants for point in source if variants[source]}
    of_one = {point for point in kinds if kinds[point] != BOTH}
    directed = {point for point in of_one if has_direction(point, kinds[point])}
    numbers = {"pairs": len(kinds), "others": len(variants) - len(kinds), "of_one": len(of_one), "directed": len(directed)}
    undirected = ", ".join(f"{point:04X}" for point in sorted(of_one - directed))
    runs = runs_of([(source, *others) for source, others in variants.items()])
    return HEAD.format(version=version, undirected=undirected, **numbers) + "".join(line_of(run, kinds) for run in runs)


def others_of(point, value):
    """The characters that a field of variants names, but for the one itself."""
    return {int(word[2:], 16) for word in value.split()} - {point}


CHARACTERS = {kind: {point for point, _ in han_field("Unihan_OtherMappings.txt", field)}
              for kind, field in CHARACTER_SETS.items()}
DIRECTED = {kind: {point for point, value in han_field("Unihan_Variants.txt", field) if others_of(point, value)}
            for kind, field in DIRECTIONS.items()}


def kind_of(point):
    """The type of a character as a variant."""
    kinds = [kind for kind, points in CHARACTERS.items() if point in points]
    return kinds[0] if len(kinds) == 1 else BOTH


def has_direction(point, kind):
    return [each for each, points in DIRECTED.items() if point in points] == [kind]


def runs_of(entries):
    """Runs of code points one after the other without variants; any other entry by itself."""
    runs = []
    for entry in entries:
        last = runs[-1][-1] if runs else None
        if last and len(last) == len(entry) == 1 and (last[0][0] + 1,) == entry[0]:
            runs[-1].append(entry)
        else:
            runs.append([entry])
    return runs


def line_of(run, kinds):
    if len(run) > 1:
        return f"{spelled(run[0][0])}..{spelled(run[-1][0])}\n"
    source, *variants = ((sequence, kinds.get(sequence[0])) for sequence in run[0])
    # A character that stays as it is, and is of both kinds or has no variant, is no matter of 'all'.
    line = spelled(source[0]) + (f" as r_{source[1]}" if source[1] in CHARACTER_SETS else "")
    told = ":".join(f"{spelled(sequence)} as {kind}" for sequence, kind in variants)
    return f"{line}|{told}\n" if told else f"{line}\n"
