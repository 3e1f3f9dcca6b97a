#!/usr/bin/env python3
"""Times how a ruleset is read, and what it adds to a listing: python3 bench/rulesets.py

A run that is given no line reads its ruleset and ends. The figures of an empty ruleset are taken off; each is the least of
some rounds. The rulesets are made here: as many entries as those of the root zone have, and the largest text that may be:

    Chinese       20,902 Han characters, each of which has its neighbour for a variant, with four types and three actions
    Japanese      6,500 of these, two ranges of kana, a condition and a demand
    Korean        11,172 syllables as a range, 4,800 Han characters without variants, and a demand
    falling       as many entries as there may be, in falling order, each with one of 57 types: each is put before all that were read
    the largest   entries as long as they may be, in falling order, up to 8 MiB

Then the same pairs of Han characters as a table of version 2, as a ruleset, with four types, and with 11 rules and 3 demands that
each label keeps: the instructions by valgrind, if it is there, that a variant of a label of 24 characters takes, and how many
times those of version 2. Last what a test of a label takes where the conditions are as hard as their limits allow.
"""

import pathlib
import sys

from inputs import write
from runs import Failed, Run, found, in_turn, measured, version, words_of

sys.path.append(str(pathlib.Path(__file__).resolve().parent.parent / "tests"))

from hard_rulesets import conditions_at_every_limit

FIRST_LINE = "%version 3"
HAN, SYLLABLES = 0x4E00, "AC00..D7A3"
# Code points enough for as many entries as there may be.
MANY, ENTRY_LIMIT = (range(0x4E00, 0xA000), range(0xAC00, 0xD7A4), range(0x20000, 0x2A6E0)), 65_536
TEXT_LIMIT = 8 << 20
TYPES = [
    *(f"%type {name}" for name in ("simp", "r_simp", "trad", "r_trad")),
    "%action allocatable all simp,r_simp", "%action allocatable all trad,r_trad", "%action blocked any simp,trad",
]
# What is listed: a label, among how many pairs, and the variants whose instructions are counted.
LABEL, PAIRED, COUNTED = "".join(map(chr, range(HAN, HAN + 8, 2))) * 6, 4_000, 2_000
# How many labels are tested under the hardest conditions.
TESTED = 200
SETS = [f"%set s{number} {HAN:04X}..{HAN + 600 * number:04X} {HAN + 600 * number + 2:04X}..9FFF" for number in range(7)]
RULES = [
    *(f"%rule before{number} @s{number} _ / ^ _" for number in range(5)),
    *(f"%rule after{number} _ @s{number} / _ $" for number in range(3)),
    "%rule between ^ _ / @s5 _ @s5 / _ $", "%rule long @s6 @s6? _ / ^ _", "%rule far ^ @s6* _ / _ $",
]
NAMES = [rule.split()[1] for rule in RULES]
DEMANDS = ["%always @s1", "%never 9FFE .* 9FFF / 9FFF .* 9FFE", "%never ^ 9FFD (@s2 @s3)* 9FFC $"]


def pairs(count, entry=lambda one, other, number: f"{one}|!{other}"):
    """Entries of Han characters, two and two variants of each other, as `entry` writes them."""
    points = range(HAN, HAN + count)
    return [entry(f"{point:04X}", f"{HAN + ((point - HAN) ^ 1):04X}", number) for number, point in enumerate(points)]


def typed(one, other, number):
    return f"{one} as r_simp|{other} as trad" if number % 2 == 0 else f"{one} as r_trad|{other} as simp"


def conditional(one, other, number):
    """Each with a condition, so that each rule is asked."""
    return f"{one} when {NAMES[number % len(NAMES)]}|!{other}"


def falling():
    points = [point for span in MANY for point in span][:ENTRY_LIMIT]
    types = [f"t{number}" for number in range(57)]
    return [f"%type {name}" for name in types] + [f"{point:04X} as {types[point % 57]}" for point in reversed(points)]


def largest():
    """Sources of eight code points that fall, each with sixteen variants of eight."""
    lines, size = [FIRST_LINE], len(FIRST_LINE) + 1
    variants = ":".join("!" + "-".join(f"{HAN + number:04X}" for _ in range(8)) for number in range(16))
    for number in range(20_000, 0, -1):
        line = f"{HAN + number:04X}" + 7 * "-4E00" + "|" + variants
        size += len(line) + 1
        if size > TEXT_LIMIT:
            break
        lines.append(line)
    return lines


KANA = ["%set kana 3041..3096 30A1..30FA", "%rule long @kana _", "%always @kana", "002D", "3041..3096", "30A1..30FA", "30FC when long"]
READ = {
    "Chinese": [FIRST_LINE, *TYPES, *pairs(20_902, typed)],
    "Japanese": [FIRST_LINE, *KANA, *pairs(6_500)],
    "Korean": [FIRST_LINE, "%set hangul AC00..D7A3", "%always @hangul", SYLLABLES, *(f"{point:04X}" for point in range(HAN, HAN + 4_800))],
    "falling": [FIRST_LINE, *falling()],
    "the largest": largest(),
}
LISTED = {
    "version 2": ("--variants", ["%version 2", *pairs(PAIRED)]),
    "the same as a ruleset": ("--ruleset", [FIRST_LINE, *pairs(PAIRED)]),
    "with four types and three actions": ("--ruleset", [FIRST_LINE, *TYPES, *pairs(PAIRED, typed)]),
    "with 11 rules and 3 demands": ("--ruleset", [FIRST_LINE, *SETS, *RULES, *DEMANDS, *pairs(PAIRED, conditional)]),
}


def reading(options, folder):
    print(f"least of {options.rounds} rounds, less an empty ruleset\n")
    print(f"{'':<14}{'lines':>10}{'bytes':>12}{'ms':>10}{'MiB':>10}")
    nothing, gnu_time = write(folder, "nothing", []), found("time")

    def run(name, lines):
        return Run(options.ours, ["--ruleset", str(write(folder, name.replace(" ", "_"), lines))], nothing)

    empty = run("empty", [FIRST_LINE])
    for name, lines in READ.items():
        ruleset = run(name, lines)
        without, with_it = in_turn([empty, ruleset], options.rounds)
        memory = (ruleset.kibibytes(gnu_time) - empty.kibibytes(gnu_time)) / 1024 if gnu_time else float("nan")
        size = sum(len(line) + 1 for line in lines)
        print(f"{name:<14}{len(lines) - 1:>10,}{size:>12,}{1000 * (with_it.processor - without.processor):>10.1f}{memory:>10.1f}",
              flush=True)


def listing(options, folder):
    if not found("valgrind"):
        print("\nvalgrind isn't there, so no instructions were counted")
        return
    print(f"\n{'':<36}{'instructions a variant':>24}{'times version 2':>18}")
    source, first = write(folder, "label", [LABEL]), None
    for name, (option, lines) in LISTED.items():
        table = write(folder, name.replace(" ", "_"), lines)
        few, many = (Run(options.ours, [option, str(table), "--limit", str(count)], source) for count in (2, COUNTED + 2))
        if many.output().count("\n") != COUNTED + 3:
            raise Failed(f"{many}: it doesn't list as many variants as wanted")
        each = (many.instructions(1) - few.instructions(1)) / COUNTED
        first = first or each
        print(f"{name:<36}{each:>24,.0f}{each / first:>18.2f}", flush=True)


def hardest(options, folder):
    table, source = write(folder, "hardest", conditions_at_every_limit().splitlines()), write(folder, "letters", ["ab" * 31])
    few, many = (Run(options.ours, ["--ruleset", str(table), "--tries", str(count)], source) for count in (2, TESTED + 2))
    less, more = in_turn([few, many], options.rounds)
    print(f"\na test under the hardest conditions: {1000 * (more.processor - less.processor) / TESTED:.2f} ms")


def measure(options, folder):
    print("ours:    " + version(options.ours))
    reading(options, folder)
    listing(options, folder)
    hardest(options, folder)


if __name__ == "__main__":
    sys.exit(measured(words_of("Times how a ruleset is read, and what it adds to a listing.", rounds=5), measure))
