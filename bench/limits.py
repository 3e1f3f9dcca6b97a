#!/usr/bin/env python3
"""Times what a line costs by each limit of a listing: python3 bench/limits.py

For those who list under other people's tables: `--steps N` takes at most N times what a step takes, and so on. Each figure is the
least of some rounds, in microseconds of processor time, less a run that stops after one step:

    a step, Han             labels under tables/han.txt, of which each has a line. A step, its test and its line
    a test, ß               50 `ß` under tables/german.txt: of what is tested, no A-label fits
    a step, passed over     a label of which 4,194,304 dead prefixes lie before the first variant
    a step, slowest         the slowest table that was found: a step goes through 60 rows, and in each of them nearly all
                            places of the variant graph are reached
    a jump, slowest         the same label and table, each jump from a text that begins with a dead prefix

The table of the last two is made here.
"""

import sys

from inputs import TABLE, write
from registered import GERMAN
from runs import Failed, Run, in_turn, measured, version, words_of

HEBREW = [chr(0x05D0 + number) for number in range(16)]
# Letters at the start of the slow label, each with all of HEBREW for variants, and the letters after these.
TURNING, SLOW = 3, 59


def entry(source, variants=()):
    sequences = ["-".join(f"{ord(letter):04X}" for letter in text) for text in (source, *variants)]
    return sequences[0] + "|" * bool(variants) + ":".join(sequences[1:])


def digits(folder):
    """Each spelled label that begins with a digit breaks the Bidi rule, which only its last letter tells."""
    table = write(folder, "digits", [entry("א", "0"), entry("0", "1"), entry("ב")])
    return table, "א" + 22 * "0" + "ב", []


def slowest(folder):
    """A step turns off at a Hebrew letter, and the `b` after these makes the beginning a dead prefix: so it goes through all
    rows. `q` alone leads to the end, so they are as many as there can be; and one to eight `z` are one to eight `b`, so
    nearly each place of the variant graph is reached in each row."""
    replacements = [number * "b" for number in range(1, 9)] + [7 * "b" + last for last in "cdefghij"]
    entries = [entry(number * "z", replacements) for number in range(1, 9)]
    table = write(folder, "slowest", [entry("p", HEBREW), *entries, entry("q")])
    return table, TURNING * "p" + SLOW * "z" + "q", [f"--after={TURNING * HEBREW[0]}"]


def microseconds(options, folder, case, bound, count):
    """What one of so many of what an option bounds takes."""
    table, label, words = case
    source = write(folder, "label", [label])
    runs = [Run(options.ours, ["--variants", str(table), bound, str(number), *words], source) for number in (2, count + 2)]
    if not runs[1].output().splitlines()[-1].startswith("#stop "):
        raise Failed(f"{runs[1]}: the listing ends before its limit")
    few, many = in_turn(runs, options.rounds)
    return 1e6 * (many.processor - few.processor) / count


def jump_microseconds(options, folder, case, count):
    table, label, _ = case
    texts = [first + second + third for first in HEBREW for second in HEBREW for third in HEBREW][:count]
    sources = [write(folder, name, [f"{label}\t{text}" for text in asked]) for name, asked in
               (("one jump", texts[:1]), ("jumps", texts))]
    one, all_of_them = in_turn([Run(options.ours, ["--variants", str(table), "--jump"], source) for source in sources],
                               options.rounds)
    return 1e6 * (all_of_them.processor - one.processor) / (count - 1)


def measure(options, folder):
    print("ours:    " + version(options.ours))
    print(f"least of {options.rounds} rounds\n\nmicroseconds of processor")
    han, german, slow = (TABLE, 30 * "国", []), (GERMAN, 50 * "ß", []), slowest(folder)
    for name, case, bound, count in (
        ("a step, Han", han, "--steps", 100_000), ("a test, ß", german, "--tries", 100_000),
        ("a step, passed over", digits(folder), "--steps", 1_000_000), ("a step, slowest", slow, "--steps", 100),
    ):
        print(f"{name:<22}{bound:<10}{microseconds(options, folder, case, bound, count):>12,.2f}", flush=True)
    print(f"{'a jump, slowest':<22}{'--jump':<10}{jump_microseconds(options, folder, slow, 100):>12,.2f}")


if __name__ == "__main__":
    sys.exit(measured(words_of("Times what a line costs by each limit of a listing.", rounds=5), measure))
