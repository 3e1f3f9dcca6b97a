"""Draws rulesets of version 3: with types, sets, rules of both kinds, demands, actions and conditions, most of them
well-formed."""

import argparse
import functools
import multiprocessing
import sys
from collections import Counter
from collections.abc import Callable, Mapping

from idn2_registry.notation.points import spelled as spelled_points
from idn2_registry.notation.ruleset import DISPOSITIONS

TYPES, CONTEXT_RULES, WHOLE_LABEL_RULES = ("simp", "trad", "Kana9"), ("r", "follows", "Ends_2"), ("w", "Has_0")
# Lines with a fault, wherever they stand, or where what they name isn't defined, or where other patterns have more than
# six atoms.
FAULTY_LINES = (
    "%tag t", "%type", "%type a b", "% type t", "%Type t", "%set A 0063..0061", "%set A", "%rule x _ _", "%rule x 0061",
    "%rule x 0061 $ _", "%rule x _ (^)", "%rule x ((0061*)*)* _", "%never (0061 (0062* ^)*)*",
    "%rule x _ ((((((((( $ )))))))))", "%always " + "^" * 4090, "%whole x", "%whole x _", "%whole x 0061 / _",
    "%whole x ((0061*)*)*", "%whole x " + "^" * 4090, "%never", "%never _", "%never (0061", "%always 0061**",
    "%never @nope", "%whole x @nope", "%whole x 0041", "%action", "%action block", "%action valid any",
    "%action valid any simp,", "%action valid any valid,invalid,valid", "%action valid any valid when w",
    "%action valid when", "%action valid when w unless w", "%action valid all valid only valid",
    "%action blocked any nope", "%action blocked when nope any nope", "%action blocked unless r",
    "%action blocked when simp", "%rule x 0041 _", "%set C 0041", "0061 when nope", "0061 unless", "0061 as nope",
    "0061 as valid,simp", "!0061 as simp", "0061 when r as simp", "0061|0062 when nope", "0061|0062 as",
    "0061 as simp,", "%always 0041", "0061|0062 when r:0062", "0061|!0062:0062 as valid", "0061..0063 when nope",
    "0061..0063 as nope", "0061 when r:0062", "%rule r _", "%whole w .", "%rule w _", "%type simp", "%type blocked",
    "%set simp 0061", "%set valid 0061",
)


def words_of_drawing(description: str, seed: int) -> argparse.ArgumentParser:
    """The words of a script that draws: from which seed, how many, and by how many processes."""
    words = argparse.ArgumentParser(description=description)
    words.add_argument("--seed", type=int, default=seed)
    words.add_argument("--jobs", type=int, default=1, help="processes side by side")
    words.add_argument("count", metavar="N", type=int, nargs="?", default=6000)
    return words


def counted(compared: Callable[[int, int], Counter[str]], seed: int, count: int, jobs: int) -> Counter[str]:
    """What is found in so many that are drawn, each by the seed and its number. Standard error tells how far it is."""
    counts = Counter[str]()
    with multiprocessing.Pool(jobs) as pool:
        for number, found in enumerate(pool.imap(functools.partial(compared, seed), range(count), chunksize=4), 1):
            counts += found
            if number % 500 == 0:
                print(f"{number} of {count}", file=sys.stderr, flush=True)
    return counts


def count_answer(counts: Counter[str], refusal: int | None, variants: Mapping[str, str] | None) -> None:
    """Counts a label that is refused with a number or accepted, and its variants by what is told of them."""
    counts[f"labels refused with {refusal}" if refusal else "labels accepted"] += 1
    counts.update(f"variants: {told}" for told in (variants or {}).values())


def compare_drawn(description: str, compared: Callable[[int, int], Counter[str]], words: list[str]) -> int:
    """Runs a script that compares what is drawn, and gives its status."""
    given = words_of_drawing(description, 7940).parse_args(words)
    return tell_counts(lambda: counted(compared, given.seed, given.count, given.jobs))


def tell_counts(count: Callable[[], Counter[str]]) -> int:
    """Prints what a script counts, the most first, and gives its status: 1, with the difference, where it finds one."""
    try:
        counts = count()
    except AssertionError as difference:
        print(difference)
        return 1
    for name, number in counts.most_common():
        print(f"{number:9,}  {name}")
    return 0


def spelled(sequence):
    return spelled_points(tuple(map(ord, sequence)))


class DrawnRuleset:
    """`lines` are those of a ruleset, without the version line, for these sources and their variants, of which those in
    `invalid` have that reflexive type. Its patterns are of the letters."""

    def __init__(self, chance, letters, entries, invalid):
        self.chance, self.letters = chance, sorted(set(letters))
        self.types = chance.sample(TYPES, chance.choice((0, 0, 1, 2, 3)))
        self.names = [] if chance.random() < 0.15 else [*self.types * 2, *DISPOSITIONS]
        self.sets = dict(zip(("A", "B_1"), (self.some_letters() for _ in range(chance.choice((0, 1, 2))))))
        self.rules = chance.sample(CONTEXT_RULES, chance.choice((0, 1, 1, 2, 3)))
        self.whole_label_rules = chance.sample(WHOLE_LABEL_RULES, chance.choice((0, 0, 1, 2)))
        sets = [f"%set {name} {self.spans(points)}" for name, points in self.sets.items()]
        others = [f"%type {name}" for name in self.types]
        others += [f"%rule {name} " + self.alternatives(self.context) for name in self.rules]
        others += [f"%whole {name} {self.pattern((1, 2, 2))}" for name in self.whole_label_rules]
        others += [self.demand() for _ in range(chance.choice((0, 0, 1, 1, 2)))]
        chance.shuffle(others)
        actions = [self.action() for _ in range(chance.choice((0, 0, 1, 2, 4)))]
        entries = [self.entry(source, variants, source in invalid) for source, variants in entries.items()]
        self.lines = sets + others + chance.choice((actions + entries, entries + actions))

    def maybe(self, probability, text):
        return text if self.chance.random() < probability else ""

    # Definitions.

    def some_letters(self):
        return sorted(map(ord, self.chance.sample(self.letters, self.chance.randint(1, len(self.letters)))))

    def spans(self, points):
        """The code points as spans that rise; of neighbours at times one span, which may have others between its
        ends."""
        spans = []
        for point in points:
            if spans and point - spans[-1][1] < 4 and self.chance.random() < 0.5:
                spans[-1][1] = point
            else:
                spans.append([point, point])
        to = lambda: self.chance.choice(("..", " .. "))
        return " ".join(f"{first:04X}" if first == last else f"{first:04X}{to()}{last:04X}" for first, last in spans)

    def alternatives(self, draw, *words):
        return self.chance.choice((" / ", "/")).join(draw(*words) for _ in range(self.chance.choice((1, 1, 1, 2))))

    def context(self):
        """What stands before and after a place, each of which may be nothing."""
        before = self.maybe(0.2, "^ ") + self.items(self.chance.choice((0, 1, 1, 2)))
        after = self.items(self.chance.choice((0, 0, 1, 1))) + self.maybe(0.2, " $")
        return f"{before} _ {after}"

    def pattern(self, counts):
        """At times about the ends of a label."""
        parts = lambda: self.maybe(0.2, "^ ") + self.items(self.chance.choice(counts)) + self.maybe(0.2, " $")
        return self.alternatives(parts)

    def demand(self):
        """Mostly of more than one code point, so that some labels keep it."""
        word = self.chance.choice(("%never", "%never", "%always"))
        return f"{word} {self.pattern((1, 1, 2) if word == '%always' else (2, 2, 3))}"

    def action(self):
        disposition = self.chance.choice((*DISPOSITIONS, "blocked"))
        types = self.maybe(0.85, f" {self.chance.choice(('any', 'all', 'only'))} {self.some_types()}")
        return f"%action {disposition}{self.condition(0.3, self.whole_label_rules)}{types}"

    def some_types(self):
        names = [*self.types, *DISPOSITIONS]
        return self.chance.choice((",", " , ")).join(self.chance.sample(names, self.chance.randint(1, 3)))

    def items(self, count, depth=2, stars=2):
        return " ".join(self.item(depth, stars) for _ in range(count))

    def item(self, depth, stars):
        """An atom with or without a sign after it; groups and stars stand within each other as often as they may."""
        sign = self.chance.choice(("", "", "", "?", "*"))
        within = stars - (sign == "*")
        if within < 0:
            sign, within = "?", stars
        if depth and self.chance.random() < 0.2:
            edges = lambda: self.maybe(0.05, " ^") + self.maybe(0.05, " $")
            branch = lambda: self.items(self.chance.choice((1, 1, 2)), depth - 1, within) + edges()
            return f"({self.alternatives(branch)}){sign}"
        return self.atom() + sign

    def atom(self):
        atoms = [f"{ord(self.chance.choice(self.letters)):04X}" for _ in range(3)]
        atoms += ["."] + [f"@{name}" for name in self.sets] * 2
        return self.chance.choice(atoms)

    # Entries.

    def entry(self, source, variants, is_invalid):
        mapped = [part for variant in variants for part in self.variant(variant)]
        return self.source(spelled(source), is_invalid) + ("|" if mapped else "") + ":".join(mapped)

    def source(self, text, is_invalid):
        """A source, or a range, with its reflexive type and its condition."""
        typed = f"!{text}" if is_invalid else text + self.maybe(0.5, self.typed())
        return typed + self.condition(0.3, self.rules + self.whole_label_rules)

    def variant(self, variant):
        """A variant; at times two times, under conditions that differ."""
        text, rules = spelled(variant), self.rules + self.whole_label_rules
        if rules and self.chance.random() < 0.1:
            rule = self.chance.choice(rules)
            return [f"{self.replacement(text)} when {rule}", f"{self.replacement(text)} unless {rule}"]
        return [self.replacement(text) + self.condition(0.2, rules)]

    def replacement(self, text):
        if self.names and self.chance.random() < 0.3:
            return self.chance.choice(("!", "! ")) + text
        return text + self.maybe(0.6, self.typed())

    def typed(self):
        return f" as {self.chance.choice(self.names)}" if self.names else ""

    def condition(self, probability, rules):
        if not rules:
            return ""
        return self.maybe(probability, f" {self.chance.choice(('when', 'unless'))} {self.chance.choice(rules)}")
