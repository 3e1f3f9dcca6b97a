"""Files of registered labels for the measurements, made from a seed, and the tables that go with them."""

import random
import re
import subprocess
import sys

from inputs import SEED, TABLE, choices_of_table, write

sys.path.append(str(TABLE.parent.parent / "registry"))

from idn2_registry.notation.ruleset import INVALID
from idn2_registry.parsed_table import ParsedTable
from idn2_registry.program import Program
from idn2_registry.tables import read_table
from runs import Failed

GERMAN = TABLE.parent / "german.txt"
RULESETS = sorted((TABLE.parent / "rulesets").glob("*.txt"))
SYLLABLES = ("an ber ei der ge ha in ka lo me nu os pa ra ss ste tra un vo wa zu ß ü ö ä ue oe ae sch ch").split()
# So many short labels stand in the place of syllables in labels of another table.
SYLLABLES_DRAWN = 1_000
LETTERS = "abcdefghijklmnopqrstuvwxyz"
# The places of a label under `two_letters`, of which each has two variants.
FEW_PLACES, MANY_PLACES = 30, 62


def distinct(count, make):
    """So many labels, in label order."""
    labels = set()
    while len(labels) < count:
        labels.add(make())
    return sorted(labels)


def german_words(count):
    chance = random.Random(f"{SEED} words")
    return distinct(count, lambda: "".join(chance.choices(SYLLABLES, k=chance.randint(3, 7))))


def han_labels(count):
    """Labels of characters that have variants under the table for Han."""
    chance, choices = random.Random(f"{SEED} Han"), choices_of_table()
    characters = [character for character in choices if choices[character] > 1]
    return distinct(count, lambda: "".join(chance.choices(characters, k=chance.randint(2, 10))))


def accepted(ours, words, labels):
    """Those of some labels that the program doesn't refuse."""
    given = "".join(label + "\n" for label in labels).encode()
    done = subprocess.run([ours, *map(str, words)], input=given, stdout=subprocess.DEVNULL, stderr=subprocess.PIPE)
    refused = {int(number) for number in re.findall(rb"line (\d+):", done.stderr)}
    return [label for number, label in enumerate(labels, 1) if number not in refused]


class Drawn:
    """Labels that a table or a ruleset accepts, drawn at random: like words, they have syllables in common."""

    def __init__(self, ours, path):
        self.path, self._ours, self._chance = path, ours, random.Random(f"{SEED} {path.stem}")
        table = read_table(path.stem, path, Program(ours))
        self.listing = table.kind.lists
        entries = ParsedTable.read(table).entries
        self._letters = ["".join(map(chr, entry.source.points)) for entry in entries if entry.source.type != INVALID]
        short = self._accepted("".join(self._some(self._letters, 1, 3)) for _ in range(20 * SYLLABLES_DRAWN))
        self._syllables = self._chance.sample(short, min(len(short), SYLLABLES_DRAWN))

    def _some(self, parts, least, most):
        return self._chance.choices(parts, k=self._chance.randint(least, most))

    def _accepted(self, labels):
        return accepted(self._ours, [self.listing, self.path, "--limit", "1", "--tries", "1"], sorted({*labels}))

    def labels(self, count):
        """So many of them, in label order."""
        if self.path == GERMAN:
            return german_words(count)
        labels = set()
        while (left := count - len(labels)) > 0:
            labels.update(self._accepted("".join(self._some(self._syllables, 2, 5)) for _ in range(left + left // 4 + 1_000)))
            if count - len(labels) >= left - left // 100:
                raise Failed(f"{self.path.name}: not so many labels can be drawn for it")
        return sorted(self._chance.sample(sorted(labels), count))

    def near(self, labels, count):
        """So many of them, each of which is one of some labels but for its last code point. Some may come twice."""
        found = []
        while len(found) < count:
            asked = [self._chance.choice(labels)[:-1] + self._chance.choice(self._letters) for _ in range(2 * count)]
            known = {*self._accepted(asked)}
            found += [label for label in asked if label in known]
        return found[:count]


def letters(count):
    chance = random.Random(f"{SEED} letters")
    return distinct(count, lambda: "".join(chance.choices(LETTERS, k=chance.randint(4, 14))))


def between_variants(count):
    """Each lies between two labels of FEW_PLACES letters a and b, and no two between the same."""
    chance = random.Random(f"{SEED} between")
    return distinct(count, lambda: "".join(chance.choices("ab", k=FEW_PLACES - 1)) + "c")


def two_letters(folder):
    """A table in which a and b are each other's variants, and no other letter has any."""
    return write(folder, "two letters", ["0061|0062", "0062|0061", *(f"{ord(letter):04X}" for letter in LETTERS[2:])])
