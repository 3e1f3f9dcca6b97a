#!/usr/bin/env python3
"""Compares `--among` and `--jump` of the program with whole listings from both sides: python3 conformance/both_ways.py

It draws tables of all versions, with gaps, sequences, conditions, types and actions, with registered labels, old ones too,
until it has the given number of pairs of a label and a registered one. Of two labels that the table doesn't
refuse, what each is to the other is what the program's own whole listings say; with one that it refuses, or an old one,
it is what arises (collisions.py). The blocks of `--among` must say just that, those of `--others` the same without the
label itself, and so must turns: the program names the least label from a text on, and a database of SQLite its first
label from there on. Status 1 where anything differs.
"""

import argparse
import collections
import random
import re
import subprocess
import sys
import tempfile

from blocks import blocks_in
from compare import options_of
from fuzz import ALPHABETS, Fuzz, listing_of
from collisions import NONE, VARIANT
from idn2_registry.notation.faults import TableFault
from jumps import NOTHING, by_turns
from ruleset_labels import Unknown

ASKED, REGISTERED, MOST_PARTS, SHOWN = 30, 100, 4, 5


class Program:
    """The program under a table in a folder, by the profile or by the standards."""

    def __init__(self, path, folder, words):
        self.path, self.folder, self.words = path, folder, words

    def run(self, words, lines):
        """A run that answers lines, or refuses some."""
        given = "".join(line + "\n" for line in lines).encode()
        done = subprocess.run([self.path, *self.words, *words], input=given, capture_output=True, cwd=self.folder)
        if done.returncode not in (0, 1):
            raise SystemExit(f"{self.words} {words}: {done.stderr.decode()}")
        return done

    def blocks(self, words, lines):
        """Of each line the fields of the lines of its block, or None if it is refused."""
        done = self.run(words, lines)
        refused = {int(number) for number in re.findall(rb"line (\d+):", done.stderr)}
        answered = [number for number in range(1, len(lines) + 1) if number not in refused]
        blocks = dict(zip(answered, (block for block, [] in blocks_in(done.stdout)), strict=True))
        return [blocks.get(number) for number in range(1, len(lines) + 1)]

    def others(self, labels):
        """The blocks of `--others`, by the labels that their ends name."""
        return {label: block for block, [label] in blocks_in(self.run(["--among", "registered", "--others"], labels).stdout)}


def by_listings(program, labels, registered, under):
    """The registered labels that collide with each label that isn't refused, with what they are to it, and back."""
    blocks = zip([*labels, *registered], program.blocks([], [*labels, *registered]))
    listed = {label: block and {fields[0]: (*fields[2:], VARIANT)[0] for fields in block} for label, block in blocks}

    def regards(label, other):
        if listed[other] is None:
            return under.regards(label, other)
        return listed[label].get(other, NONE), listed[other].get(label, NONE)

    pairs = {label: [[other, *regards(label, other)] for other in registered]
             for label in labels if listed[label] is not None}
    return {label: [each for each in found if each[1:] != NOTHING] for label, found in pairs.items()}


class Cases(Fuzz):
    """Cases are drawn as those of the other comparisons are, of labels with short listings."""

    def sources_of_any_length(self, entries):
        return self.sources(entries, MOST_PARTS)

    def case(self):
        """How many labels were asked under one table, how many collisions there are, and what differs."""
        self.choose_properties()
        letters = self.chance.choice(ALPHABETS)
        text, entries = self.table(letters)
        (self.folder / "table").write_bytes(text)
        run = self.second.by_standard if self.choice else self.second.by_profile
        try:
            table = run.table(listing_of(text), text)
        except TableFault:
            return 0, 0, None
        drawn = [self.requested(entries) for _ in range(ASKED)]
        count = self.chance.randint(0, REGISTERED)
        near = [self.near(entries, letters, self.chance.choice(drawn)) for _ in range(count)]
        labels = sorted({label for label in map("".join, drawn) if self.may_be_registered(label)})
        drawn = sorted({*near, *self.chance.sample(labels, len(labels) // 2)})
        lines = {label: self.registered_line(label) for label in drawn}
        registered = [label for label, line in lines.items() if line is not None]
        (self.folder / "registered").write_text("".join(lines[label] + "\n" for label in registered), encoding="utf-8")
        program = Program(self.program, self.folder, [*self.choice, listing_of(text), "table"])
        try:
            wanted = by_listings(program, labels, registered, run.collisions_under(table))
        except Unknown:
            return 0, 0, None
        labels = list(wanted)
        blocks = program.blocks(["--among", "registered"], labels)
        among = {label: [[fields[0], *fields[2:]] for fields in block] for label, block in zip(labels, blocks)}
        turns = by_turns([program.path, *program.words], labels, registered, program.folder)
        others = program.others(labels)
        differences = [f"{self.choice} {text.decode()!r}, {registered}: {label} --others {others.get(label)}"
                       for label, block in zip(labels, blocks)
                       if [fields for fields in block if fields[0] != label] != others.get(label, [])]
        said = {label: (wanted[label], among[label], turns[label]) for label in labels}
        differences += [f"{self.choice} {text.decode()!r}, {registered}: {label}\n"
                       f"  listings {own}\n  --among  {block}\n  --jump   {found}"
                       for label, (own, block, found) in said.items() if not own == block == found]
        return len(labels) * len(registered), sum(map(len, wanted.values())), differences


def main():
    words = argparse.ArgumentParser(description="Compares collisions with whole listings from both sides.")
    words.add_argument("--cases", default=20_000, type=int, help="how many pairs of a label and a registered one")
    words.add_argument("--seed", default=random.randrange(10**9), type=int, help="where the random input begins")
    options = options_of(words)
    print(f"seed {options.seed}", flush=True)
    counts = collections.Counter()
    with tempfile.TemporaryDirectory() as folder:
        cases = Cases(options.program.resolve(), random.Random(options.seed), folder)
        while counts["cases"] < options.cases:
            asked, collisions, differences = cases.case()
            counts.update(cases=asked, collisions=collisions, differences=len(differences or ()), tables=bool(asked))
            for difference in (differences or ())[:SHOWN]:
                print(difference, flush=True)
    print(f"{counts['tables']:,} tables, {counts['cases']:,} pairs, {counts['collisions']:,} collisions, "
          f"{counts['differences']:,} differences")
    return 1 if counts["differences"] else 0


if __name__ == "__main__":
    sys.exit(main())
