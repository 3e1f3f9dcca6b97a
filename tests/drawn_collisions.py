#!/usr/bin/env python3
"""Runs the built program over registered labels under random tables, mostly with gaps: what it finds by --among, --others and
--jump is compared with a database's own index and with full listings. The last line is 'N passed, M failed', and the exit
status is 0 where nothing failed."""

import functools
import os
import random
import sys
from typing import NamedTuple

from program import PROGRAM, ROOT, encoded, is_registrable, lines_file, run, run_tests, table_file

sys.path.append(os.path.join(ROOT, "conformance"))

from blocks import blocks_in
from jumps import NOTHING, by_turns


class Case(NamedTuple):
    """A table, with the words of a run under it; labels that it admits, and registered ones, both in order."""

    table: dict
    words: list
    labels: list
    registered: list


def drawn_cases(folder, seed, count, alphabet="abß"):
    """Random cases from a fixed seed, with what draws on."""
    chance = random.Random(seed)
    for _ in range(count):
        table = random_table(chance, alphabet)
        labels, registered = drawn_labels(chance, table)
        words = ["--variants", table_file(folder, text_of(chance, table).encode())]
        yield Case(table, words, labels, registered), chance


def random_table(chance, alphabet):
    """A table of random entries, mostly with gaps, as a map. Its sources make up each label of these letters."""
    sequence = lambda: "".join(chance.choices(alphabet, k=chance.choice((1, 1, 2, 3))))
    table = {letter: set() for letter in alphabet}
    for _ in range(chance.randint(2, 6)):
        table.setdefault(sequence(), set()).add(sequence())
    return {source: sorted(variants - {source}) for source, variants in table.items()}


def text_of(chance, table):
    """The same as a text of one of the two versions, in which some variants are blocked."""
    is_version_2 = chance.random() < 0.5
    points = lambda text: "-".join(f"{ord(letter):04X}" for letter in text)
    mark = lambda: "!" if is_version_2 and chance.random() < 0.5 else ""
    lines = ["%version 2"] if is_version_2 else []
    lines += [points(source) + ("|" if variants else "") + ":".join(mark() + points(each) for each in variants)
              for source, variants in table.items()]
    return "".join(line + "\n" for line in lines)


def drawn_labels(chance, table):
    """Labels that are cut into sources, and at most a hundred registered labels: some that are near these, and neighbors of
    such. All are short, so that they have short listings."""
    drawn = {"".join(chance.choices([*table], k=chance.randint(1, 4))) for _ in range(12)}
    labels = [label for label in sorted(drawn) if is_registrable(label) and len(label) <= 5]
    near = {label for each in labels for label in near_of(table, each)}
    near |= {label + chance.choice([*table]) for label in near} | {label[:-1] for label in near}
    short = sorted(label for label in near if is_registrable(label) and len(label) <= 6)
    return labels, sorted(chance.sample(short, min(chance.choice((5, 20, 100)), len(short))))


def partners_of(table):
    """Each source or variant with all that goes together with it: by this, a label spells what is near it."""
    pairs = {(source, each) for source, variants in table.items() for each in variants}
    pairs |= {(each, source) for source, each in pairs} | {(source, source) for source in table}
    return {one: sorted(other for of, other in pairs if of == one) for one, _ in pairs}


def near_of(table, label):
    """All labels that may collide with a label, in order. What is only a variant doesn't stand for itself."""
    partners = partners_of(table)

    @functools.cache
    def joined(rest):
        return {""} if not rest else {first + last for part, others in partners.items() if rest.startswith(part)
                                      for first in others for last in joined(rest[len(part):])}
    return sorted(joined(label))


def blocks_of(words, labels):
    """For each label the lines of its block, which is whole, each by its label and the fields after its A-label."""
    done = run(words, "".join(label + "\n" for label in labels).encode())
    assert (done.returncode, done.stderr) == (0, b""), (words, done.stderr)
    blocks = [[[label, *fields] for label, _, *fields in block] for block, [] in blocks_in(done.stdout)]
    assert len(blocks) == len(labels), (words, len(blocks))
    return blocks


def finds_the_same_in_three_ways(folder):
    """By the file, by a database with jumps, and by whole listings of both labels."""
    asked, found = 0, 0
    for (table, words, labels, registered), _ in drawn_cases(folder, 5890, 30):
        among = blocks_of([*words, "--among", lines_file(folder, registered)], labels)
        whole = [{label: (*fields, "variant")[0] for label, *fields in block}
                 for block in blocks_of(words, labels + registered)]
        back = dict(zip(registered, whole[len(labels):]))
        collisions = by_turns([PROGRAM, *words], labels, registered)
        for label, block, listed in zip(labels, among, whole):
            regards = [[each, listed.get(each, "none"), back[each].get(label, "none")] for each in registered]
            expected = [each for each in regards if each[1:] != NOTHING]
            case = (table, registered, label)
            assert block == expected == collisions[label], (*case, expected, block, collisions[label])
            asked, found = asked + 1, found + len(block)
    assert asked > 200 and found > 300, (asked, found)


def jumps_to_the_least_of_all_that_is_near(folder):
    """From neighbours of labels that may collide, registrable or not."""
    for (table, words, labels, _), chance in drawn_cases(folder, 3492, 40, "a-ß"):
        requests, answers = [], []
        for label in labels:
            near = near_of(table, label)
            some = chance.sample(near, min(20, len(near)))
            texts = {"", *some, *(each + "a" for each in some), *(each[:-1] + "b" for each in some)}
            for text in sorted(texts):
                requests.append(f"{label}\t{text}\n")
                answers.append(next((each for each in near if each >= text), "#end"))
        done = run([*words, "--jump"], "".join(requests).encode())
        assert (done.stderr, done.returncode) == (b"", 0), done
        assert [line.split("\t")[0] for line in done.stdout.decode().splitlines()] == answers, (table, labels)


def finds_in_parts_what_the_whole_has(folder):
    """The registered labels cut in two files: the block of the whole has the lines of the first, then of the second."""
    for (table, words, labels, registered), chance in drawn_cases(folder, 7940, 40):
        cut = chance.randint(0, len(registered))
        whole, first, second = (blocks_of([*words, "--among", lines_file(folder, part)], labels)
                                for part in (registered, registered[:cut], registered[cut:]))
        assert whole == [one + other for one, other in zip(first, second)], (table, registered, cut)


def sees_a_collision_from_either_side(folder):
    """What is there from one side is back from the other, also in a table with gaps."""
    seen = 0
    for (table, words, labels, registered), _ in drawn_cases(folder, 4290, 12):
        forth = blocks_of([*words, "--among", lines_file(folder, registered)], labels)
        back = dict(zip(registered, blocks_of([*words, "--among", lines_file(folder, labels)], registered)))
        for label, found in zip(labels, forth):
            reverse = [[other, *regards[::-1]] for other in sorted(registered)
                       for each, *regards in back[other] if each == label]
            assert found == reverse, (table, label, found, reverse)
            seen += len(found)
    assert seen > 100, seen


def compares_a_register_with_itself(folder):
    """With `--others` each block is that of `--among` without the label itself, under its name; an empty one isn't there."""
    seen = 0
    for (table, words, labels, registered), _ in drawn_cases(folder, 8228, 12):
        file = lines_file(folder, [*labels, *registered])
        lines = sorted({*labels, *registered})
        given = encoded("".join(label + "\n" for label in lines))
        all_of_it, others = (run([*words, "--among", file, *more], given) for more in ([], ["--others"]))
        assert (all_of_it.stderr, all_of_it.returncode) == (others.stderr, others.returncode), (table, registered)
        refused = {int(message.split()[2].rstrip(b":")) for message in all_of_it.stderr.splitlines()}
        answered = (label for number, label in enumerate(lines, 1) if number not in refused)
        blocks = {label: [fields for fields in block if fields[0] != label]
                  for label, (block, []) in zip(answered, blocks_in(all_of_it.stdout), strict=True)}
        wanted = [(block, [label]) for label, block in blocks.items() if block]
        assert [*blocks_in(others.stdout)] == wanted, (table, registered)
        seen += sum(map(len, blocks.values()))
    assert seen > 100, seen


TESTS = [
    finds_the_same_in_three_ways,
    jumps_to_the_least_of_all_that_is_near,
    finds_in_parts_what_the_whole_has,
    sees_a_collision_from_either_side,
    compares_a_register_with_itself,
]


if __name__ == "__main__":
    sys.exit(run_tests("drawn_collisions", TESTS))
