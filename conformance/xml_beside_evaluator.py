#!/usr/bin/env python3
"""Compares what the program says of rulesets in XML (RFC 7940) with the evaluator of the standard:
python3 conformance/xml_beside_evaluator.py [--seed SEED] [--jobs JOBS] [N]

N files [default: 6000] are drawn from a seed (tests/rich_ruleset.py, and each third as in tests/random_ruleset.py). Of each,
some labels have to be answered by the program, which reads the file itself, as by the evaluator: refused, or with the same
variants, each of them allocatable, blocked or unclear. A label is refused with 40 if no entries are in it one after the other,
whatever their conditions, and else with 41. The reference implementation has to say the same of the ruleset of version 3 that
the program prints of the file, and what is printed of that is the same text. A file that the evaluator refuses has to be refused, and no
other, but for one that has what no ruleset says (37), or is past a limit (34). What RFC 5891 refuses is left out, and so is a
label with too many variants. Status 1 where anything differs."""

import collections
import itertools
import pathlib
import random
import re
import subprocess
import sys
import tempfile

ROOT = pathlib.Path(__file__).resolve().parent.parent
sys.path += [str(ROOT / folder) for folder in ("registry", "tests")]

from compare import PROGRAM
from drawn_rulesets import compare_drawn, count_answer
from evaluator_answers import asked_of_program, registrable
from idn2_registry.notation import reading
from idn2_registry.rfc7940.drawn_labels import every_variant
from idn2_registry.rfc7940.reader import read
from idn2_registry.rfc7940.ruleset import Asked, Ruleset, Verdict
from idn2_registry.rfc7940.schema import Refused
from random_ruleset import RandomRuleset
from rich_ruleset import RichRuleset
from ruleset_labels import NOT_MADE_OF_ENTRIES, NOT_VALID, RulesetLabels

WHOLE = '<lgr xmlns="urn:ietf:params:xml:ns:lgr-1.0"><data>\n{}\n</data><rules>\n{}\n</rules></lgr>\n'
FAULT = re.compile(rb"idn2: table line (\d+): (\d+) .*\n")
TABLE_LIMIT, NOT_SUPPORTED = 34, 37
# Labels of each file: of up to two entries, of more, and of any of their code points.
SHORT, LONGER, OTHERS = 40, 20, 10
MOST_VARIANTS = 600

Answer = dict[str, str] | None


class Drawn:
    """A file and labels, by a seed and a number."""

    def __init__(self, seed: int, number: int) -> None:
        self.chance = random.Random(f"{seed} {number}")
        one = (RandomRuleset if number % 3 == 0 else RichRuleset)(self.chance.random())
        self.text = WHOLE.format(one.data, one.rules).encode()

    def labels(self, ruleset: Ruleset) -> list[str]:
        sources = sorted(ruleset.entries)
        points = sorted({point for source in sources for point in source})
        short = ["".join(parts) for size in (1, 2) for parts in itertools.product(sources, repeat=size)]
        drawn = self.chance.sample(short, min(SHORT, len(short)))
        drawn += ["".join(self.chance.choices(sources, k=self.chance.randint(3, 5))) for _ in range(LONGER)]
        drawn += ["".join(self.chance.choices(points, k=self.chance.randint(2, 5))) for _ in range(OTHERS)]
        return sorted(set(drawn))


def answer_of(asked: Asked) -> Answer:
    """What the evaluator says of a label; ValueError where it has too many variants."""
    if not asked.is_valid:
        return None
    variants = every_variant(asked, MOST_VARIANTS)
    if variants is None:
        raise ValueError(asked.label)
    verdicts = {variant: asked.verdict(variant) for variant in variants}
    return {variant: verdict.value for variant, verdict in verdicts.items() if verdict is not Verdict.ABSENT}


def refusal_of(ruleset: Ruleset, label: str, answer: Answer) -> int | None:
    """The number by which a label is refused."""
    if answer is not None:
        return None
    reached = {0}
    for place in range(len(label)):
        if place in reached:
            reached.update(place + len(entry.points) for entry in ruleset.entries_at(label, place))
    return NOT_VALID if len(label) in reached else NOT_MADE_OF_ENTRIES


def printed(text: bytes) -> tuple[bytes, bytes]:
    """What the program prints of a ruleset, and its messages."""
    with tempfile.NamedTemporaryFile() as file:
        file.write(text)
        file.flush()
        done = subprocess.run([PROGRAM, "--print-ruleset", file.name], capture_output=True, check=False)
    return done.stdout, done.stderr


def compared(seed: int, number: int) -> collections.Counter[str]:
    """What was compared of a drawn file; AssertionError where anything differs."""
    drawn, counts = Drawn(seed, number), collections.Counter[str](files=1)
    told = lambda *what: f"number {number}: {what}\n{drawn.text.decode()}"
    text, message = printed(drawn.text)
    fault = FAULT.fullmatch(message)
    assert (text == b"" if fault else message == b""), told(text, message)
    try:
        ruleset = read(drawn.text)
    except Refused as refused:
        assert fault, told("not refused", refused)
        counts[f"files refused with {int(fault[2])}, by the evaluator too"] += 1
        return counts
    if fault:
        assert int(fault[2]) in (TABLE_LIMIT, NOT_SUPPORTED), told(message)
        counts[f"files refused with {int(fault[2])}"] += 1
        return counts
    assert printed(text) == (text, b""), told("printed again", printed(text))
    reference = RulesetLabels(reading.read(text, lambda _: True), 10 * MOST_VARIANTS)
    wanted: dict[str, Answer] = {}
    for label in drawn.labels(ruleset):
        try:
            wanted[label] = answer_of(Asked(ruleset, label))
        except ValueError:
            counts["labels left out"] += 1
    known = registrable(set(wanted).union(*(answer or () for answer in wanted.values())))
    labels = sorted(known.intersection(wanted))
    listed, refused = asked_of_program(drawn.text, labels)
    for label in labels:
        answer = wanted[label]
        by_reference = reference.answer(label)
        # A variant with a code point that no label has is left out of the ruleset of version 3.
        of_labels = lambda said: said and {variant: kind for variant, kind in said.items() if variant in known}
        found = listed.get(label), refused.get(label), of_labels(by_reference)
        right = of_labels(answer), refusal_of(ruleset, label, answer), of_labels(answer)
        assert found == right, told(label.encode("unicode_escape"), found, right)
        count_answer(counts, right[1], right[0])
    return counts


def main(words: list[str]) -> int:
    return compare_drawn("Compares the program with the evaluator on rulesets in XML.", compared, words)


if __name__ == "__main__":
    sys.exit(main(sys.argv[1:]))
