#!/usr/bin/env python3
"""Compares what the program says of rulesets in XML with another evaluator of RFC 7940:
python3 conformance/evaluator_answers.py FOLDER

FOLDER has rulesets in XML, and answers.txt with a line for each label: the ruleset's file, a tab, the label, a tab, and
'invalid' or the variants that the ruleset finds valid, the label itself among them, each with '=allocatable' or '=blocked',
parted by blanks. Labels are written as code points in hexadecimal, joined by hyphens. This project's own evaluator,
idn2_registry.rfc7940, answers from the XML, and so does the program; the reference implementation, ruleset_labels.py, answers
from the ruleset of version 3 that the program prints of it. What RFC 5891 refuses is left out on all sides. The status is 0
where all answers agree."""

import collections
import pathlib
import re
import subprocess
import sys
import tempfile

from compare import PROGRAM
from idn2_registry.notation import reading
from idn2_registry.rfc7940.drawn_labels import every_variant
from idn2_registry.rfc7940.reader import read
from idn2_registry.rfc7940.ruleset import Asked, Verdict
from ruleset_labels import BLOCKED, UNCLEAR, RulesetLabels

# No answer has so many variants.
MOST_SPELLED = 1_000_000


def label_of(text):
    return "".join(chr(int(digits, 16)) for digits in text.split("-"))


def answers_of(folder):
    """For each file its labels, each with its variants, or None if it is refused."""
    answers = collections.defaultdict(dict)
    for line in (folder / "answers.txt").read_text(encoding="ascii").splitlines():
        name, label, answer = line.split("\t")
        variants = [word.split("=") for word in answer.split()]
        answers[name][label_of(label)] = None if answer == "invalid" else {label_of(text): kind for text, kind in variants}
    return answers


def printed(path):
    """The ruleset of version 3 that the program prints of one in XML; None if it is refused, which is told."""
    done = subprocess.run([PROGRAM, "--print-ruleset", path], capture_output=True, check=False)
    if done.returncode:
        print(f"{path.name}: {done.stderr.decode().strip()}")
        return None
    return done.stdout


def run(words, labels):
    """The output, the messages as pairs of a line and a number, and the status of the program."""
    given = "".join(label + "\n" for label in labels)
    done = subprocess.run([PROGRAM, *words], input=given, capture_output=True, encoding="utf-8", check=False)
    return done.stdout, dict(re.findall(r"^idn2: line (\d+): (\d+) ", done.stderr, re.MULTILINE)), done.returncode


def registrable(labels):
    labels = sorted(labels)
    refused = run(["--register"], labels)[1]
    return {label for number, label in enumerate(labels, 1) if str(number) not in refused}


def answers_of_evaluator(ruleset, labels):
    return {label: answer_of_evaluator(Asked(ruleset, label)) for label in labels}


def answer_of_evaluator(asked):
    if not asked.is_valid:
        return None
    verdicts = {variant: asked.verdict(variant) for variant in every_variant(asked, MOST_SPELLED)}
    return {variant: verdict.value for variant, verdict in verdicts.items() if verdict is not Verdict.ABSENT}


def answers_of_reference(text, labels):
    ruleset = RulesetLabels(reading.read(text, lambda point: True), MOST_SPELLED)
    return {label: ruleset.answer(label) for label in labels}


def answers_of_program(text, labels):
    """The same of labels that may be registered; nothing of any, where the run doesn't end as it should."""
    answers, refused = asked_of_program(text, labels)
    return {**answers, **dict.fromkeys(refused)}


def asked_of_program(text, labels):
    """The variants of those labels that the program lists, and the numbers by which it refuses others."""
    with tempfile.NamedTemporaryFile(suffix=".txt") as file:
        file.write(text)
        file.flush()
        output, told, status = run(["--explain", "--ruleset", file.name], labels)
    refused = {label: int(told[str(number)]) for number, label in enumerate(labels, 1) if str(number) in told}
    blocks = [block.splitlines() for block in re.split(r"^#end \d+\n", output, flags=re.MULTILINE)]
    listed = [label for label in labels if label not in refused]
    if len(blocks) != len(listed) + 1 or blocks[-1] or status not in (0, 1):
        return {}, {}
    fields = [[line.split("\t") for line in block] for block in blocks]
    # the last field says that a variant is unclear, if it is
    return {label: {line[0]: line[-1] for line in lines} for label, lines in zip(listed, fields)}, refused


def differences(wanted, found):
    """The labels that are answered in another way. What is unclear is blocked in a listing."""
    each = [*wanted.values(), *found.values()]
    known = registrable(set(wanted).union(*(variants or () for variants in each)))
    told = lambda kind: BLOCKED if kind == UNCLEAR else kind
    asked = lambda variants: variants and {variant: told(kind) for variant, kind in variants.items() if variant in known}
    return [label for label in known.intersection(wanted) if label not in found or asked(wanted[label]) != asked(found[label])]


def differing(name, xml, text, wanted):
    """The labels of a file that the evaluator, the reference implementation or the program answers otherwise; each is told."""
    labels, found = sorted(wanted), set()
    known = sorted(registrable(labels))
    for who, answers in (("the evaluator", answers_of_evaluator(read(xml), labels)),
                         ("the reference implementation", answers_of_reference(text, labels)),
                         ("the program", answers_of_program(xml, known))):
        different = differences(wanted, answers)
        found.update(different)
        for label in different:
            print(f"{name}: {who} says something else of {'-'.join(f'{ord(letter):04X}' for letter in label)}")
    return found


def main(folder):
    total = agreeing = 0
    for name, wanted in answers_of(folder).items():
        total += len(wanted)
        text = printed(folder / name)
        if text:
            count = len(wanted) - len(differing(name, (folder / name).read_bytes(), text, wanted))
            agreeing += count
            print(f"{name}: {count} of {len(wanted)} answers agree", flush=True)
    print(f"{agreeing} of {total} answers agree")
    return agreeing != total


if __name__ == "__main__":
    if len(sys.argv) != 2:
        raise SystemExit("usage: evaluator_answers.py FOLDER")
    raise SystemExit(main(pathlib.Path(sys.argv[1])))
