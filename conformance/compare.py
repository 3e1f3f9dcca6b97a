#!/usr/bin/env python3
"""Compares our idn2 with libidn2 on many thousand names: python3 conformance/compare.py

For registration and decoding, without `--standard` and with it, and for lookup, both are asked about the same names
(names.py). Where both refuse, or both give the same text, they agree; every other case is a difference. Each difference
must be of a known kind (kinds.py), of which the script prints the number, the reason and an example. Our answers for
registration and decoding, the numbers of refusals too, must also be those of the reference implementation
(registration.py), for all names without a code point newer than the data here. Any other difference fails
the run: status 1.

Our program is run once for each mode; libidn2 is asked through its library, with the calls of its program. The
script needs libidn2 (Debian's package libidn2-0) and Unicode's data (unicode-data).
"""

import argparse
import collections
import pathlib
import re
import subprocess
import sys

HERE = pathlib.Path(__file__).resolve().parent
sys.path[:0] = [str(HERE.parent / folder) for folder in ("registry", "tables")]

import kinds
import names
from idn2_registry.unicode_data import Classes, version
from libidn2 import LibIdn2
from reference_run import Reference
from rules import UnicodeProperties

PROGRAM = HERE.parent / "crates/idn2/out/idn2"
MESSAGE = re.compile(r"idn2: line (\d+): (\d+) .+")
SHOWN = 5


def options_of(words):
    """What a script's words say, of which one may name our program. It has to be there."""
    words.add_argument("--program", default=PROGRAM, type=pathlib.Path, help="our program")
    options = words.parse_args()
    if not options.program.exists():
        raise SystemExit(f"{options.program} is not there: run make first, or name our program by --program")
    return options


def our_answers(program, options, lines):
    """(text, None) or (None, number) for each line, from one run of our program."""
    sent = "".join(line + "\n" for line in lines).encode()
    done = subprocess.run([program, *options], input=sent, capture_output=True)
    messages = done.stderr.decode().splitlines()
    refused = {}
    for message in messages:
        match = MESSAGE.fullmatch(message)
        if not match:
            raise SystemExit(f"{program} {options}: {message}")
        refused[int(match.group(1))] = int(match.group(2))
    texts = done.stdout.decode().split("\n")
    if len(texts) - 1 + len(refused) != len(lines) or done.returncode != (1 if refused else 0):
        raise SystemExit(f"{program} {options}: {len(lines)} lines, {len(texts) - 1} answers, {len(refused)} refused, "
                         f"status {done.returncode}")
    answers = iter(texts)
    return [(None, refused[number]) if number in refused else (next(answers), None)
            for number in range(1, len(lines) + 1)]


def shown(text):
    return "".join(letter if "!" <= letter <= "~" else f"<{ord(letter):04X}>" for letter in text)


def described(case):
    ours = shown(case.ours) if case.ours is not None else case.our_refusal
    theirs = shown(case.theirs) if case.theirs is not None else case.their_refusal
    return f"{shown(case.name) or '(empty)'}: ours {ours or '(empty)'}, libidn2 {theirs or '(empty)'}"


def compare(program, words, lines, ask, known_kinds, facts):
    """Prints the differences by kind; answers our answers, and how many differences are of no known kind."""
    our = our_answers(program, words, lines)
    cases = [kinds.Case(line, *answer, *ask(line)) for line, answer in zip(lines, our)]
    by_kind, unknown = collections.defaultdict(list), []
    for case in filter(kinds.Case.differs, cases):
        kind = next((kind for kind in known_kinds if kind.explains(facts, case)), None)
        (by_kind[kind.reason] if kind else unknown).append(case)
    both = sum(1 for case in cases if case.ours is not None and not case.differs())
    neither = sum(1 for case in cases if case.ours is None and case.theirs is None)
    print(f"\n{' '.join(words)}: {len(cases):,} lines, {both:,} with the same text, {neither:,} refused by both")
    for kind in known_kinds:
        if found := by_kind.get(kind.reason):
            print(f"  {len(found):>7,}  {kind.reason}\n           {described(found[0])}")
    if unknown:
        print(f"  {len(unknown):>7,}  OF NO KNOWN KIND")
        for case in unknown[:SHOWN]:
            print(f"           {described(case)}")
    return our, len(unknown)


def verify(lines, our, ask, registration):
    """Compares our answers with the reference implementation of the rules; answers how many differ."""
    known = [(line, answer) for line, answer in zip(lines, our)
             if registration.knows("".join([line, *kinds.decoded_labels(line)]))]
    wrong = [(line, answer, ask(line)) for line, answer in known if answer != ask(line)]
    print(f"  {len(known):>7,}  lines whose text or number was compared with a reference implementation of the rules")
    if wrong:
        print(f"  {len(wrong):>7,}  OF THEM ANSWERED OTHERWISE")
        for line, answer, expected in wrong[:SHOWN]:
            print(f"           {shown(line)}: {answer}, expected {expected}")
    return len(wrong)


def main():
    words = argparse.ArgumentParser(description="Compares our idn2 with libidn2.")
    words.add_argument("--names", default=20_000, type=int, help="random names for each mode")
    words.add_argument("--every-code-point", action="store_true", help="register and look up each code point, too")
    options = options_of(words)

    library, classes, known = LibIdn2(), Classes(), UnicodeProperties()
    facts, points = kinds.Facts(classes, known, library), names.Points(classes, known)
    every = names.every_code_point() if options.every_code_point else []
    print(f"libidn2 {library.version()}, Unicode data {version()}, seed {names.SEED}")
    labels, coded_names = names.labels(points, options.names) + every, names.coded_names(points, options.names)
    second, failures = Reference.of(classes), 0
    profile, standard = second.by_profile.registration, second.by_standard.registration
    for words, lines, ask, known_kinds, registration in (
        (["-r"], labels, library.register, kinds.REGISTER, profile),
        (["-r", "--standard"], labels, library.register, kinds.REGISTER_BY_STANDARD, standard),
        (["-d"], coded_names, library.decode, kinds.DECODE, profile),
        (["-d", "--standard"], coded_names, library.decode, kinds.DECODE_BY_STANDARD, standard),
        (["-l"], names.names(points, options.names) + every, library.lookup, kinds.LOOKUP, None),
    ):
        our, unknown = compare(options.program, words, lines, ask, known_kinds, facts)
        failures += unknown
        if registration:
            ask = registration.register if words[0] == "-r" else registration.decode
            failures += verify(lines, our, ask, registration)
    print(f"\n{failures} differences of no known kind")
    return 1 if failures else 0


if __name__ == "__main__":
    sys.exit(main())
