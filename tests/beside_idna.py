#!/usr/bin/env python3
"""Runs the program with --standard beside Python's `idna`, which is another implementation of RFC 5891, 5892 and 5893.

Each code point alone, pairs and triples of code points of each Bidi class and joining type, and whole names: the two may differ
only where a code point is newer than the other's Unicode version, by its age in Unicode's data, or had other properties then.
Those are listed by their age. The last line is 'N passed, M failed', and the exit status is 0 where nothing failed."""

import bisect
import collections
import functools
import os
import random
import re
import subprocess
import sys
import unicodedata

from program import LIMIT, ROOT, is_there, python_with, run, run_tests

sys.path += [os.path.join(ROOT, folder) for folder in ("conformance", "registry", "tables")]

from idn2_registry import unicode_data
from kit_data import Kit, ranges_in
from registration import CHANGED, a_label
from rules import UnicodeProperties

SEED = 5893
LABELS, NAMES, BATCH = 200_000, 20_000, 1 << 16
NO_LINES = "\n\r"
JOINERS = "\u200c\u200d"
# Labels that no test of registration sees when a name is decoded, and what A-labels stand beside in a name.
COPIED = ("", "a", "0", "0a", "a0", "a-", "-a", "_x", "a_", "\u00b7", "é", "א", "א1", "ب\u0661", "٠", "\u0301")

# Reads labels or names, a line each, and answers by lines: an A-label, or a name's text, or nothing where it is refused. The
# first line is the lower of the Unicode versions of the module and of its Python.
ASKING = r"""
import sys, unicodedata, idna

def registered(label):
    idna.check_label(label)
    return idna.alabel(label).decode()

def decoded(name):
    labels = [idna.ulabel(label) if label.startswith("xn--") else label for label in name.split(".")]
    if any(unicodedata.bidirectional(letter) in ("R", "AL", "AN") for label in labels for letter in label):
        for label in filter(None, labels):
            idna.check_bidi(label, check_ltr=True)
    return ".".join(labels)

ask = {"register": registered, "decode": decoded}[sys.argv[1]]
versions = (idna.idnadata.__version__, unicodedata.unidata_version)
answers = [min(versions, key=lambda version: list(map(int, version.split("."))))]
for line in sys.stdin.buffer.read().decode().split("\n")[:-1]:
    try:
        answers.append(ask(line))
    except (idna.IDNAError, UnicodeError, ValueError):
        answers.append("")
sys.stdout.buffer.write("".join(answer + "\n" for answer in answers).encode())
"""


def lines_of(lines: list[str]) -> bytes:
    return "".join(line + "\n" for line in lines).encode()


def by_program(option: str, lines: list[str]) -> list[str]:
    """The program's answers, empty where a line is refused."""
    answers: list[str] = []
    for start in range(0, len(lines), BATCH):
        batch = lines[start:start + BATCH]
        done = run([option, "--standard"], lines_of(batch))
        refused = set(map(int, re.findall(rb"^idn2: line (\d+): ", done.stderr, re.MULTILINE)))
        texts = done.stdout.decode().split("\n")
        assert len(texts) - 1 + len(refused) == len(batch) and done.returncode == int(bool(refused)), done.stderr[-400:]
        told = iter(texts)
        answers += ["" if number in refused else next(told) for number in range(1, len(batch) + 1)]
    return answers


def by_idna(mode: str, lines: list[str]) -> tuple[str, list[str]]:
    """The version of what idna knows of Unicode, and its answers in the same form."""
    words = [python_with("idna") or sys.executable, "-c", ASKING, mode]
    done = subprocess.run(words, input=lines_of(lines), capture_output=True, check=True, timeout=LIMIT)
    known, *answers = done.stdout.decode().split("\n")[:-1]
    assert len(answers) == len(lines), (len(answers), len(lines))
    return known, answers


def numbers_of(version: str) -> tuple[int, ...]:
    return tuple(map(int, version.split(".")))


@functools.cache
def ages() -> list[tuple[int, int, str]]:
    """(first, last, Unicode version) of the code points that each version added, by the data from which the program is built."""
    rows = ranges_in(Kit().folder / "ucd_age/specs/AgeRows.antt", "age_rows")
    return [(first, last, value.removeprefix("V").replace("_", ".")) for first, last, value in rows]


def row_of(letter: str) -> tuple[int, int, str]:
    """Where the ages have a code point. One that they don't have is of the first version: no program may know it."""
    place = bisect.bisect(ages(), ord(letter), key=lambda row: row[0]) - 1
    first, last, age = ages()[place]
    return (first, last, age) if ord(letter) <= last else (ord(letter), ord(letter), "1.1")


def newest(text: str) -> str:
    """The newest code point of a text; of the empty text a letter of the first version."""
    return max(text or "a", key=lambda letter: numbers_of(row_of(letter)[2]))


def listed(letters: set[str]) -> str:
    """Code points of one age: how many, and of which ranges that the version added."""
    ranges = sorted({row_of(letter)[:2] for letter in letters})
    return f"{len(letters):,} of " + ", ".join(f"{first:04X}" + f"..{last:04X}" * (first < last) for first, last in ranges)


def decoded(name: str) -> str:
    """A name with what its A-labels stand for."""
    return ".".join(label[4:].encode().decode("punycode") if label.startswith("xn--") else label for label in name.split("."))


def expect_alike(mode: str, lines: list[str], texts: list[str]) -> None:
    """Both answer each line alike but where the text that it stands for has a code point that idna doesn't know."""
    known, theirs = by_idna(mode, lines)
    ours, newer, changed, wrong = by_program(f"--{mode}", lines), collections.defaultdict(set), set(), []
    for line, text, our, their in zip(lines, texts, ours, theirs):
        if our != their:
            letter = newest(text)
            age = row_of(letter)[2]
            if numbers_of(age) > numbers_of(known):
                newer[age].add(letter)
            elif set(text) & set(CHANGED):
                changed |= set(text) & set(CHANGED)
            else:
                wrong.append((line, [f"{ord(letter):04X}" for letter in text], our, their))
    accepted = sum(map(bool, ours))
    print(f"{mode}: {len(lines):,} lines, {accepted:,} answered; idna knows Unicode {known}. Other answers, by what is newer:")
    for age in sorted(newer, key=numbers_of):
        print(f"  {age}: {listed(newer[age])}")
    if changed:
        print("  other properties then: " + ", ".join(f"{ord(letter):04X}" for letter in sorted(changed)))
    assert not wrong, (len(wrong), wrong[:10])
    assert accepted > len(lines) // 20, accepted


def is_known() -> bool:
    return is_there("python3-idna", python_with("idna")) and is_there("unicode-data", unicode_data.FOLDER.is_dir())


def answers_each_code_point(folder):
    if not is_known():
        return
    every = [chr(point) for point in range(0x110000) if not 0xD800 <= point <= 0xDFFF and chr(point) not in NO_LINES]
    expect_alike("register", every, every)


@functools.cache
def groups() -> dict[tuple[str, str, bool], list[str]]:
    """The code points that RFC 5892 permits, by Bidi class, joining type and whether they are viramas."""
    known, classes = UnicodeProperties(), unicode_data.Classes()
    found = collections.defaultdict(list)
    for point in sorted(classes.category):
        if classes.by_the_standard(point) in unicode_data.MAY_STAND_IN_A_TABLE:
            found[known.bidi_class(point), known.joining_type(point), known.is_virama(point)].append(chr(point))
    return dict(found)


def drawn_label(chance: random.Random) -> str:
    """Two or three code points of any groups, and at times a joiner within."""
    letters = [chance.choice(groups()[chance.choice(list(groups()))]) for _ in range(chance.choice((2, 3)))]
    if chance.random() < 0.25:
        letters.insert(chance.randint(1, len(letters) - 1), chance.choice(JOINERS))
    return unicodedata.normalize("NFC", "".join(letters))


@functools.cache
def drawn_labels() -> list[str]:
    chance = random.Random(SEED)
    return [drawn_label(chance) for _ in range(LABELS)]


def answers_pairs_and_triples(folder):
    if not is_known():
        return
    bidi_classes, joining_types, _ = map(set, zip(*groups()))
    assert bidi_classes == {"L", "R", "AL", "AN", "EN", "ES", "ON", "BN", "NSM"}, bidi_classes
    assert joining_types == {"U", "T", "D", "R", "L", "C"}, joining_types
    expect_alike("register", drawn_labels(), drawn_labels())


def answers_whole_names(folder):
    """Names of two and three labels: the Bidi rule is asked of all of them, if one is right-to-left."""
    if not is_known():
        return
    chance = random.Random(SEED)
    short = [a_label(label) for label in drawn_labels()[:NAMES]]
    registered = [answer for answer in by_program("--register", drawn_labels()[:NAMES]) if answer]
    draw = lambda: chance.choice(chance.choice((registered, registered, short, COPIED)))
    names = [".".join(draw() for _ in range(chance.choice((2, 2, 3)))) for _ in range(NAMES)]
    names = [name for name in names if name]
    expect_alike("decode", names, list(map(decoded, names)))


TESTS = [
    answers_each_code_point,
    answers_pairs_and_triples,
    answers_whole_names,
]


if __name__ == "__main__":
    sys.exit(run_tests("beside_idna", TESTS))
