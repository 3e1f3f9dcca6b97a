#!/usr/bin/env python3
"""Runs the built program over registered labels with the mark of old ones: labels that may have been registered under
other rules. The verdict on drawn labels is compared with that of conformance/old_labels.py. The last line is
'N passed, M failed', and the exit status is 0 where nothing failed."""

import json
import os
import random
import sys

from among import TABLE_WORDS, expect_faults
from program import ROOT, expect, registered_file, run, run_tests

sys.path.append(os.path.join(ROOT, "conformance"))
import old_labels  # noqa: E402

TEXTS = {3: "empty", 10: "disallowed code point", 11: "unassigned code point", 12: "not in NFC", 13: "hyphen out of place",
         14: "leading combining mark", 17: "Bidi rule broken", 18: "label too long", 19: "not an A-label"}

# (registered labels, number of the line, number and text of its fault): files that are refused.
FAULTS = (
    ("Strasse\told\n", 1, "10 disallowed code point"),
    ("a_b\told\n", 1, "10 disallowed code point"),
    ("\told\n", 1, "3 empty"),
    ("\told\told\n", 1, "10 disallowed code point"),
    ("xn--fa-hia\told\n", 1, "13 hyphen out of place"),
    ("xn--ls8h\told\n", 1, "13 hyphen out of place"),
    ("i" * 64 + "\told\n", 1, "18 label too long"),
    ("b\na\told\n", 2, "4 out of order"),
    ("a\told\na\n", 2, "4 out of order"),
    ("a\na\told\n", 2, "4 out of order"),
    # No mark: another word, another blank, something after it.
    ("ab--c\n", 1, "13 hyphen out of place"),
    ("ab--c\tOld\n", 1, "10 disallowed code point"),
    ("ab--c old\n", 1, "10 disallowed code point"),
    ("ab--c\told \n", 1, "10 disallowed code point"),
    (b"\xff\told\n", 1, "1 not UTF-8"),
    ("i" * 1021 + "\told\n", 1, "2 line too long"),
)

# Files that are read: an old label has a hyphen where none may stand, a code point that is disallowed, or a name that
# stands for itself; and a label that may be registered may have the mark. The order is that of the labels alone.
READ = (
    "ab--c\told\n", "-\told\n", "xn--\told\n", "xn--abc-\told", "\U0001F4A9\told\r\n", "haus\told\nmaus\n",
    "a\told\na-\told\na-b\nab\told\n", "u\u0308\told\n",
)


def refuses_a_file_by_its_first_wrong_line(folder):
    expect_faults(folder, FAULTS)


def reads_labels_with_the_mark(folder):
    for registered in READ:
        expect([*TABLE_WORDS, "--among", registered_file(folder, registered)], b"", b"", b"", 0)


def drawn_labels(chance):
    """Labels and names, mostly such as have a fault only now and then."""
    for _ in range(400):
        alphabet = chance.choice(["ab-", "abß", "aé中", "a\U0001F4A9\u0301", "abAB_ .-"])
        label = "".join(chance.choices(alphabet, k=chance.randint(0, 12)))
        yield label
        yield old_labels.name_of(label)
        yield "xn--" + "".join(chance.choices("abkz09-", k=chance.randint(0, 9)))
        yield "xn--" + label
    for length in range(40, 70):
        yield "ß" + "a" * length
        yield "a" * length


def judges_old_labels_as_another_program(folder):
    labels = sorted({*drawn_labels(random.Random("old"))} - {""})
    faults = {label: old_labels.old_fault(label) for label in labels}
    old = [label for label in labels if faults[label] is None]
    assert len(old) > 300, len(old)
    text = "".join(f"{label}\told\n" for label in old)
    expect([*TABLE_WORDS, "--among", registered_file(folder, text)], b"", b"", b"", 0)
    refused = [label for label in labels if faults[label] is not None]
    assert {*faults.values()} == {None, 10, 13, 18}, {*faults.values()}
    for label in refused[::3]:
        message = f"idn2: registered line 1: {faults[label]} {TEXTS[faults[label]]}\n".encode()
        expect([*TABLE_WORDS, "--among", registered_file(folder, f"{label}\told\n")], b"", b"", message, 2)


def makes_lines_of_labels_of_a_zone_as_another_program(folder):
    """What registration says of a label is the program's own answer."""
    labels = sorted({*drawn_labels(random.Random("zone"))} - {""})
    labels += [label.upper() for label in labels]
    names = [*labels, *(label.lower() for label in labels)]
    done = run(["--register", "--json"], "".join(name + "\n" for name in names).encode())
    objects = map(json.loads, done.stdout.decode().splitlines())
    answers = dict(zip(names, (each["refusal"]["number"] if "refusal" in each else each["alabel"] for each in objects)))
    wanted = [old_labels.zone_line(label, answers.__getitem__) for label in labels]
    output = "".join(line + "\n" for line in wanted if isinstance(line, str)).encode()
    messages = "".join(f"idn2: line {number}: {fault} {TEXTS[fault]}\n" for number, fault in enumerate(wanted, 1)
                       if not isinstance(fault, str)).encode()
    expect(["--decode", "--old"], "".join(label + "\n" for label in labels).encode(), output, messages, 1)
    assert sum(line.endswith(old_labels.MARK) for line in wanted if isinstance(line, str)) > 300


def reads_what_it_made_of_a_zone(folder):
    """Sorted by bytes, the lines are a file of registered labels, and each is told among them."""
    names = b"xn--fa-hia\nXN--LS8H\nab--cd\nHaus\nxn--abc-\nstrasse\n"
    made = run(["--decode", "--old"], names).stdout
    registered = b"".join(sorted(made.splitlines(keepends=True)))
    found = b"strasse\tstrasse\tallocatable\tallocatable\n#end 1\n"
    expect([*TABLE_WORDS, "--among", registered_file(folder, registered)], "straße\n".encode(), found, b"", 0)


TESTS = [
    refuses_a_file_by_its_first_wrong_line,
    reads_labels_with_the_mark,
    judges_old_labels_as_another_program,
    makes_lines_of_labels_of_a_zone_as_another_program,
    reads_what_it_made_of_a_zone,
]

if __name__ == "__main__":
    sys.exit(run_tests("marked_labels", TESTS))
