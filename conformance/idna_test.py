#!/usr/bin/env python3
"""Runs our idn2's lookup, and its decoding by the standard, on Unicode's IDNA test file: python3 conformance/idna_test.py [FILE]

FILE is IdnaTestV2.txt, of Unicode 9 or later; else the path stands in IDNA_TEST_FILE. Without either the script says
so and ends. The file holds what ToASCII gives with CheckHyphens, CheckBidi, CheckJoiners, UseSTD3ASCIIRules and
VerifyDnsLength on. Lookup has CheckHyphens off, and a test of lengths of its own that lets one full stop at the end pass.
So the program is run with --usestd3asciirules, and

  - V2 and V3, the tests of hyphens, are put aside;
  - a name with another status must be refused with 20;
  - a name with no other status but A4_1, A4_2 or X4_2, those of lengths, must give the file's toAsciiN where the
    lengths, one full stop at the end put aside, are in range, and else be refused with 21.

With --decode --standard the Bidi rule is that of the file, of all labels of a name. So a toAsciiN with a status of that
rule, B1 to B6, must be refused, and one without may not be refused with 17. What IDNA2008 refuses otherwise says
nothing here.

Names are passed over that no line of input can hold: with a surrogate, a line feed, a carriage return at the end, or
over 1,024 bytes. A difference fails the run if the file is of the Unicode version of the program's tables; differences
under another version are counted and shown, since mappings and assigned code points change between versions.
"""

import argparse
import os
import pathlib
import re
import subprocess
import sys

from compare import options_of, our_answers, shown

HYPHEN_TESTS = {"V2", "V3"}
BIDI_TESTS = {"B1", "B2", "B3", "B4", "B5", "B6"}
LENGTH_TESTS = {"A4_1", "A4_2", "X4_2"}
EMPTY, BIDI, INVALID, BAD_LENGTH = 3, 17, 20, 21
MOST_NAME, MOST_LABEL, MOST_LINE_BYTES = 253, 63, 1024
ESCAPE = re.compile(r"\\u([0-9A-Fa-f]{4})|\\x\{([0-9A-Fa-f]+)\}")
SHOWN = 20


def unescaped(field):
    text = ESCAPE.sub(lambda match: chr(int(match.group(1) or match.group(2), 16)), field)
    # Two escaped surrogates are one code point.
    return text.encode("utf-16", "surrogatepass").decode("utf-16", "surrogatepass")


def value(field, default):
    """A blank field stands for the field before it, two quotation marks for the empty text."""
    return default if field == "" else "" if field == '""' else unescaped(field)


def statuses(field, default):
    return set(re.findall(r"\w+", field)) if field else default


def cases(lines):
    """(source, toAsciiN, its statuses) for each test of the file."""
    for line in lines:
        fields = [field.strip(" \t\n") for field in line.split("#")[0].split(";")]
        if len(fields) >= 5:
            source = value(fields[0], "")
            to_unicode, unicode_statuses = value(fields[1], source), statuses(fields[2], set())
            yield source, value(fields[3], to_unicode), statuses(fields[4], unicode_statuses)


def expected(source, text, found):
    if not source:
        return None, EMPTY
    if found - HYPHEN_TESTS - LENGTH_TESTS:
        return None, INVALID
    name = text.removesuffix(".")
    is_in_range = 1 <= len(name) <= MOST_NAME and all(1 <= len(label) <= MOST_LABEL for label in name.split("."))
    return (text, None) if is_in_range else (None, BAD_LENGTH)


def differs_decoded(found, answer):
    """Whether the answer to a name's toAsciiN, decoded by the standard, says otherwise than its statuses of the Bidi rule."""
    text, refusal = answer
    return text is not None if found & BIDI_TESTS else refusal == BIDI


def fits_a_line(source):
    try:
        encoded = source.encode()
    except UnicodeEncodeError:
        return False
    return "\n" not in source and not source.endswith("\r") and len(encoded) <= MOST_LINE_BYTES


def unicode_version(text, what):
    match = re.search(r"(?:Version:|Unicode)\s*(\d+)\.(\d+)", text)
    if not match:
        raise SystemExit(f"no Unicode version in {what}")
    return f"{match.group(1)}.{match.group(2)}"


def main():
    words = argparse.ArgumentParser(description="Runs lookup on Unicode's IDNA test file.")
    words.add_argument("file", nargs="?", default=os.environ.get("IDNA_TEST_FILE"), help="IdnaTestV2.txt")
    options = options_of(words)
    if not options.file:
        print("no IDNA test file: name IdnaTestV2.txt as FILE or in IDNA_TEST_FILE")
        return 0

    lines = pathlib.Path(options.file).read_text(encoding="utf-8").splitlines()
    its_version = unicode_version("\n".join(lines[:20]), options.file)
    shown_version = subprocess.run([options.program, "--version"], capture_output=True, text=True).stdout
    our_version = unicode_version(shown_version, "the program's version text")

    every = list(cases(lines))
    tests = [test for test in every if fits_a_line(test[0])]
    sources = [source for source, _, _ in tests]
    answers = our_answers(options.program, ["-l", "--usestd3asciirules"], sources)
    wrong = [(test, answer) for test, answer in zip(tests, answers) if answer != expected(*test)]

    coded = [test for test in tests if fits_a_line(test[1])]
    decoded = our_answers(options.program, ["-d", "--standard"], [text for _, text, _ in coded])
    wrong_decoded = [(test, answer) for test, answer in zip(coded, decoded) if differs_decoded(test[2], answer)]

    print(f"IDNA test file of Unicode {its_version}, program of Unicode {our_version}: {len(tests):,} names, "
          f"{len(every) - len(tests)} passed over, {len(wrong)} differences")
    show(wrong)
    print(f"decoded by the standard: {sum(text is not None for text, _ in decoded):,} names answered, "
          f"{sum(refusal == BIDI for _, refusal in decoded):,} refused by the Bidi rule, {len(wrong_decoded)} differences")
    show(wrong_decoded)
    return 1 if (wrong or wrong_decoded) and its_version == our_version else 0


def show(wrong):
    for (source, text, found), answer in wrong[:SHOWN]:
        given = shown(answer[0]) if answer[0] is not None else answer[1]
        print(f"  {shown(source)}: {given}, the file has {shown(text)} {sorted(found)}")


if __name__ == "__main__":
    sys.exit(main())
