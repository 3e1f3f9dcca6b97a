#!/usr/bin/env python3
"""Lists the labels that two programs answer otherwise, say of an old and of a new version of Unicode:

    python3 conformance/changed_answers.py OLD NEW [FILE] [--mode register|lookup|decode] [--standard]

OLD and NEW are programs. The labels are the lines of FILE. Without FILE they are all code points: each by itself, after the
letter a, and after the letter alef, so that what changed of marks and of right-to-left code points shows, too. It prints
the code points of each such label with both answers, then how many labels changed in which way, and how many there are.
Status 0: no answer is different. 1: some are. 2: a program can't be run, or FILE can't be read.
"""

import argparse
import collections
import os
import re
import subprocess
import sys

MESSAGE = re.compile(rb"idn2: line (\d+): (\d+ .*)")
# What stands before a code point: nothing, a letter from left to right, one from right to left.
BEFORE = ("", "a", "\u05d0")
# What no line can have at its end or within it; a surrogate has no UTF-8.
NOT_IN_A_LINE = (0x0A, 0x0D, *range(0xD800, 0xE000))
LISTED = 10_000


class Unusable(Exception):
    pass


def all_code_points():
    excluded = set(NOT_IN_A_LINE)
    points = [chr(point) for point in range(0x110000) if point not in excluded]
    return [(before + point).encode() for before in BEFORE for point in points]


def lines_of(file):
    """The lines of a file without what ends them, as a run reads them."""
    try:
        with open(file, "rb") as given:
            lines = given.read().split(b"\n")
    except OSError as error:
        raise Unusable(error) from error
    return lines[:-1] if lines[-1] == b"" else lines


def answers_of(program, options, lines):
    """The answer of a program to each line: whether it is refused, and what is printed, or the refusal's number and text."""
    try:
        done = subprocess.run([program, *options], input=b"".join(line + b"\n" for line in lines), capture_output=True)
    except OSError as error:
        raise Unusable(error) from error
    messages = [MESSAGE.fullmatch(message) for message in done.stderr.splitlines()]
    refused = {int(message.group(1)): message.group(2) for message in messages if message}
    printed = done.stdout.split(b"\n")[:-1]
    if done.returncode not in (0, 1) or not all(messages) or len(printed) + len(refused) != len(lines):
        raise Unusable(f"{program} {' '.join(options)}: status {done.returncode}, {len(printed)} answers and "
                       f"{len(refused)} refusals to {len(lines)} lines: {done.stderr[-200:]!r}")
    rest = iter(printed)
    return [(True, refused[number]) if number in refused else (False, next(rest)) for number in range(1, len(lines) + 1)]


def named(line):
    """A label by its code points; a line that is not UTF-8 by its bytes."""
    try:
        return " ".join(f"U+{ord(letter):04X}" for letter in line.decode())
    except UnicodeDecodeError:
        return line.hex(" ")


def kind(answer):
    """A refusal by its number and text, and any other answer as one kind."""
    is_refused, text = answer
    return text.decode() if is_refused else "an answer"


def report(lines, old, new):
    """Prints what is different, and tells whether anything is."""
    changed = [(line, before, after) for line, before, after in zip(lines, old, new) if before != after]
    for line, (_, before), (_, after) in changed[:LISTED]:
        print(named(line), before.decode(), after.decode(), sep="\t")
    if len(changed) > LISTED:
        print(f"{len(changed) - LISTED:,} more are not listed")
    for (before, after), count in collections.Counter((kind(before), kind(after)) for _, before, after in changed).most_common():
        print(f"{before} -> {after}: {count:,}")
    print(f"{len(changed):,} of {len(lines):,} answers are different")
    return bool(changed)


def main():
    words = argparse.ArgumentParser(description="Lists the labels that two programs answer otherwise.")
    words.add_argument("old", help="a program")
    words.add_argument("new", help="another one")
    words.add_argument("file", nargs="?", help="labels, one on each line; all code points if left out")
    words.add_argument("--mode", choices=("register", "lookup", "decode"), default="register")
    words.add_argument("--standard", action="store_true", help="run both programs with it")
    options = words.parse_args()
    try:
        lines = lines_of(options.file) if options.file else all_code_points()
        programs = map(os.path.abspath, (options.old, options.new))
        asked = [f"--{options.mode}", *(["--standard"] if options.standard else [])]
        return int(report(lines, *(answers_of(program, asked, lines) for program in programs)))
    except Unusable as error:
        print(f"changed_answers: {error}", file=sys.stderr)
        return 2


if __name__ == "__main__":
    sys.exit(main())
