#!/usr/bin/env python3
"""Checks variant tables from outside the program: python3 tables/check.py [--standard] FILE..

Written from docs/NOTATION.md alone, with the classes of Unicode's own data (Debian's package unicode-data), so that the
program can be compared with it. For each table it prints what `idn2 --check-table` prints, after the file's name, all on the
output: the pairs that are found and the last line, or the message of the first faulty line. A file whose first line is that of
version 3 is checked as a ruleset, by idn2_registry.notation. With --standard a table may have all that RFC 5892 allows, as for the program.

Status: 0 nothing is found in a table, and none has a fault; 1 else; 2 a file can't be read or the output can't be written,
which a message on standard error says, or Unicode's data is missing, or the words are no files.
"""

import contextlib
import dataclasses
import os
import pathlib
import re
import sys

# The package is a folder of the repository, and one file of the archive.
HERE = pathlib.Path(__file__).resolve().parent
sys.path += [str(HERE.parent / place) for place in ("registry", "bin/idn2-registry")]

from idn2_registry.notation import reading
from idn2_registry.notation.differences import differences
from idn2_registry.notation.faults import TableFault
from idn2_registry.notation.gaps import gaps
from idn2_registry.notation.lines import first_line, raw_lines, says_nothing, without_return
from idn2_registry.notation.points import is_scalar_value, spelled
from idn2_registry.unicode_data import Classes

MOST_LINE_BYTES = 1024
MOST_TEXT_BYTES = 1_048_576
MOST_ENTRIES = 4096
MOST_VARIANTS = 16
MOST_POINTS = 8

CLEAN, FAULTY, UNUSABLE = 0, 1, 2
STANDARD_OUTPUT, STANDARD_ERROR = 1, 2

STANDARD = "--standard"
VERSION_LINE = b"%version 2"

POINT = rb"(?:[Uu]\+)?([0-9A-Fa-f]{4,6})"
SEQUENCE = rb"%s(?:[ \t]*-[ \t]*%s)*" % (POINT, POINT)
ENTRY = rb"[ \t]*(%s)[ \t]*(?:\|[ \t]*(%s(?:[ \t]*:[ \t]*%s)*)[ \t]*)?"
BLOCKED = rb"(?:![ \t]*)?"
ENTRIES = {
    1: re.compile(ENTRY % (SEQUENCE, SEQUENCE, SEQUENCE)),
    2: re.compile(ENTRY % (SEQUENCE, BLOCKED + SEQUENCE, BLOCKED + SEQUENCE)),
}
RANGE = re.compile(rb"[ \t]*%s[ \t]*\.\.[ \t]*%s[ \t]*" % (POINT, POINT))


@dataclasses.dataclass
class Table:
    """Its entries in order: for each source its variants in order, each with whether it is blocked."""

    version: int
    entries: dict


def version_of(text):
    return 2 if first_line(text) == VERSION_LINE else 1


def sequence_of(text):
    return tuple(int(digits, 16) for digits in re.findall(POINT, text))


def entries_of(line, version):
    """The entries of a line, of which a range may have many: a source each, and (variant, is_blocked) in order. None of a
    line that is no entry and no range."""
    if version == 2 and (match := RANGE.fullmatch(line)):
        first, last = (int(digits, 16) for digits in match.groups())
        if first > last or not is_scalar_value(first) or not is_scalar_value(last):
            return None
        return [((point,), []) for point in range(first, last + 1)]
    match = ENTRIES[version].fullmatch(line)
    if not match:
        return None
    # Groups 1 and 4 are the source and the variants; the others stand within them.
    source, variants = sequence_of(match.group(1)), match.group(4) or b""
    variants = [(sequence_of(part), b"!" in part) for part in variants.split(b":") if part]
    points = [point for sequence in (source, *(variant for variant, _ in variants)) for point in sequence]
    return [(source, variants)] if all(map(is_scalar_value, points)) else None


def read(text, classes):
    """The table that the text spells; or a TableFault."""
    version = version_of(text)
    entries, end, size = {}, 0, len(VERSION_LINE) + 1
    for number, raw in enumerate(raw_lines(text), 1):
        end += len(raw) + 1
        if len(raw) > MOST_LINE_BYTES or end > MOST_TEXT_BYTES:
            raise TableFault(number, 34)
        line = without_return(raw)
        if says_nothing(line) or (number == 1 and version == 2):
            continue
        more = entries_of(line, version)
        if more is None:
            raise TableFault(number, 30)
        size += sum(len(canonical_line(*entry)) + 1 for entry in more)
        if len(entries) + len(more) > MOST_ENTRIES or (version == 2 and size > MOST_TEXT_BYTES):
            raise TableFault(number, 34)
        if fault := next(filter(None, (fault_of(source, variants, classes) for source, variants in more)), None):
            raise TableFault(number, fault)
        if any(source in entries for source, _ in more):
            raise TableFault(number, 31)
        entries.update((source, dict(variants)) for source, variants in more)
    return Table(version, entries)


def fault_of(source, variants, classes):
    """The first fault of one entry by itself, or None. Where it is one of a range, there are no variants, so only a class
    can be at fault."""
    sequences = [source, *(variant for variant, _ in variants)]
    if any(len(sequence) > MOST_POINTS for sequence in sequences) or len(variants) > MOST_VARIANTS:
        return 34
    if not all(classes.may_stand(point) for sequence in sequences for point in sequence):
        return 33
    return 32 if len(set(sequences)) < len(sequences) else None


def canonical_line(source, variants):
    marked = ":".join("!" * is_blocked + spelled(variant) for variant, is_blocked in variants)
    return spelled(source) + ("|" if variants else "") + marked


def canonical_text(table):
    head = VERSION_LINE.decode() + "\n" if table.version == 2 else ""
    return head + "".join(canonical_line(source, variants.items()) + "\n" for source, variants in table.entries.items())


def check(text, classes):
    """What `idn2 --check-table` prints, and whether there is no fault and nothing is found."""
    try:
        entries = read(text, classes).entries
    except TableFault as fault:
        return [str(fault)], False
    return report({source: dict.fromkeys(variants, {None}) for source, variants in entries.items()})


def check_ruleset(text, classes):
    """What a check of a ruleset prints, and whether there is no fault and nothing is found."""
    try:
        ruleset = reading.read(text, classes.may_stand)
    except TableFault as fault:
        return [str(fault)], False
    return report(ruleset.variants_of(), ruleset.idle_types())


def report(entries, idle=()):
    """The pairs that are found, the types that no action names, and how many sources and gaps there are. `entries` have for each
    source the variants, each with the set of its conditions."""
    missing = gaps(entries)
    pairs = [*(("missing", pair) for pair in missing), *(("differs", pair) for pair in differences(entries))]
    found = [f"{word} {spelled(a)}|{spelled(b)}" for word, (a, b) in pairs] + [f"idle {name}" for name in idle]
    return found + [f"#table {len(entries)} {len(missing)}"], not found


def main(words):
    paths = [word for word in words if word != STANDARD]
    if not paths or any(path.startswith("-") for path in paths):
        return unusable("usage: check.py [--standard] FILE..")
    try:
        classes = Classes().whole() if STANDARD in words else Classes()
    except SystemExit as reason:
        return unusable(reason)
    status = CLEAN
    for path in paths:
        try:
            with open(path, "rb") as file:
                text = file.read()
        except OSError as error:
            status = unusable(f"{path}: {error.strerror}")
            continue
        lines, is_clean = (check_ruleset if reading.is_ruleset(text) else check)(text, classes)
        status = max(status, CLEAN if is_clean else FAULTY)
        try:
            write(STANDARD_OUTPUT, f"{path}: " + "\n".join(lines))
        except OSError as error:
            return unusable(f"{path}: the answer could not be written: {error.strerror}")
    return status


def write(stream, text):
    """Writes all of a text and a line feed; or an OSError, also where the stream is closed."""
    rest = memoryview(os.fsencode(text + "\n"))
    while rest:
        rest = rest[os.write(stream, rest):]


def unusable(message):
    # Where messages can't be written, the status stands.
    with contextlib.suppress(OSError):
        write(STANDARD_ERROR, str(message))
    return UNUSABLE


if __name__ == "__main__":
    raise SystemExit(main(sys.argv[1:]))
