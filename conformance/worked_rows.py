#!/usr/bin/env python3
"""Worked rows of the notation, of listings and of jumps: python3 conformance/worked_rows.py

Each row is what a run is given with what must be printed for it, worked out by hand. The reference implementation (reference_run.py and
tables/check.py) must answer so, and so must the program, where it is built.
"""

import argparse
import collections
import pathlib
import subprocess
import sys
import tempfile

from compare import HERE, PROGRAM

import check
import collision_rows
import label_rows
import ruleset_rows
import run_rows
import type_rows
from idn2_registry.notation.faults import TEXTS as FAULT_TEXTS
from idn2_registry.unicode_data import Classes
from objects import as_explained, without_what_objects_leave_out
from reference_run import TEXTS, Options, Reference, Unknown, bodies
from run_rows import ADLAM, DOUBLED, SHARP_S

# The words before the table's file, the table, the label, and what is printed.
LISTINGS = [
    ([], "%version 2\n0061..0063\n0078|!0079:007A\n", "ax",
     "ax\tax\tallocatable\nay\tay\tblocked\naz\taz\tallocatable\n#end 3\n"),
    ([], "%version 2\n0061|!0062\n0061-0061|0062-0062\n", "aa",
     "aa\taa\tallocatable\nab\tab\tblocked\nba\tba\tblocked\nbb\tbb\tallocatable\n#end 4\n"),
    ([], "%version 2\n0061|!0062\n0061-0061|0062-0062\n", "aaa",
     "aaa\taaa\tallocatable\naab\taab\tblocked\naba\taba\tblocked\nabb\tabb\tallocatable\nbaa\tbaa\tblocked\n"
     "bab\tbab\tblocked\nbba\tbba\tallocatable\nbbb\tbbb\tblocked\n#end 8\n"),
    ([], "0061|0062\n0061-0061|0062-0062\n", "aa", "aa\taa\nab\tab\nba\tba\nbb\tbb\n#end 4\n"),
    # Two segmentations of sss overlap: both count.
    ([], SHARP_S, "sss", "sss\tsss\nsß\txn--s-qfa\nßs\txn--s-pfa\n#end 3\n"),
    (["--limit", "2"], "%version 2\n" + SHARP_S, "sss", "sss\tsss\tallocatable\nsß\txn--s-qfa\tallocatable\n#stop 2 sß\n"),
    (["--after=sß"], "%version 2\n" + SHARP_S, "sss", "ßs\txn--s-pfa\tallocatable\n#end 1\n"),
    # The label itself is never blocked.
    ([], "%version 2\r\n0061|!0062\r\n0062|!0061\r\n", "ab",
     "aa\taa\tblocked\nab\tab\tallocatable\nba\tba\tblocked\nbb\tbb\tblocked\n#end 4\n"),
    # The label aaa arises in two ways, and is listed once.
    ([], DOUBLED, "aa", "aa\taa\naaa\taaa\naaaa\taaaa\n#end 3\n"),
]

GERMAN = (HERE.parent / "tables/german.txt").read_text(encoding="utf-8")
HAN = (HERE.parent / "tables/han.txt").read_text(encoding="utf-8")
# A zero is blocked where an o stands.
ALIKE = "%version 2\n0030\n006F|!0030\n0073\n0074\n0073-0073|00DF\n"
# The pair that symmetry requires isn't there.
GAP = "0061|0062\n0062\n"
TWO_TO_THE_62 = "0061|0062\n0062|0061\n" + "".join(f"{point:04X}\n" for point in range(0x63, 0x7B))
THREE_SPELLINGS = "sss\nsß\nßs\n"


def refused_at(line, fault):
    return "", f"idn2: registered line {line}: {fault}\n", 2


# The table, the registered labels, which are None where there is no such file, more words, the input, and what must be
# answered: output, messages, status.
COLLISIONS = [
    (GERMAN, "haus\nstrasse\n", [], "straße\n", ("strasse\tstrasse\tallocatable\tallocatable\n#end 1\n", "", 0)),
    (GERMAN, "strasse\nstraße\n", [], "strasse\n",
     ("strasse\tstrasse\tallocatable\tallocatable\nstraße\txn--strae-oqa\tallocatable\tallocatable\n#end 2\n", "", 0)),
    # A label spells itself.
    (GERMAN, "haus\n", [], "haus\n", ("haus\thaus\tallocatable\tallocatable\n#end 1\n", "", 0)),
    (GERMAN, "haus\nstrasse\n", [], "maus\n", ("#end 0\n", "", 0)),
    # Both are variants of a third, and neither is one of the other.
    (GERMAN, "ßs\n", [], "sß\n", ("#end 0\n", "", 0)),
    (GERMAN, THREE_SPELLINGS, ["--limit", "2"], "sss\n",
     ("sss\tsss\tallocatable\tallocatable\nsß\txn--s-qfa\tallocatable\tallocatable\n#stop 2 sß\n", "", 0)),
    (GERMAN, THREE_SPELLINGS, ["--after", "sß"], "sss\n", ("ßs\txn--s-pfa\tallocatable\tallocatable\n#end 1\n", "", 0)),
    (GERMAN, THREE_SPELLINGS, ["--after", "sz"], "sss\n",
     ("sß\txn--s-qfa\tallocatable\tallocatable\nßs\txn--s-pfa\tallocatable\tallocatable\n#end 2\n", "", 0)),
    (GERMAN, "sss\nsß\n", ["--limit", "2"], "sss\n",
     ("sss\tsss\tallocatable\tallocatable\nsß\txn--s-qfa\tallocatable\tallocatable\n#stop 2 sß\n", "", 0)),
    (GERMAN, "haus\nstrasse\n", [], "Haus\nhaus\nстол\nstraße\n",
     ("haus\thaus\tallocatable\tallocatable\n#end 1\nstrasse\tstrasse\tallocatable\tallocatable\n#end 1\n",
      "idn2: line 1: 10 disallowed code point\nidn2: line 3: 40 not made of table entries\n", 1)),
    (ALIKE, "t0ss\ntoß\n", [], "toss\n",
     ("t0ss\tt0ss\tblocked\tnone\ntoß\txn--to-hia\tallocatable\tnone\n#end 2\n", "", 0)),
    (HAN, "中国\n中國\n", [], "中國\n",
     ("中国\txn--fiqs8s\tvariant\tvariant\n中國\txn--fiqz9s\tvariant\tvariant\n#end 2\n", "", 0)),
    (GERMAN, "", [], "haus\n", ("#end 0\n", "", 0)),
    # Registered labels are tested as the options say.
    (ADLAM, "\U0001E923\U0001E928\n", ["--standard"], "\U0001E922\U0001E928\n",
     ("\U0001E923\U0001E928\txn--be6hka\tvariant\tvariant\n#end 1\n", "", 0)),
    (GERMAN, "\u05D0\u02C6\u05D1\n", [], "haus\n", refused_at(1, "17 Bidi rule broken")),
    (GERMAN, "\u05D0\u02C6\u05D1\n", ["--standard"], "haus\n", ("#end 0\n", "", 0)),
    (GERMAN, "\u05D0\u0CBF\n", ["--standard"], "haus\n", refused_at(1, "17 Bidi rule broken")),
    (GERMAN, "haus\r\nstrasse", [], "straße\n", ("strasse\tstrasse\tallocatable\tallocatable\n#end 1\n", "", 0)),
    (GERMAN, "strasse\nhaus\n", [], "haus\n", refused_at(2, "4 out of order")),
    (GERMAN, "haus\nhaus\n", [], "haus\n", refused_at(2, "4 out of order")),
    (GERMAN, "haus\n\nstrasse\n", [], "haus\n", refused_at(2, "3 empty")),
    (GERMAN, b"haus\n\xff\n", [], "haus\n", refused_at(2, "1 not UTF-8")),
    (GERMAN, "Haus\n", [], "haus\n", refused_at(1, "10 disallowed code point")),
    (GERMAN, "haus\nxn--strae-oqa\n", [], "haus\n", refused_at(2, "13 hyphen out of place")),
    (GERMAN, "haus\n" + "i" * 1025 + "\n", [], "haus\n", refused_at(2, "2 line too long")),
    (GERMAN, "haus\n" + "i" * 64 + "\n", [], "haus\n", refused_at(2, "18 label too long")),
    # A gap is in the way from one side alone.
    (GAP, "b\n", [], "a\n", ("b\tb\tvariant\tnone\n#end 1\n", "", 0)),
    (GAP, "a\n", [], "b\n", ("a\ta\tnone\tvariant\n#end 1\n", "", 0)),
    # 2^62 variants, none of them registered.
    (TWO_TO_THE_62, "abba\nabc\nbac\nc\nzoo\n", [], "a" * 62 + "\n", ("#end 0\n", "", 0)),
    # Between the two that collide two others are registered.
    (TWO_TO_THE_62, "abba\nabc\nabz\nbaab\nbac\nc\n", [], "aaaa\n",
     ("abba\tabba\tvariant\tvariant\nbaab\tbaab\tvariant\tvariant\n#end 2\n", "", 0)),
    # A registered label that can't be cut into sources of the table is no fault of the file.
    (GERMAN, "haus\nстол\n", [], "haus\n", ("haus\thaus\tallocatable\tallocatable\n#end 1\n", "", 0)),
    # The text may be longer than any label.
    (GERMAN, "haus\nstrasse\n", ["--after", "haus" + "a" * 1000], "haus\nstraße\n",
     ("#end 0\nstrasse\tstrasse\tallocatable\tallocatable\n#end 1\n", "", 0)),
    (GERMAN, "a" * 63 + "\n", ["--after", "a" * 64], "a" * 63 + "\n", ("#end 0\n", "", 0)),
    (GERMAN, "a" * 63 + "\n", ["--after", "a" * 62], "a" * 63 + "\n",
     ("a" * 63 + "\t" + "a" * 63 + "\tallocatable\tallocatable\n#end 1\n", "", 0)),
    (GERMAN, "haus\n", ["--tries", "5"], "haus\n", ("", "idn2: 50 usage\n", 2)),
    (GERMAN, None, [], "haus\n", ("", "idn2: 60 read fault\n", 3)),
    # A faulty table is told of after the registered labels, and a file that isn't there before both.
    ("0061|\n", "b\na\n", [], "a\n", refused_at(2, "4 out of order")),
    ("0061|\n", None, [], "a\n", ("", "idn2: 60 read fault\n", 3)),
    # The first fault of a line comes before its place.
    (GERMAN, "haus\nHaus\n", [], "haus\n", refused_at(2, "10 disallowed code point")),
    # The order is that of code points, not of UTF-16.
    ("FA0E\n20000\n", "\uFA0E\n\U00020000\n", [], "\uFA0E\n\U00020000\n",
     ("\uFA0E\txn--lf6c\tvariant\tvariant\n#end 1\n\U00020000\txn--j50i\tvariant\tvariant\n#end 1\n", "", 0)),
]

# A table, a line of input, and the answer: the least near label that is no less than the text, with what it is to the
# label, and the label to it.
JUMPS = [
    (GERMAN, "sss", "sss\tallocatable\tallocatable"),
    (GERMAN, "sss\t", "sss\tallocatable\tallocatable"),
    (GERMAN, "sss\tsss", "sss\tallocatable\tallocatable"),
    (GERMAN, "sss\tssss", "sß\tallocatable\tallocatable"),
    (GERMAN, "sss\tsz", "sß\tallocatable\tallocatable"),
    (GERMAN, "sss\tsß", "sß\tallocatable\tallocatable"),
    (GERMAN, "sss\tsßa", "ßs\tallocatable\tallocatable"),
    (GERMAN, "sss\tt", "ßs\tallocatable\tallocatable"),
    (GERMAN, "sss\tßs", "ßs\tallocatable\tallocatable"),
    (GERMAN, "sss\tßt", "#end"),
    # The text begins after the first tab, and another one is less than any letter.
    (GERMAN, "sss\t\tz", "sss\tallocatable\tallocatable"),
    (GERMAN, "sss\tsss\t", "sß\tallocatable\tallocatable"),
    # What is near needn't be registrable: two hyphens stand third and fourth.
    ("0061|002D\n", "aaaa\taa", "aa--\tvariant\tnone"),
    ("0061|002D\n", "aaaa\ta-", "a---\tvariant\tnone"),
    ("0061|002D\n", "aaaa", "----\tvariant\tnone"),
    # Two cuts begin alike, and what is only a variant is cut into the sources that have it.
    ("0061-0062|0063\n0061|0062\n", "ab\tac", "ba\tnone\tnone"),
    (GAP, "a\tb", "b\tvariant\tnone"),
    (GAP, "b", "a\tnone\tvariant"),
    # A text that is longer than any label is greater than its first 63 code points.
    (TWO_TO_THE_62, "a" * 63 + "\t" + "a" * 63, "a" * 63 + "\tvariant\tvariant"),
    (TWO_TO_THE_62, "a" * 63 + "\t" + "a" * 64, "a" * 62 + "b" + "\tvariant\tvariant"),
    (TWO_TO_THE_62, "a" * 63 + "\t" + "a" * 62 + "b" + "\0", "a" * 61 + "ba" + "\tvariant\tvariant"),
    (TWO_TO_THE_62, "a" * 63 + "\t" + "b" * 63 + "a", "#end"),
    (TWO_TO_THE_62, "a" * 63 + "\t" + "ab" * 480, "ab" * 31 + "b" + "\tvariant\tvariant"),
]

# A line that a jump refuses, and its number.
REFUSED_JUMPS = [("", 3), ("\tsss", 3), ("Haus\thaus", 10), ("стол\tz", 40), ("ss--s\tz", 13), ("a" * 64, 18),
                 (b"haus\t\xff", 1), ("haus\t" + "a" * 1020, 2)]

# A table, and what the check of it prints.
CHECKS = [
    ("%version 2\n0061|!0062\n0062|0061\n", "#table 2 0\n"),
    ("%version 2\n0061|!0062\n0062\n", "missing 0062|0061\n#table 2 1\n"),
    ("%version 2\n4E00..5DFF", "#table 4096 0\n"),
    ("%version 2\n0061..0061", "#table 1 0\n"),
    ("%version 2\n U+0061\t..\tu+0063 \n0078 | ! 0079 : 007A\n", "missing 0079|0078\nmissing 007A|0078\n#table 4 2\n"),
    ("%version 2", "#table 0 0\n"),
    ("0061|0062:0063\n", "missing 0062|0061\nmissing 0063|0061\n#table 1 2\n"),
]

# A faulty table, with the line and the number of its first fault.
FAULTS = [
    ("%version 3\n", 1, 30), ("%version 2 \n", 1, 30), (" %version 2\n", 1, 30), ("%version  2\n", 1, 30),
    ("%version 2\r\r\n", 1, 30), ("%Version 2\n", 1, 30), ("%version 02\n", 1, 30), ("\n%version 2\n", 2, 30),
    ("#\n%version 2\n", 2, 30), ("%version 2\n%version 2\n", 2, 30), ("%version 2\n%\n", 2, 30),
    # Version 1 has neither ranges nor marks.
    ("0061..0063\n", 1, 30), ("0061|!0062\n", 1, 30), ("0061\n0062|!0063\n", 2, 30),
    ("%version 2\n0063..0061\n", 2, 30), ("%version 2\n!0061|0062\n", 2, 30), ("%version 2\n!0061\n", 2, 30),
    ("%version 2\n0061|0062..0063\n", 2, 30), ("%version 2\n0061..0063|0064\n", 2, 30),
    ("%version 2\n0061-0062..0063\n", 2, 30), ("%version 2\n0061..0062-0063\n", 2, 30),
    ("%version 2\n0061..0062..0063\n", 2, 30), ("%version 2\n0061...0063\n", 2, 30),
    ("%version 2\n0061. .0063\n", 2, 30), ("%version 2\n0061.0063\n", 2, 30), ("%version 2\n0061..\n", 2, 30),
    ("%version 2\n..0061\n", 2, 30), ("%version 2\n0061..63\n", 2, 30), ("%version 2\n0061..0063 # a\n", 2, 30),
    ("%version 2\n0061..D800\n", 2, 30), ("%version 2\nDFFF..E000\n", 2, 30), ("%version 2\n0061..110000\n", 2, 30),
    ("%version 2\n0061|!\n", 2, 30), ("%version 2\n0061|!!0062\n", 2, 30), ("%version 2\n0061|0062!\n", 2, 30),
    ("%version 2\n0061|0062-!0063\n", 2, 30), ("%version 2\n0061!0062\n", 2, 30),
    ("%version 2\n0061|0062:!0062\n", 2, 32), ("%version 2\n0061|!0061\n", 2, 32), ("%version 2\n0061|!0062:!0062\n", 2, 32),
    ("%version 2\n005A..0061\n", 2, 33), ("%version 2\n0061|!0041\n", 2, 33), ("%version 2\nD7FF..E000\n", 2, 33),
    ("%version 2\n0062\n0061..0063\n", 3, 31), ("%version 2\n0061..0063\n0063\n", 3, 31),
    ("%version 2\n0061..0063\n0063..0065\n", 3, 31),
    ("%version 2\n4E00..5E00\n", 2, 34), ("%version 2\n0000..10FFFF\n", 2, 34), ("%version 2\n0061\n4E00..5DFF\n", 3, 34),
    # Lines of version 1 that are no entry, and the other faults of one.
    ("|0061\n", 1, 30), ("0061||0062\n", 1, 30), ("0061:0062\n", 1, 30), ("0061|0062:\n", 1, 30), ("0061|:0062\n", 1, 30),
    ("0061-\n", 1, 30), ("-0061\n", 1, 30), ("0061--0062\n", 1, 30), ("0061 0062\n", 1, 30), ("061\n", 1, 30),
    ("0000061\n", 1, 30), ("U0061\n", 1, 30), ("U+\n", 1, 30), ("U +0061\n", 1, 30), ("D800\n", 1, 30), ("110000\n", 1, 30),
    ("00DFFF\n", 1, 30), ("006G\n", 1, 30), ("+061\n", 1, 30), ("\n000000\n", 2, 33), ("\n10FFFF\n", 2, 33),
    ("0061|0062|0063\n", 1, 30), ("!0061\n", 1, 30), ("%version 1\n", 1, 30), ("0061 # note\n", 1, 30),
    ("0061\r\r\n", 1, 30), ("0061|30:0031\n", 1, 30), ("# note\r\n0061|\r\n0041\n", 2, 30),
    ("%version 2\nD7FF..D800\n", 2, 30),
    ("0061\n0062\n\nu+0061|0063\n", 4, 31), ("0062\n0063\n0061\n0062\n", 4, 31), ("0061|0062:0063:0062\n", 1, 32),
    ("0061-0062|0063:0061-0062\n", 1, 32), ("0061|0062:0041\n", 1, 33), ("0061|0062-0640\n", 1, 33),
    ("0061-0061-0061-0061-0061-0061-0061-0061-0061\n", 1, 34),
    ("0061|0062-0062-0062-0062-0062-0062-0062-0062-0062\n", 1, 34), ("0061\n0041|0041\n", 2, 33),
    ("0061\n0061|0041\n", 2, 33),
    ("0061|0041:0041:0041:0041:0041:0041:0041:0041:0041:0041:0041:0041:0041:0041:0041:0041:0041\n", 1, 34),
    # The first of a line's faults, in their order.
    ("%version 2\n0061|!0041:0041\n", 2, 33), ("%version 2\n0061\n0061|0062:!0062\n", 3, 32),
    ("%version 2\n0061\n005A..0061\n", 3, 33), ("%version 2\n0041..1041\n", 2, 34),
    ("%version 2\n0061|!" + "-".join(["0041"] * 9) + "\n", 2, 34),
]

# 1,530 entries of 680 bytes each, and with the range of 1,633 code points as much canonical text as there may be.
FULL = "%version 2\n" + "".join(
    ":".join("-".join([f"{0x4E00 + 17 * block + (place + turn) % 17:04X}"] * 8) for turn in range(17)).replace(":", "|", 1) + "\n"
    for block in range(90) for place in range(17))
CHECKS.append((FULL + "4E00..5460", "#table 3163 0\n"))
FAULTS.append((FULL + "4E00..5461", 1532, 34))
FAULTS.append((FULL + "4E00..5461\n0061|", 1532, 34))

CANONICAL = [
    ("%version 2\n0061..0063\n0078|!0079:007A\n", "%version 2\n0061\n0062\n0063\n0078|!0079:007A\n"),
    (" u+0061 | 0062 : 0063 - 0064\r\n", "0061|0062:0063-0064\n"),
    (" \t\r\n#\n\t# 0041\nU+4e2d\t-\t0066 \n", "4E2D-0066\n"),
    # Entries stay in the order of the lines.
    ("00DF|0073-0073\n020000\n0062-0061\n0062", "00DF|0073-0073\n20000\n0062-0061\n0062\n"),
    ("%version 2\n10000..10002\n00DF|!0073-0073:!0064", "%version 2\n10000\n10001\n10002\n00DF|!0073-0073:!0064\n"),
]


def rows_of_tables():
    """The words, the input, the files and what must be answered: output, messages, status."""
    for words, table, label, output in LISTINGS:
        yield ["--variants", "table", *words, label], "", {"table": table}, (output, "", 0)
    for table, labels, words, given, wanted in COLLISIONS:
        files = {"table": table} if labels is None else {"table": table, "registered": labels}
        yield ["--variants", "table", "--among", "registered", *words], given, files, wanted
    for table, line, answer in JUMPS:
        yield ["--variants", "table", "--jump"], line + "\n", {"table": table}, (answer + "\n", "", 0)
    for line, number in REFUSED_JUMPS:
        message = f"idn2: line 1: {number} {TEXTS[number]}\n"
        yield ["--variants", "table", "--jump"], in_bytes(line) + b"\n", {"table": GERMAN}, ("", message, 1)
    for table, output in CHECKS:
        yield ["--check-table", "table"], "", {"table": table}, (output, "", 0 if output.endswith(" 0\n") else 1)
    for table, line, number in FAULTS:
        message = f"idn2: table line {line}: {number} {FAULT_TEXTS[number]}\n"
        yield ["--check-table", "table"], "", {"table": table}, ("", message, 2)
        yield ["--variants", "table", "a"], "", {"table": table}, ("", message, 2)


def rows():
    """These, and the rows of rulesets, of types and actions, of collisions, of whole runs, and of labels and names."""
    yield from rows_of_tables()
    yield from ruleset_rows.rows()
    yield from type_rows.rows()
    yield from collision_rows.rows()
    yield from run_rows.rows()
    yield from label_rows.rows()


def in_bytes(text):
    return text if isinstance(text, bytes) else text.encode()


def program_answer(program, words, given, files):
    with tempfile.TemporaryDirectory() as folder:
        for name, text in files.items():
            (pathlib.Path(folder) / name).write_bytes(text)
        done = subprocess.run([program, *words], input=given, capture_output=True, cwd=folder)
    return done.stdout.decode(), done.stderr.decode(), done.returncode


def in_words(words, given, wanted):
    """What is wanted of a run, as a run with `--explain` has it if that is by objects: without what objects leave out."""
    output, messages, status = wanted
    if "--json" not in words:
        return wanted
    strings = Options([word for word in words if word != "--json"]).strings
    lines = [string.encode() for string in strings] or list(bodies(given))
    answers, told = as_explained(output.encode(), lines, "--others" in words)
    return answers.decode(), told.decode() + messages, status


def by_reference(second, words, given, files, wanted):
    """The answer of the reference implementation, and what is wanted of it: in words, where the row asks for objects."""
    explained = ["--explain" if word == "--json" else word for word in words]
    output, messages, status = second.answer(explained, given, files)
    messages = messages if explained == words else without_what_objects_leave_out(messages)
    return (output.decode(), messages.decode(), status), in_words(words, given, wanted)


def answers(second, program, words, given, files, wanted):
    """Who was asked, the answer, and what is wanted: the reference implementation where it can tell, and the program where it is
    built."""
    try:
        yield "the reference implementation", *by_reference(second, words, given, files, wanted)
    except Unknown:
        pass
    if program.exists():
        yield "the program", program_answer(program.resolve(), words, given, files), wanted


def canonical_texts(classes):
    """Each text, what the reference implementation makes of it, and what is expected."""
    for table, wanted in CANONICAL:
        yield table, check.canonical_text(check.read(table.encode(), classes)), wanted


def main():
    words = argparse.ArgumentParser(description="Asks the reference implementation, and the program, for worked rows.")
    words.add_argument("--program", default=PROGRAM, type=pathlib.Path, help="our program")
    program, classes = words.parse_args().program, Classes()
    second, wrong, asked = Reference.of(classes), 0, collections.Counter()
    for words, given, files, wanted in rows():
        given, files = in_bytes(given), {name: in_bytes(text) for name, text in files.items()}
        asked["worked rows"] += 1
        for name, answer, expected in answers(second, program, words, given, files, wanted):
            asked[name] += 1
            if answer != expected:
                wrong += 1
                shown = {file: text[:80] for file, text in files.items()}
                print(f"{words}, {given[:80]!r}, {shown}: {name} answered {answer}, expected {expected}")
    for table, found, wanted in canonical_texts(classes):
        asked["canonical texts"] += 1
        if found != wanted:
            wrong += 1
            print(f"{table!r}: canonical text {found!r}, expected {wanted!r}")
    if not program.exists():
        print(f"{program} is not there, so the reference implementation alone was asked")
    print(f"{asked['worked rows']} worked rows and {asked['canonical texts']} canonical texts, {wrong} answered otherwise; "
          f"asked of the reference implementation {asked['the reference implementation']}, of the program {asked['the program']}")
    return 1 if wrong else 0


if __name__ == "__main__":
    sys.exit(main())
