#!/usr/bin/env python3
"""Answers as objects: `--json`, in each mode.

Each row is a line, the words of a command and the objects, made by hand from the RFCs and from docs/JSON.md. Each line that is
written is read by Python's `json`, and held against docs/answers.schema.json: by a plain check here, and where the package
`jsonschema` is there, by that too, which must say the same. What a run says with `--json` is compared with what it says with
`--explain`. The last line is 'N passed, M failed', and the exit status is 0 where nothing failed."""

import json
import os
import random
import re
import subprocess
import sys
import textwrap

from program import ROOT

sys.path += [os.path.join(ROOT, folder) for folder in ("conformance", "registry")]

import type_rows
from explained import given_of, words_of
from explained_rows import (DECODE, GERMAN, LOOKUP, MORE_ROWS, REGISTER, REGISTERED_ROWS, ROWS as CAUSES, SOURCES, TABLE_ROWS,
                            VERSION_3)
from program import (LIMIT, PROGRAM, TABLES, expect, is_installed, is_there, python_with, run, run_tests, table_file,
                     text_of as text_of_file)

try:
    import jsonschema
except ImportError:
    jsonschema = None

HAN = ["--variants", os.path.join(TABLES, "han.txt")]
DIGITS = ["--variants", os.path.join(TABLES, "arabic-digits.txt")]
LATIN, CHINESE, DEVANAGARI = (["--ruleset", os.path.join(TABLES, "rulesets", f"{name}.txt")]
                              for name in ("latin", "chinese", "devanagari"))

with open(os.path.join(ROOT, "docs", "answers.schema.json"), encoding="utf-8") as file:
    SCHEMA = json.load(file)
VALIDATOR = jsonschema and jsonschema.validators.validator_for(SCHEMA)(SCHEMA)


def refused(line, number, text, **members):
    return {"line": 1, "input": line, "refusal": {"number": number, "text": text, **members}}


def not_utf8(octets, byte):
    return {"line": 1, "input_hex": octets, "refusal": {"number": 1, "text": "not UTF-8", "byte": byte}}


def point(code_point, place, rule=None):
    members = {"code_point": code_point, "place": place}
    return members if rule is None else {**members, "rule": rule}


BARRED, CONTEXT = "disallowed code point", "code point out of context"
# What two labels are to each other that are allocatable variants of each other.
BOTH = {"there": "allocatable", "back": "allocatable"}

# Lines; the words beside --json; the objects; the status.
ROWS = [
    ("faß", REGISTER, [{"line": 1, "input": "faß", "ulabel": "faß", "alabel": "xn--fa-hia"}], 0),
    ("xn--fa-hia", REGISTER, [{"line": 1, "input": "xn--fa-hia", "ulabel": "faß", "alabel": "xn--fa-hia"}], 0),
    ("haus", REGISTER, [{"line": 1, "input": "haus", "ulabel": "haus", "alabel": "haus"}], 0),
    ("Faß", REGISTER, [refused("Faß", 10, BARRED, **point("U+0046", 1, "RFC 5892 2.2"))], 1),
    ('a"b', REGISTER, [refused('a"b', 10, BARRED, **point("U+0022", 2, "RFC 5892 2.1"))], 1),
    ("a\\b", REGISTER, [refused("a\\b", 10, BARRED, **point("U+005C", 2, "RFC 5892 2.1"))], 1),
    ("a\tb", REGISTER, [refused("a\tb", 10, BARRED, **point("U+0009", 2, "RFC 5892 2.3"))], 1),
    ("a\x01", REGISTER, [refused("a\x01", 10, BARRED, **point("U+0001", 2, "RFC 5892 2.1"))], 1),
    ("a\r\r", REGISTER, [refused("a\r", 10, BARRED, **point("U+000D", 2, "RFC 5892 2.3"))], 1),
    ("a\u0378", REGISTER, [refused("a\u0378", 11, "unassigned code point", **point("U+0378", 2, "RFC 5892 2.10"))], 1),
    ("xa\u0301", REGISTER, [refused("xa\u0301", 12, "not in NFC", **point("U+0061", 2), nfc="U+00E1")], 1),
    ("ab--c", REGISTER, [refused("ab--c", 13, "hyphen out of place", **point("U+002D", 3))], 1),
    ("\u0301a", REGISTER, [refused("\u0301a", 14, "leading combining mark", **point("U+0301", 1))], 1),
    ("a\u200Cb", REGISTER, [refused("a\u200Cb", 15, "joiner out of context", **point("U+200C", 2, "RFC 5892 A.1"))], 1),
    ("a·l", REGISTER, [refused("a·l", 16, CONTEXT, **point("U+00B7", 2, "RFC 5892 A.3"))], 1),
    ("ab\u05D0", REGISTER,
     [refused("ab\u05D0", 17, "Bidi rule broken", **point("U+05D0", 3, "RFC 5893 2 condition 5"), bidi_class="R")], 1),
    ("a" * 64, REGISTER, [refused("a" * 64, 18, "label too long", code_points=64)], 1),
    ("a" * 62 + "ü", REGISTER, [refused("a" * 62 + "ü", 18, "label too long", octets=70)], 1),
    ("xn--", REGISTER, [refused("xn--", 19, "not an A-label")], 1),
    ("xn--a-", REGISTER, [refused("xn--a-", 19, "not an A-label", alabel="a")], 1),
    ("xn--faß", REGISTER, [refused("xn--faß", 19, "not an A-label", **point("U+00DF", 7))], 1),
    ("xn--a_", REGISTER, [refused("xn--a_", 19, "not an A-label", rule="RFC 3492 6.2")], 1),
    ("xn--ls8h", REGISTER, [refused("xn--ls8h", 10, BARRED, decoded=True, **point("U+1F4A9", 1, "RFC 5892 2.1"))], 1),
    ("", REGISTER, [refused("", 3, "empty")], 1),
    # What JSON or its readers may take for the end of a line or of a text, and what needs no escape.
    ("a\u2028b", REGISTER, [refused("a\u2028b", 10, BARRED, **point("U+2028", 2, "RFC 5892 2.3"))], 1),
    ("a\u0085", REGISTER, [refused("a\u0085", 10, BARRED, **point("U+0085", 2, "RFC 5892 2.3"))], 1),
    ("\uFEFFa", REGISTER, [refused("\uFEFFa", 10, BARRED, **point("U+FEFF", 1, "profile"))], 1),
    ("\0", REGISTER, [refused("\0", 10, BARRED, **point("U+0000", 1, "RFC 5892 2.1"))], 1),
    ("a/\x7f", REGISTER, [refused("a/\x7f", 10, BARRED, **point("U+002F", 2, "RFC 5892 2.1"))], 1),
    ("\x7f.\x1f", DECODE, [{"line": 1, "input": "\x7f.\x1f", "unicode": "\x7f.\x1f"}], 0),
    # No UTF-8: a byte that never stands in it, an overlong form, a surrogate, five bytes, past U+10FFFF, cut short, interrupted.
    (b"ab\xffc", REGISTER, [not_utf8("6162FF63", 3)], 1),
    (b"a\xc0\x80", REGISTER, [not_utf8("61C080", 2)], 1),
    (b"\xed\xa0\x80", LOOKUP, [not_utf8("EDA080", 1)], 1),
    (b"\xf8\x88\x80\x80\x80", DECODE, [not_utf8("F888808080", 1)], 1),
    (b"a\xf4\x90\x80\x80", GERMAN, [not_utf8("61F4908080", 2)], 1),
    (b"ab\xf0\x9f\x92", REGISTER, [not_utf8("6162F09F92", 3)], 1),
    (b"a\t\xe2\x28\xa1", GERMAN + ["--jump"], [not_utf8("6109E228A1", 3)], 1),
    ("a" * 1025, REGISTER, [refused(None, 2, "line too long")], 1),
    ("faß\na-\nb", REGISTER,
     [{"line": 1, "input": "faß", "ulabel": "faß", "alabel": "xn--fa-hia"},
      {"line": 2, "input": "a-", "refusal": {"number": 13, "text": "hyphen out of place", **point("U+002D", 2)}},
      {"line": 3, "input": "b", "ulabel": "b", "alabel": "b"}], 1),
    ("Faß.de", LOOKUP, [{"line": 1, "input": "Faß.de", "ascii": "xn--fa-hia.de"}], 0),
    ("a b.de", LOOKUP, [{"line": 1, "input": "a b.de", "ascii": "a b.de"}], 0),
    ('a"b.de', LOOKUP, [{"line": 1, "input": 'a"b.de', "ascii": 'a"b.de'}], 0),
    ("0a.\u05D0", LOOKUP, [refused("0a.\u05D0", 20, "not a valid name")], 1),
    ("a..b", LOOKUP, [refused("a..b", 21, "name or label length", label=2, octets=0)], 1),
    (".".join(["a" * 63] * 3 + ["a" * 62]), LOOKUP,
     [refused(".".join(["a" * 63] * 3 + ["a" * 62]), 21, "name or label length", octets=254)], 1),
    ("XN--4DB.de", DECODE, [{"line": 1, "input": "XN--4DB.de", "unicode": "\u05D0.de"}], 0),
    ("ü.XN--4DB", DECODE, [{"line": 1, "input": "ü.XN--4DB", "unicode": "ü.\u05D0"}], 0),
    ("xn--4db.xn--ls8h", DECODE,
     [refused("xn--4db.xn--ls8h", 10, BARRED, label=2, decoded=True, **point("U+1F4A9", 1, "RFC 5892 2.1"))], 1),
    ("straße", GERMAN,
     [{"line": 1, "ulabel": "strasse", "alabel": "strasse", "disposition": "allocatable"},
      {"line": 1, "ulabel": "straße", "alabel": "xn--strae-oqa", "disposition": "allocatable"},
      {"line": 1, "input": "straße", "count": 2, "complete": True}], 0),
    ("strasse", GERMAN + ["--limit", "1"],
     [{"line": 1, "ulabel": "strasse", "alabel": "strasse", "disposition": "allocatable"},
      {"line": 1, "input": "strasse", "count": 1, "complete": False, "after": "strasse"}], 0),
    ("中國", HAN,
     [{"line": 1, "ulabel": "中国", "alabel": "xn--fiqs8s"}, {"line": 1, "ulabel": "中國", "alabel": "xn--fiqz9s"},
      {"line": 1, "input": "中國", "count": 2, "complete": True}], 0),
    ("\u0627\u0660", DIGITS,
     [{"line": 1, "ulabel": "\u0627\u0660", "alabel": "xn--mgb8i", "disposition": "allocatable"},
      {"line": 1, "ulabel": "\u0627\u06F0", "alabel": "xn--mgb61b", "disposition": "blocked"},
      {"line": 1, "input": "\u0627\u0660", "count": 2, "complete": True}], 0),
    ("ac", LATIN + ["--limit", "2"],
     [{"line": 1, "ulabel": "ac", "alabel": "ac", "disposition": "allocatable"},
      {"line": 1, "ulabel": "a\u0441", "alabel": "xn--a-7tb", "disposition": "blocked"},
      {"line": 1, "input": "ac", "count": 2, "complete": False, "after": "a\u0441"}], 0),
    ("\u0430c", LATIN, [refused("\u0430c", 41, "not valid under the table", **point("U+0430", 1), default_action=1, type="invalid")], 1),
    ("काा", DEVANAGARI,
     [refused("काा", 41, "not valid under the table", code_point="U+093E", place=3, condition="when", rule="after_consonant")], 1),
    ("कअ्", DEVANAGARI,
     [refused("कअ्", 41, "not valid under the table", code_point="U+094D", place=3, condition="when", rule="after_consonant")], 1),
    ("क्अ", DEVANAGARI,
     [refused("क्अ", 41, "not valid under the table", code_point="U+0905", place=3, condition="unless", rule="after_virama")], 1),
    ("क1१", DEVANAGARI, [refused("क1१", 41, "not valid under the table", demand=1, kind="never")], 1),
    ("国學", CHINESE + ["--after", "国学", "--limit", "2"],
     [{"line": 1, "ulabel": "国學", "alabel": "xn--vcs27h", "disposition": "allocatable"},
      {"line": 1, "ulabel": "國学", "alabel": "xn--9cs44h", "disposition": "blocked"},
      {"line": 1, "input": "国學", "count": 2, "complete": False, "after": "國学"}], 0),
    ("xn--fa-hia", GERMAN, [refused("xn--fa-hia", 13, "hyphen out of place", **point("U+002D", 3), ulabel="faß")], 1),
    ("xn--ls8h", GERMAN, [refused("xn--ls8h", 13, "hyphen out of place", **point("U+002D", 3, "RFC 5890 2.3.2.1"))], 1),
    ("xn--4db\tx", GERMAN + ["--jump"],
     [refused("xn--4db\tx", 13, "hyphen out of place", **point("U+002D", 3), ulabel="\u05D0")], 1),
    ("mañana", GERMAN, [refused("mañana", 40, "not made of table entries", **point("U+00F1", 3))], 1),
    ("maus", GERMAN + ["--after", "z"], [{"line": 1, "input": "maus", "count": 0, "complete": True}], 0),
    ("strasse\tstrasz", GERMAN + ["--jump"], [{"line": 1, "input": "strasse\tstrasz", "ulabel": "straße", **BOTH}], 0),
    ("strasse\tu", GERMAN + ["--jump"], [{"line": 1, "input": "strasse\tu", "ulabel": None}], 0),
    ("oa\tx", SOURCES + ["--jump"], [refused("oa\tx", 40, "not made of table entries", **point("U+0061", 2))], 1),
]


def text_of(objects):
    """The objects as the program writes them: no blank, members in order, and the shortest escapes."""
    return "".join(json.dumps(each, ensure_ascii=False, separators=(",", ":")) + "\n" for each in objects).encode()


TYPES = {"object": dict, "string": str, "integer": int, "null": type(None)}


def is_same(one, value):
    """In Python 1 and True are equal."""
    return type(one) is type(value) and one == value


# The keywords that the schema has. Each says something of values of its own type alone.
KEYWORDS = {
    "$ref": lambda name, value: holds(SCHEMA["$defs"][name.removeprefix("#/$defs/")], value),
    "oneOf": lambda kinds, value: sum(holds(kind, value) for kind in kinds) == 1,
    "type": lambda names, value: type(value) in [TYPES[name] for name in ([names] if isinstance(names, str) else names)],
    "const": is_same,
    "enum": lambda ones, value: any(is_same(one, value) for one in ones),
    "minimum": lambda least, value: type(value) is not int or value >= least,
    "maximum": lambda most, value: type(value) is not int or value <= most,
    "minLength": lambda least, value: not isinstance(value, str) or len(value) >= least,
    "maxLength": lambda most, value: not isinstance(value, str) or len(value) <= most,
    "pattern": lambda pattern, value: not isinstance(value, str) or re.search(pattern, value) is not None,
    "properties": lambda kinds, value: all(holds(kinds[name], value[name]) for name in kinds.keys() & members_of(value)),
    "required": lambda names, value: not isinstance(value, dict) or value.keys() >= set(names),
    "dependentRequired": lambda needs, value: all(members_of(value) >= set(needs[name]) for name in needs.keys() & members_of(value)),
}


def members_of(value):
    return value.keys() if isinstance(value, dict) else set()


def holds(schema, value):
    """Whether a value is what a schema says."""
    if isinstance(schema, bool):
        return schema
    plain = dict(schema)
    has_no_others = plain.pop("additionalProperties", True) or members_of(value) <= schema["properties"].keys()
    return has_no_others and all(KEYWORDS[keyword](said, value) for keyword, said in plain.items())


def is_described(each):
    """Whether the schema describes the object, by the plain check."""
    return holds({"oneOf": SCHEMA["oneOf"]}, each)


def agree(objects):
    """What is described by the plain check is so by the package, which is much slower."""
    for each in objects if is_there("python3-jsonschema", VALIDATOR) else ():
        assert VALIDATOR.is_valid(each) == is_described(each), each


def expect_schema(each):
    assert is_described(each), each
    agree([each])


def objects_of(output):
    objects = [json.loads(line) for line in output.decode().split("\n")[:-1]]
    for each in objects:
        expect_schema(each)
    return objects


def expect_row(folder, line, words, objects, status):
    words = words_of(folder, words)
    for each in (words + ["--json"], words + ["--json", "--explain"], ["--explain", *words, "--json"], ["--json", *words]):
        expect(each, given_of(line), text_of(objects), b"", status)
    objects_of(text_of(objects))


def answers_the_rows(folder):
    for row in ROWS:
        expect_row(folder, *row)


def checks_a_table(folder):
    words = ["--check-table", table_file(folder, b"0073-0073|00DF\n00DF\n")]
    found = [{"source": "00DF", "missing": "0073-0073"}, {"entries": 2, "gaps": 1}]
    expect(words + ["--json"], b"", text_of(found), b"", 1)
    objects_of(text_of(found))
    words = ["--check-ruleset", table_file(folder, b"%version 3\n%type t\n%rule end _ $\n03C3|03C2 when end\n03C2|03C3\n")]
    found = [{"source": "03C2", "differs": "03C3"}, {"idle": "t"}, {"entries": 2, "gaps": 0}]
    expect(words + ["--json"], b"", text_of(found), b"", 1)
    objects_of(text_of(found))
    expect(["--check-ruleset", LATIN[1], "--json"], b"", text_of([{"entries": 64, "gaps": 0}]), b"", 0)


def tells_the_fault_of_a_table(folder):
    syntax, barred = {"number": 30, "text": "table syntax"}, {"number": 33, "text": "code point not allowed in a table"}
    for text, refusal in [
        (b"0061\nzz\n", {**syntax, "byte": 1}),
        (b"0061\n0061|\n", {**syntax, "byte": 6}),
        (b"0062\n0061|0041\n", {**barred, "code_point": "U+0041", "byte": 6}),
        (b"%version 2\n005A..0061\n", {**barred, "code_point": "U+005A", "byte": 1}),
        (b"0062\n0061|0061\n", {"number": 32, "text": "variant given twice", "byte": 6}),
        (b"0061\n 0061\n", {"number": 31, "text": "source given twice", "byte": 2}),
        (b"%version 2\n4E00..5E00\n", {"number": 34, "text": "table limit"}),
    ]:
        table = table_file(folder, text)
        fault = text_of([{"table_line": 2, "refusal": refusal}])
        objects_of(fault)
        for words in (["--check-table", table], ["--variants", table], ["--variants", table, "--jump"]):
            for more in (["--json"], ["--json", "--explain"]):
                expect(words + more, b"", fault, b"", 2)


def tells_the_fault_of_the_registered_labels(folder):
    out_of_order = {"number": 4, "text": "out of order"}
    for text, refusal in [
        (b"haus\nb-\n", {"number": 13, "text": "hyphen out of place", "code_point": "U+002D", "place": 2}),
        (b"haus\nab\xffc\n", {"number": 1, "text": "not UTF-8", "byte": 3}),
        (b"haus\nharald\n", {**out_of_order, "code_point": "U+0072", "place": 3}),
        (b"haus\nhaus\n", {**out_of_order, "place": 5}),
        (b"haus\n\n", {"number": 3, "text": "empty"}),
    ]:
        registered = table_file(folder, text, "registered.txt")
        fault = text_of([{"registered_line": 2, "refusal": refusal}])
        objects_of(fault)
        expect(GERMAN + ["--among", registered, "--json"], b"haus\n", fault, b"", 2)


def lists_registered_labels(folder):
    registered = table_file(folder, "haus\nstrasse\n".encode(), "registered.txt")
    objects = [
        {"line": 1, "ulabel": "strasse", "alabel": "strasse", **BOTH},
        {"line": 1, "input": "straße", "count": 1, "complete": True}, {"line": 2, "input": "maus", "count": 0, "complete": True},
    ]
    expect(GERMAN + ["--among", registered, "--json"], "straße\nmaus\n".encode(), text_of(objects), b"", 0)
    stopped = [objects[0], {"line": 1, "input": "straße", "count": 1, "complete": False, "after": "strasse"}]
    expect(GERMAN + ["--among", registered, "--limit", "1", "--json"], "straße\n".encode(), text_of(stopped), b"", 0)


def ends_with_messages(folder):
    """What ends a run is a message, as ever, which has a cause with `--explain` alone."""
    expect(GERMAN[:1] + [os.path.join(folder, "missing.txt"), "--json"], b"a\n", b"", b"idn2: 60 read fault\n", 3)
    for words in (["--json", "--json", "x"], ["--json", "-r", "-d"]):
        expect(words, b"", b"", b"idn2: 50 usage\n", 2)
    expect(["--json", "--explain", "--limit", "1"], b"", b"", b"idn2: 50 usage: --limit goes with --variants\n", 2)


def cause_of(refusal):
    """The cause of a refusal as a message has it, as far as the object tells it."""
    parts = []
    if "decoded" in refusal:
        parts.append("decoded")
    if "code_point" in refusal and refusal["number"] != 13:
        parts.append(f"{refusal['code_point']} at place {refusal['place']}")
    elif "place" in refusal:
        parts.append(f"place {refusal['place']}")
    if "label" in refusal:
        parts.append(f"label {refusal['label']}")
    if "bidi_class" in refusal:
        parts.append(f"is {refusal['bidi_class']}")
    if "rule" in refusal:
        parts.append(refusal["rule"].replace(" condition", ", condition").replace("profile", "outside the profile"))
    if "nfc" in refusal:
        parts.append(f"NFC has {refusal['nfc']}")
    for name, words in (("code_points", "{} code points"), ("octets", "{} octets"), ("alabel", "the A-label is {}"), ("byte", "at byte {}")):
        if name in refusal:
            parts.append(words.format(refusal[name]))
    return parts


def tells_the_causes_of_messages(folder):
    """Each part of a cause that an object tells stands in the message of the same line, and the text before it is the same."""
    for line, words, text, _ in CAUSES + MORE_ROWS:
        words = words_of(folder, words)
        message = run(words + ["--explain"], given_of(line)).stderr.decode()
        done = run(words + ["--json"], given_of(line))
        [each] = objects_of(done.stdout) if text is not None else [None]
        if each is None:
            continue
        assert done.stderr == b"" and message.startswith(f"idn2: line 1: {each['refusal']['number']} {each['refusal']['text']}"), line
        for part in cause_of(each["refusal"]):
            assert part in message, (line, part, message)


def plain_of(each):
    """The line that says the same as an object without `--json`; None of a refusal, which is a message."""
    if "refusal" in each:
        return None
    if "count" in each:
        return f"#end {each['count']}" if each["complete"] else f"#stop {each['count']} {each['after']}"
    if "input" not in each or "there" in each:
        return "\t".join(each[name] for name in ("ulabel", "alabel", "disposition", "there", "back") if name in each)
    for name in ("alabel", "ascii", "unicode", "ulabel"):
        if name in each:
            return "#end" if each[name] is None else each[name]
    raise AssertionError(each)


def says_what_it_says_without(folder):
    """Each mode over many lines: the objects, put into the words of plain answers, are the output and the messages without."""
    lines = [row[0] for row in CAUSES + MORE_ROWS] + [row[0] for row in ROWS]
    given = b"".join(given_of(line) for line in lines)
    for words in (LOOKUP, REGISTER, DECODE, GERMAN, GERMAN + ["--limit", "1"], HAN, GERMAN + ["--jump"]):
        plain, in_json = run(words, given), run(words + ["--json"], given)
        objects = objects_of(in_json.stdout)
        said = [plain_of(each) for each in objects if "refusal" not in each]
        told = [f"idn2: line {each['line']}: {each['refusal']['number']} {each['refusal']['text']}" for each in objects if "refusal" in each]
        assert plain.stdout.decode() == "".join(line + "\n" for line in said), words
        assert plain.stderr.decode() == "".join(line + "\n" for line in told), words
        assert in_json.stderr == b"" and plain.returncode == in_json.returncode, words


def tells_each_line_as_it_was_read(folder):
    lines = [row[0] for row in CAUSES + MORE_ROWS] + [row[0] for row in ROWS if "\n" not in str(row[0])]
    given = b"".join(given_of(line) for line in lines)
    for words in (LOOKUP, REGISTER, DECODE, GERMAN):
        ends = {each["line"]: each for each in objects_of(run(words + ["--json"], given).stdout) if "input" in each or "input_hex" in each}
        for number, line in enumerate(given.split(b"\n")[:-1], 1):
            each, line = ends[number], line.removesuffix(b"\r")
            if len(line) > 1024:
                assert each["input"] is None, each
            elif "input_hex" in each:
                assert bytes.fromhex(each["input_hex"]) == line, each
            else:
                assert each["input"].encode() == line, each


def tells_what_each_a_label_stands_for(folder):
    """By Python's Punycode: each A-label its own U-label, up to 63 octets, after lines that stand for another one."""
    lines, objects = [], []
    for label in ("faß", "\u05D0", "中国", "ü" * 57, "\U00020000" * 56, "maß"):
        a_label = "xn--" + label.encode("punycode").decode()
        for line in (a_label, label):
            lines += [line, "xn--ls8h", "haus", "xn--a-"]
            objects.append({"line": len(lines) - 3, "input": line, "ulabel": label, "alabel": a_label})
    told = objects_of(run(REGISTER + ["--json"], b"".join(map(given_of, lines))).stdout)
    assert [each for each in told if each["line"] % 4 == 1] == objects, told


def answers_the_longest_lines(folder):
    """Lines of 1,024 bytes, each of which is escaped by six: the longest objects."""
    for line in ("\x01" * 1024, "\\" * 1024, "ü" * 512, "\U0010FFFF" * 256, ".".join(["a"] * 512)):
        for words in (LOOKUP, REGISTER, DECODE, GERMAN, GERMAN + ["--jump"]):
            done = run(words + ["--json"], given_of(line))
            [each] = objects_of(done.stdout)
            assert each["input"] == line and done.stderr == b"", (words, line[:10])
            assert re.fullmatch(rb"[^\x00-\x1f]+\n", done.stdout), (words, line[:10])


def tells_causes_in_another_language(folder):
    """By the sentences of docs/JSON.md; of a number without one by the text of the refusal."""
    example = {}
    exec(shown_block("SENTENCES"), example)
    for line, words, sentence in (
        ("Faß", REGISTER, "U+0046 an Stelle 1 ist nicht erlaubt (RFC 5892 2.2)."),
        ("xn--ls8h", REGISTER, "U+1F4A9 an Stelle 1 ist nicht erlaubt (RFC 5892 2.1)."),
        ("ab--c", REGISTER, "Der Bindestrich an Stelle 3 ist nicht erlaubt."),
        ("mañana", GERMAN, "U+00F1 an Stelle 3 steht nicht in der Tabelle."),
        ("", REGISTER, "empty"),
        ("a" * 64, REGISTER, "label too long"),
    ):
        [each] = objects_of(run(words + ["--json"], given_of(line)).stdout)
        assert example["sentence"](each["refusal"]) == sentence, (line, each)


def run_example(folder, words):
    """What is shown in docs/JSON.md, with the program as idn2: the output and the status."""
    for name, path in (("idn2", PROGRAM), ("tables", TABLES)):
        if not os.path.lexists(os.path.join(folder, name)):
            os.symlink(path, os.path.join(folder, name))
    environment = {**os.environ, "PATH": folder + os.pathsep + os.environ["PATH"]}
    done = subprocess.run(words, cwd=folder, env=environment, capture_output=True, timeout=LIMIT)
    return done.stdout.decode(), done.returncode


def shown_block(first):
    """The block of docs/JSON.md that begins so, with its blank lines."""
    blocks = re.findall(r"(?:^(?:    .*)?\n)+", text_of_file("docs", "JSON.md"), re.MULTILINE)
    [block] = [block for block in (textwrap.dedent(block).strip() + "\n" for block in blocks) if block.startswith(first)]
    return block


PLACED = {"code_point", "place"}
# The members of a refusal beside its number and its text, as docs/JSON.md has them.
OF_LABELS = {10: [PLACED | {"rule"}], 11: [PLACED | {"rule"}], 12: [PLACED, PLACED | {"nfc"}], 13: [PLACED], 14: [PLACED],
             15: [PLACED | {"rule"}], 16: [PLACED | {"rule"}], 17: [PLACED | {"rule", "bidi_class"}], 18: [{"code_points"}, {"octets"}]}
OF_A_LABELS = [set(), PLACED, {"rule"}, {"alabel"}]
SHAPES = {
    1: [{"byte"}], 2: [set()], 3: [set()], 4: [{"place"}, PLACED], 5: [set()],
    **{number: [shape | more for shape in shapes for more in (set(), {"decoded"}, {"label", "decoded"})]
       for number, shapes in OF_LABELS.items()},
    # Where a U-label is wanted: what an A-label stands for, or that it is none.
    13: [PLACED, PLACED | {"decoded"}, PLACED | {"label", "decoded"}, PLACED | {"ulabel"}, PLACED | {"rule"}],
    # Of a name as a whole: a label that is copied may break the Bidi rule.
    17: [PLACED | {"rule", "bidi_class"} | more for more in (set(), {"decoded"}, {"label"}, {"label", "decoded"})],
    19: [shape | more for shape in OF_A_LABELS for more in (set(), {"label"})],
    20: [set()], 21: [{"octets"}, {"label", "octets"}], 30: [set(), {"byte"}, {"code_point", "byte"}],
    # Of a ruleset in XML no place is told.
    31: [set(), {"byte"}], 32: [set(), {"byte"}], 33: [set(), {"code_point", "byte"}], 34: [set(), {"byte"}, {"code_point", "byte"}],
    35: [set(), {"byte"}], 36: [set(), {"byte"}], 37: [set()], 40: [PLACED],
    41: [PLACED, PLACED | {"condition", "rule"}, {"demand", "kind"}, {"condition", "rule", "action"}, {"action"}, {"unclear"},
         PLACED | {"action", "type"}, PLACED | {"default_action", "type"}],
}
# A value of each member of a refusal.
MEMBERS = {"label": 2, "decoded": True, "code_point": "U+200C", "place": 1, "rule": None, "bidi_class": "AL", "nfc": "U+00E1",
           "code_points": 64, "octets": 64, "alabel": "a", "byte": 1, "condition": "when", "demand": 1, "kind": "never",
           "ulabel": "faß", "action": 1, "default_action": 1, "type": "invalid", "unclear": True}
RULES = {10: "RFC 5892 2.2", 11: "RFC 5892 2.10", 13: "RFC 5890 2.3.2.1", 15: "RFC 5892 A.1", 16: "RFC 5892 A.3", 17: "RFC 5893 2 condition 1",
         19: "RFC 3492 6.2", 41: "after_consonant"}
OF_NO_TYPE = (None, True, 1.5, [], {})


# Data and rules of a ruleset in XML that is refused: with 30, 31, 32, 34, 35, 36 and 37.
REFUSED_IN_XML = (
    (b'<letter/>', b''), (b'<char cp="0061"/><char cp="0061"/>', b''),
    (b'<char cp="0061"><var cp="0062"/><var cp="0062"/></char>', b''), (b'<char cp="%s"/>' % b" ".join([b"0061"] * 9), b''),
    (b'<char cp="0061" when="x"/>', b''), (b'<char cp="0061"/>', b'<class name="k">0061</class>' * 2),
    (b'<char cp="0061"><var cp=""/></char>', b''),
)


def written_objects(folder):
    """The objects of all rows, of lines, tables and registered labels, as the program writes them."""
    for line, words, *_ in CAUSES + MORE_ROWS + ROWS:
        yield from objects_of(run(words_of(folder, words) + ["--json"], given_of(line)).stdout)
    for rows, before in ((TABLE_ROWS, ["--check-table"]), (REGISTERED_ROWS, [*GERMAN, "--among"])):
        for text, *_ in rows:
            text = text if isinstance(text, bytes) else text.encode()
            words = ["--check-ruleset"] if text.startswith(VERSION_3.encode()) else before
            yield from objects_of(run([*words, table_file(folder, text), "--json"]).stdout)
    yield from objects_of(run(["--check-table", table_file(folder, b"0073-0073|00DF\n00DF\n"), "--json"]).stdout)
    for parts in REFUSED_IN_XML:
        text = b'<lgr xmlns="urn:ietf:params:xml:ns:lgr-1.0"><data>%s</data><rules>%s</rules></lgr>' % parts
        yield from objects_of(run(["--check-ruleset", table_file(folder, text), "--json"]).stdout)
    yield from objects_of_types()
    registered = table_file(folder, b"haus\n", "registered.txt")
    yield from objects_of(run([*GERMAN, "--among", registered, "--json", "haus"]).stdout)


def objects_of_types():
    """Those of the worked rows of types and actions, which worked_runs.py asks the program for."""
    for words, _, _, (output, _, _) in type_rows.rows():
        if "--json" in words:
            yield from objects_of(output.encode())


def refusal_with(number, members):
    rule = RULES.get(number, "profile")
    point = {"code_point": "U+002D", "place": 3} if number == 13 else {}
    return {"number": number, "text": "x", **{name: rule if name == "rule" else MEMBERS[name] for name in members}, **point}


def tells_which_numbers_have_a_member(folder):
    """The second column of the table of docs/JSON.md, but for two members that go by what is refused."""
    rows = dict(re.findall(r"^\| `(\w+)` \| ([^|]*) \|", text_of_file("docs", "JSON.md").split("## What is refused")[1], re.MULTILINE))
    assert rows.keys() == MEMBERS.keys(), rows
    rows["place"] = rows["place"].replace("the same, but for 30, 33 and 34", ", ".join(
        each for each in rows["code_point"].split(", ") if each not in ("30", "33", "34")))
    for member in MEMBERS.keys() - {"label", "decoded"}:
        told = {number for first, last in re.findall(r"(\d+)(?: to (\d+))?", rows[member]) for number in range(int(first), int(last or first) + 1)}
        known = {number for number, shapes in SHAPES.items() if any(member in shape for shape in shapes)}
        assert told == known, (member, told, known)


def told_at(refusal):
    """Objects of what is refused: a line in each way in which it is told, a table, and registered labels."""
    places = [{"line": 1, "input": "x"}, {"line": 1, "input": None}, {"line": 1, "input_hex": "FF"}, {"table_line": 1}, {"registered_line": 1}]
    return [{**place, "refusal": refusal} for place in places]


def describes_refusals_by_their_members(folder):
    """Each number with each set of members that docs/JSON.md gives it, and with one member more or less: only these are
    described. No other number is."""
    tried = []
    for number, shapes in SHAPES.items():
        known = set(map(frozenset, shapes))
        for members in {frozenset(shape ^ {name}) for shape in known for name in MEMBERS} | known:
            refusal = {name: value for name, value in refusal_with(number, members).items() if name in members | {"number", "text"}}
            tried += told_at(refusal)
            assert any(map(is_described, told_at(refusal))) == (members in known), refusal
    for number in set(range(-1, 100)) - SHAPES.keys():
        for more in ({}, {"byte": 1}, {"code_point": "U+0041", "place": 1}):
            refusal = {"number": number, "text": "x", **more}
            tried += told_at(refusal)
            assert not any(map(is_described, told_at(refusal))), refusal
    agree(random.Random(8259).sample(tried, 200))


# What no schema of a member should let through.
WRONG = (("line", 0), ("line", 2 ** 32 + 1), ("table_line", 0), ("count", -1), ("input_hex", "ff"), ("input_hex", "F"), ("place", 0),
         ("byte", 0), ("label", 0), ("octets", -1), ("code_point", "U+00FG"), ("code_point", "u+0041"), ("code_point", "U+110000"),
         ("alabel", "É"), ("rule", "RFC 5892 2.5"), ("nfc", ""), ("after", ""),
         ("disposition", "valid"), ("there", "valid"), ("back", ""), ("source", "61"),
         ("condition", "if"), ("demand", 0), ("demand", 257), ("kind", "sometimes"),
         ("action", 0), ("action", 257), ("default_action", 2), ("type", "9"), ("unclear", False), ("idle", "9"))


def changed(each):
    """Objects that differ from this one in one member, also of its refusal: that lack it, with the name; that have another value, of
    another type mostly; and that have one more."""
    for name, value in each.items():
        rest = {other: value for other, value in each.items() if other != name}
        yield "lacks", name, rest
        yield from (("has", name, {**rest, name: wrong}) for wrong in OF_NO_TYPE if not is_same(wrong, value))
        yield from (("has", name, {**rest, name: wrong}) for told, wrong in WRONG if told == name)
        if name == "refusal":
            yield from ((how, (value["number"], inner), {**each, name: part}) for how, inner, part in changed(value))
    yield "has", "other", {**each, "other": 1}


def describes_no_other_objects(folder):
    """Of each object that the program writes: one that has a member of another type, or one member more, is not described, and
    neither is one that lacks a member, unless there is another object without it."""
    form = lambda each: (*each, *each.get("refusal", ()), each.get("refusal", {}).get("number"))
    objects = {form(each): each for each in written_objects(folder)}.values()
    assert {each["refusal"]["number"] for each in objects if "refusal" in each} == SHAPES.keys() - {5}, len(objects)
    optional = {(number, name) for number, shapes in SHAPES.items() for shape in shapes for name in shape if shape - {name} in shapes}
    tried = []
    for each in objects:
        for how, name, other in changed(each):
            tried.append(other)
            # Without its disposition a variant is one of a table of version 1. Without its line the answer of a
            # registration is that of a listing.
            may_be = optional | {"disposition", "unclear", *(("input",) if {"input", "alabel"} <= each.keys() else ())}
            assert how == "lacks" and name in may_be or not is_described(other), (how, name, each, other)
    agree(random.Random(8259).sample(tried, 200))


# The co-process of docs/JSON.md is stopped or late, and goes on; then it is asked for another label.
LATE = """
import os, signal, time
def interrupt(*_):
    raise InterruptedError
signal.signal(signal.SIGALRM, interrupt)
labels = Labels("--register", seconds={})
print(labels.ask("haus")[-1]["input"])
os.kill(labels.child.pid, signal.SIGSTOP)
signal.alarm({})
for label in ("maus", "laus"):
    try:
        print(labels.ask(label)[-1]["input"])
    except (EOFError, OSError, ValueError) as reason:
        print(label, type(reason).__name__)
    labels.child.poll() is None and labels.child.send_signal(signal.SIGCONT)
    time.sleep(0.2)
"""


def takes_no_answer_for_that_of_another_request(folder):
    """The co-process of docs/JSON.md: without an answer in time; where it is interrupted; and where a line is that of another."""
    partner = shown_block("import json").partition("labels =")[0]
    for seconds, alarm, reason in ((1, 0, "EOFError"), (LIMIT, 1, "InterruptedError")):
        output, status = run_example(folder, [sys.executable, "-c", partner + LATE.format(seconds, alarm)])
        assert re.fullmatch(rf"haus\nmaus {reason}\nlaus \w+Error\n", output) and status == 0, (output, status)
    os.remove(os.path.join(folder, "idn2"))
    with open(os.path.join(folder, "idn2"), "w", encoding="utf-8") as file:
        file.write(f"#!/bin/sh\n{PROGRAM} \"$@\" | sed -u 's/\"line\":2,/\"line\":1,/'\n")
    os.chmod(os.path.join(folder, "idn2"), 0o755)
    asked = partner + 'labels = Labels("--register")\nfor label in ("haus", "maus"):\n    print(labels.ask(label))\n'
    output, status = run_example(folder, [sys.executable, "-c", asked])
    assert output.count("\n") == 1 and "haus" in output and status == 1, (output, status)


def takes_no_part_of_a_listing_for_the_whole(folder):
    """The co-process of docs/JSON.md, and its pipes where jq is there: a stop, a refusal or a fault is never passed over."""
    partner = shown_block("import json") + "print(len(variants))\n"
    for old, new, output, status in (("x", "x", "2\n", 0), ('german.txt"', 'german.txt", "--limit", "1"', "", 1),
                                     ('"straße"', '"Straße"', "", 1), ("german.txt", "nowhere.txt", "", 1)):
        assert run_example(folder, [sys.executable, "-c", partner.replace(old, new)]) == (output, status), new
    if not is_installed("jq"):
        return
    pipes = shown_block("set -o pipefail")
    first, second = re.split(r"\n(?=idn2 --json --variants)", pipes)
    listing = "set -o pipefail\n" + second
    for old, new, output, status in (("x", "x", "strasse\nstraße\n", 0), (" straße", " --limit 1 straße", "strasse\n", 5),
                                     (" straße", " Straße", "", 5), ("german.txt", "nowhere.txt", "", 3),
                                     (" straße", " --limit 0 straße", "", 2)):
        assert run_example(folder, ["bash", "-c", listing.replace(old, new, 1)]) == (output, status), new
    for labels, output, status in (("faß\nhaus\n", "", 0), ("faß\na-\n", "2: hyphen out of place\n", 1), (None, "", 3)):
        if labels is None:
            first = first.replace("< labels.txt", "< tables")
        else:
            with open(os.path.join(folder, "labels.txt"), "w", encoding="utf-8") as file:
                file.write(labels)
        assert run_example(folder, ["bash", "-c", first]) == (output, status), labels


TESTS = [
    answers_the_rows,
    checks_a_table,
    tells_the_fault_of_a_table,
    tells_the_fault_of_the_registered_labels,
    lists_registered_labels,
    ends_with_messages,
    tells_the_causes_of_messages,
    says_what_it_says_without,
    tells_each_line_as_it_was_read,
    tells_what_each_a_label_stands_for,
    answers_the_longest_lines,
    tells_causes_in_another_language,
    tells_which_numbers_have_a_member,
    describes_refusals_by_their_members,
    describes_no_other_objects,
    takes_no_answer_for_that_of_another_request,
    takes_no_part_of_a_listing_for_the_whole,
]

if __name__ == "__main__":
    if jsonschema is None and (python := python_with("jsonschema")):
        os.execv(python, [python, *sys.argv])
    sys.exit(run_tests("json_answers", TESTS))
