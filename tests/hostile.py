#!/usr/bin/env python3
"""Runs the built program with its memory, its reads and its writes refused one after the other. The last line is
'N passed, M failed', and the exit status is 0 where nothing failed."""

import concurrent.futures
import fcntl
import os
import subprocess
import sys
import tempfile
from typing import NamedTuple

from program import LIMIT, PROGRAM, run_tests, table_file

MEMORY, READ_FAULT, WRITE_FAULT = b"idn2: 70 out of memory\n", b"idn2: 60 read fault\n", b"idn2: 61 write fault\n"
# What a message that ends a run goes on with where causes are asked for, after the name of what failed.
REFUSED = b": input/output error\n"
DOUBLED = b"0061|0061-0061\n"
SHARP_S = b"0061\n0065\n0072\n0073\n0074\n0073-0073|00DF\n00DF|0073-0073\n"
BLOCK = "aa\taa\naaa\taaa\naaaa\taaaa\n#end 3\n"
STRASSE = "strasse\tstrasse\nstraße\txn--strae-oqa\n#end 2\n"
# Of version 2: in the first ß is blocked where ss stands, in the second nothing is blocked.
BLOCKING = b"%version 2\n0061..0063\n0073-0073|!00DF:0078\n00DF|0073-0073\n"
ALLOCATING = b"%version 2\n0061..0063\n0073-0073|00DF\n00DF|0073-0073\n"
# A ruleset that defines a type, a set, a rule of each kind and an action.
DEFINING = (b"%version 3\n%type t\n%set A 0061..0063 0065\n%rule r ^ (@A / 0062)* _ / _ $\n%whole w @A\n"
            b"%action blocked unless w any t\n0061|!0062\n0062\n")
# A ruleset with two out-of-repertoire variants.
INVALID = b"%version 3\n0061|!0430\n!0430|!0061\n0062\n!0063|!0062\n"
# A ruleset with two types, a demand, and conditions of sources and of variants: after a letter of A comes no `c`, and an `e`
# comes nowhere else; a `c` stands in place of `a` and `d` there alone, so it is a variant that is never eligible.
CONDITIONS = (b"%version 3\n%type s\n%type t\n%set A 0061..0063\n%rule r @A _\n%never 0064 0064\n%action valid all s\n"
              b"%action valid all t\n%action blocked any s,t\n0061 as s|0062 as t:!0063 when r\n"
              b"0062 as t|0061 as s\n0063 unless r\n0064|0063 when r\n0065 when r\n")
# A ruleset with two variants of each other, one way at the end alone.
DIFFERING = b"%version 3\n%rule r _ $\n0061|0062 when r:0063\n0062|0061\n"


class Case(NamedTuple):
    """A run where nothing fails: its words, its table, each line with its answer and its message, and its registered
    labels, if it has any."""

    words: list
    table: bytes
    lines: list
    status: int
    registered: bytes | None = None

    def whole(self):
        """What stands on the output and on the messages, and the status."""
        return *written(self.output_lines()), self.status

    def given(self):
        return "".join(line for line, _, _ in self.lines).encode()

    def write_files(self, folder):
        table_file(folder, self.table, "table")
        if self.registered is not None:
            table_file(folder, self.registered, "registered")

    def output_lines(self):
        """What is written, in order: lines for the output, at True, and messages."""
        for _, answer, message in self.lines:
            yield from ((True, line.encode()) for line in answer.splitlines(keepends=True))
            yield from ((False, line.encode()) for line in message.splitlines(keepends=True))


def written(lines):
    """What stands on the output and on the messages."""
    lines = list(lines)
    return tuple(b"".join(text for is_answer, text in lines if is_answer == wanted) for wanted in (True, False))


AMONG, JUMP = ["--variants", "table", "--among", "registered"], ["--variants", "table", "--jump"]

CASES = [
    Case(["-r"], b"", [("faß\n", "xn--fa-hia\n", ""), ("Faß\n", "", "idn2: line 2: 10 disallowed code point\n"),
                       ("abc\n", "abc\n", "")], 1),
    Case([], b"", [("Faß.de\n", "xn--fa-hia.de\n", "")], 0),
    Case(["-d"], b"", [("xn--fiqs8s.example\n", "中国.example\n", ""), ("XN--FA-HIA.de\n", "faß.de\n", ""),
                       ("xn--a\n", "", "idn2: line 3: 10 disallowed code point\n"),
                       ("xn--abc-\n", "", "idn2: line 4: 19 not an A-label\n"),
                       ("xn--\n", "", "idn2: line 5: 19 not an A-label\n")], 1),
    Case(["--variants", "table"], SHARP_S, [("strasse\n", STRASSE, ""), ("straße\n", STRASSE, "")], 0),
    Case(["--variants", "table"], SHARP_S, [("sss\n", "sss\tsss\nsß\txn--s-qfa\nßs\txn--s-pfa\n#end 3\n", "")], 0),
    Case(["--variants", "table", "--limit", "2", "--tries", "2"], SHARP_S,
         [("sss\n", "sss\tsss\nsß\txn--s-qfa\n#stop 2 sß\n", "")], 0),
    Case(["--variants", "table", "--after", "ßs"], SHARP_S, [("sss\n", "#end 0\n", "")], 0),
    # Lines that are empty, that end in a carriage return, and that lack a line feed.
    Case(["--variants", "table"], DOUBLED, [("\r\n", "", "idn2: line 1: 3 empty\n"), ("aa\r\n", BLOCK, ""),
                                            ("ab\n", "", "idn2: line 3: 40 not made of table entries\n"), ("aa", BLOCK, "")], 1),
    # Each line takes memory: the test of a mark that may compose, and the class of a code point that is left open.
    Case(["-r"], b"", [("q\u0301\n", "xn--q-xbb\n", ""), ("a\u0301\n", "", "idn2: line 2: 12 not in NFC\n"),
                       ("\u1e9e\n", "", "idn2: line 3: 10 disallowed code point\n")], 1),
    Case(["--variants", "table"], b"0071|0061\n0301\n", [("q\u0301\n", "q\u0301\txn--q-xbb\n#end 1\n", "")], 0),
    Case(["--variants", "table"], b"05D0|0061\n05D1\n", [("אב\n", "אב\txn--4dbc\n#end 1\n", "")], 0),
    Case(["--variants", "table"], b"0627\n0660|06F0\n",
         [("\u0627\u0660\u0660\n", "\u0627\u0660\u0660\txn--mgb8ia\n\u0627\u06f0\u06f0\txn--mgb61ba\n#end 2\n", "")], 0),
    Case(["--variants", "table"], b"0061|\n", [("", "", "idn2: table line 1: 30 table syntax\n")], 2),
    Case(["--variants", "table"], b"0061\n0061\n", [("", "", "idn2: table line 2: 31 source given twice\n")], 2),
    Case(["--variants", "table"], b"", [("a\n", "", "idn2: line 1: 40 not made of table entries\n")], 1),
    Case(["--variants", "table"], BLOCKING,
         [("ass\n", "ass\tass\tallocatable\nax\tax\tallocatable\naß\txn--a-qfa\tblocked\n#end 3\n", ""),
          ("as\n", "", "idn2: line 2: 40 not made of table entries\n"),
          ("aß\n", "ass\tass\tallocatable\naß\txn--a-qfa\tallocatable\n#end 2\n", "")], 1),
    Case(["--variants", "table"], b"%version 2\n0061|!0062:00DF\n",
         [("a\n", "a\ta\tallocatable\nb\tb\tblocked\nß\txn--zca\tallocatable\n#end 3\n", "")], 0),
    Case(["--variants", "table", "--limit", "1"], ALLOCATING, [("ass\n", "ass\tass\tallocatable\n#stop 1 ass\n", "")], 0),
    Case(["--variants", "table"], b"%version 2\n0063..0061\n", [("", "", "idn2: table line 2: 30 table syntax\n")], 2),
    Case(["--ruleset", "table"], INVALID, [("ab\n", "ab\tab\tallocatable\nаb\txn--b-7sb\tblocked\n#end 2\n", ""),
                                           ("аb\n", "", "idn2: line 2: 41 not valid under the table\n")], 1),
    Case(["--ruleset", "table"], CONDITIONS,
         [("aae\n", "aae\taae\tallocatable\nabe\tabe\tblocked\nbae\tbae\tblocked\nbbe\tbbe\tallocatable\n#end 4\n", ""),
          ("ea\n", "", "idn2: line 2: 41 not valid under the table\n"),
          ("dd\n", "", "idn2: line 3: 41 not valid under the table\n"),
          ("ad\n", "ad\tad\tallocatable\nbd\tbd\tallocatable\n#end 2\n", ""),
          ("f\n", "", "idn2: line 5: 40 not made of table entries\n")], 1),
    Case(["--ruleset", "table", "--tries", "3", "--after", "aae"], CONDITIONS,
         [("aae\n", "abe\tabe\tblocked\nbae\tbae\tblocked\nbbe\tbbe\tallocatable\n#stop 3 bbe\n", "")], 0),
    Case(["--ruleset", "table", "--among", "registered"], CONDITIONS,
         [("aae\n", "abe\tabe\tblocked\tallocatable\nace\tace\tblocked\tnone\nbbe\tbbe\tallocatable\tallocatable\n"
           "#end 3\n", "")], 0, b"abe\nace\nbbe\n"),
    # What a jump answers need not be eligible.
    Case(["--ruleset", "table", "--jump"], CONDITIONS, [("aae\tabf\n", "ace\tblocked\tnone\n", "")], 0),
    Case(["--ruleset", "table", "--json"], CONDITIONS,
         [("ad\n", '{"line":1,"ulabel":"ad","alabel":"ad","disposition":"allocatable"}\n'
           '{"line":1,"ulabel":"bd","alabel":"bd","disposition":"allocatable"}\n'
           '{"line":1,"input":"ad","count":2,"complete":true}\n', "")], 0),
    Case(["--check-ruleset", "table"], CONDITIONS,
         [("", "missing 0062|0063\nmissing 0063|0061\nmissing 0063|0064\n#table 5 3\n", "")], 1),
    Case(["--ruleset", "table"], b"%version 3\n%rule r _\n0061 when r\n0062 when s\n",
         [("", "", "idn2: table line 4: 35 name not defined\n")], 2),
    Case(["--check-ruleset", "table", "--explain"], b"%version 3\n!0061 as t\n",
         [("", "", "idn2: table line 2: 30 table syntax: 'as' at byte 7\n")], 2),
    Case(["--ruleset", "table"], DEFINING, [("ab\n", "ab\tab\tallocatable\nbb\tbb\tblocked\n#end 2\n", "")], 0),
    Case(["--check-ruleset", "table"], DIFFERING,
         [("", "missing 0062|0063\nmissing 0063|0061\ndiffers 0061|0062\n#table 2 2\n", "")], 1),
    Case(["--check-ruleset", "table"], DEFINING, [("", "missing 0062|0061\n#table 2 1\n", "")], 1),
    Case(["--ruleset", "table"], b"%version 3\n%set A 0061\n%rule r @A @B _\n",
         [("", "", "idn2: table line 3: 35 name not defined\n")], 2),
    Case(["--ruleset", "table"], b"%version 3\n%type t\n%rule t _\n", [("", "", "idn2: table line 3: 36 name given twice\n")], 2),
    Case(["--check-ruleset", "table"], INVALID, [("", "missing 0062|0063\n#table 4 1\n", "")], 1),
    Case(["--check-table", "table"], BLOCKING, [("", "missing 0078|0073-0073\nmissing 00DF|0078\n#table 5 2\n", "")], 1),
    Case(["--check-table", "table"], SHARP_S, [("", "#table 7 0\n", "")], 0),
    Case(["--check-table", "table"], DOUBLED, [("", "missing 0061-0061|0061\n#table 1 1\n", "")], 1),
    Case(["--check-table", "table"], b"0061|0062\n0062|0061:0063\n0063|0062\n",
         [("", "missing 0061|0063\nmissing 0063|0061\n#table 3 2\n", "")], 1),
    Case(AMONG, SHARP_S, [("sss\n", "sss\tsss\tvariant\tvariant\nßs\txn--s-pfa\tvariant\tvariant\n#end 2\n", ""),
                          ("Sss\n", "", "idn2: line 2: 10 disallowed code point\n"), ("aaa\n", "#end 0\n", "")], 1,
         "rest\nsss\nß\nßs".encode()),
    Case([*AMONG, "--limit", "1", "--after", "a"], BLOCKING,
         [("ass\n", "aß\txn--a-qfa\tblocked\tallocatable\n#stop 1 aß\n", "")], 0,
         "a\r\naß\r\nb\r\n".encode()),
    # Reading a label takes memory: the test of a mark that may compose.
    Case(AMONG, b"0071|0061\n0301\n", [("q\u0301\n", "q\u0301\txn--q-xbb\tvariant\tvariant\n#end 1\n", "")], 0,
         "q\u0301\n".encode()),
    # Registered labels of which one has the label as a variant, one is a variant of it, and one is neither.
    Case(AMONG, b"0061|0062\n0062\n0063|0064\n",
         [("bc\n", "ac\tac\tnone\tvariant\nbd\tbd\tvariant\tnone\n#end 2\n", "")], 0,
         b"ac\nad\nbd\n"),
    Case(AMONG, SHARP_S, [("", "", "idn2: registered line 2: 4 out of order\n")], 2, b"b\na\nc\n"),
    Case(AMONG, b"0061|", [("", "", "idn2: registered line 1: 1 not UTF-8\n")], 2, b"\xff\n"),
    Case(AMONG, b"0061|", [("", "", "idn2: table line 1: 30 table syntax\n")], 2, b"a\n"),
    # The causes of refusals, which take memory of their own.
    Case(["-r", "--explain"], b"",
         [("Faß\n", "", "idn2: line 1: 10 disallowed code point: U+0046 at place 1: RFC 5892 2.2 Unstable\n"),
          ("a\u0301\n", "", "idn2: line 2: 12 not in NFC: U+0061 at place 1: NFC has U+00E1\n"), ("abc\n", "abc\n", ""),
          ("xn--a-\n", "", "idn2: line 4: 19 not an A-label: the A-label is a\n"),
          ("a" * 62 + "ü\n", "", "idn2: line 5: 18 label too long: A-label of 70 octets\n")], 1),
    Case(["-d", "--explain"], b"", [("xn--4db.XN--LS8H\n", "", "idn2: line 1: 10 disallowed code point: label 2, decoded: "
                                     "U+1F4A9 at place 1: not RFC 5892 2.1 LetterDigits\n")], 1),
    Case(["-l", "--explain"], b"", [("ü..b\n", "", "idn2: line 1: 21 name or label length: label 2: 0 octets\n")], 1),
    Case(["--variants", "table", "--explain"], DOUBLED,
         [("aab\n", "", "idn2: line 1: 40 not made of table entries: U+0062 at place 3\n"), ("aa\n", BLOCK, "")], 1),
    Case([*AMONG, "--explain"], SHARP_S, [("", "", "idn2: registered line 2: 4 out of order: U+0061 at place 1\n")], 2, b"b\na\nc\n"),
    Case([*AMONG, "--explain"], SHARP_S, [("", "", "idn2: registered line 1: 10 disallowed code point: U+0046 at place 1: "
                                           "RFC 5892 2.2 Unstable\n")], 2, "Faß\n".encode()),
    Case(["--variants", "table", "--explain"], b"0061\n0062|\n",
         [("", "", "idn2: table line 2: 30 table syntax: the line ends at byte 6\n")], 2),
    Case(["--check-ruleset", "table", "--explain"], b"%version 3\n%type t\n0061|0062-0041\n",
         [("", "", "idn2: table line 3: 33 code point not allowed in a table: U+0041 at byte 11\n")], 2),
    Case(["--check-ruleset", "table", "--explain"], b"%version 3\n%set A 0061\n%rule r @A @B _\n",
         [("", "", "idn2: table line 3: 35 name not defined: '@B' at byte 12\n")], 2),
    Case(["--ruleset", "table", "--explain"], b"%version 3\n%rule r ^ $ _\n",
         [("", "", "idn2: table line 2: 30 table syntax: '$' at byte 11\n")], 2),
    # Objects, refusals with their causes among them.
    Case(["-r", "--json"], b"",
         [("faß\n", '{"line":1,"input":"faß","ulabel":"faß","alabel":"xn--fa-hia"}\n', ""),
          ("Faß\n", '{"line":2,"input":"Faß","refusal":{"number":10,"text":"disallowed code point","code_point":"U+0046",'
           '"place":1,"rule":"RFC 5892 2.2"}}\n', ""),
          ("xn--fa-hia\n", '{"line":3,"input":"xn--fa-hia","ulabel":"faß","alabel":"xn--fa-hia"}\n', ""),
          ("xn--a-\n", '{"line":4,"input":"xn--a-","refusal":{"number":19,"text":"not an A-label","alabel":"a"}}\n', "")], 1),
    Case(["-d", "--json"], b"", [("xn--fiqs8s\n", '{"line":1,"input":"xn--fiqs8s","unicode":"中国"}\n', ""),
                                 ("中.XN--FA-HIA\n", '{"line":2,"input":"中.XN--FA-HIA","unicode":"中.faß"}\n', "")], 0),
    Case(["-l", "--json"], b"", [("Faß.de\n", '{"line":1,"input":"Faß.de","ascii":"xn--fa-hia.de"}\n', ""),
                                 ("\n", '{"line":2,"input":"","refusal":{"number":3,"text":"empty"}}\n', "")], 1),
    Case(["--variants", "table", "--json"], SHARP_S,
         [("sss\n", '{"line":1,"ulabel":"sss","alabel":"sss"}\n{"line":1,"ulabel":"sß","alabel":"xn--s-qfa"}\n'
           '{"line":1,"ulabel":"ßs","alabel":"xn--s-pfa"}\n{"line":1,"input":"sss","count":3,"complete":true}\n', ""),
          ("sx\n", '{"line":2,"input":"sx","refusal":{"number":40,"text":"not made of table entries","code_point":"U+0078",'
           '"place":2}}\n', "")], 1),
    Case([*AMONG, "--json"], SHARP_S, [("", '{"registered_line":2,"refusal":{"number":4,"text":"out of order",'
                                        '"code_point":"U+0061","place":1}}\n', "")], 2, b"b\na\nc\n"),
    Case([*JUMP, "--json"], SHARP_S, [("sss\tsssa\n", '{"line":1,"input":"sss\\tsssa","ulabel":"sß","there":"variant",'
                                       '"back":"variant"}\n', ""),
                                      ("sss\tßt\n", '{"line":2,"input":"sss\\tßt","ulabel":null}\n', "")], 0),
    Case(["--check-ruleset", "table", "--json"], DIFFERING,
         [("", '{"source":"0062","missing":"0063"}\n{"source":"0063","missing":"0061"}\n{"source":"0061","differs":"0062"}\n'
           '{"entries":2,"gaps":2}\n', "")], 1),
    Case(["--check-table", "table", "--json"], DOUBLED,
         [("", '{"source":"0061-0061","missing":"0061"}\n{"entries":1,"gaps":1}\n', "")], 1),
    Case(["--variants", "table", "--json"], b"0061|\n",
         [("", '{"table_line":1,"refusal":{"number":30,"text":"table syntax","byte":6}}\n', "")], 2),
    Case(["-d", "--json", "--explain"], b"",
         [("ü.XN--LS8H\n", '{"line":1,"input":"ü.XN--LS8H","refusal":{"number":10,"text":"disallowed code point","label":2,'
           '"decoded":true,"code_point":"U+1F4A9","place":1,"rule":"RFC 5892 2.1"}}\n', "")], 1),
    Case(["-l", "--json"], b"", [("ü..b\n", '{"line":1,"input":"ü..b","refusal":{"number":21,"text":"name or label length","label":2,'
                                  '"octets":0}}\n', "")], 1),
    Case(["-r", "--json"], b"",
         [("a\u0301\n", '{"line":1,"input":"a\u0301","refusal":{"number":12,"text":"not in NFC","code_point":"U+0061","place":1,'
           '"nfc":"U+00E1"}}\n', ""),
          ("q\u0301\n", '{"line":2,"input":"q\u0301","ulabel":"q\u0301","alabel":"xn--q-xbb"}\n', ""),
          ("a" * 62 + "ü\n", '{"line":3,"input":"' + "a" * 62 + 'ü","refusal":{"number":18,"text":"label too long",'
           '"octets":70}}\n', "")], 1),
    Case(["--variants", "table", "--limit", "1", "--json"], ALLOCATING,
         [("ass\n", '{"line":1,"ulabel":"ass","alabel":"ass","disposition":"allocatable"}\n'
           '{"line":1,"input":"ass","count":1,"complete":false,"after":"ass"}\n', "")], 0),
    Case(["--ruleset", "table", "--json"], INVALID,
         [("ab\n", '{"line":1,"ulabel":"ab","alabel":"ab","disposition":"allocatable"}\n'
           '{"line":1,"ulabel":"аb","alabel":"xn--b-7sb","disposition":"blocked"}\n'
           '{"line":1,"input":"ab","count":2,"complete":true}\n', ""),
          ("аb\n", '{"line":2,"input":"аb","refusal":{"number":41,"text":"not valid under the table","code_point":"U+0430",'
           '"place":1,"default_action":1,"type":"invalid"}}\n', "")], 1),
    Case(["--check-ruleset", "table", "--json"], b"%version 3\n%type t\n0061|0062-0041\n",
         [("", '{"table_line":3,"refusal":{"number":33,"text":"code point not allowed in a table","code_point":"U+0041",'
           '"byte":11}}\n', "")], 2),
    Case(["--check-ruleset", "table", "--json"], b"%version 3\n%set A 0024\n",
         [("", '{"table_line":2,"refusal":{"number":33,"text":"code point not allowed in a table","code_point":"U+0024",'
           '"byte":8}}\n', "")], 2),
    Case([*AMONG, "--json"], SHARP_S,
         [("sss\n", '{"line":1,"ulabel":"sss","alabel":"sss","there":"variant","back":"variant"}\n'
           '{"line":1,"ulabel":"ßs","alabel":"xn--s-pfa","there":"variant","back":"variant"}\n'
           '{"line":1,"input":"sss","count":2,"complete":true}\n', ""),
          ("Sss\n", '{"line":2,"input":"Sss","refusal":{"number":10,"text":"disallowed code point","code_point":"U+0053","place":1,'
           '"rule":"RFC 5892 2.2"}}\n', "")], 1, "rest\nsss\nß\nßs".encode()),
    Case([*AMONG, "--json"], SHARP_S, [("", '{"registered_line":1,"refusal":{"number":10,"text":"disallowed code point",'
                                        '"code_point":"U+0046","place":1,"rule":"RFC 5892 2.2"}}\n', "")], 2, "Faß\n".encode()),
    Case([*JUMP, "--explain"], SHARP_S, [("sss\tt\n", "ßs\tvariant\tvariant\n", ""),
                                         ("sx\ta\n", "", "idn2: line 2: 40 not made of table entries: "
                                                                  "U+0078 at place 2\n")], 1),
    Case(JUMP, SHARP_S, [("sss\tsssa\n", "sß\tvariant\tvariant\n", ""), ("\tsss\n", "", "idn2: line 2: 3 empty\n"),
                         ("sss\tt\n", "ßs\tvariant\tvariant\n", ""),
                         ("sss\tßt\n", "#end\n", ""), ("x\ta\n", "", "idn2: line 5: 40 not made of table entries\n")], 1),
]


def refusing_library(folder):
    """The path of the library that refusing.c is built as."""
    library = os.path.join(folder, "refusing.so")
    kit = os.path.dirname(subprocess.run([os.environ.get("RT", "rt"), "doc"], capture_output=True, check=True, text=True).stdout.strip())
    tools = os.path.join(kit, "toolchain", "bin")
    source = os.path.join(os.path.dirname(os.path.abspath(__file__)), "refusing.c")
    subprocess.run([os.path.join(tools, "clang"), "--ld-path=" + os.path.join(tools, "ld.lld"), "-O1", "-shared",
                    "-fPIC", "-nostdlib", "-o", library, source], check=True)
    return library


class Refusing:
    """Runs the program with calls of the C library refused, by the library of refusing.c."""

    def __init__(self, folder):
        self.folder, self.library = folder, refusing_library(folder)

    def run(self, case, **refused):
        """What is answered, and whether anything was refused."""
        told, low = os.pipe()
        # Far from the numbers of the files that the program opens: FROM names the first of them, 3.
        teller = fcntl.fcntl(low, fcntl.F_DUPFD_CLOEXEC, 64)
        os.close(low)
        with tempfile.TemporaryDirectory(dir=self.folder) as here:
            case.write_files(here)
            env = {name: str(value) for name, value in refused.items()}
            done = subprocess.run([PROGRAM, *case.words], input=case.given(), capture_output=True, timeout=LIMIT, cwd=here,
                                  env={**env, "LD_PRELOAD": self.library, "TOLD": str(teller)}, pass_fds=[teller])
        os.close(teller)
        was_refused = os.read(told, 1) != b""
        os.close(told)
        return (done.stdout, done.stderr, done.returncode), was_refused

    def each(self, call, wanted, **more):
        """Refuses each call of a kind in turn, until a run makes too few. Each run's answer must be among those that
        `wanted` gives for a case and the number of the call."""
        def sweep(case):
            number, was_refused = 0, True
            while was_refused:
                number += 1
                found, was_refused = self.run(case, **{call: number, **more})
                answers = wanted(case, number) if was_refused else [case.whole()]
                assert found in answers, f"{call} {number}, {more}, {case}: found {found}, wanted {answers}"
            return number - 1
        with concurrent.futures.ThreadPoolExecutor(os.cpu_count()) as pool:
            return sum(pool.map(sweep, CASES))


def each_growth_is_refused(folder):
    """What stands is what was written before some output line, and then the one message."""
    def wanted(case, _):
        lines = list(case.output_lines())
        stops = [written(lines[:count]) for count in range(len(lines) + 1)]
        return [(output, messages + MEMORY, 4) for output, messages in stops]
    for once in (0, 1):
        Refusing(folder).each("GROWTH", wanted, ONCE=once)


def each_read_of_the_input_is_refused(folder):
    """Byte by byte, and all at once: the lines that a line feed ended before are served, and no other."""
    for piece in (1, 4096):
        def wanted(case, number):
            before = case.given()[:(number - 1) * piece].count(b"\n")
            output, messages = written(Case(case.words, b"", case.lines[:before], 0).output_lines())
            return [(output, messages + READ_FAULT, 3)]
        for once in (0, 1):
            Refusing(folder).each("READ", wanted, FROM=0, PIECE=piece, ONCE=once)


def ending(case, message, name):
    """The message that ends a run where what has this name fails."""
    return message[:-1] + b": " + name + REFUSED if "--explain" in case.words else message


def each_read_of_a_file_is_refused(folder):
    """Of the table, and then of the registered labels, byte by byte, and where each ends."""
    def unread(case, _):
        return [(b"", ending(case, READ_FAULT, name), 3) for name in (b"table", b"registered")]
    reads = sum(len(text) + 1 for case in CASES for text in (case.table, case.registered) if text and "table" in case.words)
    for once in (0, 1):
        refused = Refusing(folder).each("READ", unread, FROM=3, PIECE=1, ONCE=once)
        assert refused >= reads, f"{refused} reads of files were refused, of at least {reads}"


def stopped_at(case, is_of_output, number):
    """What stands before a byte of the output, or of the messages, from 1: of both, in the order of writing."""
    lines, count = [], 0
    for is_answer, text in case.output_lines():
        count += len(text) * (is_answer == is_of_output)
        if count >= number:
            return written([*lines, (is_answer, text[:len(text) - (count - number) - 1])])
        lines.append((is_answer, text))


def each_byte_of_the_output_is_refused(folder):
    """The bytes before it stand, with the messages of the lines before its own; and nothing is written after it."""
    def wanted(case, number):
        output, messages = stopped_at(case, True, number)
        return [(output, messages + ending(case, WRITE_FAULT, b"standard output"), 3)]
    for once in (0, 1):
        Refusing(folder).each("WRITE", wanted, TO=1, PIECE=1, ONCE=once)
    Refusing(folder).each("OUTPUT", wanted)


def each_byte_of_the_messages_is_refused(folder):
    """The bytes before it stand, with the answers before its message, and no further line is served."""
    def wanted(case, number):
        output, messages = stopped_at(case, False, number)
        return [(output, messages, 3)]
    for once in (0, 1):
        Refusing(folder).each("WRITE", wanted, TO=2, PIECE=1, ONCE=once)
    Refusing(folder).each("MESSAGES", wanted)


def cuts_the_last_message_and_keeps_its_status(folder):
    """Where the messages fail, too, at each byte of the last one; the output is cut within a code point."""
    listing = Case(["--variants", "table"], SHARP_S, [("sss\n", "sss\tsss\ns\u00DF\txn--s-qfa\n#end 2\n", "")], 0)
    label = Case(["-r"], b"", [("fa\u00DF\n", "xn--fa-hia\n", "")], 0)
    refusing = Refusing(folder)
    for case, refused, output, message, status in ((Case(["--bogus"], b"", [], 2), {}, b"", b"idn2: 50 usage\n", 2),
                                                   (label, {"READ": 1, "FROM": 0}, b"", READ_FAULT, 3),
                                                   (label, {"OUTPUT": 1}, b"", WRITE_FAULT, 3),
                                                   (listing, {"OUTPUT": 11}, b"sss\tsss\ns\xC3", WRITE_FAULT, 3),
                                                   (label, {"GROWTH": 1}, b"", MEMORY, 4)):
        for piece in (1, 4096):
            for place in range(len(message) + 1):
                found, _ = refusing.run(case, PIECE=piece, MESSAGES=place + 1, **refused)
                assert found == (output, message[:place], status), (case.words, refused, piece, place, found)


TESTS = [
    each_growth_is_refused,
    each_read_of_the_input_is_refused,
    each_read_of_a_file_is_refused,
    each_byte_of_the_output_is_refused,
    each_byte_of_the_messages_is_refused,
    cuts_the_last_message_and_keeps_its_status,
]

if __name__ == "__main__":
    sys.exit(run_tests("hostile", TESTS))
