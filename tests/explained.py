#!/usr/bin/env python3
"""Refusals with their causes: `--explain`, in each mode that reads lines, for a table that has a fault, and for words and files, by
the rows of explained_rows.py. Without the option each message ends in front of its cause. The last line is 'N passed, M failed',
and the exit status is 0 where nothing failed."""

import os
import re
import shutil
import subprocess
import sys

from explained_rows import (DECODE, GERMAN, LOOKUP, MARK, MORE_ROWS, REGISTER, REGISTERED_ROWS, ROWS, RULESET_ROWS,
                            RULESETS_WITHOUT_VERSION, SOURCES, TABLE_ROWS, VERSION_3, WORD_ROWS)
from program import LIMIT, PROGRAM, encoded, expect, run, run_tests, table_file


def words_of(folder, words):
    if "SOURCES" not in words:
        return words
    table = table_file(folder, b"006F\n006F-0061-0062\n")
    return [table if word == "SOURCES" else word for word in words]


def given_of(line):
    return encoded(line) + b"\n"


def message_of(number, text, cause):
    return f"idn2: line {number}: {text}" + ("" if cause is None else f": {cause}") + "\n"


def expect_row(folder, line, words, text, cause):
    words = words_of(folder, words)
    if text is None:
        assert run(words + ["--explain"], given_of(line)).stderr == b"", line
        return
    expect(words, given_of(line), b"", message_of(1, text, None).encode(), 1)
    expect(words + ["--explain"], given_of(line), b"", message_of(1, text, cause).encode(), 1)


def tells_the_causes_of_the_rows(folder):
    for row in ROWS:
        expect_row(folder, *row)


def tells_the_causes_of_more_rows(folder):
    for row in MORE_ROWS:
        expect_row(folder, *row)


def tells_why_a_label_is_not_valid(folder):
    """With --jump, too, of the label of a request."""
    for text, label, cause in RULESET_ROWS:
        file = table_file(folder, (VERSION_3 + text).encode(), "ruleset.txt")
        expect_row(folder, label, ["--ruleset", file], "41 not valid under the table", cause)
        expect_row(folder, label + "\tx", ["--ruleset", file, "--jump"], "41 not valid under the table", cause)


def tells_each_line_its_own_cause(folder):
    """The rows of a mode in one run, with a line between each two that is answered, and their numbers rise."""
    for words in (REGISTER, DECODE, LOOKUP, GERMAN, SOURCES, SOURCES + ["--jump"]):
        rows = [row for row in ROWS + MORE_ROWS if row[1] == words and row[2] is not None]
        given = b"o\n" + b"".join(given_of(row[0]) + b"o\n" for row in rows)
        told = "".join(message_of(2 * k + 2, text, cause) for k, (_, _, text, cause) in enumerate(rows))
        done = run(words_of(folder, words) + ["--explain"], given)
        assert done.stderr.decode() == told and done.returncode == 1, (words, done.stderr, told)


def answers_the_same_with_the_option(folder):
    given = "faß\nxn--fa-hia\nhaus\nFaß\n".encode()
    for words in (REGISTER, DECODE, LOOKUP, GERMAN, GERMAN + ["--limit", "1"]):
        plain, explained = run(words, given), run(words + ["--explain"], given)
        assert (plain.stdout, plain.returncode) == (explained.stdout, explained.returncode), words


def tells_the_cause_of_a_wrong_registered_line(folder):
    """Without the option the message ends in front of its cause, as that of a line does."""
    for text, number, message, cause in REGISTERED_ROWS:
        text = text if isinstance(text, bytes) else text.encode()
        words = GERMAN + ["--among", table_file(folder, text, "registered.txt")]
        before = f"idn2: registered line {number}: {message}"
        expect(words, b"haus\n", b"", f"{before}\n".encode(), 2)
        expect(words + ["--explain"], b"haus\n", b"", (before + (f": {cause}" if cause else "") + "\n").encode(), 2)


def tells_where_a_table_has_its_fault(folder):
    """Without the option the message ends in front of the place. No line of the input is answered."""
    for text, number, message, place in TABLE_ROWS:
        text = text if isinstance(text, bytes) else text.encode()
        ruleset = text.startswith(VERSION_3.encode())
        file = table_file(folder, text, "faulty.txt")
        before = f"idn2: table line {number}: {message}"
        assert len(f"{before}: {place}\n") <= 160 and f"{before}: {place}".isascii(), (before, place)
        for option in ("--check-ruleset", "--ruleset") if ruleset else ("--check-table", "--variants"):
            given = b"a\n" if option in ("--ruleset", "--variants") else b""
            expect([option, file], given, b"", f"{before}\n".encode(), 2)
            expect([option, file, "--explain"], given, b"", (before + (f": {place}" if place else "") + "\n").encode(), 2)
    for text in RULESETS_WITHOUT_VERSION:
        words = ["--check-ruleset", table_file(folder, text.encode(), "faulty.txt"), "--explain"]
        expect(words, b"", b"", b"idn2: table line 1: 30 table syntax\n", 2)
    for text in ("", "0061\n", VERSION_3 + "0061\n"):
        words = ["--check-ruleset", table_file(folder, ("\ufeff" + text).encode(), "faulty.txt"), "--explain"]
        expect(words, b"", b"", f"idn2: table line 1: 30 table syntax: {MARK}\n".encode(), 2)


def tells_a_cause_in_one_line(folder):
    """A message is one line of at most 160 bytes, all ASCII; of at most 400 where it tells what an A-label stands for."""
    last = "\U0010FFFF"
    lines = [
        "xn--" + "a" * 1000 + last, "." .join(["a"] * 400) + ".xn--" + "é" * 3, ".".join(["a"] * 500) + ".xn--ls8h",
        ".".join(["a"] * 470) + ".xn--" + "b" * 59 + "-", last * 200, "a" * 1000,
        ("中" * 56).encode("idna").decode(),
    ]
    for words in (REGISTER, DECODE, LOOKUP, GERMAN):
        done = run(words + ["--explain"], "\n".join(lines + [row[0] for row in ROWS if isinstance(row[0], str)]).encode() + b"\n")
        for message in done.stderr.splitlines(keepends=True):
            most = 400 if b" an A-label of '" in message else 160
            assert len(message) <= most and (most == 400 or message.isascii()) and message.endswith(b"\n"), message


def tells_which_words_cannot_be_used(folder):
    """By the option, which may stand anywhere before `--`; without it as ever."""
    for words, cause in WORD_ROWS:
        for explained in (["--explain", *words], [*words, "--explain"]):
            if words == ["--limit"] and explained[-1] == "--explain":
                continue
            expect(explained, b"", b"", f"idn2: 50 usage: {cause}\n".encode(), 2)
        expect(words, b"", b"", b"idn2: 50 usage\n", 2)
        expect([*words, "--", "--explain"], b"", b"", b"idn2: 50 usage\n", 2)
    expect(["--explain", "--explain", "x"], b"", b"", b"idn2: 50 usage: --explain is given twice\n", 2)
    expect(["--explain", "-r", "-r", "--", "--foo"], b"", b"", b"idn2: 50 usage: --register is given twice\n", 2)
    # No option of the help is taken for the unknown one, in none of its forms.
    rows = re.findall(r"^ +(?:(-\w), )?(--[\w-]+)( <\w+>)?  ", run(["--help"]).stdout.decode(), re.MULTILINE)
    assert len(rows) > 12, rows
    for short, long, value in rows:
        if long not in ("--explain", "--help", "--version"):
            for option in filter(None, (short, long + "=1" if value else long)):
                expect([option, "--explain", "--foo"], b"", b"", b"idn2: 50 usage: unknown option '--foo'\n", 2)


def tells_which_file_cannot_be_read(folder):
    table = table_file(folder, b"0061\n")
    missing = os.path.join(folder, "none.txt")
    for words, name, cause in (
        (["--variants", missing, "x"], missing, "no such file"),
        (["--check-ruleset", folder], folder, "is a directory"),
        (["--variants", table, "--among", missing, "x"], missing, "no such file"),
        (["--variants", os.path.join(table, "x"), "x"], os.path.join(table, "x"), "not a directory"),
        (["--variants", missing + "\n", "x"], missing + "\\u{a}", "no such file"),
    ):
        expect(["--explain", *words], b"", b"", f"idn2: 60 read fault: {name}: {cause}\n".encode(), 3)
        expect(words, b"", b"", b"idn2: 60 read fault\n", 3)
    barred = table_file(folder, b"0061\n", "barred.txt")
    os.chmod(barred, 0)
    os.chmod(folder, 0o755)
    # Root may read it all the same, so somebody else asks.
    somebody = {} if os.geteuid() else {"user": 65534, "group": 65534, "extra_groups": []}
    words = [shutil.copy(PROGRAM, folder), "--explain", "--variants", barred, "x"]
    done = subprocess.run(words, capture_output=True, timeout=LIMIT, **somebody)
    assert (done.stderr, done.returncode) == (f"idn2: 60 read fault: {barred}: permission denied\n".encode(), 3), done
    # The standard input has no name that was given.
    descriptor = os.open(folder, os.O_RDONLY)
    done = subprocess.run([PROGRAM, "--explain", "-r"], stdin=descriptor, capture_output=True, timeout=LIMIT)
    os.close(descriptor)
    assert (done.stdout, done.stderr, done.returncode) == (b"", b"idn2: 60 read fault\n", 3), done


def tells_why_the_output_cannot_be_written(folder):
    for words in (["-r", "--explain", "abc"], ["--help", "--explain"]):
        with open("/dev/full", "wb") as full:
            done = subprocess.run([PROGRAM, *words], stdout=full, stderr=subprocess.PIPE, timeout=LIMIT)
        assert (done.returncode, done.stderr) == (3, b"idn2: 61 write fault: standard output: no space left\n"), words


def changes_nothing_else(folder):
    """The check of a table without a fault, help and the version take the option and answer as ever."""
    table = table_file(folder, b"0073-0073|00DF\n00DF\n")
    for words in (["--check-table", table], ["--help"], ["--version"]):
        plain, explained = run(words), run(words + ["--explain"])
        assert (plain.stdout, plain.stderr, plain.returncode) == (explained.stdout, explained.stderr, explained.returncode), words


TESTS = [
    tells_the_causes_of_the_rows,
    tells_the_causes_of_more_rows,
    tells_why_a_label_is_not_valid,
    tells_each_line_its_own_cause,
    answers_the_same_with_the_option,
    tells_the_cause_of_a_wrong_registered_line,
    tells_where_a_table_has_its_fault,
    tells_a_cause_in_one_line,
    tells_which_words_cannot_be_used,
    tells_which_file_cannot_be_read,
    tells_why_the_output_cannot_be_written,
    changes_nothing_else,
]

if __name__ == "__main__":
    sys.exit(run_tests("explained", TESTS))
