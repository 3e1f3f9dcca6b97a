#!/usr/bin/env python3
"""Runs the built program over registered labels: those that collide with a label (--among), and the least label from a
text on that may collide (--jump), by which a database finds them. The cases were worked out by hand from the rules. The last
line is 'N passed, M failed', and the exit status is 0 where nothing failed."""

import os
import random
import subprocess
import sys

from program import LIMIT, PROGRAM, TABLES, encoded, expect, lines_file, registered_file, run, run_tests, table_file

GERMAN = os.path.join(TABLES, "german.txt")
ALIKE = "%version 2\n0030\n006F|!0030\n0073\n0074\n0073-0073|00DF\n"
SWAPPED = "0061|0062\n0062|0061\n" + "".join(f"{point:04X}\n" for point in range(0x63, 0x7B))

# (registered labels, number of the line, number and text of its fault): files that are refused.
FAULTS = (
    ("strasse\nhaus\n", 2, "4 out of order"),
    ("haus\nhaus\n", 2, "4 out of order"),
    ("haus\nhaus\r\n", 2, "4 out of order"),
    ("strasse\nstrass\n", 2, "4 out of order"),
    ("haus\nmaus\nlaus\nHaus\n", 3, "4 out of order"),
    ("\nhaus\n", 1, "3 empty"),
    ("haus\n\nstrasse\n", 2, "3 empty"),
    ("haus\n\r\n", 2, "3 empty"),
    (b"haus\n\xff\n", 2, "1 not UTF-8"),
    (b"haus\n\xff" + b"i" * 1024 + b"\n", 2, "2 line too long"),
    ("haus\n" + "i" * 1025 + "\n", 2, "2 line too long"),
    ("Haus\n", 1, "10 disallowed code point"),
    ("haus\r\r\n", 1, "10 disallowed code point"),
    ("haus\tx\n", 1, "10 disallowed code point"),
    ("\ufeffhaus\n", 1, "10 disallowed code point"),
    ("haus\n\u0378\n", 2, "11 unassigned code point"),
    ("u\u0308\n", 1, "12 not in NFC"),
    ("haus\nxn--strae-oqa\n", 2, "13 hyphen out of place"),
    ("-haus\n", 1, "13 hyphen out of place"),
    ("\u0308\n", 1, "14 leading combining mark"),
    ("a\u200d\n", 1, "15 joiner out of context"),
    ("a\u00b7\n", 1, "16 code point out of context"),
    ("a\u05d0\n", 1, "17 Bidi rule broken"),
    ("haus\n" + "i" * 64 + "\n", 2, "18 label too long"),
    ("haus\nstraße\nstrasse", 3, "4 out of order"),
)

def both(*labels):
    """The answers of jumps to labels that are allocatable variants of the one asked about, and this one of them."""
    return "".join(label + "\tallocatable\tallocatable\n" for label in labels)


# (table, lines, answers, messages): jumps.
JUMPS = (
    # Below all, at one of them, between two, above all; and without a tab or a text.
    (GERMAN, "sss\tabc\nsss\tsss\nsss\tssz\nsss\tsß\nsss\tßs\nsss\tßsa\nsss\tüber\n",
     both("sss", "sss", "sß", "sß", "ßs") + "#end\n#end\n", ""),
    (GERMAN, "sss\nsss\t\nsss\r\nsss\t\r\n", both("sss", "sss", "sss", "sss"), ""),
    # The text goes to the end of the line: another tab, a space or a capital is a part of it.
    (GERMAN, "sss\tsss\t\nsss\ts\ts\nsss\tSSS\nsss\t sss\nsss\t\tzzz\n", both("sß", "sss", "sss", "sss", "sss"), ""),
    # What begins with a candidate is greater.
    (GERMAN, "sss\tss\nsss\tsssa\nsss\t\U0010ffff\n", both("sss", "sß") + "#end\n", ""),
    # Texts of 63 code points, of 64, and of a whole line.
    (SWAPPED, "".join("a" * 63 + "\t" + text + "\n" for text in
                      ("a" * 63, "a" * 64, "a" * 62 + "b", "a" * 62 + "bb", "b" * 63, "b" * 64, "a" * 960)),
     "".join(each + "\tvariant\tvariant" * (each != "#end") + "\n" for each in
             ("a" * 63, "a" * 62 + "b", "a" * 62 + "b", "a" * 61 + "ba", "b" * 63, "#end", "a" * 62 + "b")), ""),
    # The answer need not be registrable.
    ("0061|002D\n", "aaaa\naaaa\t----\naaaa\t-z\n",
     "----\tvariant\tnone\n----\tvariant\tnone\na---\tvariant\tnone\n", ""),
    # Nor does it have more than 63 code points.
    ("0061|0061-0061\n", "a" * 63 + "\n" + "a" * 63 + "\t" + "a" * 64 + "\n", "a" * 32 + "\tnone\tvariant\n#end\n", ""),
    # A blocked variant is an answer like any other.
    (ALIKE, "toss\nto\tt1\n", "t0ss\tblocked\tnone\nto\tallocatable\tallocatable\n", ""),
    # One variant graph for each line, whatever was asked before.
    (GERMAN, "sss\tßs\nhaus\nsss\tsss\n", both("ßs", "haus", "sss"), ""),
    # The label is refused by its first fault, then by 40; the text never is.
    (GERMAN, "Sss\tsss\n\tsss\n-s\ts\nстол\tсто\nsss\tSTRASSE!\n" + "s" * 64 + "\ts\nxn--zca\txn\n", both("sss"),
     "idn2: line 1: 10 disallowed code point\nidn2: line 2: 3 empty\nidn2: line 3: 13 hyphen out of place\n"
     "idn2: line 4: 40 not made of table entries\nidn2: line 6: 18 label too long\n"
     "idn2: line 7: 13 hyphen out of place\n"),
    # As in each mode, the line is UTF-8, has at most 1,024 bytes, and isn't empty.
    (GERMAN, b"sss\t\xff\n\nsss\t" + b"s" * 1021 + b"\nsss\t" + b"s" * 1020 + b"\nsss", both("sß", "sss").encode(),
     b"idn2: line 1: 1 not UTF-8\nidn2: line 2: 3 empty\nidn2: line 3: 2 line too long\n"),
)

TABLE_WORDS = ["--variants", GERMAN]


def table_of(folder, table):
    """The file of a table, which is a path or a text."""
    return table if os.path.isabs(table) else table_file(folder, table.encode())


def expect_faults(folder, faults):
    """Nothing is answered, and no line of the input is read."""
    for registered, line, fault in faults:
        words = [*TABLE_WORDS, "--among", registered_file(folder, registered)]
        message = f"idn2: registered line {line}: {fault}\n".encode()
        expect(words, b"haus\nHaus\n", b"", message, 2)
        expect([*words, "haus"], b"", b"", message, 2)


def refuses_a_file_by_its_first_wrong_line(folder):
    expect_faults(folder, FAULTS)


def encoded_length(label):
    """How many octets the A-label of a label has, by Python's own Punycode."""
    return len(label) if label.isascii() else len("xn--") + len(label.encode("punycode"))


# Letters of one to four octets in UTF-8, and what they are mixed with. Each is a label as it stands.
LETTERS = ["abcxyz", "äöüß", "абвгд", "กขคงจ", "中国國學生", "가나다", "\U00020000\U00020001\U0002A6D0"]


def measured_labels(chance):
    """Labels of all lengths up to some that are too long, so that their A-labels have from 1 to about 100 octets."""
    for _ in range(3000):
        letters = "".join(chance.sample(LETTERS, chance.randint(1, 3)))
        yield "".join(chance.choices(letters, k=chance.randint(1, 70)))


def measures_labels_as_another_program(folder):
    """A label is too long exactly where its A-label has more than 63 octets, however many it has itself."""
    labels = {*measured_labels(random.Random("lengths"))}
    short = [label for label in labels if encoded_length(label) <= 63 and len(label) <= 63]
    expect([*TABLE_WORDS, "--among", lines_file(folder, short)], b"", b"", b"", 0)
    lengths = {encoded_length(label) for label in short}
    assert lengths >= {*range(20, 64)}, lengths
    barely = [label for label in labels if encoded_length(label) in (64, 65)]
    assert len(barely) > 20, len(barely)
    for label in barely:
        message = b"idn2: registered line 1: 18 label too long\n"
        expect([*TABLE_WORDS, "--among", registered_file(folder, label)], b"", b"", message, 2)


def compares_lines_by_their_bytes(folder):
    """Two lines that begin alike, the shorter and the longer than what is compared at once."""
    chance = random.Random("order")
    for _ in range(300):
        shared = "".join(chance.choices("abß中", k=chance.randint(0, 20)))
        first, second = (shared + "".join(chance.choices("aß中", k=chance.randint(1, 2))) for _ in range(2))
        end = chance.choice(["\n", "\r\n"])
        rest = chance.choice(["", end, end + "龍"])
        words = [*TABLE_WORDS, "--among", registered_file(folder, first + end + second + rest)]
        if encoded(first) < encoded(second):
            expect(words, b"", b"", b"", 0)
        else:
            expect(words, b"", b"", b"idn2: registered line 2: 4 out of order\n", 2)


def tells_which_file_is_faulty(folder):
    """A file that can't be read comes first, then the registered labels, then the table."""
    absent, faulty = os.path.join(folder, "absent"), table_file(folder, b"0061|\n")
    good, wrong = table_file(folder, b"haus\n", "good.txt"), table_file(folder, b"Haus\n", "wrong.txt")
    unread = (b"", b"idn2: 60 read fault\n", 3)
    for table, registered, answer in (
        (GERMAN, absent, unread),
        (GERMAN, folder, unread),
        (GERMAN, "", unread),
        (faulty, absent, unread),
        (absent, wrong, unread),
        (faulty, wrong, (b"", b"idn2: registered line 1: 10 disallowed code point\n", 2)),
        (faulty, good, (b"", b"idn2: table line 1: 30 table syntax\n", 2)),
    ):
        expect(["--variants", table, "--among", registered], b"haus\n", *answer)
    expect(["--variants", faulty, "--jump"], b"haus\n", b"", b"idn2: table line 1: 30 table syntax\n", 2)
    expect(["--variants", absent, "--jump"], b"haus\n", *unread)


def refuses_options_that_do_not_go_together(folder):
    file = registered_file(folder, "haus\n")
    among = ["--among", file]
    for words in (
        [*TABLE_WORDS, *among, "--tries", "5", "haus"],
        [*TABLE_WORDS, *among, "--tries", "1000000", "haus"],
        [*TABLE_WORDS, *among, "--jump", "haus"],
        [*TABLE_WORDS, "--jump", "--after", "a", "haus"],
        [*TABLE_WORDS, "--jump", "--after=", "haus"],
        [*TABLE_WORDS, "--jump", "--limit", "1", "haus"],
        [*TABLE_WORDS, "--jump", "--tries", "1", "haus"],
        [*TABLE_WORDS, *among, *among, "haus"],
        [*TABLE_WORDS, "--jump", "--jump", "haus"],
        [*TABLE_WORDS, "--jump", "--register", "haus"],
        [*TABLE_WORDS, *among, "--register", "haus"],
        [*TABLE_WORDS, *among, "--limit", "0", "haus"],
        [*TABLE_WORDS, "--among", GERMAN, "haus"],
        ["--variants", "/dev/stdin", "--among", "/dev/stdin", "haus"],
        [*TABLE_WORDS, "--others", "haus"],
        [*TABLE_WORDS, *among, "--others", "--others", "haus"],
        [*TABLE_WORDS, "--jump", "--others", "haus"],
        [*TABLE_WORDS, "--old", "haus"],
        ["--register", "--old", "haus"],
        ["--old", "haus"],
        [*TABLE_WORDS, "--among"],
        [*TABLE_WORDS, "--jump=haus"],
        [*among, "haus"],
        ["--jump", "haus"],
        *([mode, *more, "haus"] for mode in ("--lookup", "--register", "--decode") for more in (among, ["--jump"])),
        ["--check-table", GERMAN, *among],
        ["--check-table", GERMAN, "--jump"],
    ):
        expect(words, b"haus\n", b"", b"idn2: 50 usage\n", 2)


def refuses_a_pipe_for_two(folder):
    """What is read second would be empty: lines of which none is answered, or labels that all seem free. Nobody writes into
    the FIFO, so nothing may wait for it."""
    among = [*TABLE_WORDS, "--among"]
    fifo, link, input_link = (os.path.join(folder, name) for name in ("fifo", "link", "input"))
    os.mkfifo(fifo)
    os.symlink(fifo, link)
    os.symlink("/dev/stdin", input_link)
    names = ("/dev/stdin", "/dev/fd/0", "/proc/self/fd/0", "/dev/../dev/stdin", input_link)
    for words in (*([*among, name] for name in names), *(["--variants", name] for name in names),
                  ["--variants", "/dev/stdin", "--jump"],
                  ["--variants", "/dev/stdin", "--among", "/dev/fd/0", "haus"],
                  ["--variants", "/dev/fd/0", "--among", input_link],
                  ["--variants", fifo, "--among", link, "haus"],
                  ["--variants", link, "--among", fifo]):
        expect(words, b"haus\n", b"", b"idn2: 50 usage\n", 2)
    read, write = os.pipe()
    copy = os.dup(read)
    os.close(write)
    done = run(["--variants", f"/dev/fd/{read}", "--among", f"/dev/fd/{copy}", "haus"], pass_fds=[read, copy])
    assert (done.stdout, done.stderr, done.returncode) == (b"", b"idn2: 50 usage\n", 2), done
    os.close(read)
    os.close(copy)


def reads_a_stream_where_nobody_else_does(folder):
    """A pipe where STRINGS are given or no line is read, two pipes, a file that is opened twice, and what is empty."""
    block = b"haus\thaus\tallocatable\tallocatable\n#end 1\n"
    among = [*TABLE_WORDS, "--among"]
    expect([*among, "/dev/stdin", "haus"], b"haus\n", block, b"", 0)
    words = ["--variants", "/dev/stdin", "--among", registered_file(folder, "a\n"), "a"]
    expect(words, b"0061\n", b"a\ta\tvariant\tvariant\n#end 1\n", b"", 0)
    expect(["--check-table", "/dev/stdin"], b"0061\n", b"#table 1 0\n", b"", 0)
    expect([*among, "-", "haus"], b"haus\n", b"", b"idn2: 60 read fault\n", 3)
    with open(registered_file(folder, "haus\n"), "rb") as labels:
        done = subprocess.run([PROGRAM, *among, "/dev/stdin"], stdin=labels, capture_output=True, timeout=LIMIT)
    assert (done.stdout, done.stderr, done.returncode) == (block, b"", 0), done
    for words in (["--variants", "/dev/null", "--among", labels.name], [*among, "/dev/null"]):
        done = subprocess.run([PROGRAM, *words], stdin=subprocess.DEVNULL, capture_output=True, timeout=LIMIT)
        assert (done.stdout, done.stderr, done.returncode) == (b"", b"", 0), done
    pipe, writer = os.pipe()
    os.write(writer, b"haus\n")
    os.close(writer)
    done = run([*among, f"/dev/fd/{pipe}"], b"haus\n", pass_fds=[pipe])
    os.close(pipe)
    assert (done.stdout, done.stderr, done.returncode) == (block, b"", 0), done


def answers_the_least_label_from_a_text_on(folder):
    for table, lines, answers, messages in JUMPS:
        words = ["--variants", table_of(folder, table), "--jump"]
        expect(words, encoded(lines), encoded(answers), encoded(messages), 1 if messages else 0)
    expect([*TABLE_WORDS, "--jump", "sss\tssz", "sss"], b"", both("sß", "sss").encode(), b"", 0)


TESTS = [
    refuses_a_file_by_its_first_wrong_line,
    measures_labels_as_another_program,
    compares_lines_by_their_bytes,
    tells_which_file_is_faulty,
    refuses_options_that_do_not_go_together,
    refuses_a_pipe_for_two,
    reads_a_stream_where_nobody_else_does,
    answers_the_least_label_from_a_text_on,
]


if __name__ == "__main__":
    sys.exit(run_tests("among", TESTS))
