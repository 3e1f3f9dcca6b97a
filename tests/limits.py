#!/usr/bin/env python3
"""Runs the built program at its limits: tables and lines as large as they may be, little memory, registered labels in files of
every kind, and listings that are stopped and resumed. The last line is 'N passed, M failed', and the exit status is 0 where
nothing failed."""

import concurrent.futures
import itertools
import os
import re
import resource
import subprocess
import sys

from hard_rulesets import conditions_at_every_limit, sets_at_their_limits
from hostile import BLOCKING, CONDITIONS, DOUBLED, MEMORY, READ_FAULT, SHARP_S
from program import LIMIT, PROGRAM, expect, run, run_tests, run_within, table_file

HYPHENS = b"0061|002D\n"


def within_a_second(words, given=b""):
    """Runs the program in one second of processor time."""
    done = run(words, given, preexec_fn=lambda: resource.setrlimit(resource.RLIMIT_CPU, (1, 1)))
    assert done.returncode in (0, 1, 2), f"{words}: status {done.returncode}, {done.stderr[:200]}"
    return done


def points(text):
    return "-".join(f"{ord(letter):04X}" for letter in text)


def a_label(label):
    """RFC 5890, section 2.3.2.1, by Python's Punycode."""
    return label if label.isascii() else "xn--" + label.encode("punycode").decode()


def answers_labels_of_every_length(folder):
    """Of 1 to 64 code points: such as are told by look-ups, and such as need memory, for a mark that may compose; each as
    a label, as what an A-label stands for, and as the one label of its listing."""
    table = table_file(folder, "\n".join(map(points, "aqß中א\u0301\u0F42\u0F72")).encode())
    makers = (lambda n: "a" * n, lambda n: "ß" * n, lambda n: "a" * (n - 1) + "ß", lambda n: "中" * n, lambda n: "א" * n,
              lambda n: "q" * (n - 1) + "\u0301", lambda n: "q\u0301" * (n // 2), lambda n: "a" * (n - 2) + "q\u0301",
              lambda n: "a" * (n - 2) + "\u0F42\u0F72")
    labels = [label for make in makers for label in map(make, range(2, 65))] + ["a", "ß", "中", "א"]
    is_short = lambda label: len(label) <= 63 and len(a_label(label)) <= 63
    told = "".join(f"idn2: line {line}: 18 label too long\n" for line, label in enumerate(labels, 1) if not is_short(label))
    given = "\n".join(labels).encode()
    short = list(filter(is_short, labels))
    coded = "".join(a_label(label) + "\n" for label in short)
    expect(["-r"], given, coded.encode(), told.encode(), 1)
    expect(["-r"], coded.encode(), coded.encode(), b"", 0)
    expect(["-d"], coded.encode(), "".join(label + "\n" for label in short).encode(), b"", 0)
    blocks = "".join(f"{label}\t{a_label(label)}\n#end 1\n" for label in short)
    expect(["--variants", table], given, blocks.encode(), told.encode(), 1)


def passes_over_candidates_that_are_too_long(folder):
    """The other candidate has 63 code points, and an A-label of 67 octets."""
    label = "a" * 62 + "b"
    table = table_file(folder, b"0061\n0062|00DF\n")
    expect(["--variants", table, label], b"", f"{label}\t{label}\n#end 1\n".encode(), b"", 0)


def sets_of_seventeen(count, length, mark=""):
    """A table of sets of 17 sequences of so many code points, which are all variants of each other. The mark stands before
    the first variant of each entry."""
    lines = []
    for start in range(0, count - 16, 17):
        sequences = [points(chr(0x4E00 + number) * length) for number in range(start, start + 17)]
        lines += [source + "|" + mark + ":".join(each for each in sequences if each != source) for source in sequences]
    return "\n".join(lines).encode()


def serves_the_largest_tables(folder):
    """Tables of as many entries as there may be, and of as many sequences of eight code points as a text has room for. In
    version 2 the first variant of each entry is blocked: here U+4E12."""
    field = lambda label: "\tblocked" if "\u4e12" in label else "\tallocatable"
    for count, length, is_version_2 in ((4096, 1, False), (1541, 8, False), (4096, 1, True), (1541, 8, True)):
        text = sets_of_seventeen(count, length, "!" * is_version_2)
        entries = text.count(b"\n") + 1
        table = table_file(folder, b"%version 2\n" * is_version_2 + text)
        assert within_a_second(["--check-table", table]).stdout == b"#table %d 0\n" % entries
        for label in ("\u4e11" * 8, "\u4e11" * 56):
            *variants, stop = within_a_second(["--variants", table, "--limit", "3"], label.encode()).stdout.decode().splitlines()
            listed = [line.split("\t")[0] for line in variants]
            assert variants == [f"{each}\t{a_label(each)}" + field(each) * is_version_2 for each in listed], variants
            assert len(listed) == 3 and listed == sorted(set(listed)) and stop == "#stop 3 " + listed[-1], (listed, stop)


def checks_tables_of_many_sizes(folder):
    lines = [b"%X\n" % point for point in range(0x4E00, 0x5E00)]
    for entries in range(0, 4097, 64):
        expect(["--check-table", table_file(folder, b"".join(lines[:entries]))], b"", b"#table %d 0\n" % entries, b"", 0)


def refuses_tables_over_a_limit(folder):
    entries = b"".join(b"%04X\n" % point for point in range(0x4E00, 0x5E00))
    expect(["--check-table", table_file(folder, entries)], b"", b"#table 4096 0\n", b"", 0)
    over = "idn2: table line {}: 34 table limit\n".format
    for text, line in ((entries + b"5E00\n", 4097), (b"#" * 1025 + b"\n", 1), (b"#" * 1024 + b"\r\n", 1)):
        expect(["--check-table", table_file(folder, text)], b"", b"", over(line).encode(), 2)
    expect(["--check-table", table_file(folder, b"#" * 1024 + b"\n")], b"", b"#table 0 0\n", b"", 0)
    # 1,530 entries of 680 bytes, and a range: with 1,633 code points its canonical text just keeps its limit.
    full = b"%version 2\n" + sets_of_seventeen(1541, 8) + b"\n4E00.."
    expect(["--check-table", table_file(folder, full + b"5460")], b"", b"#table 3163 0\n", b"", 0)
    expect(["--check-table", table_file(folder, full + b"5461")], b"", b"", over(1532).encode(), 2)
    for text, line in ((b"4E00..5E00", 2), (b"0061\n4E00..5DFF", 3), (b"0000..10FFFF", 2), (b"#" * 1025, 2)):
        expect(["--check-table", table_file(folder, b"%version 2\n" + text)], b"", b"", over(line).encode(), 2)
    expect(["--check-table", table_file(folder, b"%version 2\n4E00..5DFF")], b"", b"#table 4096 0\n", b"", 0)


# As many types as there may be, and an action that names them.
TYPES = [*(f"%type t{number}" for number in range(57)), f"%action valid any {','.join(f't{number}' for number in range(57))}"]


def serves_hostile_rulesets(folder):
    """Within a second: 4,096 atoms with stars within each other; 256 sets of thousands of spans; as many entries as there may be,
    in falling order, of as many types."""
    table = table_file(folder, conditions_at_every_limit().encode())
    for label in ("a" * 63, "ab" * 31):
        done = within_a_second(["--ruleset", table, "--limit", "3", "--tries", "10", label])
        assert done.stdout.splitlines()[0].split(b"\t")[0] == label.encode() and not done.stderr, done
    table = table_file(folder, sets_at_their_limits().encode())
    label = "".join(map(chr, range(0x4E01, 0x4E01 + 2 * 20, 2))) + "a"
    done = within_a_second(["--ruleset", table, label])
    assert done.stdout.decode().splitlines()[-1] == "#end 2" and not done.stderr, done
    done = within_a_second(["--ruleset", table, "\u4e00\u4e02a"])
    assert (done.stdout, done.returncode) == (b"", 1) and b": 41 not valid under the table" in done.stderr, done
    spans = (range(0x4E00, 0xA000), range(0xAC00, 0xD7A4), range(0x20000, 0x2825C))
    points = [f"{point:04X}" for span in spans for point in span]
    entries = [f"{point} as t{number % 57}" for number, point in enumerate(reversed(points))]
    lines = ["%version 3", *TYPES, *entries]
    table = table_file(folder, "\n".join(lines).encode())
    assert within_a_second(["--check-ruleset", table]).stdout == b"#table 65536 0\n"
    assert within_a_second(["--ruleset", table, "\u4e2d"]).stdout.decode() == "中\txn--fiq\tallocatable\n#end 1\n"


def lists_in_the_largest_nets_of_rulesets(folder):
    """Eight sources begin at each place, each with sixteen variants of eight code points, which are sources, too, and have as many
    types as there may be."""
    numbers = itertools.count()
    with open(table_of_the_largest_nets(folder), encoding="ascii") as file:
        entries = [re.sub(":", lambda _: f" as t{next(numbers) % 57}:", line) for line in file.read().splitlines()]
    entries += map(points, "bcdefghijklmnopq12345678")
    table = table_file(folder, "\n".join(["%version 3", *TYPES, *entries]).encode())
    done = within_a_second(["--ruleset", table, "--limit", "100"], b"a" * 63)
    variants = done.stdout.splitlines()
    assert (len(variants), variants[-1].split()[:2]) == (101, [b"#stop", b"100"]), variants[-1]
    assert variants[:-1] == sorted(set(variants[:-1]))


def serves_a_table_cut_in_its_last_line(folder):
    start = SHARP_S[:SHARP_S.rindex(b"00DF")]
    for end in (b"00D", b"00DF|", b"00DF|0073-"):
        expect(["--check-table", table_file(folder, start + end)], b"", b"", b"idn2: table line 7: 30 table syntax\n", 2)
    table = table_file(folder, start + b"00DF")
    expect(["--check-table", table], b"", b"missing 00DF|0073-0073\n#table 7 1\n", b"", 1)
    expect(["--variants", table, "sss"], b"", "sss\tsss\nsß\txn--s-qfa\nßs\txn--s-pfa\n#end 3\n".encode(), b"", 0)


def table_of_the_largest_nets(folder):
    """Eight sources begin at each place of a label of 63 letters a, each with sixteen variants of eight code points."""
    letters = "bcdefghijklmnopqr"
    lines = []
    for length in range(1, 9):
        variants = [(letter * 7 + str(length))[:8] for letter in letters[:16]]
        lines.append(points("a" * length) + "|" + ":".join(map(points, variants)))
    return table_file(folder, "\n".join(lines).encode())


def lists_in_the_largest_nets(folder):
    done = within_a_second(["--variants", table_of_the_largest_nets(folder), "--limit", "1000"], b"a" * 63)
    variants = done.stdout.splitlines()
    assert (len(variants), variants[-1].split()[:2]) == (1001, [b"#stop", b"1000"]), variants[-1]
    assert variants[0] == b"\t".join([b"a" * 63] * 2) and variants[:-1] == sorted(set(variants[:-1]))


def collides_and_jumps_in_the_largest_nets(folder):
    """In the largest variant graph and among some thousand labels, or with 2^62 variants and among half a million: at once. The one
    registered label that is a variant is told by eye."""
    largest, halves = table_of_the_largest_nets(folder), table_file(folder, b"0061|0062\n0062|0061\n", "halves.txt")
    found, found_of_halves = b"bbbbbbb8" * 7 + b"a" * 7, b"ab" * 31
    rows = [
        (largest, b"a" * 63, block_of_labels(3).replace(b"bbb\n", b"bbb\n" + found + b"\n"), found, b"none"),
        (halves, b"a" * 62, block_of_labels(4).replace(b"abab\n", b"abab\n" + found_of_halves + b"\n"), found_of_halves,
         b"variant"),
    ]
    for table, label, text, collision, back in rows:
        registered = table_file(folder, text, "registered.txt")
        done = within_a_second(["--variants", table, "--among", registered], label)
        assert done.stdout == b"\t".join([collision, collision, b"variant", back]) + b"\n#end 1\n", done
    for table, request, answer, back in (
        (largest, b"a" * 63 + b"\t" + b"bbbbbbb8" * 7, found, b"none"),
        (halves, b"a" * 62 + b"\t" + b"ab" * 30 + b"c", b"ab" * 29 + b"baaa", b"variant"),
    ):
        done = within_a_second(["--variants", table, "--jump"], request)
        assert done.stdout == b"\t".join([answer, b"variant", back]) + b"\n", done


def jumps_to_texts_that_fill_their_lines(folder):
    """Of 1,024 bytes with the label. Of a, which has aa as a variant, aa, aaa and aaaa the last is the least that is
    greater than aaa and a NUL."""
    words = ["--variants", table_file(folder, DOUBLED), "--jump"]
    least = b"a\tnone\tvariant"
    for text, answer in ((b"aaa" + b"\0" * 1018, b"aaaa\tvariant\tnone"), (b"a" * 1021, b"#end"), (b"\t" * 1021, least),
                         (("\U00010000" * 255 + "b").encode(), b"#end")):
        expect(words, b"aa\t" + text, answer + b"\n", b"", 0)
        expect(words, b"aa\t" + text + b"a\naa\t\n", least + b"\n", b"idn2: line 1: 2 line too long\n", 1)


def reads_registered_labels_from_anywhere(folder):
    """From a file, from the standard input and from a FIFO, each with every ending of its lines; an empty one, too."""
    table, fifo = table_file(folder, SHARP_S), os.path.join(folder, "fifo")
    os.mkfifo(fifo)
    strasse = b"strasse\tstrasse\tvariant\tvariant\n#end 1\n"
    none, words = b"#end 0\n", lambda name: ["--variants", table, "--among", name, "straße"]
    for text, answer in ((b"", none), (b"ast\nstrasse\n", strasse), (b"ast\nstrasse", strasse), (b"strasse\r", strasse),
                         (b"ast\r\nstrasse\r\n", strasse), (b"ast\nstrasse\r\nt", strasse), (b"t", none)):
        expect(words(table_file(folder, text, "registered.txt")), b"", answer, b"", 0)
        expect(words("/dev/stdin"), text, answer, b"", 0)
        with concurrent.futures.ThreadPoolExecutor(1) as pool:
            pool.submit(table_file, folder, text, "fifo")
            try:
                expect(words(fifo), b"", answer, b"", 0)
            finally:
                # Nobody may be left that waits for a reader.
                os.close(os.open(fifo, os.O_RDONLY | os.O_NONBLOCK))


def refuses_registered_labels_by_their_line(folder):
    """The first line that is wrong, also the last one, and one after many: nothing is answered."""
    words = ["--variants", table_file(folder, DOUBLED), "--among", os.path.join(folder, "registered.txt"), "aa"]
    many = block_of_labels(3)
    for text, fault in (
        (b"i" * 1024, "1: 18 label too long"), (b"i" * 1023 + b"\r\n", "1: 18 label too long"),
        (b"i" * 1025, "1: 2 line too long"), (b"i" * 1024 + b"\r\n", "1: 2 line too long"),
        (b"a" * 1_048_576, "1: 2 line too long"), (b"\n" + many, "1: 3 empty"), (many + b"\n", "17577: 3 empty"),
        (many + b"\r", "17577: 3 empty"), (many + b"zz", "17577: 4 out of order"), (many + b"zzz", "17577: 4 out of order"),
        (many + b"zzzz\r\r\n", "17577: 10 disallowed code point"),
        (many + b"zzz\xc3", "17577: 1 not UTF-8"), (b"\xef\xbb\xbf" + many, "1: 10 disallowed code point"),
        (many + b"zzz\0", "17577: 10 disallowed code point"),
    ):
        table_file(folder, text, "registered.txt")
        expect(words, b"", b"", f"idn2: registered line {fault}\n".encode(), 2)


def tells_of_registered_labels_that_cannot_be_read(folder):
    """Whatever is wrong with the table: a folder, no file, one whose bytes can't be read, one that nobody may open."""
    table, barred = table_file(folder, b"0061|"), table_file(folder, b"a\n", "barred.txt")
    os.chmod(barred, 0)
    # Whoever runs the tests as root may open it all the same.
    if_barred = [] if os.access(barred, os.R_OK) else [barred]
    for name in (folder, os.path.join(folder, "absent"), "/proc/self/mem", "", *if_barred):
        expect(["--variants", table, "--among=" + name, "aa"], b"", b"", READ_FAULT, 3)


def refuses_input_without_a_line_feed(folder):
    table, registered = table_file(folder, DOUBLED), table_file(folder, b"a\n", "registered.txt")
    for words in (["-l"], ["-r"], ["-d"], ["--variants", table], ["--variants", table, "--among", registered],
                  ["--variants", table, "--jump"]):
        done = within_a_second(words, b"a" * 1_048_576)
        assert (done.stdout, done.stderr, done.returncode) == (b"", b"idn2: line 1: 2 line too long\n", 1), done
        expect(words, b"a" * 1024 + b"\r\n", b"", b"idn2: line 1: 2 line too long\n", 1)


def told_of(line, disallowed):
    """The number that tells of a line, or None. A carriage return at its end is dropped."""
    try:
        text = line.removesuffix(b"\r").decode()
    except UnicodeDecodeError:
        return 1
    return 10 if set(text) & disallowed else None


def serves_lines_with_bytes_out_of_place(folder):
    """NUL, carriage returns and what is no UTF-8, in every place of a label."""
    label, table = "faß".encode(), table_file(folder, b"0066\n0061\n00DF\n")
    damages = (b"\0", b"\r", b"\r\r", b"\xff", b"\xc3", b"\xc0\x80", b"\xed\xa0\x80", b"\xf4\x90\x80\x80", b"\x9f", b"\0\xff")
    lines = [label[:place] + damage + label[place:] for damage in damages for place in range(len(label) + 1)]
    barred = set("\0\r")
    for words, disallowed, answer in (
        (["-r"], barred, lambda line: b"xn--fa-hia\n"),
        (["-d"], set(), lambda line: line.removesuffix(b"\r") + b"\n"),
        (["--variants", table], barred, lambda line: b"fa\xc3\x9f\txn--fa-hia\n#end 1\n"),
    ):
        told = [told_of(line, disallowed) for line in lines]
        output = b"".join(answer(line) for line, number in zip(lines, told) if number is None)
        texts = {1: "not UTF-8", 10: "disallowed code point"}
        messages = "".join(f"idn2: line {line}: {number} {texts[number]}\n" for line, number in enumerate(told, 1) if number)
        expect(words, b"\n".join(lines), output, messages.encode(), 1)
    refused = run(["-l"], b"\n".join(lines)).stderr.decode().splitlines()
    wanted = [line for line, text in enumerate(lines, 1) if told_of(text, set()) == 1]
    assert [int(each.split()[2][:-1]) for each in refused if each.endswith(": 1 not UTF-8")] == wanted, refused


# Octets on both sides of each edge of RFC 3629, section 4, and of the places from which the Bidi rule is asked no more.
EDGES = bytes.fromhex("2e617f808e8f909fa0a3a4bfc0c1c2d5d6d7dfe0e1e2ecedeeeff0f4f5ff")


def tells_each_short_text_that_is_utf8(folder):
    """All texts of up to three such octets, and of four from F0, F1, F4, F5 or F8 on, alone and at the end of longer ones, as
    Python decodes them."""
    texts = [bytes(octets) for length in (1, 2, 3) for octets in itertools.product(EDGES, repeat=length)]
    texts += map(bytes, itertools.product(b"\xf0\xf1\xf4\xf5\xf8", EDGES, b"\x7f\x80\xbf\xc0", b"\x7f\x80\xbf\xc0"))
    for front in (b"", b"a" * 6, b"a" * 14):
        lines = [front + text for text in texts]
        wanted = [line for line, text in enumerate(lines, 1) if told_of(text, set()) == 1]
        messages = "".join(f"idn2: line {line}: 1 not UTF-8\n" for line in wanted)
        answers = b"".join(line + b"\n" for line in lines if told_of(line, set()) is None)
        expect(["-d"], b"\n".join(lines), answers, messages.encode(), 1)
        refused = run(["-d", "--standard"], b"\n".join(lines)).stderr.decode().splitlines()
        assert [int(each.split()[2][:-1]) for each in refused if each.endswith(": 1 not UTF-8")] == wanted, front


def block_of_labels(length):
    """All labels of so many letters a to z, a line each, in order."""
    lines = [""]
    for _ in range(length):
        lines = [line + chr(letter) for line in lines for letter in range(0x61, 0x7B)]
    return "".join(line + "\n" for line in lines).encode()


def tells_of_memory_within_any_address_space(folder):
    """In each mode the whole answer, or what stands of it in whole lines before refusal 70."""
    table = table_file(folder, sets_of_seventeen(4096, 1))
    blocking = table_file(folder, b"%version 2\n" + sets_of_seventeen(4096, 1, "!"), "blocking.txt")
    conditions = table_file(folder, CONDITIONS + sets_of_seventeen(4096, 1), "conditions.txt")
    lines = "faß\nq\u0301\nFaß\nxn--fa-hia\nxn--abc-\na\u0301\n".encode() * 40
    labels = ("\u4e10" * 9 + "\n").encode() * 3
    listing = lambda table: ["--variants", table, "--limit", "5"]
    registered = table_file(folder, block_of_labels(3), "registered.txt")
    requests = ("\u4e10" * 9 + "\t" + "\u4e11" * 8 + "\n").encode() * 3
    for words, given in ((["-l"], lines), (["-r"], lines), (["-d"], lines), (["--check-table", table], b""),
                         (listing(table), labels), (listing(blocking), labels), (["--variants", table, "--jump"], requests),
                         (["--variants", blocking, "--among", registered], labels), (["-r", "--json"], lines),
                         (["-d", "--explain"], lines), ([*listing(blocking), "--json"], labels),
                         (["--ruleset", conditions, "--limit", "5"], b"aaeddb\nea\nabab\n" * 3),
                         (["--check-ruleset", conditions], b"")):
        whole, refused = run(words, given), 0
        assert whole.returncode in (0, 1), whole
        for space in range(2 << 20, 14 << 20, 32 << 10):
            done = run_within(space, words, given)
            # The loader, which needs some room before the program begins, ends with 127.
            if done.returncode == 4:
                told = done.stderr.removesuffix(MEMORY)
                assert done.stderr == told + MEMORY and whole.stderr.startswith(told), (space, words, done)
                assert whole.stdout.startswith(done.stdout), (space, words, done)
                assert done.stdout[-1:] in (b"", b"\n") and told[-1:] in (b"", b"\n"), (space, words, done)
                refused += 1
            elif done.returncode != 127:
                assert (done.stdout, done.stderr, done.returncode) == (whole.stdout, whole.stderr, whole.returncode), done
        assert refused > 0, words


def collides_in_pages_as_at_once(folder):
    """With every second variant registered, each a neighbour of labels that are no variants: these variants, and no other."""
    for text, label in ((DOUBLED, "a" * 5), (SHARP_S, "ssssss"), (BLOCKING, "ssaß"), (b"0071|0061\n0301\n", "qqq\u0301"),
                        (CONDITIONS, "aaadaae")):
        words = listing_of(table_file(folder, text), text)
        *whole, _ = run(words, label.encode()).stdout.splitlines()
        wanted = whole[::2]
        labels = [line.split(b"\t")[0] for line in wanted]
        near = [each + b"0" for each in labels] + [b"0", b"zz"]
        registered = table_file(folder, b"\n".join(sorted(labels + near)), "registered.txt")
        words += ["--among", registered]
        *lines, end = run(words, label.encode()).stdout.splitlines()
        # A table of version 1 has no dispositions, and says of a variant that it is one.
        there = [line.rsplit(b"\t", 1)[0].removesuffix(b"\tvariant") for line in lines]
        assert (there, end) == (wanted, b"#end %d" % len(wanted)), (label, lines, end, wanted)
        for limit in ("1", "2"):
            assert pages([*words, "--limit", limit], label)[0] == lines, (label, limit, wanted)


def listing_of(table, text):
    """The words by which variants are listed under a table or a ruleset with this text."""
    return ["--ruleset" if text.startswith(b"%version 3\n") else "--variants", table]


def pages(words, label):
    """The lines of a listing that is stopped again and again, and its trailers: each run begins after the last stop."""
    lines, trailers = [], [b"#stop 0 "]
    while trailers[-1].startswith(b"#stop "):
        start = trailers[-1].split(b" ", 2)[2].decode()
        *variants, trailer = run([*words, "--after=" + start], label.encode()).stdout.splitlines()
        assert trailer.split()[1] == b"%d" % len(variants), trailer
        lines += variants
        trailers.append(trailer)
    return lines, trailers[1:]


def lists_in_pages_what_it_lists_at_once(folder):
    rows = [(DOUBLED, "a" * 5), (HYPHENS, "a" * 6), (SHARP_S, "ssssss"), (b"0061-0062|0063\n0061|0062\n", "ababab"),
            ("4E2D|4E2A\n56FD|570B\n570B|56FD\n4E2A|4E2D\n".encode(), "中国中国"), (b"0071|0061\n0301\n", "qqq\u0301"),
            (BLOCKING, "ssaß"), (CONDITIONS, "aaadaae")]
    for text, label in rows:
        words = listing_of(table_file(folder, text), text)
        *whole, end = run(words, label.encode()).stdout.splitlines()
        assert end == b"#end %d" % len(whole) and whole == sorted(set(whole)), (label, end)
        for stop in (["--limit", "1"], ["--limit", "3"], ["--tries", "1"], ["--tries", "4"], ["--limit", "2", "--tries", "3"]):
            lines, trailers = pages([*words, *stop], label)
            assert lines == whole, (text, label, stop, lines, whole)
            assert all(trailer.startswith(b"#stop ") for trailer in trailers[:-1]), trailers


def ends_where_the_reader_of_a_listing_left(folder):
    """At once, though the labels that are left are 2^62."""
    words = ["--variants", table_file(folder, b"0061|0062\n"), "--tries", "1000000000", "a" * 62]
    with subprocess.Popen([PROGRAM, *words], stdout=subprocess.PIPE, stderr=subprocess.PIPE) as source:
        assert source.stdout.readline() == b"\t".join([b"a" * 62] * 2) + b"\n"
        source.stdout.close()
        assert (source.stderr.read(), source.wait(LIMIT)) == (b"", 3)


def tells_of_an_input_that_cannot_be_read(folder):
    table = table_file(folder, DOUBLED)
    for words in (["-l"], ["-r"], ["-d"], ["--variants", table]):
        folder_itself = os.open(folder, os.O_RDONLY)
        done = subprocess.run([PROGRAM, *words], stdin=folder_itself, capture_output=True, timeout=LIMIT)
        os.close(folder_itself)
        assert (done.stdout, done.stderr, done.returncode) == (b"", READ_FAULT, 3), (words, done)
        done = subprocess.run([PROGRAM, *words], capture_output=True, timeout=LIMIT, preexec_fn=lambda: os.close(0))
        assert (done.stdout, done.stderr, done.returncode) == (b"", READ_FAULT, 3), (words, done)
    expect(["--check-table", table], b"", b"missing 0061-0061|0061\n#table 1 1\n", b"", 1)


TESTS = [
    answers_labels_of_every_length,
    passes_over_candidates_that_are_too_long,
    serves_the_largest_tables,
    checks_tables_of_many_sizes,
    serves_hostile_rulesets,
    refuses_tables_over_a_limit,
    serves_a_table_cut_in_its_last_line,
    lists_in_the_largest_nets,
    lists_in_the_largest_nets_of_rulesets,
    collides_and_jumps_in_the_largest_nets,
    jumps_to_texts_that_fill_their_lines,
    reads_registered_labels_from_anywhere,
    refuses_registered_labels_by_their_line,
    tells_of_registered_labels_that_cannot_be_read,
    refuses_input_without_a_line_feed,
    serves_lines_with_bytes_out_of_place,
    tells_each_short_text_that_is_utf8,
    tells_of_memory_within_any_address_space,
    lists_in_pages_what_it_lists_at_once,
    collides_in_pages_as_at_once,
    ends_where_the_reader_of_a_listing_left,
    tells_of_an_input_that_cannot_be_read,
]

if __name__ == "__main__":
    sys.exit(run_tests("limits", TESTS))
