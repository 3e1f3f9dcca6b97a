#!/usr/bin/env python3
"""Runs the built program as people run it: in pipes, as a co-process, with files, and into devices that fail.

What the contracts say of a run is proved; this tests what they can't speak of: the process, its words and its
files. The last line is 'N passed, M failed', and the exit status is 0 where nothing failed."""

import os
import random
import re
import resource
import shutil
import signal
import subprocess
import sys
import tempfile
import textwrap

ROOT = os.path.dirname(os.path.dirname(os.path.abspath(__file__)))
PROGRAM = os.path.join(ROOT, "crates", "idn2", "out", "idn2")
TABLES = os.path.join(ROOT, "tables")
LIMIT = 60
# What the test that runs left something out for, since it isn't installed.
LACKING = []
# Whether a test that leaves something out has failed.
NO_SKIPS = bool(os.environ.get("NO_SKIPS"))


def text_of(*parts):
    """The text of a file, by its path, which may be one below the top of the repository."""
    with open(os.path.join(ROOT, *parts), encoding="utf-8") as file:
        return file.read()


def run(words, given=b"", **more):
    return subprocess.run([PROGRAM, *words], input=given, capture_output=True, timeout=LIMIT, **more)


def run_within(space, words, given=b""):
    """Runs the program with an address space of so many bytes."""
    return run(words, given, preexec_fn=lambda: resource.setrlimit(resource.RLIMIT_AS, (space, space)))


def expect(words, given, output, messages, status, **more):
    done = run(words, given, **more)
    wanted = (output, messages, status)
    found = (done.stdout, done.stderr, done.returncode)
    assert found == wanted, f"{words}: wanted {wanted}, found {found}"


def table_file(folder, text, name="table.txt"):
    path = os.path.join(folder, name)
    with open(path, "wb") as file:
        file.write(text)
    return path


def encoded(text):
    return text if isinstance(text, bytes) else text.encode()


def registered_file(folder, text):
    return table_file(folder, encoded(text), "registered.txt")


def lines_file(folder, labels):
    """The same of labels, in their order."""
    return registered_file(folder, "".join(label + "\n" for label in sorted({*labels})))


def answers_standard_input(folder):
    expect([], "Faß.de\n".encode(), b"xn--fa-hia.de\n", b"", 0)
    expect([], "Faß.de".encode(), b"xn--fa-hia.de\n", b"", 0)
    expect([], b"", b"", b"", 0)


def answers_words(folder):
    expect(["-r", "faß"], b"", b"xn--fa-hia\n", b"", 0)
    expect(["faß", "--register", "abc"], b"not read\n", b"xn--fa-hia\nabc\n", b"", 0)
    expect(["-d", "xn--fiqs8s.example"], b"", "中国.example\n".encode(), b"", 0)
    expect(["-r", "--", "-a"], b"", b"", b"idn2: line 1: 13 hyphen out of place\n", 1)


def refuses_a_line_and_serves_the_next(folder):
    expect(["-r"], "faß\nFaß\nabc\n".encode(), b"xn--fa-hia\nabc\n", b"idn2: line 2: 10 disallowed code point\n", 1)


# Words that are refused, with bars between them.
REFUSED_WORDS = [
    "-r|-d|x", "--variants|t|--steps|1|x", "--variants|t|--steps|0|x", "--variants|t|--steps|1000000000000000001",
    "--variants|t|--steps|two|x", "--variants|t|--among|r|--steps|2|x", "--jump|--variants|t|--steps|2|x", "--steps|2|x",
    "-l|-d|x", "-l|--variants|t", "--variants|t|--check-table|t", "--variants|t|--ruleset|t|x",
    "--ruleset|t|--check-ruleset|t", "--ruleset|t|--ruleset|t|x", "--check-ruleset|t|x", "--check-ruleset|t|--limit|1",
    "--check-ruleset|t|--jump", "--print-ruleset|t|x", "--print-ruleset|t|--json", "--print-ruleset|t|--check-ruleset|t",
    "--print-ruleset|t|--print-ruleset|t", "--print-ruleset|t|--after|a", "--ruleset|t|--among|t|x", "--ruleset|t|--tries|0|x", "-r|--register|x",
    "--quiet|--quiet", "--standard|--standard|x", "--standard=yes|x", "--explain=yes|x", "--json|--json|x", "--json=yes|x",
    "--variants|t|--variants|u", "--variants", "--check-table|t|x", "--check-table|t|", "--after|a|x", "--after||x",
    "--limit|1|x", "-r|--tries|1|x", "--variants|t|--limit|0|x", "--variants|t|--limit|+5|x", "--variants|t|--limit| 5|x",
    "--variants|t|--limit||x", "--variants|t|--limit|00000000001|x", "--variants|t|--limit|1000000001|x",
    "--variants|t|--tries|0|x", "--variants|t|--tries|1000000001|x", "--variants|t|--after|--", "--variants|t|--after|-x",
    "--after|-h", "--bogus|-h", "-T|x", "--quiet=yes", "--among|r|x", "--jump|x", "-r|--jump|x",
    "--check-table|t|--among|r", "--variants|t|--among|r|--tries|5|x", "--variants|t|--among|t|x",
    "--variants|t|--among|r|--among|s|x", "--variants|t|--jump|--after|a|x", "--variants|t|--jump|--limit|1|x",
    "--variants|t|--jump|--tries|1|x", "--variants|t|--jump|--among|r|x", "--bogus",
]


def refuses_words(folder):
    for words in REFUSED_WORDS:
        expect(words.split("|"), b"", b"", b"idn2: 50 usage\n", 2)


def takes_a_start_of_1024_bytes(folder):
    words = ["--variants", table_file(folder, b"0061\n"), "a", "--after"]
    expect([*words, "a" * 1024], b"", b"#end 0\n", b"", 0)
    expect([*words, "a" * 1025], b"", b"", b"idn2: 50 usage\n", 2)


def refuses_words_that_are_not_utf8(folder):
    """They are shown with `--explain`. A file of such a name is given by its descriptor."""
    for words, shown in (([b"\xff"], r"\xFF"), (["-r", b"gr\xfc\xdf\n", b"\xff"], r"gr\xFC\xDF\u{a}"), (["--foo", b"--\xc3"], r"--\xC3"),
                         (["--variants", b"ma\xc3\x9f\xe2\x82", "a"], r"maß\xE2\x82")):
        expect(words, b"", b"", b"idn2: 50 usage\n", 2)
        expect([*words, "--", "--explain"], b"", b"", b"idn2: 50 usage\n", 2)
        for explained in (["--explain", *words], [*words, "--explain"]):
            expect(explained, b"", b"", f"idn2: 50 usage: '{shown}' is not UTF-8\n".encode(), 2)
    name = os.path.join(os.fsencode(folder), b"\xff.txt")
    with open(name, "wb") as file:
        file.write(b"0061\n")
    with open(name, "rb") as file:
        expect(["--variants", f"/dev/fd/{file.fileno()}", "a"], b"", b"a\ta\n#end 1\n", b"", 0, pass_fds=(file.fileno(),))


HELP = """\
Converts and tests internationalized domain names, and lists variants.

Usage: idn2 [OPTIONS] [STRINGS]...

Arguments:
  [STRINGS]...  Lines of input [default: the standard input]

Options:
  -l, --lookup                Convert each name for a query; the default
  -r, --register              Test each line, one label, and print its A-label
  -d, --decode                Turn the A-labels of each name into U-labels
      --variants <FILE>       List each label's variants by the table in FILE
      --check-table <FILE>    Print the pairs that the table in FILE lacks
      --ruleset <FILE>        List each label's variants by the ruleset in FILE
      --check-ruleset <FILE>  Print the pairs that the ruleset in FILE lacks
      --print-ruleset <FILE>  Print what the ruleset in FILE says; not as JSON
      --among <FILE>          With --variants: list labels in FILE that collide
      --others                With --among: leave out the label itself
      --jump                  With --variants: answer LABEL TAB TEXT by a label
      --old                   With --decode: print lines of registered labels
  -N, --tr46nt                Non-transitional lookup, which lookup does anyway
      --usestd3asciirules     Lookup refuses ASCII but letters, digits, hyphens
      --standard              Test labels by Unicode's own data, not by lists
      --explain               Messages of refused lines go on with the cause
      --json                  Answer by objects of JSON, with causes of refusals
      --quiet                 Accepted; there is no banner
      --after <TEXT>          With --variants: list only variants after TEXT
      --limit <N>             With --variants: stop after N variants of a line
      --tries <N>             With --variants: stop after N tested labels
      --steps <N>             With --variants: stop after N steps of the search
  -h, --help                  Print help
  -V, --version               Print version

What goes with --variants goes with --ruleset, too.
Without --limit and --steps there is no limit; without --tries it is 1000000.
Write --after=TEXT where TEXT begins with '-';
strings that begin with '-' come after '--'.

Examples:
  idn2 faß.de
      answers xn--fa-hia.de
  idn2 --variants german.txt --limit 100 strasse
      lists the first 100 variants of strasse
  idn2 --variants german.txt --among registered.txt strasse
      lists the labels in registered.txt that collide with strasse

Status:
  0  every line was answered
  1  a line was refused, or a check found something
  2  the options or a file can't be used
  3  reading or writing failed
  4  memory ran out
"""


def shows_help_and_version(folder):
    """Whatever else is asked for."""
    for words in (["-h"], ["--help", "x"], ["-r", "-d", "-h"], ["--limit", "0", "-h"], ["--variants", "t", "--limit", "0", "-h"]):
        expect(words, b"", HELP.encode(), b"", 0)
    done = run(["-V"])
    assert (done.returncode, done.stderr) == (0, b"") and b"Unicode" in done.stdout


def has_the_version_that_the_changes_name(folder):
    """The version at the top of the changes, with its version of Unicode, is that of the program and its documents."""
    with open(os.path.join(ROOT, "CHANGELOG.md"), encoding="utf-8") as file:
        version, unicode = re.search(r"^## (\S+)\n\nUnicode (\S+)\. ", file.read(), re.MULTILINE).groups()
    for words in (["--version"], ["--version", "--bogus"]):
        expect(words, b"", f"idn2 {version} (Unicode {unicode})\n".encode(), b"", 0)
    for document, words in (("docs/idn2.1", f'"idn2 {version}"'), ("docs/idn2-registry.1", f'"idn2 {version}"'),
                            ("docs/GUIDE.md", f"tar xf idn2-{version}.tar.gz &&\n"), ("registry/pyproject.toml", f'version = "{version}"\n')):
        assert words in text_of(document), (document, version)


def needs_only_the_c_library(folder):
    """In the version that the documents name, and in no later one."""
    needed = subprocess.run(["ldd", PROGRAM], capture_output=True, text=True, timeout=LIMIT).stdout
    names = {os.path.basename(line.split()[0]).split(".")[0] for line in needed.splitlines()}
    assert "libc" in names and names <= {"libc", "linux-vdso", "ld-linux-x86-64", "ld-linux-aarch64"}, needed
    if is_installed("objdump"):
        symbols = subprocess.run(["objdump", "-T", PROGRAM], capture_output=True, text=True, check=True, timeout=LIMIT).stdout
        lowest = max(re.findall(r"\bGLIBC_([0-9.]+)", symbols), key=lambda text: [int(part) for part in text.split(".")])
        for document in ("README.md", "docs/GUIDE.md"):
            assert re.findall(r"GNU C library, version (\S+) or\s+later", text_of(document)) == [lowest], (document, lowest)


def lists_variants(folder):
    table = table_file(folder, b"0061|0061-0061\n")
    expect(["--variants", table], b"aa\n", b"aa\taa\naaa\taaa\naaaa\taaaa\n#end 3\n", b"", 0)
    expect(["--variants", table, "--after", "aaa", "aa"], b"", b"aaaa\taaaa\n#end 1\n", b"", 0)
    expect(["--variants", table, "--limit", "1", "aa"], b"", b"aa\taa\n#stop 1 aa\n", b"", 0)
    expect(["--variants", table, "ab"], b"", b"", b"idn2: line 1: 40 not made of table entries\n", 1)


def says_which_variants_are_blocked(folder):
    """Under a table of version 2, where one segmentation without blocked variants is enough."""
    table = table_file(folder, b"%version 2\n0061..0063\n0078|!0079:007A\n")
    block = b"ax\tax\tallocatable\nay\tay\tblocked\naz\taz\tallocatable\n#end 3\n"
    expect(["--variants", table, "ax"], b"", block, b"", 0)
    expect(["--variants", table], b"ax\nay\nax\n", block * 2, b"idn2: line 2: 40 not made of table entries\n", 1)
    expect(["--variants", table, "--limit", "2", "ax"], b"", block[:block.index(b"az")] + b"#stop 2 ay\n", b"", 0)
    expect(["--variants", table, "--after", "ax", "ax"], b"", block[block.index(b"ay"):-2] + b"2\n", b"", 0)
    table = table_file(folder, b"%version 2\r\n0061|!0062\r\n0061-0061|0062-0062\r\n")
    block = b"aa\taa\tallocatable\nab\tab\tblocked\nba\tba\tblocked\nbb\tbb\tallocatable\n#end 4\n"
    expect(["--variants", table, "aa"], b"", block, b"", 0)
    # Without a blocked variant each line is allocatable; a label that is not in ASCII has its field after its A-label.
    table = table_file(folder, b"%version 2\n0073-0073|00DF")
    expect(["--variants", table, "ss"], b"", "ss\tss\tallocatable\nß\txn--zca\tallocatable\n#end 2\n".encode(), b"", 0)


def says_it_for_labels_of_every_length(folder):
    table = table_file(folder, b"%version 2\n0061|!0062\n")
    labels = ["a" * length for length in range(1, 64)]
    seconds = [label[1:] + "b" for label in labels]
    blocks = (f"{label}\t{label}\tallocatable\n{second}\t{second}\tblocked\n#stop 2 {second}\n"
              for label, second in zip(labels, seconds))
    lines = "".join(label + "\n" for label in labels)
    expect(["--variants", table, "--limit", "2"], lines.encode(), "".join(blocks).encode(), b"", 0)


def resumes_where_it_stopped(folder):
    """Runs of five tries each, every one from the stop of the one before, list what one run lists."""
    words = ["--variants", table_file(folder, b"0061|002D\n")]
    label = b"aaaaaaaa\n"
    whole = run(words, label).stdout.splitlines()
    assert (len(whole), whole[-1]) == (49, b"#end 48"), whole
    lines, stops, start = [], 0, ""
    while True:
        *variants, trailer = run([*words, "--tries", "5", "--after=" + start], label).stdout.splitlines()
        lines += variants
        if trailer.startswith(b"#end "):
            break
        stops, start = stops + 1, trailer.split(b" ")[2].decode()
    assert (lines, stops, trailer) == (whole[:-1], 19, b"#end 1"), (stops, trailer)


def stops_at_the_label_of_its_last_step(folder):
    """A step comes to a tested label, or goes over all that share a dead prefix. Runs of two steps each, every one from
    the stop of the one before, list what one run lists."""
    words = ["--variants", table_file(folder, b"0061|002D\n")]
    for steps, lines in (("2", "#stop 0 a--"), ("3", "a-a\ta-a\n#stop 1 a-a"), ("5", "a-a\ta-a\naaa\taaa\n#stop 2 aaa"),
                         ("0000000000000000006", "a-a\ta-a\naaa\taaa\n#end 2")):
        expect([*words, "--steps", steps, "aaa"], b"", lines.encode() + b"\n", b"", 0)
    for steps in ("0", "1", "", "x", "+2", "1000000000000000001", "00000000000000000002"):
        expect([*words, "--steps=" + steps, "aaa"], b"", b"", b"idn2: 50 usage\n", 2)
    for more in (["--jump"], ["--among", "registered"]):
        expect([*words, "--steps", "2", *more, "aaa"], b"", b"", b"idn2: 50 usage\n", 2)
    whole, lines, start = run(words, b"aaaaaaaa\n").stdout.splitlines(), [], ""
    while True:
        *variants, trailer = run([*words, "--steps", "2", "--after=" + start], b"aaaaaaaa\n").stdout.splitlines()
        lines += variants
        if trailer.startswith(b"#end "):
            break
        start = trailer.split(b" ")[2].decode()
    assert lines == whole[:-1], (lines, whole)


def lists_any_number_of_lines_in_the_memory_of_ten(folder):
    """In an address space that just suffices for ten lines of 2^62, a hundred thousand are listed too."""
    words = ["--variants", table_file(folder, b"0061|0062\n0062|0061\n"), "--limit"]

    def lists(count, space):
        done = run_within(space, [*words, str(count), "a" * 62])
        return done.returncode == 0 and done.stdout.count(b"\n") == count + 1

    page, low, high = 4096, 0, 16384
    assert lists(10, high * page)
    while low + 1 < high:
        middle = (low + high) // 2
        low, high = (low, middle) if lists(10, middle * page) else (middle, high)
    # A mebibyte more, since an address space is not laid out the same way each time; the lines alone are twelve.
    assert lists(100000, (high + 256) * page), high


def spelled(table, label):
    """All labels that arise by cutting the label into sources and replacing each by itself or one of its variants."""
    if not label:
        return {""}
    return {
        first + end
        for source, variants in table.items()
        if label.startswith(source)
        for end in spelled(table, label[len(source):])
        for first in (source, *variants)
    }


def is_registrable(label):
    """RFC 5891, section 4.2, of a label of letters and hyphens."""
    return 1 <= len(label) <= 63 and label[0] != "-" and label[-1] != "-" and label[2:4] != "--"


def block_of(table, blocked, label, is_version_2):
    """What is printed for a label, and the message for one that is refused, as a number. The pairs that are blocked are
    left out of the table that tells what is allocatable."""
    if not is_registrable(label):
        return "", 18 if len(label) > 63 else 13
    variants = sorted(filter(is_registrable, spelled(table, label)))
    if not spelled(table, label):
        return "", 40
    free = {source: [each for each in variants if (source, each) not in blocked] for source, variants in table.items()}
    allocatable = spelled(free, label)
    field = lambda each: ("\tallocatable" if each in allocatable else "\tblocked") if is_version_2 else ""
    return "".join(f"{each}\t{each}{field(each)}\n" for each in variants) + f"#end {len(variants)}\n", None


def lists_what_sets_of_all_labels_list(folder):
    """Blocks of 2,000 labels under 250 random tables, from a fixed seed, beside blocks made from whole sets; and under the
    same tables in version 2, with random variants blocked."""
    chance, marks = random.Random(5891), random.Random(7940)
    sequence = lambda: "".join(chance.choices("ab-", weights=(4, 4, 1), k=chance.choice((1, 1, 2, 3))))
    points = lambda text: "-".join(f"{ord(letter):04X}" for letter in text)
    for _ in range(250):
        table = {sequence(): {sequence() for _ in range(chance.randrange(3))} for _ in range(chance.randint(1, 5))}
        table = {source: sorted(variants - {source}) for source, variants in table.items()}
        labels = ["".join(chance.choices([*table, "ab"], k=chance.randint(1, 6))) for _ in range(8)]
        pairs = [(source, variant) for source, variants in table.items() for variant in variants]
        for is_version_2 in (False, True):
            blocked = {pair for pair in pairs if is_version_2 and marks.random() < 0.5}
            marked = lambda source, variant: "!" * ((source, variant) in blocked) + points(variant)
            lines = ["%version 2"] if is_version_2 else []
            lines += [points(source) + ("|" if variants else "") + ":".join(marked(source, each) for each in variants)
                      for source, variants in table.items()]
            blocks = [block_of(table, blocked, label, is_version_2) for label in labels]
            done = run(["--variants", table_file(folder, "\n".join(lines).encode())], "\n".join(labels).encode())
            assert done.stdout.decode() == "".join(block for block, _ in blocks), (lines, labels, done.stdout)
            told = [int(message.split()[3]) for message in done.stderr.decode().splitlines()]
            assert told == [number for _, number in blocks if number], (lines, labels, done.stderr)


def checks_a_table(folder):
    lacks_a_pair = table_file(folder, b"0061|0061-0061\n")
    expect(["--check-table", lacks_a_pair], b"", b"missing 0061-0061|0061\n#table 1 1\n", b"", 1)
    expect(["--check-table", table_file(folder, b"0061\n")], b"", b"#table 1 0\n", b"", 0)
    expect(["--check-table", table_file(folder, b"0061|\n")], b"", b"", b"idn2: table line 1: 30 table syntax\n", 2)


def checks_a_table_of_version_2(folder):
    for body, summary in ((b"", b"#table 0 0\n"), (b"0061..0063\n", b"#table 3 0\n"), (b"4E00..5DFF", b"#table 4096 0\n"),
                          (b"0061|!0062\n0062|0061\n", b"#table 2 0\n")):
        expect(["--check-table", table_file(folder, b"%version 2\n" + body)], b"", summary, b"", 0)
    table = table_file(folder, b"%version 2\n0061|!0062\n0062\n")
    expect(["--check-table", table], b"", b"missing 0062|0061\n#table 2 1\n", b"", 1)
    texts = {30: "table syntax", 31: "source given twice", 32: "variant given twice",
             33: "code point not allowed in a table", 34: "table limit"}
    for text, line, number in (
        (b"%version 3\n", 1, 30),
        (b"0061\n%version 2\n", 2, 30),
        (b"0061..0063\n", 1, 30),
        (b"0061|!0062\n", 1, 30),
        (b"%version 2\n0063..0061\n", 2, 30),
        (b"%version 2\n!0061|0062\n", 2, 30),
        (b"%version 2\n0061|0062..0063\n", 2, 30),
        (b"%version 2\n0061|0062:!0062\n", 2, 32),
        (b"%version 2\n005A..0061\n", 2, 33),
        (b"%version 2\n0062\n0061..0063\n", 3, 31),
        (b"%version 2\n4E00..5E00\n", 2, 34),
    ):
        message = f"idn2: table line {line}: {number} {texts[number]}\n".encode()
        for words in (["--check-table", table_file(folder, text)], ["--variants", table_file(folder, text), "a"]):
            expect(words, b"", b"", message, 2)


def finds_no_gap_in_the_example_tables(folder):
    entries = {"arabic-digits.txt": 73, "german.txt": 42, "han.txt": 3602}
    assert entries.keys() == {name for name in os.listdir(TABLES) if name.endswith(".txt")}
    for name, count in entries.items():
        expect(["--check-table", os.path.join(TABLES, name)], b"", b"#table %d 0\n" % count, b"", 0)


def reads_a_table_up_to_its_limit(folder):
    comment = b"#" * 1023 + b"\n"
    expect(["--check-table", table_file(folder, comment * 1024)], b"", b"#table 0 0\n", b"", 0)
    over = table_file(folder, comment * 1024 + b"#")
    expect(["--check-table", over], b"", b"", b"idn2: table line 1025: 34 table limit\n", 2)
    far_over = table_file(folder, comment * 4096)
    expect(["--check-table", far_over], b"", b"", b"idn2: table line 1025: 34 table limit\n", 2)


def refuses_files_that_cannot_be_read(folder):
    for name in (os.path.join(folder, "absent"), folder, ""):
        expect(["--check-table", name], b"", b"", b"idn2: 60 read fault\n", 3)
        expect(["--variants", name, "a"], b"", b"", b"idn2: 60 read fault\n", 3)


def answers_each_line_before_it_waits(folder):
    with subprocess.Popen([PROGRAM, "-r"], stdin=subprocess.PIPE, stdout=subprocess.PIPE) as partner:
        signal.alarm(LIMIT)
        for line, answer in (("faß\n", b"xn--fa-hia\n"), ("abc\n", b"abc\n")):
            partner.stdin.write(line.encode())
            partner.stdin.flush()
            assert partner.stdout.readline() == answer, line
        partner.stdin.close()
        assert partner.wait(LIMIT) == 0
        signal.alarm(0)


def ends_where_its_reader_left(folder):
    with tempfile.TemporaryFile() as given:
        given.write(b"abc\n" * 1_000_000)
        given.seek(0)
        with subprocess.Popen([PROGRAM, "-r"], stdin=given, stdout=subprocess.PIPE, stderr=subprocess.PIPE) as source:
            assert source.stdout.readline() == b"abc\n"
            source.stdout.close()
            assert source.stderr.read() == b""
            assert source.wait(LIMIT) == 3


def ends_on_a_full_device(folder):
    for words, given in ((["-r"], b"abc\n"), (["-r"], b"abc\n" * 100_000), (["--help"], b""), (["--version"], b"")):
        with open("/dev/full", "wb") as full:
            done = subprocess.run([PROGRAM, *words], input=given, stdout=full, stderr=subprocess.PIPE, timeout=LIMIT)
        assert (done.returncode, done.stderr) == (3, b"idn2: 61 write fault\n"), words


def tells_lost_answers_at_once(folder):
    """The first answer is lost: the program ends while its input is still open."""
    with open("/dev/full", "wb") as full:
        with subprocess.Popen([PROGRAM, "-r"], stdin=subprocess.PIPE, stdout=full, stderr=subprocess.PIPE) as partner:
            partner.stdin.write(b"abc\n")
            partner.stdin.flush()
            status = partner.wait(LIMIT)
            assert (status, partner.stderr.read()) == (3, b"idn2: 61 write fault\n"), status


def tells_no_other_message_of_lost_answers(folder):
    """Neither the refusal of a line after the lost answer, nor one of half a line."""
    for given in (b"abc\nAbc\n", b"abc\nAb"):
        with open("/dev/full", "wb") as full:
            done = subprocess.run([PROGRAM, "-r"], input=given, stdout=full, stderr=subprocess.PIPE, timeout=LIMIT)
        assert (done.returncode, done.stderr) == (3, b"idn2: 61 write fault\n"), done


def ends_on_a_closed_output(folder):
    done = subprocess.run(
        [PROGRAM, "-r"], input=b"abc\n", stderr=subprocess.PIPE, timeout=LIMIT, preexec_fn=lambda: os.close(1)
    )
    assert (done.returncode, done.stderr) == (3, b"idn2: 61 write fault\n"), done


def keeps_its_status_where_messages_fail(folder):
    for words, given, status in ((["-r"], b"Abc\n", 3), (["--bogus"], b"", 2)):
        with open("/dev/full", "wb") as full:
            done = subprocess.run([PROGRAM, *words], input=given, stdout=subprocess.PIPE, stderr=full, timeout=LIMIT)
        assert (done.returncode, done.stdout) == (status, b""), (words, done)


def serves_what_it_read_before_a_read_fails(folder):
    done = subprocess.run([PROGRAM, "-r"], stdin=os.open(folder, os.O_RDONLY), capture_output=True, timeout=LIMIT)
    assert (done.returncode, done.stdout, done.stderr) == (3, b"", b"idn2: 60 read fault\n"), done


def tells_messages_in_order(folder):
    with tempfile.TemporaryFile() as both:
        subprocess.run([PROGRAM, "-r"], input=b"abc\nAbc\ndef\n", stdout=both, stderr=both, timeout=LIMIT)
        both.seek(0)
        assert both.read() == b"abc\nidn2: line 2: 10 disallowed code point\ndef\n"


def finds_collisions_by_least_variants(folder):
    """Under random tables of single code points without gaps, labels have one least variant exactly if they collide."""
    chance = random.Random(4290)
    for _ in range(50):
        letters = "abcdefgh"
        sets = {}
        for letter in letters:
            sets.setdefault(chance.randrange(4), []).append(letter)
        members = {letter: each for each in sets.values() for letter in each}
        lines = ("|".join([f"{ord(a):04X}", ":".join(f"{ord(b):04X}" for b in members[a] if b != a)]) for a in letters)
        table = table_file(folder, "".join(line.rstrip("|") + "\n" for line in lines).encode())
        expect(["--check-table", table], b"", b"#table 8 0\n", b"", 0)
        labels = ["".join(chance.choices(letters, k=chance.randint(1, 3))) for _ in range(20)]
        listed = run(["--variants", table], "\n".join(labels).encode()).stdout.decode()
        blocks = [{line.split("\t")[0] for line in block.splitlines()} for block in re.split(r"#end \d+\n", listed)]
        limited = run(["--variants", table, "--limit", "1"], "\n".join(labels).encode()).stdout.decode()
        keys = [line.split("\t")[0] for line in limited.splitlines() if not line.startswith("#")]
        for one, key in enumerate(keys):
            for other, block in enumerate(blocks[: len(labels)]):
                assert (labels[one] in block) == (key == keys[other]), (lines, labels[one], labels[other])


def make(folder, target, *words):
    """Runs make with a command that does nothing for rt, so that the program here is taken as it is. That it was proved is noted
    in the folder alone."""
    words = ["make", "--no-print-directory", "-s", "-C", ROOT, target, "RT=true", f"PROVED={folder}/proved", *words]
    return subprocess.run(words, cwd=folder, capture_output=True, encoding="utf-8", timeout=LIMIT)


def packs_what_a_server_needs(folder):
    done = make(folder, "dist", f"DIST={folder}", "C_LIBRARY=2.2")
    assert done.returncode != 0 and "another C library" in done.stderr, done
    done = make(folder, "dist", f"DIST={folder}")
    assert done.returncode == 0, done
    [archive] = [name for name in os.listdir(folder) if name.endswith(".tar.gz")]
    version = run(["--version"]).stdout.split()[1].decode()
    assert archive == f"idn2-{version}.tar.gz", archive
    check = f"sha256sum --check {archive}.sha256 && tar xf {archive}"
    check += f" && cd idn2-{version} && sha256sum --check SHA256SUMS"
    done = subprocess.run(check, shell=True, cwd=folder, capture_output=True, text=True, timeout=LIMIT)
    assert done.returncode == 0, done
    packed = os.path.join(folder, f"idn2-{version}")
    files = sorted(os.path.relpath(os.path.join(at, name), packed) for at, _, names in os.walk(packed) for name in names)
    for name in ("bin/idn2", "share/man/man1/idn2.1", "share/bash-completion/completions/idn2", "tables/german.txt",
                 "share/zsh/site-functions/_idn2", "share/fish/vendor_completions.d/idn2.fish",
                 "share/idn2/tables/rulesets/latin.txt", "bin/idn2-registry", "tables/check.py", "docs/GUIDE.md", "CHANGELOG.md",
                 "lib/systemd/system/idn2-registry.service", "docs/pictures/label.png"):
        assert name in files, (name, files)
    words = [os.path.join(packed, "bin", "idn2"), "--variants", os.path.join(packed, "tables", "german.txt"), "aß"]
    assert subprocess.run(words, capture_output=True, timeout=LIMIT).stdout.startswith(b"ass\tass\tallocatable\n")


def is_there(name, found):
    """Whether it was found. Else the test that asks is named as one that left something out for the lack of it."""
    if not found and name not in LACKING:
        LACKING.append(name)
    return bool(found)


def is_installed(program):
    return is_there(program, shutil.which(program))


def python_with(module):
    """A Python that has the module, if there is one: this one, or Debian's, for which Debian packs modules."""
    for path in (sys.executable, "/usr/bin/python3"):
        words = [path, "-c", f"import {module}"]
        if os.access(path, os.X_OK) and subprocess.run(words, capture_output=True, timeout=LIMIT).returncode == 0:
            return path
    return None


def sessions_of(lines):
    """The commands after '$ ' and what each of them prints."""
    sessions = []
    for line in lines:
        if line.startswith("$ "):
            sessions.append((line[2:], []))
        elif sessions:
            sessions[-1][1].append(line)
    return sessions


def is_run(sessions):
    """Whether all programs are there that some sessions need. Those with a database are run by guide.py."""
    commands = " ".join(command for command, _ in sessions)
    needed = {program for program, word in (("parallel", "parallel "), ("jq", "jq "),) if word in commands}
    return "psql " not in commands and all(map(is_installed, needed))


def expect_session(command, lines, folder, environment):
    done = subprocess.run(command, shell=True, cwd=folder, env=environment, stdin=subprocess.DEVNULL,
                          stdout=subprocess.PIPE, stderr=subprocess.STDOUT, timeout=LIMIT)
    shown = "".join(line + "\n" for line in lines).encode()
    assert done.stdout == shown, f"{command}: shown {shown}, found {done.stdout}"


def markdown_blocks(text):
    """The indented blocks of a text in Markdown, also those of a list, but not what stands between fences."""
    unfenced = re.sub(r"^```.*?^```$", "", text, flags=re.MULTILINE | re.DOTALL)
    for block in re.findall(r"(?:^    .*\n)+", unfenced, re.MULTILINE):
        yield textwrap.dedent(block).splitlines()


def markdown_files(text):
    """The files that a text in Markdown tells to save: the name and the text of each."""
    return re.findall(r"ave (?:this|it) as\s`(\S+)`:\s+^```\w+\n(.*?)^```$", text, re.MULTILINE | re.DOTALL)


def manual_blocks(text):
    """The examples of a manual page, without the escapes of roff."""
    for block in re.findall(r"^\.EX\n(.*?)^\.EE\n", text, re.MULTILINE | re.DOTALL):
        for escape, meant in (("\\[ss]", "ß"), ("\\-", "-"), ("\\(aq", "'"), ("\\e", "\\")):
            block = block.replace(escape, meant)
        yield block.splitlines()


def pack_registry(folder):
    """The one file idn2-registry, in a folder beside the program."""
    pack = os.path.join(ROOT, "registry", "pack.py")
    subprocess.run([sys.executable, pack, "idn2", os.path.join(folder, "idn2-registry")], check=True, timeout=LIMIT)


def prints_what_the_documents_show(folder):
    for locale in ("C", "C.UTF-8"):
        inner = os.path.join(folder, locale)
        os.mkdir(inner)
        prints_in_a_locale_what_the_documents_show(inner, locale)


def prints_in_a_locale_what_the_documents_show(folder, locale):
    # As where it is installed, the program isn't in the folder.
    installed = os.path.join(folder, "bin")
    os.mkdir(installed)
    os.symlink(PROGRAM, os.path.join(installed, "idn2"))
    os.symlink(TABLES, os.path.join(folder, "tables"))
    pack_registry(installed)
    environment = {**os.environ, "LC_ALL": locale, "PATH": installed + os.pathsep + os.environ["PATH"]}
    documents = {"README.md": markdown_blocks, "docs/GUIDE.md": markdown_blocks, "docs/NOTATION.md": markdown_blocks,
                 "docs/DEFINITIONS.md": markdown_blocks, "docs/JSON.md": markdown_blocks, "docs/idn2.1": manual_blocks}
    for (name, blocks), least in zip(documents.items(), (8, 60, 7, 14, 2, 6)):
        with open(os.path.join(ROOT, name), encoding="utf-8") as file:
            text = file.read()
        sessions = [session for block in map(sessions_of, blocks(text)) if is_run(block) for session in block]
        assert len(sessions) >= least, (name, len(sessions))
        for saved, content in markdown_files(text):
            with open(os.path.join(folder, saved), "w", encoding="utf-8") as file:
                file.write(content)
        for command, lines in sessions:
            expect_session(command, lines, folder, environment)


TESTS = [
    answers_standard_input,
    answers_words,
    refuses_a_line_and_serves_the_next,
    refuses_words,
    takes_a_start_of_1024_bytes,
    refuses_words_that_are_not_utf8,
    shows_help_and_version,
    has_the_version_that_the_changes_name,
    needs_only_the_c_library,
    lists_variants,
    says_which_variants_are_blocked,
    says_it_for_labels_of_every_length,
    resumes_where_it_stopped,
    stops_at_the_label_of_its_last_step,
    lists_any_number_of_lines_in_the_memory_of_ten,
    lists_what_sets_of_all_labels_list,
    checks_a_table,
    checks_a_table_of_version_2,
    finds_no_gap_in_the_example_tables,
    reads_a_table_up_to_its_limit,
    refuses_files_that_cannot_be_read,
    answers_each_line_before_it_waits,
    ends_where_its_reader_left,
    ends_on_a_full_device,
    tells_lost_answers_at_once,
    tells_no_other_message_of_lost_answers,
    ends_on_a_closed_output,
    keeps_its_status_where_messages_fail,
    serves_what_it_read_before_a_read_fails,
    tells_messages_in_order,
    finds_collisions_by_least_variants,
    packs_what_a_server_needs,
    prints_what_the_documents_show,
]


def run_tests(name, tests):
    """Runs each test in a folder of its own, and prints how many passed; 1 if any failed, else 0. A test that left something
    out is named, too, and has failed where NO_SKIPS is set."""
    failed = 0
    for test in tests:
        LACKING.clear()
        with tempfile.TemporaryDirectory() as folder:
            try:
                test(folder)
                assert not (NO_SKIPS and LACKING), "left something out"
                told = "ok"
            except Exception as reason:
                failed += 1
                told = f"FAILED: {type(reason).__name__} {reason}"
        print(f"{name} {test.__name__} ... {told}")
        if LACKING:
            print(f"{name} {test.__name__} ... SKIPPED what needs {', '.join(LACKING)}: make packages installs what tests use")
    print(f"{len(tests) - failed} passed, {failed} failed")
    return 1 if failed else 0


if __name__ == "__main__":
    sys.exit(run_tests("program", TESTS))
