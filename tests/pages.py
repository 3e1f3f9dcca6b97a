#!/usr/bin/env python3
"""Tests what the documents state, where a program can tell it: figures, paths, the manual page, what is installed and
packed. The sessions that the documents show are run by program.py. Some tests run the program, and fail with 'build first:
make' where it isn't built. The last line is 'N passed, M failed', and the exit status is 0 where nothing failed."""

import ast
import collections
import dataclasses
import functools
import glob
import os
import re
import shutil
import subprocess
import sys

from program import LIMIT, PROGRAM, ROOT, TABLES, expect, is_installed, is_there, make, manual_blocks, run, run_tests, sessions_of, text_of

sys.path += [os.path.join(ROOT, folder) for folder in ("conformance", "registry", "tables")]

import explained_rows
import quoted
import rules
from kit_data import Kit
from profile_figures import Figures
from registration import a_label

OTHER_NAME = "idn2-proved"
MANUAL_PAGE = os.path.join(ROOT, "docs", "idn2.1")

# What of docs/PROFILE.md has a figure that isn't counted: what stands in standards, in the program, and in code.
DECIDED = (r"`[^`]*`", r"RFC \d+(, section \d+)?", "UTS #46", r"docs/idn2\.1", r"U\+200C, ZERO WIDTH NON-JOINER",
           r"the Arabic block \(U\+0600 to 06FF\)", r"refuses (that name|it) with (17|20)", "more than 63 code points")

# Bounds that documents state, each with the clause of a contract or a definition that has it.
EDGES = ("crates/variant_list/src/net.rt", "result ≤ 326592")
JUMP = ("crates/variant_list/specs/Jumps.antt", "new.edge_tests ≤ 189 * old.net.edges")
FITS = ("crates/idn_punycode/src/lengths.rt", "utf8_len ≤ 30 → IsTrue result")
FILE = ("crates/registered_labels/src/labels.rt", "const MAX_TEXT_LEN: usize = 0xFFFF_FFFF;")
BOUNDS = {
    ("docs/DECISIONS.md", "at most 4,294,967,295 bytes"): FILE,
    ("docs/idn2.1", "that ends after byte 4,294,967,295"): FILE,
    ("docs/DECISIONS.md", "the octets of the label in UTF-8, where there are at most 30"): FITS,
    ("docs/DECISIONS.md", "A name of at most 254 ASCII letters"): ("crates/idn_label/src/query/ldh.rt", "len ≤ 254"),
    ("docs/PROOFS.md", "how many edges its variant graph has, at most 326,592"): EDGES,
    ("docs/LISTING.md", "at most 326,592 edges"): EDGES,
    ("docs/LISTING.md", "A board takes at most 66,048 bytes more"): ("crates/reading_kinds/src/board.rt", "size.columns ≤ 64"),
    ("docs/NOTATION.md", "A ruleset in XML has at most 67,108,864 bytes"): ("crates/xml_text/specs/Files.antt", "max_bytes = 67108864"),
    ("docs/NOTATION.md", "8,192 elements within an entry"): ("crates/lgr_text/specs/Sizes.antt", "max_elements = 8192"),
    ("docs/NOTATION.md", "1,024 classes and rules"): ("crates/lgr_text/specs/DefinitionOrder.antt", "max_definitions = 1024"),
    ("docs/NOTATION.md", "where elements stand more than 64 deep"): ("crates/xml_text/specs/Documents.antt", "IsElement 64 element"),
    ("docs/PROOFS.md", "tests at most 256 times as many edges"):
        ("crates/variant_list/src/cursor.rt", "≤ 256 * self.old.net.edges"),
    ("docs/PROOFS.md", "126 times are proved of one search"):
        ("crates/variant_list/src/search.rt", "≤ looks.old + 126 * length self.old.net.edges"),
    ("docs/PROOFS.md", "a jump takes no memory, and tests at most 189 times as many edges as there are"): JUMP,
    ("docs/LISTING.md", "then is a step: at most 189 scans"): JUMP,
    ("docs/PROOFS.md", "at most 64 times 128 more than there are edges"):
        ("crates/variant_list/src/cursor.rt", "≤ 64 * (self.now.net.edges + 128)"),
    ("docs/PROOFS.md", "after 2^40 read calls or 2^32 lines"):
        ("crates/idn_text/specs/Reading.antt", "((new.input.reads ≡ 2 ^ 40) ⊎ (new.number ≡ 2 ^ 32))"),
}

# The synopsis has only the short forms of these.
SAID_BY_SHORT_FORMS = {"--lookup", "--register", "--decode", "--tr46nt"}

# A path below the top of the repository, or a document at its top.
PATH = re.compile(r"(?<![\w/.-])((?:docs|tables|completions|conformance|crates|tests|bench)/[\w./-]*|[A-Z]+\.md)(?!\w)")
BUILT = re.compile(r"crates/\w+/out/.*")


def folded(text):
    return " ".join(text.split())


def runs_the_program(test):
    """Marks a test that runs the built program. Where none is built it fails, and says what to do first."""
    @functools.wraps(test)
    def marked(folder):
        assert os.access(PROGRAM, os.X_OK), "build first: make"
        test(folder)
    return marked


@functools.cache
def figures():
    return Figures(Kit())


def counts_the_figures_of_the_profile(folder):
    """Each statement that is counted stands in the document, and no figure stands there that isn't counted."""
    lines = text_of("docs", "PROFILE.md").splitlines()
    rest = folded("\n".join(line for line in lines if not line.startswith("|")))
    for statement in figures().statements():
        assert statement in rest, statement
        rest = rest.replace(statement, "")
    for pattern in DECIDED:
        rest = re.sub(pattern, "", rest)
    left = re.findall(r".{0,40}(?:\d|U\+).{0,20}", rest)
    assert not left, left


@runs_the_program
def registers_the_code_points_that_are_counted(folder):
    """Each code point by itself: those that may stand in a label are those that are refused neither with 10 nor by 11."""
    points = [point for point in (*range(0xD800), *range(0xE000, 0x110000)) if chr(point) not in "\r\n"]
    messages = run(["--register"], "".join(chr(point) + "\n" for point in points).encode()).stderr
    barred = {points[int(number) - 1] for number in re.findall(rb"^idn2: line (\d+): 1[01] ", messages, re.MULTILINE)}
    different = figures().here ^ (set(points) - barred)
    assert not different, sorted(different)[:9]


def shown_rows(text):
    """(label, here, with --standard) of each row of the tables."""
    for line in text.splitlines():
        if line.startswith("| U+"):
            label, here, there = (cell.strip() for cell in line.strip("|").split("|"))
            points = re.findall(r"[0-9A-F]{4,6}", label.split("(")[0])
            yield "".join(chr(int(point, 16)) for point in points), here, there


@runs_the_program
def answers_as_the_profile_shows(folder):
    """By the program, without --standard and with it; by the standards over Unicode's own properties as with it."""
    unicode = figures().unicode
    rows = list(shown_rows(text_of("docs", "PROFILE.md")))
    assert len(rows) >= 9, len(rows)
    for label, here, there in rows:
        for words, shown in ([], here), (["--standard"], here if there == "the same" else there):
            done = run(["--register", *words, label])
            refused = re.sub(r"^idn2: line 1: (\d+) ", r"\1, ", done.stderr.decode().strip())
            assert shown == (f"`{done.stdout.decode().strip()}`" if done.stdout else refused), (words, shown, done)
        points = [ord(letter) for letter in label]
        is_allowed = all(map(figures().is_allowed, points)) and rules.passes_context_j(points, unicode)
        passes_bidi = not rules.is_right_to_left(points, unicode) or rules.passes_bidi_rule(points, unicode)
        is_registrable = is_allowed and passes_bidi
        assert is_registrable == (there in ("the same", f"`{a_label(label)}`")), (label, there)
    expect(["--decode", "0a.xn--4db"], b"", "0a.א\n".encode(), b"", 0)
    expect(["--decode", "--standard", "0a.xn--4db"], b"", b"", b"idn2: line 1: 17 Bidi rule broken\n", 1)
    expect(["--lookup", "0a.xn--4db"], b"", b"", b"idn2: line 1: 20 not a valid name\n", 1)


def formatters():
    """The commands that must format a manual page without a word, as far as they are installed."""
    for command in (["groff", "-man", "-Tutf8", "-ww"], ["mandoc", "-T", "lint", "-W", "warning"]):
        if is_installed(command[0]):
            yield command


def expect_well_formed(page):
    for command in formatters():
        done = subprocess.run([*command, page], capture_output=True, encoding="utf-8", timeout=LIMIT)
        words = done.stderr + (done.stdout if command[0] == "mandoc" else "")
        assert (words, done.returncode) == ("", 0), (command, words)


def formats_the_manual_page(folder):
    expect_well_formed(MANUAL_PAGE)


@runs_the_program
def breaks_no_option_of_the_manual_page(folder):
    """At each width of a line an option stands as often as the page has it."""
    if not is_installed("groff"):
        return
    written = text_of("docs", "idn2.1").replace("\\-", "-")
    for width in range(60, 121, 6):
        words = ["groff", "-man", "-Tascii", "-P-cbou", f"-rLL={width}n", MANUAL_PAGE]
        page = subprocess.run(words, capture_output=True, encoding="utf-8", timeout=LIMIT).stdout
        for option in set(re.findall(r"--[a-z][a-z0-9-]+", run(["--help"]).stdout.decode())):
            assert page.count(option) == written.count(option), (width, option)


def options_of_the_help():
    """Each option as the help has it: its forms, and what its value is called."""
    rows = re.findall(r"^ +((?:-\w, )?--[\w-]+(?: <\w+>)?)  ", run(["--help"]).stdout.decode(), re.MULTILINE)
    return {row.replace("<", "").replace(">", "") for row in rows}


@runs_the_program
def shows_help_in_80_columns(folder):
    lines = run(["--help"]).stdout.decode().splitlines()
    wide = [line for line in lines if len(line) > 80]
    assert len(lines) > 20 and not wide, wide


@runs_the_program
def has_the_options_of_the_help_in_each_page(folder):
    """The manual page under OPTIONS, with forms and values; its synopsis, and the README, with the forms."""
    helped = options_of_the_help()
    page = text_of("docs", "idn2.1").replace("\\-", "-").replace("\\~", " ")
    synopsis, options = (re.search(rf"^\.SH {name}\n(.*?)^\.SH ", page, re.MULTILINE | re.DOTALL).group(1)
                         for name in ("SYNOPSIS", "OPTIONS"))
    shown = {folded(row.replace(" ,", ",")) for row in re.findall(r"^\.TP\n\.[A-Z]+ (-.*)$", options, re.MULTILINE)}
    assert len(helped) > 12 and shown == helped, shown ^ helped
    forms = {form for row in helped for form in re.findall(r"(?<![\w-])--?[A-Za-z][\w-]*", row)}
    [table] = re.findall(r"^\| Option \|.*\n\|.*\n((?:\|.*\n)+)", text_of("README.md"), re.MULTILINE)
    cells = " ".join(line.split("|")[1] for line in table.splitlines())
    assert set(re.findall(r"`(--?[A-Za-z][\w-]*)", cells)) == forms, cells
    named = set(re.findall(r"(?<![\w-])--?[A-Za-z][\w-]*", synopsis))
    assert {form for form in forms if form.startswith("--")} - named == SAID_BY_SHORT_FORMS and named <= forms, named


def has_the_names_of_the_definition(folder):
    """The manual page under OPTIONS, in the order of specs/Names.antt, but for the two that clap adds."""
    definition = text_of("crates/idn2_options/specs/Names.antt")
    letters = {name: chr(int(code)) for name, code in re.findall(r"^(\w+)_letter = (\d+)$", definition, re.MULTILINE)}
    named = [(letters.get(name), word) for name, word in re.findall(r'^(\w+)_name = codes "([\w-]+)"$', definition, re.MULTILINE)]
    assert named.pop() == (None, "STRINGS"), named
    options = re.search(r"^\.SH OPTIONS\n(.*?)^\.SH ", text_of("docs", "idn2.1").replace("\\-", "-"), re.MULTILINE | re.DOTALL).group(1)
    shown = re.findall(r"^\.TP\n\.[A-Z]+ (?:-(\w) ,\\~ )?--([\w-]+)", options, re.MULTILINE)
    assert len(named) > 12 and [(letter or "", name) for letter, name in named] == shown[:-2], (named, shown)
    assert shown[-2:] == [("h", "help"), ("V", "version")], shown


# What stands for each word in italics in a form of a cause, and what has no form of its own.
PLACEHOLDERS = {"n": r"\d+", "k": r"\d+", "m": r"\d+", "type": r"[A-Za-z]\w*", "XXXX": "[0-9A-F]{4,6}", "FF": "[0-9A-F]{2}", "class": "[A-Z]+", "label": "[a-z0-9-]+",
                "ulabel": r"\S+", "text": r"\S+", "rule": r"[A-Za-z]\w*"}
# Normalization Form C never ends where a label goes on.
NEVER_TOLD = ("12", "NFC ends")


def form_of(macro, words):
    """The parts of a line of the manual page that are bold or in italics, up to one that is neither."""
    for font, word in zip(macro * len(words), words):
        word, is_last, _ = word.strip('"').replace("\\~", " ").replace("\\-", "-").replace("\\(aq", "'").partition("\\fR")
        if font == "R":
            return
        yield font, word
        if is_last:
            return


def causes_of_the_manual():
    """The forms of the cause of each number, and for each a pattern of such a cause."""
    section = re.search(r"^\.SH CAUSES\n(.*?)^\.SH ", text_of("docs", "idn2.1"), re.MULTILINE | re.DOTALL).group(1)
    for head, item in re.findall(r"^\.T[PQ].*\n\.BR? (.*)\n((?:(?!\.T[PQ]|\.PP).*\n)*)", section, re.MULTILINE):
        lines = re.findall(r"^\.([BI][BRI]?) (.*)$", item, re.MULTILINE)
        forms = [list(form_of(macro, re.findall(r'"[^"]*"|\S+', words) if macro[1:] else [words])) for macro, words in lines]
        placeholders = dict(PLACEHOLDERS)
        if [("I", "rule")] in forms:
            # After the word come those that stand for it.
            place = forms.index([("I", "rule")])
            placeholders["rule"] = "|".join(re.escape(word) for [(_, word)] in forms[place + 1:])
            forms = forms[:place]
        for number in re.findall(r"\d+", head):
            for form in forms:
                pattern = "".join(re.escape(word) if font == "B" else f"(?:{placeholders[word]})" for font, word in form)
                yield number, "".join(word for _, word in form), pattern


def lists_each_form_of_a_cause(folder):
    """Each cause of the rows of explained_rows.py has a form under its number in the manual page, and each form is that of a
    row. Each line of RFC 5892 that bars a code point stands there, too."""
    forms, told, rows = list(causes_of_the_manual()), set(), explained_rows
    rulesets = [("41", cause) for _, _, cause in rows.RULESET_ROWS]
    for *_, text, cause in rows.ROWS + rows.MORE_ROWS + rulesets + rows.REGISTERED_ROWS + rows.TABLE_ROWS:
        if cause is not None:
            cause = re.sub(r"^(label \d+, )?decoded: |^label \d+: (?!\d+ octets)", "", cause)
            found = {(number, shown) for number, shown, pattern in forms if number == text.split()[0] and re.fullmatch(pattern, cause)}
            assert found, (text, cause)
            told |= found
    listed = {(number, shown) for number, shown, _ in forms}
    assert listed - {NEVER_TOLD} == told and len({number for number, _ in listed}) == 23, listed ^ told
    rules = re.findall(r'^barring_rule .*(?:\n    .*)*', text_of("crates/idn2_refusals/specs/RuleTexts.antt"), re.MULTILINE)
    named = ["".join(re.findall(r'codes "([^"]*)"', rule)).removeprefix(": ") for rule in rules if "scalar" not in rule]
    page = text_of("docs", "idn2.1")
    assert len(named) == 8 and all(f"B {each}\n" in page or f'BR "{each}" ' in page for each in named), named


def names_what_comes_with_the_program(folder):
    """In the manual page: each table, and the sections that say what the surroundings change."""
    page = text_of("docs", "idn2.1").replace("\\-", "-")
    named = set(re.findall(r"^\.I (tables/\S+\.txt)$", page, re.MULTILINE))
    assert named == {f"tables/{name}" for name in os.listdir(TABLES) if name.endswith(".txt")}, named
    for section in ("ENVIRONMENT", "FILES", "CAVEATS"):
        assert f"\n.SH {section}\n" in page, section


@runs_the_program
def answers_alike_in_each_locale(folder):
    """Also where there is no environment at all. In Turkish the capital I has another small letter than elsewhere."""
    given = "I\nfaß\nFaß\nä\n\xa0\n".encode() + b"\xff\n"
    environments = ({}, {"LC_ALL": "C"}, {"LC_ALL": "C.UTF-8"}, {"LC_ALL": "tr_TR.UTF-8", "LANG": "tr_TR"},
                    {"LC_CTYPE": "ISO-8859-1"}, {"LANGUAGE": "de", "LANG": "de_DE.UTF-8"})
    for words in (["--register"], ["--lookup"], ["--decode"], ["--help"], ["--bogus"]):
        answers = [run(words, given, env=environment) for environment in environments]
        assert len({(done.stdout, done.stderr, done.returncode) for done in answers}) == 1, answers


# Lines to complete, and what they are completed to.
COMPLETED = (
    ("--re", ["--register"]),
    ("--register --l", []),
    ("--a", []),
    ("--variants t --a", ["--after", "--among"]),
    ("--variants t --j", ["--json", "--jump"]),
    ("--ruleset=t --j", ["--json", "--jump"]),
    ("--variants t --among tables/ger", ["german.txt"]),
    ("--variants t --among f --t", ["--tr46nt"]),
    ("--variants t --tries 9 --a", ["--after"]),
    ("--variants t --among f --ju", []),
    ("--variants t --limit 9 --ju", []),
    ("--variants t --jump --a", []),
    ("--variants t --jump --l", []),
    ("--j", ["--json"]),
    ("--json --j", []),
    ("--variants t --limit 7 --l", []),
    ("--variants tables/ger", ["german.txt"]),
    ("--check-table=tables/ger", ["german.txt"]),
    ("--variants t --limit ", []),
    ("-r -- --q", []),
    ("", []),
)
COMPLETES = {
    "bash": ["bash", "--norc", "-c", """source "$0"
        for line; do
            read -ra COMP_WORDS <<< "${line//=/ = }"
            [[ $line != *" " ]] || COMP_WORDS+=("")
            COMP_CWORD=$((${#COMP_WORDS[@]} - 1))
            _idn2
            printf '%s\\n' "${COMPREPLY[@]}" end
        done"""],
    "zsh": ["zsh", "-f", os.path.join(ROOT, "tests", "complete.zsh")],
    "fish": ["fish", "--no-config", "-c", "source $argv[1]; for line in $argv[2..]; complete -C $line; echo end; end"],
}


def completed(shell, lines):
    """What a shell completes each line to: options, and the names of files without their folders."""
    words = [*COMPLETES[shell], os.path.join(ROOT, "completions", f"idn2.{shell}"), *(f"idn2 {line}" for line in lines)]
    done = subprocess.run(words, cwd=ROOT, capture_output=True, encoding="utf-8", timeout=LIMIT)
    *blocks, rest = re.split("^end\n", done.stdout, flags=re.MULTILINE)
    assert (len(blocks), rest, done.stderr) == (len(lines), "", ""), (shell, done)
    for block in blocks:
        matches = (line.split("\t")[0] for line in block.splitlines())
        yield sorted(re.sub("^(--.*=)?.*/", "", match) for match in matches if match)


@runs_the_program
def completes_words_in_each_shell(folder):
    """As the rows say; each option that is completed is one that the program has, and each of the help's is completed. Where a
    shell shows what an option is for, the help says the same."""
    help = run(["--help"]).stdout.decode()
    helped = set(re.findall(r"(?<![\w-])--?[A-Za-z][\w-]*", help.split("Examples:")[0]))
    meanings = re.findall(r"^ +(?:-\w, )?--[\w-]+(?: <\w+>)?  +(.*)", help, re.MULTILINE)
    for shell in filter(is_installed, COMPLETES):
        lines = [*(line for line, _ in COMPLETED), "-", "-d -", "--variants t -", "--variants t --among r -"]
        *found, alone, decoding, listing, among = completed(shell, lines)
        for (line, wanted), each in zip(COMPLETED, found):
            assert each == wanted, (shell, line, each)
        options = {*alone, *decoding, *listing, *among}
        assert options == helped - {"--after=TEXT"}, (shell, helped ^ options)
        text = text_of("completions", f"idn2.{shell}")
        assert shell == "bash" or meanings and all(each in text for each in meanings), (shell, meanings)


@runs_the_program
def installs_under_another_name(folder):
    """The program, its page, its completions and its tables have that name; the page's examples run beside the tables, and the
    program's messages stay."""
    prefix = os.path.join(folder, "prefix")
    done = make(folder, "install", f"PREFIX={prefix}", f"PROGRAM_NAME={OTHER_NAME}")
    assert (done.returncode, done.stderr) == (0, ""), done
    paths = filter(os.path.isfile, glob.glob(f"{prefix}/**", recursive=True))
    files = {os.path.relpath(path, prefix) for path in paths}
    page, share = f"share/man/man1/{OTHER_NAME}.1", f"share/{OTHER_NAME}"
    heads = {f"share/bash-completion/completions/{OTHER_NAME}": f"complete -o filenames -F _idn2 {OTHER_NAME}\n",
             f"share/zsh/site-functions/_{OTHER_NAME}": f"#compdef {OTHER_NAME}\n",
             f"share/fish/vendor_completions.d/{OTHER_NAME}.fish": f"complete -c {OTHER_NAME} -f\n"}
    tables = {os.path.join(share, os.path.relpath(path, ROOT)) for path in glob.glob(f"{TABLES}/**/*.txt", recursive=True)}
    registry = {"bin/idn2-registry", *(file.replace(OTHER_NAME, "idn2-registry") for file in (page, *heads))}
    units = {f"lib/systemd/system/idn2-registry.{kind}" for kind in ("service", "socket")}
    assert files == {f"bin/{OTHER_NAME}", page, *heads, *tables, *registry, *units}, files
    with open(os.path.join(prefix, "lib/systemd/system/idn2-registry.service"), encoding="utf-8") as file:
        assert f"ExecStart={prefix}/bin/idn2-registry serve " in file.read()
    expect_well_formed(os.path.join(prefix, page))
    for path, head in heads.items():
        with open(os.path.join(prefix, path), encoding="utf-8") as file:
            text = file.read()
        assert head in text and not re.search(r"(complete.*|#compdef) idn2(?![\w-])", text), (path, text)
    with open(os.path.join(prefix, page), encoding="utf-8") as file:
        text = file.read()
    run_examples(prefix, os.path.join(prefix, share), text)
    # Nothing else is different, and the command has no other name.
    other = OTHER_NAME.replace("-", "\\-")
    assert text.replace(other, "idn2").replace(other.upper(), "IDN2") == text_of("docs", "idn2.1"), text
    assert not re.search(r"^(\.TH |\.B )?idn2( |$)|[$|] idn2 |share/idn2/", text, re.MULTILINE | re.IGNORECASE), text


def run_examples(prefix, folder, page):
    """The examples of a page in a folder, with nothing but its own program and what each system has."""
    path = os.path.join(prefix, "bin") + os.pathsep + "/usr/bin" + os.pathsep + "/bin"
    sessions = [session for block in manual_blocks(page) for session in sessions_of(block)]
    assert len(sessions) >= 6, sessions
    for command, lines in sessions:
        assert OTHER_NAME in command or ">" in command, command
        done = subprocess.run(command, shell=True, cwd=folder, env={"PATH": path}, stdin=subprocess.DEVNULL,
                              stdout=subprocess.PIPE, stderr=subprocess.STDOUT, timeout=LIMIT)
        assert done.stdout.decode() == "".join(line + "\n" for line in lines), (command, done.stdout)


def installs_under_no_name_of_another_program(folder):
    done = make(folder, "install", f"PREFIX={folder}", "PROGRAM_NAME=idn2-registry")
    assert done.returncode != 0 and "PROGRAM_NAME is the name of another program" in done.stderr, done
    assert os.listdir(folder) == [], os.listdir(folder)


def installs_under_no_name_of_a_path(folder):
    for name in ("", "a/b", "..", "-x", "a b", "a&b"):
        done = make(folder, "install", f"PREFIX={folder}", f"PROGRAM_NAME={name}")
        assert done.returncode != 0 and "PROGRAM_NAME is no file name" in done.stderr, (name, done)
    assert os.listdir(folder) == [], os.listdir(folder)


@runs_the_program
def packs_each_path_that_its_documents_name(folder):
    done = make(folder, "dist", f"DIST={folder}")
    assert done.returncode == 0, done
    [archive] = glob.glob(os.path.join(folder, "*.tar.gz"))
    subprocess.run(["tar", "xf", archive], cwd=folder, check=True, timeout=LIMIT)
    top = archive.removesuffix(".tar.gz")
    documents = [path for ending in ("*.md", "*.1") for path in glob.glob(os.path.join(top, "**", ending), recursive=True)]
    assert len(documents) >= 6, documents
    named = {path for document in documents for path in named_paths(document)}
    assert "tables/check.py" in named, named
    absent = [path for path in sorted(named) if not os.path.exists(os.path.join(top, path))]
    assert not absent, absent
    # What `make dist` compared with the program.
    texts = (text_of("README.md"), text_of("docs", "GUIDE.md"))
    libraries = [re.findall(r"GNU C library, version ([\d.]+) or later", text) for text in texts]
    assert libraries[0] == libraries[1] and len(libraries[0]) == 1, libraries
    # The scripts that are named find what they stand on there: without a file they tell how they are called.
    for script in sorted(path for path in named if path.endswith(".py") and path != "tables/make.py"):
        done = subprocess.run([sys.executable, script], cwd=top, capture_output=True, encoding="utf-8", timeout=LIMIT)
        assert done.returncode != 0 and "usage" in done.stderr and "Traceback" not in done.stderr, (script, done.stderr)


def named_paths(document):
    with open(document, encoding="utf-8") as file:
        return {path.rstrip(".") for path in PATH.findall(file.read().replace("\\-", "-"))}


def states_the_bounds_that_are_proved(folder):
    for (document, statement), (file, clause) in BOUNDS.items():
        assert statement in folded(text_of(document)) and clause in text_of(file), (document, statement, file, clause)


# The tables of docs/PROOFS.md, by their heads: in which column they name what is proved.
PROVED = {"Call": 0, "Promise": 1, "Law": 1}
# Public for tests alone.
FOR_TESTS = "hostile"


@dataclasses.dataclass
class Library:
    """The public names of a crate: its functions and laws, and the methods of each type. Beside them what may be named, too:
    methods that a trait has for the type, clauses and definitions."""

    functions: set
    laws: set
    methods: dict
    others: set

    def calls(self):
        return {(name,) for name in self.functions | self.laws} | {
            (name, method) for name, methods in self.methods.items() for method in methods}

    def names(self):
        return {name for call in self.calls() for name in call} | set(self.methods)


def sources_of(crate, folder, ending):
    """The text of each file of a crate in a folder, without comments, by the name of its module."""
    top = os.path.join(ROOT, "crates", crate, folder)
    return {os.path.relpath(path, top).removesuffix(ending): re.sub(r"(//|--).*", "", text_of(path))
            for path in glob.glob(os.path.join(top, "**", "*" + ending), recursive=True)}


def names_in(pattern, text):
    return set(re.findall(pattern, text, re.MULTILINE))


@functools.cache
def libraries():
    """Each crate that is a library and that others call."""
    named = (line.split(":")[0].split() for line in text_of("crates.txt").splitlines() if line.split("#")[0].strip())
    found = {crate: library_of(sources_of(crate, "src", ".rt"), crate) for crate, *_ in named}
    return {crate: library for crate, library in found.items() if library and library.calls()}


def library_of(modules, crate):
    """What lib.rt names with `pub use` and `pub mod`; None of a program."""
    if "lib" not in modules:
        return None
    passed = {name for module, names in re.findall(r"^pub use (\w+)\b([^;]*);", modules["lib"], re.MULTILINE)
              for name in re.findall(r"\w+", names) if module in modules}
    whole = names_in(r"^pub mod (\w+);", modules["lib"]) - {FOR_TESTS}
    library = Library(set(), set(), {}, set(whole))
    for module, text in modules.items():
        functions, types = names_in(r"^pub fn (\w+)", text), names_in(r"^pub (?:struct|enum|trait) (\w+)", text)
        if module not in whole:
            functions, types = functions & passed, types & passed
        (library.laws if "laws" in module else library.functions).update(functions)
        library.methods.update((name, set()) for name in types)
    for text in modules.values():
        take_methods(library, text)
        library.others |= names_in(r"\bensures (\w+) \{", text)
    for text in sources_of(crate, "specs", ".antt").values():
        library.others |= names_in(r"^(?:abbrev |unfoldable )?pub (?:record |data )?(\w+)", text)
    return library


def take_methods(library, text):
    """The public methods of each type, and all of a trait."""
    for head, name, body in re.findall(r"^(pub trait|impl\b[^{]*?) (\w+)(?:<[^{]*>|:[^{>]*)? \{\n(.*?)^\}", text,
                                       re.MULTILINE | re.DOTALL):
        if name in library.methods:
            library.methods[name] |= names_in(r"^    fn (\w+)" if head == "pub trait" else r"^    pub fn (\w+)", body)
            library.others |= names_in(r"^    fn (\w+)", body)


def proved_cells():
    """Each cell of docs/PROOFS.md that names calls: the head of its table, and the names as they stand."""
    column = head = None
    for line in text_of("docs", "PROOFS.md").splitlines():
        cells = [cell.strip() for cell in line.strip("|").split(" | ")]
        if line.startswith("| ") and cells[0] in PROVED:
            head, column = cells[0], PROVED[cells[0]]
        elif line.startswith("| ") and column is not None:
            yield head, re.findall(r"`([\w:]+)`", cells[column])
        elif not line.startswith("|"):
            column = None


def of_crates(names):
    """The names of a cell by the crate that each is of: that of the last path before it, or that of its type."""
    owners = {name: crate for crate, library in libraries().items() for name in library.methods}
    crate = None
    for parts in (name.split("::") for name in names):
        if parts[0] in libraries():
            crate, parts = parts[0], parts[1:]
        elif crate is None:
            crate = owners[parts[0]]
        yield crate, parts


def names_what_is_proved(folder):
    """docs/PROOFS.md names each law, and calls, clauses and definitions that are there."""
    named, wrong = collections.defaultdict(set), []
    for head, names in proved_cells():
        cell = collections.defaultdict(set)
        for crate, parts in of_crates(names):
            cell[crate].update(parts)
            known = libraries()[crate]
            modules = {name for name in known.others if name.endswith("laws")}
            allowed = known.laws | modules if head == "Law" else known.names() | known.others
            wrong += [(head, crate, part) for part in parts if part not in allowed]
        for crate, parts in cell.items():
            named[crate] |= parts
    lacking = {(crate, law) for crate, library in libraries().items() for law in library.laws - named[crate]}
    assert sum(map(len, named.values())) > 100 and not wrong and not lacking, (wrong, lacking)


def number_in(file, name):
    """The number that a constant of the code has."""
    [written] = re.findall(rf"\bconst {name}: \w+ = (0x[0-9A-F_]+|[0-9_]+);", text_of(file))
    return int(written, 0)


def reads_as_much_of_a_file_as_can_matter(folder):
    """Of a file of registered labels that is too long, a whole line after the last byte that it may have. Else it
    could be cut where a line ends, and be taken for a shorter one. A file of that size is tried by hand."""
    most = number_in("crates/registered_labels/src/labels.rt", "MAX_TEXT_LEN")
    line = number_in("crates/idn_text/src/body.rt", "MAX_LINE_LEN")
    # Two line feeds: that after the last byte, and that of the line after it.
    assert number_in("crates/idn2/src/system.rt", "REGISTERED_BYTES") == most + 1 + line + 1


def names_only_paths_that_are_there(folder):
    """Each document of the repository; what is built is left out."""
    documents = [*glob.glob(os.path.join(ROOT, "*.md")), *glob.glob(os.path.join(ROOT, "docs", "*.*"))]
    named = {path for document in documents for path in named_paths(document) if not BUILT.fullmatch(path)}
    named |= {"crates/" + path for path in re.findall(r"\b\w+/specs/[\w/]+\.antt", text_of("docs", "DEFINITIONS.md"))}
    absent = [path for path in sorted(named) if not os.path.exists(os.path.join(ROOT, path))]
    # A file that is named without its crate or its folder.
    folders = ("crates/*/[!o]*", "registry", "tests", "conformance", "tables", "bench")
    files = {os.path.basename(path) for folder in folders for path in glob.glob(os.path.join(ROOT, folder, "**"), recursive=True)}
    short = {name for document in documents for name in re.findall(r"`(?:[\w/]+/)?(\w+\.(?:rt|antt|py|edit))`", text_of(document))}
    absent += sorted(short - files)
    assert len(named) > 50 and len(short) > 50 and not absent, absent


def names_the_logic_that_proves_it(folder):
    """The README, as the kit tells it that is here. Proofs rest on the logic; another kit may have the same one."""
    rt = os.environ.get("RT", "rt")
    if is_there("the Rattle kit", shutil.which(rt)):
        logic = re.search(r"^    (logic [0-9a-f]+)$", text_of("README.md"), re.MULTILINE).group(1)
        told = subprocess.run([rt, "version"], capture_output=True, encoding="utf-8", timeout=LIMIT).stdout.strip()
        assert told.partition(" ")[2] == logic, (logic, told)


@runs_the_program
def ends_as_the_readme_shows(folder):
    """What `make run` prints where the program is proved: the README's first session, and that it is."""
    shown = re.search(r"    \$ (idn2 --variants tables/german.txt strasse\n(?:    .*\n)+)", text_of("README.md")).group(1)
    open(os.path.join(folder, "proved"), "w").close()
    done = make(folder, "run")
    assert done.stdout == re.sub("(?m)^    ", "", shown) + "proved\n", (shown, done)


NOT_PROVED = "not proved yet: make proves it, in an hour"


def runs_the_main_job_without_a_proof_until_make_has_made_it(folder):
    """Where the program isn't made of the sources as they stand, too; and only `make` proves. In a small copy of the repository,
    with an rt that tells what it is asked for and makes a program. It fails where there is a file `fails`, and where there is
    one `edits`, a source changes while it proves."""
    crate = os.path.join(folder, "crates", "idn2")
    asked, built, source = (os.path.join(crate, name) for name in ("asked", "out/idn2", "src/main.rt"))
    for name in ("src", "specs", "proofs"):
        os.makedirs(os.path.join(crate, name))
    for path in (source, os.path.join(folder, "crates.txt"), os.path.join(crate, "stdin")):
        open(path, "w").close()
    os.symlink(TABLES, os.path.join(folder, "tables"))
    rt = os.path.join(folder, "rt")
    with open(rt, "w", encoding="utf-8") as file:
        file.write(f"#!/bin/sh\ncd '{crate}' && [ ! -e fails ] || exit\necho \"$*\" >> asked\n[ $1 = try ] && echo tried && exit\n"
                   "[ -e edits ] && sleep 0.1 && echo edited >> src/main.rt\n"
                   "mkdir -p out && echo '#!/bin/sh\necho listed' > out/idn2 && chmod +x out/idn2\n")
    os.chmod(rt, 0o755)

    def ask(target):
        words = ["make", "--no-print-directory", "-s", "-C", folder, "-f", os.path.join(ROOT, "Makefile"), f"RT={rt}", target]
        done = subprocess.run(words, capture_output=True, encoding="utf-8", timeout=LIMIT)
        return done.stdout.splitlines()[-2:], done.returncode

    def expect_unproved(case):
        if os.path.exists(asked):
            os.remove(asked)
        assert ask("run") == (["tried", NOT_PROVED], 0), case
        with open(asked, encoding="utf-8") as file:
            assert file.read() == f"try -- --variants {folder}/tables/german.txt strasse\n", case

    def write_to(path):
        with open(path, "a", encoding="utf-8") as file:
            file.write("changed\n")

    expect_unproved("nothing is made")
    old = os.stat(source)
    changes = {
        "changed": lambda: write_to(source),
        "changed, with the time that it had": lambda: (write_to(source), os.utime(source, ns=(old.st_atime_ns, old.st_mtime_ns))),
        "new": lambda: write_to(os.path.join(crate, "specs", "New.antt")),
        "moved": lambda: os.rename(os.path.join(crate, "specs", "New.antt"), os.path.join(crate, "proofs", "New.antt")),
        "removed": lambda: os.remove(os.path.join(crate, "proofs", "New.antt")),
        "a folder that is gone": lambda: os.rmdir(os.path.join(crate, "specs")),
    }
    for case, change in changes.items():
        assert ask("all")[1] == 0
        os.remove(asked)
        assert ask("run") == (["listed", "proved"], 0) and ask("all") == ([], 0) and not os.path.exists(asked), case
        change()
        expect_unproved(case)
    os.mkdir(os.path.join(crate, "specs"))
    for name, is_made in (("fails", False), ("edits", True)):
        write_to(os.path.join(crate, name))
        assert (ask("all")[1] == 0) == is_made, name
        if not is_made:
            found, status = ask("run")
            assert status != 0 and found == ["idn2 --variants tables/german.txt strasse"], found
        os.remove(os.path.join(crate, name))
        expect_unproved(name)
    assert ask("all")[1] == 0 and ask("run") == (["listed", "proved"], 0)
    os.remove(built)
    expect_unproved("no program")


# The package of what a test asks for, where it has another name.
PACKAGES = {"groff": "groff-base", "objdump": "binutils"}


def packages():
    return set(re.sub("#.*", "", text_of("tests", "packages.txt")).split())


def lists_each_package_that_a_test_asks_for(folder):
    """Without one that tests/packages.txt lacks, a test would be skipped on each fresh machine."""
    paths = glob.glob(os.path.join(ROOT, "tests", "*.py")) + glob.glob(os.path.join(ROOT, "registry", "tests", "*.py"))
    named = r'\b(?:is_installed\(|is_there\(|pytest\.skip\(|reason=)"(\w[^"{]*)"'
    asked = {name for path in paths for names in re.findall(named, text_of(path)) for name in names.split(", ")}
    asked -= {"a package", "the Rattle kit"}
    assert len(asked) > 12 and {PACKAGES.get(name, name) for name in asked} <= packages(), asked


SKIPPING = """import sys
sys.path.insert(0, {!r})
from program import is_there, run_tests
def asks(folder): is_there("a package", None)
def passes(folder): pass
sys.exit(run_tests("guide", [asks, passes]))
"""


def names_what_it_skipped_in_its_last_lines(folder):
    """The gate; and .ci/run installs the packages first, and fails. In a small copy of the repository, with programs that do
    nothing. After the gate the program is one that is proved."""
    def write(text, *path):
        os.makedirs(os.path.join(folder, *path[:-1]), exist_ok=True)
        with open(os.path.join(folder, *path), "w", encoding="utf-8") as file:
            file.write(text)
        os.chmod(os.path.join(folder, *path), 0o755)

    for path in (("Makefile",), ("tests", "gate"), ("tests", "packages.txt"), (".ci", "run")):
        write(text_of(*path), *path)
    tests = set(re.findall(r"\bstep .*tests/(\w+)\.py", text_of("tests", "gate")))
    for name in tests:
        text = SKIPPING.format(os.path.join(ROOT, "tests")) if name == "guide" else "print('1 passed, 0 failed')"
        write(text, "tests", f"{name}.py")
    parts = (("src", "main.rt"), ("specs", "A.antt"), ("proofs", "A.antt"))
    for path in (("crates.txt",), *(("crates", "idn2", *part) for part in parts)):
        write("", *path)
    write("#!/bin/sh\nmkdir -p crates/idn2/out && printf '#!/bin/sh\\n' > crates/idn2/out/idn2 && chmod +x crates/idn2/out/idn2\n"
          "echo 1 passed, 0 failed\n", "bin", "rt")
    write(f"#!/bin/sh\necho $* >> {folder}/installed\n", "bin", "apt-get")
    write("#!/bin/sh\necho 0\n", "bin", "id")
    settings = ("NO_SKIPS", "RT", "MAKEFLAGS", "MFLAGS", "MAKEOVERRIDES")
    environment = {name: text for name, text in os.environ.items() if name not in settings}
    environment["PATH"] = os.path.join(folder, "bin") + os.pathsep + os.environ["PATH"]
    for words, failed in ((["make", "--no-print-directory", "test"], 0), ([".ci/run"], 1)):
        done = subprocess.run(words, cwd=folder, env=environment, capture_output=True, encoding="utf-8", timeout=LIMIT)
        lines = done.stdout.splitlines()
        assert (lines[-1], done.returncode != 0) == (f"{len(tests) + 2 - failed} passed, {failed} failed", failed > 0), (words, done)
        assert "guide asks ... SKIPPED what needs a package: make packages installs what tests use" in lines[-5:-1], (words, done)
    with open(os.path.join(folder, "installed"), encoding="utf-8") as file:
        update, install = file.read().splitlines()
    assert update == "update" and packages() < set(install.split()) and len(packages()) > 8, (update, install)
    done = subprocess.run(["make", "-s", "run"], cwd=folder, env=environment, capture_output=True, encoding="utf-8", timeout=LIMIT)
    assert done.stdout.endswith("\nproved\n"), done


@runs_the_program
def tells_which_answers_changed(folder):
    """What docs/UNICODE.md compares programs with: none differs from itself; one that reads other letters is told."""
    script = os.path.join(ROOT, "conformance", "changed_answers.py")
    labels, other = os.path.join(folder, "labels"), os.path.join(folder, "other")
    with open(labels, "wb") as file:
        file.write("ä\nfaß\n-\n".encode() + b"\xff\n")
    with open(other, "w", encoding="utf-8") as file:
        file.write(f"#!/bin/sh\nLC_ALL=C sed -e 's/^ä$/Ä/' -e 's/^-$/x/' | '{PROGRAM}' \"$@\"\n")
    os.chmod(other, 0o755)
    for new, status, shown in (
        (PROGRAM, 0, "0 of 4 answers are different\n"),
        (other, 1, "U+00E4\txn--4ca\t10 disallowed code point\nU+002D\t13 hyphen out of place\tx\n"
                   "an answer -> 10 disallowed code point: 1\n13 hyphen out of place -> an answer: 1\n"
                   "2 of 4 answers are different\n"),
        (labels, 2, ""),
    ):
        done = subprocess.run([sys.executable, script, PROGRAM, new, labels], capture_output=True, encoding="utf-8", timeout=LIMIT)
        assert (done.stdout, done.returncode) == (shown, status), done


def quotes_definitions_as_they_stand(folder):
    """Each definition that the tour quotes is all of one in its file, and the twelve to believe first are among them."""
    text = text_of("docs", "DEFINITIONS.md")
    quotes = quoted.quotes(text)
    assert text.count("```antt\n") == len(quoted.BLOCK.findall(text)) and len(quotes) >= 12, len(quotes)
    changed = [(file, quoted.name_of(part)) for file, part in quotes if part not in quoted.definitions(file).values()]
    assert not changed, (changed, "python3 tests/quoted.py --write")
    first = re.findall(r"^\| \d+ \| \[`(\w+)`\]", text, re.MULTILINE)
    assert len(first) == 12 and set(first) <= {quoted.name_of(part) for _, part in quotes}, first


def needs_no_newer_python_than_is_said(folder):
    """The scripts have no syntax newer than that of the version that the README names."""
    version = re.search(r"Python (3)\.(\d+) or later", text_of("README.md")).groups()
    scripts = [path for name in ("bench", "conformance", "tables", "tests")
               for path in glob.glob(os.path.join(ROOT, name, "**", "*.py"), recursive=True)]
    assert len(scripts) > 15, scripts
    for path in scripts:
        with open(path, encoding="utf-8") as file:
            ast.parse(file.read(), path, feature_version=tuple(map(int, version)))


TESTS = [
    counts_the_figures_of_the_profile,
    registers_the_code_points_that_are_counted,
    answers_as_the_profile_shows,
    formats_the_manual_page,
    breaks_no_option_of_the_manual_page,
    shows_help_in_80_columns,
    has_the_options_of_the_help_in_each_page,
    has_the_names_of_the_definition,
    lists_each_form_of_a_cause,
    names_what_comes_with_the_program,
    answers_alike_in_each_locale,
    completes_words_in_each_shell,
    installs_under_another_name,
    installs_under_no_name_of_another_program,
    installs_under_no_name_of_a_path,
    packs_each_path_that_its_documents_name,
    states_the_bounds_that_are_proved,
    names_what_is_proved,
    reads_as_much_of_a_file_as_can_matter,
    names_only_paths_that_are_there,
    names_the_logic_that_proves_it,
    ends_as_the_readme_shows,
    runs_the_main_job_without_a_proof_until_make_has_made_it,
    lists_each_package_that_a_test_asks_for,
    names_what_it_skipped_in_its_last_lines,
    tells_which_answers_changed,
    quotes_definitions_as_they_stand,
    needs_no_newer_python_than_is_said,
]


if __name__ == "__main__":
    sys.exit(run_tests("pages", TESTS))
