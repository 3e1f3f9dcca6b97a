#!/usr/bin/env python3
"""Asks the reference implementation of rulesets (conformance/ruleset_labels.py, idn2_registry.notation) for the worked rows of version 3, and the
program for what the rulesets of tables/rulesets/ and of docs/NOTATION.md say. Which labels may be registered, and which code
points may stand in a table, the program tells the reference implementation. The last line is 'N passed, M failed', and the exit status
is 0 where nothing failed."""

import functools
import itertools
import os
import random
import re
import subprocess
import sys
import textwrap

from program import LIMIT, ROOT, is_there, run, run_tests, table_file

sys.path += [os.path.join(ROOT, folder) for folder in ("conformance", "registry", "tables")]

import check
import ruleset_rows
import type_rows
from evaluator_answers import answer_of_evaluator
from idn2_registry import unicode_data
from idn2_registry.notation import reading
from idn2_registry.notation.gaps import gaps
from idn2_registry.rfc7940 import reader
from idn2_registry.rfc7940.ruleset import Asked
from reference_run import Run, Reference, Unknown
from ruleset_labels import RulesetLabels
from worked_rows import by_reference

DISALLOWED, UNASSIGNED = 10, 11


class ByProgram:
    """What the reference implementation asks of labels and code points, by the program's registration. No row has the cause of a
    label that can't be registered."""

    known = None

    @functools.cache
    def first_fault(self, label):
        message = run(["--register", "--", label]).stderr.decode()
        return int(re.fullmatch(r"idn2: line 1: (\d+) .*\n", message).group(1)) if message else None

    def knows(self, label):
        return True

    def is_dead_prefix(self, points):
        """No label in the rows has a dead prefix."""
        return False

    @functools.cached_property
    def refused(self):
        """The code points that no label has. Control characters can't be lines; they are such, too."""
        points = [point for point in range(0x21, 0x110000) if not 0xD800 <= point <= 0xDFFF]
        told = run(["--register"], "".join(chr(point) + "\n" for point in points).encode()).stderr.decode()
        numbers = re.findall(r"^idn2: line (\d+): (\d+) ", told, re.MULTILINE)
        refused = {points[int(line) - 1] for line, number in numbers if int(number) in (DISALLOWED, UNASSIGNED)}
        return refused.union(range(0x21), range(0xD800, 0xE000))

    def may_stand(self, point):
        return point not in self.refused


BY_PROGRAM = ByProgram()


def told(answer):
    """An answer, cut where it is long."""
    return tuple(each[:400] if isinstance(each, str) else each for each in answer)


def reference_implementation_answers(folder):
    """All but one row, whose label spells a million labels."""
    second, unknown = Reference(Run(BY_PROGRAM, BY_PROGRAM)), []
    for words, given, texts, wanted in [*ruleset_rows.rows(), *type_rows.rows()]:
        files = {name: text.encode() for name, text in texts.items()}
        try:
            found, expected = by_reference(second, words, given.encode(), files, wanted)
        except Unknown:
            unknown.append(given)
            continue
        assert found == expected, (words, given, texts, told(found), told(expected))
    assert unknown == ["0" * 20 + "\n"], unknown


def reference_implementation_reads_what_is_printed(folder):
    """As the same ruleset."""
    for words, _, texts, (printed, *_) in [*ruleset_rows.rows(), *type_rows.rows()]:
        if words[0] == "--print-ruleset":
            ruleset, again = (reading.read(text.encode(), BY_PROGRAM.may_stand) for text in (texts[words[1]], printed))
            assert ruleset == again, (texts, printed)


def reads_xml_as_its_evaluator_does(folder):
    """A ruleset that is made of XML says of labels what the evaluator reads in the XML."""
    compared = 0
    for xml, text, _ in type_rows.from_xml():
        if text is None:
            continue
        standards = reader.read(f'<lgr xmlns="urn:ietf:params:xml:ns:lgr-1.0">{xml}</lgr>'.encode())
        labels = RulesetLabels(reading.read(text.encode(), BY_PROGRAM.may_stand))
        letters = sorted({letter for source in labels.entries for letter in source})
        for label in ("".join(each) for size in (1, 2, 3) for each in itertools.product(letters, repeat=size)):
            answer, wanted = labels.answer(label), answer_of_evaluator(Asked(standards, label))
            assert answer == wanted, (xml, label, answer, wanted)
            compared += 1
    assert compared > 200, compared


# The rulesets of tables/rulesets/: words that are to be accepted, labels that are not, each with its number, and variants that
# are allocatable, blocked, or none.
EXAMPLES = {
    "devanagari.txt": {
        "accepted": "हिन्दी भारत मराठी नेपाली क़लम गाँव संगठन दुःख ऑनलाइन फ़िल्म पुस्तक ज़्यादा काठमाडौँ कऱ्हाड वऱ्याड १२३ वेब2 ई-मेल",
        "refused": {"काा": 41, "कंा": 41, "अा": 41, "कअ्": 41, "क्अ": 41, "घ़": 41, "क1१": 41, "कः्": 41, "ऱक": 40, "कa": 40},
        "variants": {"वेब2": {"वेब2": True, "वेब२": False}, "12": {"12": True, "१२": False, "1२": None}},
    },
    "chinese.txt": {
        "accepted": "中国 中國 学校 學校 a1",
        "refused": {"あ": 40},
        "variants": {"国学": {"国学": True, "國學": True, "国學": False, "國学": False},
                     "国學": {"国學": True, "国学": True, "國學": True, "國学": False}},
    },
    "latin.txt": {
        "accepted": "paypal x-ray 4you",
        "refused": {"раураl": 41, "а": 41, "\u03B1": 41, "\u00E4": 40},
        "variants": {"ac": {"ac": True, "\u0430c": False, "\u0430\u0441": False, "\u03B1\u0441": False, "\u0430d": None}},
    },
}


def answer_of_program(path, label):
    """The number by which the program refuses the label under a ruleset, or for each variant whether it is allocatable."""
    done = run(["--ruleset", path, "--", label])
    message = re.fullmatch(r"idn2: line 1: (\d+) .*\n", done.stderr.decode())
    if message:
        return int(message.group(1))
    variants = [line.split("\t") for line in done.stdout.decode().splitlines()[:-1]]
    return {variant: disposition == "allocatable" for variant, _, disposition in variants}


def allocatable_by_evaluator(ruleset, label):
    """What `answer_of_program` gives, by the evaluator; None of a label that is refused."""
    wanted = answer_of_evaluator(Asked(ruleset, label))
    return wanted and {variant: disposition == "allocatable" for variant, disposition in wanted.items()}


def reads_a_ruleset_in_xml(folder):
    """A run by a ruleset in XML answers each label as the evaluator of RFC 7940 does, and so does one by what is printed of it."""
    compared = 0
    for number, (xml, text, _) in enumerate(type_rows.from_xml()):
        if text is None:
            continue
        document = f'<lgr xmlns="urn:ietf:params:xml:ns:lgr-1.0">{xml}</lgr>'.encode()
        path = table_file(folder, document, f"{number}.xml")
        printed = run(["--print-ruleset", path])
        assert (printed.stderr, printed.returncode) == (b"", 0), (xml, printed)
        again = table_file(folder, printed.stdout, f"{number}.txt")
        assert run(["--print-ruleset", again]).stdout == printed.stdout, (xml, printed)
        standards = reader.read(document)
        letters = sorted({letter for source in reading.read(text.encode(), BY_PROGRAM.may_stand).entries for letter in source})
        for label in ("".join(map(chr, each)) for size in (1, 2) for each in itertools.product(letters, repeat=size)):
            if BY_PROGRAM.first_fault(label) is None:
                wanted = allocatable_by_evaluator(standards, label)
                answers = [answer_of_program(file, label) for file in (path, again)]
                admitted = [None if isinstance(answer, int) else answer for answer in answers]
                assert admitted == [wanted, wanted], (xml, label, answers, wanted)
                compared += 1
    assert compared > 50, compared


LGR = b'<lgr xmlns="urn:ietf:params:xml:ns:lgr-1.0">\n<data>\n%s\n</data></lgr>\n'

# What stands on line 3 of a ruleset in XML that is refused, and with which number.
REFUSED_IN_XML = [
    (b'<char cp="61"/>', 30), (b'<letter cp="0061"/>', 30), (b'<char cp="0061"/><char cp="0061"/>', 31),
    (b'<char cp="0061" when="x"/>', 35), (b'<char cp="0061"><var cp=""/></char>', 37),
]


def tells_the_line_of_what_is_wrong_in_xml(folder):
    """Blanks or a byte order mark may come before; of no fault a cause is told; and a table of version 1 or 2 is never one in XML."""
    letters = LGR % b'<char cp="0061"><var cp="0062" type="blocked"/></char><char cp="0062"><var cp="0061"/></char>'
    for before in (b"", b"\n \t", "\ufeff".encode()):
        path = table_file(folder, before + letters)
        assert run(["--print-ruleset", path]).stdout == b"%version 3\n0061|!0062\n0062|0061\n"
        assert run(["--check-ruleset", path]).stdout == b"#table 2 0\n"
        assert run(["--ruleset", path, "a"]).stdout == b"a\ta\tallocatable\nb\tb\tblocked\n#end 2\n"
    for within, number in REFUSED_IN_XML:
        for option in ("--ruleset", "--check-ruleset", "--print-ruleset"):
            done = run([option, table_file(folder, LGR % within), "--explain"], b"a\n")
            told = re.fullmatch(rb"idn2: table line 3: (\d+) [a-z ]+\n", done.stderr)
            assert told and int(told.group(1)) == number and (done.stdout, done.returncode) == (b"", 2), (within, done)
    for option in ("--variants", "--check-table"):
        assert run([option, table_file(folder, letters)], b"a\n").stderr == b"idn2: table line 1: 30 table syntax\n"


def example_rulesets_hold(folder):
    """Each is read, lacks no pair, and says of words what its script or its head says. What can't be registered isn't asked."""
    names = os.listdir(os.path.join(ROOT, "tables", "rulesets"))
    assert sorted(names) == sorted(EXAMPLES), names
    for name, wanted in EXAMPLES.items():
        path = os.path.join(ROOT, "tables", "rulesets", name)
        with open(path, "rb") as file:
            ruleset = reading.read(file.read(), BY_PROGRAM.may_stand)
        assert gaps(ruleset.variants_of()) == [], name
        checked = run(["--check-ruleset", path])
        assert (checked.stdout.decode(), checked.returncode) == (f"#table {len(ruleset.entries)} 0\n", 0), checked
        labels = RulesetLabels(ruleset)
        refused = {word: labels.refusal(word) for word in wanted["accepted"].split()} | {
            word: labels.refusal(word) for word in wanted["refused"]}
        assert {word: number for word, number in refused.items() if number} == wanted["refused"], (name, refused)
        assert not any(BY_PROGRAM.first_fault(word) for word in wanted["accepted"].split()), name
        answers = {word: answer_of_program(path, word) for word in refused}
        assert all((answers[word] == number) if number else answers[word][word] for word, number in refused.items()), answers
        for label, variants in wanted["variants"].items():
            dispositions = labels.answer(label)
            found = {variant: dispositions[variant] == "allocatable" if variant in dispositions else None for variant in variants}
            assert found == variants, (name, label, found)
            listed = answer_of_program(path, label)
            assert {variant: listed.get(variant) for variant in variants} == variants, (name, label, listed)


def notation_shows_a_ruleset(folder):
    """The example of docs/NOTATION.md is read, and says of labels what stands there."""
    with open(os.path.join(ROOT, "docs", "NOTATION.md"), encoding="utf-8") as file:
        [text, *_] = re.findall(r"(?:^    .*\n)+", file.read().split("\nA ruleset with something of each kind:\n")[1], re.MULTILINE)
    text = textwrap.dedent(text).encode()
    ruleset = reading.read(text, BY_PROGRAM.may_stand)
    labels = RulesetLabels(ruleset)
    refused = {label: labels.refusal(label) for label in ("काa", "का", "ा", "क1", "क०", "1०", "a-1", "-a", "aa-a", "аa")}
    assert refused == {"काa": None, "का": None, "ा": 41, "क1": None, "क०": None, "1०": 41, "a-1": None, "-a": 41,
                       "aa-a": None, "аa": 41}, refused
    answers = {label: labels.answer(label) for label in DISPOSITIONS_IN_THE_NOTATION}
    assert answers == DISPOSITIONS_IN_THE_NOTATION, answers
    path = table_file(folder, text)
    for label, number in refused.items():
        number = BY_PROGRAM.first_fault(label) or number
        answer = answer_of_program(path, label)
        assert answer == number if number else answer[label], (label, answer)
    for label, dispositions in DISPOSITIONS_IN_THE_NOTATION.items():
        allocatable = {variant: disposition == "allocatable" for variant, disposition in dispositions.items()}
        assert answer_of_program(path, label) == allocatable, label


DISPOSITIONS_IN_THE_NOTATION = {
    "国0": {"国0": "allocatable", "國0": "allocatable", "国०": "blocked", "國०": "blocked"},
    "国学": {"国学": "allocatable", "國学": "blocked"},
}


def chinese_ruleset_is_as_others_have_it(folder):
    """It has the entries of tables/han.txt, and the types that Python's codecs of GB 2312 and Big Five tell."""
    with open(os.path.join(ROOT, "tables", "han.txt"), "rb") as file:
        table = check.read(file.read(), BY_PROGRAM)
    with open(os.path.join(ROOT, "tables", "rulesets", "chinese.txt"), "rb") as file:
        entries = reading.read(file.read(), BY_PROGRAM.may_stand).entries
    found = {source: {variant.points: False for variant in entry.variants} for source, entry in entries.items()}
    assert found == table.entries
    for entry in filter(lambda entry: entry.variants, entries.values()):
        assert entry.source.type == REFLEXIVE_TYPES[codecs_of(chr(*entry.source.points))], entry
        assert all(variant.type == TYPES[codecs_of(chr(*variant.points))] for variant in entry.variants), entry


# The type of a variant, and the reflexive type of a source, by the codecs that have the character.
SIMPLIFIED, TRADITIONAL, BOTH = ("gb2312",), ("big5",), ("gb2312", "big5")
TYPES = {SIMPLIFIED: "simp", TRADITIONAL: "trad", BOTH: "both"}
REFLEXIVE_TYPES = {SIMPLIFIED: "r_simp", TRADITIONAL: "r_trad", BOTH: None}


def codecs_of(character):
    return tuple(codec for codec in BOTH if character.encode(codec, "ignore"))


# The sets of tables/rulesets/devanagari.txt, by Unicode's Indic_Syllabic_Category.
CATEGORIES = {"vowel": "Vowel_Independent", "consonant": "Consonant", "nukta_base": "Consonant", "vowel_sign": "Vowel_Dependent",
              "ascii_digit": "Number", "devanagari_digit": "Number"}


def devanagari_sets_are_as_unicode_has_them(folder):
    """Each is of one category alone, where Unicode's data is there."""
    if not is_there("unicode-data", unicode_data.FOLDER.is_dir()):
        return
    spans = list(unicode_data.properties("IndicSyllabicCategory.txt"))
    with open(os.path.join(ROOT, "tables", "rulesets", "devanagari.txt"), "rb") as file:
        sets = reading.read(file.read(), BY_PROGRAM.may_stand).sets
    points = {name: [point for first, last in sets[name] for point in range(first, last + 1)] for name in sets}
    found = {name: {category for point in points[name] for first, last, category in spans if first <= point <= last} for name in sets}
    assert found == {name: {category} for name, category in CATEGORIES.items()}, found


def check_script_tells_what_it_cannot_read(folder):
    """And goes on with the next file; its statuses are those of other commands."""
    path, absent = os.path.join(ROOT, "tables", "german.txt"), os.path.join(folder, "absent.txt")
    gap = table_file(folder, b"0061|0062\n", "gap.txt")
    adlam = table_file(folder, b"1E922\n", "adlam.txt")
    usage, told = "usage: check.py [--standard] FILE..\n", f"{absent}: No such file or directory\n"
    rows = [([], "", usage, 2), ([absent], "", told, 2), ([folder], "", f"{folder}: Is a directory\n", 2),
            ([absent, path], f"{path}: #table 42 0\n", told, 2), ([path], f"{path}: #table 42 0\n", "", 0),
            ([gap, absent], f"{gap}: missing 0062|0061\n#table 1 1\n", told, 2), (["--standard"], "", usage, 2),
            (["--help"], "", usage, 2), ([path, "--Standard"], "", usage, 2),
            ([adlam], f"{adlam}: idn2: table line 1: 33 code point not allowed in a table\n", "", 1),
            (["--standard", adlam, path], f"{adlam}: #table 1 0\n{path}: #table 42 0\n", "", 0)]
    has_data = is_there("unicode-data", unicode_data.FOLDER.is_dir())
    for words, output, message, status in rows if has_data else rows[:1]:
        command = [sys.executable, os.path.join(ROOT, "tables", "check.py"), *words]
        done = subprocess.run(command, capture_output=True, encoding="utf-8", timeout=LIMIT)
        assert (done.stdout, done.stderr, done.returncode) == (output, message, status), (words, done)
    for stream, reason in ((">/dev/full", "No space left on device"), (">&-", "Bad file descriptor")) if has_data else ():
        words = ["sh", "-c", f'"$@" {stream}', "sh", *command[:2], gap]
        done = subprocess.run(words, capture_output=True, encoding="utf-8", timeout=LIMIT)
        assert (done.stderr, done.returncode) == (f"{gap}: the answer could not be written: {reason}\n", 2), done
    environment = {**os.environ, "UNICODE_DATA": folder}
    done = subprocess.run([*command[:2], path], env=environment, capture_output=True, encoding="utf-8", timeout=LIMIT)
    assert (done.stdout, done.returncode) == ("", 2) and done.stderr.startswith(f"no Unicode data in {folder}: "), done


CONTEXTS = ("@A _", "_ @A", "^ _ / @A _", "_ @A? $", "@A .* _", "0061 _ / _ 0062", "_")
DEMANDS = ("%never 0061 .* 0062", "%never @A @A $", "%always @A", "%never ^ 0063 $")
# Labels are refused by demands, by actions that ask for a rule alone and come first, and by types of sources.
REFUSING = ("%action invalid when w", "%action invalid any out")
ACTIONS = ("%action blocked any s", "%action allocatable all s,valid", "%action valid only t,blocked", "%action blocked unless w")


def random_ruleset(chance):
    """Sets of letters that are variants of each other, without gaps and conditions of variants; with conditions of sources, demands,
    types and actions."""
    letters, sets = "abcdefgh", {}
    for letter in letters:
        sets.setdefault(chance.randrange(4), []).append(f"{ord(letter):04X}")
    lines = ["%version 3", "%type s", "%type t", "%type out", f"%set A 0061..{chance.choice(('0062', '0064'))}", "%whole w 0063 @A"]
    lines += [f"%rule r{number} {chance.choice(CONTEXTS)}" for number in range(2)] + chance.sample(DEMANDS, chance.choice((0, 1, 1)))
    lines += [*chance.sample(REFUSING, chance.choice((0, 1, 2))), *chance.sample(ACTIONS, chance.choice((0, 1, 2)))]
    typed = lambda *more: chance.choice(("", "", " as s", " as t", *more))
    for members in sets.values():
        for source in members:
            variants = [chance.choice((f"!{each}", each + typed())) for each in members if each != source]
            condition = chance.choice(("", "", "", " when r0", " unless r1"))
            first = f"!{source}" if chance.random() < 0.15 else source + typed(" as out")
            lines.append(first + condition + ("|" if variants else "") + ":".join(variants))
    return "\n".join(lines).encode()


def finds_collisions_by_least_variants(folder):
    """Under random rulesets without gaps, of single code points and without conditions of variants, of which sources alone refuse,
    labels that aren't refused have one least variant exactly if they collide, whichever of the two is asked about."""
    chance, compared = random.Random(7940), 0
    for _ in range(40):
        path = table_file(folder, random_ruleset(chance))
        checked = run(["--check-ruleset", path])
        assert checked.stdout.splitlines()[-1] == b"#table 8 0", checked
        labels = sorted({"".join(chance.choices("abcdefgh", k=chance.randint(1, 3))) for _ in range(25)})
        done = run(["--ruleset", path], "\n".join(labels).encode())
        refused = set(re.findall(r"^idn2: line (\d+): 4[01] ", done.stderr.decode(), re.MULTILINE))
        accepted = [label for number, label in enumerate(labels, 1) if str(number) not in refused]
        blocks = [[line.split("\t")[0] for line in block.splitlines()] for block in re.split(r"#end \d+\n", done.stdout.decode())]
        assert len(blocks) == len(accepted) + 1, (labels, done)
        listed = dict(zip(accepted, blocks))
        for one in accepted:
            for other in accepted:
                assert (one in listed[other]) == (listed[one][0] == listed[other][0]), (path, one, other, listed)
                compared += one < other
    assert compared > 1_000, compared


TESTS = [
    reference_implementation_answers,
    reference_implementation_reads_what_is_printed,
    reads_xml_as_its_evaluator_does,
    reads_a_ruleset_in_xml,
    tells_the_line_of_what_is_wrong_in_xml,
    example_rulesets_hold,
    notation_shows_a_ruleset,
    chinese_ruleset_is_as_others_have_it,
    devanagari_sets_are_as_unicode_has_them,
    check_script_tells_what_it_cannot_read,
    finds_collisions_by_least_variants,
]

if __name__ == "__main__":
    sys.exit(run_tests("version_3", TESTS))
