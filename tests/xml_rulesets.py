#!/usr/bin/env python3
"""Gives the program rulesets in XML as they are published (RFC 7940): --ruleset, --check-ruleset and --print-ruleset of the
file itself. Each has the answers that were worked out by hand (xml_rows.py, evaluator_rows.py), others those of the evaluator
(idn2_registry.rfc7940); what isn't as the standard has it is refused by its line, and nothing else is said. The last line is
'N passed, M failed', and the exit status is 0 where nothing failed."""

import itertools
import json
import os
import random
import re
import sys

from evaluator_rows import ANSWERS, DATA, DOCUMENTS, PROPERTIES, ROOT as HEAD, RULES, SPELLINGS
from evaluator_rows import ruleset as document
from evaluator import all_verdicts
from program import ROOT, run, run_tests, table_file
from rich_ruleset import RichRuleset
from rulesets import registrable, ruleset, stored
from xml_rows import (ABC, BY_STANDARD, FAULTS, LABELS, LIMITS, LONGEST_FIRST, OF_EACH_KIND, PROFILE, REFUSALS, ROWS,
                      WITH_CONDITION, WITH_RULE, WITH_VARIANT, char, long_set, many_entries, refusing, rule)

sys.path += [os.path.join(ROOT, folder) for folder in ("conformance", "registry")]

from idn2_registry.rfc7940.reader import read
from idn2_registry.rfc7940.schema import Refused

BLOCKED, UNCLEAR = "blocked", "unclear"
SEEDS = range(1, 71)
LEAST_READ, LEAST_ACCEPTED = 50, 300
# Labels are made of so many entries of a ruleset.
MOST_PARTS = 20
FAULT = re.compile(r"idn2: table line (\d+): (3[0-7]) ([a-z ]+)\n")


def contents(path):
    with open(path, "rb") as file:
        return file.read()


def listed(path, labels, words=()):
    """For each label that the program admits under a ruleset its variants, with what becomes of them."""
    labels = sorted(labels)
    done = run(["--ruleset", path, *words], "".join(label + "\n" for label in labels).encode())
    assert done.returncode < 2, (done.returncode, done.stderr)
    refused = {int(number) for number in re.findall(r"^idn2: line (\d+): 4[01] ", done.stderr.decode(), re.MULTILINE)}
    assert len(refused) == done.stderr.count(b"\n"), done.stderr
    *blocks, last = re.split(r"^#end \d+\n", done.stdout.decode(), flags=re.MULTILINE)
    admitted = [label for number, label in enumerate(labels, 1) if number not in refused]
    assert (len(blocks), last) == (len(admitted), ""), (blocks, last)
    fields = [[line.split("\t") for line in block.splitlines()] for block in blocks]
    return {label: {variant: kind for variant, _, kind in block} for label, block in zip(admitted, fields)}


def expect_answers(path, answers, told=""):
    """The program says these variants of labels, as far as they may be registered; None where a label is refused."""
    known = registrable(set(answers).union(*(variants or () for variants in answers.values())))
    asked = known.intersection(answers)
    found = listed(path, asked)
    for label in asked:
        wanted = answers[label] and {variant: BLOCKED if kind == UNCLEAR else kind
                                     for variant, kind in answers[label].items() if variant in known}
        assert found.get(label) == wanted, (told, label.encode("unicode_escape"), found.get(label), wanted)
    return sum(label in found for label in asked)


def expect_same_printed(folder, path, answers):
    """What is printed of a ruleset says the same."""
    done = run(["--print-ruleset", path])
    assert (done.returncode, done.stderr) == (0, b"") and done.stdout.startswith(b"%version 3\n"), done
    printed = table_file(folder, done.stdout, "printed.txt")
    assert run(["--print-ruleset", printed]).stdout == done.stdout, done.stdout
    expect_answers(printed, answers)


def wanted(text):
    """The answer that a row of xml_rows has."""
    if text == "invalid":
        return None
    return {word.lstrip("!"): BLOCKED if word.startswith("!") else "allocatable" for word in text.split()}


KIND_OF = {"A": "allocatable", "B": BLOCKED, "U": UNCLEAR}


def wanted_by_letters(text):
    """The answer that a row of evaluator_rows has."""
    if text is None:
        return None
    return {variant: KIND_OF[letter] for variant, letter in (word.rsplit(" ", 1) for word in text.split(", "))}


def expect_as_evaluated(path, chosen, count=40):
    """Labels of some entries of a file have the answers of the evaluator. How many of them were accepted is the answer."""
    of_file = read(contents(path))
    parts = sorted(of_file.entries)
    parts = chosen.sample(parts, min(len(parts), MOST_PARTS))
    each = sorted({"".join(some) for size in (1, 2, 3) for some in itertools.product(parts, repeat=size)})
    each = chosen.sample(each, min(len(each), count)) + ["".join(chosen.choices(parts, k=4))]
    return expect_answers(path, {label: all_verdicts(of_file, label) for label in each}, path)


def says_each_part(folder):
    for name, data, rules, answers in ROWS:
        path = ruleset(folder, data, rules)
        answers = {label: wanted(row) for label, row in answers.items()}
        expect_answers(path, answers, name)
        expect_same_printed(folder, path, answers)


def says_what_was_worked_out(folder):
    for section, data, rules, answers in ANSWERS:
        if 'cp=""' in data:
            # A null variant, which no table has.
            continue
        path = table_file(folder, document(data, rules).encode(), "ruleset.xml")
        answers = {label: wanted_by_letters(row) for label, row in answers.items()}
        expect_answers(path, answers, section)
        expect_same_printed(folder, path, answers)


def behind(cp):
    return f'<rule><look-behind><char cp="{cp}"/></look-behind><anchor/></rule>'


def ahead(cp):
    return f'<rule><anchor/><look-ahead><char cp="{cp}"/></look-ahead></rule>'


A, C, END = '<char cp="0061"/>', '<char cp="0063"/>', "<end/>"
PLAIN, NAMED = "<rule><anchor/></rule>", '<rule by-ref="s"/>'
CHOICE = f"<choice>{PLAIN}<rule>{C}{PLAIN}</rule><rule>{PLAIN}{A}</rule></choice>"
# Rules in which other parts stand before a choice with anchors, after it, or both; in a choice within another, too, and by
# the name of a rule.
BESIDE = [
    f"<choice>{behind('0061')}{behind('0063')}</choice>{END}",
    f"<choice>{behind('0061')}<rule>{C}{C}{PLAIN}</rule></choice><any/>{C}",
    f"{A}<choice>{ahead('0061')}{ahead('0063')}<rule>{PLAIN}{END}</rule></choice>",
    f'<start/><any count="0+"/>{C}<choice>{PLAIN}<rule>{A}{PLAIN}</rule></choice>{A}',
    f"{A}<choice>{PLAIN}<rule>{C}{CHOICE}{C}</rule></choice>{A}",
    f"{A}{NAMED}<choice>{A}{C}</choice>",
    f"<choice><rule>{A}{NAMED}</rule><rule>{C}{NAMED}{END}</rule></choice>",
]


def says_what_stands_beside_a_choice(folder):
    """As the evaluator does: in each branch of its rule. The branches are bounded by what they take together."""
    data = ABC.replace('"0062"', '"0062" when="r"')
    labels = ["".join(some) for size in range(1, 6) for some in itertools.product("abc", repeat=size)]
    for within in BESIDE:
        path = ruleset(folder, data, rule(CHOICE, "s") + rule(within))
        of_file = read(contents(path))
        answers = {label: all_verdicts(of_file, label) for label in labels}
        with_condition = [answer for label, answer in answers.items() if "b" in label]
        assert None in with_condition and any(with_condition), within
        expect_answers(path, answers, within)
        expect_same_printed(folder, path, answers)
    # What stands beside a choice of four takes eight bytes more of a line of the ruleset, of 8,192 bytes.
    for count, fault in ((1_021, None), (1_022, (5, 34))):
        within = f"<choice>{PLAIN * 4}</choice>" + "\n<any/>" * count
        assert fault_of(ruleset(folder, data, "\n" + rule(within))) == fault, count
    twice = lambda number: f'<choice><rule by-ref="r{number}"/><rule by-ref="r{number}"/></choice>'
    rules = rule("<anchor/>", "r0") + "".join("\n" + rule(twice(number), f"r{number + 1}") for number in range(200))
    # The line of 2,048 branches, each the anchor alone, is too long.
    assert fault_of(ruleset(folder, ABC, rules)) == (15, 34)


def says_other_rows_as_the_evaluator_does(folder):
    """What loses code points that no label has; what versions 1 and 2 read in another way; and something of each kind."""
    rows = [*LABELS, LONGEST_FIRST, OF_EACH_KIND, WITH_CONDITION, WITH_RULE, WITH_VARIANT]
    for number, (data, rules) in enumerate(rows):
        expect_as_evaluated(ruleset(folder, data, rules), random.Random(number))


def expect_printed(folder, path, lines, words=()):
    """What is printed of a ruleset is what is printed of these lines."""
    wanted = table_file(folder, "".join(line + "\n" for line in ["%version 3", *lines]).encode(), "wanted.txt")
    printed, by_lines = (run(["--print-ruleset", file, *words]) for file in (path, wanted))
    assert printed.stdout == by_lines.stdout and not printed.stderr + by_lines.stderr, (lines, printed, by_lines)


def leaves_out_what_no_label_has(folder):
    """By the profile, and less of it with --standard."""
    for data, lines in PROFILE:
        expect_printed(folder, ruleset(folder, data), lines or [])
    for data, lines in BY_STANDARD:
        expect_printed(folder, ruleset(folder, data), lines, ["--standard"])
    nothing = ruleset(folder, '<char cp="0041"/>')
    assert run(["--check-ruleset", nothing]).stdout == b"#table 0 0\n"
    assert run(["--ruleset", nothing, "a"]).stderr == b"idn2: line 1: 40 not made of table entries\n"


UNTYPED = char("0062", ("0061",))
# Variants with types, and without; what is printed of them, and which type no action names.
TYPES_BESIDE_NONE = [
    (char("0061", ("0062", "blocked")) + UNTYPED, ["0061|!0062", "0062|0061"], []),
    (char("0061", ("0061",), ("0062", "blocked")) + UNTYPED,
     ["%type type_1", "0061 as type_1|!0062", "0062|0061 as type_1"], ["type_1"]),
    # All types are left out, with a variant or with an entry.
    (char("0061", ("0062",), ("0041", "blocked")) + UNTYPED,
     ["%type type_1", "0061|0062 as type_1", "0062|0061 as type_1"], ["type_1"]),
    (char("0061", ("0062",)) + char("0041", ("0061", "blocked")) + UNTYPED,
     ["%type type_1", "0061|0062 as type_1", "0062|0061 as type_1"], ["type_1"]),
    # So are all variants, or all that are their own sources.
    (char("0061") + char("0041", ("0061", "blocked"), ("0062",)), ["0061"], []),
    (char("0061", ("0062", "blocked")) + char("0041", ("0041",)) + UNTYPED, ["0061|!0062", "0062|0061"], []),
    # A type that the file has is idle, too.
    (char("0061", ("0062", "x")) + UNTYPED, ["%type x", "0061|0062 as x", "0062|0061"], ["x"]),
]


def types_what_has_no_type_only_where_it_must(folder):
    for data, lines, idle in TYPES_BESIDE_NONE:
        path = ruleset(folder, data)
        expect_printed(folder, path, lines)
        printed = table_file(folder, run(["--print-ruleset", path]).stdout, "printed.txt")
        for file in (path, printed):
            told = run(["--check-ruleset", file]).stdout.decode().splitlines()
            assert [line for line in told if line.startswith("idle")] == [f"idle {name}" for name in idle], (data, told)


def gives_no_name_that_the_file_has(folder):
    """Each type and rule keeps its name if the notation has that; others have names that neither the file nor another has."""
    look = lambda within: f"<look-behind>{within}</look-behind><anchor/>"
    path = ruleset(folder, char("0061", ("0062", "r-x"), ("0063", "type_1"))
                   + '<char cp="0062" when="after-a"/><char cp="0063" when="rule_1"/>',
                   rule(look('<char cp="0061"/>'), "after-a") + rule(look('<class by-ref="set_1"/>'), "rule_1")
                   + '<class name="set_1">0063</class>' + rule("<any/>", "type_2") + rule("<any/>", "type_1")
                   + rule("<any/>", "blocked") + '<action disp="blocked" any-variant="r-x type_1"/>')
    expect_printed(folder, path, [
        "%type type_3", "%type type_1", "%set set_2 0063", "%rule rule_2 0061 _", "%rule rule_1 @set_2 _", "%whole type_2 .",
        "%whole rule_3 .", "%whole rule_4 .", "%action blocked any type_3,type_1",
        "0061|0062 as type_3:0063 as type_1", "0062 when rule_2", "0063 when rule_1"])
    for label, cause in (("b", "U+0062 at place 1: when rule_2"), ("c", "U+0063 at place 1: when rule_1")):
        told = run(["--explain", "--ruleset", path, label]).stderr.decode()
        assert told == f"idn2: line 1: 41 not valid under the table: {cause}\n", told


def says_large_rulesets(folder):
    """More entries than versions 1 and 2 take, and a set that takes more than a line of the notation."""
    path = ruleset(folder, *many_entries())
    expect_printed(folder, path, ["4E00..9FFF", "AC00..D7A3"])
    expect_as_evaluated(path, random.Random(1))
    path = ruleset(folder, *long_set())
    of_file = read(contents(path))
    answers = {f"{letter}a": all_verdicts(of_file, f"{letter}a") for letter in "一丁丂寀寁"}
    assert [label[0] for label in answers if answers[label]] == ["一", "丂", "寀"], answers
    expect_answers(path, answers)
    expect_same_printed(folder, path, answers)


def knows_properties(folder):
    """Of the code points that a property of Unicode has and hasn't, those that may be in labels; but for one that isn't known
    here, and for combining classes by a name."""
    for name, (has, hasnt) in PROPERTIES.items():
        # A code point that has its class by a rule alone would need a context, and a mark can't be first.
        letters = registrable({f"a{letter}a" for letter in has + hasnt})
        data = "".join(f'<char cp="{ord(letter):04X}"/>' for letter in sorted({"a", *has, *hasnt}))
        rules = refusing(f'<start/><char cp="0061"/><class property="{name}"/><char cp="0061"/><end/>')
        path = ruleset(folder, data, rules)
        if name.startswith("InSC") or name == "ccc:Virama":
            assert fault_of(path) == (4, 37), name
            continue
        found = listed(path, letters)
        for letter in has + hasnt:
            assert f"a{letter}a" not in letters or (f"a{letter}a" in found) == (letter in hasnt), (name, letter)
    for name in ("ccc:255", "ccc:999", "ccc:1-9", "ccc:2_3", "sc:Nowhere", "gc:Xx"):
        path = ruleset(folder, '<char cp="0061"/>', refusing(f'<class property="{name}"/>'))
        assert fault_of(path) == (4, 37), name


def reads_each_spelling(folder):
    for text in SPELLINGS:
        path = table_file(folder, text.encode(), "ruleset.xml")
        found = listed(path, ["a"])
        expected = all_verdicts(read(text.encode()), "a")
        assert found.get("a") == expected, (text, found, expected)


def fault_of(path):
    """The line and the number of what is wrong in a file, or None."""
    found = FAULT.fullmatch(run(["--check-ruleset", path]).stderr.decode())
    return found and (int(found[1]), int(found[2]))


def expect_refused(folder, text, line, number=None):
    """In each mode, by this line and number; also with its cause, of which there is none, and as an object."""
    path = table_file(folder, text, "ruleset.xml")
    for words in (["--ruleset"], ["--check-ruleset"], ["--print-ruleset"], ["--explain", "--ruleset"]):
        done = run([*words, path], b"a\n")
        found = FAULT.fullmatch(done.stderr.decode())
        assert done.returncode == 2 and not done.stdout and found, (text[:300], done)
        assert int(found[1]) == line and number in (None, int(found[2])), (text[:300], line, number, done.stderr)
    done = run(["--json", "--ruleset", path], b"a\n")
    fault = {"table_line": line, "refusal": {"number": int(found[2]), "text": found[3]}}
    assert (done.returncode, json.loads(done.stdout), done.stderr) == (2, fault, b""), (text[:300], done)


def refuses_what_no_table_says(folder):
    """By the first line that is told: of types, then of rules, of actions and of entries."""
    for data, rules, messages in (*REFUSALS, *LIMITS):
        lines = re.findall(r"^lines? (\d+)", messages, re.MULTILINE)
        expect_refused(folder, contents(ruleset(folder, data, rules)), int(lines[-1]))


def refuses_faults(folder):
    for data, rules, message in FAULTS:
        expect_refused(folder, contents(ruleset(folder, data, rules)), int(re.match(r"line (\d+)", message)[1]))


# Where the program tells another line than the evaluator, by the reason that this has: a text by its own line, a circle by
# the first definition that isn't said, and a name that isn't defined by its line, however deep.
OTHER_LINES = {"data: text in it": 1, "is part of itself": -1, "too deep in others": 3}
# What the program reads: a range of which most code points are in no label, a name of a property in small letters, and a
# rule with a look-behind after what it matches, or a look-ahead before that.
READ = {
    "more than 65536 entries": '<range first-cp="10000"', "'gc' has no value 'll'": "gc:ll",
    "that isn't the first": "<any/><rule><look-behind>", "that isn't the last": "<look-ahead><any/></look-ahead></rule><any/>",
}


def refuses_what_the_evaluator_refuses(folder):
    for line, _, text in DOCUMENTS:
        expect_refused(folder, text if isinstance(text, bytes) else text.encode("utf-8", "surrogateescape"), line)
    data = '<rule name="r"><anchor/></rule><class name="k">0061</class>'
    rows = [(1 + line, reason, document(text, data)) for line, reason, text in DATA]
    rows += [(3 + line, reason, document('<char cp="0061" tag="t"/>', rules)) for line, reason, rules in RULES]
    for line, reason, text in rows:
        if any(word in reason and part in text for word, part in READ.items()):
            assert fault_of(table_file(folder, text.encode(), "ruleset.xml")) is None, text
            continue
        line += next((more for word, more in OTHER_LINES.items() if word in reason), 0)
        expect_refused(folder, text.encode(), line)


def tells_each_number(folder):
    """Of each kind of fault the number, with its line."""
    for number, data, rules in [
        (30, '<char cp="0061"/>\n<letter cp="0062"/>', ""),
        (31, '<range first-cp="0061" last-cp="0063"/>\n<char cp="0062"/>', ""),
        (32, '<char cp="0061"><var cp="0062"/>\n<var cp="0062" type="blocked"/></char>', ""),
        (34, f'<char cp="0061"/>\n<char cp="{"0061 " * 9}"/>', ""),
        (35, '<char cp="0061"/>\n<char cp="0062" when="r"/>', ""),
        (35, '<char cp="0061"/>\n<char cp="0062" when="r"/>', '<class name="r">0061</class>'),
        (37, '<char cp="0061"/>\n<char cp="0062"><var cp=""/></char>', ""),
        (37, '<char cp="0061"/>\n<char cp="0062"><var cp="0062" when="r"/></char>', rule("<anchor/>")),
    ]:
        expect_refused(folder, contents(ruleset(folder, data, rules)), 3, number)
    for number, rules in [
        (36, rule("<any/>") + '\n<class name="r">0061</class>'),
        (35, rule("<any/>") + '\n<action disp="invalid" match="s"/>'),
        (35, "\n" + rule('<rule by-ref="r"/>')),
        (37, rule("<anchor/>") + '\n<action disp="invalid" match="r"/>'),
        (37, rule("<any/>") + '\n<action disp="review"/>'),
        (37, rule("<any/>") + "\n" + rule('<class property="age:5.0"/>', "s")),
        (37, rule("<anchor/>") + "\n" + rule('<choice><rule by-ref="r"/><any/></choice>', "s")),
        (37, rule("<anchor/>") + "\n" + rule('<rule by-ref="r" count="2"/>', "s")),
        (37, rule("<anchor/>") + "\n" + rule('<rule by-ref="r"/><rule by-ref="r"/>', "s")),
    ]:
        expect_refused(folder, contents(ruleset(folder, ABC, rules)), 5, number)


VARIANT = '<var cp="0062"/>'


def within(rules, data=ABC):
    return f"{HEAD}<data>{data}</data><rules>{rules}</rules></lgr>"


def keeps_its_limits(folder):
    """So many elements may stand in one, so many definitions in a file, and so many bytes are read."""
    of_lines = lambda element, count: f"\n{element}" * count
    for made in (lambda count: within(f'<union name="k">{of_lines("<class>0061</class>", count)}</union>'),
                 lambda count: within(rule(of_lines("<class>0061</class>", 2) + of_lines("<any/>", count - 2))),
                 lambda count: within(rule(f"<choice>{of_lines('<any/>', count - 1)}</choice>")),
                 lambda count: within("", f'<char cp="0061">{of_lines(VARIANT, count)}</char>')):
        at_limit = fault_of(table_file(folder, made(8_192).encode(), "ruleset.xml"))
        assert at_limit is None or at_limit[1] != 34 or at_limit[0] < 8_192, at_limit
        expect_refused(folder, made(8_193).encode(), 8_194 - made(8_193).count("<choice>"), 34)
    definitions = lambda count: within("".join(f'\n<class name="k{each}">0061</class>' for each in range(count)))
    assert fault_of(table_file(folder, definitions(1_024).encode(), "ruleset.xml")) is None
    expect_refused(folder, definitions(1_025).encode(), 1_026, 34)
    for count, number in ((256, None), (257, 34)):
        rules = "".join("\n" + rule("<any/>", f"r{each}") for each in range(count))
        assert fault_of(table_file(folder, within(rules).encode(), "ruleset.xml")) == (number and (258, number))
    expect_refused(folder, b"<" + bytes(64 << 20), 1, 34)


def takes_what_begins_as_xml(folder):
    """Blanks or a byte order mark may come before, and lines may end with CR, or CR and LF; an empty file is none."""
    text = within("", "\n" + ABC)
    for before in ("", " \t\r\n", "\ufeff", "\ufeff \n"):
        path = table_file(folder, (before + text).encode(), "ruleset.xml")
        assert run(["--print-ruleset", path]).stdout == b"%version 3\n0061\n0062\n0063\n", before
    for end in ("\r", "\r\n"):
        expect_refused(folder, within("", "\n<char\ncp='61'/>").replace("\n", end).encode(), 2, 30)
    for text in ("", " \n", "\ufeff", "<", "\n<", " \ufeff" + text):
        assert fault_of(table_file(folder, text.encode(), "ruleset.xml")) == (1 + text.startswith("\n"), 30), text
    for text in (f"{HEAD}</lgr>", f"{HEAD}<data/></lgr>"):
        expect_refused(folder, text.encode(), 1, 30)


def says_what_random_rulesets_say(folder):
    """Beside the evaluator. One that a table can't say is refused."""
    count = accepted = 0
    for seed in SEEDS:
        one = RichRuleset(seed)
        path = ruleset(folder, one.data, one.rules)
        try:
            of_file = read(contents(path))
        except Refused as refused:
            expect_refused(folder, contents(path), refused.line)
            continue
        if fault := fault_of(path):
            # A reflexive variant with a condition, or three counts without a bound within each other.
            assert fault[1] in (34, 37), (seed, fault)
            continue
        chosen = random.Random(seed)
        parts = sorted(of_file.entries)
        labels = {"".join(chosen.choices(parts, k=chosen.randint(1, 4))) for _ in range(40)}
        try:
            accepted += expect_answers(path, {label: all_verdicts(of_file, label) for label in labels})
        except AssertionError as reason:
            raise AssertionError(f"seed {seed}: {reason}: {one.data} {one.rules}") from reason
        count += 1
    assert count >= LEAST_READ and accepted >= LEAST_ACCEPTED, (count, accepted)


def says_what_stored_rulesets_say(folder):
    for name in sorted(os.listdir(os.path.dirname(stored("gaps.xml")))):
        if name.endswith(".xml"):
            assert expect_as_evaluated(stored(name), random.Random(name), 120) > 10, name


if __name__ == "__main__":
    sys.exit(run_tests("xml_rulesets", [
        says_each_part,
        says_what_was_worked_out,
        says_what_stands_beside_a_choice,
        says_other_rows_as_the_evaluator_does,
        leaves_out_what_no_label_has,
        types_what_has_no_type_only_where_it_must,
        gives_no_name_that_the_file_has,
        says_large_rulesets,
        knows_properties,
        reads_each_spelling,
        refuses_what_no_table_says,
        refuses_faults,
        refuses_what_the_evaluator_refuses,
        tells_each_number,
        keeps_its_limits,
        takes_what_begins_as_xml,
        says_what_random_rulesets_say,
        says_what_stored_rulesets_say,
    ]))
