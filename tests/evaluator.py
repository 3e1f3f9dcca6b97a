#!/usr/bin/env python3
"""Tests the evaluator of RFC 7940 (idn2_registry.rfc7940): that it says of small rulesets what was worked out by
hand, and refuses what isn't as the standard has it; that its grid finds what the definitions find that are written out
here; that labels drawn from a ruleset find a change of it; and that a listing of the program is compared in all that
it says. The last line is 'N passed, M failed', and the exit status is 0 where nothing failed."""

import contextlib
import functools
import io
import itertools
import os
import pathlib
import random
import sys
from unittest import mock

from evaluator_rows import (ANSWERS, COUNTED_LABELS, COUNTS, DATA, DOCUMENTS, LETTERS, PROPERTIES, RULES, SETS,
                            SPELLINGS, TAGGED, char, characters, literal, rule, ruleset)
from program import PROGRAM, ROOT, run_tests
from random_ruleset import RandomRuleset
from rich_ruleset import RichRuleset

sys.path += [os.path.join(ROOT, folder) for folder in ("conformance", "registry", "tables")]

import verified as command
from idn2_registry.rfc7940 import unicode_properties, verified
from idn2_registry.rfc7940.drawn_labels import DrawnLabels, every_variant
from idn2_registry.rfc7940.reader import read
from idn2_registry.rfc7940.rules import AllOf, Anchor, AnyOf, End, Literal, OneOf, Start, Times
from idn2_registry.rfc7940.ruleset import INVALID, PREDEFINED, UNMAPPED, UNTYPED, Asked, Verdict
from idn2_registry.rfc7940.schema import Refused
from idn2_registry.rfc7940.unicode_properties import test_of
from idn2_registry.rfc7940.verified import Block, Kind

LETTER_OF = {"allocatable": "A", "blocked": "B", "unclear": "U"}


def parsed(data, rules=""):
    return read(ruleset(data, rules).encode())


def all_verdicts(rules, label):
    """What the evaluator says of each variant of a label that it can have; None if the label is refused."""
    asked = Asked(rules, label)
    if not asked.is_valid:
        return None
    found = {variant: asked.verdict(variant) for variant in every_variant(asked, 1_000_000)}
    return {variant: verdict.value for variant, verdict in found.items() if verdict is not Verdict.ABSENT}


# ---- Worked rows

def answers_as_worked_out(folder):
    for section, data, rules, answers in ANSWERS:
        of_file = parsed(data, rules)
        for label, wanted in answers.items():
            found = all_verdicts(of_file, label)
            if found is not None:
                found = ", ".join(f"{variant} {LETTER_OF[verdict]}" for variant, verdict in sorted(found.items()))
            assert found == wanted, (section, label, wanted, found)
    # 8.3, step 3: the default actions don't see a type of the file's own, so all of what they see is activated.
    of_file = parsed(char("a", "b:activated") + char("c", "d:own"))
    assert of_file.disposition("bd", of_file.kinds & ~UNMAPPED) == "activated", of_file.kinds


def accepted(operator, labels):
    """Those of the labels that the operator matches from the start to the end."""
    whole = rule("r", f"<start/>{operator}<end/>") + '<action disp="invalid" not-match="r"/>'
    of_file = parsed(TAGGED, whole)
    return [label for label in labels if Asked(of_file, label).is_valid]


def classes_and_counts_match(folder):
    for operator, wanted in SETS:
        assert accepted(operator, LETTERS) == list(wanted), operator
    for operator, wanted in COUNTS:
        assert accepted(operator, COUNTED_LABELS) == wanted.split(), operator


def properties_are_those_of_unicode(folder):
    for name, (members, others) in PROPERTIES.items():
        has = test_of(name)
        assert all(has(ord(point)) for point in members) and not any(has(ord(point)) for point in others), name
    newer = char("\U0010FFFD") + char("\u0378")
    refuses(ruleset(newer, '<class name="c" property="gc:Ll"/>'), 4, "the Unicode data here don't know 0378")


def python_tells_some_without_the_files_of_unicode(folder):
    """Three properties, by short names of their values; any other is refused with a remedy."""
    told = {"gc:Ll", "gc:L", "General_Category:Mn", "ccc:9", "ccc:230", "ccc:0", "bc:AN", "bc:L", "gc:Cn"}
    test_of.cache_clear()
    with mock.patch.object(unicode_properties, "FOLDER", pathlib.Path(folder) / "missing"):
        for name, (members, others) in PROPERTIES.items():
            try:
                has = test_of(name)
                # Python's data don't tell what unassigned code points would be.
                assert name in told | {"bc:R"} and all(map(has, map(ord, members.replace("\u0590", "")))), name
                assert not any(map(has, map(ord, others))), name
            except unicode_properties.NoProperty as error:
                assert name not in told and "install Debian's package unicode-data" in str(error), name
    test_of.cache_clear()


def refuses(text, line, reason):
    try:
        read(text if isinstance(text, bytes) else text.encode("utf-8", "surrogateescape"))
    except Refused as refused:
        assert (refused.line, reason in refused.reason) == (line, True), (line, reason, str(refused), text)
    else:
        raise AssertionError((reason, text))


def refuses_with_the_line(folder):
    for line, reason, text in DOCUMENTS:
        refuses(text, line, reason)
    for line, reason, data in DATA:
        refuses(ruleset(data, '<rule name="r"><anchor/></rule><class name="k">0061</class>'), 1 + line, reason)
    for line, reason, rules in RULES:
        refuses(ruleset('<char cp="0061" tag="t"/>', rules), 3 + line, reason)


def reads_each_spelling_of_xml(folder):
    for text in SPELLINGS:
        of_file = read(text.encode())
        assert (all_verdicts(of_file, "a"), all_verdicts(of_file, "b")) == ({"a": "allocatable"}, None), text


# ---- The definitions, written out

@functools.lru_cache(100_000)
def matches(part, label, at, start, end):
    match part:
        case Literal(points=points):
            return label[start:end] == points
        case AnyOf(has=has):
            return end == start + 1 and has(label[start])
        case Start():
            return start == end == 0
        case End():
            return start == end == len(label)
        case Anchor():
            return (start, end) == at
        case AllOf(parts=parts):
            return each_after_the_other(parts, label, at, start, end)
        case OneOf(parts=parts):
            return any(matches(each, label, at, start, end) for each in parts)
        case Times(part=inner, least=least, most=most):
            bound = least + len(label) if most is None else most
            counts = range(least, bound + 1)
            return any(each_after_the_other([inner] * count, label, at, start, end) for count in counts)


def each_after_the_other(parts, label, at, start, end):
    if not parts:
        return start == end
    return any(matches(parts[0], label, at, start, middle) and each_after_the_other(parts[1:], label, at, middle, end)
               for middle in range(start, end + 1))


def spans(label):
    return [(start, end) for start in range(len(label) + 1) for end in range(start, len(label) + 1)]


def holds(condition, label, at):
    if condition is None:
        return True
    return any(matches(condition.part, label, at, *span) for span in spans(label)) == condition.is_wanted


def standing(of_file, label, start):
    """The entries that stand at a place."""
    entries = (entry for entry in of_file.entries.values() if label[start:start + len(entry.points)] == entry.points)
    return [entry for entry in entries if holds(entry.condition, label, (start, start + len(entry.points)))]


def is_eligible(of_file, label, start=0):
    if start == len(label):
        return label != ""
    lengths = [len(entry.points) for entry in standing(of_file, label, start)]
    return lengths != [] and is_eligible(of_file, label, start + max(lengths))


def readings(of_file, label, start=0):
    """Each reading of a label from a place on: what it gives, its kinds in order, and whether each entry is left as it
    is."""
    if start == len(label):
        yield "", (), True
        return
    for entry in standing(of_file, label, start):
        end = start + len(entry.points)
        existing = (variant for variant in entry.variants if holds(variant.condition, label, (start, end)))
        choices = [(variant.points, variant.kind) for variant in existing]
        if entry.points not in [points for points, _ in choices]:
            choices.append((entry.points, UNMAPPED))
        for (points, kind), (rest, kinds, is_own) in itertools.product(choices, readings(of_file, label, end)):
            yield points + rest, (kind, *kinds), is_own and points == entry.points


def is_triggered(action, label, kinds):
    types = [kind for kind in kinds if kind != UNMAPPED]
    by_types = {
        "": lambda: True,
        "any-variant": lambda: any(kind & action.types for kind in types),
        "all-variants": lambda: types != [] and all(kind & action.types for kind in types),
        "only-variants": lambda: all(kind & action.types for kind in kinds),
    }
    return by_types[action.asks]() and holds(action.condition, label, None)


def disposition(of_file, label, kinds):
    for action in of_file.actions:
        if is_triggered(action, label, kinds):
            return action.disposition
    for name in ("invalid", "blocked", "allocatable"):
        if PREDEFINED[name] in kinds:
            return name
    return "valid"


def listed(of_file, label):
    """What a label lists by the definitions: each variant with what is told of it."""
    found = {}
    for variant, kinds, is_own in readings(of_file, label):
        if variant != label or is_own:
            found.setdefault(variant, set()).add(frozenset(kinds))
    answers = {}
    variants = (variant for entry in of_file.entries.values() for variant in entry.variants)
    has_types = any(variant.kind != UNTYPED for variant in variants)
    for variant, recorded in found.items():
        if not is_eligible(of_file, variant):
            continue
        told = {disposition(of_file, variant, kinds) for kinds in recorded}
        if has_types and len(recorded) > 1:
            answers[variant] = "unclear"
        else:
            answers[variant] = {"invalid": None, "blocked": "blocked"}.get(told.pop(), "allocatable")
    if not is_eligible(of_file, label) or answers[label] in (None, "unclear"):
        return None
    is_listed = lambda variant, told: told and not (told == "unclear" and barred(of_file, variant))
    return {variant: told for variant, told in answers.items() if is_listed(variant, told)}


def barred(of_file, label):
    leading = itertools.takewhile(lambda action: action.disposition == INVALID, of_file.actions)
    return any(action.asks == "" and holds(action.condition, label, None) for action in leading)


def grid_finds_what_the_definitions_find(folder):
    """Random rulesets of both kinds: each label of up to four code points of a few, each variant that it spells, and
    some others."""
    counted = dict.fromkeys(("allocatable", "blocked", "unclear", "refused"), 0)
    for drawn_as, seed in itertools.product((RandomRuleset, RichRuleset), range(150)):
        one, chance = drawn_as(seed), random.Random(seed)
        of_file = parsed(one.data, one.rules)
        alphabet = sorted({point for points in of_file.entries for point in points})
        for label in {"".join(chance.choices(alphabet, k=chance.choice((1, 2, 3, 3, 4)))) for _ in range(14)}:
            found, wanted = all_verdicts(of_file, label), listed(of_file, label)
            assert found == wanted, (drawn_as, seed, label, found, wanted)
            asked = Asked(of_file, label)
            other = "".join(chance.choices(alphabet, k=len(label)))
            assert asked.verdict(other).value == (wanted or {}).get(other, "absent"), (drawn_as, seed, label, other)
            for told in (wanted or {"": "refused"}).values():
                counted[told] += 1
    assert min(counted.values()) > 20, counted


# ---- Drawn labels

CHANGED = [
    # Entries, variants, conditions and rules, each with what is left out or changed.
    (char("a", "b:blocked"), char("a")),
    (char("a", "b:blocked"), char("a", "b:")),
    (char("ab", "c:"), ""),
    (char("d", "", ' when="p"'), char("d")),
    (char("d", "", ' when="p"'), char("d", "", ' when="q"')),
    (char("e", "", ' not-when="q"'), char("e", "", ' when="q"')),
    ('<var cp="0063" when="q" type="s"/>', '<var cp="0063" type="s"/>'),
    ('<var cp="0063" when="q" type="s"/>', '<var cp="0063" when="q"/>'),
    (literal("d", ' count="0+"'), literal("d", ' count="0:1"')),
    (literal("d", ' count="0+"'), ""),
    ("<class>0061 0067</class>", "<class>0061</class>"),
    ("<class>0061 0067</class>", "<any/>"),
    (literal("g", ' count="2"'), literal("g", ' count="3"')),
    (literal("g", ' count="2"'), literal("g", ' count="1+"')),
    ("<start/>" + literal("e"), literal("e")),
    ('<action disp="invalid" match="x"/>', ""),
    ('<action disp="invalid" match="x"/>', '<action disp="blocked" match="x"/>'),
    ('not-match="z"', 'match="z"'),
    ('<action disp="blocked" all-variants="s"/>', ""),
    ('<action disp="blocked" all-variants="s"/>', '<action disp="blocked" any-variant="s"/>'),
    ('<action disp="blocked" all-variants="s"/>', '<action disp="blocked" only-variants="s"/>'),
]


def drawn_labels_find_each_change(folder):
    data = "\n".join((char("a", "b:blocked"), characters("b", "c"), char("ab", "c:"), char("d", "", ' when="p"'),
                      char("e", "", ' not-when="q"'), '<char cp="0066"><var cp="0063" when="q" type="s"/></char>',
                      characters("g", "k")))
    rules = "\n".join((
        rule("p", f"<look-behind><class>0061 0067</class>{literal('d', count_of('0+'))}</look-behind><anchor/>"),
        rule("q", f"<anchor/><look-ahead>{literal('g', count_of('2'))}</look-ahead>"),
        rule("x", f"<start/>{literal('e')}<any/>{literal('h')}"), rule("z", "<class>0061-006A</class>"),
        '<action disp="invalid" match="x"/>', '<action disp="invalid" not-match="z"/>',
        '<action disp="blocked" all-variants="s"/>'))
    right = parsed(data, rules)
    drawn = DrawnLabels(right).labels()
    assert drawn == DrawnLabels(right).labels() and len(drawn) == len(set(drawn)) and max(map(len, drawn)) <= 63
    for old, new in CHANGED:
        assert old in data + rules, old
        wrong = parsed(data.replace(old, new, 1), rules.replace(old, new, 1))
        assert any(all_verdicts(right, label) != all_verdicts(wrong, label) for label in drawn), (old, new)


def walks_come_near_to_a_rule(folder):
    """Among 256 other entries: a rule of five code points with one of them changed or optional, and a condition that is
    dropped of an entry that may stand only after another with a condition."""
    after = lambda letter: f"<look-behind>{literal(letter)}</look-behind><anchor/>"
    last = '<action disp="invalid" match="w"/>'
    data = characters("一", "仿") + characters("k", "o") + characters("x", "x")
    y, z = char("y", "", ' when="x"'), char("z", "", ' not-when="y"')
    conditions = rule("x", after("x")) + rule("y", after("y"))
    right = parsed(data + y + z, conditions + rule("w", literal("klmno")) + last)
    drawn = DrawnLabels(right).labels()
    for changed, content in (
            (y + char("z"), literal("klmno")),
            (y + z, literal("klmn") + "<any/>"),
            (y + z, literal("kl") + "<any/>" + literal("no")),
            (y + z, literal("klmn") + literal("o", count_of("0:1")))):
        wrong = parsed(data + changed, conditions + rule("w", content) + last)
        assert any(Asked(right, label).is_valid != Asked(wrong, label).is_valid for label in drawn), (changed, content)


def count_of(count):
    return f' count="{count}"'


def drawn_variants_are_spelled(folder):
    """All variants of a label that hasn't many, and of others variants that it has, most of them distinct."""
    drawn = DrawnLabels(parsed(char("a", "b: cd:") + char("aa", "e:") + characters("b", "e")))
    asked = Asked(drawn.ruleset, "aab")
    wanted = "aab abb acdb bab bbb bcdb cdab cdbb cdcdb eb"
    assert drawn.variants_of(asked, 100) == wanted.split()
    asked = Asked(drawn.ruleset, "a" * 20)
    found = drawn.variants_of(asked, 50)
    assert len(found) > 30 and all(asked.recorded(variant) for variant in found)


# ---- Comparisons with the program

def kinds_of(differences):
    return [(difference.kind, difference.variant) for difference in differences]


def compares_all_that_is_told(folder):
    """What the program might say of a label, and where that differs."""
    after_a = rule("r", f"<look-behind>{literal('a')}</look-behind><anchor/>")
    of_file = parsed(char("a", "b:blocked c:") + characters("b", "c") + char("d", "", ' when="r"'), after_a)
    unclear = parsed(char("a", "c:blocked") + char("b") + char("c") + char("ab", "cb:"))
    longest = parsed(char("a", "x:") + char("x", "a:") + char("ab") + char("bc"))
    right = {"a": "allocatable", "b": "blocked", "c": "allocatable"}
    for rules, label, told, wanted in (
            (of_file, "a", right, []),
            (of_file, "a", right | {"b": "allocatable"}, [(Kind.DISPOSITION, "b")]),
            (of_file, "a", right | {"a": "blocked"}, [(Kind.OWN, "a")]),
            (of_file, "a", right | {"d": "blocked"}, [(Kind.LISTED, "d")]),
            (of_file, "d", {"d": "allocatable"}, [(Kind.LABEL, "d")]),
            (unclear, "ab", {"ab": "allocatable", "cb": "blocked"}, []),
            (unclear, "ab", {"ab": "allocatable", "cb": "allocatable"}, [(Kind.UNCLEAR, "cb")]),
            (longest, "xbc", {"abc": "allocatable", "xbc": "allocatable"}, [(Kind.LONGEST, "abc")]),
            (longest, "abc", {"abc": "allocatable"}, [(Kind.LONGEST, "abc")])):
        assert kinds_of(verified.of_block(Asked(rules, label), Block(told, None))) == wanted, (label, told)
    for label, wanted in (("a", [(Kind.LABEL, "a")]), ("d", [])):
        assert kinds_of(verified.of_refused(Asked(of_file, label))) == wanted, label


SAME = (char("a", "b:blocked c:") + char("b", "a:blocked") + characters("c", "d") + char("e", "-:") + char("-")
        + char("f", "", ' when="r"'),
        rule("r", f"<look-behind>{literal('a')}</look-behind><anchor/>") + rule("x", literal("de"))
        + '<action disp="invalid" match="x"/>',
        "%version 3\n%rule r 0061 _\n%never 0064 0065\n0061|!0062:0063\n0062|!0061\n0063..0064\n0065|002D\n002D\n"
        "0066 when r\n")
OTHERWISE = [
    ("0061|!0062:0063", "0061|0062:0063", {Kind.DISPOSITION}),
    ("0061|!0062:0063", "0061|!0062", {Kind.MISSING}),
    ("0062|!0061", "0062|!0061:0063", {Kind.LISTED}),
    ("%never 0064 0065\n", "", {Kind.LABEL}),
    ("%never 0064 0065\n", "%never 0064\n", {Kind.LABEL}),
    ("0066 when r", "0066", {Kind.LABEL, Kind.LISTED}),
    ("0066 when r\n", "", {Kind.LABEL}),
]


def program_is_compared(folder):
    """A ruleset in both notations, and the same with a change in one of them."""
    data, rules, text = SAME
    of_file = parsed(data, rules)
    assert verified.registrable([PROGRAM], ["a", "xn--4ca", "A", "", "a\nb", "b\r", "-", "ä"]) == ["a", "ä"]
    labels = list(verified.labels_for(of_file, ["adf", "A", "", "a\nb", "b\r", "xn--4ca", "xn--4", "xn--é"]))[:1_500]
    assert labels[:8] == ["adf", "A", "", "a\nb", "b\r", "ä", "xn--4", "xn--é"], labels[:8]
    compared = lambda changed: verified.differences([PROGRAM], "--ruleset", changed, of_file, labels)
    assert list(compared(text.encode())) == []
    for old, new, kinds in OTHERWISE:
        found = list(compared(text.replace(old, new).encode()))
        assert {difference.kind for difference in found} == kinds, (old, new, list(map(str, found[:9])))
    for faulty in (b"%version 3\n0061|0061\n", b""):
        try:
            list(compared(faulty))
        except verified.Unanswered:
            continue
        raise AssertionError(faulty)


def compares_files(folder):
    data, rules, text = SAME
    paths = {name: os.path.join(folder, name) for name in ("t.txt", "t.xml", "labels.txt")}
    right = {"t.txt": text, "t.xml": ruleset(data, rules), "labels.txt": "ab\nfa\n"}
    for content, status, told in (
            (right, 0, ""),
            (right | {"t.txt": text.replace("!", ""), "labels.txt": "e\n"}, 1, "it has another disposition\n"),
            (right | {"t.txt": text.replace("!", "")}, 1, "label 0061-0062, variant 0061-0061: allocatable, and by "
             "RFC 7940 blocked: it has another disposition\n"),
            (right | {"t.xml": ruleset(data, "<action/>")}, 2, f"{paths['t.xml']}: line 4: action: it has no 'disp'\n"),
            (right | {"t.txt": "0061 when r\n"}, 2, "30 table syntax\n")):
        words = ["--idn2", PROGRAM, *(write(paths[name], content[name]) for name in paths)]
        with contextlib.redirect_stdout(io.StringIO()) as output, contextlib.redirect_stderr(output):
            assert command.main(words) == status, content
        assert output.getvalue().endswith(told) and bool(output.getvalue()) == bool(told), output.getvalue()


def write(path, text):
    with open(path, "w", encoding="utf-8") as file:
        file.write(text)
    return path


TESTS = [
    answers_as_worked_out,
    classes_and_counts_match,
    properties_are_those_of_unicode,
    python_tells_some_without_the_files_of_unicode,
    refuses_with_the_line,
    reads_each_spelling_of_xml,
    grid_finds_what_the_definitions_find,
    drawn_labels_find_each_change,
    walks_come_near_to_a_rule,
    drawn_variants_are_spelled,
    compares_all_that_is_told,
    program_is_compared,
    compares_files,
]

if __name__ == "__main__":
    sys.exit(run_tests("evaluator", TESTS))
