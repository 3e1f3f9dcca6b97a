"""The pages, as they are sent: what they say is what the program says, and nothing of a request stands in them unescaped."""

import html
import itertools
import re
from collections.abc import Mapping
from typing import Any

import pytest
from conftest import PROGRAM, TABLES, Place
from serving import Served, Told, configure, needs_aiohttp, query

from idn2_registry.answers import Answer, Refusal, Status
from idn2_registry.decisions import Tables
from idn2_registry.faults import Unknown
from idn2_registry.pages import label_page
from idn2_registry.pages.classes import Classes
from idn2_registry.pages.examples import Example, told_of
from idn2_registry.pages.frame import Frame
from idn2_registry.pages.html import element
from idn2_registry.pages.table_page import Shown, View, table_page, whole_page
from idn2_registry.pages.variant_sets import variant_sets
from idn2_registry.parsed_table import ParsedTable
from idn2_registry.program import Program
from idn2_registry.tables import Table, checked, read_table

KINDS = """%version 3
%type simp
%type r_simp
%type trad
%type r_trad
%set digit 0030..0039
%rule edge ^ _ / _ $ / ^ . . 002D _
%whole han 56FD / 570B
%never @digit .* @digit
%action allocatable all simp,r_simp
%action allocatable all trad,r_trad
%action blocked when han any simp,trad
002D unless edge
0030..0039
0061|!0430
!0430|!0061
56FD as r_simp|570B as trad
570B as r_trad|56FD as simp
"""


def words_of(page: Told | bytes) -> str:
    """What a page says, without its elements."""
    text = page.text if isinstance(page, Told) else page.decode()
    return re.sub(r" (?=[,.:])", "", " ".join(html.unescape(re.sub(r"<[^>]*>", " ", text)).split()))


@needs_aiohttp
def test_says_of_a_label_what_the_program_says(place: Place) -> None:
    place.load("haus\tH1", "strasse\tH2")
    configure(place)
    rows = (
        ("maß", 200, ["maß is available.", "xn--ma-hia", "U+00DF", "LATIN SMALL LETTER SHARP S", "PVALID allowed",
                      "2 of 2 shown"]),
        ("xn--strae-oqa", 200, ["straße is taken: it collides with strasse, held by H2.", "1 s U+0073", "yes, held by H2"]),
        ("haus", 200, ["haus is taken: it is registered, held by H1."]),
        ("Faß", 200, ["Faß can’t be registered. U+0046 LATIN CAPITAL LETTER F at place 1 isn’t allowed in a label (RFC 5892 "
                      "2.2).",
                      "The fault is here", "DISALLOWED not allowed, RFC 5892 2.2"]),
        ("mañana", 200, ["U+00F1 LATIN SMALL LETTER N WITH TILDE at place 3 isn’t in the table de."]),
        ("maß\r", 200, ["U+000D control character at place 4 is a control character, and no label has one."]),
        ("a--", 200, ["The hyphen at place 3 is out of place"]),
        ("", 200, ["The empty label can’t be registered. It is empty."]),
        ("\udcff", 200, ["It isn’t UTF-8."]),
        ("xn--a", 200, ["What it stands for is refused: U+0080"]),
        ("a" * 64, 200, ["It is too long"]),
        ("\u0301a", 200, ["It begins with a combining mark, U+0301 COMBINING ACUTE ACCENT."]),
    )
    with Served(place) as served:
        for label, status, said in rows:
            told = served.ask("GET", query("/", label=label))
            words = words_of(told)
            assert told.status == status, (label, words)
            for each in said:
                assert each in words, (label, each, words)
            # Bytes that aren't UTF-8 are no code points.
            assert ("Code point by code point" in words) == (label not in ("", "\udcff")), (label, words)


@needs_aiohttp
def test_what_is_not_known_is_no_200_here_either(bare: Place) -> None:
    bare.write("zone.txt", "0061\n0062\n")
    bare.write("gap.txt", "0061|0062\n0062\n")
    configure(bare, more='zone = "zone"\n', zone="zone.txt", gap="gap.txt")
    bare.load()
    with Served(bare) as served:
        told = served.ask("GET", "/?label=b")
        assert (told.status, told.headers["Retry-After"]) == (503, "60")
        lacks = "the table zone lacks 0061|0062 of gap: join the tables again"
        assert f"It isn’t known whether b is available: {lacks}." in words_of(told)
        told = served.ask("GET", "/tables/gap")
        assert "b U+0062 has no variant a U+0061: add 0062|0061" in words_of(told), words_of(told)


@needs_aiohttp
def test_each_table_says_why_it_refuses_a_label(bare: Place) -> None:
    """What comes furthest is told first, with its rule in words."""
    paths: dict[str, Any] = {"de": TABLES / "german.txt", "devanagari": TABLES / "rulesets" / "devanagari.txt"}
    joined = bare.write("zone.txt", bare.run("join", *map(str, paths.values())).stdout)
    configure(bare, more='zone = "zone"\n', zone=joined, **paths)
    bare.load()
    nukta = "◌\u093c U+093C."
    rows: tuple[tuple[str, list[str], list[str]], ...] = (
        ("क्\u200dष", ["can’t be registered: no table admits it.",
                       "U+200D ZERO WIDTH JOINER at place 3 isn’t in the table devanagari.",
                       "3 ZWJ U+200D ZERO WIDTH JOINER The fault is here",
                       "de U+0915 DEVANAGARI LETTER KA at place 1 isn’t in the table de."], []),
        ("किी", ["at place 3 may stand only where the rule after_consonant of the table devanagari holds.",
                "Rule after_consonant Holds directly after a code point of consonant, then perhaps " + nukta],
         ["#rule-after_consonant", "#set-consonant"]),
        ("१2", ["It has a part that demand 1 of the table devanagari bars.",
               "Demand 1 No part of a label is a code point of ascii_digit,"],
         ["#demand-1", "#set-devanagari_digit"]),
    )
    with Served(bare) as served:
        page = served.ask("GET", "/tables/devanagari").text
        for label, said, places in rows:
            told = served.ask("GET", query("/", label=label))
            for each in said:
                assert each in words_of(told), (label, each, words_of(told))
            for place in places:
                assert f'href="/tables/devanagari{place}"' in told.text and f'id="{place[1:]}"' in page, (label, place)


def test_a_table_that_says_nothing_is_no_refusal(place: Place, monkeypatch: pytest.MonkeyPatch) -> None:
    def silent(tables: Tables, answer: Answer) -> dict[str, Refusal]:
        raise Unknown("no answer within 5 seconds")

    monkeypatch.setattr(label_page, "refusals_of", silent)
    with place.zone() as zone:
        told = label_page.found(zone, Classes(zone.tables.pool), label_page.Asked("mañana"))
    assert (told.answer.status, told.answer.refusal) == (Status.UNKNOWN, None)


@needs_aiohttp
def test_nothing_of_a_request_is_a_part_of_a_page(place: Place) -> None:
    configure(place)
    bad = "\"'><script>alert(1)</script>&amp;"
    with Served(place) as served:
        for path in (query("/", label=bad), query("/", label="sss", find=bad), query("/", label="sss", after=bad)):
            told = served.ask("GET", path)
            assert "<script>" not in told.text and told.text.count("<script ") == 1, told.text
            assert "default-src 'none'" in told.headers["Content-Security-Policy"]
        for path, status in ((query("/", label="sss", table=bad), 400), (query("/tables/de", **{"from": bad}), 400),
                             ("/tables/none", 404), ("/tables/..%2fregistry.toml", 404), ("/page.css/..", 404)):
            assert served.ask("GET", path).status == status, path
        told = served.ask("GET", "/tables/none")
        assert told.headers.get_content_type() == "text/html" and "No answer No table has this name." in words_of(told)
        assert served.ask("GET", "/page.css").headers.get_content_type() == "text/css"
        assert served.ask("GET", "/page.js").headers.get_content_type() == "text/javascript"


@needs_aiohttp
def test_each_table_has_its_way(bare: Place) -> None:
    """Whatever its name is."""
    lines = "".join(f'"{name}" = "{TABLES}/german.txt"\n' for name in ("a b", "ü?#", "50%25"))
    bare.write("registry.toml", f'register = "sqlite:register.db"\nzone = "a b"\n[tables]\n{lines}[service]\n'
               'listen = "127.0.0.1:0"\n')
    bare.load()
    with Served(bare) as served:
        ways = re.findall(r'href="(/tables/[^"]*)"', served.ask("GET", "/").text)
        assert len(ways) == 3 and all(served.ask("GET", way).status == 200 for way in ways), ways


@needs_aiohttp
def test_searches_and_pages_in_the_variants_without_a_script(place: Place) -> None:
    configure(place, more="", service="[limits]\nlimit = 2")
    with Served(place) as served:
        told = served.ask("GET", "/?label=sss")
        assert "2 of 2 shown" in words_of(told)
        [way] = re.findall(r'href="(/\?label=sss&amp;after=[^"]*)"', told.text)
        following = served.ask("GET", html.unescape(way))
        assert "1 of 1 shown" in words_of(following) and "xn--s-pfa" in following.text
        found = served.ask("GET", query("/", label="sss", find="Qfa"))
        assert "1 of 2 shown" in words_of(found) and "xn--s-qfa" in found.text


def test_classes_are_those_of_the_program(place: Place) -> None:
    rows = {"a": "PVALID", "ß": "PVALID", "-": "PVALID", "\u0301": "PVALID", "A": "DISALLOWED", "\r": "DISALLOWED",
            "\u200d": "CONTEXTJ",
            "·": "CONTEXTO", "\u0660": "CONTEXTO", "\u06f5": "CONTEXTO", "\u30fb": "CONTEXTO", "\u05d0": "PVALID",
            "\u0378": "UNASSIGNED",
            "\ud7ff": "UNASSIGNED"}
    with place.zone() as zone:
        classes = Classes(zone.tables.pool)
        assert {text: classes.of(ord(text)).name for text in rows} == rows


def test_elements_escape_texts() -> None:
    assert element("p", "<&>", None, [element("b", '"'), "'"], title='"<', hidden=True, class_=None) == \
        '<p title="&quot;&lt;" hidden>&lt;&amp;&gt;<b>&quot;</b>&#x27;</p>'


def view_of(place: Place, text: str) -> View:
    """A table with what is said of it."""
    program = Program(PROGRAM)
    return View.of(read_table("own", place.write("own.txt", text), program), program)


def test_shows_a_ruleset_as_people_read_it(place: Place) -> None:
    words = words_of(table_page(Frame(), view_of(place, KINDS), Shown()))
    for said in ("15 entries of a ruleset.", "Digits (10)", "Latin (1)", "Ideographs (2)",
                 "Out of repertoire: only variants have them, no label (1)",
                 "а U+0430 CYRILLIC SMALL LETTER A out of repertoire", "2 sets of sequences", "国 U+56FD r_simp",
                 "國 U+570B r_trad", "⊘ blocked а U+0430 CYRILLIC SMALL LETTER A out of repertoire",
                 "Holds at the start of the label; or at the end of the label; or directly after the start of the label, "
                 "then any code point, then any code point, then - U+002D.",
                 "There may not stand: - U+002D.",
                 "No part of a label is a code point of digit, then any number of code points, then a code point of digit.",
                 "Holds everywhere in a label of which some part is 国 U+56FD ; or 國 U+570B. It is asked by action 3.",
                 "One in which all that is mapped has the type simp or r_simp is allocatable.",
                 "One for which the rule han holds, and in which something has the type simp or trad is blocked.",
                 "One in which something has the type invalid is refused."):
        assert said in words, (said, words)


def test_examples_are_admitted_and_refused_by_the_program(place: Place) -> None:
    """Each as the run says that is asked for it alone."""
    for name in ("devanagari", "chinese", "latin"):
        program = Program(PROGRAM)
        table = read_table(name, TABLES / "rulesets" / f"{name}.txt", program)
        examples = View.of(table, program).examples
        found: list[tuple[Example, Mapping[str, object]]] = [(examples.of(rule), {"rule": rule}) for rule in examples.rules]
        found += [(examples.of_number(number), {"demand": number}) for number in range(1, len(examples.demands) + 1)]
        for example, cause in found:
            assert example.admitted and example.refused, (name, cause, example)
            for label, status in ((example.admitted, 0), (example.refused, 1)):
                done = program.run(["--json", "--ruleset", table.held.path, label], files=[table.held.descriptor])
                assert done.returncode == status, (name, cause, label, done)
            assert all(f'"{member}":{value}' in done.stdout.decode().replace(f'"{value}"', str(value))
                       for member, value in cause.items()), (cause, done)


# What each label has to have, a rule that asks for two letters before, and one that no label breaks, since its hyphen is
# refused first.
WANTING = ("%version 3\n%set kana 3041..3043\n%rule start ^ _ / ^ . _\n%rule edge ^ _ / _ $\n%rule after_kana @kana _\n"
           "%rule kana_after @kana . _ / ^ _ 0061 0061 $\n%always (@kana/4E00)\n%never 30FB 30FB\n0030 unless start\n0061\n"
           "002D unless edge\n3041..3043\n"
           "30FB when kana_after\n30FC when after_kana\n4E00\n")
# No letter may stand everywhere.
FIXED = ("%version 3\n%set two 0061..0062\n%rule first ^ _\n%rule after ^ @two _ / 0063 _\n0061..0062 when first\n"
         "0063 when after\n0064 unless first\n")


@pytest.mark.parametrize("text", [WANTING, FIXED])
def test_examples_are_found_where_a_short_label_is_one(place: Place, text: str) -> None:
    """All labels of up to three code points are asked."""
    program, view = Program(PROGRAM), view_of(place, text)
    points = [point for entry in view.parsed.entries for point in entry.source.points]
    labels = ["".join(map(chr, each)) for count in range(1, 4) for each in itertools.product(points, repeat=count)]
    told = told_of(view.parsed.table, program, labels)
    assert told is not None and len(told) == len(labels)
    refused = [{name: value} for refusal in filter(None, told.values()) for name, value in refusal.items()
               if name in ("rule", "demand")]
    admitted = [label for label, refusal in told.items() if refusal is None]
    for rule in view.examples.rules:
        found = view.examples.of(rule)
        sources = [chr(entry.source.points[0]) for entry in view.parsed.entries
                   if entry.source.condition and entry.source.condition.rule == rule]
        assert bool(found.refused) == ({"rule": rule} in refused), (rule, found)
        assert bool(found.admitted) == any(source in label for label in admitted for source in sources), (rule, found)
    for number in range(1, len(view.examples.demands) + 1):
        found = view.examples.of_number(number)
        assert bool(found.refused) == ({"demand": number} in refused), (number, found)
        assert bool(found.admitted) == bool(admitted), (number, found)


def test_examples_of_variants_are_listed_by_the_program(place: Place) -> None:
    view = view_of(place, "%version 3\n%rule end _ $\n03B1..03C1\n03C3|03C2 when end\n03C2|03C3\n03C4..03C9\n")
    found = view.examples.of_variant("end")
    assert (found.label, found.variant, found.without) == ("σ", "ς", "σα")
    words = words_of(table_page(Frame(), view, Shown()))
    assert "Variants only there: ς U+03C2 of σ U+03C3 (allocatable)." in words, words
    assert "✓ variant σ U+03C3 has ς U+03C2, allocatable ✕ not so σα U+03C3 U+03B1" in words, words


def test_examples_are_none_where_there_is_no_answer(place: Place) -> None:
    """A rule that nothing satisfies, and one that nothing breaks."""
    view = view_of(place, "%version 3\n%rule never 0061 _ 0062\n%rule always _\n0061\n0063 when never\n0064 when always\n")
    assert view.examples.of("never").admitted is None and view.examples.of("never").refused == "c"
    assert view.examples.of("always").admitted == "d" and view.examples.of("always").refused is None


def test_a_linguist_finds_a_planted_mistake(place: Place) -> None:
    """A Cyrillic letter among the Latin ones stands alone in a group of its own; a variant that nobody expects, in its set."""
    text = (TABLES / "german.txt").read_text("utf-8")
    text = text.replace("\n0061..007A\n", "\n0062..007A\n0430\n").replace("00DF|0073-0073", "00DF|0073-007A")
    words = words_of(table_page(Frame(), view_of(place, text.replace("0073-0073|00DF", "0073-007A|00DF")), Shown()))
    assert "Cyrillic (1) а U+0430 CYRILLIC SMALL LETTER A" in words and "sz U+0073 U+007A" in words, words


JOINED = "%version 3\n0061|0062:!0063\n0062|0061:0063\n0063|!0061:0062\n"
UNEVEN = ("Not the same both ways 1 pair of variants with another disposition, or another rule, the other way. "
          "for c U+0063 the variant с U+0441 is allocatable; but for с U+0441 the variant c U+0063 is blocked")
PLANTED = (
    ("latin", {"\n0063|!0441": "\n0063|0441"}, UNEVEN),
    ("latin", {"!0501|!0064\n": ""}, "Missing: 1 pair of variants. Each goes both ways,"),
    ("latin", {"75|!03C5": "75|!03BD", "76|!03BD": "76|!03C5", "!03C5|!0075": "!03C5|!0076", "!03BD|!0076": "!03BD|!0075"},
     "u U+0075 LATIN SMALL LETTER U ⊘ blocked ν U+03BD GREEK SMALL LETTER NU out of repertoire"),
    ("devanagari", {"nukta_base 0915..0917": "nukta_base 0915..0918"}, "8 code points: क ख ग घ ज ड ढ फ"),
    ("devanagari", {"vowel 0905..090B": "vowel 0905..090C"}, "Not in the repertoire: ऌ U+090C."),
    ("devanagari", {"base @nukta_base _": "base @consonant _"}, "7 code points: क ख ग ज ड ढ फ No rule names this set."),
    ("devanagari", {"0903 when after_syllable_or_nasal": "0903 when after_syllable"}, "Nothing asks this rule."),
    ("devanagari", {"0913..0914 unless after_virama": "0913..0914"}, "ऐ U+0910, ऑ U+0911. ✓ admitted"),
)


@pytest.mark.parametrize("name, changes, said", PLANTED)
def test_a_mistake_in_a_ruleset_shows_itself(place: Place, name: str, changes: dict[str, str], said: str) -> None:
    text = (TABLES / "rulesets" / f"{name}.txt").read_text("utf-8")
    assert said not in words_of(table_page(Frame(), view_of(place, text), Shown()))
    for old, new in changes.items():
        assert text.count(old) == 1, old
        text = text.replace(old, new)
    words = words_of(table_page(Frame(), view_of(place, text), Shown()))
    assert said in words, words


def test_what_a_page_says_of_several_ways_is_all_of_them(place: Place) -> None:
    """Both conditions of a variant, and each branch of a demand in a line of its own."""
    text = "%version 3\n%rule edge ^ _\n%never 0061 0062 / 0062 0061 / 0061 0063\n0063\n"
    text += "0061|!0062 unless edge:0062 when edge\n0062|!0061 unless edge\n"
    page = table_page(Frame(), view_of(place, text), Shown())
    assert ("for a U+0061 the variant b U+0062 is blocked not where edge, and allocatable only where edge; "
            "but for b U+0062 the variant a U+0061 is blocked not where edge") in words_of(page).replace(
        " ;", ";"), words_of(page)
    told = "No part of a label is one of these: a U+0061, then b U+0062 b U+0062, then a U+0061 a U+0061, then c"
    assert told in words_of(page)
    assert page.decode().count("<li><bdi") == 3


def test_sets_of_variants_have_parts_that_go_together(place: Place) -> None:
    [first, second] = variant_sets(ParsedTable.read(checked(Table("own", place.folder, KINDS.encode()), Program(PROGRAM))))
    assert first.parts == (((0x61,),), ((0x430,),)) and second.parts == (((0x56FD,), (0x570B,)),)
    [joined] = variant_sets(ParsedTable.read(checked(Table("own", place.folder, JOINED.encode()), Program(PROGRAM))))
    assert joined.parts == (((0x61,), (0x62,), (0x63,)),)
    words = words_of(table_page(Frame(), view_of(place, JOINED), Shown()))
    # Two of them are blocked all the same.
    assert "A green frame has what allocatable variants connect, directly or through others" in words, words
    assert "a U+0061 c U+0063 blocked" in words, words
    [only] = variant_sets(ParsedTable.read(read_table("de", TABLES / "german.txt", Program(PROGRAM))))
    assert only.parts == (((0x73, 0x73), (0xDF,)),)


def test_shows_a_large_table_in_parts(place: Place) -> None:
    program = Program(PROGRAM)
    view = View.of(read_table("han", TABLES / "han.txt", program), program)
    page = table_page(Frame(), view, Shown()).decode()
    [start] = re.findall(r'href="\?from=([0-9A-F]+)"', page)
    assert page.count('class="tile"') == 1_000
    assert f"U+{start}" in table_page(Frame(), view, Shown(int(start, 16))).decode()
    alone = whole_page(view.parsed.table, program).decode()
    assert alone.count('class="tile"') == 3_602 and "<style>" in alone and "<script" not in alone and "<link" not in alone
