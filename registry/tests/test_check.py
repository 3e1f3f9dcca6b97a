"""Which labels are available, and what else is said of one label."""

import json
import sqlite3
from collections.abc import Mapping

import pytest
from conftest import TABLES, Place

from idn2_registry import Status, Variant

# The holder may have what is simplified, or traditional, throughout, and no mixture.
KINDS = """%version 3
%type simp
%type r_simp
%type trad
%type r_trad
%action allocatable all simp,r_simp
%action allocatable all trad,r_trad
%action blocked any simp,trad
56FD as r_simp|570B as trad
570B as r_trad|56FD as simp
5B66 as r_simp|5B78 as trad
5B78 as r_trad|5B66 as simp
"""


def test_tells_available_taken_and_refused_labels(place: Place) -> None:
    place.load("haus", "strasse\tH2")
    rows = (
        (["maß"], "maß: available (xn--ma-hia)\n", 0),
        (["xn--ma-hia"], "xn--ma-hia: available (xn--ma-hia)\n", 0),
        (["straße"], "straße: taken by strasse, held by H2\n", 1),
        (["xn--strae-oqa", "haus"], "xn--strae-oqa: taken by strasse, held by H2\nhaus: taken by haus\n", 1),
        (["mañana"], "mañana: refused: 40 not made of table entries: U+00F1 at place 3\n", 1),
        (["--", "-maß"], "-maß: refused: 13 hyphen out of place: U+002D at place 1\n", 1),
        (["maß\r"], "maß\\r: refused: control character: U+000D at place 4\n", 1),
        (["Faß"], "Faß: refused: 10 disallowed code point: U+0046 at place 1 (RFC 5892 2.2)\n", 1),
        (["xn--a"], "xn--a: refused: 10 disallowed code point: decoded: U+0080 at place 1 (RFC 5892 2.1)\n", 1),
        (["xn--zzzz"], "xn--zzzz: refused: 19 not an A-label (RFC 3492 6.2)\n", 1),
        (["--holder", "H2", "straße"], "straße: available (xn--strae-oqa)\n", 0),
        (["--holder", "H1", "straße"], "straße: taken by strasse, held by H2\n", 1),
        (["--holder", "H2", "strasse"], "strasse: taken by strasse, held by H2\n", 1),
    )
    for words, output, status in rows:
        place.expect(["check", *words], output, status)


def test_words_that_cannot_be_used_have_a_status_of_their_own(place: Place) -> None:
    """2, and nothing is answered: neither no nor not known."""
    for words, told in ((["variants", "--page", "0", "a"], "--page: a page has from 1 to 1000000000 labels"),
                        (["variants", "--page", "x", "a"], "--page: a page has from 1 to 1000000000 labels"),
                        (["variants", "--after", "a\nb", "a"], "--after: a listing goes on after a text of at most 1024 bytes"),
                        (["check", "--holder", "", "a"], "--holder: a holder is a text of Unicode without control characters"),
                        (["register", "--holder", "a\tb", "a"], "--holder: a holder is a text of Unicode"),
                        (["check", "--page", "1", "a"], "unrecognized arguments: --page"),
                        (["burn", "a"], "invalid choice: 'burn'")):
        done = place.run(*words)
        assert (done.stdout, done.returncode) == (b"", 2) and told in done.stderr.decode(), (words, done)


def test_answers_the_lines_of_its_input_in_their_order(place: Place) -> None:
    done = place.run("check", "--json", given="faß\n\nma\xdf\r\na\nA".encode() + b"\nfa\xdf\n")
    told = [json.loads(line) for line in done.stdout.splitlines()]
    assert [each["status"] for each in told] == ["available", "refused", "refused", "available", "refused", "refused"]
    assert [each.get("refusal", {}).get("number") for each in told] == [None, 3, None, None, 10, 1]
    assert told[5]["label_hex"] == "6661DF" and "label" not in told[5] and done.returncode == 1
    place.expect(["check", "fa\udcdf"], "fa\\xdf: refused: 1 not UTF-8\n", 1)


def test_refuses_each_control_character(place: Place) -> None:
    labels = [label for byte in (*range(0x20), *range(0x7F, 0xA0))
              for label in (f"ma{chr(byte)}s", f"m{chr(byte)}", f"{chr(byte)}m")]
    with place.zone() as zone:
        for label in labels:
            for answer in (zone.check(label), zone.register(label), zone.release(label), zone.tables_of(label)):
                assert answer.status is Status.REFUSED and answer.refusal and answer.refusal.text == "control character"


def test_tells_objects(place: Place) -> None:
    place.load("strasse\tH2")
    done = place.run("check", "--json", "--variants", "straße")
    assert json.loads(done.stdout) == {
        "label": "straße", "status": "taken", "ulabel": "straße", "alabel": "xn--strae-oqa", "tables": ["de"],
        "taken_by": [{"ulabel": "strasse", "alabel": "strasse", "holder": "H2"}], "table": "de",
        "variants": [{"ulabel": "strasse", "alabel": "strasse", "disposition": "allocatable"},
                     {"ulabel": "straße", "alabel": "xn--strae-oqa", "disposition": "allocatable"}],
        "complete": True}
    done = place.run("check", "--json", "2026-", "xn--a")
    assert [json.loads(line) for line in done.stdout.splitlines()] == [
        {"label": "2026-", "status": "refused", "refusal": {"number": 13, "text": "hyphen out of place", "code_point": "U+002D",
                                                            "place": 5}},
        {"label": "xn--a", "status": "refused", "refusal": {"number": 10, "text": "disallowed code point", "decoded": True,
                                                            "code_point": "U+0080", "place": 1, "rule": "RFC 5892 2.1"}}]


def test_pages_through_variants(place: Place) -> None:
    place.expect(["variants", "sss"], "sss: de\n  sss  sss  allocatable\n  sß  xn--s-qfa  allocatable\n"
                 "  ßs  xn--s-pfa  allocatable\n", 0)
    with place.zone() as zone:
        first = zone.variants("sss", page=2)
        assert first.variants and [each.ulabel for each in first.variants] == ["sss", "sß"] and not first.complete
        last = zone.variants("sss", page=2, after=first.after)
        assert last.variants == (Variant("ßs", "xn--s-pfa", "allocatable"),) and last.complete


def test_says_that_a_listing_was_stopped(bare: Place) -> None:
    bare.configure("[limits]\nlimit = 2", de=TABLES / "german.txt")
    bare.load()
    done = bare.run("variants", "--json", "sss")
    told = json.loads(done.stdout)
    assert (told["status"], told["complete"], told["after"], done.returncode) == ("unknown", False, "sß", 75)


def test_asks_each_table_and_the_table_of_the_zone(bare: Place) -> None:
    bare.write("latin.txt", "%version 2\n002D\n0030..0039\n0061..007A\n")
    bare.write("cyrillic.txt", "%version 2\n002D\n0030..0039\n0430..0434\n0436..044F\n0435|0451\n0451|0435\n")
    bare.write("alike.txt", "0061|0430\n0063|0441\n0065|0435\n006F|043E\n0070|0440\n0078|0445\n0079|0443\n")
    bare.configure('zone = "zone"', latin="latin.txt", cyrillic="cyrillic.txt", zone="zone.txt")
    done = bare.run("join", "latin", "cyrillic", "alike.txt")
    assert done.returncode == 0
    bare.write("zone.txt", done.stdout)
    # The rows of docs/GUIDE.md.
    lines = [line for line in done.stdout.decode().split("\n") if any(point in line for point in ("0065", "0435", "0451"))]
    assert lines == ["0065|!0435:!0451", "0435|!0065:!0451", "0451|!0065:!0435"]
    bare.load("cop\tH1")
    bare.expect(["tables-of", "сор"], "сор: cyrillic\n", 0)
    bare.expect(["tables-of", "2026"], "2026: latin, cyrillic\n", 0)
    # Latin has no first letter of it, Cyrillic no second one.
    bare.expect(["tables-of", "сop"], "сop: refused: 40 not made of table entries: U+006F at place 2\n", 1)
    bare.expect(["check", "сор"], "сор: taken by cop, held by H1\n", 1)
    bare.expect(["check", "--holder", "H1", "сор"], "сор: taken by cop, held by H1\n", 1)
    bare.expect(["check", "copy"], "copy: available (copy)\n", 0)
    bare.expect(["check", "сop"], "сop: refused: 40 not made of table entries: U+006F at place 2\n", 1)
    # A pair that the table of the zone doesn't have yet.
    bare.write("latin.txt", "%version 2\n002D\n0030..0039\n0061..0078\n0079|!007A\n007A|!0079\n")
    told = "the table zone lacks 0079|007A of latin: join the tables again"
    bare.expect(["check", "copy", "сор"], f"copy: not known: {told}\nсор: taken by cop, held by H1\n", 75)
    done = bare.run("check-config")
    assert done.returncode == 1 and f"zone.txt: {told}: no label is told to be available\n" in done.stdout.decode(), done


AFTER_B = "%version 3\n%rule after_b 0062 _\n0061..0063\n0064 when after_b\n"
NO_AD = "%version 3\n%never 0061 0064\n0061..0064\n"
FURTHEST: tuple[tuple[str, tuple[str, str], Mapping[str, object]], ...] = (
    ("abz", ("%version 2\n0061\n", "%version 2\n0061..0062\n"), {"number": 40, "place": 3}),
    # All letters are in the ruleset, which says more than any place in a table.
    ("adez", ("%version 2\n0061..0065\n", AFTER_B), {"number": 40, "place": 4}),
    ("acd", ("%version 2\n0061..0063\n", AFTER_B), {"number": 41, "place": 3, "rule": "after_b"}),
    # A demand is asked after all places.
    ("ad", (NO_AD, AFTER_B), {"number": 41, "demand": 1}),
    ("bd", (AFTER_B, "0061\n"), {}),
)


@pytest.mark.parametrize("label, tables, said", FURTHEST)
def test_of_several_refusals_the_furthest_is_told(bare: Place, label: str, tables: tuple[str, str],
                                                  said: Mapping[str, object]) -> None:
    """By each command and by an audit, in whatever order the tables stand."""
    paths = {name: bare.write(f"{name}.txt", text) for name, text in zip(("one", "two"), tables, strict=True)}
    joined = bare.write("zone.txt", "%version 2\n0061..007A\n")
    bare.configure('zone = "zone"', zone=joined, **paths)
    bare.load(label)
    for names in (("one", "two"), ("two", "one")):
        bare.configure('zone = "zone"', zone=joined, **{name: paths[name] for name in names})
        for words in (["check", "--json", label], ["audit", "--json"]):
            told = json.loads(bare.run(*words).stdout.splitlines()[0]).get("refusal", {})
            assert bool(told) == bool(said) and said.items() <= told.items(), (names, words, told)


def test_offers_allocatable_variants_to_the_holder_alone(bare: Place) -> None:
    bare.configure(zh=bare.write("kinds.txt", KINDS))
    bare.load("国学\tH1")
    with bare.zone() as zone:
        assert zone.check("國學", "H1").status is Status.AVAILABLE
        assert zone.check("国學", "H1").status is Status.TAKEN
        assert zone.check("國學", "H2").status is Status.TAKEN
        assert zone.check("國學").status is Status.TAKEN
        assert zone.register("國學", "H1").status is Status.REGISTERED


def test_never_offers_the_mixture_whose_variant_is_pure(bare: Place) -> None:
    """The pure label is an allocatable variant of the mixture, but it is the pure one that is registered."""
    bare.configure(zh=bare.write("kinds.txt", KINDS))
    bare.load("国學\tH1")
    with bare.zone() as zone:
        assert zone.check("国学", "H1").status is Status.AVAILABLE
    bare.run("release", "国學")
    bare.load("国学\tH1")
    with bare.zone() as zone:
        assert zone.check("国學", "H1").status is Status.TAKEN


def test_offers_nothing_under_version_1(bare: Place) -> None:
    """Such a table doesn't say which variants are blocked."""
    bare.write("one.txt", "0061|0062\n0062|0061\n")
    bare.configure(one="one.txt")
    bare.load("a\tH1")
    with bare.zone() as zone:
        assert zone.check("b", "H1").status is Status.TAKEN


def test_finds_what_only_the_registered_label_shows(bare: Place) -> None:
    """It has the new one as a variant, and the new one hasn't it: by a gap, or by a condition of a variant. Its holder
    may have what is allocatable to it."""
    bare.write("gap.txt", "0061|0062\n0062\n")
    bare.write("sigma.txt", "%version 3\n%rule end _ $\n03B1..03C1\n03C3|03C2 when end\n03C2|03C3\n03C4..03C9\n")
    for table, there, asked, free, to_holder in (("gap.txt", "a", "b", "bb", Status.TAKEN),
                                                 ("sigma.txt", "ςα", "σα", "σ", Status.AVAILABLE)):
        bare.configure(own=table)
        bare.load(f"{there}\tH1")
        with bare.zone() as zone:
            for label in (asked, there):
                assert [each.ulabel for each in zone.check(label).taken_by] == [there], label
            assert zone.register(asked, "H2").status is Status.TAKEN
            assert (zone.check(asked, "H1").status, zone.check(free).status) == (to_holder, Status.AVAILABLE)
        (bare.folder / "register.db").unlink()


def test_finds_registered_labels_that_the_table_refuses_today(bare: Place) -> None:
    """By a source that is invalid, or since it is made of no sources. They are blocked, also to their holders."""
    bare.write("invalid.txt", "%version 3\n0061|!0430\n0062\n!0430|!0061\n")
    bare.write("piece.txt", "%version 2\n0061|0062-0063\n0078\n")
    for table, there, asked in (("invalid.txt", "аb", "ab"), ("piece.txt", "bcx", "ax")):
        bare.configure(own=table)
        bare.load()
        with sqlite3.connect(bare.folder / "register.db") as database:
            database.execute("insert into registered (label, holder) values (?, 'H1')", (there,))
        with bare.zone() as zone:
            assert [each.ulabel for each in zone.check(asked, "H1").taken_by] == [there], table
        (bare.folder / "register.db").unlink()


def test_tells_each_collision_that_listings_have(bare: Place) -> None:
    """Beside the whole listings of all labels that these letters make, under a table without gaps."""
    bare.configure(de=TABLES / "german.txt")
    labels = ["s", "ss", "sss", "ssss", "ß", "sß", "ßs", "ßß", "sßs", "ssß", "ßss", "as", "aß", "ass"]
    bare.load(*labels[::2])
    with bare.zone() as zone:
        for label in labels:
            listing = zone.variants(label)
            assert listing.variants is not None and listing.complete
            expected = sorted({each.ulabel for each in listing.variants} & set(labels[::2]))
            assert [each.ulabel for each in zone.check(label).taken_by] == expected, label
