"""Labels of older rules in the register: loaded, written, found by what collides with them, and told by an audit."""

import json
import random
import re
import sqlite3
import subprocess
from typing import Any

import old_labels
import pytest
from conftest import LIMIT, PROGRAM, Place
from program import is_registrable, spelled
from test_collisions import Sets, random_table, set_register, with_gaps, written

from idn2_registry import Status
from idn2_registry.audit import groups_of
from idn2_registry.work import Kept

NAMES = ("ss--a\tH1", "XN--LS8H\tH2", "Haus", "xn--strae-oqa", "xn--zzzz", "xn--u-ccb")
# What they stand for by RFC 3492, in label order: `xn--zzzz` for itself, since it can't be decoded.
LABELS = {"haus": None, "ss--a": "H1", "straße": None, "u\u0308": None, "xn--zzzz": None, "\U0001F4A9": "H2"}
DUMPED = "haus\nss--a\tH1\nstraße\nxn--u-ccb\nxn--zzzz\nxn--ls8h\tH2\n"


def load_old(place: Place, *names: str) -> None:
    """Registers names of a zone."""
    place.write("names.txt", "".join(f"{name}\n" for name in names))
    done = place.run("load", "--old", "names.txt")
    assert done.returncode == 0, done


def told(place: Place, *words: str) -> list[dict[str, Any]]:
    """The objects of a run."""
    return [json.loads(line) for line in place.run(words[0], "--json", *words[1:]).stdout.splitlines()]


def groups_in(objects: list[dict[str, Any]]) -> list[list[str]]:
    """The groups of labels that collide."""
    return [[label["ulabel"] for label in each["collide"]] for each in objects if "collide" in each]


def test_loads_and_writes_names_of_a_zone(kind: Place) -> None:
    """Without --old nothing is loaded. What is written can be loaded again, and is the same."""
    kind.write("names.txt", "".join(f"{name}\n" for name in NAMES))
    done = kind.run("load", "names.txt")
    assert done.stdout.decode().splitlines() == [
        "names.txt: line 1: 13 hyphen out of place: U+002D at place 3",
        "names.txt: line 2: 10 disallowed code point: U+0058 at place 1 (RFC 5892 2.2)",
        "names.txt: line 3: 10 disallowed code point: U+0048 at place 1 (RFC 5892 2.2)",
        "names.txt: line 5: 19 not an A-label (RFC 3492 6.2)",
        "names.txt: line 6: 12 not in NFC: decoded: U+0075 at place 1",
        "6 lines, 0 loaded, 5 refused"] and done.returncode == 1, done
    kind.expect(["load", "--old", "names.txt"], "6 lines, 6 loaded, 0 refused\n", 0)
    kind.expect(["dump"], DUMPED, 0)
    assert {row["ulabel"]: row["holder"] for row in told(kind, "dump")} == LABELS
    assert [row["alabel"] for row in told(kind, "dump")] == [old_labels.name_of(label) for label in LABELS]
    kind.write("dumped.txt", DUMPED)
    kind.expect(["load", "--old", "dumped.txt"], "6 lines, 0 loaded, 0 refused, 6 known already\n", 0)
    for released in (LABELS, [line.partition("\t")[0] for line in DUMPED.splitlines()]):
        with kind.zone() as zone:
            answers = [zone.release(label) for label in released]
        assert [(each.status, each.ulabel) for each in answers] == [(Status.RELEASED, label) for label in LABELS], answers
        kind.expect(["load", "--old", "dumped.txt"], "6 lines, 6 loaded, 0 refused\n", 0)
        kind.expect(["dump"], DUMPED, 0)


def test_releases_by_a_name_old_labels_alone(place: Place) -> None:
    """The name may have capitals. A label of today isn't released by a name that may not be registered, nor what is free."""
    load_old(place, "haus", "xn--ls8h")
    place.expect(["release", "XN--LS8H", "xn--ls8h", "Haus", "XN--HAUS-", "ab--c"],
                 "XN--LS8H: released\n"
                 "xn--ls8h: refused: 10 disallowed code point: decoded: U+1F4A9 at place 1 (RFC 5892 2.1)\n"
                 "Haus: refused: 10 disallowed code point: U+0048 at place 1 (RFC 5892 2.2)\n"
                 "XN--HAUS-: refused: 10 disallowed code point: U+0058 at place 1 (RFC 5892 2.2)\n"
                 "ab--c: refused: 13 hyphen out of place: U+002D at place 3\n", 1)
    place.expect(["dump"], "haus\n", 0)


def test_releases_what_stands_there_before_what_it_names(place: Place) -> None:
    """Only other means register a name beside the label that it stands for."""
    set_register(place, ["xn--ls8h", "\U0001F4A9"])
    for ulabel in ("xn--ls8h", "\U0001F4A9"):
        assert told(place, "release", "xn--ls8h") == [{"label": "xn--ls8h", "status": "released", "ulabel": ulabel}]
    assert place.run("release", "xn--ls8h").returncode == 1


def test_refuses_what_is_no_name_of_a_zone(place: Place) -> None:
    """And one that stands for a control character, which no register takes."""
    place.write("names.txt", "ab--c\na_b\n\U0001F4A9\n\nxn--a\nStraße\nAB--C\n" + "i" * 64 + "\n")
    refused = ["line 2: 10 disallowed code point: U+005F at place 2 (RFC 5892 2.1)",
               "line 3: 10 disallowed code point: U+1F4A9 at place 1 (RFC 5892 2.1)", "line 4: 3 empty",
               "line 5: control character: U+0080 at place 1",
               "line 6: 10 disallowed code point: U+0053 at place 1 (RFC 5892 2.2)", "line 8: 18 label too long"]
    lines = "".join(f"names.txt: {each}\n" for each in refused)
    place.expect(["load", "--old", "names.txt"], lines + "8 lines, 0 loaded, 6 refused, 1 known already\n", 1)
    place.expect(["dump"], "", 0)
    place.expect(["load", "--old", "--rest", "names.txt"], lines + "8 lines, 1 loaded, 6 refused, 1 known already\n", 1)
    place.expect(["dump"], "ab--c\n", 0)


def test_goes_on_with_no_part_that_was_read_otherwise(place: Place, monkeypatch: pytest.MonkeyPatch) -> None:
    """What was kept of a load without --old has refusals of labels that are taken with it."""
    place.write("names.txt", "ab--c\n")
    monkeypatch.setattr(Kept, "__exit__", lambda *_: None)
    assert place.run("load", "names.txt").returncode == 1
    done = place.run("load", "--old", "--resume", "names.txt")
    assert done.returncode == 75 and b"leave out --resume" in done.stderr, done
    place.expect(["load", "--old", "names.txt"], "1 line, 1 loaded, 0 refused\n", 0)


def drawn_names(chance: random.Random) -> list[str]:
    """Names of a zone, and some that are none."""
    names = []
    for _ in range(150):
        letters = chance.choice(["ab-", "abß-", "aé中", "a\U0001F4A9\u0301", "abAB_-"])
        label = "".join(chance.choices(letters, k=chance.randint(1, 9)))
        names += [label, old_labels.name_of(label), "XN--" + "".join(chance.choices("abkz09-", k=chance.randint(0, 9)))]
    return names


def test_takes_names_as_another_program(place: Place) -> None:
    """Punycode is Python's own. What may be registered today is the program's answer."""
    names = drawn_names(random.Random("names"))
    asked = [*names, *(name.lower() for name in names)]
    done = subprocess.run([PROGRAM, "--register", "--json"], input="".join(f"{name}\n" for name in asked).encode(),
                          capture_output=True, timeout=LIMIT)
    answers = [json.loads(line) for line in done.stdout.splitlines()]
    registered_as = dict(zip(asked, (each["refusal"]["number"] if "refusal" in each else each["alabel"] for each in answers),
                             strict=True))
    lines = [old_labels.zone_line(name, registered_as.__getitem__) for name in names]
    controlled = {number for number, line in enumerate(lines, 1) if re.search("[\x80-\x9f]", str(line))}
    place.write("names.txt", "".join(f"{name}\n" for name in names))
    found = told(place, "load", "--old", "--rest", "names.txt")
    refused = {number: line for number, line in enumerate(lines, 1) if isinstance(line, int)}
    numbers = {each["line"]: each["refusal"].get("number") for each in found[:-1]}
    assert numbers == refused | dict.fromkeys(controlled), found
    labels = {line.removesuffix(old_labels.MARK) for number, line in enumerate(lines, 1)
              if isinstance(line, str) and number not in controlled}
    assert {row["ulabel"] for row in told(place, "dump")} == labels
    again = place.run("dump").stdout
    with sqlite3.connect(place.folder / "register.db") as database:
        database.execute("delete from registered")
    place.write("again.txt", again)
    assert place.run("load", "--old", "again.txt").returncode == 0 and place.run("dump").stdout == again
    assert sum(isinstance(line, str) and line.endswith(old_labels.MARK) for line in lines) > 100


def test_what_collides_with_an_old_label_is_taken(kind: Place) -> None:
    """Its holder may not have it either, and the old label itself stays refused: nothing seems free."""
    load_old(kind, "ss--a\tH1", "xn--ls8h\tH2", "xn--zzzz")
    kind.expect(["check", "ß--a", "ss--a", "xn--zzzz", "xn--ls8h"],
                "ß--a: taken by ss--a, held by H1\nss--a: refused: 13 hyphen out of place: U+002D at place 3\n"
                "xn--zzzz: refused: 19 not an A-label (RFC 3492 6.2)\n"
                "xn--ls8h: refused: 10 disallowed code point: decoded: U+1F4A9 at place 1 (RFC 5892 2.1)\n", 1)
    for job in ("check", "register"):
        kind.expect([job, "--holder", "H1", "ß--a"], "ß--a: taken by ss--a, held by H1\n", 1)
    kind.expect(["audit"], "ss--a, held by H1: no longer valid: 13 hyphen out of place: U+002D at place 3\n"
                "xn--zzzz: no longer valid: 19 not an A-label (RFC 3492 6.2)\n"
                "\U0001F4A9 (xn--ls8h, held by H2): no longer valid: 10 disallowed code point: U+1F4A9 at place 1 "
                "(RFC 5892 2.1)\n3 labels, 3 invalid, 0 groups\n", 1)
    kind.expect(["release", "ss--a"], "ss--a: released\n", 0)
    kind.expect(["register", "--holder", "H3", "ß--a"], "ß--a: registered (xn----a-4ka)\n", 0)
    load_old(kind, "ss--a\tH1")
    assert b"collide: ss--a, held by H1, \xc3\x9f--a (xn----a-4ka, held by H3)\n" in kind.run("audit").stdout


def test_tells_the_name_of_what_is_in_the_way(bare: Place) -> None:
    """Here a label of older rules past ASCII: its name is Python's Punycode."""
    bare.configure()
    name = old_labels.name_of("ßä--b")
    load_old(bare, name)
    [answer] = told(bare, "check", "ssä--b")
    assert (answer["status"], answer["taken_by"]) == ("taken", [{"ulabel": "ßä--b", "alabel": name, "holder": None}])


def collide(table: Sets, one: str, other: str) -> bool:
    """Whether one arises from the other."""
    return other in spelled(table, one) or one in spelled(table, other)


def drawn_register(chance: random.Random) -> list[str]:
    """Labels of letters and hyphens, of which some may not be registered today."""
    labels = {"".join(chance.choices("abß-", k=chance.randint(1, 5))) for _ in range(60)}
    return sorted(label for label in labels if is_registrable(label) or old_labels.old_fault(label) is None)


@pytest.mark.parametrize("seed", range(8))
def test_finds_old_labels_as_sets_have_them(place: Place, seed: int) -> None:
    """Beside brute force, under two random tables with gaps: by a check, by an audit, and by a change of one into the other."""
    chance = random.Random(5891 + seed)
    labels = drawn_register(chance)
    tables = [with_gaps(random_table(chance, "abß-", 2), chance, 0.7) for _ in range(2)]
    for name, table in zip(("one.txt", "two.txt"), tables, strict=True):
        place.write(name, written(table, chance))
    pairs = []
    set_register(place, labels)
    for name, table in zip(("one.txt", "two.txt"), tables, strict=True):
        place.configure(own=name)
        valid = [label for label in labels if is_registrable(label) and spelled(table, label)]
        pairs.append({(min(one, other), max(one, other)) for one in valid for other in labels
                      if one != other and collide(table, one, other)})
        found = told(place, "audit")
        assert [each["ulabel"] for each in found if "refusal" in each] == [each for each in labels if each not in valid]
        assert groups_in(found) == groups_of(pairs[-1]), (table, labels)
        check_each(place, table, labels)
    assert any(not all(map(is_registrable, pair)) for each in pairs for pair in each), pairs
    place.configure(own="one.txt")
    assert groups_in(told(place, "change", "own=two.txt")) == groups_of(pairs[1] - pairs[0])


def check_each(place: Place, table: Sets, labels: list[str]) -> None:
    """Whether labels are available, those of the register among them."""
    asked = [*labels, "ab", "bß", "a-b", "ß--a", "b--a"]
    for label, answer in zip(asked, told(place, "check", "--", *asked), strict=True):
        taken = [each for each in labels if collide(table, label, each)]
        admitted = is_registrable(label) and bool(spelled(table, label))
        status = "refused" if not admitted else "taken" if taken else "available"
        found = [each["ulabel"] for each in answer.get("taken_by", [])]
        assert (answer["status"], found) == (status, taken if status == "taken" else []), (table, label)


def test_audit_tells_what_no_load_takes(place: Place) -> None:
    """Written into the register by other means: what stands for another label, and what has a mark of its own."""
    set_register(place, ["-A", "-a", "-a\told", "Maus", "faß", "xn--fa-hia", "xn--ls8h"])
    place.expect(["audit"], "-A: no longer valid: 10 disallowed code point: U+0041 at place 2 (RFC 5892 2.2)\n"
                 "-a: no longer valid: 13 hyphen out of place: U+002D at place 1\n"
                 "-a\\told: no longer valid: 10 disallowed code point: U+0009 at place 3 (RFC 5892 2.3)\n"
                 "Maus: no longer valid: 10 disallowed code point: U+004D at place 1 (RFC 5892 2.2)\n"
                 "xn--fa-hia: no longer valid: it stands for faß\n"
                 "xn--ls8h: no longer valid: 10 disallowed code point: decoded: U+1F4A9 at place 1 (RFC 5892 2.1)\n"
                 "7 labels, 6 invalid, 0 groups\n", 1)
