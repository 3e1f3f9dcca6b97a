"""What two tables say otherwise."""

import json

import pytest
from conftest import TABLES, Place

ONE = ("%version 3\n%set d 0030..0039\n%rule edge ^ _ / _ $\n%never @d @d\n002D unless edge\n0030..0039\n0061|!0430\n0062\n"
       "!0430|!0061\n")
# Two tables, the relation, and the lines that tell the differences.
ROWS = [
    (ONE, ONE, "identical", []),
    # Names, order, spelling, and definitions that nothing names say nothing.
    (ONE, "%version 3\n%set x 0066\n%set all 0030..0034 0035..0039\n%rule r ^ _ / _ $\n%rule idle _\n%never @all @all\n"
     "!0430|!0061\nU+0061|!0430\n0030..0039\n0062\n2D unless r\n".replace("\n2D", "\n002D"), "identical", []),
    # A mark is a type.
    (ONE, ONE.replace("!0430|!0061", "0430 as invalid|0061 as blocked"), "identical", []),
    ("0061\n0062\n", "%version 2\n0061..0062\n", "identical", []),
    ("0061..0063\n".replace("0061..0063", "0061\n0062\n0063"), "%version 2\n0061..0062\n", "contained",
     ["code point U+0063: only in one.txt"]),
    ("%version 2\n0061|0062\n0062|0061\n0063..0065\n", "%version 2\n0061|!0062\n0062|0061\n0065..0067\n", "overlapping",
     ["code point U+0063..U+0064: only in one.txt", "code point U+0066..U+0067: only in two.txt",
      "variant 0061|0062: in one.txt allocatable, in two.txt blocked"]),
    ("0061\n", "%version 3\n%type t\n%type u\n%action blocked any t\n0062 as t|0063:0064 as u\n!0063\n", "apart",
     ["code point U+0061: only in one.txt", "code point U+0062: only in two.txt: as t",
      "code point U+0063: only in two.txt: as invalid", "variant 0062|0063: only in two.txt: allocatable",
      "variant 0062|0064: only in two.txt: as u", "action 1: only in two.txt: blocked any t"]),
    # A rule of an action by what it says, in the place of the action.
    ("%version 3\n%whole r 0061\n%action blocked when r\n%action valid\n0061\n",
     "%version 3\n%set s 0061\n%whole x @s\n%action valid\n0061\n%action blocked when x\n", "overlapping",
     ["action 1: in one.txt blocked when r, in two.txt valid", "action 2: in one.txt valid, in two.txt blocked when r"]),
    ("%version 3\n%rule r ^ _\n%rule s 0061 _\n0061\n0062 when r|0061 when s\n0061-0062\n",
     "%version 3\n%rule r ^ _ / _ $\n%always 0061 / 0062\n0061\n0062 when r|0061\n", "overlapping",
     ["sequence 0061-0062: only in one.txt", "variant 0062|0061: in one.txt allocatable when s, in two.txt allocatable",
      "rule r: in one.txt ^ _, in two.txt ^ _ / _ $", "rule s: only in one.txt: 0061 _",
      "demand %always 0061 / 0062: only in two.txt"]),
    ("%version 3\n%rule r ^ _\n0061 unless r\n", "%version 3\n%rule r ^ _\n0061\n%set d 0061\n%never @d\n", "overlapping",
     ["code point U+0061: in one.txt unless r, in two.txt without a condition", "rule r: only in one.txt: ^ _",
      "demand %never 0061: only in two.txt"]),
]


@pytest.mark.parametrize(("one", "two", "relation", "lines"), ROWS)
def test_tells_what_is_said_otherwise(bare: Place, one: str, two: str, relation: str, lines: list[str]) -> None:
    bare.write("one.txt", one)
    bare.write("two.txt", two)
    count = f"{len(lines)} difference{'' if len(lines) == 1 else 's'}"
    told = "".join(f"{line}\n" for line in [*lines, f"one.txt and two.txt: {relation}, {count}"])
    bare.expect(["compare", "one.txt", "two.txt"], told, 1 if lines else 0)
    # From the other side it is the same relation.
    assert json.loads(bare.run("compare", "--json", "two.txt", "one.txt").stdout.splitlines()[-1]) == {
        "tables": ["two.txt", "one.txt"], "relation": relation, "differences": len(lines)}


def test_tells_objects(place: Place) -> None:
    place.write("new.txt", "%version 2\n0061..0062\n0073-0073|!00DF\n00DF|0073-0073\n0073\n")
    done = place.run("compare", "--json", "de", "new.txt")
    told = [json.loads(line) for line in done.stdout.splitlines()]
    last = {"tables": ["de", "new.txt"], "relation": "overlapping", "differences": len(told) - 1}
    assert done.returncode == 1 and told[-1] == last
    assert {"kind": "variant", "subject": "0073-0073|00DF", "only_in": None, "said": ["allocatable", "blocked"]} in told
    assert {"kind": "code point", "subject": "U+0063..U+0072", "only_in": "de", "said": ["", None]} in told


def test_cuts_large_sets_for_people(bare: Place) -> None:
    """Of a set a line has the first eight spans; the object has all."""
    points = [f"{point:04X}" for point in range(0x4E00, 0x4E00 + 2 * 500, 2)]
    base = "%version 3\n0061\n"
    bare.write("one.txt", base + f"%set s {' '.join(points[:8])}\n%set t {' '.join(points[:9])}\n%never @s @t\n")
    bare.write("two.txt", base + "".join(f"%set s{start} {' '.join(points[start:start + 100])}\n%whole r{start} @s{start}\n"
                                         f"%action blocked when r{start}\n" for start in range(0, 500, 100)))
    first = " ".join(points[:8])
    lines = bare.run("compare", "one.txt", "two.txt").stdout.decode().splitlines()
    assert f"demand %never [{first}] [{first} and 1 more span]: only in one.txt" in lines, lines
    assert f"rule r0: only in two.txt: [{first} and 92 more spans]" in lines and max(map(len, lines)) < 200, lines
    told = [json.loads(line) for line in bare.run("compare", "--json", "one.txt", "two.txt").stdout.splitlines()]
    assert {"kind": "rule", "subject": "r0", "only_in": "two.txt", "said": [None, f"[{' '.join(points[:100])}]"]} in told
    assert {"kind": "demand", "subject": f"%never [{first}] [{' '.join(points[:9])}]", "only_in": "one.txt",
            "said": ["", None]} in told


def test_compares_no_faulty_table(bare: Place) -> None:
    bare.write("one.txt", "0061\n")
    bare.write("two.txt", "0061|\n")
    bare.expect(["compare", "one.txt", "two.txt"], "", 75, "two.txt: line 1: 30 table syntax")
    bare.expect(["compare", str(TABLES / "german.txt"), str(TABLES / "german.txt")],
                f"{TABLES}/german.txt and {TABLES}/german.txt: identical, 0 differences\n", 0)
