"""What tables are as XML of RFC 7940 and in the lines of RFC 4290: each expected text is by those standards."""

import os
import re
import xml.etree.ElementTree

import pytest
from conftest import TABLES, Place

from idn2_registry import publish_xml

META = 'version = "1"\ndate = 2026-11-28\nlanguage = ["de"]\nscope = ["example"]\n'
NAMESPACE = "{urn:ietf:params:xml:ns:lgr-1.0}"

SHARP = """<?xml version="1.0" encoding="UTF-8"?>
<lgr xmlns="urn:ietf:params:xml:ns:lgr-1.0">
 <meta>
  <version>1</version>
  <date>2026-11-28</date>
  <language>de</language>
  <scope type="domain">example</scope>
  <unicode-version>18.0.0</unicode-version>
 </meta>
 <data>
  <char cp="002D" not-when="edge"/>
  <range first-cp="0061" last-cp="007A"/>
  <char cp="0073 0073">
   <var cp="00DF"/>
  </char>
  <char cp="00DF">
   <var cp="0073 0073" type="blocked" when="edge"/>
  </char>
 </data>
 <rules>
  <rule name="edge">
   <choice>
    <rule>
     <look-behind>
      <start/>
     </look-behind>
     <anchor/>
    </rule>
    <rule>
     <anchor/>
     <look-ahead>
      <end/>
     </look-ahead>
    </rule>
   </choice>
  </rule>
 </rules>
</lgr>
"""

# Lines of version 3 after its entries, and what stands in 'data' and 'rules'. The entries are a to e.
CHARS = '<range first-cp="0061" last-cp="0065"/>'
PARTS = [
    ("0066|!0061", CHARS + '<char cp="0066"><var cp="0061" type="blocked"/></char>', ""),
    # A source that no label has: by the default actions (7.6).
    ("!0066|!0061", CHARS + '<char cp="0066"><var cp="0066" type="invalid"/><var cp="0061" type="blocked"/></char>', ""),
    ("%set s 0061 0063..0065\n%rule r @s? (0061 / 0062 0063)* _ .\n0066 when r",
     CHARS + '<char cp="0066" when="r"/>',
     '<class name="s">0061 0063-0065</class><rule name="r"><look-behind><class by-ref="s" count="0:1"/><choice count="0+">'
     '<char cp="0061"/><rule><char cp="0062"/><char cp="0063"/></rule></choice></look-behind><anchor/><look-ahead><any/>'
     "</look-ahead></rule>"),
    ("%rule end _ $\n0066|0061 when end:!0061 unless end",
     CHARS + '<char cp="0066"><var cp="0061" when="end"/><var cp="0061" type="blocked" not-when="end"/></char>',
     '<rule name="end"><anchor/><look-ahead><end/></look-ahead></rule>'),
    ("%rule anywhere _ / 0061 _\n0066 when anywhere",
     CHARS + '<char cp="0066" when="anywhere"/>',
     '<rule name="anywhere"><choice><rule><anchor/></rule><rule><look-behind><char cp="0061"/></look-behind><anchor/></rule>'
     "</choice></rule>"),
    ("%never ^ 0061 $ / (0062 0063)?0064*0065\n%always 0061",
     CHARS,
     '<rule name="demand-1"><choice><rule><start/><char cp="0061"/><end/></rule><rule><rule count="0:1"><char cp="0062"/>'
     '<char cp="0063"/></rule><char cp="0064" count="0+"/><char cp="0065"/></rule></choice></rule><rule name="demand-2">'
     '<char cp="0061"/></rule><action disp="invalid" match="demand-1"/><action disp="invalid" not-match="demand-2"/>'),
    ("%whole w 0061 . $\n0066 unless w|0061 as valid when w",
     CHARS + '<char cp="0066" not-when="w"><var cp="0061" type="valid" when="w"/></char>',
     '<rule name="w"><char cp="0061"/><any/><end/></rule>'),
    ("%type simp\n%type r_simp\n%type trad\n%whole w 0061 / 0062\n%action allocatable only simp,r_simp\n"
     "%action blocked unless w any simp,trad\n%action invalid when w all trad\n%action valid\n"
     "0066 as r_simp|0067 as trad\n0067|0066 as simp",
     CHARS + '<char cp="0066"><var cp="0066" type="r_simp"/><var cp="0067" type="trad"/></char>'
     '<char cp="0067"><var cp="0066" type="simp"/></char>',
     '<rule name="w"><choice><char cp="0061"/><char cp="0062"/></choice></rule>'
     '<action disp="allocatable" only-variants="simp r_simp"/><action disp="blocked" not-match="w" any-variant="simp trad"/>'
     '<action disp="invalid" match="w" all-variants="trad"/><action disp="valid"/>'),
    # A variant that isn't made of sources is in no label (8.3).
    ("0066|!0430", CHARS + '<char cp="0066"><var cp="0430" type="blocked"/></char>', ""),
    # One label in two ways (8.4).
    ("%rule p 0061 _\n%rule q 0062 _\n0066|0061 when p:!0061 when q", CHARS + '<char cp="0066"><var cp="0061" when="p"/>'
     '<var cp="0061" type="blocked" when="q"/></char>',
     "".join(f'<rule name="{name}"><look-behind><char cp="{cp}"/></look-behind><anchor/></rule>'
             for name, cp in (("p", "0061"), ("q", "0062")))),
]

# Lines of version 3 with what XML can't say, or can't read back, and the message after the name of the file.
REFUSED = [
    ("%rule r 0061 ^ _\n0061\n0066 when r", "line 2: XML can't say it: look-behind: not what the schema has in it, or in "
     "another order"),
    ("%rule r (^)? 0061 _\n0061\n0066 when r", "line 2: XML can't say it: start: the attribute 'count' can't stand here"),
]


def flat(text: str) -> str:
    """XML without what stands between elements."""
    return "".join(line.strip() for line in text.splitlines())


def published(place: Place, text: str, form: str = "xml") -> tuple[str, str, int]:
    """The output, the message and the status."""
    place.write("table.txt", text)
    done = place.run("publish", "table.txt", "--as", form)
    return done.stdout.decode(), done.stderr.decode(), done.returncode


@pytest.fixture
def with_meta(bare: Place) -> Place:
    """A folder with the metadata of a table."""
    bare.write("table.toml", META)
    return bare


def test_publishes_a_ruleset_with_its_metadata(with_meta: Place) -> None:
    lines = "%version 3\n%rule edge ^ _ / _ $\n002D unless edge\n0061..007A\n0073-0073|00DF\n00DF|!0073-0073 when edge\n"
    assert published(with_meta, lines) == (SHARP, "", 0)


@pytest.mark.parametrize(("lines", "data", "rules"), PARTS)
def test_says_each_part_as_the_standard_has_it(with_meta: Place, lines: str, data: str, rules: str) -> None:
    definitions = [line for line in lines.split("\n") if line.startswith("%")]
    entries = [line for line in lines.split("\n") if not line.startswith("%")]
    text, told, status = published(with_meta, "\n".join(["%version 3", *definitions, "0061..0065", *entries, ""]))
    rules = f"<rules>{rules}</rules>" if rules else ""
    assert (flat(text).partition("</meta>")[2], told, status) == (f"<data>{data}</data>{rules}</lgr>", "", 0)


def test_publishes_tables_of_versions_1_and_2(with_meta: Place) -> None:
    """A variant without a mark is allocatable."""
    for version, mark, kind in (("", "", "allocatable"), ("%version 2\n", "!", "blocked"), ("%version 2\n", "", "allocatable")):
        text, told, status = published(with_meta, f"{version}0061|{mark}0062\n0062|{mark}0061\n")
        wanted = "".join(f'<char cp="{one}"><var cp="{other}" type="{kind}"/></char>' for one, other in
                         (("0061", "0062"), ("0062", "0061")))
        assert (flat(text).partition("</meta>")[2], told, status) == (f"<data>{wanted}</data></lgr>", "", 0)


def test_says_no_table_that_cuts_labels_otherwise(with_meta: Place) -> None:
    """By RFC 7940 a label has the longest entry at each place, as under version 3; before it any way to cut a label will do.
    And a variant is made of entries, of which under version 3 those are that aren't."""
    lines = "0061\n0061-0062\n0062-0063\n"
    message = ("XML can't say it: label 0061-0062-0063: accepted, and by RFC 7940 refused: it can be cut into entries, but not "
               "by the longest at each place (8.1)")
    for version in ("", "%version 2\n"):
        assert published(with_meta, version + lines) == ("", f"idn2-registry: table.txt: {message}\n", 1)
    assert published(with_meta, "%version 3\n" + lines)[1:] == ("", 0)
    message = "line 1: by RFC 7940 no label has the variant 0067, since no entry has 0067"
    assert published(with_meta, "0066|0067\n") == ("", f"idn2-registry: table.txt: {message}\n", 1)


@pytest.mark.parametrize(("lines", "message"), REFUSED)
def test_refuses_what_xml_cannot_say(with_meta: Place, lines: str, message: str) -> None:
    """By one line, and nothing is printed."""
    found = published(with_meta, f"%version 3\n{lines}\n")
    assert found == ("", f"idn2-registry: table.txt: {message}\n", 1)


@pytest.mark.parametrize(("owner", "name", "wrong"), [
    (publish_xml, "condition", lambda mapped: {}),
    (publish_xml, "demands", lambda parsed: iter(())),
    (publish_xml, "variants", lambda entry, untyped: iter(())),
    (publish_xml, "context_parts", lambda before, after: iter([publish_xml.Element("anchor")])),
    (publish_xml, "branch_parts", lambda items: publish_xml.item_parts(items[0])),
    (publish_xml, "actions", lambda parsed: iter(())),
    (publish_xml, "ASKS", {"any": "all-variants", "all": "any-variant", "only": "all-variants"}),
    (publish_xml, "MATCHES", {"when": "not-match", "unless": "match"}),
])
def test_prints_nothing_that_says_something_else(with_meta: Place, monkeypatch: pytest.MonkeyPatch, owner: object, name: str,
                                                 wrong: object) -> None:
    """Of a writer that is wrong in one thing. This table has all that it writes."""
    lines = ("%version 3\n%type s\n%type t\n%rule end _ 0063? $\n%whole w 0061\n%never 0061 0062\n"
             "%action blocked when w any s\n%action blocked all t\n0061..0062\n0063 unless end|!0061\n!0065|!0061\n"
             "0066 as s|0067 as t:!0061\n0067 as t|0066 as s\n")
    assert published(with_meta, lines)[2] == 0
    monkeypatch.setattr(owner, name, wrong)
    text, told, status = published(with_meta, lines)
    assert (text, status, told.count("\n")) == ("", 1, 1) and "XML can't say it" in told, (text, told)


def test_takes_a_table_by_its_name_and_metadata_from_elsewhere(place: Place) -> None:
    place.write("meta.toml", META)
    done = place.run("publish", "de", "--as", "xml", "--meta", "meta.toml")
    assert done.returncode == 0 and b'<char cp="00DF">\n   <var cp="0073 0073" type="allocatable"/>' in done.stdout, done


def test_writes_all_metadata(bare: Place) -> None:
    bare.write("table.toml", 'version = "2"\ndate = "2026-11-28"\nlanguage = ["de", "und-Latn"]\nscope = ["example", "."]\n'
               'validity-start = 2026-12-01\nvalidity-end = 2027-12-01\nunicode-version = "17.0.0"\n'
               'description = "Letters & \\"digits\\" < 10\\nof German"\n'
               '[references]\n0 = "The Unicode Standard"\nRFC5892 = "RFC 5892"\n')
    text, told, status = published(bare, "0061\n")
    root = xml.etree.ElementTree.fromstring(text)
    found = [(each.tag.removeprefix(NAMESPACE), each.attrib, each.text) for each in root[0].iter()][1:]
    assert (told, status) == ("", 0) and found == [
        ("version", {}, "2"), ("date", {}, "2026-11-28"), ("language", {}, "de"), ("language", {}, "und-Latn"),
        ("scope", {"type": "domain"}, "example"), ("scope", {"type": "domain"}, "."), ("validity-start", {}, "2026-12-01"),
        ("validity-end", {}, "2027-12-01"), ("unicode-version", {}, "17.0.0"),
        ("description", {}, 'Letters & "digits" < 10\nof German'), ("references", {}, "\n   "),
        ("reference", {"id": "0"}, "The Unicode Standard"), ("reference", {"id": "RFC5892"}, "RFC 5892")]


@pytest.mark.parametrize(("change", "message"), [
    (("version = \"1\"\n", ""), "line 3: version: IANA wants it, and it is missing"),
    (("2026-11-28", '"2026-11-31"'), "line 2: date: write a date"),
    (('["de"]', '"Deutsch!"'), "line 3: language: write a language"),
    (('["de"]', "[]"), "line 3: language: write a language"),
    (('["example"]', '["EXAMPLE"]'), "line 4: scope: write a zone"),
    (("version", "versoin"), "line 1: versoin: nothing has this name"),
    (("scope", 'description = "a\\u0001"\nscope'), "line 4: description: no XML can have U+0001"),
    (("scope", "validity-end = 2026-01-01\nscope"), "line 4: validity-end: it is before the validity begins"),
    (("scope", "scope = 1\nscope"), "line 5: Cannot overwrite a value"),
])
def test_names_what_is_wrong_with_metadata(bare: Place, change: tuple[str, str], message: str) -> None:
    bare.write("table.toml", META.replace(*change))
    text, told, status = published(bare, "0061\n")
    assert (text, status, told.count("\n")) == ("", 75, 1) and f"table.toml: {message}" in told, told


def test_wants_metadata_for_xml_alone(bare: Place) -> None:
    text, told, status = published(bare, "0061\n")
    assert (text, status) == ("", 75) and "table.toml: no such file: write the metadata that IANA wants" in told, told
    assert published(bare, "0061\n", "rfc4290") == ("U+0061\n", "", 0)


def test_publishes_the_lines_of_rfc_4290(with_meta: Place) -> None:
    """The code points and variants; no comment tells more than the metadata, and the one disposition of all."""
    head = "# version: 1\n# date: 2026-11-28\n# language: de\n# scope: example\n# unicode-version: 18.0.0\n"
    found = published(with_meta, "%version 2\n0061..0062\n0063|!00E7:!0061-0062\n00E7\n", "rfc4290")
    lines = "# All variants are blocked.\nU+0061\nU+0062\nU+0063|U+00E7:U+0061-U+0062\nU+00E7\n"
    assert found == (head + lines, "", 0)
    assert published(with_meta, "0061|0062\n0062|0061\n", "rfc4290") == (head + "U+0061|U+0062\nU+0062|U+0061\n", "", 0)
    found = published(with_meta, "%version 3\n0061|0062\n0062|0061\n", "rfc4290")
    assert found == (head + "# All variants are allocatable.\nU+0061|U+0062\nU+0062|U+0061\n", "", 0)


@pytest.mark.parametrize(("lines", "message"), [
    ("%rule r _\n0061 when r", "line 2: RFC 4290 has no rules"),
    ("0061\n%type t\n", "line 3: RFC 4290 has no types"),
    ("0061\n%action blocked any blocked", "line 3: RFC 4290 has no actions"),
    ("%never 0061 0061\n0061", "line 2: RFC 4290 has no demands"),
    ("0061|!0430\n!0430|!0061", "line 3: RFC 4290 has no types of sources"),
    ("0061|!0430", "line 2: RFC 4290 has no variants that no label has"),
    ("0061\n0061-0061", "line 3: RFC 4290 has no sources of several code points"),
    ("0061|!0062\n0062|0061", "line 3: RFC 4290 has no blocked variants beside allocatable ones"),
])
def test_refuses_what_rfc_4290_cannot_say(with_meta: Place, lines: str, message: str) -> None:
    found = published(with_meta, f"%version 3\n{lines}\n", "rfc4290")
    assert found == ("", f"idn2-registry: table.txt: {message}\n", 1)


def test_publishes_no_faulty_table(with_meta: Place) -> None:
    text, told, status = published(with_meta, "0061|\n")
    assert (text, status) == ("", 75) and "table.txt: line 1: 30 table syntax" in told, told
    done = with_meta.run("publish", "none.txt", "--as", "xml")
    assert done.returncode == 75 and b"none.txt: No such file" in done.stderr, done
    assert with_meta.run("publish", str(TABLES / "german.txt")).returncode == 2


def test_publishes_what_the_standard_alone_allows(with_meta: Place) -> None:
    """By the configuration's rules of labels, letters of Adlam may be in a table."""
    with_meta.write("table.txt", "%version 3\n1E922..1E93B\n")
    with_meta.configure('labels = "standard"', own="table.txt")
    done = with_meta.run("publish", "own", "--as", "xml")
    assert done.returncode == 0 and b'<range first-cp="1E922" last-cp="1E93B"/>' in done.stdout, done
    with_meta.configure(own="table.txt")
    done = with_meta.run("publish", "own", "--as", "xml")
    assert done.returncode == 75 and b"table.txt: line 2: 33 code point not allowed in a table" in done.stderr, done


def test_takes_files_whose_names_are_not_utf8(bare: Place) -> None:
    name = os.fsdecode(b"\xff.txt")
    bare.write(name, "0061|0062\n0062|0061\n")
    bare.write(os.fsdecode(b"\xff.toml"), META)
    for words in (["publish", name, "--as", "xml"], ["publish", name, "--as", "rfc4290"], ["compare", name, name],
                  ["join", name]):
        done = bare.run(*words)
        assert (done.stderr, done.returncode) == (b"", 0) and done.stdout, done
    done = bare.run("compare", name, os.fsdecode(b"\xfe.txt"))
    assert done.returncode == 75 and b"\\xfe.txt: No such file or directory: name a table" in done.stderr, done


def test_publishes_the_page_of_a_table_as_one_file(bare: Place) -> None:
    """With all that it shows in itself, and without metadata."""
    text, told, status = published(bare, "%version 2\n0061|!0430\n0430|!0061\n0062..0064\n", "html")
    assert (told, status) == ("", 0) and text.startswith("<!DOCTYPE html>") and "CYRILLIC SMALL LETTER A" in text
    assert "<style>" in text and not re.search(r"(href|src)=\"[^#]", text), text
