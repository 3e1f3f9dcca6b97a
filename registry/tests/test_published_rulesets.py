"""A published ruleset in XML is a table as it is: the program reads it, and Python what the program prints of it."""

import pickle

import pytest
from conftest import PROGRAM, TABLES, Place

from idn2_registry.join import lacking
from idn2_registry.program import Program
from idn2_registry.tables import read_table

# A name that the notation doesn't have, a code point that no label can have, and a type of its own.
PUBLISHED = """<?xml version="1.0"?>
<lgr xmlns="urn:ietf:params:xml:ns:lgr-1.0">
<meta><version>1</version><date>2026-11-28</date></meta>
<data>
<char cp="0041"/>
<range first-cp="0061" last-cp="007A"/>
<char cp="0073 0073"><var cp="00DF" type="blocked"/></char>
<char cp="00DF" not-when="at-start"><var cp="0073 0073" type="simp"/></char>
</data>
<rules>
<rule name="at-start"><look-behind><start/></look-behind><anchor/></rule>
<action disp="blocked" any-variant="blocked"/>
<action disp="allocatable" any-variant="simp"/>
</rules>
</lgr>
"""
# The same, written by hand.
WRITTEN = ("%version 3\n%type simp\n%rule start ^ _\n%action blocked any blocked\n%action allocatable any simp\n0061..007A\n"
           "0073-0073|!00DF\n00DF unless start|0073-0073 as simp\n")


@pytest.fixture
def published(bare: Place) -> Place:
    """A zone with a published ruleset, in which a label is registered."""
    bare.write("latin.xml", PUBLISHED)
    bare.configure(latin="latin.xml")
    bare.load("strasse\tH1")
    return bare


def test_a_published_ruleset_is_a_table(published: Place) -> None:
    done = published.run("check-config")
    assert done.stdout.startswith(b"latin.xml: latin: 28 entries, 0 gaps\n") and done.returncode == 0, done
    published.expect(["variants", "straße"], "straße: latin\n  strasse  strasse  allocatable\n  "
                     "straße  xn--strae-oqa  allocatable\n", 0)
    published.expect(["check", "--holder", "H2", "straße", "ßa", "maus"], "straße: taken by strasse, held by H1\n"
                     "ßa: refused: 41 not valid under the table: U+00DF at place 1 (rule_1)\n"
                     "maus: available (maus)\n", 1)
    published.expect(["audit"], "1 label, 0 invalid, 0 groups\n", 0)


def test_a_published_ruleset_is_compared_by_what_it_says(published: Place) -> None:
    published.write("written.txt", WRITTEN)
    published.expect(["compare", "latin", "written.txt"], "latin and written.txt: identical, 0 differences\n", 0)
    published.expect(["change", "latin=written.txt"], "1 label, 0 changes, 0 groups\n", 0)
    published.write("written.txt", WRITTEN.replace("0061..007A", "0061..0079"))
    published.expect(["compare", "latin", "written.txt"], "code point U+007A: only in latin\n"
                     "latin and written.txt: contained, 1 difference\n", 1)


def test_a_published_ruleset_is_joined_and_shown(published: Place) -> None:
    """A pair of it is named by the line that the program prints."""
    published.write("alike.txt", "%version 2\n0061|!0430\n0430|!0061\n")
    done = published.run("join", "latin", "alike.txt")
    assert done.returncode == 0 and b"0061|!0430\n" in done.stdout and b"00DF|!0073-0073\n" in done.stdout, done
    printed = read_table("latin", published.folder / "latin.xml", Program(PROGRAM)).text.decode()
    line = printed.splitlines().index("0073-0073|!00DF") + 1
    published.write("german.txt", (TABLES / "german.txt").read_bytes())
    done = published.run("join", "latin", "german.txt")
    told = f"latin.xml, as --print-ruleset prints it: line {line}: 0073-0073|00DF is blocked, and in german.txt: line "
    assert done.returncode == 75 and told in done.stderr.decode(), done
    done = published.run("publish", "latin", "--as", "html")
    assert done.returncode == 0 and b"28 entries of a ruleset" in done.stdout, done


def test_a_published_ruleset_is_published_by_what_it_says(published: Place) -> None:
    published.write("latin.toml", 'version = "1"\ndate = 2026-11-28\nlanguage = "de"\nscope = "example"\n')
    again = published.run("publish", "latin", "--as", "xml")
    assert again.returncode == 0 and b'<char cp="00DF" not-when="rule_1">' in again.stdout, again
    published.write("again.xml", again.stdout)
    published.expect(["compare", "latin", "again.xml"], "latin and again.xml: identical, 0 differences\n", 0)
    done = published.run("publish", "latin", "--as", "rfc4290")
    told = "latin.xml, as --print-ruleset prints it: line 2: RFC 4290 has no types\n"
    assert done.returncode == 1 and told in done.stderr.decode(), done


@pytest.mark.parametrize("before", ["\ufeff", "\n\t ", "\ufeff\r\n"])
def test_reads_what_the_program_takes_for_xml(bare: Place, before: str) -> None:
    bare.write("latin.xml", before + PUBLISHED.removeprefix('<?xml version="1.0"?>\n'))
    bare.configure(latin="latin.xml")
    bare.load("maus")
    bare.expect(["tables-of", "haus"], "haus: latin\n", 0)


@pytest.mark.parametrize(("old", "new", "line", "told"), [
    ('<char cp="0041"/>', '<char cp="41"/>', 5, "30 table syntax"),
    ("<?xml", "<!DOCTYPE lgr>\n<?xml", 1, "30 table syntax"),
    ('type="simp"/>', 'cp="0061"/>', 8, "30 table syntax"),
    ('<char cp="0041"/>', '<char cp="0061"/>', 6, "31 source given twice"),
    ("at-start\"><var", "at-end\"><var", 8, "35 name not defined"),
    ('disp="allocatable"', 'disp="granted"', 13, "37 not supported"),
])
def test_names_the_line_of_a_faulty_ruleset(bare: Place, old: str, new: str, line: int, told: str) -> None:
    bare.write("latin.xml", PUBLISHED.replace(old, new))
    bare.configure(latin="latin.xml")
    done = bare.run("check-config")
    assert f"latin.xml: line {line}: {told}: mend it (RFC 7940)\n" in done.stdout.decode(), done
    bare.expect(["variants", "haus"], "", 75, f"latin.xml: line {line}: {told}")


def test_a_table_is_handed_to_other_processes_with_what_was_printed(published: Place) -> None:
    table = read_table("latin", published.folder / "latin.xml", Program(PROGRAM))
    copy = pickle.loads(pickle.dumps(table))
    assert (copy, copy.text) == (table, table.text) and table.text.startswith(b"%version 3\n"), table
    assert lacking(copy, [table, copy]) is None
