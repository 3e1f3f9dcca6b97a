"""Tables that are published as XML read back to the same tables: those of the repository, and drawn ones."""

import os
import sys
from pathlib import Path

from conftest import PROGRAM, ROOT

sys.path.append(str(ROOT / "conformance"))

import published  # noqa: E402

from idn2_registry.program import Program  # noqa: E402

DRAWN = 100


def test_reads_back_to_the_same_tables(tmp_path: Path) -> None:
    program = Program(PROGRAM)
    found = {name: published.Publishing(program, tmp_path).outcome(text) for name, text in published.examples()}
    # The class of its rule `joiner` has none of the file's code points, so nothing matches the rule. XML has no such rule.
    assert "XML can't say it: look-behind" in found.pop("tests/rulesets/many-features.xml"), found
    assert set(found.values()) == {published.IDENTICAL, published.SAME} and len(found) > 11, found


def test_reads_back_to_the_same_tables_that_are_drawn() -> None:
    found = list(published.outcomes(Program(PROGRAM), 62, DRAWN, os.cpu_count() or 1))
    said = [outcome for outcome in found if outcome in (published.IDENTICAL, published.SAME)]
    assert len(found) == DRAWN and len(said) > DRAWN * 0.6, sorted(found)
