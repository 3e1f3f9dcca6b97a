#!/usr/bin/env python3
"""Publishes tables as XML by idn2-registry and reads them back:
python3 conformance/published.py [--idn2 PROGRAM] [--seed SEED] [--jobs JOBS] [N]

N tables [default: 6000] are drawn from a seed, rulesets and tables of the notation (drawn_rulesets.py). Before them come all
tables of tables/ and the rulesets in XML of tests/. The program has to read what is published back to the same table, or the
table is refused by a line that names why:

    identical    what is read back says the same of each thing, as idn2-registry compare tells it
    the same     else: what is read back is published and read back identically, and the program lists the same under both, of
                 labels that are drawn from the XML; groups of a pattern go, and so do code points of sets that no label has.
                 Where what is read back has a pattern that nothing matches, or a count over the start or the end of a label, it
                 isn't published again, since XML has no such rule

The counts are printed, and of the refusals those by each reason. Status 1 where anything else comes out."""

import collections
import functools
import itertools
import multiprocessing
import pathlib
import random
import re
import sys
import tempfile
from collections.abc import Iterator

ROOT = pathlib.Path(__file__).resolve().parent.parent
for folder in ("conformance", "registry"):
    sys.path.append(str(ROOT / folder))

from drawn_rulesets import DrawnRuleset, spelled, tell_counts, words_of_drawing

from idn2_registry.compare import Comparison, Relation
from idn2_registry.faults import Unsayable, Unusable
from idn2_registry.form import Form
from idn2_registry.parsed_table import ParsedTable
from idn2_registry.program import Program
from idn2_registry.publish import publish, read_back
from idn2_registry.rfc7940 import reader
from idn2_registry.rfc7940.drawn_labels import DrawnLabels
from idn2_registry.tables import Table, checked

PROGRAM = ROOT / "crates/idn2/out/idn2"
META = 'version = "1"\ndate = 2026-11-28\nlanguage = "und"\nscope = "example"\n'
ALPHABETS = ("abcd", "sß", "abß-", "qa\u0301", "\u05d0\u05d1", "中国國", "lа·l", "\u0915\u094d\u200d", "\u0627\u200c\u0647")
IDENTICAL, SAME = "identical", "the same"
# What nothing matches, before an anchor and after it, and the one other reason why what is read back isn't said.
NOTHING = (b". ^", b"$ .")
COUNTED_SIGN = "rule: a count, and a start, end or anchor in it"


class Drawn:
    """Tables that are drawn, each by its number."""

    def __init__(self, seed: int) -> None:
        self.seed = seed

    def text(self, number: int) -> bytes:
        """The text of one."""
        chance = random.Random(f"{self.seed} {number}")
        letters = chance.choice(ALPHABETS)
        entries = self.entries(chance, letters)
        if number % 2:
            invalid = {source for source in list(entries)[1:] if chance.random() < 0.3}
            return "\n".join(["%version 3", *DrawnRuleset(chance, letters, entries, invalid).lines]).encode()
        version = chance.choice((1, 2))
        marks = ("", "!") if version == 2 else ("",)
        lines = ["%version 2"] if version == 2 else []
        for source, variants in entries.items():
            marked = ":".join(chance.choice(marks) + spelled(variant) for variant in variants)
            lines.append(spelled(source) + ("|" if variants else "") + marked)
        return "\n".join(lines).encode()

    def entries(self, chance: random.Random, letters: str) -> dict[str, list[str]]:
        """Sources with their variants, which mostly have entries of their own."""
        pairs = ["".join(chance.choices(letters, k=2)) for _ in range(chance.choice((0, 0, 1, 2)))]
        sequences = list(dict.fromkeys([*letters, *pairs]))
        entries = {}
        for source in chance.sample(sequences, chance.randint(1, len(sequences))):
            entries[source] = []
        for source in entries:
            others = [each for each in (sequences if chance.random() < 0.1 else entries) if each != source]
            entries[source] = chance.sample(others, min(len(others), chance.choice((0, 1, 1, 2))))
        return entries


def is_identical(one: ParsedTable, other: ParsedTable) -> bool:
    """Whether both say the same of each thing."""
    return Comparison.of(one, other).relation is Relation.IDENTICAL


class Publishing:
    """Publishes tables in a folder, and reads them back."""

    def __init__(self, program: Program, folder: pathlib.Path) -> None:
        self.program, self.path = program, folder / "drawn.txt"
        self.path.with_suffix(".toml").write_text(META, "ascii")

    def outcome(self, text: bytes) -> str:
        """What becomes of a table: IDENTICAL, SAME, or why it is refused. Raises AssertionError for anything else."""
        self.path.write_bytes(text)
        table = checked(Table("drawn", self.path, text), self.program)
        try:
            xml = publish(table, Form.XML, None, self.program)
        except Unsayable as error:
            assert "\n" not in str(error), error
            return str(error)
        parsed = ParsedTable.read(table)
        back = read_back(xml, parsed, self.program)
        if is_identical(parsed, back):
            return IDENTICAL
        try:
            again = publish(back.table, Form.XML, None, self.program)
        except Unsayable as error:
            is_none_of_xml = any(map(back.table.text.__contains__, NOTHING)) or str(error).endswith(COUNTED_SIGN)
            assert is_none_of_xml, (text, back.table.text, error)
        else:
            assert is_identical(back, read_back(again, back, self.program)), (text, back.table.text)
        labels = [label for label in DrawnLabels(reader.read(xml)).labels() if label[2:4] != "--" and "\n" not in label]
        one, other = (self.listed(each, labels, table.version > 1) for each in (table, back.table))
        assert one == other, (text, back.table.text)
        return SAME

    def listed(self, table: Table, labels: list[str], has_dispositions: bool) -> tuple[bytes, list[int]]:
        """What the program lists, with dispositions or without, and the numbers of the labels that it refuses."""
        given = "".join(f"{label}\n" for label in labels).encode()
        output, refused = self.program.plain(table.listing("--limit", "100", "--tries", "10000"), given, [table.held.descriptor])
        return output if has_dispositions else re.sub(rb"\t(allocatable|blocked)$", b"", output, flags=re.MULTILINE), refused


def examples() -> Iterator[tuple[str, bytes]]:
    """The tables of the repository, and the rulesets of the tests."""
    for path in sorted([*(ROOT / "tables").glob("**/*.txt"), *(ROOT / "tests/rulesets").glob("*.xml")]):
        yield str(path.relative_to(ROOT)), path.read_bytes()


def reason_of(outcome: str) -> str:
    """A reason without what it is about."""
    reason = re.sub(r"^.*?: (line \d+: )?", "", outcome)
    reason = re.sub(r"\b[0-9A-F]{4,6}(-[0-9A-F]{4,6})*\b|'[^']*'", "..", reason)
    return re.sub(r"label .*?: (.*), and by", r"label: \1, and by", reason)


def outcome_of_drawn(program: Program, seed: int, number: int) -> str | None:
    """What becomes of a drawn table; None if it is none. What should not be is told with its number."""
    text = Drawn(seed).text(number)
    with tempfile.TemporaryDirectory() as folder:
        try:
            return Publishing(program, pathlib.Path(folder)).outcome(text)
        except Unusable:
            return None
        except AssertionError as error:
            raise AssertionError(f"number {number}: {error}") from error


def outcomes(program: Program, seed: int, count: int, jobs: int) -> Iterator[str]:
    """Those of so many drawn tables."""
    with multiprocessing.Pool(jobs) as pool:
        each = pool.imap(functools.partial(outcome_of_drawn, program, seed), itertools.count(), chunksize=4)
        for number, outcome in enumerate(itertools.islice(filter(None, each), count), 1):
            yield outcome
            if number % 500 == 0:
                print(f"{number} of {count}", file=sys.stderr, flush=True)


def counted(program: Program, seed: int, count: int, jobs: int) -> collections.Counter[str]:
    """What comes of so many drawn tables. What comes of each example is printed before."""
    with tempfile.TemporaryDirectory() as folder:
        for name, text in examples():
            print(f"{name}: {Publishing(program, pathlib.Path(folder)).outcome(text)}", flush=True)
    return collections.Counter(map(reason_of, outcomes(program, seed, count, jobs)))


def main(words: list[str]) -> int:
    options = words_of_drawing("Publishes tables as XML and reads them back.", 62)
    options.add_argument("--idn2", default=str(PROGRAM))
    given = options.parse_args(words)
    return tell_counts(lambda: counted(Program(given.idn2), given.seed, given.count, given.jobs))


if __name__ == "__main__":
    sys.exit(main(sys.argv[1:]))
