"""Where what the program lists under a table or a ruleset is something else than what a file in XML says: of each line that it
lists, and of each variant that it should list, the evaluator tells what is right. What RFC 5891 refuses is left out on
both sides."""

import dataclasses
import enum
import itertools
import re
import subprocess
import tempfile
from collections.abc import Iterable, Iterator, Mapping, Sequence

from .drawn_labels import DrawnLabels
from .ruleset import Asked, Ruleset, Verdict

# So many labels are asked about in one run, so many lines of each are listed, so many labels looked at for that, and
# so many variants of each drawn.
IN_A_RUN, MOST_LINES, MOST_TRIES, DRAWN_VARIANTS = 4_096, 100, 100_000, 40
REFUSED, ACCEPTED, ALLOCATABLE = "refused", "accepted", Verdict.ALLOCATABLE.value
# A line of a listing. Under a table of version 1, which nothing can be blocked in, it has no disposition.
LISTED = re.compile(r"([^\t]+)\t[^\t]+(?:\t(allocatable|blocked))?")


class Unanswered(Exception):
    """The program didn't answer as a run ends."""


class Kind(enum.Enum):
    """How an answer differs; LONGEST and UNCLEAR come before the others."""
    LONGEST = "it can be cut into entries, but not by the longest at each place (8.1)"
    UNCLEAR = "it arises in several ways, with types that differ (8.4)"
    LABEL = "one accepts the label, the other refuses it"
    OWN = "the label itself has another disposition"
    MISSING = "it should be listed"
    LISTED = "it shouldn't be listed"
    DISPOSITION = "it has another disposition"


@dataclasses.dataclass(frozen=True)
class Difference:
    """Of a label, or of one variant of it: what the program says, and what the standard."""
    kind: Kind
    label: str
    variant: str
    program: str
    standard: str

    def __str__(self) -> str:
        about = f"label {spelled(self.label)}"
        about += f", variant {spelled(self.variant)}" if self.variant != self.label else ""
        return f"{about}: {self.program}, and by RFC 7940 {self.standard}: {self.kind.value}"


def spelled(label: str) -> str:
    return "-".join(f"{ord(point):04X}" for point in label)


@dataclasses.dataclass(frozen=True)
class Block:
    """The variants that the program lists of a label; all up to `last`, if that isn't None."""
    dispositions: Mapping[str, str]
    last: str | None

    def reaches(self, variant: str) -> bool:
        return self.last is None or variant <= self.last


def differences(program: Sequence[str], mode: str, text: bytes, ruleset: Ruleset,
                labels: Iterable[str]) -> Iterator[Difference]:
    """Where what the program lists of labels, by the option `mode` and this text, differs from what the ruleset of a
    file says, label by label. `program` has the words of each run, its path first."""
    drawn = DrawnLabels(ruleset)
    with tempfile.NamedTemporaryFile(suffix=".txt") as file:
        file.write(text)
        file.flush()
        rest = iter(labels)
        while some := list(itertools.islice(rest, IN_A_RUN)):
            some = registrable(program, some)
            # To its end, where it tells whether the program lists more.
            found = dict(zip(some, answers([*program, mode, file.name], some), strict=True))
            asked = {label: Asked(ruleset, label) for label in some}
            for label, block in found.items():
                yield from of_block(asked[label], block) if block else of_refused(asked[label])
            blocks = {label: block for label, block in found.items() if block}
            yield from missing(program, drawn, asked, blocks)


def labels_for(ruleset: Ruleset, registered: Iterable[str]) -> Iterator[str]:
    """The labels of a registry, A-labels as U-labels, and drawn ones; each once."""
    return iter(dict.fromkeys([*map(u_label, registered), *DrawnLabels(ruleset).labels()]))


def u_label(label: str) -> str:
    try:
        return label[4:].encode("ascii").decode("punycode") if label.startswith("xn--") else label
    except UnicodeError:
        return label


# ---- The program

def run(words: Sequence[str], labels: list[str]) -> tuple[str, set[int]]:
    """The output, and the number of each line that is refused."""
    given = "".join(f"{label}\n" for label in labels).encode()
    done = subprocess.run(words, input=given, capture_output=True, check=False)
    messages = [re.fullmatch(r"idn2: line (\d+): \d+ .*", line) for line in done.stderr.decode().split("\n")[:-1]]
    refused = {int(found[1]) for found in messages if found}
    if None in messages or done.returncode != (1 if refused else 0):
        raise Unanswered(f"{words[0]} ended with {done.returncode}: {done.stderr.decode()[:200].strip()}")
    return done.stdout.decode(), refused


def registrable(program: Sequence[str], labels: Iterable[str]) -> list[str]:
    """Those that RFC 5891 lets be registered. None is a line of its own with an end of a line in it, or read as an
    A-label."""
    lines = [label for label in labels if label and not {"\n", "\r"} & set(label) and label[2:4] != "--"]
    refused = run([*program, "--register"], lines)[1]
    return [label for number, label in enumerate(lines, 1) if number not in refused]


def answers(words: Sequence[str], labels: list[str]) -> Iterator[Block | None]:
    """The block of each label; None if it is refused."""
    output, refused = run([*words, "--limit", str(MOST_LINES), "--tries", str(MOST_TRIES)], labels)
    lines = iter(output.split("\n")[:-1])
    for number in range(1, len(labels) + 1):
        yield None if number in refused else block_of(lines)
    if next(lines, None) is not None:
        raise Unanswered(f"{words[0]} lists more than it was asked")


def block_of(lines: Iterator[str]) -> Block:
    dispositions: dict[str, str] = {}
    for line in lines:
        words = line.split(" ")
        if words[0] in ("#end", "#stop"):
            return Block(dispositions, words[2] if words[0] == "#stop" else None)
        found = LISTED.fullmatch(line)
        if found is None:
            raise Unanswered(f"it lists {line!r}")
        dispositions[found[1]] = found[2] or ALLOCATABLE
    raise Unanswered("a block has no end")


# ---- The comparison

def of_refused(asked: Asked) -> Iterator[Difference]:
    """Of a label that the program refuses."""
    if asked.is_valid:
        yield Difference(Kind.LABEL, asked.label, asked.label, REFUSED, ACCEPTED)


def of_block(asked: Asked, block: Block) -> Iterator[Difference]:
    """Of a label that the program lists, and of each of its lines."""
    if not asked.is_valid:
        kind = Kind.UNCLEAR if asked.own_verdict is Verdict.UNCLEAR else Kind.LABEL
        kind = Kind.LONGEST if is_cut_otherwise(asked.ruleset, asked.label) else kind
        yield Difference(kind, asked.label, asked.label, ACCEPTED, REFUSED)
        return
    for variant, disposition in block.dispositions.items():
        verdict = asked.verdict(variant)
        if verdict is Verdict.ABSENT:
            kind = Kind.LONGEST if is_cut_otherwise(asked.ruleset, variant) else Kind.LISTED
        elif verdict is Verdict.UNCLEAR:
            kind = Kind.UNCLEAR
        else:
            kind = Kind.OWN if variant == asked.label else Kind.DISPOSITION
        if disposition != (Verdict.BLOCKED if verdict is Verdict.UNCLEAR else verdict).value:
            yield Difference(kind, asked.label, variant, disposition, verdict.value)


def is_cut_otherwise(ruleset: Ruleset, label: str) -> bool:
    return not ruleset.is_eligible(label) and ruleset.is_cut(label)


def missing(program: Sequence[str], drawn: DrawnLabels, asked: Mapping[str, Asked],
            blocks: Mapping[str, Block]) -> Iterator[Difference]:
    """Drawn variants of the labels that should be listed, and aren't."""
    lost: dict[tuple[str, str], Verdict] = {}
    for label, block in blocks.items():
        for variant in drawn.variants_of(asked[label], DRAWN_VARIANTS) if asked[label].is_valid else ():
            verdict = Verdict.ABSENT
            if variant not in block.dispositions and block.reaches(variant):
                verdict = asked[label].verdict(variant)
            if verdict is not Verdict.ABSENT:
                lost[label, variant] = verdict
    known = set(registrable(program, sorted({variant for _, variant in lost})))
    for (label, variant), verdict in lost.items():
        if variant in known:
            kind = Kind.UNCLEAR if verdict is Verdict.UNCLEAR else Kind.MISSING
            yield Difference(kind, label, variant, "not listed", verdict.value)
