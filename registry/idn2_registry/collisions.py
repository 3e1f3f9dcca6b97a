"""Which registered labels collide with a label. All that asks the program for collisions is here, and
why a table refuses a label, which the same process tells."""

import json
import re
from collections.abc import Sequence
from typing import NamedTuple

from .answers import NOT_MADE, NOT_VALID, Object, Refusal
from .faults import Unknown
from .processes import Asked, Question, Questions, only
from .program import HeldFile
from .register import Row, Transaction
from .tables import Table

# What a label is to another one, as the program says it.
NONE, ALLOCATABLE = "none", "allocatable"
REGARDS = {NONE, "variant", "blocked", ALLOCATABLE}
# No label has a greater code point.
LAST = "\U0010FFFF"
# A search for collisions is in two spans for so many turns, and then in about so many at once.
WHOLE_TURNS, MOST_SPANS = 1, 16


class Near(NamedTuple):
    """A label that may collide with the one that is asked about: what it is to that one, and that one to it."""

    label: str
    there: str
    back: str

    @property
    def collides(self) -> bool:
        """Whether one is something to the other."""
        return (self.there, self.back) != (NONE, NONE)


class Span(NamedTuple):
    """The texts from one on, and before another one if there is one."""

    start: str
    end: str | None = None

    def has(self, text: str) -> bool:
        """Whether a text from its start on is in it."""
        return self.end is None or text < self.end

    def parts(self, label: str) -> list["Span"]:
        """It alone; or in two, if a place of a label cuts it: the texts that begin as the label up to the first such place, and
        the rest. More parts would take fewer turns, but most of them are asked about in vain."""
        for place in range(1, len(label)):
            cut = label[:place] + LAST
            if self.start < cut and self.has(cut):
                return [Span(self.start, cut), Span(cut, self.end)]
        return [self]


def refusal_in(told: Sequence[Object]) -> Refusal | None:
    """Why a table refuses a label that may be registered; None if it admits it."""
    answer = only(told, "ulabel")
    if "refusal" not in answer:
        return None
    refusal = Refusal.read(answer["refusal"])
    if refusal.number not in (NOT_MADE, NOT_VALID):
        raise Unknown(f"the program gave another answer than it should: {refusal}")
    return refusal


class Collisions:
    """Collisions under one table, whichever of two labels is a variant of the other."""

    def __init__(self, table: Table) -> None:
        self._table = table
        self._jump = Question(tuple(table.listing("--jump")), (table.held,))

    async def of(self, label: str, transaction: Transaction, questions: Questions) -> list[Row]:
        """The registered labels that collide with a label, in label order, each with its holder; itself among them.
        Raises Unknown if the table refuses the label."""
        found: list[Row] = []
        # The first row at or after each text that was asked for.
        known: dict[str, Row | None] = {}
        # What is near lies mostly on both sides of the label. From it on the register is asked first, since it is near itself.
        asked, turn = [*await self._near_in_each(label, [Span("", label)], questions), (Span(label), None)], 0
        # The program and the register take turns: each goes on from what the other has, in all spans at once.
        while asked:
            texts = [near.label if near else span.start for span, near in asked]
            new = [text for text in texts if text not in known]
            known.update(zip(new, await transaction.first_from_each(new), strict=True))
            turn += 1
            spans: list[Span] = []
            for (span, near), text in zip(asked, texts, strict=True):
                row = known[text]
                if row is None or not span.has(row[0]):
                    continue
                start = row[0]
                known[start] = row
                if near and near.label == start:
                    found += [row] if near.collides else []
                    # The least text above it.
                    start += "\0"
                left = Span(start, span.end)
                # Most searches end before that, and what is asked of each part would be asked in vain.
                spans += left.parts(text) if turn > WHOLE_TURNS and len(spans) < MOST_SPANS else [left]
            asked = await self._near_in_each(label, spans, questions)
        return sorted(found)

    def asked_of(self, label: str) -> Asked:
        """What is asked to know whether the table refuses a label; and first in a search for what it collides with."""
        return self._jump, label.encode()

    def asked_between(self, label: str, registered: str) -> Asked:
        """What is asked to know what a label and a registered one are to each other."""
        return self._asked(label, [Span(registered)])[0]

    def is_offered(self, told: Sequence[Object], registered: str) -> bool:
        """Whether the holder of a registered label may have the other one, too: it is one of its allocatable variants."""
        near = self._near(only(told, "ulabel"), registered)
        return near is not None and (near.label, near.back) == (registered, ALLOCATABLE)

    def _asked(self, label: str, spans: Sequence[Span]) -> list[Asked]:
        return [(self._jump, (f"{label}\t{span.start}" if span.start else label).encode()) for span in spans]

    async def _near_in_each(self, label: str, spans: Sequence[Span],
                            questions: Questions) -> list[tuple[Span, Near | None]]:
        """The first label that may collide in each of some spans, where there is one."""
        told = await questions.ask_all(self._asked(label, spans))
        found = ((span, self._near(only(objects, "ulabel"), span.start)) for span, objects in zip(spans, told, strict=True))
        return [(span, near) for span, near in found if near is not None and span.has(near.label)]

    def _near(self, answer: Object, text: str) -> Near | None:
        """The first label at or after a text that may collide, as the program tells it."""
        if "refusal" in answer:
            refusal = answer["refusal"]
            raise Unknown(f"the table {self._table.name} refuses it: {refusal['number']} {refusal['text']}")
        if answer["ulabel"] is None:
            return None
        near = Near(answer["ulabel"], answer.get("there", ""), answer.get("back", ""))
        if not {near.there, near.back} <= REGARDS:
            raise Unknown(f"the program gave another answer than it should: {answer}")
        if near.label < text:
            raise Unknown(f"the program went back: {near.label}")
        return near

    def audit_words(self, registered: HeldFile) -> tuple[list[str], list[int]]:
        """The words and the files of a run that is asked all registered labels, each on a line."""
        words = self._table.listing("--among", registered.path, "--others")
        return words, [self._table.held.descriptor, registered.descriptor]


def pairs_in(output: bytes) -> list[tuple[str, str]]:
    """The pairs that collide, as a run with `audit_words` tells them: a label stands at the end of those that it collides
    with."""
    pairs: list[tuple[str, str]] = []
    others: list[str] = []
    *lines, rest = output.decode().split("\n")
    for line in lines:
        # No label has a number sign.
        if not line.startswith("#"):
            others.append(line.partition("\t")[0])
            continue
        label = line.removeprefix(f"#end {len(others)} ")
        if not others or label in ("", line):
            raise Unknown(f"the program gave another answer than it should: {line}")
        pairs += [(label, other) for other in others]
        others = []
    if others or rest:
        raise Unknown(f"the program gave another answer than it should: {[*others, rest]}")
    return pairs


def refusals_in(output: bytes) -> list[Object]:
    """The objects with refusals, each of a line of the input."""
    refused = []
    for found in re.finditer(rb'"refusal":', output):
        line = output[output.rfind(b"\n", 0, found.start()) + 1:output.find(b"\n", found.end())]
        told = json.loads(line)
        if "refusal" not in told or "line" not in told:
            raise Unknown(f"the program gave another answer than it should: {told}")
        refused.append(told)
    return refused
