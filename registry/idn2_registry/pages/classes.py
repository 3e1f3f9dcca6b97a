"""What the program says of one code point."""

import functools
from dataclasses import dataclass

from ..answers import Refusal, bytes_of
from ..decisions import REGISTER
from ..processes import Pool, Questions, only
from ..together import alone

DISALLOWED, UNASSIGNED, JOINER, CONTEXT = 10, 11, 15, 16
# Two kinds of digits, which no label mixes: a code point that is one of them is refused before them.
BEFORE_DIGITS = "\u0660\u06f0"


@dataclass(frozen=True)
class Class:
    """The class that RFC 5892 gives to a code point, with the rule by which it isn't allowed, or not everywhere."""

    name: str
    meaning: str
    rule: str = ""


class Classes:
    """Asks the program, once for each code point."""

    def __init__(self, pool: Pool) -> None:
        self._pool = pool
        self.of = functools.cache(self._of)

    def _refusal(self, label: str) -> Refusal | None:
        told = only(alone(Questions(self._pool).ask(REGISTER, bytes_of(label))), "alabel")
        return Refusal.read(told["refusal"]) if "refusal" in told else None

    def _of(self, point: int) -> Class:
        """The class of a code point."""
        text = chr(point)
        refusal = Refusal.of_control_character(text) or self._refusal(text)
        number = refusal.number if refusal else 0
        rule = str(refusal.details.get("rule", "")) if refusal else ""
        if number is None or number == DISALLOWED:
            return Class("DISALLOWED", "not allowed", rule)
        if number == UNASSIGNED:
            return Class("UNASSIGNED", "not allowed")
        if number == JOINER:
            return Class("CONTEXTJ", "allowed in some contexts", rule)
        if number == CONTEXT:
            return Class("CONTEXTO", "allowed in some contexts", rule)
        beside = self._refusal(text + BEFORE_DIGITS)
        if beside and beside.number == CONTEXT and beside.details.get("place") == 1:
            return Class("CONTEXTO", "allowed in some contexts", str(beside.details.get("rule", "")))
        return Class("PVALID", "allowed")
