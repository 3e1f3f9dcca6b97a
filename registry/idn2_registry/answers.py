"""What is said of a label: the objects of the commands and of the library."""

import math
import re
from collections.abc import Mapping
from dataclasses import dataclass, field, replace
from enum import Enum
from typing import Any

from .faults import Fault, Unusable

Object = dict[str, Any]
CONTROL_CHARACTER = re.compile(r"[\x00-\x1f\x7f-\x9f]")
# Refusals by a table: a label that isn't made of its entries, and one that is, but isn't valid.
NOT_MADE, NOT_VALID = 40, 41


class Status(Enum):
    """What the answer is; each has one exit status."""

    AVAILABLE = "available"
    REGISTERED = "registered"
    RELEASED = "released"
    FREE = "free"
    LISTED = "listed"
    ADMITTED = "admitted"
    REFUSED = "refused"
    TAKEN = "taken"
    UNKNOWN = "unknown"


class ExitStatus(Enum):
    """Whether the answer was yes to all labels, no to some, or not known for some."""

    YES = 0
    NO = 1
    NOT_KNOWN = 75

    @classmethod
    def of(cls, status: Status) -> "ExitStatus":
        """The exit status of one answer."""
        if status is Status.UNKNOWN:
            return cls.NOT_KNOWN
        return cls.NO if status in (Status.REFUSED, Status.TAKEN, Status.FREE) else cls.YES

    def joined(self, other: "ExitStatus") -> "ExitStatus":
        """The exit status of several answers: the one that says least."""
        return self if self.value >= other.value else other


@dataclass(frozen=True)
class RegisteredLabel:
    """A label of the register, with its holder where one was given."""

    ulabel: str
    alabel: str
    holder: str | None = None

    def object(self) -> Object:
        """The object that says it."""
        return {"ulabel": self.ulabel, "alabel": self.alabel, "holder": self.holder}


@dataclass(frozen=True)
class Variant:
    """A variant of a label; the disposition is None under a table of version 1."""

    ulabel: str
    alabel: str
    disposition: str | None

    def object(self) -> Object:
        """The object that says it, as the program does."""
        told = {"ulabel": self.ulabel, "alabel": self.alabel}
        return told if self.disposition is None else {**told, "disposition": self.disposition}


@dataclass(frozen=True)
class Refusal:
    """Why a label is refused: the number and the text of the program's message, and the members of its cause
    (docs/JSON.md). A control character has no number, since such a label isn't sent."""

    number: int | None
    text: str
    details: Mapping[str, Any] = field(default_factory=dict)

    @classmethod
    def read(cls, told: Mapping[str, Any]) -> "Refusal":
        """The refusal that an object says."""
        details = {name: value for name, value in told.items() if name not in ("number", "text")}
        return cls(told.get("number"), told["text"], details)

    @classmethod
    def of_control_character(cls, label: str) -> "Refusal | None":
        """The refusal of a label with a control character, if it has one."""
        found = CONTROL_CHARACTER.search(label)
        if found is None:
            return None
        details = {"code_point": f"U+{ord(found[0]):04X}", "place": found.start() + 1}
        return cls(None, "control character", details)

    def object(self) -> Object:
        """The object that says it."""
        number = {} if self.number is None else {"number": self.number}
        return {**number, "text": self.text, **self.details}

    def __str__(self) -> str:
        """The refusal in words."""
        words = self.text if self.number is None else f"{self.number} {self.text}"
        told = self.details
        where = str(told["code_point"]) if "code_point" in told else ""
        if "place" in told:
            where += f" at place {told['place']}"
        # Of an A-label it is a place in what that stands for.
        words += ": decoded" if "decoded" in told else ""
        words += f": {where.strip()}" if where else ""
        return f"{words} ({told['rule']})" if "rule" in told else words


def furthest_first(refusals: Mapping[str, Refusal]) -> dict[str, Refusal]:
    """Why tables refuse a label, by their names. First comes what says most of the label: that it isn't valid, though it is
    made of entries; then the refusal whose place is the furthest. A broken demand, which has no place, is found after all
    places. Tables that say as much stay in their order."""
    def order(each: tuple[str, Refusal]) -> tuple[bool, float]:
        return each[1].number != NOT_VALID, -each[1].details.get("place", math.inf)

    return dict(sorted(refusals.items(), key=order))


@dataclass(frozen=True)
class Answer:
    """What is said of one label. Only members that its status has are told.

    `reason` says why an answer isn't known, `told` what of that is told over HTTP, and `lasts` whether it stays so
    until an operator mends something. `after` is where a listing that isn't `complete` goes on."""

    label: str
    status: Status
    ulabel: str | None = None
    alabel: str | None = None
    tables: tuple[str, ...] | None = None
    refusal: Refusal | None = None
    taken_by: tuple[RegisteredLabel, ...] = ()
    table: str | None = None
    variants: tuple[Variant, ...] | None = None
    after: str | None = None
    reason: str | None = None
    told: str | None = None
    lasts: bool = False

    @classmethod
    def unknown(cls, label: str, fault: Fault) -> "Answer":
        """What is said of a label where something went wrong."""
        return cls(label, Status.UNKNOWN, reason=str(fault), told=fault.told, lasts=isinstance(fault, Unusable))

    @property
    def public(self) -> "Answer":
        """The answer as it is told over HTTP, where its reason names nothing of the operator's."""
        return self if self.told is None else replace(self, reason=self.told)

    @property
    def complete(self) -> bool:
        """Whether the variants are all variants after the text that was asked for."""
        return self.variants is not None and self.after is None

    def object(self) -> Object:
        """The object that says it, one line of `--json`."""
        told: Object = {**label_member(self.label), "status": self.status.value}
        plain = {"ulabel": self.ulabel, "alabel": self.alabel, "tables": self.tables, "refusal": self.refusal,
                 "taken_by": self.taken_by or None, "table": self.table, "variants": self.variants}
        told |= {name: plain_value(value) for name, value in plain.items() if value is not None}
        if self.variants is not None:
            told |= {"complete": self.complete} | ({} if self.after is None else {"after": self.after})
        return told if self.reason is None else {**told, "reason": self.reason}


def plain_value(value: Any) -> Any:
    """A value as JSON has it."""
    if isinstance(value, tuple):
        return [plain_value(part) for part in value]
    return value.object() if hasattr(value, "object") else value


def bytes_of(label: str) -> bytes:
    """The bytes of a label as they were given; no UTF-8 for what is no text, so that the program refuses it."""
    try:
        return label.encode("utf-8", "surrogateescape")
    except UnicodeEncodeError:
        return label.encode("utf-8", "surrogatepass")


def label_member(label: str) -> Object:
    """The label as it was given; in hexadecimal digits if it isn't UTF-8."""
    try:
        label.encode()
    except UnicodeEncodeError:
        return {"label_hex": bytes_of(label).hex().upper()}
    return {"label": label}
