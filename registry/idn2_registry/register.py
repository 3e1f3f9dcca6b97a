"""The register: which labels are registered, and who holds them. A register in a file of SQLite is `sqlite.py`, one of
PostgreSQL `postgresql.py`."""

import abc
import re
from collections.abc import Callable, Iterable, Iterator, Sequence
from contextlib import AbstractContextManager
from typing import TypeVar

from .answers import CONTROL_CHARACTER
from .configuration import Configuration
from .faults import Unknown, Unusable
from .together import Ask

Result = TypeVar("Result")
Row = tuple[str, str | None]
MOST_POINTS = 63
MISSING = "there is no register: idn2-registry load FILE makes it, and load /dev/null an empty one"
NO_HOLDERS = "its table registered has no column holder: alter table registered add column holder text"
# A control character, or a surrogate, which is no character.
NO_HOLDER = re.compile(rf"{CONTROL_CHARACTER.pattern}|[\ud800-\udfff]")


class Transaction(abc.ABC):
    """What can be done in one transaction."""

    async def first_from_each(self, texts: Sequence[str]) -> list[Row | None]:
        """The first registered label at or after each of some texts, in label order, with its holder."""
        return await Ask(self.first_rows, texts)

    @abc.abstractmethod
    def first_rows(self, texts: Sequence[str]) -> list[Row | None]:
        """The same, asked at once."""

    @abc.abstractmethod
    def insert(self, label: str, holder: str | None) -> None:
        """Registers a label that isn't registered."""

    @abc.abstractmethod
    def delete(self, label: str) -> bool:
        """Releases a label; False if it wasn't registered."""


class Register(abc.ABC):
    """A register. Each call raises Unusable where it can't be used at all, and Unknown where it failed this time."""

    def __init__(self, place: str, name: str) -> None:
        # Where the configuration names it, and where it is, as an operator is told.
        self.name = f"{place}: {name}"

    def unusable(self, words: str) -> Unusable:
        """Why it can't be used."""
        return Unusable(f"{self.name}: {words}")

    def unknown(self, words: str) -> Unknown:
        """Why it failed."""
        return Unknown(f"{self.name}: {words}", "the register gave no answer")

    @abc.abstractmethod
    def reading(self) -> AbstractContextManager[Transaction]:
        """A transaction that sees one state of the register."""

    @abc.abstractmethod
    def change(self, job: Callable[[Transaction], Result]) -> Result:
        """What a job gives in a transaction that is as if no other ran beside it. The job may be run several times; what the
        last run did is there when this returns, and nothing of it if it raises."""

    @abc.abstractmethod
    def rows(self) -> Iterator[Row]:
        """All labels with their holders in label order, of one state of the register."""

    def texts(self) -> tuple[bytes, bytes]:
        """All labels in label order, each on a line; and those that have a holder, each with it after a tab. Of one state."""
        rows = list(self.rows())
        holders = (f"{label}\t{holder}" for label, holder in rows if holder is not None)
        return text_of(label for label, _ in rows), text_of(holders)

    @abc.abstractmethod
    def load(self, rows: Iterable[Row]) -> None:
        """Adds labels, all or none, to a register that is made if there is none. Raises Unusable if one is registered."""

    @abc.abstractmethod
    def is_made(self) -> bool:
        """Whether there is a register, of which this only is asked if it must not be."""

    @abc.abstractmethod
    def where(self) -> str:
        """Where it is, without any password."""

    @abc.abstractmethod
    def faults(self) -> list[str]:
        """What it lacks, each with its remedy."""

    @abc.abstractmethod
    def close(self) -> None:
        """Closes its connections."""


def open_register(configuration: Configuration, must_be: bool = True) -> Register:
    """The register of a configuration. Raises Unusable if it can't be used, and also if there is none and it must be."""
    kind, _, rest = configuration.register.partition(":")
    place, seconds = configuration.file.place("register"), configuration.limits.seconds
    if kind == "sqlite":
        from .sqlite import SqliteRegister

        return SqliteRegister(place, rest, seconds, must_be)
    try:
        from .postgresql import PostgresqlRegister
    except Unusable as error:
        raise configuration.file.fault("register", str(error)) from error
    try:
        return PostgresqlRegister(place, configuration.register, seconds, must_be)
    except ValueError as error:
        raise configuration.file.fault("register", f"{error}: write a URI as libpq takes it") from error


def text_of(lines: Iterable[str]) -> bytes:
    """Lines as one text. Raises Unusable for what is more than a line."""
    each = list(lines)
    return checked_lines("\n".join([*each, ""]).encode(), len(each))


def checked_lines(text: bytes, count: int) -> bytes:
    """The text, which has so many lines. Raises Unusable if it hasn't: in it is what a label or a holder can't have."""
    if text.count(b"\n") != count:
        raise Unusable("the register has a label or a holder with a line feed: release it by the means of its database")
    return text


def checked_row(label: object, holder: str | None, text: str) -> Row:
    """A row that the register gave as the first at or after a text. Raises Unknown if it has no label, or one that is
    out of order."""
    if not isinstance(label, str) or len(label) > MOST_POINTS or CONTROL_CHARACTER.search(label):
        raise Unknown(f"the register has what is no label: {label!r}")
    if label < text:
        raise Unknown(f"the register is not in the order of UTF-8: {label} comes after {text}")
    return label, holder


def checked_holder(holder: str | None) -> str | None:
    """A holder that can be stored. Raises ValueError for one that is empty, has a control character or isn't Unicode."""
    if holder is not None and (not holder or NO_HOLDER.search(holder)):
        raise ValueError("a holder is a text of Unicode without control characters")
    return holder
