"""What a register has, as long work reads it."""

from collections.abc import Iterable
from dataclasses import dataclass
from functools import cached_property

from .answers import RegisteredLabel
from .old_labels import name_of
from .program import Program
from .register import Register


@dataclass
class Holdings:
    """The labels of one state of a register, in label order and each on a line, and those of their holders that are known."""

    text: bytes = b""
    held: bytes = b""

    @classmethod
    def read(cls, register: Register) -> "Holdings":
        """All of a register."""
        return cls(*register.texts())

    @cached_property
    def count(self) -> int:
        """How many labels there are."""
        return self.text.count(b"\n")

    @cached_property
    def labels(self) -> list[str]:
        """The labels."""
        return self.text.decode().split("\n")[:-1]

    @cached_property
    def holders(self) -> dict[str, str]:
        """The holders by their labels."""
        pairs = (line.partition("\t") for line in self.held.decode().split("\n")[:-1])
        return {label: holder for label, _, holder in pairs}

    def named(self, labels: Iterable[str], program: Program) -> dict[str, RegisteredLabel]:
        """Labels with their A-labels and holders."""
        wanted = sorted(set(labels))
        told = program.alabels([label.encode() for label in wanted])
        return {label: RegisteredLabel(label, alabel or name_of(label), self.holders.get(label))
                for label, alabel in zip(wanted, told, strict=True)}
