"""What an earlier audit found, so that another one tells only what is new."""

import json
from collections.abc import Sequence
from dataclasses import dataclass, field
from typing import Any

from .faults import Unusable

NOT_WHOLE = "not the whole output of an audit --json without --since"


@dataclass(frozen=True)
class Earlier:
    """The labels that were no longer valid, and the groups that collided."""

    invalid: frozenset[str] = frozenset()
    groups: frozenset[frozenset[str]] = field(default_factory=frozenset)

    @classmethod
    def read(cls, path: str | None) -> "Earlier":
        """What a file says, which is the output of `audit --json`; nothing if none is named. Raises Unusable for one that isn't
        whole, since then what it lacks would seem new."""
        if path is None:
            return cls()
        try:
            with open(path, encoding="utf-8") as file:
                told: list[Any] = [json.loads(line) for line in file]
            *findings, end = told
            invalid = frozenset(each["ulabel"] for each in findings if "refusal" in each)
            collisions = (each["collide"] for each in findings if "collide" in each)
            groups = frozenset(frozenset(label["ulabel"] for label in labels) for labels in collisions)
            is_whole = "new" not in end and (len(invalid), len(groups)) == (end["invalid"], end["groups"])
        except OSError as error:
            raise Unusable(f"{path}: {error.strerror}: name the output of an earlier audit --json") from error
        except (ValueError, TypeError, KeyError) as error:
            raise Unusable(f"{path}: {NOT_WHOLE}") from error
        if not is_whole:
            raise Unusable(f"{path}: {NOT_WHOLE}")
        return cls(invalid, groups)

    def knows(self, label: str) -> bool:
        """Whether a label was no longer valid already."""
        return label in self.invalid

    def knows_group(self, group: Sequence[str]) -> bool:
        """Whether these labels collided already, and no other with them."""
        return frozenset(group) in self.groups
