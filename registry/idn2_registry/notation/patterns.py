"""Patterns of code points, and the contexts of a context rule, read from tokens.

A pattern is a tuple of branches, a branch a tuple of items. A context is two branches, which may be empty here: what stands
before the anchor, and what after it.
"""

import dataclasses
import enum
from collections.abc import Iterable

from . import tokens
from .points import point_of
from .ruleset import name_of


class Sign(enum.Enum):
    ANY = "."
    START = "^"
    END = "$"
    ANCHOR = "_"


@dataclasses.dataclass(frozen=True)
class Point:
    point: int


@dataclasses.dataclass(frozen=True)
class Set:
    name: str


@dataclasses.dataclass(frozen=True)
class Group:
    branches: "Pattern"


@dataclasses.dataclass(frozen=True)
class Optional:
    atom: "Item"


@dataclasses.dataclass(frozen=True)
class Many:
    atom: "Item"


Item = Sign | Point | Set | Group | Optional | Many
Branch = tuple[Item, ...]
Pattern = tuple[Branch, ...]
Contexts = tuple[tuple[Branch, Branch], ...]


class NoForm(Exception):
    """The tokens are no pattern."""


@dataclasses.dataclass
class Frame:
    """An open group, or the whole: its branches so far, and the items of the last one. `stars` tells how many '*' are
    within each other at most, `last_stars` that of the last item."""

    branches: list[Branch] = dataclasses.field(default_factory=list)
    items: list[Item] = dataclasses.field(default_factory=list)
    takes_suffix: bool = False
    stars: int = 0
    last_stars: int = 0

    def add(self, item: Item, is_atom: bool = True, stars: int = 0) -> None:
        self.items.append(item)
        self.takes_suffix, self.last_stars = is_atom, stars
        self.stars = max(self.stars, stars)

    def take_suffix(self, kind: type[Optional] | type[Many]) -> None:
        if not self.takes_suffix:
            raise NoForm
        self.add(kind(self.items.pop()), is_atom=False, stars=self.last_stars + (kind is Many))

    def end_branch(self) -> None:
        if not self.items:
            raise NoForm
        self.branches.append(tuple(self.items))
        self.items, self.takes_suffix = [], False


SUFFIXES: dict[bytes, type[Optional] | type[Many]] = {b"?": Optional, b"*": Many}


class PatternReader:
    """Reads a pattern, or the contexts of a context rule: there each branch of the whole has one place. `atoms` are
    counted as the limits of the notation count them, `groups` are those within each other; `names` and `points` stand
    in the pattern."""

    def __init__(self, has_anchors: bool) -> None:
        self.has_anchors, self.has_anchor, self.has_end = has_anchors, False, False
        self.frames = [Frame()]
        self.atoms = self.groups = 0
        self.names: list[str] = []
        self.points: list[int] = []

    def read(self, line_tokens: Iterable[bytes]) -> Pattern:
        """The branches of the whole; or NoForm."""
        for token in line_tokens:
            self.take(token)
        if len(self.frames) > 1:
            raise NoForm
        self.end_branch()
        return tuple(self.frames[0].branches)

    @property
    def stars(self) -> int:
        return self.frames[0].stars

    def take(self, token: bytes) -> None:
        if token in SUFFIXES:
            self.frames[-1].take_suffix(SUFFIXES[token])
        elif token == b"(":
            self.frames.append(Frame())
            self.groups = max(self.groups, len(self.frames) - 1)
        elif token == b")":
            self.close()
        elif token == b"/":
            self.end_branch()
        elif token == b"_":
            self.take_anchor()
        elif token in (b"^", b"$"):
            self.take_edge(Sign(token.decode()))
        else:
            self.frames[-1].add(self.atom_of(token))
            self.atoms += 1

    def atom_of(self, token: bytes) -> Item:
        if token == tokens.ANY:
            return Sign.ANY
        if token.startswith(b"@") and (name := name_of(token[1:])):
            self.names.append(name)
            return Set(name)
        point = point_of(token)
        if point is None:
            raise NoForm
        self.points.append(point)
        return Point(point)

    def close(self) -> None:
        if len(self.frames) == 1:
            raise NoForm
        self.frames[-1].end_branch()
        group = self.frames.pop()
        self.frames[-1].add(Group(tuple(group.branches)), stars=group.stars)
        self.atoms += 1

    def end_branch(self) -> None:
        if len(self.frames) == 1:
            if self.has_anchors and not self.has_anchor:
                raise NoForm
            self.has_anchor = self.has_end = False
        self.frames[-1].end_branch()

    def take_anchor(self) -> None:
        if not self.has_anchors or len(self.frames) > 1 or self.has_anchor or self.has_end:
            raise NoForm
        self.has_anchor = True
        self.frames[-1].add(Sign.ANCHOR, is_atom=False)

    def take_edge(self, sign: Sign) -> None:
        """Nothing is after the end of a label, also no anchor, and nothing before its beginning."""
        if sign is Sign.START and self.has_anchor:
            raise NoForm
        self.has_end = self.has_end or sign is Sign.END
        self.frames[-1].add(sign, is_atom=False)
        self.atoms += 1


def contexts_of(branches: Pattern) -> Contexts:
    """The contexts of a context rule's branches."""
    anchors = [branch.index(Sign.ANCHOR) for branch in branches]
    return tuple((branch[:at], branch[at + 1:]) for branch, at in zip(branches, anchors, strict=True))
