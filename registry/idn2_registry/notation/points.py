"""Code points and sequences of them."""

import re
from collections.abc import Iterable

Points = tuple[int, ...]
POINT = re.compile(rb"(?:[Uu]\+)?([0-9A-Fa-f]{4,6})")


def point_of(word: bytes) -> int | None:
    """The scalar value that a word names, or None."""
    match = POINT.fullmatch(word)
    point = int(match[1], 16) if match else None
    return point if point is not None and is_scalar_value(point) else None


def is_scalar_value(point: int) -> bool:
    return point <= 0x10FFFF and not 0xD800 <= point <= 0xDFFF


def spelled(sequence: Iterable[int]) -> str:
    return "-".join(f"{point:04X}" for point in sequence)
