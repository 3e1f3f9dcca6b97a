"""The lines of a text."""

import re

BLANK_OR_COMMENT = re.compile(rb"[ \t]*(#.*)?", re.DOTALL)


def raw_lines(text: bytes) -> list[bytes]:
    """The bytes before each LF, and a rest that is not empty."""
    lines = text.split(b"\n")
    return lines if lines[-1] else lines[:-1]


def without_return(raw: bytes) -> bytes:
    """The line less one CR at its end."""
    return raw[:-1] if raw.endswith(b"\r") else raw


def says_nothing(line: bytes) -> bool:
    """Whether the line is blank or a comment."""
    return BLANK_OR_COMMENT.fullmatch(line) is not None


def first_line(text: bytes) -> bytes:
    return without_return(text.split(b"\n", 1)[0])
